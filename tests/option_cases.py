"""Each option of `relay run` reaches the lane, and as that option; and a tick is 100 ms."""
import os
import subprocess
import tempfile
import threading
import time

from bulk_server import Server, writes_of
from program import RELAY, check, unlogged
from run_cases import operations, relay_run, written


class Sizes(Server):
    """A server that records, for each request, how many operations and bytes it had, and when it arrived."""

    def __init__(self, *args, **more):
        self.sizes = []
        super().__init__(*args, **more)

    def answer(self, stream, head, body):
        self.sizes.append((sum(1 for _ in writes_of(body)), len(body), time.monotonic()))
        return super().answer(stream, head, body)


class Pipe:
    """A run whose files are named pipes, one for each producer, which the test writes to."""

    def __init__(self, folder, server, *options, producers=1):
        self.paths = [os.path.join(folder, "pipe%d" % it) for it in range(producers)]
        for path in self.paths:
            os.mkfifo(path)
        args = [RELAY, "run", "--to", "127.0.0.1:%d" % server.port, *options, *self.paths]
        self.process = subprocess.Popen(args, stdin=subprocess.DEVNULL, stdout=subprocess.PIPE, stderr=subprocess.PIPE)
        self.files = [open(path, "wb", buffering=0) for path in self.paths]

    def put(self, number, size=2):
        self.write("%d" % number, b'{"n":"%s"}' % (b"x" * (size - 8)) if size > 8 else b"{}")

    def write(self, identity, source=b"{}", producer=0):
        self.files[producer].write(b'{"index":{"_index":"b","_id":"%s"}}\n%s\n' % (identity.encode(), source))

    def closes(self):
        for file in self.files:
            file.close()
        for path in self.paths:
            os.unlink(path)

    def ends(self):
        for file in self.files:
            file.close()
        out, err = self.process.communicate(timeout=120)
        self.closes()
        return self.process.returncode, out, unlogged(err)


def batches():
    """--count, --bytes and --lanes, as the requests show them."""
    with tempfile.TemporaryDirectory() as folder:
        path = written(folder, 0, [("%02d" % n, None) for n in range(50)])
        for count in (7, 20):
            server = Sizes()
            done = relay_run(server.port, [path], "--count", "%d" % count, "--linger", "65535", "--held", "9", "--capacity", "50")
            most = max(size for size, _, _ in server.sizes)
            check("--count %d" % count, done[0] == 0 and most == min(count, 9), (done, server.sizes))
            server.close()
        for most in (1024, 2000):
            server = Sizes()
            done = relay_run(server.port, [path], "--bytes", "%d" % most, "--linger", "65535")
            lengths = [length for _, length, _ in server.sizes]
            one = lengths[0] // server.sizes[0][0]
            check("--bytes %d" % most, done[0] == 0 and most - one < max(lengths) <= most, (done, lengths))
            server.close()
        for lanes in (1, 3, 8):
            server = Sizes()
            done = relay_run(server.port, [path], "--lanes", "%d" % lanes, "--linger", "65535")
            check("--lanes %d" % lanes, done[0] == 0 and len(server.streams) == lanes, (done, len(server.streams)))
            server.close()


def attempts():
    with tempfile.TemporaryDirectory() as folder:
        path = written(folder, 0, [("1", None)])
        for most in (1, 3):
            server = Sizes(lambda number: 503)
            done = relay_run(server.port, [path], "--attempts", "%d" % most)
            check("--attempts %d" % most, done == (5, b"report 0:1 books/1 GaveUp %d\napplied 0 already 0 reported 1\n" % most, b"") and server.requests == most, done)
            server.close()


def put_until_full(folder, server, *options):
    """Returns how many operations of 60 KB can be written before the run takes no more of them for two seconds."""
    pipe, put = Pipe(folder, server, *options), []

    def fill():
        try:
            for number in range(200):
                pipe.put(number, 60_000)
                put.append(number)
        except OSError:
            pass

    writer = threading.Thread(target=fill, daemon=True)
    writer.start()
    last = -1
    while writer.is_alive() and last != len(put):
        last = len(put)
        time.sleep(2)
    pipe.process.kill()
    pipe.process.communicate()
    writer.join(10)
    pipe.closes()
    return last


def queues():
    """--capacity and --held, shown by how much of a file is read while the server does not answer, or answers 503."""
    with tempfile.TemporaryDirectory() as folder:
        gate, found = threading.Event(), []
        for capacity in (4, 24):
            server = Server(delay=lambda: gate.wait(60) and 0)
            found.append(put_until_full(folder, server, "--count", "1", "--linger", "0", "--capacity", "%d" % capacity))
            server.close()
        gate.set()
        check("--capacity", 18 <= found[1] - found[0] <= 22, found)
        found = []
        for held in (5, 35):
            server = Server(lambda number: 503)
            found.append(put_until_full(folder, server, "--count", "1", "--linger", "0", "--capacity", "1", "--attempts", "32", "--held", "%d" % held))
            server.close()
        check("--held", 28 <= found[1] - found[0] <= 32, found)


def ticks():
    """--linger, and the length of a tick: a single operation is sent after that many ticks while the pipe is still open."""
    with tempfile.TemporaryDirectory() as folder:
        spent = {}
        for linger in ("0", "10", "1s", "901ms", "0m"):
            server = Sizes()
            pipe = Pipe(folder, server, "--linger", linger)
            time.sleep(0.5)
            start = time.monotonic()
            pipe.put(1)
            while not server.sizes and time.monotonic() < start + 60:
                time.sleep(0.005)
            spent[linger] = time.monotonic() - start
            done = pipe.ends()
            check("--linger %s" % linger, done == (0, b"applied 1 already 0 reported 0\n", b""), done)
            server.close()
        right = all(spent[it] < 0.4 for it in ("0", "0m")) and all(0.8 < spent[it] < 1.5 for it in ("10", "1s", "901ms"))
        check("ten ticks are a second", right, spent)


GROUPS = (batches, attempts, queues, ticks)
