"""What `relay run` does while the index is down: it refuses connections, stays silent, reads nothing, or comes back."""
import signal
import socket
import subprocess
import tempfile
import threading
import time

from bulk_server import Server
from program import RELAY, check, unlogged
from run_cases import judge, operations, relay_run, written
from stub_cases import free_port

GAVE_UP = b"report 0:1 books/1 GaveUp 1\napplied 0 already 0 reported 1\n"


class Silent(Server):
    """A server that accepts the first connections and never answers on them, whether or not it reads what arrives."""

    sees_all = False

    def __init__(self, silent, reads=True):
        self.silent, self.reads, self.taken = silent, reads, 0
        super().__init__()

    def serve(self, stream):
        with self.lock:
            self.taken += 1
            is_silent = self.taken <= self.silent
        if not is_silent:
            return super().serve(stream)
        with stream:
            while self.reads and self.receive(stream):
                pass
            while not self.reads and self.listener.fileno() != -1:
                time.sleep(0.1)


def timed(*args):
    start = time.monotonic()
    done = relay_run(*args)
    return done, time.monotonic() - start


def silent_servers():
    """A server that accepts connections and never answers costs each request --timeout seconds, and no more."""
    with tempfile.TemporaryDirectory() as folder:
        path = written(folder, 0, [("1", None)])
        server = Silent(2**64)
        done, spent = timed(server.port, [path], "--timeout", "1", "--attempts", "1")
        check("nothing is answered", done == (5, GAVE_UP, b"") and 0.9 < spent < 60, (done, spent))
        server.close()
        ops = operations(0, 60, 6)
        server = Silent(2)
        done, spent = timed(server.port, [written(folder, 0, ops)], "--timeout", "1", "--count", "10", "--linger", "0")
        judge("the first two connections are silent", server, [ops], done)
        check("the first two connections are silent: all is applied", done[1].endswith(b" reported 0\n") and 1.9 < spent < 60, (done, spent))
        server.close()
        large = [("%d" % n, '{"n":"%s"}' % ("x" * 1_000_000)) for n in range(12)]
        server = Silent(2**64, reads=False)
        done, spent = timed(server.port, [written(folder, 0, large)], "--timeout", "1", "--attempts", "1", "--bytes", "16777216")
        check("nothing is taken", done[0] == 5 and done[1].endswith(b"applied 0 already 0 reported 12\n") and 0.9 < spent < 60, (done[1][-100:], spent))
        server.close()


class Dripping(Server):
    """A server whose first answers come a few bytes at a time, each piece after a pause: the head as a whole or also in pieces."""

    sees_all = False

    def __init__(self, dripping, piece, pause, whole_head=False):
        self.dripping, self.piece, self.pause, self.whole_head = dripping, piece, pause, whole_head
        super().__init__()

    def send(self, stream, status, body, more=b"", cut=0):
        with self.lock:
            self.dripping -= 1
            drips = self.dripping >= 0
        if not drips:
            return super().send(stream, status, body, more=more, cut=cut)
        head = b"HTTP/1.1 %d Said\r\n%sContent-Length: %d\r\n\r\n" % (status, more, len(body))
        text = head + body
        sent = len(head) if self.whole_head else 0
        try:
            stream.sendall(text[:sent])
            while sent < len(text):
                time.sleep(self.pause)
                stream.sendall(text[sent : sent + self.piece])
                sent += self.piece
        except OSError:
            return False
        return True


def dripping_servers():
    """An answer has to come whole within --timeout, its head and its body together, however often a piece of it comes."""
    with tempfile.TemporaryDirectory() as folder:
        path = written(folder, 0, [("1", None)])
        for whole_head in (False, True):
            server = Dripping(2**64, 1, 0.4, whole_head)
            done, spent = timed(server.port, [path], "--timeout", "2", "--attempts", "1")
            check("an answer that drips, %s" % whole_head, done == (5, GAVE_UP, b"") and 1.9 < spent < 10, (done, spent))
            server.close()
        server = Dripping(2**64, 40, 0.1)
        done, spent = timed(server.port, [path], "--timeout", "20", "--attempts", "1", "--epoch", "1")
        check("an answer that comes in time, in pieces", done == (0, b"applied 1 already 0 reported 0\n", b"") and spent < 20, (done, spent))
        server.close()
        ops = operations(0, 60, 6)
        server = Dripping(1, 1, 0.4)
        done, spent = timed(server.port, [written(folder, 0, ops)], "--timeout", "1", "--count", "10", "--linger", "0", "--flying", "3")
        judge("the first answer drips", server, [ops], done)
        check("the first answer drips: all is applied", done[1].endswith(b" reported 0\n"), done)
        server.close()


def connections_that_are_not_made():
    """A connection that is neither accepted nor refused, since the queue of the listener is full, fails after --timeout seconds."""
    with tempfile.TemporaryDirectory() as folder, socket.socket() as listener:
        path = written(folder, 0, [("1", None)])
        listener.bind(("127.0.0.1", 0))
        listener.listen(0)
        port, waiting = listener.getsockname()[1], []
        for _ in range(4):
            stream = socket.socket()
            stream.setblocking(False)
            stream.connect_ex(("127.0.0.1", port))
            waiting.append(stream)
        time.sleep(0.2)
        done, spent = timed(port, [path], "--timeout", "1s", "--attempts", "1")
        check("a connection that is not made", done == (5, GAVE_UP, b"") and 0.9 < spent < 60, (done, spent))
        for stream in waiting:
            stream.close()


def patience_that_ends():
    """Without patience, a refused connection is an attempt immediately; with it, only after that many seconds."""
    with tempfile.TemporaryDirectory() as folder:
        path = written(folder, 0, [("1", None)])
        for patience, least, most in (("0", 0, 20), ("2", 1.9, 60), ("2s", 1.9, 60), ("1001ms", 1.9, 60)):
            done, spent = timed(free_port(), [path], "--patience", patience, "--attempts", "1")
            check("--patience %s" % patience, done == (5, GAVE_UP, b"") and least <= spent < most, (done, spent))


def away(seconds, *more):
    """A run of 400 operations; in the middle of it the server is down for `seconds`."""
    with tempfile.TemporaryDirectory() as folder:
        producers = [operations(p, 200, 20) for p in range(2)]
        files = [written(folder, p, ops) for p, ops in enumerate(producers)]
        server, done = Server(delay=lambda: 0.01), []
        running = threading.Thread(target=lambda: done.append(relay_run(server.port, files, "--count", "10", "--linger", "0", "--lanes", "2", *more)))
        running.start()
        while server.requests < 5 and running.is_alive():
            time.sleep(0.01)
        server.rest(seconds)
        running.join()
        judge("away for %d s" % seconds, server, producers, done[0], 2)
        check("away for %d s: all is applied" % seconds, done[0][1].endswith(b" reported 0\n"), done[0][1][-200:])
        server.close()


def outages():
    """An index that restarts costs attempts only for what was in flight, if the patience is longer than the restart."""
    long = threading.Thread(target=away, args=(20, "--patience", "60", "--attempts", "2"))
    long.start()
    away(4, "--patience", "30", "--attempts", "2")
    long.join()


def refused_until(start, seconds):
    """A fault of each item: 429 until so many seconds have passed."""
    return lambda meta: 429 if time.monotonic() - start < seconds else None


def given_up_by_age():
    """With --give-up-after an operation is sent again, whatever failed, until it fails when so long has passed since its first send."""
    with tempfile.TemporaryDirectory() as folder:
        path = written(folder, 0, [("1", None)])
        for plan, refuse, fault in ((lambda number: 503, lambda meta: None, "a whole 503"), (lambda number: None, lambda meta: 429, "an item's 429")):
            server = Server(plan, refuse)
            done, spent = timed(server.port, [path], "--give-up-after", "2s", "--linger", "0")
            told = b"report 0:1 books/1 GaveUp 6\napplied 0 already 0 reported 1\n"
            check("given up after 2 s: %s" % fault, done[:2] == (5, told) and 3 < spent < 8, (done, spent))
            server.close()
        done, spent = timed(free_port(), [path], "--give-up-after", "1", "--linger", "0")
        check("given up after 1 s: refused connections", done[:2] == (5, GAVE_UP.replace(b"GaveUp 1", b"GaveUp 5")) and 1.4 < spent < 8, (done, spent))
        server = Silent(2**64)
        done, spent = timed(server.port, [path], "--give-up-after", "1s", "--timeout", "2", "--linger", "0")
        check("given up after 1 s: a silent server", done[:2] == (5, GAVE_UP) and 1.9 < spent < 8, (done, spent))
        server.close()
        ops = operations(0, 300, 30)
        server = Server(refuse=refused_until(time.monotonic(), 15))
        done, spent = timed(server.port, [written(folder, 0, ops)], "--give-up-after", "never", "--count", "20", "--linger", "0")
        judge("never given up", server, [ops], done)
        check("never given up: all is applied", done[0] == 0 and done[1].endswith(b" reported 0\n") and spent > 14, (done[1][-200:], spent))
        server.close()


def server_that_is_not_there_yet():
    """A run that is started before its index waits for the index."""
    with tempfile.TemporaryDirectory() as folder:
        path, port = written(folder, 0, [("1", "{}")]), free_port()
        args = [RELAY, "run", "--to", "127.0.0.1:%d" % port, "--patience", "60", "--attempts", "1", path]
        running = subprocess.Popen(args, stdin=subprocess.DEVNULL, stdout=subprocess.PIPE, stderr=subprocess.PIPE)
        time.sleep(1.5)
        server = Server()
        server.move(port)
        out, err = running.communicate(timeout=60)
        check("a server that is not there yet", (running.returncode, out, unlogged(err)) == (0, b"applied 1 already 0 reported 0\n", b""), (running.returncode, out, err))
        server.close()


def killed_while_it_waits():
    """A run that is killed while it waits for the index reports nothing, and can be repeated in the next epoch."""
    with tempfile.TemporaryDirectory() as folder:
        ops = operations(0, 30, 3)
        path, server = written(folder, 0, ops), Silent(2**64)
        for more in (["--to", "127.0.0.1:%d" % free_port(), "--patience", "60"], ["--to", "127.0.0.1:%d" % server.port, "--timeout", "60"]):
            running = subprocess.Popen([RELAY, "run", *more, path], stdin=subprocess.DEVNULL, stdout=subprocess.PIPE, stderr=subprocess.PIPE)
            time.sleep(1)
            running.send_signal(signal.SIGKILL)
            out, err = running.communicate(timeout=60)
            check("killed while it waits", (running.returncode, out, unlogged(err)) == (-9, b"", b""), (running.returncode, out, err))
        server.close()
        server = Server()
        judge("the run after it", server, [ops], relay_run(server.port, [path], "--epoch", "1"))
        server.close()


def usage():
    for args, said in (
        (["--timeout", "604801"], b"604801"),
        (["--timeout", "-1"], b"-1"),
        (["--timeout", "x"], b"'x'"),
        (["--timeout"], b"--timeout"),
        (["--patience", "604801"], b"604801"),
        (["--patience", "1.5"], b"1.5"),
        (["--patience", "1", "--patience", "2"], b"--patience"),
        (["--timeout", "604800001ms"], b"604800001ms"),
        (["--timeout", "169h"], b"'--timeout <DURATION>'"),
        (["--timeout", "1d"], b"'1d'"),
        (["--timeout", "s"], b"'s'"),
        (["--timeout", ""], b"''"),
        (["--timeout", "+1s"], b"'+1s'"),
        (["--timeout", "1 s"], b"'1 s'"),
        (["--timeout", "1S"], b"'1S'"),
        (["--patience", "1ss"], b"'1ss'"),
        (["--patience", "99999999999999999999s"], b"'99999999999999999999s'"),
        (["--patience", "18446744073709551615h"], b"'18446744073709551615h'"),
        (["--linger", "65536"], b"'65536' for '--linger <DURATION>': not a number of ms, s, m or h from 0 to 6553500ms, or 0 to 65535 ticks"),
        (["--linger", "6553501ms"], b"6553501ms"),
        (["--linger", "110m"], b"110m"),
        (["--give-up-after", "0"], b"'0' for '--give-up-after <DURATION>': neither `never` nor a number of ms, s, m or h from 1s to 168h, or of seconds"),
        (["--give-up-after", "169h"], b"'169h'"),
        (["--give-up-after", "Never"], b"'Never'"),
        (["--give-up-after", "1s", "--attempts", "3"], b"cannot be used with"),
    ):
        done = subprocess.run([RELAY, "run", "--to", "x:1", *args, "file"], stdin=subprocess.DEVNULL, capture_output=True, timeout=60)
        check("usage: run %s" % args, done.returncode == 1 and said in done.stderr and done.stdout == b"", (done.returncode, done.stderr))


GROUPS = (silent_servers, dripping_servers, connections_that_are_not_made, patience_that_ends, given_up_by_age, outages, server_that_is_not_there_yet, killed_while_it_waits, usage)
