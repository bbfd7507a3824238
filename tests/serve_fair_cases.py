"""Many clients of `relay serve` at the same time: idle, slow and unfriendly ones keep nobody waiting, and all get their turn."""
import concurrent.futures
import json
import os
import re
import resource
import socket
import subprocess
import sys
import threading
import time

from bulk_server import Server
from program import FEWER, SECONDS, check, skip
from serve_cases import Serve, received

HEAD = b"PUT /books/_doc/%s HTTP/1.1\r\nHost: a\r\nContent-Length: %d\r\n\r\n"
# A body above the limit.
LONG = HEAD % (b"long", 10**9)
# So many connections may be open at the same time.
CONNECTIONS = 4_096


def connect(serve, seconds=SECONDS):
    stream = socket.create_connection(("127.0.0.1", serve.port), timeout=seconds)
    stream.setsockopt(socket.IPPROTO_TCP, socket.TCP_NODELAY, 1)
    return stream


def answer(stream):
    """The status of the next answer, which is read whole; 0 if there is none."""
    came = b""
    while b"\r\n\r\n" not in came:
        piece = stream.recv(65536)
        if not piece:
            return 0
        came += piece
    head, _, body = came.partition(b"\r\n\r\n")
    missing = int(re.search(rb"content-length: (\d+)", head)[1]) - len(body)
    while missing > 0:
        missing -= len(stream.recv(65536)) or missing
    return int(head[9:12])


def measured(serve, clients, turns, pause=0.0):
    """Has so many clients write so many documents each, one after another. Returns how long each write took, in seconds, the shortest
    first, and the statuses of the answers."""
    spent, statuses, lock = [], set(), threading.Lock()

    def client(number):
        own = []
        with connect(serve) as stream:
            for turn in range(turns):
                began = time.monotonic()
                stream.sendall(HEAD % (b"%d-%d" % (number, turn), 2) + b"{}")
                status = answer(stream)
                own.append(time.monotonic() - began)
                statuses.add(status)
                time.sleep(pause)
        with lock:
            spent.extend(own)

    threads = [threading.Thread(target=client, args=(number,)) for number in range(clients)]
    for thread in threads:
        thread.start()
    for thread in threads:
        thread.join()
    return sorted(spent), statuses


def pair(*options):
    """Two relays, each before an index that takes 10 milliseconds for each request."""
    return [Serve(Server(delay=lambda: 0.01), "--lanes", "2", *options) for _ in range(2)]


def at(spent, share):
    return spent[min(len(spent) - 1, int(len(spent) * share))]


def beside(name, serve, alone, clients=4, turns=250):
    """Clients that write beside others, and as many that write to a relay of their own meanwhile, since a busy machine slows both: in one of
    three rounds the 99th percentile of the times of the former is below 3 times that of the latter. A program with run-time checks takes
    longer, and only has to serve them."""
    found = []
    while len(found) < 3 and (not found or found[-1][0] >= found[-1][1]):
        with concurrent.futures.ThreadPoolExecutor(2) as pool:
            (spent, statuses), (other, _) = pool.map(lambda it: measured(it, clients, turns), (serve, alone))
        check("writes beside %s" % name, len(spent) == clients * turns and statuses <= {200, 201}, (len(spent), statuses))
        found.append((at(spent, 0.99), 10 if FEWER else 3 * at(other, 0.99)))
    check("the time of writes beside %s" % name, found[-1][0] < found[-1][1], found)


def memory(serve):
    """How much memory the relay has, in bytes."""
    with open("/proc/%d/statm" % serve.process.pid) as file:
        return int(file.read().split()[1]) * resource.getpagesize()


def descriptors(least):
    """Returns whether this process and those that it starts may open so many files."""
    soft, hard = resource.getrlimit(resource.RLIMIT_NOFILE)
    if soft < least <= hard or hard == resource.RLIM_INFINITY:
        resource.setrlimit(resource.RLIMIT_NOFILE, (max(soft, least), hard))
    return resource.getrlimit(resource.RLIMIT_NOFILE)[0] >= least


def close_all(streams):
    for stream in streams:
        stream.close()


def idle():
    """A thousand connections on which nothing comes: they cost little, keep nobody waiting, and the stop does not wait for them."""
    if not descriptors(3_000):
        skip("a thousand idle connections", "a limit of 3,000 open files")
        return
    serve, alone = pair("--workers", "8")
    measured(serve, 4, 300)
    before, began = memory(serve), time.monotonic()
    streams = [connect(serve) for _ in range(1_000)]
    opened = time.monotonic() - began
    check("a thousand connections are opened", opened < (60 if FEWER else 10), opened)
    beside("a thousand idle connections", serve, alone)
    grown = memory(serve) - before
    check("the memory of a thousand idle connections", grown < 40_000_000, grown)
    for stream in streams[::100]:
        stream.sendall(HEAD % (b"late", 2) + b"{}")
        check("an idle connection is still served", answer(stream) in (200, 201))
    began = time.monotonic()
    check("the stop with idle connections", serve.stop()[0] == 0)
    check("the stop does not wait for them", time.monotonic() - began < 2, time.monotonic() - began)
    check("they are closed", all(received(stream) == b"" for stream in streams[::50]))
    check("the stop without", alone.stop()[0] == 0)
    close_all(streams)


def idle_end():
    """A connection that is idle for `--idle` is closed, whether a request has begun or not, and after an answer too."""
    serve = Serve(Server(), "--workers", "2", "--lanes", "1", "--idle", "1s")
    began = time.monotonic()
    fresh, begun, used = connect(serve), connect(serve), connect(serve)
    begun.sendall(HEAD % (b"1", 2))
    used.sendall(HEAD % (b"2", 2) + b"{}")
    check("an answer before it is idle", answer(used) == 201)
    for name, stream in (("fresh", fresh), ("begun", begun), ("used", used)):
        check("an idle connection is closed: %s" % name, received(stream) == b"" and 0.8 < time.monotonic() - began < 5, time.monotonic() - began)
    close_all((fresh, begun, used))
    check("the stop after idle connections", serve.stop()[0] == 0)


def crowd():
    """More clients than workers: each gets its turn after each answer of another."""
    serve = Serve(Server(), "--workers", "8", "--lanes", "2")
    measured(serve, 16, 5)
    spent, statuses = measured(serve, 16, 150)
    check("sixteen clients of eight workers", len(spent) == 16 * 150 and statuses <= {200, 201}, (len(spent), statuses))
    # A program with run-time checks, beside other tests, takes longer.
    check("the longest of their writes", at(spent, 0.999) < (2 if FEWER else 0.2), at(spent, 0.999))
    check("the stop after a crowd", serve.stop()[0] == 0)


class Unfriendly:
    """So many clients of one kind of `unfriendly.py`, until the end of the block."""

    def __init__(self, serve, count, kind):
        script = os.path.join(os.path.dirname(os.path.abspath(__file__)), "unfriendly.py")
        self.words = [sys.executable, script, str(serve.port), str(count), kind]

    def __enter__(self):
        self.process = subprocess.Popen(self.words, stdin=subprocess.PIPE, stdout=subprocess.PIPE)
        self.process.stdout.readline()
        time.sleep(5 if FEWER else 1)

    def __exit__(self, *_):
        self.process.communicate(timeout=60)


def unfriendly():
    """Clients that send slowly, that read nothing, or that go on sending after a refusal, more of each than there are workers."""
    serve, alone = pair("--workers", "4")
    for name, count, kind in (
        ("clients that send a byte at a time", 64, "trickles"),
        ("clients that read nothing", 16, "never_reads"),
        ("clients that go on sending after a refusal", 64, "sends_on"),
    ):
        with Unfriendly(serve, count, kind):
            beside(name, serve, alone)
    check("the stop after these", serve.stop()[0] == alone.stop()[0] == 0)


def refused_in_time():
    """A refusal is there at once, also for a client that sends all of its body before it reads."""
    serve = Serve(Server(), "--workers", "2", "--lanes", "1")
    with connect(serve) as stream:
        stream.sendall(LONG)
        began = time.monotonic()
        check("a refusal before the body", answer(stream) == 413 and time.monotonic() - began < 5)
    with connect(serve) as stream:
        stream.sendall(HEAD % (b"long", 150_000_000))
        for _ in range(1_500):
            stream.sendall(b" " * 100_000)
        check("a refusal after the body", answer(stream) == 413 and received(stream) == b"")
    check("the stop after refusals", serve.stop()[0] == 0)


def stopped():
    """The end of standard input while more connections than there are workers have a whole request: each is answered, and a connection
    that is idle is closed at once."""
    serve = Serve(Server(delay=lambda: 0.5), "--workers", "2", "--lanes", "1")
    idle = [connect(serve) for _ in range(100)]
    streams = [connect(serve) for _ in range(12)]
    for number, stream in enumerate(streams):
        stream.sendall(HEAD % (b"%d" % number, 2) + b"{}")
    time.sleep(1 if FEWER else 0.3)
    ended = []
    stopping = threading.Thread(target=lambda: ended.append(serve.stop()))
    stopping.start()
    began = time.monotonic()
    check("idle connections are closed at once", all(received(stream) == b"" for stream in idle) and time.monotonic() - began < 2, time.monotonic() - began)
    found = [answer(stream) for stream in streams]
    check("each whole request is answered at the end", found == [201] * len(streams), found)
    stopping.join()
    check("the stop with requests that wait", ended == [(0, b"applied 12 already 0 reported 0\n", b"")], ended)
    close_all([*idle, *streams])


def many():
    """No more connections than may be open: one more is closed at once, and when others end there is room again."""
    if not descriptors(3 * CONNECTIONS):
        skip("more connections than may be open", "a limit of %d open files" % (3 * CONNECTIONS))
        return
    serve = Serve(Server(), "--workers", "2", "--lanes", "1")
    streams = [connect(serve) for _ in range(CONNECTIONS)]
    for stream in (streams[0], streams[-1]):
        stream.sendall(HEAD % (b"1", 2) + b"{}")
        check("as many connections as may be open", answer(stream) in (200, 201))
    with connect(serve) as stream:
        check("one more is closed", received(stream) == b"")
    close_all(streams[:10])
    time.sleep(1)
    status, value = serve.ask("GET", "/_relay/health")
    check("there is room again", (status, value) == (200, {"status": "up"}), json.dumps(value))
    check("the stop with as many as may be", serve.stop()[0] == 0)
    close_all(streams)


GROUPS = (idle, idle_end, crowd, unfriendly, refused_in_time, stopped, many)
