"""Standard input as a producer of `relay run`: a pipe, a file, among other files, invalid, and given twice."""
import os
import subprocess
import tempfile
import time

from bulk_server import Server
from program import RELAY, check, unlogged
from run_cases import judge, operations, relay_run, written

ONE = b'{"index":{"_index":"b","_id":"%d"}}\n{"n":%d}\n'


def started(server, *args, stdin=subprocess.PIPE):
    """Starts a run whose standard input stays open."""
    args = [RELAY, "run", "--to", "127.0.0.1:%d" % server.port, *args]
    return subprocess.Popen(args, stdin=stdin, stdout=subprocess.PIPE, stderr=subprocess.PIPE, bufsize=0)


def ended(process):
    out, err = process.communicate(timeout=120)
    return process.returncode, out, unlogged(err)


def wait_for_writes(server, count):
    """Waits until `count` documents have been written to, and returns how many seconds that took."""
    start = time.monotonic()
    while len(server.index.applied) < count and time.monotonic() < start + 30:
        time.sleep(0.005)
    return time.monotonic() - start


def slow_producer():
    """If a producer writes an operation now and then, each is sent after --linger ticks while the pipe is still open, even if its
    bytes arrive one by one. A line that has no end yet is not sent."""
    server = Server()
    running = started(server, "--linger", "3", "-")
    spent = []
    for number in range(3):
        running.stdin.write(ONE % (number, number))
        spent.append(wait_for_writes(server, number + 1))
    for byte in ONE % (3, 3):
        running.stdin.write(bytes([byte]))
    spent.append(wait_for_writes(server, 4))
    check("a slow producer's operations go out with the pipe open", len(server.index.applied) == 4 and max(spent) < 25, spent)
    check("each of them in a request of its own", server.requests == 4, server.requests)
    running.stdin.write((ONE % (4, 4))[:-3])
    time.sleep(0.7)
    check("half an operation is waited for", len(server.index.applied) == 4, server.index.applied)
    running.stdin.write((ONE % (4, 4))[-3:])
    running.stdin.close()
    running.stdin = None
    done = ended(running)
    check("a slow producer", done == (0, b"applied 5 already 0 reported 0\n", b""), done)
    server.close()


def named_pipe():
    """The same with a named pipe as standard input."""
    with tempfile.TemporaryDirectory() as folder:
        path = os.path.join(folder, "pipe")
        os.mkfifo(path)
        server = Server()
        reading = os.open(path, os.O_RDONLY | os.O_NONBLOCK)
        os.set_blocking(reading, True)
        with open(path, "wb", buffering=0) as pipe:
            running = started(server, "-", stdin=reading)
            os.close(reading)
            pipe.write(ONE % (1, 1))
            spent = wait_for_writes(server, 1)
            check("through a pipe with a name, still open", len(server.index.applied) == 1 and spent < 25, spent)
        done = ended(running)
        check("through a pipe with a name", done == (0, b"applied 1 already 0 reported 0\n", b""), done)
        server.close()


def pipes_without_writers():
    """A named pipe is opened by its own producer: as long as nobody writes to it, what the others have is read and sent."""
    with tempfile.TemporaryDirectory() as folder:
        first, second, third = (os.path.join(folder, it) for it in ("first", "second", "third"))
        for path in (first, second):
            os.mkfifo(path)
        with open(third, "wb") as file:
            file.write(ONE % (3, 3))
        server = Server()
        running = started(server, first, second, third)
        wait_for_writes(server, 1)
        check("a file behind two pipes without writers", len(server.index.applied) == 1, server.index.applied)
        with open(second, "wb", buffering=0) as pipe:
            pipe.write(ONE % (2, 2))
            wait_for_writes(server, 2)
            check("the second pipe while the first has no writer", len(server.index.applied) == 2, server.index.applied)
        with open(first, "wb", buffering=0) as pipe:
            pipe.write(ONE % (1, 1))
        done = ended(running)
        check("two pipes, the second first", done == (0, b"applied 3 already 0 reported 0\n", b""), done)
        gone = os.path.join(folder, "gone")
        done = ended(started(server, "--epoch", "1", gone, third))
        check("a file that is not there", done == (3, b"applied 1 already 0 reported 0\n", b"%s: open failed\n  entity not found\n" % gone.encode()), done)
        server.close()


def beside_files():
    """Standard input is the producer at its position among the files, whether it is a file or the output of another program."""
    with tempfile.TemporaryDirectory() as folder:
        producers = [operations(p, 60, 6) for p in range(3)]
        files = [written(folder, p, ops) for p, ops in enumerate(producers)]
        server = Server(refuse=lambda meta: 400 if meta["_id"].startswith("1-") else None)
        with open(files[1]) as file:
            running = started(server, "--count", "7", files[0], "-", files[2], stdin=file)
            judge("standard input beside files", server, producers, ended(running))
        server.close()
        server = Server()
        source = subprocess.Popen(["cat", files[0]], stdout=subprocess.PIPE)
        running = started(server, "-", stdin=source.stdout)
        source.stdout.close()
        judge("what another program writes", server, producers[:1], ended(running))
        source.wait()
        server.close()


def at_fault():
    """Messages call it `-`. A file with this name is read as `./-`."""
    with tempfile.TemporaryDirectory() as folder:
        server = Server()
        running = started(server, "-")
        running.stdin.write(ONE % (1, 1) + b"no operation\n")
        running.stdin.close()
        running.stdin = None
        done = ended(running)
        check("a line at fault", done == (2, b"applied 1 already 0 reported 0\n", b"-: line 3: NotJson\n"), done)
        root = os.open("/", os.O_RDONLY)
        done = ended(started(server, "--epoch", "1", "-", stdin=root))
        os.close(root)
        check("a directory", done == (3, b"applied 0 already 0 reported 0\n", b"-: read failed\n  is a directory\n"), done)
        done = ended(started(server, "--epoch", "1", "-", stdin=subprocess.DEVNULL))
        check("nothing", done == (0, b"applied 0 already 0 reported 0\n", b""), done)
        path = os.path.join(folder, "-")
        with open(path, "wb") as file:
            file.write(ONE % (2, 2))
        done = ended(subprocess.Popen([RELAY, "run", "--to", "127.0.0.1:%d" % server.port, "--epoch", "1", "./-"], cwd=folder, stdin=subprocess.DEVNULL, stdout=subprocess.PIPE, stderr=subprocess.PIPE))
        check("a file of this name", done == (0, b"applied 1 already 0 reported 0\n", b""), done)
        server.close()
        file = written(folder, 0, [("1", None)])
        for args in (["-", "-"], ["-", file, "-"]):
            done = subprocess.run([RELAY, "run", "--to", "x:1", *args], stdin=subprocess.DEVNULL, capture_output=True, timeout=60)
            check("usage: run %s" % args, done.returncode == 1 and done.stdout == b"" and b"'-' is standard input, and can be the FILE of one producer only" in done.stderr, done)


GROUPS = (slow_producer, named_pipe, pipes_without_writers, beside_files, at_fault)
