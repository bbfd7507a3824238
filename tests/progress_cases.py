"""What `relay run` writes to standard error while it works."""
import os
import pty
import re
import subprocess
import tempfile
import time

from bulk_server import Server
from program import RELAY, check
from run_cases import operations, written
from stub_cases import free_port

LINE = re.compile(rb"read (\d+)(?: of (\d+))? bytes(?: \((\d+) %\))?, sent (\d+) operations in (\d+) requests, settled (\d+), refused (\d+), repeats (\d+), out (\d+), (?:last answer (\d+) s ago|no answer yet)")


def progress_run(port, files, *more, stdin=subprocess.DEVNULL):
    args = [RELAY, "run", "--to", "127.0.0.1:%d" % port, "--log", "none", *more, *files]
    done = subprocess.run(args, stdin=stdin, capture_output=True, timeout=120)
    return done.returncode, done.stdout, done.stderr


def numbers(line):
    """Returns the numbers of a progress line, or None if it is not one."""
    found = LINE.fullmatch(line)
    return found and [None if it is None else int(it) for it in found.groups()]


def lines():
    """One line per second and one at the end: what was read, with its percentage, and what was sent, settled and repeated."""
    with tempfile.TemporaryDirectory() as folder:
        files = [written(folder, p, operations(p, 14, 14)) for p in range(2)]
        size = sum(os.path.getsize(it) for it in files)
        server = Server(lambda number: 503 if number in (3, 5) else None, delay=lambda: 0.1)
        start = time.monotonic()
        status, out, err = progress_run(server.port, files, "--progress", "--count", "1", "--linger", "0")
        spent = time.monotonic() - start
        server.close()
        found = [numbers(it) for it in err.split(b"\n")[:-1]]
        check("lines", status == 0 and out == b"applied 28 already 0 reported 0\n" and err.endswith(b"\n") and None not in found, (status, out, err))
        check("a line a second", 3 <= len(found) <= spent + 1, (spent, err))
        check("the last line", found[-1][:9] == [size, size, 100, 30, 30, 28, 0, 2, 0], err)
        check("what is counted only grows", all(it <= other for one, two in zip(found, found[1:]) for it, other in zip(one[3:8], two[3:8])), err)
        check("one request of a lane is out at most", all(it[8] <= 1 and it[4] - it[8] <= it[5] + it[6] + it[7] + 1 for it in found), err)
        server = Server()
        with open(files[0]) as file:
            status, out, err = progress_run(server.port, ["-"], "--progress", stdin=file)
        found = numbers(err[:-1])
        check("standard input has no size", status == 0 and found and found[:4] == [os.path.getsize(files[0]), None, None, 14], err)
        server.close()
        server = Server()
        done = progress_run(server.port, files)
        check("nothing is said without the option", done == (0, b"applied 28 already 0 reported 0\n", b""), done)
        server.close()


def silent_index():
    """The line says how long ago the last answer came while the run waits for the next."""
    with tempfile.TemporaryDirectory() as folder:
        path = written(folder, 0, [("%d" % n, None) for n in range(2)])
        server, slow = Server(), iter((0, 5))
        server.delay = lambda: next(slow)
        status, _, err = progress_run(server.port, [path], "--progress", "--count", "1", "--linger", "0")
        found = [numbers(it) for it in err.split(b"\n")[:-1]]
        idle = [it[9] for it in found if it and it[4:6] == [2, 1]]
        check("seconds since the last answer", status == 0 and None not in found and idle == sorted(idle) and 2 <= idle[-1] <= 5, err)
        server.close()


def no_connection():
    """A message says immediately, and once, that no connection can be made, and another when one is made again."""
    with tempfile.TemporaryDirectory() as folder:
        path, port = written(folder, 0, [("1", "{}")]), free_port()
        status, out, err = progress_run(port, [path], "--progress", "--attempts", "4")
        said = b"127.0.0.1:%d: connection refused, trying again\n" % port
        check("no connection", status == 5 and err.startswith(said) and err.count(b"connection refused") == 1 and b", out 0, no answer yet\n" in err, (status, err))
        args = [RELAY, "run", "--to", "127.0.0.1:%d" % port, "--progress", "--log", "none", "--patience", "60", path]
        running = subprocess.Popen(args, stdin=subprocess.DEVNULL, stdout=subprocess.PIPE, stderr=subprocess.PIPE)
        start = time.monotonic()
        first = running.stderr.readline()
        spent = time.monotonic() - start
        server = Server()
        server.move(port)
        out, err = running.communicate(timeout=60)
        check("said at once", first == said and spent < 20, (first, spent))
        check("said when it can again", running.returncode == 0 and err.count(b"127.0.0.1:%d: connected\n" % port) == 1 and b"connection refused" not in err, err)
        server.close()


def on_a_terminal(port, files, *more):
    """Runs with a terminal as standard error, and returns what the terminal received."""
    ours, theirs = pty.openpty()
    running = subprocess.Popen([RELAY, "run", "--to", "127.0.0.1:%d" % port, "--log", "none", *more, *files], stdin=subprocess.DEVNULL, stdout=subprocess.PIPE, stderr=theirs)
    os.close(theirs)
    came = b""
    while True:
        try:
            piece = os.read(ours, 65536)
        except OSError:
            piece = b""
        if not piece:
            break
        came += piece
    os.close(ours)
    out = running.communicate(timeout=60)[0]
    return running.returncode, out, came


def terminals():
    """Each line replaces the previous one and does not wrap, and without --progress there are messages only about connections."""
    with tempfile.TemporaryDirectory() as folder:
        path = written(folder, 0, [("%d" % n, None) for n in range(15)])
        server = Server(delay=lambda: 0.1)
        status, out, came = on_a_terminal(server.port, [path], "--progress", "--count", "1", "--linger", "0")
        parts = came.split(b"\x1b[K\x1b[?7h")
        front = b"\r\x1b[?7l"
        check("one over the other", status == 0 and parts[-1] == b"\r\n" and len(parts) > 2 and all(it.startswith(front) and numbers(it[len(front):]) for it in parts[:-1]), came)
        server.close()
        server = Server()
        check("nothing to say", on_a_terminal(server.port, [path]) == (0, b"applied 15 already 0 reported 0\n", b""))
        server.close()
        port = free_port()
        status, out, came = on_a_terminal(port, [path], "--attempts", "2", "--count", "20")
        check("no connection, on a terminal", status == 5 and came == b"\r\x1b[K127.0.0.1:%d: connection refused, trying again\r\n" % port, came)


GROUPS = (lines, silent_index, no_connection, terminals)
