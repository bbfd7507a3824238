"""What `relay run` writes to standard error about what goes wrong, as it happens: `--log`."""
import calendar
import os
import re
import subprocess
import tempfile
import threading
import time

from bulk_server import Server
from program import RELAY, check
from run_cases import operations, written
from stub_cases import free_port

LINE = re.compile(rb"(\d{4}-\d\d-\d\dT\d\d:\d\d:\d\dZ) (\S+): ([^\n]*)")
UP = re.compile(rb"up again after (\d+)\.(\d) s, sends (\d+)")
REASONS = (b"connection refused", b"no connection", b"timed out", b"connection closed", b"unreadable answer", b"out of memory")


def logged(port, files, *more, stdin=subprocess.DEVNULL):
    """Runs, and returns the status, standard output and standard error."""
    args = [RELAY, "run", "--to", "127.0.0.1:%d" % port, *more, *files]
    done = subprocess.run(args, stdin=stdin, capture_output=True, timeout=300)
    return done.returncode, done.stdout, done.stderr


def said(name, port, err):
    """Returns what each line says, with its time. Each has the time in UTC and the address."""
    began = time.time()
    found = [LINE.fullmatch(it) for it in err.split(b"\n")[:-1]]
    right = err.endswith(b"\n") and None not in found and all(it[2] == b"127.0.0.1:%d" % port for it in found)
    stamps = [calendar.timegm(time.strptime(it[1].decode(), "%Y-%m-%dT%H:%M:%SZ")) for it in found if it]
    check("%s: each line has the time and the address" % name, right and stamps == sorted(stamps) and all(began - 300 < it < began + 2 for it in stamps), err)
    return [(stamp, it[3]) for stamp, it in zip(stamps, found)]


def nothing_goes_wrong():
    """A run in which nothing goes wrong writes nothing, whatever is asked for but the start and the end."""
    with tempfile.TemporaryDirectory() as folder:
        files = [written(folder, p, operations(p, 40, 5)) for p in range(2)]
        for more in ((), ("--log", "errors"), ("--log", "none"), ("--lanes", "3", "--flying", "2", "--count", "3")):
            server = Server()
            done = logged(server.port, files, *more)
            check("nothing goes wrong: %s" % (more,), done == (0, b"applied 80 already 0 reported 0\n", b""), done)
            server.close()
        server = Server()
        status, out, err = logged(server.port, files, "--log", "events", "--lanes", "2", "--epoch", "7", "--count", "10", "--linger", "0")
        server.close()
        texts = [it for _, it in said("start and end", server.port, err)]
        counts = re.fullmatch(rb"end: sent 80 operations in (\d+) requests, settled 80, refused 0, repeats 0", texts[-1])
        check("start and end", status == 0 and texts[:-1] == [b"start: epoch 7, lanes 2"] and counts and 8 <= int(counts[1]) <= 80, err)


def outage():
    """While the index is gone for three seconds: that it is down, why, and that it is up again, after how long and how many sends."""
    with tempfile.TemporaryDirectory() as folder:
        path = written(folder, 0, operations(0, 60, 60))
        server = Server(delay=lambda: 0.05)
        pauses = threading.Timer(1, server.rest, (3,))
        pauses.start()
        status, out, err = logged(server.port, [path], "--count", "1", "--linger", "0", "--attempts", "32")
        pauses.join()
        server.close()
        lines = said("an outage", server.port, err)
        up = lines and UP.fullmatch(lines[-1][1])
        check("an outage: down and up again", status == 0 and len(lines) == 2 and lines[0][1] in [b"down: " + it for it in REASONS[:4]] and up, err)
        check("an outage: after how long", up and 2 <= int(up[1]) <= 20 and 1 <= int(up[3]) <= 60 * 32, err)
        server = Server(delay=lambda: 0.05)
        pauses = threading.Timer(1, server.rest, (3,))
        pauses.start()
        done = logged(server.port, [path], "--count", "1", "--linger", "0", "--attempts", "32", "--log", "none")
        pauses.join()
        server.close()
        check("an outage: nothing with --log none", (done[0], done[2]) == (0, b""), done)


def reasons():
    """Why a request was lost is said: refused, cut, not answered in time, unreadable."""
    with tempfile.TemporaryDirectory() as folder:
        path = written(folder, 0, [("1", None)])
        port = free_port()
        status, out, err = logged(port, [path], "--attempts", "3")
        lines = said("refused", port, err)
        check("refused", status == 5 and [it for _, it in lines] == [b"down: connection refused"], err)
        status, out, err = logged(port, [path], "--attempts", "1", "--patience", "2s")
        lines = said("refused with patience", port, err)
        check("refused with patience", status == 5 and [it for _, it in lines] == [b"down: connection refused"], err)
        for fault, reason in (("drop before", b"connection closed"), ("half", b"connection closed"), ("garbage", b"unreadable answer")):
            server = Server(lambda number: fault if number == 1 else None)
            status, out, err = logged(server.port, [path])
            server.close()
            lines = [it for _, it in said(fault, server.port, err)]
            check("lost: %s" % fault, status == 0 and len(lines) == 2 and lines[0] == b"down: " + reason and UP.fullmatch(lines[1]), err)


def at_most_one():
    """However often it goes down, there is at most one line of a kind in 10 seconds."""
    with tempfile.TemporaryDirectory() as folder:
        path = written(folder, 0, operations(0, 160, 160))
        server = Server(lambda number: "drop before" if number % 3 == 0 else None, delay=lambda: 0.06)
        start = time.monotonic()
        status, out, err = logged(server.port, [path], "--count", "1", "--linger", "0", "--attempts", "32")
        spent = time.monotonic() - start
        server.close()
        lines = said("many outages", server.port, err)
        for kind in (b"down: ", b"up again "):
            stamps = [stamp for stamp, it in lines if it.startswith(kind)]
            check("at most one in 10 s: %s" % kind.decode(), stamps and all(9 <= two - one for one, two in zip(stamps, stamps[1:])) and len(stamps) <= spent / 10 + 1, err)
        check("many outages: all is applied", status == 0 and out.startswith(b"applied "), (status, out))


def refusals():
    """The first refusal of each type, the first status of a whole request, the first 413, and conflicts."""
    with tempfile.TemporaryDirectory() as folder:
        path = written(folder, 0, operations(0, 30, 30))
        server = Server(refuse=lambda meta: 400 if meta["_id"].endswith("3") else 0)
        status, out, err = logged(server.port, [path], "--count", "5")
        server.close()
        lines = [it for _, it in said("a type", server.port, err)]
        check("a type once", status == 5 and lines == [b"refused: 400 planned"], err)
        server = Server(lambda number: {1: 503, 2: 429, 3: 503}.get(number))
        status, out, err = logged(server.port, [path], "--count", "5", "--linger", "0")
        server.close()
        lines = [it for _, it in said("whole requests", server.port, err)]
        check("each status of a whole request once", status == 0 and lines == [b"refused: 503 for a whole request", b"refused: 429 for a whole request"], err)
        server = Server(most=400)
        status, out, err = logged(server.port, [path], "--count", "16")
        server.close()
        lines = [it for _, it in said("too large", server.port, err)]
        check("the first 413", status == 0 and lines == [b"too large: a request got 413, and is sent again in halves"], err)
        server = Server()
        first = logged(server.port, [path], "--epoch", "2")
        status, out, err = logged(server.port, [path], "--epoch", "1")
        server.close()
        found = [it for it in err.split(b"\n")[:-1] if LINE.fullmatch(it)]
        texts = [LINE.fullmatch(it)[3] for it in found]
        check("conflicts", first[0] == 0 and first[2] == b"" and status == 5 and texts and all(re.fullmatch(rb"conflicts: \d+", it) for it in texts) and texts[0] != b"conflicts: 0", err)


def lost_and_applied():
    """A reply that is lost is no conflict, though the index has the version when it is sent again."""
    with tempfile.TemporaryDirectory() as folder:
        path = written(folder, 0, operations(0, 10, 10))
        server = Server(lambda number: "drop after" if number == 1 else None)
        status, out, err = logged(server.port, [path], "--count", "10")
        server.close()
        lines = [it for _, it in said("no conflict", server.port, err)]
        check("no conflict", status == 0 and len(lines) == 2 and lines[0] == b"down: connection closed" and UP.fullmatch(lines[1]), err)


def system_reasons():
    """The system's reason stands beneath the line of a file that cannot be opened or read, which stays as it is."""
    with tempfile.TemporaryDirectory() as folder:
        path = written(folder, 0, [("1", None)])
        gone = os.path.join(folder, "gone")
        server = Server()
        status, out, err = logged(server.port, [gone, path, folder])
        server.close()
        wanted = b"%s: open failed\n  entity not found\n%s: read failed\n  is a directory\n" % (gone.encode(), folder.encode())
        check("the system's reason", (status, out, err) == (3, b"applied 1 already 0 reported 0\n", wanted), (status, out, err))


def usage():
    """The option takes three words."""
    for word in ("all", "", "Errors"):
        done = subprocess.run([RELAY, "run", "--to", "x:1", "--log", word, "file"], stdin=subprocess.DEVNULL, capture_output=True, timeout=60)
        check("--log %s" % word, done.returncode == 1 and b"--log" in done.stderr and done.stdout == b"", done)


GROUPS = (nothing_goes_wrong, outage, reasons, at_most_one, refusals, lost_and_applied, system_reasons, usage)
