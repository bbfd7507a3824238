"""The file in which `relay run` saves what could not be settled."""
import json
import os
import subprocess
import tempfile
import threading
import time

from bulk_server import Server
from program import RELAY, check, unlogged
from run_cases import HINT, operations, relay_run, written
from stub_cases import free_port


def content(path):
    with open(path, "rb") as file:
        return file.read()


def lines_of(path):
    """The lines of a file in byte order: the lines of a report are in the order in which they arose."""
    return sorted(content(path).splitlines(keepends=True))


def what_is_saved():
    """The file has a line for each reported operation, with its keys in byte order."""
    with tempfile.TemporaryDirectory() as folder:
        files = [written(folder, 0, [("a b", "{}"), ("ok", "{}"), ("a\\nb", None)]), written(folder, 1, [("\u00e9", "{}")])]
        report = os.path.join(folder, "report")
        server = Server(refuse=lambda meta: 400 if meta["_id"] != "ok" else None)
        done = relay_run(server.port, files, "--report", report, "--epoch", "2")
        wanted = [
            {"cause": "Refused", "epoch": 2, "id": "a b", "index": "books", "kind": "planned", "number": 1, "producer": 0, "status": 400},
            {"cause": "Refused", "epoch": 2, "id": "a\nb", "index": "books", "kind": "planned", "number": 3, "producer": 0, "status": 400},
            {"cause": "Refused", "epoch": 2, "id": "\u00e9", "index": "books", "kind": "planned", "number": 1, "producer": 1, "status": 400},
        ]
        lines = sorted((json.dumps(it, separators=(",", ":"), sort_keys=True, ensure_ascii=False) + "\n").encode() for it in wanted)
        printed = "report 2.0:1 books/a b Refused 400 planned\nreport 2.0:3 books/a\nb Refused 400 planned\nreport 2.1:1 books/\u00e9 Refused 400 planned\napplied 1 already 0 reported 3\n".encode()
        check("what is saved", lines_of(report) == lines and done == (5, printed, b""), (done, content(report)))
        server.close()
        path = written(folder, 0, [("1", None)])
        os.remove(report)
        done = relay_run(free_port(), [path], "--report", report, "--attempts", "1")
        saved = b'{"cause":"GaveUp","id":"1","index":"books","last":"refused","number":1,"producer":0,"sends":1}\n'
        check("what was given up", content(report) == saved and done[0] == 5, (done, content(report)))
        open(report, "w").close()
        server = Server(lambda number: 418)
        done = relay_run(server.port, [path], "--report", report)
        saved = b'{"cause":"Request","id":"1","index":"books","number":1,"producer":0,"status":418}\n'
        check("a request that was refused", content(report) == saved and done[0] == 5, (done, content(report)))
        server.close()
        open(report, "w").close()
        server = Server()
        done = relay_run(server.port, [path], "--report", report)
        check("nothing to save", content(report) == b"" and done == (0, b"applied 1 already 0 reported 0\n", b""), (done, content(report)))
        done = relay_run(server.port, [path], "--report", report)
        saved = b'{"cause":"Conflict","id":"1","index":"books","number":1,"producer":0}\n'
        check("a conflict", content(report) == saved and done[0] == 5, (done, content(report)))
        server.close()


def files_that_fail():
    """A file that cannot be created ends the run before anything is put; one that cannot be written, after everything was printed."""
    with tempfile.TemporaryDirectory() as folder:
        path, server = written(folder, 0, operations(0, 5, 5)), Server()
        nowhere = os.path.join(folder, "no", "report")
        done = relay_run(server.port, [path], "--report", nowhere)
        check("a file that cannot be made", done == (3, b"", b"%s: create failed\n  entity not found\n" % nowhere.encode()) and server.requests == 0, done)
        done = relay_run(server.port, [path], "--report", "/dev/full")
        check("a full device with nothing to save", done == (0, b"applied 5 already 0 reported 0\n", b""), done)
        done = relay_run(server.port, [path], "--report", "/dev/full")
        check("a file that cannot be written", done[0] == 3 and done[1].endswith(b"applied 0 already 0 reported 5\n") and HINT.fullmatch(done[2].removesuffix(b"/dev/full: write failed\n")), done)
        server.close()
        for report in (path, "-"):
            done = subprocess.run([RELAY, "run", "--to", "x:1", "--report", report, path], stdin=subprocess.DEVNULL, capture_output=True, timeout=60)
            check("usage: --report %s" % report, done.returncode == 1 and done.stdout == b"" and b"--report FILE has to be a file of its own" in done.stderr, done)
        check("the operations are still there", content(path).count(b"\n") == 10, content(path))


def refused(path, report, *more, stdin=subprocess.DEVNULL):
    done = subprocess.run([RELAY, "run", "--to", "127.0.0.1:%d" % free_port(), "--attempts", "1", "--report", report, *more, path], stdin=stdin, capture_output=True, timeout=60)
    return done.stdout, unlogged(done.stderr), done.returncode


NOT_APART = b"error: --report FILE has to be a file of its own: not '-', and none of those that are read\n"
NOT_EMPTY = b"error: --report FILE is not empty: --append adds to it, and otherwise it has to be a new or an empty file\n"


def files_of_another():
    """Whatever name a file of operations has as the file of the reports, it is refused and keeps what it has; and so is a file with a
    content."""
    with tempfile.TemporaryDirectory() as folder:
        path = written(folder, 0, operations(0, 5, 5))
        before = content(path)
        soft, hard = os.path.join(folder, "soft"), os.path.join(folder, "hard")
        os.symlink(path, soft)
        os.link(path, hard)
        dotted = os.path.join(folder, ".", "ops0.ndjson")
        for report in (soft, hard, dotted):
            for more in ((), ("--append",)):
                done = refused(path, report, *more)
                check("the same file as %s %s" % (os.path.basename(report), more), done == (b"", NOT_APART, 1) and content(path) == before, done)
        with open(path, "rb") as stdin:
            done = refused("-", hard, stdin=stdin)
        check("the same file as standard input", done == (b"", NOT_APART, 1) and content(path) == before, done)
        other = written(folder, 1, operations(1, 5, 5))
        done = refused(other, path)
        check("a file with a content, the name of the report forgotten", done == (b"", NOT_EMPTY, 1) and content(path) == before, done)
        done = refused(path, os.path.join(folder, "new"))
        check("a new file", done[2] == 5 and content(os.path.join(folder, "new")).count(b"\n") == 5, done)
        done = subprocess.run([RELAY, "run", "--to", "x:1", "--append", path], stdin=subprocess.DEVNULL, capture_output=True, timeout=60)
        check("usage: --append without --report", done.returncode == 1 and b"--report" in done.stderr, done)


def added():
    """With --append each line of the file is a whole line of a report afterwards: what an earlier run left torn is cut off."""
    with tempfile.TemporaryDirectory() as folder:
        path, report = written(folder, 0, [("1", "{}")]), os.path.join(folder, "report")
        gave_up = b'{"cause":"GaveUp","id":"1","index":"books","last":"refused","number":1,"producer":0,"sends":1}\n'
        other = b'{"cause":"Spent","id":"2","index":"books","number":7,"producer":0}\n'
        long = b"x" * 2_000_000
        for what, before, kept in (
            ("an empty file", b"", b""),
            ("whole lines", other + other, other + other),
            ("a line without its end", other + other[:-1], other + other),
            ("only a line without its end", other[:-1], other),
            ("only a torn line", other[:-2], b""),
            ("a line feed alone", b"\n", b"\n"),
            ("another text", b"x\ny", b"x\n"),
            ("a line that is longer than any of a report", other + long, other + long + b"\n"),
            ("many lines, and a torn one", other * 40_000 + other[:20], other * 40_000),
        ):
            with open(report, "wb") as file:
                file.write(before)
            done = refused(path, report, "--append")
            check("added to %s" % what, done[2] == 5 and content(report) == kept + gave_up, (done, content(report)[-300:]))
        for cut in range(1, len(other)):
            with open(report, "wb") as file:
                file.write(other + other[:cut])
            done = refused(path, report, "--append")
            wanted = other + (other if cut == len(other) - 1 else b"") + gave_up
            check("torn at %d" % cut, done[2] == 5 and content(report) == wanted, (done, content(report)))
        os.remove(report)
        done = refused(path, report, "--append")
        check("added to a file that is not there", done[2] == 5 and content(report) == gave_up, done)
        done = refused(path, "/dev/null", "--append")
        check("a device is opened as it is", done[2] == 5 and done[1] == b"", done)


def count_of(path):
    """How many lines a file has that may not be there yet."""
    return content(path).count(b"\n") if os.path.exists(path) else 0


def until(holds, seconds=60):
    """Waits until this holds, and returns whether it did."""
    end = time.monotonic() + seconds
    while not holds() and time.monotonic() < end:
        time.sleep(0.02)
    return holds()


def started(port, report, *more):
    return subprocess.Popen([RELAY, "run", "--to", "127.0.0.1:%d" % port, "--report", report, *more], stdin=subprocess.PIPE, stdout=subprocess.PIPE, stderr=subprocess.PIPE)


def deletes(numbers):
    return b"".join(b'{"delete":{"_index":"books","_id":"%d"}}\n' % number for number in numbers)


def named(text):
    """The producer and the number in each line of a report; each line has to be whole."""
    assert text.endswith(b"\n") or not text
    found = map(json.loads, text.splitlines())
    return [(it["producer"], it["number"]) for it in found]


def killed():
    """A run that is killed leaves the line of each operation that was reported until then, and each line is whole."""
    with tempfile.TemporaryDirectory() as folder:
        report = os.path.join(folder, "report")
        process = started(free_port(), report, "--attempts", "1", "--linger", "0", "-")
        process.stdin.write(deletes(range(50)))
        process.stdin.flush()
        came = until(lambda: count_of(report) == 50)
        check("reports are saved while the run goes on", came and process.poll() is None, content(report)[-300:])
        process.kill()
        out, _ = process.communicate()
        check("a run that was killed in an outage", named(content(report)) == [(0, number) for number in range(1, 51)] and out == b"", content(report)[-300:])
        server = Server(refuse=lambda meta: 400)
        for round in range(5):
            report = os.path.join(folder, "report%d" % round)
            files = [written(folder, p, operations(p, 20_000, 50)) for p in range(4)]
            process = started(server.port, report, "--lanes", "8", "--count", "10", "--linger", "0", "--epoch", str(round), *files)
            came = until(lambda: count_of(report) > 100 * (round + 1))
            process.kill()
            process.communicate()
            names = named(content(report))
            check("a run of 8 lanes that was killed", came and len(names) == len(set(names)), len(names))
        server.close()


def draining():
    """A lane that has no more to take saves each report as it arises too: before the answer to the next request."""
    with tempfile.TemporaryDirectory() as folder:
        report, calls, released = os.path.join(folder, "report"), [], threading.Event()

        def refuse(meta):
            calls.append(meta)
            if len(calls) == 2:
                released.wait(60)
            return 400

        server = Server(refuse=refuse)
        process = started(server.port, report, written(folder, 0, [("1", "{}")] * 3))
        came = until(lambda: len(calls) == 2 and count_of(report) == 1, 20)
        check("a report is saved while its lane drains", came and process.poll() is None, (calls, count_of(report)))
        released.set()
        out, err = process.communicate()
        check("all reports of a lane that drained", named(content(report)) == [(0, n) for n in (1, 2, 3)] and (process.returncode, unlogged(err)) == (5, b""), (out, err))
        server.close()


def eight_lanes():
    """The lines of several lanes do not mix, each operation has one, and those of a document are in order."""
    with tempfile.TemporaryDirectory() as folder:
        producers = [operations(p, 2_000, 40) for p in range(4)]
        files, report = [written(folder, p, ops) for p, ops in enumerate(producers)], os.path.join(folder, "report")
        server = Server(refuse=lambda meta: 400)
        done = relay_run(server.port, files, "--report", report, "--lanes", "8", "--count", "7", "--linger", "0")
        names = named(content(report))
        check("8 lanes save each report once", done[0] == 5 and sorted(names) == [(p, n) for p in range(4) for n in range(1, 2_001)], (done[0], len(names)))
        by_document = {}
        for line in map(json.loads, content(report).splitlines()):
            by_document.setdefault(line["id"], []).append(line["number"])
        check("8 lanes save the reports of a document in order", all(it == sorted(it) for it in by_document.values()))
        server.close()


def a_pipe():
    """A pipe gets each report as it arises."""
    with tempfile.TemporaryDirectory() as folder:
        report, came = os.path.join(folder, "pipe"), []
        os.mkfifo(report)

        def read():
            with open(report, "rb") as file:
                came.extend(iter(file.readline, b""))

        reader = threading.Thread(target=read)
        reader.start()
        process = started(free_port(), report, "--attempts", "1", "--linger", "0", "-")
        process.stdin.write(deletes([1]))
        process.stdin.flush()
        gave_up = b'{"cause":"GaveUp","id":"%d","index":"books","last":"refused","number":%d,"producer":0,"sends":1}\n'
        check("a pipe gets a report while the run goes on", until(lambda: came == [gave_up % (1, 1)]) and process.poll() is None, came)
        out, err = process.communicate(deletes([2]))
        reader.join()
        check("a pipe gets all reports", came == [gave_up % (n, n) for n in (1, 2)] and process.returncode == 5 and unlogged(err) == b"", (came, out, err))


GROUPS = (what_is_saved, files_that_fail, files_of_another, added, killed, draining, eight_lanes, a_pipe)
