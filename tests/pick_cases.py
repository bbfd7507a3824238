"""What `relay pick` does: it extracts the lines of the operations that a report names, which can then be put again."""
import json
import os
import random
import subprocess
import tempfile

from bulk_server import Server
from program import RELAY, check
from run_cases import judge, operations, relay_run, written


def picked(report, *files, index=None, all=False):
    more = (["--index", index] if index else []) + (["--all"] if all else [])
    done = subprocess.run([RELAY, "pick", "--report", report, *more, *files], stdin=subprocess.DEVNULL, capture_output=True, timeout=120)
    return done.stdout, done.stderr, done.returncode


def saved(folder, name, content):
    path = os.path.join(folder, name)
    with open(path, "wb") as file:
        file.write(content)
    return path


def line(number, producer=0, more=b""):
    return b'{"cause":"Spent"%s,"id":"1","index":"b","number":%d,"producer":%d}\n' % (more, number, producer)


FIRST = b'\n\r\n{"index":{"_index":"b","_id":"1"}}\r\n{"n":1}\n\n{"delete":{"_id":"2","_index":"b"}}\r\n \t{"index": {"_id": 3, "_index": "b"}}\n{"n": "\xc3\xa9"}\r\n'
SECOND = b'{"delete":{"_id":"1","_index":"b"}}\n\n\n{"index":{"_index":"b","_id":"1"}}\n{"n":2}'

ONE = b'{"index":{"_index":"b","_id":"1"}}\r\n{"n":1}\n'
TWO = b'{"delete":{"_id":"2","_index":"b"}}\r\n'
THREE = b' \t{"index": {"_id": 3, "_index": "b"}}\n{"n": "\xc3\xa9"}\r\n'
FOUR = b'{"delete":{"_id":"1","_index":"b"}}\n'
FIVE = b'{"index":{"_index":"b","_id":"1"}}\n{"n":2}\n'


def lines_as_they_were():
    """Each operation is picked once, byte for byte, in the order of the files, without blank lines."""
    with tempfile.TemporaryDirectory() as folder:
        files = [saved(folder, "a", FIRST), saved(folder, "b", SECOND)]
        for names, wanted in (
            ([], b""),
            ([(1, 0)], ONE),
            ([(2, 0)], TWO),
            ([(3, 0)], THREE),
            ([(1, 1)], FOUR),
            ([(2, 1)], FIVE),
            ([(2, 1), (3, 0), (1, 0), (3, 0)], ONE + THREE + FIVE),
            ([(3, 0), (2, 0), (1, 0), (1, 1), (2, 1)], ONE + TWO + THREE + FOUR + FIVE),
        ):
            report = saved(folder, "report", b"".join(line(*it) for it in names))
            done = picked(report, *files, all=True)
            check("picked: %s" % names, done == (wanted, b"", 0), done)


def left_out(count, found):
    return b"%d of %d operations left out: superseded by later ones of their documents\n" % (count, found)


def superseded():
    """An operation is left out if a later one of its document, in its file or in a later one, is not named."""
    with tempfile.TemporaryDirectory() as folder:
        files = [saved(folder, "a", FIRST), saved(folder, "b", SECOND)]
        for names, wanted, count in (
            ([], b"", 0),
            ([(1, 0)], b"", 1),
            ([(2, 0)], TWO, 0),
            ([(3, 0), (2, 0)], TWO + THREE, 0),
            ([(1, 1)], b"", 1),
            ([(2, 1)], FIVE, 0),
            ([(2, 1), (1, 1)], FOUR + FIVE, 0),
            ([(2, 1), (1, 0)], FIVE, 1),
            ([(1, 1), (1, 0), (3, 0)], THREE, 2),
            ([(2, 1), (3, 0), (1, 0), (1, 1), (3, 0)], ONE + THREE + FOUR + FIVE, 0),
        ):
            report = saved(folder, "report", b"".join(line(*it) for it in names))
            said = left_out(count, len(set(names))) if count else b""
            done = picked(report, *files)
            check("picked, current: %s" % names, done == (wanted, said, 0), done)
        report = saved(folder, "report", line(1, 0) + line(2, 0) + line(1, 1))
        done = picked(report, *reversed(files))
        check("a later file comes later", done == (FOUR + FIVE + ONE, b"", 0), done)


def at_random():
    """Whatever the operations and the names: what is picked are the named operations that no later one supersedes, in order."""
    chance = random.Random(52)
    with tempfile.TemporaryDirectory() as folder:
        for trial in range(60):
            producers = [[(chance.choice("abcde"), chance.random() < 0.3) for _ in range(chance.randrange(30))] for _ in range(chance.randrange(1, 4))]
            files, all_lines = [], {}
            for p, ops in enumerate(producers):
                for n, (identity, deletes) in enumerate(ops, 1):
                    all_lines[p, n] = b'{"delete":{"_index":"b","_id":"%s"}}\n' % identity.encode() if deletes else b'{"index":{"_index":"b","_id":"%s"}}\n{"n":%d}\n' % (identity.encode(), n)
                files.append(saved(folder, "f%d" % p, b"".join(all_lines[p, n] for n in range(1, len(ops) + 1))))
            share = chance.choice((0.1, 0.5, 0.9))
            names = [it for it in all_lines if chance.random() < share]
            order = sorted(all_lines)
            identity = lambda it: producers[it[0]][it[1] - 1][0]
            kept = [it for it in order if it in names and all(other in names for other in order if other > it and identity(other) == identity(it))]
            chance.shuffle(names)
            report = saved(folder, "report", b"".join(line(n, p) for p, n in names))
            said = left_out(len(names) - len(kept), len(names)) if len(kept) < len(names) else b""
            done = picked(report, *files)
            check("picked at random, %d" % trial, done == (b"".join(all_lines[it] for it in kept), said, 0), (names, done))
            done = picked(report, *files, all=True)
            check("all picked at random, %d" % trial, done == (b"".join(all_lines[it] for it in order if it in names), b"", 0), (names, done))


FORMS = (
    b'{"cause":"Refused","id":"1","index":"b","kind":"k","number":2,"producer":0,"status":400}',
    b'{"status":400,"producer":0,"number":2,"kind":"","index":"b","id":"1","cause":"Refused"}\r',
    b' { "cause" : "Request", "epoch" : 4194303, "id" : "1", "index" : "b", "number" : 2, "producer" : 0, "status" : 413 } ',
    b'{"cause":"GaveUp","id":"1","index":"b","number":2,"producer":0,"sends":8}',
    b'{"cause":"Conflict","id":"a\\u0062","index":"b","number":2,"number":2,"producer":0}',
    b'{"cause":"Conflict","id":"1","index":"b","number":2,"producer":0,"reason":"[1]: version conflict","stored":7}',
    b'{"cause":"Conflict","id":"1","index":"b","number":2,"producer":0,"stored":18446744073709551615}',
    b'{"cause":"Refused","id":"1","index":"b","kind":"k","number":2,"producer":0,"reason":"no","status":400}',
)

OTHER_FORMS = (
    b"",
    b"x",
    b"[]",
    b"{}",
    b"\xff",
    b'{"cause":"Spent","id":"1","index":"b","number":2}',
    b'{"cause":"Spent","id":"1","index":"b","number":2,"producer":0,"more":1}',
    b'{"cause":"Spent","id":"1","index":"b","number":2,"producer":0,"reason":"no"}',
    b'{"cause":"Refused","id":"1","index":"b","kind":"k","number":2,"producer":0,"reason":7,"status":400}',
    b'{"cause":"Refused","id":"1","index":"b","kind":"k","number":2,"producer":0,"stored":7,"status":400}',
    b'{"cause":"Conflict","id":"1","index":"b","number":2,"producer":0,"stored":"7"}',
    b'{"cause":"Conflict","id":"1","index":"b","number":2,"producer":0,"stored":7,"more":1}',
    b'{"cause":"Spent","id":"1","index":"b","number":2,"producer":0,"status":400}',
    b'{"cause":"Refused","id":"1","index":"b","number":2,"producer":0,"status":400}',
    b'{"cause":"Refused","id":"1","index":"b","kind":"k","number":2,"producer":0,"status":65536}',
    b'{"cause":"Lost","id":"1","index":"b","number":2,"producer":0}',
    b'{"cause":"Spent","id":1,"index":"b","number":2,"producer":0}',
    b'{"cause":"Spent","id":"1","index":"b","number":"2","producer":0}',
    b'{"cause":"Spent","id":"1","index":"b","number":-2,"producer":0}',
    b'{"cause":"Spent","id":"1","index":"b","number":2.0,"producer":0}',
    b'{"cause":"Spent","id":"1","index":"b","number":2,"producer":4294967296}',
    b'{"cause":"Spent","epoch":"1","id":"1","index":"b","number":2,"producer":0}',
    b"report 0:2 b/1 Spent",
)


def lines_of_a_report():
    with tempfile.TemporaryDirectory() as folder:
        path = saved(folder, "a", FIRST)
        for form in FORMS:
            report = saved(folder, "report", form + b"\n")
            check("a line of a report: %s" % form, picked(report, path) == (TWO, b"", 0), picked(report, path))
        for form in OTHER_FORMS:
            report = saved(folder, "report", line(1) + form + b"\n" + line(3))
            done = picked(report, path)
            check("no line of a report: %s" % form, done == (ONE, b"%s: line 2: BadLine\n" % report.encode(), 2), done)
        report = saved(folder, "report", line(2)[:-1])
        check("a report with no last line end", picked(report, path) == (TWO, b"", 0))


def names_that_no_file_has():
    with tempfile.TemporaryDirectory() as folder:
        files = [saved(folder, "a", FIRST), saved(folder, "b", SECOND)]
        for names, at, wanted in (
            ([(4, 0)], 1, b""),
            ([(0, 0)], 1, b""),
            ([(1, 2)], 1, b""),
            ([(1, 0), (3, 1), (2, 1), (9, 0)], 2, ONE + FIVE),
            ([(18446744073709551615, 4294967295), (1, 1)], 1, FOUR),
        ):
            report = saved(folder, "report", b"".join(line(*it) for it in names))
            done = picked(report, *files, all=True)
            check("no file has one of %s" % names, done == (wanted, b"%s: line %d: NoSuch\n" % (report.encode(), at), 2), done)
        report = saved(folder, "report", line(1, 0) + line(3, 1) + line(2, 1) + line(9, 0))
        done = picked(report, *files)
        check("no file has two of them, and one is superseded", done == (FIVE, left_out(1, 2) + b"%s: line 2: NoSuch\n" % report.encode(), 2), done)


def files_at_fault():
    with tempfile.TemporaryDirectory() as folder:
        good = saved(folder, "good", SECOND)
        bad = saved(folder, "bad", ONE + b"x\n" + TWO)
        name = bad.encode()
        report = saved(folder, "report", line(1, 0) + line(1, 1) + line(2, 1))
        done = picked(report, good, bad, all=True)
        check("a line at fault in front of a name", done == (FOUR + ONE, name + b": line 3: NotJson\n", 2), done)
        done = picked(report, bad, good)
        check("a line at fault in the first file", done == (ONE + FOUR + FIVE, name + b": line 3: NotJson\n", 2), done)
        report = saved(folder, "report", line(1, 0) + line(1, 1))
        done = picked(report, good, bad, all=True)
        check("a line at fault after the names", done == (FOUR + ONE, b"", 0), done)
        report = saved(folder, "report", line(1, 0) + line(2, 0) + line(1, 1))
        done = picked(report, good, bad)
        check("a line at fault ends its file", done == (FOUR + FIVE + ONE, name + b": line 3: NotJson\n", 2), done)
        report = saved(folder, "report", line(1, 0) + line(1, 1))
        bare = saved(folder, "bare", b'{"delete":{"_id":"1"}}\n')
        report = saved(folder, "report", line(1))
        done = picked(report, bare)
        check("no index", done == (b"", b"%s: line 1: MissingIndex\n" % bare.encode(), 2), done)
        check("the default index", picked(report, bare, index="b") == (b'{"delete":{"_id":"1"}}\n', b"", 0))
        gone = os.path.join(folder, "gone")
        check("a file that is not there", picked(report, gone) == (b"", b"%s: open failed\n  entity not found\n" % gone.encode(), 3), picked(report, gone))
        check("a report that is not there", picked(gone, good) == (b"", b"%s: open failed\n  entity not found\n" % gone.encode(), 3))
        done = picked(report, folder, all=True)
        check("a directory as a file", done == (b"", b"%s: read failed\n  is a directory\n" % folder.encode(), 3), done)
        for path in (folder, "/dev/null"):
            done = picked(report, good, path)
            check("no regular file: %s" % path, done == (b"", b"%s: not a regular file, and only --all reads a file once\n" % path.encode(), 3), done)
        check("a device that is read once", picked(saved(folder, "none", b""), "/dev/null", all=True) == (b"", b"", 0))
        check("a directory as the report", picked(folder, good) == (b"", b"%s: read failed\n  is a directory\n" % folder.encode(), 3))
        with open("/dev/full", "wb") as full:
            report = saved(folder, "report", line(2, 0))
            done = subprocess.run([RELAY, "pick", "--report", report, good], stdout=full, stderr=subprocess.PIPE, timeout=60)
        check("a full device", (done.stderr, done.returncode) == (b"write failed\n", 3), done)


def usage():
    for args, said in ((["pick"], b"--report"), (["pick", "--report", "r"], b"FILE"), (["pick", "x"], b"--report"), (["pick", "--report", "r", "--bogus", "x"], b"--bogus"), (["pick", "--report", "r"] + ["x"] * 17, b"FILE")):
        done = subprocess.run([RELAY, *args], stdin=subprocess.DEVNULL, capture_output=True, timeout=60)
        check("usage: %s" % args[:5], done.returncode == 1 and said in done.stderr and done.stdout == b"", done)
    done = subprocess.run([RELAY, "help", "pick"], capture_output=True, timeout=60)
    check("help pick", done.returncode == 0 and b"BadLine" in done.stdout and b"NoSuch" in done.stdout, done)


def put_again():
    """What the index refused is picked, and a run in the next epoch applies it once the index no longer refuses it."""
    with tempfile.TemporaryDirectory() as folder:
        producers = [operations(p, 300, 300) for p in range(3)]
        files = [written(folder, p, ops) for p, ops in enumerate(producers)]
        report = os.path.join(folder, "report.ndjson")
        bad = lambda meta: 400 if meta["_id"].endswith(("7", "13")) else None
        server = Server(refuse=bad)
        done = relay_run(server.port, files, "--report", report)
        judge("some are refused", server, producers, done)
        with open(report, "rb") as file:
            names = [json.loads(it) for it in file.read().splitlines()]
        wanted = sorted((p, n) for p, ops in enumerate(producers) for n, (it, _) in enumerate(ops, 1) if bad({"_id": it}))
        check("the report names what was refused", sorted((it["producer"], it["number"]) for it in names) == wanted)
        text, err, status = picked(report, *files)
        again = [producers[p][n - 1] for p, n in wanted]
        lines = "".join('{"delete":{"_index":"books","_id":"%s"}}\n' % it if source is None else '{"index":{"_index":"books","_id":"%s"}}\n%s\n' % (it, source) for it, source in again)
        check("what was refused is picked", (text, err, status) == (lines.encode(), b"", 0), (err, status))
        server.refuse = lambda meta: None
        done = relay_run(server.port, [saved(folder, "again", text)], "--epoch", "1")
        check("what was picked is applied", done == (0, b"applied %d already 0 reported 0\n" % len(again), b""), done)
        right = all([it[2] for it in server.index.applied[("books", it)]] == [source] for ops in producers for it, source in ops)
        check("each document has what was put", right)
        server.close()


def none_rolled_back():
    """Whatever is refused or given up: after what was picked has been run in the next epoch, each document has the operation that
    was put last."""
    chance = random.Random(5200)
    with tempfile.TemporaryDirectory() as folder:
        rolled_back, recovered = 0, 0
        for trial in range(200):
            ops = operations(0, 60, chance.randrange(1, 20))
            path, report = written(folder, 0, ops), saved(folder, "report.ndjson", b"")
            failing = {number for number in range(1, 60) if chance.random() < 0.4}
            server = Server(lambda number: 429 if number in failing else None)
            done = relay_run(server.port, [path], "--report", report, "--attempts", "1", "--linger", "0", "--count", str(chance.randrange(1, 20)), "--lanes", str(chance.randrange(1, 4)), "--epoch", "1")
            text, err, status = picked(report, path)
            check("picked after a run, %d" % trial, status == 0, (err, status))
            server.plan = lambda number: None
            again = relay_run(server.port, [saved(folder, "again", text)], "--linger", "0", "--epoch", "2")
            check("what was picked is applied, %d" % trial, again[0] == 0, (done, again))
            recovered += text.count(b"\n") > 0
            for identity, source in dict(ops).items():
                kind = "delete" if source is None else "index"
                rolled_back += server.index.applied[("books", identity)][-1][1:] != (kind, source)
            server.close()
        check("no document is rolled back", rolled_back == 0 and recovered > 50, (rolled_back, recovered))


GROUPS = (lines_as_they_were, superseded, at_random, none_rolled_back, lines_of_a_report, names_that_no_file_has, files_at_fault, usage, put_again)
