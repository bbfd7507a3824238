"""What `relay run` does: against `relay stub`, and against a server that loses, cuts, delays and refuses."""
import os
import random
import re
import subprocess
import tempfile
import threading
import time
import traceback

from bulk_server import Server
from program import RELAY, check, unlogged
from stub_cases import Stub, free_port

FAULTS = ["drop before", "drop after", "late", "half", "garbage", "no items", "chunked", "interim", "close", "close silently", "twice", "and a half", 429, 503]
# What a run says of its conflicts.
HINT = re.compile(rb"the index has versions [^\n]*\n")
# What is said beneath the fault of an action that is not supported.
CREATE = b"  the action create is not supported: index and delete are\n"
REPORT = re.compile(rb"report (?:\d+\.)?(\d+):(\d+) (\S+)/(\S+) (.*)")


def relay_run(port, files, *more, timeout=300):
    done = subprocess.run([RELAY, "run", "--to", "127.0.0.1:%d" % port, *more, *files], stdin=subprocess.DEVNULL, capture_output=True, timeout=timeout)
    return done.returncode, done.stdout, unlogged(done.stderr)


def operations(producer, count, documents):
    """Returns operations of a producer on its own documents: the id, and the source, or None for a delete."""
    return [("%d-%d" % (producer, n % documents), None if n % 7 == 6 else '{"n":%d}' % n) for n in range(count)]


def written(folder, producer, ops, index='"_index":"books",'):
    path = os.path.join(folder, "ops%d.ndjson" % producer)
    with open(path, "w") as file:
        for identity, source in ops:
            if source is None:
                file.write('{"delete":{%s"_id":"%s"}}\n' % (index, identity))
            else:
                file.write('{"index":{%s"_id":"%s"}}\n%s\n' % (index, identity, source))
    return path


def put_to(ops, identity):
    return [source for it, source in ops if it == identity]


def judge(name, server, producers, done, attempts=8):
    """The writes applied to each document are among those put, each once and in order; those that are missing are reported,
    each with a cause that the server's answers to it give; what an answer settled is not reported; and the counts are those of
    the answers."""
    for what, right, found in findings(server, producers, done, attempts):
        check("%s: %s" % (name, what), right, found)


def findings(server, producers, done, attempts=8):
    """Yields what `judge` looks at, whether it is right, and what was found."""
    status, out, err = done
    lines = out.split(b"\n")
    reports = {(int(p), int(n)): cause.decode() for p, n, _, _, cause in (REPORT.fullmatch(it).groups() for it in lines[:-2])}
    counts = re.fullmatch(rb"applied (\d+) already (\d+) reported (\d+)", lines[-2])
    counts = counts and tuple(map(int, counts.groups()))
    right = counts is not None and sum(counts) == sum(map(len, producers)) and counts[2] == len(reports) == len(lines) - 2
    yield "the counts", right, (status, out[-300:], err)
    hinted = HINT.fullmatch(err) if "Conflict" in reports.values() else err == b""
    yield "the status", status == (5 if reports else 0) and bool(hinted), (status, err)
    yield "each document has what was put, once, in order", are_applied(server, producers, reports), ""
    if not server.tells:
        return
    answers = answers_of(server, producers)
    if server.sees_all:
        yield "each operation was sent", len(answers) == sum(map(len, producers)), (len(answers), sum(map(len, producers)))
    wrong = [(name, cause, answers.get(name)) for name, cause in reports.items() if not is_true(cause, answers.get(name, []), attempts, server.sees_all)]
    yield "each cause is what the server answered", wrong == [], wrong[:3]
    late = [(name, found) for name, found in answers.items() if name not in reports and not may_end(found, server.sees_all)]
    yield "what is not reported was answered", late == [], late[:3]
    if server.sees_all and counts and all(("unsure",) not in it for it in answers.values()):
        ended = [it[-1][1] for name, it in answers.items() if name not in reports and it[-1][0] == "item"]
        found = (sum(it != 409 for it in ended), sum(it == 409 for it in ended))
        yield "what counts as applied and as already applied was answered so", counts[:2] == found, (counts, found)


def are_applied(server, producers, reports):
    """Whether the writes applied to each document are what was put to it, each once and in order, but for what is reported."""
    right = True
    for producer, ops in enumerate(producers):
        for identity in {it for it, _ in ops}:
            put = [(number, source) for number, (it, source) in enumerate(ops, 1) if it == identity]
            applied = [it[2] for it in server.index.applied.get(("books", identity), [])]
            place = 0
            for number, source in put:
                if place < len(applied) and applied[place] == source:
                    place += 1
                elif (producer, number) not in reports:
                    right = False
            right = right and place == len(applied)
    return right


def answers_of(server, producers):
    """What the server answered for each operation, by producer and number, one for each request that carried it. The operations
    of a document have ascending versions in the order in which they were put. Documents of which not all were seen are left
    out."""
    versions, found = {}, {}
    for index, identity, version in server.told:
        versions.setdefault(identity, []).append((version, index))
    for producer, ops in enumerate(producers):
        for identity in {it for it, _ in ops}:
            numbers = [number for number, (it, _) in enumerate(ops, 1) if it == identity]
            seen = sorted(versions.get(identity, []))
            if len(seen) == len(numbers):
                for number, (version, index) in zip(numbers, seen):
                    found[producer, number] = server.told[index, identity, version]
    return found


def is_sent_again(answer):
    """Whether an operation that is answered like this is sent again, as long as attempts are left."""
    if answer[0] == "whole":
        return answer[1] in (413, 429, 502, 503, 504)
    return answer[0] in ("lost", "unsure") or answer[1] in (429, 503)


def is_true(cause, answers, attempts, sees_all):
    """Whether these answers give this cause of a report."""
    kind, *more = cause.split(" ")
    last = answers[-1] if answers else None
    if kind == "GaveUp":
        sends, halved = int(more[0]), answers.count(("whole", 413))
        if sees_all:
            return len(answers) == sends == attempts + halved and all(map(is_sent_again, answers))
        return len(answers) <= sends and attempts <= sends <= attempts + 14 and all(map(is_sent_again, answers))
    if kind == "Refused":
        return last == ("item", int(more[0]), more[1]) and last[1] not in (409, 429, 503)
    if kind == "Request":
        return last == ("whole", int(more[0])) and last[1] not in (429, 502, 503, 504)
    if kind == "Conflict":
        return last is not None and last[:2] == ("item", 409) and len(answers) == 1
    return False


def may_end(answers, sees_all):
    """Whether an operation that was answered like this may end as applied, or as already applied."""
    last = answers[-1]
    if last[0] == "unsure" or (not sees_all and last[0] == "lost"):
        return True
    if last[0] != "item":
        return False
    return last[1] in (200, 201, 404) or (last[1] == 409 and len(answers) > 1)


def fakes():
    """The judge sees through relays that report what did not happen."""
    with tempfile.TemporaryDirectory() as folder:
        ops = operations(0, 60, 6)
        path = written(folder, 0, ops)
        gave_up = b"".join(b"report 0:%d books/%s GaveUp 1\n" % (n, it.encode()) for n, (it, _) in enumerate(ops, 1))
        server = Server()
        expose("applies nothing", server, ops, (5, gave_up + b"applied 0 already 0 reported 60\n", b""), "each operation was sent", "each cause is what the server answered")
        done = relay_run(server.port, [path])
        check("the judge takes what is right", all(right for _, right, _ in findings(server, [ops], done)), done)
        expose("applied all and gives up", server, ops, (5, gave_up + b"applied 0 already 0 reported 60\n", b""), "each cause is what the server answered")
        expose("counts all as already applied", server, ops, (0, b"applied 0 already 60 reported 0\n", b""), "what counts as applied and as already applied was answered so")
        server.close()
        server = Server(refuse=lambda meta: 400 if meta["_id"] == "0-3" else None)
        status, out, err = relay_run(server.port, [path])
        check("the judge takes a true report", all(right for _, right, _ in findings(server, [ops], (status, out, err))), out)
        for cause in (b"Bananas 7", b"GaveUp 8", b"Conflict", b"Request 400", b"Refused 401 planned", b"Refused 400 other"):
            expose(cause.decode(), server, ops, (status, out.replace(b"Refused 400 planned", cause), err), "each cause is what the server answered")
        server.close()


def expose(name, server, ops, done, *wanted):
    """The judge finds that these are not right."""
    found = [what for what, right, _ in findings(server, [ops], done) if not right]
    check("a fake: %s" % name, set(wanted) <= set(found), found)


def stub():
    with tempfile.TemporaryDirectory() as folder:
        producers = [[("%d-%d" % (p, n % 10), '{"n":%d}' % n) for n in range(100)] for p in range(2)]
        files = [written(folder, p, ops) for p, ops in enumerate(producers)]
        served = Stub(200)
        wait_for(served)
        done = relay_run(served.port, files, "--count", "1", "--capacity", "1", "--attempts", "3")
        check("two files to the stub", done == (0, b"applied 200 already 0 reported 0\n", b""), done)
        listed = served.process.communicate(timeout=60)[0].split(b"\n")[:-1]
        right = len(listed) == 200
        for p in range(2):
            for d in range(10):
                versions = [int(it.split()[2]) for it in listed if it.split()[1] == b"books/%d-%d" % (p, d)]
                right = right and len(versions) == 10 and versions == sorted(versions)
        check("the stub has applied each write once, in order", right)
        served = Stub(103, "2:429,4:503,6:503,8:400")
        wait_for(served)
        done = relay_run(served.port, files[:1], "--count", "1", "--capacity", "1", "--epoch", "1000")
        served.process.communicate(timeout=60)
        right = done[0] == 5 and done[2] == b"" and done[1].endswith(b" Refused 400 scripted_refusal\napplied 99 already 0 reported 1\n")
        check("refusals by the stub", right and done[1].count(b"\n") == 2, done)


def wait_for(served):
    """Waits until the stub listens, without connecting to it."""
    for _ in range(500):
        with open("/proc/net/tcp") as file:
            if any(line.split()[1].endswith(":%04X" % served.port) and line.split()[3] == "0A" for line in file.readlines()[1:]):
                return
        time.sleep(0.01)
    raise TimeoutError("the stub does not listen")


def faults():
    with tempfile.TemporaryDirectory() as folder:
        producers = [operations(p, 120, 9) for p in range(3)]
        files = [written(folder, p, ops) for p, ops in enumerate(producers)]
        for fault in FAULTS:
            server = Server(lambda number, fault=fault: fault if number % 3 == 1 else None)
            judge("%s" % fault, server, producers, relay_run(server.port, files, "--count", "20", "--linger", "0", "--lanes", "2"))
            server.close()
        dice = random.Random(11)
        server = Server(lambda number: dice.choice([None, None, *FAULTS]))
        judge("all faults at once", server, producers, relay_run(server.port, files, "--count", "25", "--linger", "0", "--lanes", "4", "--attempts", "32"), 32)
        server.close()
        for status, at in ((400, 1), (401, 2), (500, 1)):
            server = Server(lambda number, status=status, at=at: status if number == at else None)
            done = relay_run(server.port, files[:1], "--linger", "0", "--count", "5")
            judge("status %d" % status, server, producers[:1], done)
            check("status %d is reported" % status, b" Request %d\n" % status in done[1], done)
            server.close()
        server = Server(refuse=lambda meta: 400 if meta["_id"] == "0-3" else None)
        done = relay_run(server.port, files[:1])
        judge("a document that is refused", server, producers[:1], done)
        check("each write to it is reported", len(re.findall(rb"books/0-3 Refused 400 planned\n", done[1])) == len(put_to(producers[0], "0-3")), done)
        server.close()


def paced(folder, producer, ops, seconds):
    """Makes a pipe that yields one operation at a time, `seconds` apart. Returns its writer, and its path."""
    path = os.path.join(folder, "pipe%d" % producer)
    os.mkfifo(path)

    def write():
        with open(path, "w") as pipe:
            for place, (identity, source) in enumerate(ops):
                time.sleep(seconds if place else 0)
                pipe.write('{"index":{"_index":"books","_id":"%s"}}\n%s\n' % (identity, source))
                pipe.flush()

    return threading.Thread(target=write), path


def paced_run(server, producers, *more):
    """A run over pipes, each of which yields an operation every fifth of a second; each operation is a request."""
    with tempfile.TemporaryDirectory() as folder:
        pipes = [paced(folder, p, ops, 0.2) for p, ops in enumerate(producers)]
        for writer, _ in pipes:
            writer.start()
        done = relay_run(server.port, [path for _, path in pipes], "--count", "1", "--linger", "0", *more)
        for writer, _ in pipes:
            writer.join()
    return done


def replies_that_nobody_asked_for():
    """A reply that arrives twice, together or before the next request, or that is followed by half of another, is not taken for
    the reply to the next request: that is sent on another connection, and every write is applied."""
    for lanes in (1, 4):
        ops = [("%d" % (n % lanes), '{"n":%d}' % n) for n in range(2 * lanes + 2)]
        for fault in ("twice", "twice late", "and a half"):
            name = "%s, %d lanes" % (fault, lanes)
            server = Server(lambda number, fault=fault: fault)
            done = paced_run(server, [ops], "--lanes", "%d" % lanes)
            judge(name, server, [ops], done)
            check("%s: all is applied" % name, done[1] == b"applied %d already 0 reported 0\n" % len(ops) and server.requests == len(ops), (done, server.requests))
            wait_until(lambda: len(server.strays) == len(ops))
            check("%s: no request goes out where something came" % name, server.strays == [b""] * len(ops), server.strays)
            server.close()


def connections_used_again():
    """A kept connection on which nothing arrived carries the next request, so one connection is enough for a lane."""
    producers = [[("%d" % p, '{"n":%d}' % n) for n in range(4)] for p in range(2)]
    server = Server()
    done = paced_run(server, producers, "--lanes", "1")
    check("used again", done == (0, b"applied 8 already 0 reported 0\n", b"") and len(server.streams) == 1, (done, len(server.streams)))
    server.close()


def connections_closed_while_idle():
    """If the server closes a kept connection between two requests, that costs the second one no attempt."""
    producers = [[("%d" % p, '{"n":%d}' % n) for n in range(4)] for p in range(2)]
    server = Server(lambda number: "close silently")
    done = paced_run(server, producers, "--lanes", "2", "--attempts", "1")
    check("closed while idle", done == (0, b"applied 8 already 0 reported 0\n", b"") and server.requests == 8, (done, server.requests))
    server.close()


def wait_until(holds):
    """Waits until this holds; a minute without is a failure."""
    for _ in range(6_000):
        if holds():
            return
        time.sleep(0.01)
    check("what is waited for comes within a minute", False, traceback.format_stack(limit=2)[0])


def server_that_comes_back():
    with tempfile.TemporaryDirectory() as folder:
        producers = [operations(p, 200, 20) for p in range(2)]
        files = [written(folder, p, ops) for p, ops in enumerate(producers)]
        server = Server(lambda number: "late" if number % 2 else None)
        running = threading.Thread(target=lambda: done.append(relay_run(server.port, files, "--count", "10", "--linger", "0", "--attempts", "32")))
        done = []
        running.start()
        while server.requests < 5 and running.is_alive():
            time.sleep(0.01)
        server.rest(1)
        running.join()
        judge("a server that is away for a second", server, producers, done[0], 32)
        check("all is applied when it is back", done[0][1].endswith(b"reported 0\n"), done[0][1][-100:])
        server.close()


def peak(process):
    """Returns the peak memory of a running process in KB, as far as it was sampled."""
    most = 0
    while process.poll() is None:
        try:
            with open("/proc/%d/status" % process.pid) as file:
                most = max([most] + [int(line.split()[1]) for line in file if line.startswith("VmHWM:")])
        except OSError:
            pass
        time.sleep(0.001)
    return most


def memory():
    peaks = []
    with tempfile.TemporaryDirectory() as folder:
        for count in (20_000, 100_000):
            path = written(folder, 0, operations(0, count, count))
            server = Server()
            # Both fill the lane, of 4,096 operations.
            words = [RELAY, "run", "--to", "127.0.0.1:%d" % server.port, path]
            process = subprocess.Popen(words, stdin=subprocess.DEVNULL, stdout=subprocess.PIPE)
            peaks.append(peak(process))
            out = process.communicate(timeout=60)[0]
            check("%d operations" % count, (process.returncode, out) == (0, b"applied %d already 0 reported 0\n" % count), (process.returncode, out[-200:]))
            server.close()
    check("five times the operations take no more memory", 0 < peaks[1] < peaks[0] + 2048, peaks)
    print("the peak memory of relay run was %d and %d KB" % tuple(peaks))


def no_server():
    with tempfile.TemporaryDirectory() as folder:
        path = written(folder, 0, operations(0, 3, 3))
        done = relay_run(free_port(), [path], "--attempts", "1")
        check("no server", done == (5, b"report 0:1 books/0-0 GaveUp 1\nreport 0:2 books/0-1 GaveUp 1\nreport 0:3 books/0-2 GaveUp 1\napplied 0 already 0 reported 3\n", b""), done)


def files_at_fault():
    with tempfile.TemporaryDirectory() as folder:
        good = written(folder, 0, operations(0, 5, 5))
        broken = written(folder, 1, operations(1, 2, 2))
        with open(broken, "a") as file:
            file.write('{"create":{"_index":"b","_id":"1"}}\n{}\n')
        missing = os.path.join(folder, "missing")
        server = Server()
        done = relay_run(server.port, [good, missing, broken])
        check("a file that is not there, and one that breaks off", done == (3, b"applied 7 already 0 reported 0\n", b"%s: open failed\n  entity not found\n%s: line 5: UnsupportedAction\n%s" % (missing.encode(), broken.encode(), CREATE)), done)
        done = relay_run(server.port, [broken], "--epoch", "1")
        check("a file that breaks off", done == (2, b"applied 2 already 0 reported 0\n", b"%s: line 5: UnsupportedAction\n%s" % (broken.encode(), CREATE)), done)
        done = relay_run(server.port, [folder], "--epoch", "2")
        check("a directory", done == (3, b"applied 0 already 0 reported 0\n", b"%s: read failed\n  is a directory\n" % folder.encode()), done)
        server.close()


def options():
    with tempfile.TemporaryDirectory() as folder:
        producers = [operations(p, 40, 40) for p in range(16)]
        files = [written(folder, p, ops) for p, ops in enumerate(producers)]
        server = Server()
        judge("16 files and 8 lanes", server, producers, relay_run(server.port, files, "--lanes", "8"))
        check("the request names the address", all(b"Host: 127.0.0.1:%d" % server.port in it and it.startswith(b"POST /_bulk HTTP/1.1\r\n") for it in server.heads))
        server.close()
        plain = written(folder, 0, [("1", "{}"), ("2", None)], index="")
        server = Server()
        done = relay_run(server.port, [plain], "--index", "b", "--epoch", "7")
        check("--index and --epoch", done == (0, b"applied 2 already 0 reported 0\n", b"") and sorted(server.index.applied) == [("b", "1"), ("b", "2")] and sorted(it[0][0] for it in server.index.applied.values()) == [7 * 2**40 + 1, 7 * 2**40 + 2], (done, server.index.applied))
        server.close()
        for args, said in (
            (["--to", "x:1"], b"FILE"),
            ([plain], b"--to"),
            (["--to", "a b:1", plain], b"ASCII"),
            (["--to", "localhost", plain], b"has no port: it has to be HOST:PORT"),
            (["--to", "http://localhost/", plain], b"has no port"),
            (["--to", "[::1]", plain], b"has no port"),
            (["--to", "::1:9200", plain], b"has to be HOST:PORT"),
            (["--to", "x:0", plain], b"has to be HOST:PORT"),
            (["--to", "x:65536", plain], b"has to be HOST:PORT"),
            (["--to", "x:9200/books", plain], b"without a path or credentials"),
            (["--to", "relay:secret@x:9200", plain], b"without a path or credentials"),
            (["--to", "https://x:9200", plain], b"docs/OPERATING.md shows under \"TLS, credentials and compression\""),
            (["--to", "x:1", "--lanes", "9", plain], b"'9'"),
            (["--to", "x:1", "--lanes", "0", plain], b"'0'"),
            (["--to", "x:1", "--count", "10001", plain], b"10001"),
            (["--to", "x:1", "--bytes", "1023", plain], b"1023"),
            (["--to", "x:1", "--attempts", "33", plain], b"33"),
            (["--to", "x:1", "--flying", "9", plain], b"'9'"),
            (["--to", "x:1", "--epoch", "4194304", plain], b"4194304"),
            (["--to", "x:1", "--epoch", "-1", plain], b"-1"),
            (["--to", "x:1", "--first", "7", plain], b"--first"),
            (["--to", "x:1", *[plain] * 17], b"no more were expected"),
        ):
            done = subprocess.run([RELAY, "run", *args], stdin=subprocess.DEVNULL, capture_output=True, timeout=60)
            check("usage: run %s" % args[:4], done.returncode == 1 and said in done.stderr and done.stdout == b"", (done.returncode, done.stderr))


def addresses():
    """`http://` and a slash are dropped; a host that is unknown ends the run before the report is opened, and costs no attempt."""
    with tempfile.TemporaryDirectory() as folder:
        path, report = written(folder, 0, [("1", "{}")]), os.path.join(folder, "report")
        for epoch, form in enumerate(("http://127.0.0.1:%d", "http://127.0.0.1:%d/", "127.0.0.1:%d/", "http://localhost:%d")):
            server = Server()
            done = subprocess.run([RELAY, "run", "--to", form % server.port, path], stdin=subprocess.DEVNULL, capture_output=True, timeout=60)
            host = b"Host: " + (form % server.port).replace("http://", "").rstrip("/").encode() + b"\r\n"
            check("an address as %s" % form, (done.returncode, done.stdout, done.stderr) == (0, b"applied 1 already 0 reported 0\n", b"") and host in server.heads[0], (done, server.heads))
            server.close()
        start = time.monotonic()
        done = subprocess.run([RELAY, "run", "--to", "http://nowhere.invalid:9200", "--report", report, path], stdin=subprocess.DEVNULL, capture_output=True, timeout=60)
        right = (done.returncode, done.stdout, done.stderr) == (3, b"", b"nowhere.invalid:9200: unknown host\n")
        check("a host that is unknown", right and not os.path.exists(report), done)
        check("it is said at once", time.monotonic() - start < 12, time.monotonic() - start)
        done = subprocess.run([RELAY, "run", "--to", "nowhere.invalid:9200", "--patience", "2s", path], stdin=subprocess.DEVNULL, capture_output=True, timeout=60)
        check("a host that is unknown, with patience", (done.returncode, done.stderr) == (3, b"nowhere.invalid:9200: unknown host\n") and time.monotonic() - start > 1.9, done)


GROUPS = (addresses, stub, fakes, faults, replies_that_nobody_asked_for, connections_used_again, connections_closed_while_idle, server_that_comes_back, memory, no_server, files_at_fault, options)
