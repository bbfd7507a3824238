"""Epochs from a counter document (`relay run --epoch-from INDEX/ID`): against `relay stub`, against a server that answers the PUT
as told, and through nginx and haproxy."""
import json
import os
import re
import shutil
import signal
import subprocess
import tempfile
import threading
import time

from bulk_server import Server
from program import RELAY, check, run, unlogged
from proxy_cases import Proxy, TlsServer, certificate
from run_cases import HINT, REPORT, relay_run, wait_for, written
from stub_cases import NOT_BULK, Stub, free_port

EPOCH = 2**40
ONE = [("1", '{"n":1}')]
ALL_DONE = (0, b"applied 1 already 0 reported 0\n", b"")


class Counting:
    """Gives a server counter documents, with the versions of OpenSearch. `counter` maps the number of a PUT, from 1, to how it is
    answered: None as OpenSearch does, a status and a body instead, or the name of a fault."""

    def __init__(self, *args, counter=lambda number: None, **more):
        self.counter, self.puts, self.versions = counter, [], {}
        super().__init__(*args, **more)

    def answer(self, stream, head, body):
        method, target, _ = head.split(b"\r\n")[0].split(b" ")
        if method != b"PUT":
            return super().answer(stream, head, body)
        with self.lock:
            self.puts.append((target, head, body))
            answer = self.counter(len(self.puts))
            if answer == "drop before":
                return False
            version = self.versions[target] = self.versions.get(target, 0) + 1
        if answer == "drop after":
            return False
        if answer == "half":
            self.send(stream, 200, b'{"_version":%d}' % version, cut=1)
            return False
        if answer == "slow":
            time.sleep(3)
        if answer == "bytes":
            self.write(stream, b"garbage\r\n\r\n")
            return False
        if isinstance(answer, tuple):
            return self.send(stream, *answer)
        full = {"_index": "relay", "_id": "epoch", "_version": version, "result": "created" if version == 1 else "updated", "_shards": {"total": 2, "successful": 1, "failed": 0}, "_seq_no": version - 1, "_primary_term": 1}
        return self.send(stream, 201 if version == 1 else 200, json.dumps(full).encode())


class CounterServer(Counting, Server):
    """An index over HTTP with counter documents."""


class TlsCounterServer(Counting, TlsServer):
    """The same over TLS."""


def epochs_of(server, identity="1", index="books"):
    """Returns the epoch of each write that was applied to a document."""
    return [(version - 1) // EPOCH for version, _, _ in server.index.applied.get((index, identity), [])]


def leased(port, files, *more, counter="relay/epoch"):
    return relay_run(port, files, "--epoch-from", counter, *more)


def finish(stub):
    """Connects to a stub until it has served all its connections, and returns what it lists."""
    lines = []
    reader = threading.Thread(target=lambda: lines.append(stub.process.communicate(timeout=300)[0]))
    reader.start()
    while stub.process.poll() is None:
        try:
            stub.connect().close()
        except OSError:
            time.sleep(0.01)
    reader.join()
    return lines[0].split(b"\n")[:-1]


def again():
    """The same command three times, and with nothing typed: each run writes in the next epoch."""
    with tempfile.TemporaryDirectory() as folder:
        path = written(folder, 0, ONE)
        stub = Stub(6)
        wait_for(stub)
        for _ in range(3):
            done = leased(stub.port, [path])
            check("the same command again", done == ALL_DONE, done)
        listed = [b"applied books/1 %d index" % (n * EPOCH + 1) for n in (1, 2, 3)] + [b"applied relay/epoch %d index" % n for n in (1, 2, 3)]
        stub.ends("each run in an epoch of its own", b"\n".join(listed) + b"\n")


def pairs():
    """A hundred pairs of runs against one stub, the two of each pair at once: all epochs differ, each document has the writes of
    a run in order, and what is not there was reported as a conflict."""
    count, documents, each = 100, 3, 4
    with tempfile.TemporaryDirectory() as folder:
        stub = Stub(count * 2 * (each * documents + 4))
        wait_for(stub)
        finished = []
        for pair in range(count):
            running = []
            for side in range(2):
                ops = [("%d-%d" % (pair, n % documents), '{"n":%d,"side":%d}' % (n, side)) for n in range(documents * each)]
                os.makedirs(os.path.join(folder, str(side)), exist_ok=True)
                path = written(os.path.join(folder, str(side)), pair, ops)
                args = [RELAY, "run", "--to", "127.0.0.1:%d" % stub.port, "--epoch-from", "relay/epoch", "--linger", "0", path]
                running.append(subprocess.Popen(args, stdin=subprocess.DEVNULL, stdout=subprocess.PIPE, stderr=subprocess.PIPE))
            for one in running:
                out, err = one.communicate(timeout=120)
                finished.append((pair, one.returncode, out, unlogged(err)))
        listed = finish(stub)
        applied = {}
        for line in listed:
            _, name, version, _ = line.split(b" ")
            applied.setdefault(name, []).append(int(version))
        check("two hundred epochs, one after another", applied.pop(b"relay/epoch") == list(range(1, 2 * count + 1)))
        epochs = set()
        right = len(applied) == count * documents
        for pair in range(count):
            mine = [it for it in finished if it[0] == pair]
            reported = sum(int(re.search(rb"reported (\d+)\n", out)[1]) for _, _, out, _ in mine)
            good = all((HINT.fullmatch(err) and status == 5) if b"report " in out else (err, status) == (b"", 0) for _, status, out, err in mine)
            good = good and all(REPORT.fullmatch(line)[5] == b"Conflict" for _, _, out, _ in mine for line in out.split(b"\n")[:-2])
            versions = [applied[b"books/%d-%d" % (pair, n)] for n in range(documents)]
            used = {(version - 1) // EPOCH for many in versions for version in many}
            good = good and len(used) <= 2 and not used & epochs and sum(map(len, versions)) + reported == 2 * documents * each
            for many in versions:
                good = good and many == sorted(set(many)) and len([it for it in many if (it - 1) // EPOCH == max(used)]) == each
            epochs |= used
            right = right and good
            if not good:
                print("pair %d: %s %s" % (pair, versions, mine))
        check("each pair: in order, epoch after epoch, and what is missing is reported as a conflict", right)
        check("no epoch is used twice", len(epochs) <= 2 * count and max(epochs) <= 2 * count and min(epochs) >= 1)


def stand_in():
    """What the stand-in index answers to a PUT of a document, and how such writes and those with external versions meet."""
    stub = Stub(15)

    def put(name, target, body, status, text, reason="OK"):
        found = stub.ask(body, "PUT", target)
        check("%s: %s" % (name, target), found == (status, reason, text, "close"), found)

    put("a first PUT", "/relay/_doc/epoch", b'{"a":1}', 201, b'{"_id":"epoch","_index":"relay","_seq_no":0,"_version":1,"result":"created"}', "")
    put("a second one", "/relay/_doc/epoch", b'{"a":2}', 200, b'{"_id":"epoch","_index":"relay","_seq_no":1,"_version":2,"result":"updated"}')
    put("another document", "/relay/_doc/a%2Fb%20%C3%BC%25", b"x", 201, '{"_id":"a/b ü%","_index":"relay","_seq_no":2,"_version":1,"result":"created"}'.encode(), "")
    # An external version that is not above the stored one is a conflict; one above it is applied, and the next PUT counts on.
    line = b'{"index":{"_id":"epoch","_index":"relay","version":%d,"version_type":"external"}}\n{}\n'
    found = stub.ask(line % 2)
    check("an external version at the stored one", found[0] == 200 and b'"status":409' in found[2] and b"version_conflict_engine_exception" in found[2], found)
    found = stub.ask(line % 9)
    check("an external version above it", found[0] == 200 and b'"_version":9,"result":"updated","status":200' in found[2], found)
    put("a PUT after it", "/relay/_doc/epoch", b"{}", 200, b'{"_id":"epoch","_index":"relay","_seq_no":4,"_version":10,"result":"updated"}')
    found = stub.ask(b'{"delete":{"_id":"epoch","_index":"relay","version":20,"version_type":"external"}}\n')
    check("a delete", b'"_version":20,"result":"deleted","status":200' in found[2], found)
    put("a PUT of a deleted document", "/relay/_doc/epoch", b"{}", 201, b'{"_id":"epoch","_index":"relay","_seq_no":6,"_version":21,"result":"created"}', "")
    for target, body in (("/relay/_doc/", b"{}"), ("/relay/_doc/1/2", b"{}"), ("/relay/_create/1", b"{}"), ("/relay/_doc/1?refresh=true", b"{}"), ("/relay/_doc/%FF", b"{}"), ("/relay/_doc/1", b""), ("/relay/_doc/1", b"{\n}")):
        put("no document, or no source", target, body, 400, NOT_BULK, "Bad Request")
    listed = [b"applied relay/a/b \xc3\xbc% 1 index"] + [b"applied relay/epoch %d %s" % it for it in ((1, b"index"), (2, b"index"), (9, b"index"), (10, b"index"), (20, b"delete"), (21, b"index"))]
    stub.ends("what was stored", b"\n".join(listed) + b"\n")


SECURITY = b'{"error":{"root_cause":[{"type":"security_exception","reason":"no permissions"}],"type":"security_exception","reason":"no permissions"},"status":403}'

# An answer to the PUT, and the line that is printed.
REFUSALS = (
    ((403, SECURITY), b"epoch: status 403 security_exception\n"),
    ((400, b'{"error":"no handler found for uri [/relay/_doc/epoch] and method [PUT]"}'), b"epoch: status 400\n"),
    ((401, b"Unauthorized"), b"epoch: status 401\n"),
    ((404, b'{"error":{"type":"index_not_found_exception"},"status":404}'), b"epoch: status 404 index_not_found_exception\n"),
    ((409, b'{"error":{"type":"version_conflict_engine_exception"},"status":409}'), b"epoch: status 409 version_conflict_engine_exception\n"),
    ((429, b""), b"epoch: status 429\n"),
    ((500, b"{}"), b"epoch: status 500\n"),
    ((502, b"<html></html>"), b"epoch: status 502\n"),
    ((503, b'{"error":{"type":"cluster_block_exception"}}'), b"epoch: status 503 cluster_block_exception\n"),
    ((202, b'{"_version":7}'), b"epoch: status 202\n"),
    ((200, b"<html>ok</html>"), b"epoch: no version in the answer\n"),
    ((200, b'{"result":"updated"}'), b"epoch: no version in the answer\n"),
    ((200, b'{"_version":0}'), b"epoch: no version in the answer\n"),
    ((200, b'{"_version":"7"}'), b"epoch: no version in the answer\n"),
    ((201, b'{"_version":1.5}'), b"epoch: no version in the answer\n"),
    ((200, b'{"_version":4194304}'), b"epoch: spent\n"),
    ("drop before", b"epoch: unreachable\n"),
    ("drop after", b"epoch: unreachable\n"),
    ("half", b"epoch: unreachable\n"),
    ("bytes", b"epoch: unreachable\n"),
    ("slow", b"epoch: unreachable\n"),
)


def refusals():
    """Each answer without an epoch: its name, status 3, and nothing was sent. The reports' file is there and empty."""
    with tempfile.TemporaryDirectory() as folder:
        path, report = written(folder, 0, ONE), os.path.join(folder, "report")
        for answer, line in REFUSALS:
            server = CounterServer(counter=lambda number, answer=answer: answer)
            more = ("--timeout", "1") if answer == "slow" else ()
            done = leased(server.port, [path], "--report", report, *more)
            check("answered %s" % (answer,), done == (3, b"", line), done)
            check("answered %s: nothing else was sent" % (answer,), server.requests == 0 and len(server.puts) == 1 and os.path.getsize(report) == 0, server.puts)
            server.close()
        done = leased(free_port(), [path])
        check("nobody listens", done == (3, b"", b"epoch: unreachable\n"), done)
        server = CounterServer(counter=lambda number: (200, b'{"_version":4194303}'))
        done = leased(server.port, [path])
        check("the last epoch", done == ALL_DONE and epochs_of(server) == [4194303], done)
        server.close()


def patient():
    """With patience it tries again: a lost answer costs an epoch and nothing else, and other faults are not repeated."""
    with tempfile.TemporaryDirectory() as folder:
        path = written(folder, 0, ONE)
        plan = ["drop before", "drop after", "half", (503, b""), (429, b""), (502, b""), (504, b"")]
        server = CounterServer(counter=lambda number: plan[number - 1] if number <= len(plan) else None)
        done = leased(server.port, [path], "--patience", "30")
        check("lost, refused, and then answered", done == ALL_DONE and epochs_of(server) == [7] and len(server.puts) == 8, (done, server.puts))
        server.close()
        server = CounterServer(counter=lambda number: (403, SECURITY))
        begun = time.monotonic()
        done = leased(server.port, [path], "--patience", "30")
        check("403 is final", done == (3, b"", b"epoch: status 403 security_exception\n") and len(server.puts) == 1 and time.monotonic() - begun < 10, done)
        server.close()
        server = CounterServer(counter=lambda number: (503, b""))
        begun = time.monotonic()
        done = leased(server.port, [path], "--patience", "2")
        check("two seconds of 503", done == (3, b"", b"epoch: status 503\n") and 2 <= len(server.puts) <= 3 and 1 <= time.monotonic() - begun < 10, (done, len(server.puts)))
        server.close()
        server = CounterServer()
        server.go_down()
        running = []
        waiting = threading.Thread(target=lambda: running.append(leased(server.port, [path], "--patience", "30")))
        waiting.start()
        time.sleep(1.5)
        server.come_up()
        waiting.join()
        check("an index that comes back", running[0] == ALL_DONE and epochs_of(server) == [1], running)
        server.close()


def killed():
    """Runs that are killed after the answer to the PUT and before their first request: nothing was written, and the next run is in
    the next epoch."""
    with tempfile.TemporaryDirectory() as folder:
        path = written(folder, 0, ONE)
        pipe = os.path.join(folder, "pipe")
        os.mkfifo(pipe)
        server = CounterServer()
        for trial in range(1, 6):
            args = [RELAY, "run", "--to", "127.0.0.1:%d" % server.port, "--epoch-from", "relay/epoch", pipe]
            running = subprocess.Popen(args, stdin=subprocess.DEVNULL, stdout=subprocess.PIPE, stderr=subprocess.PIPE)
            while server.versions.get(b"/relay/_doc/epoch", 0) < trial:
                time.sleep(0.005)
            running.send_signal(signal.SIGKILL)
            found = running.communicate(timeout=60)
            check("killed after the answer", running.returncode == -9 and found == (b"", b"") and server.requests == 0, found)
        done = leased(server.port, [path])
        check("the run after them", done == ALL_DONE and epochs_of(server) == [6], done)
        server.close()


def overlapping():
    """A run that another one overtakes: what the newer one has written, it keeps; the older one's writes of it are conflicts, and
    those of other documents are applied."""
    with tempfile.TemporaryDirectory() as folder:
        pipe = os.path.join(folder, "pipe")
        os.mkfifo(pipe)
        server = CounterServer(states=True)
        args = [RELAY, "run", "--to", "127.0.0.1:%d" % server.port, "--epoch-from", "relay/epoch", "--linger", "0", pipe]
        older = subprocess.Popen(args, stdin=subprocess.DEVNULL, stdout=subprocess.PIPE, stderr=subprocess.PIPE)
        with open(pipe, "w") as file:
            while not server.puts:
                time.sleep(0.005)
            newer = leased(server.port, [written(folder, 0, [("a", '{"by":"newer"}')])])
            for identity in ("a", "b"):
                file.write('{"index":{"_index":"books","_id":"%s"}}\n{"by":"older"}\n' % identity)
        out, err = older.communicate(timeout=60)
        check("the newer run", newer == ALL_DONE, newer)
        check("the older run", (older.returncode, out, unlogged(err)) == (5, b"report 1.0:1 books/a Conflict\napplied 1 already 0 reported 1\n", b"the index has versions of epoch 2: run again with --epoch 3 or higher\n"), (out, err))
        check("what the index has", epochs_of(server, "a") == [2] and epochs_of(server, "b") == [1])
        server.close()


def message():
    """What the PUT says, byte for byte but for the machine, the process and the time; and nothing else comes before it."""
    with tempfile.TemporaryDirectory() as folder:
        path = written(folder, 0, ONE)
        server = CounterServer()
        begun = time.time() * 1000
        leased(server.port, [path])
        target, head, body = server.puts[0]
        said = json.loads(body)
        to = "127.0.0.1:%d" % server.port
        check("the head of the PUT", head == b"PUT /relay/_doc/epoch HTTP/1.1\r\nHost: %s\r\nContent-Type: application/json\r\nContent-Length: %d" % (to.encode(), len(body)), head)
        check("the body of the PUT", list(said) == ["host", "process", "start", "to"] and said["to"] == to and said["host"] == os.uname().nodename and said["process"] > 0 and begun - 1000 <= said["start"] <= time.time() * 1000, said)
        server.close()
        server = CounterServer()
        for counter, target in (("relay/a/b", b"/relay/_doc/a%2Fb"), ("50%/100%", b"/50%25/_doc/100%25"), ("r/a b", b"/r/_doc/a%20b"), ("ü/ü", b"/%C3%BC/_doc/%C3%BC"), (".relay-1/~_.", b"/.relay-1/_doc/~_.")):
            done = leased(server.port, [path], counter=counter)
            check("the target of %s" % counter, done[0] == 0 or done[0] == 5, done)
            check("the target of %s" % counter, server.puts[-1][0] == target, server.puts[-1][0])
        server.close()


def usage():
    """`--epoch-from` excludes `--epoch`, and names a document."""
    with tempfile.TemporaryDirectory() as folder:
        path = written(folder, 0, ONE)
        done = run(["run", "--to", "127.0.0.1:1", "--epoch", "0", "--epoch-from", "relay/epoch", path])
        check("both", done.returncode == 1 and b"--epoch" in done.stderr and b"cannot be used with" in done.stderr and done.stdout == b"", done)
        for name in ("", "relay", "/", "relay/", "/epoch", "i" * 256 + "/1", "r/" + "i" * 513):
            done = run(["run", "--to", "127.0.0.1:1", "--epoch-from", name, path])
            check("no document: %s" % name[:20], done.returncode == 1 and b"--epoch-from INDEX/ID" in done.stderr and done.stdout == b"", done)
    told = run(["help", "run"]).stdout
    for word in (b"--epoch-from <INDEX/ID>", b"epoch: unreachable", b"epoch: spent"):
        check("help run names %s" % word, word in told)


def proxies():
    """Through nginx and haproxy, configured as in examples/proxies."""
    for kind in ("nginx", "haproxy"):
        if shutil.which(kind) is None or shutil.which("openssl") is None:
            print("SKIPPED: an epoch through %s, which is not installed" % kind)
            continue
        with tempfile.TemporaryDirectory() as folder:
            key, chain = certificate(folder)
            path = written(folder, 0, ONE)
            server = TlsCounterServer(key, chain)
            proxy = Proxy(kind, folder, server, chain)
            for counter, target in (("relay/epoch", b"/relay/_doc/epoch"), ("relay/a/b ü%", b"/relay/_doc/a%2Fb%20%C3%BC%25")):
                done = leased(proxy.port, [path], counter=counter)
                check("through %s: %s" % (kind, counter), server.puts[-1][0] == target, (done, server.puts[-1]))
            check("through %s: the epochs" % kind, epochs_of(server) == [1], epochs_of(server))
            done = leased(proxy.port, [path])
            check("through %s: again" % kind, done == ALL_DONE and epochs_of(server) == [1, 2], done)
            proxy.close()
            server.close()
            down = TlsCounterServer(key, chain)
            proxy = Proxy(kind, folder, down, chain)
            down.close()
            done = leased(proxy.port, [path])
            check("through %s: an index that is down" % kind, done[:2] == (3, b"") and done[2] in (b"epoch: status 502\n", b"epoch: status 503\n"), done)
            proxy.close()


GROUPS = (usage, again, stand_in, message, refusals, patient, killed, overlapping, pairs, proxies)
