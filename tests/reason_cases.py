"""What an item's error says: reasons that reach the report, and conflicts that state the stored version."""
import json
import os
import re
import socket
import tempfile
import threading

from apply_cases import index
from bulk_server import Server
from program import case, check
from run_cases import HINT, relay_run, written
from stub_cases import Stub, answers, free_port

EPOCH = 2**40
OPS = [("%d" % n, '{"n":%d}' % n) for n in range(5)]
CONFLICTS = b"".join(b"report 1.0:%d books/%d Conflict\n" % (n + 1, n) for n in range(5))


def stated(identity, stored, provided):
    return "[%s]: version conflict, current version [%d] is higher or equal to the one provided [%d]" % (identity, stored, provided)


def server_with(versions, states=True, **more):
    """Returns a server whose index has these versions of the documents from before."""
    server = Server(states=states, **more)
    server.index.versions.update({("books", identity): version for identity, version in versions.items()})
    return server


def reports_in(path):
    """The reports of a file, by producer and number."""
    with open(path) as file:
        return sorted(map(json.loads, file), key=lambda it: (it["producer"], it["number"]))


def old_epoch(name, fault, stored, hint):
    """Five operations in epoch 1 over higher versions, with a fault before the first answer: each is reported, with the version
    and the reason, nothing is counted or written, and the hint is the only line on standard error."""
    versions = {identity: stored + n for n, (identity, _) in enumerate(OPS)}
    server = server_with(versions, plan=lambda number: fault if number == 1 else None)
    with tempfile.TemporaryDirectory() as folder:
        report = os.path.join(folder, "report.ndjson")
        done = relay_run(server.port, [written(folder, 0, OPS)], "--epoch", "1", "--linger", "0", "--report", report)
        check("%s: what it prints" % name, done == (5, CONFLICTS + b"applied 0 already 0 reported 5\n", hint), done)
        wanted = [{"cause": "Conflict", "epoch": 1, "id": "%d" % n, "index": "books", "number": n + 1, "producer": 0, "reason": stated(n, stored + n, EPOCH + n + 1), "stored": stored + n} for n in range(5)]
        check("%s: the report" % name, reports_in(report) == wanted, reports_in(report))
    check("%s: nothing was written" % name, server.index.applied == {}, server.index.applied)
    server.close()


def old_epochs():
    third = b"the index has versions of epoch 3: run again with --epoch 4 or higher\n"
    other = b"the index has versions of this epoch or of an earlier one: of another run in it, or of another writer\n"
    beyond = b"the index has versions that no epoch is above: of another writer\n"
    for fault in ("drop before", "drop after", 503, 429):
        old_epoch("an old epoch and %s" % fault, fault, 3 * EPOCH + 1, third)
    old_epoch("another writer in this epoch", 503, EPOCH + 100, other)
    old_epoch("versions above all epochs", 503, 2**63, beyond)


def first_connection_refused():
    """The same if nobody listens at first."""
    server = server_with({identity: 3 * EPOCH + 1 for identity, _ in OPS})
    server.go_down()
    with tempfile.TemporaryDirectory() as folder:
        threading.Timer(0.3, server.come_up).start()
        done = relay_run(server.port, [written(folder, 0, OPS)], "--epoch", "1", "--linger", "0")
    check("a refused connection and an old epoch", done[:2] == (5, CONFLICTS + b"applied 0 already 0 reported 5\n") and HINT.fullmatch(done[2]), done)
    server.close()


def own_writes():
    """A repeat of what an earlier request applied counts as applied, whether or not the index states its version."""
    for states in (True, False):
        server = server_with({}, states, plan=lambda number: "drop after" if number == 1 else None)
        with tempfile.TemporaryDirectory() as folder:
            done = relay_run(server.port, [written(folder, 0, OPS)], "--epoch", "1", "--linger", "0")
        counts = re.fullmatch(rb"applied (\d) already ([1-5]) reported 0\n", done[1])
        check("own writes, stated: %s" % states, done[0] == 0 and counts and sum(map(int, counts.groups())) == 5 and done[2] == b"", done)
        server.close()


def hostile_ids():
    """The id of a document may hold what the index writes: the version counts that stands last."""
    ops = [("current version [%d]" % (EPOCH + 1), "{}")]
    server = server_with({ops[0][0]: 5 * EPOCH + 3}, plan=lambda number: 503 if number == 1 else None)
    with tempfile.TemporaryDirectory() as folder:
        report = os.path.join(folder, "report.ndjson")
        done = relay_run(server.port, [written(folder, 0, ops)], "--epoch", "1", "--linger", "0", "--report", report)
        found = [it.get("stored") for it in reports_in(report)]
    check("an id that reads like a version", done[0] == 5 and done[2] == b"the index has versions of epoch 5: run again with --epoch 6 or higher\n" and found == [5 * EPOCH + 3], (done, found))
    server.close()


class Mapped(Server):
    """A server that refuses each write with this error."""

    error = {}

    def run(self, kind, meta, source):
        return {kind: {"_id": meta["_id"], "status": 400, "error": self.error}}


def reasons():
    """The reason of a refusal reaches the report, cut after 512 bytes at the end of a character; the printed line has the type."""
    long = "a" * 511 + "\u00e9" + "b"
    for reason, kept in (("failed to parse field [year] of type [long]", "failed to parse field [year] of type [long]"), ("\u00e9\n\"x\"", "\u00e9\n\"x\""), (long, "a" * 511), ("", ""), (7, None), (None, None)):
        server = Mapped()
        server.error = {"type": "mapper_parsing_exception", "reason": reason}
        with tempfile.TemporaryDirectory() as folder:
            report = os.path.join(folder, "report.ndjson")
            done = relay_run(server.port, [written(folder, 0, OPS[:1])], "--report", report)
            found = reports_in(report)
        wanted = {"cause": "Refused", "id": "0", "index": "books", "kind": "mapper_parsing_exception", "number": 1, "producer": 0, "status": 400}
        wanted.update({} if kept is None else {"reason": kept})
        check("a reason of a refusal: %.20r" % (reason,), found == [wanted], found)
        check("its line: %.20r" % (reason,), done == (5, b"report 0:1 books/0 Refused 400 mapper_parsing_exception\napplied 0 already 0 reported 1\n", b""), done)
        server.close()


class Denied(Server):
    """A server that answers each request with a status, and with this body."""

    body = b""

    def reply_with(self, stream, fault, whole, reply):
        return self.send(stream, whole, self.body)


def error_body(error):
    return json.dumps({"error": error, "status": 418}).encode()


def whole_reasons():
    """The reason for the status of a whole request reaches the report on its first operation, and no other."""
    denied = "missing authentication credentials for REST request [/_bulk]"
    long = "a" * 511 + "\u00e9" + "b"
    for body, reason in (
        (error_body({"root_cause": [{"type": "security_exception", "reason": "another"}], "type": "security_exception", "reason": denied}), denied),
        (error_body(denied), denied),
        (error_body(long), "a" * 511),
        (error_body({"type": "security_exception"}), None),
        (error_body({"reason": 7}), None),
        (error_body(None), None),
        (b"<html><body>I am a teapot</body></html>", None),
        (b"", None),
    ):
        server = Denied(lambda number: 418)
        server.body = body
        with tempfile.TemporaryDirectory() as folder:
            report = os.path.join(folder, "report.ndjson")
            done = relay_run(server.port, [written(folder, 0, OPS)], "--report", report)
            found = reports_in(report)
        wanted = [{"cause": "Request", "id": "%d" % n, "index": "books", "number": n + 1, "producer": 0, "status": 418} for n in range(5)]
        firsts = [it for it in found if "reason" in it]
        plain = [{name: it[name] for name in it if name != "reason"} for it in found]
        requests = server.requests
        check("a reason of a whole request: %.40r" % body, plain == wanted and done[0] == 5, (done, found))
        check("the first of each request has it: %.40r" % body, [it["reason"] for it in firsts] == ([] if reason is None else [reason] * requests) and (reason is None or found[0] in firsts), (requests, found))
        server.close()


def last_words():
    """A report on an operation that was given up says what became of the last request that carried it."""
    silent = socket.create_server(("127.0.0.1", 0))
    with tempfile.TemporaryDirectory() as folder:
        path = written(folder, 0, OPS[:1])

        def last(name, port, wanted, sends, *args):
            report = os.path.join(folder, "report.ndjson")
            done = relay_run(port, [path], "--attempts", "%d" % sends, "--report", report, *args)
            found = reports_in(report)
            os.remove(report)
            gave_up = {"cause": "GaveUp", "id": "0", "index": "books", "last": wanted, "number": 1, "producer": 0, "sends": sends}
            check("the last word: %s" % name, found == [gave_up] and done == (5, b"report 0:1 books/0 GaveUp %d\napplied 0 already 0 reported 1\n" % sends, b""), (done, found))

        last("nobody listens", free_port(), "refused", 1)
        last("nobody answers", silent.getsockname()[1], "timeout", 1, "--timeout", "1")
        for fault, wanted in (("drop before", "closed"), ("drop after", "closed"), ("half", "closed"), ("garbage", "unreadable"), ("no items", "unreadable"), (429, "status 429"), (502, "status 502"), (503, "status 503"), (504, "status 504")):
            server = Server(lambda number: 503 if number == 1 and fault != 503 else fault)
            last("%s" % fault, server.port, wanted, 2)
            server.close()
        for status in (429, 503):
            server = Server(refuse=lambda meta: status)
            last("an item with %d" % status, server.port, "item %d" % status, 2)
            server.close()
    silent.close()


def stand_ins():
    """With --reasons the stand-ins state the stored version, and without it they do not."""
    body = index(b"2", 9, b"{}") + index(b"2", 7, b"{}")
    reason = b'"reason":"[2]: version conflict, current version [9] is higher or equal to the one provided [7]",'
    for args, said in (([], b""), (["--reasons"], reason)):
        reply = b'{"errors":true,"items":[{"index":{"_id":"2","_index":"b","_seq_no":0,"_version":9,"result":"created","status":201}},{"index":{"_id":"2","_index":"b","error":{%s"type":"version_conflict_engine_exception"},"status":409}}],"took":0}' % said
        case("apply %s" % args, ["apply", *args], body, b"200\n" + reply + b"\n", b"", 0)
        stub = Stub(1, reasons=bool(args))
        answers(stub, "stub %s" % args, body, (200, reply))
        stub.ends("the end of stub %s" % args, b"applied b/2 9 index\n")


SCRIPT = b"""world 1 1 10 10 10 4096 0 3 1 0 1000
put 0 b 1 index {"a":1}
take 0
send 0
run 1 1
lost 1
tick 0
take 0
send 0
run 2 1
reply 2
"""


def world():
    """A repeat that conflicts with its own version ends as already applied, stated or not."""
    printed = b"ok 0:1\nok\nok 1 b/1@1\nok 201\nok 0 0 0 1\nok\nok\nok 2 b/1@1\nok 409\nok 0 1 0 0\naccepted 0 1\napplied b/1 1 0:1\nfinished no\n"
    for args in ([], ["--reasons"]):
        case("world %s" % args, ["world", *args], SCRIPT, printed, b"", 0)


GROUPS = (old_epochs, first_connection_refused, own_writes, hostile_ids, reasons, whole_reasons, last_words, stand_ins, world)
