"""What `relay apply` does."""
import subprocess

from program import RELAY, case, check, deleted, directory, endless, indexed, run

LIMIT = 16777216


def answered(name, body, items, errors=b"false", args=()):
    """The body is served, and the reply has these items."""
    reply = b'200\n{"errors":%s,"items":[%s],"took":0}\n' % (errors, b",".join(items))
    case(name, ["apply", *args], body, reply, b"", 0)


def rejected(name, body, line, kind):
    """The body is not a bulk request: this line has a fault of this kind."""
    case(name, ["apply"], body, b'400\n{"error":{"line":%d,"type":"%s"},"status":400}\n' % (line, kind), b"", 0)


def applied(action, identity, seq, version, result, status):
    return b'{"%s":{"_id":"%s","_index":"b","_seq_no":%d,"_version":%d,"result":"%s","status":%d}}' % (action, identity, seq, version, result, status)


def failed(action, identity, error, status):
    return b'{"%s":{"_id":"%s","_index":"b","error":{"type":"%s"},"status":%d}}' % (action, identity, error, status)


def delete(identity, version):
    return deleted(b'"b"', b'"%s"' % identity, version)


def index(identity, version, source=b"{}"):
    return indexed(b'"b"', b'"%s"' % identity, version, source)


def rows():
    absent = applied(b"delete", b"2", 0, 5, b"not_found", 404)
    conflict = failed(b"index", b"2", b"version_conflict_engine_exception", 409)
    answered("a delete of nothing", delete(b"2", 5), [absent])
    answered(
        "versions below and above one that was deleted",
        delete(b"2", 5) + index(b"2", 4) + index(b"2", 6),
        [absent, conflict, applied(b"index", b"2", 1, 6, b"created", 201)],
        b"true",
    )
    answered("no bytes", b"", [])
    answered(
        "a document is made, replaced and deleted",
        index(b"1", 1) + index(b"1", 2) + delete(b"1", 3) + delete(b"1", 4),
        [
            applied(b"index", b"1", 0, 1, b"created", 201),
            applied(b"index", b"1", 1, 2, b"updated", 200),
            applied(b"delete", b"1", 2, 3, b"deleted", 200),
            applied(b"delete", b"1", 3, 4, b"not_found", 404),
        ],
    )
    answered("a write twice", delete(b"1", 7) * 2, [applied(b"delete", b"1", 0, 7, b"not_found", 404), failed(b"delete", b"1", b"version_conflict_engine_exception", 409)], b"true")
    answered("version 0", index(b"1", 0), [applied(b"index", b"1", 0, 0, b"created", 201)])
    answered("the last version", index(b"1", 9000000000000000000), [applied(b"index", b"1", 0, 9000000000000000000, b"created", 201)])
    answered("a carriage return before a line feed", delete(b"1", 1).replace(b"\n", b"\r\n"), [applied(b"delete", b"1", 0, 1, b"not_found", 404)])
    two = b'{"index":{"_index":"b","_id":"1"}}\n{"title": "Emma"}\n{"delete":{"_id":"2","_index":"b"}}\n'
    answered("what `relay lines` writes", run(["lines"], two).stdout, [applied(b"index", b"1", 0, 1, b"created", 201), applied(b"delete", b"2", 1, 2, b"not_found", 404)])


def refusals():
    body = delete(b"1", 1) + delete(b"2", 2)
    first = applied(b"delete", b"1", 0, 1, b"not_found", 404)
    refused = failed(b"delete", b"2", b"scripted_refusal", 429)
    for text in ("2:429", "0002:0429", "2:400,2:429", "3:503,2:429,18446744073709551615:500"):
        answered("refusals %s" % text, body, [first, refused], b"true", ["--refuse", text])
    answered(
        "a refused write may come again",
        delete(b"1", 1) * 2,
        [failed(b"delete", b"1", b"scripted_refusal", 503), applied(b"delete", b"1", 0, 1, b"not_found", 404)],
        b"true",
        ["--refuse", "1:503"],
    )
    answered("a refusal after the last item", body, [first, applied(b"delete", b"2", 1, 2, b"not_found", 404)], args=["--refuse", "3:429"])
    for text in (
        "", ",", "1", "1:", ":429", "1:429,", ",1:429", "1:429,,2:429", "1:429:1", "1:429;2:429", "0:429", "18446744073709551616:429",
        "1:399", "1:404", "1:409", "1:600", "1:200", "1:65965", "+1:429", "-1:429", "1:+429", "1:-429", " 1:429", "1 :429", "1: 429", "1:429 ", "x:429", "1:x", "1:4\u0662\u0669",
    ):
        done = run(["apply", "--refuse=" + text], body)
        check("no list: %r" % text, done.returncode == 1 and b"--refuse" in done.stderr and done.stdout == b"", done)
    for text, pair in (("x", 1), ("1:429,", 2), ("1:429,2:503,3:404,x", 3)):
        done = run(["apply", "--refuse=" + text], body)
        check("which pair is none: %r" % text, done.returncode == 1 and b"pair %d " % pair in done.stderr, done)


def faults():
    whole = delete(b"1", 1)
    rejected("the last line end is missing", index(b"1", 1) + delete(b"2", 2)[:-1], 3, b"NoFinalNewline")
    rejected("that of a source", index(b"1", 1)[:-1], 2, b"NoFinalNewline")
    for text, kind in [
        (b"\n", b"NotJson"),
        (b"\r\n", b"NotJson"),
        (b"{\n", b"NotJson"),
        (b"\xff\n", b"NotJson"),
        (b"[1]\n", b"NotOneAction"),
        (b'{"create":{"_index":"b","_id":"1","version":1,"version_type":"external"}}\n', b"UnsupportedAction"),
        (b'{"delete":{"_index":"b","_id":"1","version":1,"version_type":"external","routing":"x"}}\n', b"UnsupportedField"),
        (b'{"delete":{"_index":"b","_id":"1","version_type":"external"}}\n', b"VersionMissing"),
        (b'{"delete":{"_index":"b","_id":"1","version":1}}\n', b"VersionMissing"),
        (b'{"delete":{"_index":"b","_id":"1","version":1,"version_type":"external_gte"}}\n', b"VersionMissing"),
        (b'{"delete":{"_index":"b","_id":"1","version":"1","version_type":"external"}}\n', b"VersionMissing"),
        (b'{"delete":{"_index":"b","_id":"1","version":-1,"version_type":"external"}}\n', b"VersionMissing"),
        (b'{"delete":{"_index":"b","_id":"1","version":1.0,"version_type":"external"}}\n', b"VersionMissing"),
        (b'{"delete":{"_index":"b","_id":"1","version":9000000000000000001,"version_type":"external"}}\n', b"VersionMissing"),
        (b'{"delete":{"_id":"1"}}\n', b"VersionMissing"),
        (b'{"delete":{"_id":"1","version":1,"version_type":"external"}}\n', b"MissingIndex"),
        (b'{"delete":{"_index":"b","version":1,"version_type":"external"}}\n', b"MissingId"),
        (b'{"delete":{"_index":"","_id":"1","version":1,"version_type":"external"}}\n', b"IndexEmpty"),
        (b'{"delete":{"_index":"b","_id":"%s","version":1,"version_type":"external"}}\n' % (b"i" * 513), b"IdLong"),
        (b'{"index":{"_index":"b","_id":"1","version":1,"version_type":"external"}}\n', b"SourceMissing"),
        (b" " * 1114113 + b"\n", b"LineLong"),
        (b" " * 1114113, b"LineLong"),
    ]:
        name = text if len(text) < 200 else b"%d bytes" % len(text)
        rejected("fault %r" % name, text, 1, kind)
        rejected("fault %r after a write" % name, whole + text, 2, kind)
        if kind not in (b"SourceMissing", b"LineLong"):
            rejected("fault %r before a fault" % name, text + b"{\n", 1, kind)
    rejected("an empty source", index(b"1", 1, b""), 2, b"SourceEmpty")
    rejected("a source that is not UTF-8", index(b"1", 1, b"\xff"), 2, b"NotJson")


def limits():
    """Sixteen lines of 2^20 bytes are a body at the limit."""
    lines = [delete(b"%d" % n, 1) for n in range(16)]
    padded = [line[:-2] + b" " * (2**20 - len(line)) + b"}\n" for line in lines]
    items = [applied(b"delete", b"%d" % n, n, 1, b"not_found", 404) for n in range(16)]
    body = b"".join(padded)
    assert len(body) == LIMIT
    answered("a body at the limit", body, items)
    answered("a body below it", body.replace(b" }", b"}", 1), items)
    case("a body past it", ["apply"], body.replace(b"}", b" }", 1), b"", b"body too long\n", 2)
    endless("apply", "yes x", b"body too long\n")


def devices():
    directory("apply")
    with open("/dev/full", "wb") as full:
        done = subprocess.run([RELAY, "apply"], input=delete(b"1", 1), stdout=full, stderr=subprocess.PIPE, timeout=60)
        check("an answer to a full device", (done.stderr, done.returncode) == (b"write failed\n", 3), done)


GROUPS = (rows, refusals, faults, limits, devices)
