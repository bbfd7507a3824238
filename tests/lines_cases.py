"""What `relay lines` does."""
import os
import subprocess
import time

from program import RELAY, case, check, deleted, directory, endless, indexed

INDEX = b'{"index":{"_index":"b","_id":"1"}}\n'
DELETE = b'{"delete":{"_index":"b","_id":"1"}}\n'


def fault(name, stdin, text, stdout=b"", args=()):
    case(name, ["lines", *args], stdin, stdout, text + b"\n", 2)


def rows():
    case(
        "two operations",
        ["lines"],
        b'{"index":{"_index":"books","_id":"1"}}\n{"title": "Emma"}\n{"delete":{"_id":"2","_index":"books"}}\n',
        b'{"index":{"_id":"1","_index":"books","version":1,"version_type":"external"}}\n{"title": "Emma"}\n'
        b'{"delete":{"_id":"2","_index":"books","version":2,"version_type":"external"}}\n',
        b"",
        0,
    )
    case("empty input", ["lines"], b"", b"", b"", 0)
    case("no last line end", ["lines"], INDEX + b'{"a":1}', indexed(b'"b"', b'"1"', 1, b'{"a":1}'), b"", 0)
    case("blank lines alone", ["lines"], b"\n\r\n\n", b"", b"", 0)
    case(
        "integer id and escapes",
        ["lines", "--index", "b"],
        b'{"delete":{"_id":7}}\n{"delete":{"_id":"a\\"\\u0001\\n"}}\n',
        deleted(b'"b"', b'"7"', 1) + deleted(b'"b"', b'"a\\"\\u0001\\n"', 2),
        b"",
        0,
    )
    case("a negative id", ["lines"], b'{"delete":{"_id":-9,"_index":"b"}}\n', deleted(b'"b"', b'"-9"', 1), b"", 0)
    case("a first version", ["lines", "--first", "41"], DELETE, deleted(b'"b"', b'"1"', 41), b"", 0)
    case(
        "versions end",
        ["lines", "--first", "9000000000000000000"],
        DELETE + DELETE,
        deleted(b'"b"', b'"1"', 9000000000000000000),
        b"line 2: VersionsSpent\n",
        2,
    )
    case("all escapes", ["lines"], b'{"delete":{"_index":"b","_id":"\\b\\t\\n\\f\\r\\"\\\\\\/\\u001f\\u007f\\u00e9"}}\n', deleted(b'"b"', b'"\\b\\t\\n\\f\\r\\"\\\\/\\u001f\x7f\xc3\xa9"', 1), b"", 0)
    case("a member given twice counts as its last", ["lines"], b'{"delete":{"_id":"1","_index":"a","_id":"2","_index":"b"}}\n', deleted(b'"b"', b'"2"', 1), b"", 0)


def faults():
    for text, kind in [
        (b'{"create":{"_index":"b","_id":"1"}}\n', b"UnsupportedAction"),
        (b'{"create":1}\n', b"NotOneAction"),
        (b'{"index":{"_index":"b"}}\n', b"MissingId"),
        (b'{"index":{"_index":"b","_id":"1","version":3}}\n', b"VersionGiven"),
        (b'{"index":{"_index":"b","_id":"1","version_type":"external"}}\n', b"VersionGiven"),
        (b'{"index":{"_index":"b","_id":"1","routing":"x"}}\n', b"UnsupportedField"),
        (INDEX, b"SourceMissing"),
        (INDEX[:-1], b"SourceMissing"),
        (b'{"delete":{"_id":"1"}}\n', b"MissingIndex"),
        (b'{"delete":{"_id":"1","_index":5}}\n', b"MissingIndex"),
        (b"[1]\n", b"NotOneAction"),
        (b"{}\n", b"NotOneAction"),
        (b'{"index":{},"delete":{}}\n', b"NotOneAction"),
        (b"{\n", b"NotJson"),
        (b"\xff\n", b"NotJson"),
        (b"\r", b"NotJson"),
        (b'{"delete":{"_index":"b","_id":"1","x":1e999}}\n', b"NotJson"),
        (b'{"delete":{"_index":"b","_id":1.0}}\n', b"MissingId"),
        (b'{"delete":{"_index":"b","_id":-0}}\n', b"MissingId"),
        (b'{"delete":{"_index":"b","_id":18446744073709551616}}\n', b"MissingId"),
        (b'{"delete":{"_index":"","_id":"1"}}\n', b"IndexEmpty"),
        (b'{"delete":{"_index":"b","_id":""}}\n', b"IdEmpty"),
    ]:
        fault("fault %r" % text, text, b"line 1: " + kind)
        fault("fault %r after an operation" % text, DELETE + text, b"line 2: " + kind, deleted(b'"b"', b'"1"', 1))
        if kind != b"SourceMissing":
            fault("fault %r before a fault" % text, text + b"{\n", b"line 1: " + kind)
    fault("third line", b"\n\n[1]\n", b"line 3: NotOneAction")
    fault("an empty source", INDEX + b"\n", b"line 2: SourceEmpty")
    fault("a source with a carriage return", INDEX + b"a\rb\n", b"line 2: SourceNewline")
    fault("a last carriage return", INDEX + b"a\r", b"line 2: SourceNewline")
    fault("a source that is not UTF-8", INDEX + b"\xff\n", b"line 2: NotJson")
    fault("what stands before is written", DELETE + b"{\n" + DELETE, b"line 2: NotJson", deleted(b'"b"', b'"1"', 1))
    fault("an empty default index", b'{"delete":{"_id":"1"}}\n', b"line 1: IndexEmpty", args=["--index", ""])
    fault("a long default index", b'{"delete":{"_id":"1"}}\n', b"line 1: IndexLong", args=["--index", "x" * 256])


def cuts():
    """An action line that is cut anywhere is not JSON; one that lacks only its line end is complete."""
    for end in range(1, len(DELETE) - 1):
        fault("cut at %d" % end, DELETE[:end], b"line 1: NotJson")


def limits():
    line = 1114112
    key = b'{"delete":{"_index":"b","_id":"1"}}'
    padded = key[:-1] + b" " * (line - len(key)) + b"}"
    written = deleted(b'"b"', b'"1"', 1)
    for end in (b"\n", b"\r\n", b""):
        case("a line at the limit, %r" % end, ["lines"], padded + end, written, b"", 0)
        fault("a line past it, %r" % end, b" " + padded + end, b"line 1: LineLong")
    fault("a lone carriage return past the limit", padded + b"\r", b"line 1: LineLong")
    fault("a carriage return and more past the limit", padded + b"\rx\n", b"line 1: LineLong")
    source = b"x" * 1048576
    case("a source at the limit", ["lines"], INDEX + source + b"\n", indexed(b'"b"', b'"1"', 1, source), b"", 0)
    fault("a source past it", INDEX + source + b"x\n", b"line 2: SourceLong")
    for size, kind in ((512, None), (513, b"IdLong")):
        text = b'{"delete":{"_index":"b","_id":"%s"}}\n' % (b"i" * size)
        if kind is None:
            case("an id of %d" % size, ["lines"], text, deleted(b'"b"', b'"%s"' % (b"i" * size), 1), b"", 0)
        else:
            fault("an id of %d" % size, text, b"line 1: " + kind)
    fault("an index name of 256", b'{"delete":{"_index":"%s","_id":"1"}}\n' % (b"i" * 256), b"line 1: IndexLong")
    case("blank lines at the limit", ["lines"], b"\n" * 65536 + DELETE, written, b"", 0)
    case("blank lines at the limit at the end", ["lines"], b"\n" * 65536, b"", b"", 0)
    fault("blank lines past it", b"\n" * 65537, b"line 65537: LineLong")
    endless("lines", "yes x | tr -d '\\n'", b"line 1: LineLong\n")
    endless("lines", "yes ''", b"line 65537: LineLong\n")
    for depth, good in ((125, True), (126, False)):
        nested = b'{"delete":{"_index":"b","_id":"1","x":%s%s}}\n' % (b"[" * depth, b"]" * depth)
        fault("a member that nobody looks at, %d deep in all" % (depth + 2), nested, b"line 1: UnsupportedField" if good else b"line 1: NotJson")


def devices():
    directory("lines")
    with open("/dev/full", "wb") as full:
        done = subprocess.run([RELAY, "lines"], input=DELETE, stdout=full, stderr=subprocess.PIPE, timeout=60)
        check("a full device", (done.stderr, done.returncode) == (b"write failed\n", 3), done)
        done = subprocess.run([RELAY, "--version"], stdout=full, stderr=subprocess.PIPE, timeout=60)
        check("the version to a full device", (done.stderr, done.returncode) == (b"write failed\n", 3), done)
        done = subprocess.run([RELAY, "lines"], input=b"{\n", stdout=subprocess.PIPE, stderr=full, timeout=60)
        check("a fault that cannot be printed", (done.stdout, done.returncode) == (b"", 2), done)
    read, write = os.pipe()
    process = subprocess.Popen([RELAY, "lines"], stdin=subprocess.PIPE, stdout=write, stderr=subprocess.PIPE)
    os.close(write)
    os.close(read)
    _, stderr = process.communicate(DELETE * 40000, timeout=60)
    check("a closed pipe", (stderr, process.returncode) == (b"write failed\n", 3), (stderr, process.returncode))


def prompt():
    """Each line is written before the next one is read."""
    process = subprocess.Popen([RELAY, "lines"], stdin=subprocess.PIPE, stdout=subprocess.PIPE)
    started = time.monotonic()
    for version in range(1, 4):
        process.stdin.write(DELETE)
        process.stdin.flush()
        line = process.stdout.readline()
        check("line %d comes at once" % version, line == deleted(b'"b"', b'"1"', version), line)
    process.stdin.write(INDEX)
    process.stdin.write(b"{}\n\n")
    process.stdin.flush()
    lines = process.stdout.readline() + process.stdout.readline()
    check("and an operation of two lines", lines == indexed(b'"b"', b'"1"', 4, b"{}"), lines)
    process.stdin.close()
    check("and it ends", process.wait(timeout=60) == 0 and time.monotonic() - started < 30)


GROUPS = (rows, faults, cuts, limits, devices, prompt)
