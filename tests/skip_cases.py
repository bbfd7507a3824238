"""What `relay run --skip-invalid` leaves out of damaged files, and what it submits."""
import json
import os
import random
import re
import subprocess
import tempfile

from bulk_server import Server
from program import FEWER, RELAY, check, run
from run_cases import relay_run, unlogged

# How many lines belong to an action of the bulk API.
LINES = {"delete": 1, "index": 2, "create": 2, "update": 2}
LEFT = re.compile(rb"(\S+): invalid operations left out: (\d+)\n")


def no_constant(word):
    raise ValueError(word)


def action_of(text):
    """Returns the name of an action line of the bulk API and its metadata, or None."""
    try:
        value = json.loads(text.decode(), parse_constant=no_constant)
    except (UnicodeDecodeError, ValueError, RecursionError):
        return None
    if not isinstance(value, dict) or len(value) != 1:
        return None
    (name, meta), = value.items()
    return (name, meta) if name in LINES and isinstance(meta, dict) else None


def action_fault(name, meta):
    """Returns the fault of an action with a default index, in the order of the table, or None."""
    if name not in ("index", "delete"):
        return "UnsupportedAction"
    if set(meta) - {"_index", "_id", "version", "version_type"}:
        return "UnsupportedField"
    if set(meta) & {"version", "version_type"}:
        return "VersionGiven"
    if not isinstance(meta.get("_index", "books"), str):
        return "MissingIndex"
    identity = meta.get("_id")
    if not isinstance(identity, (str, int)) or isinstance(identity, bool):
        return "MissingId"
    index, identity = meta.get("_index", "books"), str(identity)
    if not 1 <= len(index.encode()) <= 255:
        return "IndexEmpty" if not index else "IndexLong"
    if not 1 <= len(identity.encode()) <= 512:
        return "IdEmpty" if not identity else "IdLong"
    return None


def source_fault(text):
    try:
        text.decode()
    except UnicodeDecodeError:
        return "NotJson"
    if not text:
        return "SourceEmpty"
    return "SourceNewline" if b"\r" in text else None


def text_of(line):
    return line[:-2] if line.endswith(b"\r\n") else line[:-1] if line.endswith(b"\n") else line


def lines_of(data):
    return re.findall(rb"[^\n]*\n|[^\n]+\Z", data)


def sifted(data, producer):
    """Returns what a file has: its valid operations, what is written of the others, and whether it was read to its end."""
    lines = lines_of(data)
    ops, left, at = [], b"", 0
    while at < len(lines):
        text = text_of(lines[at])
        if not text:
            at += 1
            continue
        action = action_of(text)
        if action is None:
            return ops, left, False
        name, meta = action
        count, fault, where = LINES[name], action_fault(name, meta), at + 1
        taken = lines[at:at + count]
        if not fault and len(taken) < count:
            fault = "SourceMissing"
        if not fault and count == 2:
            fault, where = source_fault(text_of(taken[1])), at + 2
        if fault:
            own = b"".join(taken)
            left += b'{"invalid":{"kind":"%s","line":%d,"producer":%d}}\n' % (fault.encode(), where, producer)
            left += own + (b"" if own.endswith(b"\n") else b"\n")
        else:
            key = (meta.get("_index", "books"), str(meta["_id"]))
            ops.append((key, name, text_of(taken[1]).decode() if count == 2 else None))
        at += len(taken)
    return ops, left, True


# Actions of which some are valid.
ACTIONS = (
    '{"index":{"_id":"%s"}}', '{"index":{"_id":"%s"}}', '{"index":{"_id":"%s"}}', '{"delete":{"_id":"%s"}}', '{"index":{"_index":"b","_id":"%s"}}',
    '{"index":{"_id":"%s","routing":"r"}}', '{"create":{"_id":"%s"}}', '{"update":{"_id":"%s"}}', '{"delete":{"_id":"%s","version":3}}',
    '{"index":{"_index":null,"_id":"%s"}}', '{"index":{"_Id":"%s"}}', '{"index":{"_index":"","_id":"%s"}}', '{ "index" : { "_id" : "%s" } }')


def damaged(rng, name):
    """A file with operations on documents of its own, damaged at random."""
    parts = []
    for n in range(rng.randrange(1, 12)):
        action = rng.choice(ACTIONS if rng.random() < 0.5 else ACTIONS[:5]) % ("%s-%d" % (name, rng.randrange(4)))
        parts.append(action.encode() + rng.choice((b"\n", b"\n", b"\r\n")))
        if '"delete"' not in action and rng.random() < 0.97:
            parts.append(rng.choice((b'{"n":%d}' % n, b'{"n":%d}' % n, b"", b"x\ry", b"\xff", b"{}")) + b"\n")
        if rng.random() < 0.1:
            parts.append(b"\n")
    data = bytearray(b"".join(parts))
    for _ in range(rng.choice((0, 0, 0, 1, 2))):
        at = rng.randrange(len(data))
        data[at:at + rng.randrange(2)] = rng.choice((b"", b"x", b"\n", b'"', b"{", b"}", b"\x80", b" "))
    if rng.random() < 0.2:
        del data[rng.randrange(len(data)):]
    return bytes(data)


def by_producer(text):
    """What was written of each producer, in order."""
    found, producer = {}, None
    for line in re.findall(rb"[^\n]*\n", text):
        head = re.fullmatch(rb'\{"invalid":\{"kind":"\w+","line":\d+,"producer":(\d+)\}\}\n', line)
        producer = int(head.group(1)) if head else producer
        found[producer] = found.get(producer, b"") + line
    return found


def at_random(seeds=125, files=16):
    """Of 2,000 damaged files each operation whose lines are whole and valid is submitted, none twice, up to a line of which nobody
    can say what belongs to it; the lines of the others are in the file, as they are."""
    with tempfile.TemporaryDirectory() as folder:
        for seed in range(seeds):
            rng = random.Random(seed)
            paths, wanted, lefts, whole = [], {}, {}, True
            for p in range(files):
                data = damaged(rng, "s%d-%d" % (seed, p))
                paths.append(os.path.join(folder, "ops%d" % p))
                with open(paths[-1], "wb") as file:
                    file.write(data)
                ops, left, ended = sifted(data, p)
                whole = whole and ended
                for key, kind, source in ops:
                    wanted.setdefault(key, []).append((kind, source))
                if left:
                    lefts[p] = left
            out_path = os.path.join(folder, "left%d" % seed)
            server = Server()
            status, out, err = relay_run(server.port, paths, "--index", "books", "--skip-invalid", out_path)
            server.close()
            found = {key: [(kind, source) for _, kind, source in writes] for key, writes in server.index.applied.items()}
            check("seed %d: each valid operation is submitted once, in order" % seed, found == wanted, (found, wanted))
            with open(out_path, "rb") as file:
                check("seed %d: the lines of the others" % seed, by_producer(file.read()) == lefts, lefts)
            ends = 2 if not whole else 5 if lefts else 0
            count = sum(it.count(b'{"invalid":') for it in lefts.values())
            said = LEFT.search(err)
            right = status == ends and (int(said.group(2)) if said else 0) == count
            check("seed %d: the status" % seed, right, (status, ends, count, err))


def one_file():
    """The messages and the exit status, the file that takes the lines, and what ends a file all the same."""
    with tempfile.TemporaryDirectory() as folder:
        path, left = os.path.join(folder, "ops"), os.path.join(folder, "left")

        def put(text):
            with open(path, "w") as file:
                file.write(text)

        def content():
            with open(left) as file:
                return file.read()

        put('{"index":{"_id":"1"}}\n{}\n{"create":{"_id":"2"}}\n{"a":2}\n{"delete":{"_id":"3"}}\n')
        server = Server()
        done = relay_run(server.port, [path], "--index", "b", "--skip-invalid", left)
        check("one is left out", done == (5, b"applied 2 already 0 reported 0\n", b"%s: invalid operations left out: 1\n" % left.encode()), done)
        check("its lines", content() == '{"invalid":{"kind":"UnsupportedAction","line":3,"producer":0}}\n{"create":{"_id":"2"}}\n{"a":2}\n', content())
        done = relay_run(server.port, [path], "--epoch", "1", "--index", "b", "--skip-invalid", left)
        check("the file has a content", done[0] == 1 and b"--skip-invalid FILE is not empty" in done[2] and done[1] == b"", done)
        done = relay_run(server.port, [path], "--epoch", "1", "--index", "b", "--skip-invalid", path)
        check("the file is read", done[0] == 1 and b"--skip-invalid FILE has to be a file of its own" in done[2], done)
        report = os.path.join(folder, "report")
        done = relay_run(server.port, [path], "--index", "b", "--skip-invalid", report, "--report", report)
        check("the file takes the reports", done[0] == 1 and b"not that of --report" in done[2], done)
        with open(path) as file:
            check("nothing was emptied", file.read().startswith('{"index":{"_id":"1"}}'), path)
        os.remove(left)
        put('{"index":{"_id":"1"}}\n{}\n{"index":{"routing":1}}\n{}\n[]\n{"delete":{"_id":"3"}}\n')
        done = relay_run(server.port, [path], "--epoch", "2", "--index", "b", "--skip-invalid", left)
        check("what cannot be told apart ends the file, at its own line", done[0] == 2 and done[2].startswith(b"%s: line 5: NotOneAction\n" % path.encode()) and done[1] == b"applied 1 already 0 reported 0\n", done)
        os.remove(left)
        put('{"index":{"_id":"1"}}\n{}\n')
        done = relay_run(server.port, [path], "--epoch", "3", "--index", "b", "--skip-invalid", left)
        check("nothing is left out", done == (0, b"applied 1 already 0 reported 0\n", b"") and content() == "", done)
        done = relay_run(server.port, [path], "--epoch", "4", "--index", "b", "--skip-invalid", "/dev/full")
        check("a full device is not asked if nothing is left out", done[0] == 0, done)
        put('{"create":{"_id":"1"}}\n{}\n')
        done = relay_run(server.port, [path], "--epoch", "5", "--index", "b", "--skip-invalid", "/dev/full")
        check("what is left out cannot be written", done[0] == 3 and done[2].endswith(b"/dev/full: write failed\n"), done)
        server.close()


def subject_of(kind, text):
    """Returns what is said beneath a fault of an action line, or None if that is left open here."""
    name, meta = action_of(text)
    if kind == "UnsupportedAction":
        return b"  the action %s is not supported: index and delete are\n" % name.encode()
    if kind != "UnsupportedField":
        return b""
    member = next(it for it in meta if it not in ("_index", "_id", "version", "version_type"))
    return b"  the member %s is not supported\n" % member.encode() if re.fullmatch(r"\w+", member, re.ASCII) else None


def listed(data):
    """Returns a pattern of what `relay lines --check` writes, and whether there is a fault."""
    _, left, whole = sifted(data, 0)
    heads = re.findall(rb'^\{"invalid":\{"kind":"(\w+)","line":(\d+),"producer":0\}\}\n', left, re.M)
    pattern, lines = b"", lines_of(data)
    for kind, line in heads:
        subject = subject_of(kind.decode(), text_of(lines[int(line) - 1])) if kind.startswith(b"Unsupported") else b""
        pattern += re.escape(b"line %s: %s\n" % (line, kind)) + (rb"(?:  the [^\n]*\n)?" if subject is None else re.escape(subject))
    return pattern if whole else pattern + rb"line \d+: \w+\n(?:  the [^\n]*\n)?", bool(heads) or not whole


def checks():
    """`relay lines --check` lists the faults of an input, each as `relay lines` says the first, with what it is about beneath it."""
    for seed in range(150):
        rng = random.Random(seed)
        data = damaged(rng, "s%d" % seed)
        pattern, bad = listed(data)
        done = run(["lines", "--check", "--index", "books"], data)
        check("check, seed %d" % seed, re.fullmatch(pattern, done.stdout) and done.stderr == b"" and done.returncode == (2 if bad else 0), (data, pattern, done))
        first = run(["lines", "--index", "books"], data)
        check("check, seed %d: the first" % seed, done.stdout.split(b"\n")[0] == first.stderr.rstrip(b"\n"), (data, done, first))
    many = 1_000 if FEWER else 40_000
    data = b'{"create":{"_id":"1"}}\n{}\n' * many
    done = run(["lines", "--check", "--index", "b"], data)
    wanted = b"".join(b"line %d: UnsupportedAction\n  the action create is not supported: index and delete are\n" % (2 * n + 1) for n in range(many))
    check("check: many faults", (done.stdout, done.stderr, done.returncode) == (wanted, b"", 2), done.stderr)
    for data, text in (
        (b"", b""), (b"\n" * 65_536, b""), (b"\n" * 65_540, b"line 65537: LineLong\n"), (b"x" * 1_200_000, b"line 1: LineLong\n"),
        (b'{"index":{"_id":"1"}}\n' + b"x" * 1_200_000, b"line 2: LineLong\n"), (b"[]\n[]\n", b"line 1: NotOneAction\n"),
        (b'{"purge":{}}\n', b"line 1: UnsupportedAction\n  the action purge is not supported: index and delete are\n"),
        (b'{"delete":{"%s":1}}\n' % (b"n" * 64), b"line 1: UnsupportedField\n  the member %s is not supported\n" % (b"n" * 64)),
        (b'{"delete":{"%s":1}}\n' % (b"n" * 65), b"line 1: UnsupportedField\n"), (b'{"delete":{"\\n":1}}\n', b"line 1: UnsupportedField\n"),
    ):
        done = run(["lines", "--check", "--index", "b"], data)
        check("check: %s" % data[:40], (done.stdout, done.stderr, done.returncode) == (text, b"", 2 if text else 0), done)


def through_a_pipe(port, text, *more):
    """Runs with this text on standard input, a pipe."""
    done = subprocess.run([RELAY, "run", "--to", "127.0.0.1:%d" % port, *more, "-"], input=text, capture_output=True, timeout=300)
    return done.returncode, done.stdout, unlogged(done.stderr)


def subjects():
    """Beneath the fault of a file a line says what it is about, also of a pipe, and far into a file."""
    with tempfile.TemporaryDirectory() as folder:
        path = os.path.join(folder, "ops")
        for bad, said in (
            ('{"create":{"_id":"1"}}\n{}\n', b"UnsupportedAction\n  the action create is not supported: index and delete are\n"),
            ('{"delete":{"_id":"1","routing":"r"}}\n', b"UnsupportedField\n  the member routing is not supported\n"),
            ('{"delete":{"_index":"b"}}\n', b"MissingId\n"),
        ):
            for many in (0, 1, 6_000):
                with open(path, "w") as file:
                    file.write("".join('{"delete":{"_id":"%d"}}\n' % n for n in range(many)) + bad + '{"delete":{"_id":"1"}}\n' * 3_000)
                server = Server()
                done = relay_run(server.port, [path], "--index", "b", "--count", "5000")
                with open(path, "rb") as file:
                    piped = through_a_pipe(server.port, file.read(), "--index", "b", "--epoch", "1", "--count", "5000")
                server.close()
                counts, fault = b"applied %d already 0 reported 0\n" % many, b"line %d: %s" % (many + 1, said)
                wanted = (2, counts, b"%s: %s" % (path.encode(), fault))
                check("the subject, after %d: %s" % (many, bad), done == wanted, (done, wanted))
                wanted = (2, counts, b"-: " + fault)
                check("the subject through a pipe, after %d: %s" % (many, bad), piped == wanted, (piped, wanted))


GROUPS = (one_file, at_random, checks, subjects)
