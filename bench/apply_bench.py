"""Measures `relay apply` on one request: the same number of writes, on few documents and on many."""
import os
import subprocess
import time

TURNS = 5
WRITES = 100000
DOCUMENTS = (100, 100000)


def make_body(path, documents):
    """Writes with increasing versions, cycling through the documents."""
    with open(path, "w") as file:
        for n in range(WRITES):
            file.write('{"index":{"_id":"document-%d","_index":"books","version":%d,"version_type":"external"}}\n{"n":%d}\n' % (n % documents, n + 1, n))


def once(program, path, out):
    with open(path, "rb") as stdin, open(out, "wb") as stdout:
        start = time.monotonic()
        subprocess.run([program, "apply"], stdin=stdin, stdout=stdout, check=True)
        return time.monotonic() - start


def is_applied(out):
    """Returns true if the reply says that every write was applied."""
    with open(out, "rb") as file:
        return file.read().startswith(b'200\n{"errors":false,')


def measure(folder, program):
    print("apply: one request of %d writes, best of %d" % (WRITES, TURNS))
    out = os.path.join(folder, "reply")
    best = {}
    for documents in DOCUMENTS:
        path = os.path.join(folder, "body_%d" % documents)
        make_body(path, documents)
        best[documents] = min(once(program, path, out) for _ in range(TURNS))
        if not is_applied(out):
            raise SystemExit("not every write was applied")
        print("  %6d documents %8.3f s %10.0f writes/s, %.1f MB" % (documents, best[documents], WRITES / best[documents], os.path.getsize(path) / 1e6))
    few, many = DOCUMENTS
    print("  %d documents take %.2f of the time of %d" % (many, best[many] / best[few], few))
