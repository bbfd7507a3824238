"""The relay beside what people use today, on the same faults: `python3 bench/compare.py [PROGRAM]`, which `make compare` runs.

Each program passes the same 20,000 writes of 500 documents to a server that loses replies, refuses items, drops connections or
refuses large bodies, and that knows what it applied (`compare_server.py` has the faults). Beside it stand the helpers of Python's
client, Perl's helper and Go's BulkProcessor, each from its Debian package; what is absent is named and left out. For each program and
fault it prints how many writes were

    lost      never applied, and not reported
    twice     applied more than once
    disorder  applied after a later one of the same document
    wrong     not applied last, though last in the input: documents that end wrong
    false     reported as failed, though applied

and the operations a second. `--figures` also writes the sums over the faults into README.md and draws `docs/compare.svg`.
"""
import collections
import datetime
import json
import os
import random
import shutil
import subprocess
import sys
import tempfile
import time

HERE = os.path.dirname(os.path.abspath(__file__))
TOP = os.path.dirname(HERE)
FAULTS = ("none", "429", "lost", "dropped", "both", "413")
WRITES, DOCUMENTS, SEED, SECONDS = 20_000, 500, 1, 60
COUNTS = ("lost", "twice", "disorder", "wrong", "false")
# A program: its name in the table, the package that it needs, whether that is there, and its command for a port and a file.
Peer = collections.namedtuple("Peer", "name package command")
Row = collections.namedtuple("Row", "lost twice disorder wrong false seconds ended")


def has(command):
    return subprocess.run(command, stdout=subprocess.DEVNULL, stderr=subprocess.DEVNULL).returncode == 0


def processor_in(folder):
    """Builds Go's BulkProcessor there, and returns its path, or None if Go or its library is absent."""
    source, place = os.path.join(HERE, "compare_processor.go"), os.path.join(folder, "compare_processor")
    environment = {**os.environ, "GOPATH": "/usr/share/gocode", "GO111MODULE": "off", "GOCACHE": os.path.join(folder, "cache")}
    if not shutil.which("go"):
        return None
    done = subprocess.run(["go", "build", "-o", place, source], env=environment, capture_output=True, text=True)
    return place if done.returncode == 0 else None


def python_of():
    """Returns a Python that has the helpers: the system's own, if they are a package of the system."""
    return next((it for it in (sys.executable, "/usr/bin/python3") if has([it, "-c", "import elasticsearch.helpers"])), None)


def peers(relay, folder):
    """Returns the programs that can be run, and says which cannot."""
    found, python, processor = [], python_of(), processor_in(folder)
    for lanes in (1, 4):
        command = lambda port, path, lanes=lanes: [relay, "run", "--to", "127.0.0.1:%d" % port, "--lanes", str(lanes), "--count", "500", "--held", "2000", "--capacity", "1000", path]
        found.append(Peer("this relay, %d lane%s" % (lanes, "s" * (lanes > 1)), None, command))
    helpers = (("streaming", "Python `streaming_bulk`"), ("streaming-external", "the same, external versions"), ("parallel", "Python `parallel_bulk`, 4 threads"))
    for kind, name in helpers:
        command = lambda port, path, kind=kind: [python, os.path.join(HERE, "compare_helpers.py"), str(port), path, kind]
        found += [Peer(name, "python3-elasticsearch", command if python else None)]
    for workers in (1, 4):
        command = lambda port, path, workers=workers: [processor, str(port), path, str(workers)]
        found += [Peer("Go BulkProcessor, %d worker%s" % (workers, "s" * (workers > 1)), "golang-gopkg-olivere-elastic.v5-dev", command if processor else None)]
    command = lambda port, path: ["perl", os.path.join(HERE, "compare_helper.pl"), str(port), path]
    found.append(Peer("Perl bulk helper", "libsearch-elasticsearch-perl", command if has(["perl", "-MSearch::Elasticsearch", "-e", "1"]) else None))
    for peer in found:
        if not peer.command:
            print("SKIPPED: %s needs %s, which is not installed" % (peer.name, peer.package))
    return [peer for peer in found if peer.command]


def write_input(path):
    """Writes the operations, and returns the document of each, by its number from 1."""
    chosen, documents = random.Random(SEED), {}
    with open(path, "w") as file:
        for seq in range(1, WRITES + 1):
            documents[seq] = "d%d" % chosen.randrange(DOCUMENTS)
            source = {"seq": seq, "text": "x" * 90}
            file.write(json.dumps({"index": {"_index": "books", "_id": documents[seq]}}) + "\n" + json.dumps(source) + "\n")
    return documents


def reported_by(name, said):
    """Returns the numbers of the operations that a program reports as failed."""
    if name.startswith("this relay"):
        return [int(line.split(" ")[1].split(":")[1]) for line in said.splitlines() if line.startswith("report ")]
    return json.loads(said or "[]")


def judge(documents, applied, reported):
    """Counts what went wrong, from what the server applied and what was reported."""
    times = collections.Counter(seq for seqs in applied.values() for seq in seqs)
    last = {document: seq for seq, document in documents.items()}
    disorder = sum(seq < max(seqs[:place]) for seqs in applied.values() for place, seq in enumerate(seqs) if place)
    return {
        "lost": sum(seq not in times for seq in documents.keys() - set(reported)),
        "twice": sum(count > 1 for count in times.values()),
        "disorder": disorder,
        "wrong": sum(applied.get(document, [0])[-1] != seq for document, seq in last.items()),
        "false": sum(seq in times for seq in set(reported)),
    }


def measure(peer, fault, path, documents):
    server = subprocess.Popen([sys.executable, os.path.join(HERE, "compare_server.py"), fault, str(SEED)], stdin=subprocess.PIPE, stdout=subprocess.PIPE, text=True)
    port = int(server.stdout.readline())
    began, ended = time.monotonic(), True
    client = subprocess.Popen(peer.command(port, path), stdin=subprocess.DEVNULL, stdout=subprocess.PIPE, stderr=subprocess.DEVNULL, text=True)
    try:
        said = client.communicate(timeout=SECONDS)[0]
    except subprocess.TimeoutExpired:
        client.kill()
        said, ended = client.communicate()[0] and "", False
    seconds = time.monotonic() - began
    if ended and not said:
        sys.exit("%s ended with status %d and said nothing" % (peer.name, client.returncode))
    server.stdin.close()
    applied = json.loads(server.stdout.read())["applied"]
    server.wait()
    return Row(**judge(documents, applied, reported_by(peer.name, said)), seconds=seconds, ended=ended)


def speed(row):
    return "%d" % (WRITES / row.seconds) if row.ended else "no end in %d s" % SECONDS


def summary(rows):
    """Returns the lines of the table of sums over the faults, for each program: speed is that without a fault."""
    lines = ["| | lost silently | applied twice | out of order | documents that end wrong | reported, though applied | operations a second |", "|---|---|---|---|---|---|---|"]
    for name, of in rows.items():
        sums = [sum(getattr(row, count) for row in of.values()) for count in COUNTS]
        lines.append("| %s | %s | %s |" % (name, " | ".join(map(str, sums)), speed(of["none"])))
    return lines


# ---- the figures


# A plot's style: what each plot has, with the plot's own, by light and by dark.
STYLE = """text { font: 13px sans-serif; fill: #1f2328 } .grid { stroke: #d1d9e0 } .mark { font-weight: bold }
%s
@media (prefers-color-scheme: dark) { text { fill: #e6edf3 } .grid { stroke: #3d444d } %s }"""
LIGHT = ".lost { fill: #cf222e } .twice { fill: #bc4c00 } .disorder { fill: #bf8700 } .wrong { fill: #8250df } .false { fill: #57606a }"
DARK = ".false { fill: #9198a1 }"
LABELS = {"lost": "lost silently", "twice": "applied twice", "disorder": "out of order", "wrong": "documents that end wrong", "false": "reported, though applied"}


def plot(label, high, light, dark, parts):
    """Returns a plot of these parts, with what it shows in words, its height, and its own styles."""
    parts = ["<style>%s</style>" % (STYLE % (light, dark)), *parts]
    return '<svg xmlns="http://www.w3.org/2000/svg" viewBox="0 0 780 %d" role="img" aria-label="%s">%s</svg>\n' % (high, label, "\n".join(parts))


def drawn(rows):
    """Returns a plot of the sums, each program a row of stacked bars."""
    left, wide, high, step = 240, 460, 18, 28
    sums = {name: {count: sum(getattr(row, count) for row in of.values()) for count in COUNTS} for name, of in rows.items()}
    most = max(sum(it.values()) for it in sums.values()) or 1
    bottom = 46 + step * len(sums)
    parts = []
    x = 8.0
    for count in COUNTS:
        parts.append('<rect class="%s" x="%.0f" y="8" width="12" height="12"/><text x="%.0f" y="19">%s</text>' % (count, x, x + 18, LABELS[count]))
        x += 32 + 6.8 * len(LABELS[count])
    for place, (name, of) in enumerate(sums.items()):
        y, x = 42 + step * place, float(left)
        parts.append('<text x="%d" y="%d" text-anchor="end">%s</text>' % (left - 8, y + 14, name.replace("`", "")))
        for count in COUNTS:
            width = wide * of[count] / most
            if width:
                parts.append('<rect class="%s" x="%.1f" y="%d" width="%.1f" height="%d"/>' % (count, x, y, width, high))
            x += width
        parts.append('<text class="mark" x="%.1f" y="%d">%d</text>' % (x + 6, y + 14, sum(of.values())))
    parts.append('<line class="grid" x1="%d" y1="34" x2="%d" y2="%d"/>' % (left, left, bottom))
    return plot("What went wrong, by program", bottom + 6, LIGHT, DARK, parts)


def versions():
    """Returns the versions of the packages that are compared with."""
    names = ("python3-elasticsearch", "golang-gopkg-olivere-elastic.v5-dev", "libsearch-elasticsearch-perl")
    said = subprocess.run(["dpkg-query", "-W", "-f", "${Package} ${Version}\n", *names], capture_output=True, text=True).stdout
    return ", ".join(line for line in said.splitlines() if " " in line.strip())


def replace(text, lines):
    """Puts lines between the marks of the table in README.md."""
    begin, end = "<!-- compare -->\n", "<!-- /compare -->\n"
    head, _, rest = text.partition(begin)
    return head + begin + "\n".join(lines) + "\n" + end + rest.partition(end)[2]


def rewrite(name, drawing, change):
    """Writes a plot in docs, and changes the text of README.md."""
    with open(os.path.join(TOP, "docs", name), "w") as file:
        file.write(drawing)
    place = os.path.join(TOP, "README.md")
    with open(place, encoding="utf-8") as file:
        text = file.read()
    with open(place, "w", encoding="utf-8") as file:
        file.write(change(text))


def leave(rows):
    source = "Sums over %d runs of %d writes, one for each of no fault, refused items, lost replies, dropped connections, both, and 413; the speed is without a fault. Measured on %s by `make compare`; %s." % (len(FAULTS), WRITES, datetime.date.today(), versions())
    rewrite("compare.svg", drawn(rows), lambda text: replace(text, [*summary(rows), "", source]))


def main():
    words = [it for it in sys.argv[1:] if it != "--figures"]
    relay = words[0] if words else os.path.join(TOP, "crates", "relay", "out", "relay")
    if not os.path.exists(relay):
        sys.exit("no program: run `make build` first")
    with tempfile.TemporaryDirectory() as folder:
        path, rows = os.path.join(folder, "ops.ndjson"), {}
        documents = write_input(path)
        print("%-34s %-8s %7s %7s %9s %7s %7s %14s" % ("program", "fault", *COUNTS, "a second"))
        for peer in peers(relay, folder):
            rows[peer.name] = {}
            for fault in FAULTS:
                row = rows[peer.name][fault] = measure(peer, fault, path, documents)
                print("%-34s %-8s %7d %7d %9d %7d %7d %14s" % (peer.name, fault, *row[:5], speed(row)), flush=True)
    print("\n" + "\n".join(summary(rows)))
    if "--figures" in sys.argv:
        leave(rows)
    ours = [row for name, of in rows.items() if name.startswith("this relay") for row in of.values()]
    sys.exit(any(any(row[:5]) or not row.ended for row in ours))


if __name__ == "__main__":
    main()
