"""Checks what README.md and docs say of files and commands: `python3 tests/documents.py [PROGRAM]`.

README.md has at most 100 lines; every relative link, and every path in back-ticks, leads to something in this repository; every option in a
command line of `relay` is one of its subcommand. With a program, these are run instead: the transcript at the head of README.md has to print
what it shows, the command lines of docs/OPERATING.md have to end with status 0, and `examples/demo.py` has to show everything. Their
addresses are replaced by those of free ports, their files are made here, and the index is that of `epoch_cases.py`.
"""
import collections
import os
import re
import shutil
import subprocess
import sys
import tempfile
from pathlib import Path

TOP = Path(__file__).resolve().parents[1]
SOURCES = TOP / "crates" / "relay" / "src"
RESULTS, SECONDS = {"passed": 0, "failed": 0}, int(os.environ.get("SECONDS_FOR_A_RUN", "60"))
PATH = re.compile(r"(crates|docs|tests|examples|bench)/|(?!out/).+\.(rt|antt|py|md|svg|conf|cfg|service|yaml|c|go|pl|rb|rs|txt)$")
OPTION = re.compile(r'const (\w+): \w+Option = \w+Option \{\s*name: "([a-z-]+)"')
COMMAND = re.compile(r"(?:\$ |Exec\w+=)?(?:/usr/local/bin/)?((?:relay|curl|/usr/bin/rm|/bin/sh) .*)")


def check(name, right, found=""):
    RESULTS["passed" if right else "failed"] += 1
    if not right:
        print("FAILED: %s %s" % (name, found))


def blocks_of(text):
    """Returns the lines of each block that is indented or fenced; one that ends with a backslash is joined to the next."""
    blocks = re.findall(r"^(?: {4}.*\n)+|^```.*\n(?:.*\n)*?```", text + "\n", re.M)
    return [[line.strip() for line in re.sub(r"\\\n *", "", block).splitlines()] for block in blocks]


def leads_somewhere(path, files):
    """Whether a path, in which `NAME` and `*` are any part, is one of these, or the end of one."""
    if "*" not in path and "NAME" not in path:
        return "/%s\n" % path.rstrip("/") in files
    return re.search("/%s\n" % re.sub(r"\\\*|NAME", "[^/\n]*", re.escape(path.rstrip("/"))), files) is not None


def options_of(subcommand):
    """Returns the options of a subcommand: those of its source, and those of the sources that subcommands share if it names them."""
    own, shared = subcommand.read_text("utf-8"), "".join(it.read_text("utf-8") for it in SOURCES.glob("*.rt"))
    return {name for _, name in OPTION.findall(own)} | {name for constant, name in OPTION.findall(shared) if re.search(r"\b%s\b" % constant, own)}


def check_page(page, files, options):
    name, text = page.name, page.read_text("utf-8")
    spans = [" ".join(span.split()) for span in re.findall(r"`([^`]+)`", text)]
    for link in re.findall(r"\]\((?!https?:)([^)#]+)", text):
        check("%s: the link %s" % (name, link), (page.parent / link).exists())
    for word in {word for span in spans for word in span.split() if PATH.match(word) and not re.search("[<>{}(:]", word)}:
        check("%s: the path %s" % (name, word), leads_somewhere(word, files))
    for line in [line for block in blocks_of(text) for line in block] + spans:
        for subcommand, words in re.findall(r"\brelay (%s)\b([^|<>&]*)" % "|".join(options), line):
            unknown = set(re.findall(r"(?<![\w-])--([a-z][a-z-]*)", words)) - options[subcommand]
            check("%s: the options of %s" % (name, line), not unknown, sorted(unknown))


def paths_below(folder):
    """Yields the paths of what is in the folder, but for what is built there."""
    for entry in os.scandir(folder):
        if entry.name not in ("out", ".git"):
            yield entry.path
            yield from paths_below(entry.path) if entry.is_dir(follow_symlinks=False) else ()


def check_pages():
    files = "".join("%s\n" % path for path in paths_below(TOP))
    options = {path.stem: options_of(path) for path in SOURCES.glob("subcommand/*.rt")}
    check("README.md has at most 100 lines", (TOP / "README.md").read_text("utf-8").count("\n") <= 100)
    for page in (TOP / "README.md", *sorted(TOP.glob("docs/*.md"))):
        check_page(page, files, options)


def index(refuses):
    """Returns an index with counters. It may refuse the first write to `emma`, and loses its first answer to the second one to `last`."""
    from epoch_cases import CounterServer

    class Shown(CounterServer):
        seen = collections.Counter(emma=not refuses)

        def run(self, kind, meta, source):
            self.seen[meta["_id"]] += 1
            if meta["_id"] == "emma" and self.seen["emma"] == 1:
                return {kind: {"_id": "emma", "status": 400, "error": {"type": "mapper_parsing_exception"}}}
            return super().run(kind, meta, source)

        def reply_with(self, *given):
            is_lost = self.seen["last"] == 2
            self.seen["last"] += is_lost
            return not is_lost and super().reply_with(*given)
    return Shown()


def prepare(folder, program):
    """Makes what the commands name: `relay`, and files of operations."""
    (folder / "relay").symlink_to(program)
    (folder / ".curlrc").write_text("silent\nfail\n")
    (folder / "report.ndjson").write_text('{"cause":"Spent","id":"3","index":"books","number":4,"producer":0}\n')
    ids = {"ops": [*range(16), "emma"], "more": [*range(90), "last", "last"], "a": range(9), "b": range(9, 16), "refused": range(3)}
    for name, some in ids.items():
        (folder / (name + ".ndjson")).write_text("".join('{"index":{"_index":"books","_id":"%s"}}\n{"n":1}\n' % it for it in some))


def play(page, program, lines):
    """Runs the commands among these lines. What follows one with a `$` is what it prints. `relay serve` goes on until all have ended."""
    from stub_cases import free_port
    server, port, served = index(page == "README.md"), free_port(), []
    with tempfile.TemporaryDirectory() as folder:
        prepare(Path(folder), program)
        # The unit of systemd is stopped by the number of a process that has ended: none has this one.
        more = {**os.environ, "PATH": folder + ":" + os.environ["PATH"], "CURL_HOME": folder, "MAINPID": "4194305"}
        for at, command in ((at, COMMAND.fullmatch(line)[1]) for at, line in enumerate(lines) if COMMAND.fullmatch(line)):
            shown = "\n".join(lines[at + 1:]).split("\n$ ")[0] if lines[at].startswith("$ ") else ""
            line = command.replace(":9200", ":%d" % server.port).replace(":9300", ":%d" % port)
            process = subprocess.Popen(["sh", "-c", line], cwd=folder, env=more, text=True, stdin=-1, stdout=-1, stderr=-1)
            if command.startswith("relay serve"):
                served.append(process)
                out, status, shown = process.stderr.readline(), 0, shown or "listening on 127.0.0.1:9300, epoch .."
            else:
                out, status = process.communicate(timeout=SECONDS)[0], process.returncode
            found, wanted = out.replace(":%d" % port, ":9300").strip(), 5 if shown.startswith("report ") else 0
            # There `..` is anything. The counts are those of other files, but here too an earlier request has applied some operations.
            pattern = re.sub(r"\\ \d+\\ already\\ \d+", r" \\d+ already [1-9]\\d*", ".*".join(map(re.escape, shown.split(".."))))
            check("%s: %s" % (page, command), status == wanted and re.fullmatch(pattern if shown else "(?s:.*)", found), (status, found))
        for process in served:
            check("%s: the stop of relay serve" % page, process.communicate(timeout=SECONDS) and process.returncode == 0, process.returncode)
    server.close()


def play_all(program):
    demo = subprocess.run([sys.executable, TOP / "examples" / "demo.py", program], capture_output=True, text=True, timeout=10 * SECONDS)
    check("examples/demo.py", demo.returncode == 0, demo.stdout[-600:] + demo.stderr[-600:])
    if not shutil.which("curl"):
        return print("SKIPPED: what README.md and OPERATING.md show needs curl, which is not installed")
    play("README.md", program, sum(blocks_of((TOP / "README.md").read_text("utf-8").split("\n## ")[0]), []))
    blocks = [block for block in blocks_of((TOP / "docs" / "OPERATING.md").read_text("utf-8")) if any(map(COMMAND.fullmatch, block))]
    serve = next(line for block in blocks for line in block if line.startswith("relay serve"))
    for block in blocks:
        play("OPERATING.md", program, [serve] * (serve not in block and any(":9300" in line for line in block)) + block)


if __name__ == "__main__":
    play_all(os.path.abspath(sys.argv[1])) if sys.argv[1:] else check_pages()
    print("%d passed, %d failed" % (RESULTS["passed"], RESULTS["failed"]))
    sys.exit(RESULTS["failed"] != 0)
