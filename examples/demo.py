"""Shows the program's commands on the files of this folder. `make demo` runs `python3 examples/demo.py` at the top.

The program is built without proof and with run-time checks, which takes only minutes; `make build` proves it. `python3 examples/demo.py
PROGRAM` shows the commands of one that is built.
"""
import importlib
import os
import shutil
import subprocess
import sys
import tempfile

EXAMPLES = os.path.dirname(os.path.abspath(__file__))
sys.path.insert(0, os.path.join(os.path.dirname(EXAMPLES), "tests"))
build = importlib.import_module("try").build

# A command, the file that is its standard input, and what it shows.
CASES = (
    ("lines --first 7", "books.ndjson", "each operation gets the next external version"),
    ("lines", "broken.ndjson", "line 4 is invalid, as a message on standard error says; the operations before it are written"),
    ("apply --refuse 2:429", "books.bulk", "the reply of a fresh stand-in index, which refuses the second item"),
    ("world", "lost_reply.script", "a reply is lost after the write was applied: the second send finds that out"),
)
STUB = "stub --listen 127.0.0.1:%d --requests %d --refuse %s"
RUN = "run --to 127.0.0.1:%d --epoch-from relay/epoch --patience 120 books.ndjson"
SERVE = "serve --listen 127.0.0.1:%d --to 127.0.0.1:%d --epoch-from relay/epoch --patience 120 --lanes 1"
# What is asked of `relay serve`: what it shows, and what curl is given.
ASKED = (
    ("a document", ["-XPUT", "/books/_doc/1", "-d", '{"title":"Emma"}']),
    ("a bulk request, in which the index refuses the first operation; the delete finds nothing", ["-XPOST", "/_bulk", "--data-binary", "@books.ndjson"]),
)


def started(program, arguments, **more):
    """Starts a command of the program in this folder."""
    return subprocess.Popen([program, *arguments.split()], cwd=EXAMPLES, stdout=subprocess.PIPE, stderr=subprocess.PIPE, text=True, **more)


def show(title, *texts):
    print("\n--- %s\n%s" % (title, "".join(texts)), end="")


def streams(program):
    """Shows the commands that read standard input and end with it. Returns whether each printed something."""
    printed = []
    for arguments, name, what in CASES:
        with open(os.path.join(EXAMPLES, name)) as file:
            out, err = started(program, arguments, stdin=file).communicate()
        show("relay %s < examples/%s\n    (%s)" % (arguments, name, what), out, err)
        printed.append(out)
    return all(printed)


def applied(served):
    """Shows what the stand-in index applied, and returns whether it listed something."""
    listed, said = served.communicate(timeout=60)
    show("what the stand-in index applied, as `relay stub` lists it at its end", listed, said)
    return bool(listed)


def run(program, port):
    """Shows `relay run` against `relay stub`. Returns whether both printed something."""
    stub, words = STUB % (port, 4, "2:429,3:400"), RUN % port
    served = started(program, stub, stdin=subprocess.DEVNULL)
    out, err = started(program, words, stdin=subprocess.DEVNULL).communicate()
    show("relay %s &\n--- relay %s\n    (the first connection gives the epoch; item 2 is sent again, item 3 is reported)" % (stub, words), out, err)
    return applied(served) and bool(out)


def serve(program, port, own):
    """Shows `relay serve` in front of `relay stub`, asked by curl. Returns whether each request was answered."""
    if not shutil.which("curl"):
        print("\nrelay serve is not shown: curl is not installed")
        return True
    stub, words = STUB % (port, 4, "2:400"), SERVE % (own, port)
    served = started(program, stub, stdin=subprocess.DEVNULL)
    server = started(program, words, stdin=subprocess.PIPE)
    show("relay %s &\n--- relay %s" % (stub, words), server.stderr.readline())
    answers = []
    for what, (method, target, *more) in ASKED:
        command = ["curl", method, "http://127.0.0.1:%d%s" % (own, target), *more]
        answers.append(subprocess.run([*command, "-s"], cwd=EXAMPLES, capture_output=True, text=True).stdout)
        show("%s\n    (%s)" % (" ".join("'%s'" % it if "{" in it else it for it in command), what), answers[-1], "\n")
    out, err = server.communicate()
    show("the end of its standard input stops it", out, err)
    return applied(served) and all(answers)


def show_all(program):
    """Shows all commands. Returns whether each printed something."""
    shown = [streams(program), run(program, 19200), serve(program, 19201, 19300)]
    return all(shown)


def main():
    if sys.argv[1:]:
        sys.exit(not show_all(os.path.abspath(sys.argv[1])))
    print("building the program without proof, with run-time checks (`make build` proves it); this takes two to four minutes", flush=True)
    with tempfile.TemporaryDirectory() as folder:
        program = os.path.join(folder, "relay")
        copied, _, said = build(program)
        if not copied:
            sys.exit(said)
        shown = show_all(program)
    sys.exit(not shown)


main()
