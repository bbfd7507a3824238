"""Checks a crate with some of its texts changed, over what earlier checks kept."""
import contextlib
import itertools
import os
import re
import shutil
import subprocess
import tempfile

from crates import CRATES, TOP, below, lines_of
from edit_files import text_of, without_body

# Where `gate.py` keeps what `rt ci` proved of a crate.
SEEDS = os.path.join(TOP, "out", "seeds")
KIT = os.path.dirname(os.path.dirname(os.path.realpath(shutil.which("rt") or "rt")))
PARTS = ("src", "specs", "proofs")


class Kept:
    """What the checks of a crate begin with: what was proved of the crate as it is, or, if nothing was, what the check before it left."""

    def __init__(self, crate, after_gate):
        places = [os.path.join(SEEDS, crate)] * after_gate + [os.path.join(CRATES, crate, "out", "incremental")]
        self.proved, self.left = next(filter(has_proofs, places), None), tempfile.TemporaryDirectory(prefix="relay-edits-kept-")

    @contextlib.contextmanager
    def folder(self):
        """Gives a folder for one check, which may change it."""
        if self.proved is None:
            yield self.left.name
            return
        with tempfile.TemporaryDirectory(prefix="relay-edits-kept-") as own:
            shutil.copytree(self.proved, own, dirs_exist_ok=True, copy_function=link)
            yield own


def check(crate, texts, kept, only, without=()):
    """Checks the crate with these texts in place of its own, or only these functions of it. Returns the status and the output.

    The functions `without` get a body that does nothing and an empty proof. What calls them is checked all the same, since that rests
    on their contracts alone."""
    own = lines_of()[crate].partition(":")[2].split()
    words = [os.path.join(KIT, "bin", "rattle"), "check", "--crate-name", crate, "src/lib.rt", "-L", "dependency=%s/rlibs" % KIT]
    for name in ["std", *own]:
        words += ["--extern", "%s=%s" % (name, rlib(name) if name in lines_of() else "%s/rlibs/%s.rlib" % (KIT, name))]
    for name in below(crate):
        words += ["-L", "dependency=" + os.path.dirname(rlib(name))]
    words += ["--antt-project", "%s/rattle/logic/antt-project.json" % KIT, "--logic-built", "%s/logic_built" % KIT]
    words += ["--jobs", "1", *itertools.chain(*(("--only", name) for name in only))]
    with tempfile.TemporaryDirectory(prefix="relay-edits-") as room, kept.folder() as over:
        for part in PARTS:
            if os.path.isdir(os.path.join(CRATES, crate, part)):
                shutil.copytree(os.path.join(CRATES, crate, part), os.path.join(room, part))
        for path, text in texts.items():
            with open(os.path.join(room, path), "w", encoding="utf-8") as file:
                file.write(text)
        for place in without:
            folder, source = os.path.join(room, place.proofs), os.path.join(room, place.file)
            shutil.rmtree(folder, ignore_errors=True)
            os.makedirs(folder)
            text = without_body(text_of(source), place)
            for path, content in (os.path.join(folder, "Proof.antt"), ""), (source, text):
                with open(path, "w", encoding="utf-8") as file:
                    file.write(content)
        ran = subprocess.run([*words, "--incremental", over], cwd=room, stdin=subprocess.DEVNULL, stdout=subprocess.PIPE, stderr=subprocess.STDOUT, text=True, errors="replace")
    return ran.returncode, ran.stdout


def free_memory():
    """Returns the memory that is free, in bytes."""
    with open("/proc/meminfo") as file:
        return 1024 * int(re.search(r"MemAvailable:\s+(\d+)", file.read())[1])


def rlib(crate):
    return os.path.join(CRATES, crate, "out", "rlib", crate + ".rlib")


def is_verdict(said):
    """Returns true if the check came to its end."""
    return re.match(r"only=|logic=", said.strip().rpartition("\n")[2]) is not None


def has_proofs(folder):
    """Returns true if checks kept work in this folder."""
    return any(name.endswith(".oantt") for _, _, names in os.walk(folder) for name in names)


def link(one, other):
    """Gives what was proved a second name: a check replaces such a file, and changes none."""
    try:
        return os.link(one, other) if one.endswith(".oantt") else shutil.copy2(one, other)
    except OSError:
        return shutil.copy2(one, other)


def is_ready(crate, after_gate):
    """Returns true once the libraries below the crate are built."""
    by_gate = [os.path.isdir(rlib(it)) and not os.path.exists(os.path.join(os.path.dirname(rlib(it)), "stamp")) for it in below(crate)]
    if after_gate and all(by_gate):
        return True
    return subprocess.run(["rt", "check", "--only", ""], cwd=os.path.join(CRATES, crate), stdout=subprocess.DEVNULL).returncode == 0
