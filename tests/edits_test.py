"""Tests `edits.py` on a small crate: `python3 tests/edits_test.py`, at the top.

Six wrong bodies must be refused in one check, and in none if nothing has changed since. One of them is in an impl block whose bounds
are nested, and the edit of one names its own function as its law. A wrong constant must be refused
by the law that its edit names. Beside them, these must fail, each by its name: an edit that changes nothing that a contract says, one
whose function is refused only because it calls an edited one, one that breaks only another function, one that its law does not
refuse, one that cannot be read, and one whose old text is gone.
"""
import os
import re
import shutil
import subprocess
import sys
import tempfile

HERE = os.path.dirname(os.path.abspath(__file__))
SCRIPTS = ("crates.py", "edit_checks.py", "edit_files.py", "edits.py")
CODE = """//! Small functions.
#![tactic(auto)]
ghost use Rattle.std.specs.Prelude.{◌≡◌, ◌≤◌, ◌<◌, ◌+◌};

/// One more.
pub fn next(n: u32) -> u32
    requires { n < 1000 }
    ensures { result ≡ n + 1 }
{
    n + 1
}

/// Two more.
pub fn after_next(n: u32) -> u32
    requires { n < 900 }
    ensures { result ≡ n + 2 }
{
    next(n) + 1
}

/// The larger of two.
pub fn larger(a: u32, b: u32) -> u32
    ensures first { a ≤ result }
    ensures second { b ≤ result }
{
    if a < b { b } else { a }
}

/// The smaller of two.
pub fn smaller(c: u32, d: u32) -> u32
    ensures first { result ≤ c }
    ensures second { result ≤ d }
{
    if c < d { c } else { d }
}

/// Nothing.
pub fn nothing() -> u32
    ensures { result ≡ 0 }
{
    0u32
}

/// The same.
pub fn same(e: u32) -> u32
    ensures { result ≡ e }
{
    let copy = e;
    copy
}

/// At most as much.
pub fn part(f: u32) -> u32
    ensures { result ≤ f }
{
    f / 2
}

/// Two values, of which this has one.
pub struct Pair<T> {
    first: T,
}

/// What a type may be marked with.
pub trait Mark<T> {}

impl<M: Mark<Pair<Pair<u32>>>> Pair<M> {
    /// Three.
    pub fn three(&self) -> u32
        ensures { result ≡ 3 }
    {
        3u32
    }
}

const MOST: u32 = 10;

/// A law: the constant is ten.
pub fn most_is_ten() -> u32
    ensures { result ≡ 10 }
{
    MOST
}
"""
WRONG = {
    "larger_first": ("if a < b { b } else { a }", "if a < b { a } else { a }"),
    "next_two": ("    n + 1", "    n + 2"),
    "nothing_one": ("0u32", "1u32"),
    "same_less": ("let copy = e;", "let copy = e / 2;\nlaw: same"),
    "smaller_second": ("if c < d { c } else { d }", "if c < d { d } else { d }"),
    "three_four": ("3u32", "4u32"),
}
# An edit that names a law.
LAW = {"most_eleven": ("u32 = 10;", "u32 = 11;\nlaw: most_is_ten")}
# What the script must say of each other edit.
OTHERS = {
    "after_next_only_calls": ("next(n) + 1", "1 + next(n)", "NOT REFUSED"),
    "next_weaker_contract": ("ensures { result ≡ n + 1 }", "ensures { result ≤ n + 1 }", "NOT REFUSED"),
    "most_by_another_law": ("u32 = 10;", "u32 = 12;\nlaw: nothing", "NOT REFUSED"),
    "part_harmless": ("f / 2", "f / 3", "NOT REFUSED"),
    "part_old_text_gone": ("f / 4", "f / 5", "BAD EDIT"),
    "part_unreadable": ("f / 2", "f / unknown", "BAD EDIT"),
}


def repository(folder):
    """Makes a repository of the small crate and these scripts."""
    source, tests = os.path.join(folder, "crates", "sample", "src"), os.path.join(folder, "tests")
    os.makedirs(source)
    os.mkdir(tests)
    for name in SCRIPTS:
        shutil.copy(os.path.join(HERE, name), tests)
    for path, text in (os.path.join(source, "lib.rt"), CODE), (os.path.join(folder, "crates.txt"), "sample:\n"):
        with open(path, "w", encoding="utf-8") as file:
            file.write(text)


def tried(folder, edits):
    """Runs the script on these edits, and returns its status and what it says of each and at the end."""
    place = os.path.join(folder, "crates", "sample", "edits")
    shutil.rmtree(place, ignore_errors=True)
    os.mkdir(place)
    for name, (old, new, *_) in edits.items():
        with open(os.path.join(place, name + ".edit"), "w", encoding="utf-8") as file:
            file.write("file: src/lib.rt\nold: %s\nnew: %s\n" % (old, new))
    done = subprocess.run([sys.executable, "-B", os.path.join(folder, "tests", "edits.py")], stdout=subprocess.PIPE, stderr=subprocess.STDOUT, text=True)
    said = dict(re.findall(r"^  sample/(\w+)\.edit: (NOT REFUSED|BAD EDIT)", done.stdout, re.M))
    print(done.stdout, end="")
    return done.returncode, said, re.findall(r"^edits: (\d+) tried in (\d+) checks .* (\d+) refused", done.stdout, re.M)


def main():
    expected = {name: words[2] for name, words in OTHERS.items()}
    with tempfile.TemporaryDirectory() as folder:
        repository(folder)
        status, said, counts = tried(folder, WRONG)
        results = [(status, said, counts) == (0, {}, [("6", "1", "6")])]
        status, said, counts = tried(folder, WRONG)
        results.append((status, said, counts) == (0, {}, [("6", "0", "6")]))
        status, said, counts = tried(folder, {**WRONG, **LAW})
        results.append((status, said, counts) == (0, {}, [("7", "2", "7")]))
        status, said, counts = tried(folder, {**WRONG, **OTHERS})
        results.append(status == 1 and said == expected and [it[2] for it in counts] == ["6"])
    print("%d passed, %d failed" % (sum(results), len(results) - sum(results)))
    sys.exit(not all(results))


main()
