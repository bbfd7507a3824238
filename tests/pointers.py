"""Follows the pointers of the tables in crates/*/README.md, and generates docs/RULES.md from them.

`python3 tests/pointers.py`, at the top, fails if a pointer leads nowhere or if docs/RULES.md is not what `--write`
would write. A row of a table names a rule, its definition, code and proof, and its tests. Each path has to exist;
names followed by "in" and a path have to be in that file, other names in the crate's code, definitions or tests; and
each file of `specs/` has to occur in a row. docs/RULES.md has the same rows by the headings of docs/FORMATS.md, with
the file of each name; `rules.py` says which rule belongs to which heading.
"""
import functools
import glob
import os
import re
import sys

import rules
from crates import tests_of

TOP = os.path.dirname(os.path.dirname(os.path.abspath(__file__)))
PAGE = os.path.join(TOP, "docs", "RULES.md")
FAULTS = []
NAME = re.compile(r"[\w:.()-]+")
JOINS = (",", "and", "in", ", and")
DEFINITIONS, CODE, TESTS = "definitions", "code", "tests"


@functools.lru_cache(maxsize=None)
def text_of(path):
    with open(path, encoding="utf-8") as file:
        return file.read()


def files_below(path):
    """Returns the file itself, or all files of the folder."""
    if os.path.isfile(path):
        return [path]
    return [os.path.join(at, name) for at, _, names in os.walk(path) for name in names]


def is_crate(word):
    return os.path.isdir(os.path.join(TOP, "crates", word))


@functools.lru_cache(maxsize=None)
def outside_crates():
    """Returns the libraries that crates.txt names but this repository does not have: their names are not looked up."""
    listed = re.findall(r"\w+", text_of(os.path.join(TOP, "crates.txt")))
    return {"std"} | {word for word in listed if not is_crate(word)}


def is_path(word):
    return "/" in word or re.search(r"\.(antt|rt|py|md)$", word) is not None


def place_of(crate, word, last):
    """Resolves a path of a row: below the crate, at the top, or next to the path before it."""
    tests = os.path.normpath(tests_of(os.path.basename(crate)) or crate)
    beside = os.path.dirname(last) if last else crate
    for folder in (crate, TOP, beside, os.path.dirname(tests), tests, os.path.dirname(beside)):
        path = os.path.join(folder, word)
        if os.path.exists(path):
            return os.path.normpath(path)
    return None


@functools.lru_cache(maxsize=None)
def files_of(crate, column):
    """Returns where the names of a column may be, the likeliest first: groups of files of the crate, and of the tests of the
    built program."""
    code = sorted(glob.glob(crate + "/src/**/*.rt", recursive=True))
    specs = sorted(glob.glob(crate + "/specs/**/*.antt", recursive=True))
    apart = sorted(glob.glob((tests_of(os.path.basename(crate)) or crate) + "/*.rt"))
    outside = sorted(glob.glob(TOP + "/tests/*.py") + glob.glob(TOP + "/bench/*.py"))
    orders = {DEFINITIONS: (specs, code), CODE: (code, specs), TESTS: (apart, code, outside)}
    return orders.get(column, (specs, code, apart, outside))


def occurs(word, files):
    """Returns true if the name, or the last part of a Rust path, occurs in one of the files."""
    name = re.split(r"::|\(", word)[-1] or word
    return any(re.search(r"(?<![\w])%s(?![\w])" % re.escape(name), text_of(path)) for path in files)


def defines(word, path):
    """Returns true if the file defines the name; for `A::b`, if it defines `b` and has methods of `A`."""
    owner, _, name = word.rpartition("::")
    text = text_of(path)
    words = "abbrev|record|data|fn|struct|enum|trait|const|type|def"
    if not re.search(r"^\s*(pub(\(crate\))? )?(%s) (pub )?%s(?![\w])" % (words, re.escape(name)), text, re.MULTILINE):
        return False
    return not owner or re.search(r"\b(impl|trait)\b[^{;]*\b%s\b" % re.escape(owner), text) is not None


def defining(word, groups):
    """Returns the files that define the name in the first group with one, otherwise those in which it occurs."""
    for test in (lambda path: defines(word, path), lambda path: occurs(word, [path])):
        for files in groups:
            found = [path for path in files if test(path)]
            if found:
                return found
    return []


class Cell:
    """A cell of a row. It follows the cell's pointers, and builds the cell again with the file of each name."""

    def __init__(self, crate, row, column, text, found):
        self.crate, self.row, self.column, self.found = crate, row, column, found
        self.last, self.waiting = None, []
        self.parts = re.split(r"`([^`]+)`", text)
        for place in range(1, len(self.parts), 2):
            self.follow(place, self.parts[place], self.parts[place + 1].strip())

    def follow(self, place, word, then):
        if is_path(word):
            self.follow_path(place, word)
        elif self.parts[place - 1].strip() in ("of", "those of", "in") and is_crate(word):
            self.follow_crate(place, word)
        elif self.parts[place - 1].strip() == "of" and word in outside_crates():
            self.waiting = []
        else:
            if not (self.waiting and self.parts[place - 1].strip() == "of"):
                self.waiting.append(place)
            if then not in JOINS + ("of",):
                self.settle(files_of(self.crate, self.column), "in the crate", place)

    def follow_path(self, place, word):
        """The waiting names must be in this file, or in a file of this folder."""
        path = place_of(self.crate, word, self.last)
        if path is None:
            self.fault("`%s` leads nowhere" % word)
            self.waiting = []
            return
        self.last = path
        files = files_below(path)
        self.found.update(files)
        for name in self.names():
            if not occurs(self.parts[name], files):
                self.fault("`%s` is not in `%s`" % (self.parts[name], word))
        self.waiting = []
        self.parts[place] = short(path)

    def follow_crate(self, place, word):
        """The waiting names are in another crate: its name is replaced by their files."""
        if self.names():
            self.settle(files_of(os.path.join(TOP, "crates", word), DEFINITIONS), "in `%s`" % word, place - 2)
            self.parts[place - 1] = self.parts[place] = None

    def names(self):
        return [place for place in self.waiting if NAME.fullmatch(self.parts[place])]

    def settle(self, groups, where, end):
        """Looks up the waiting names, up to `end`, and adds the file after the names that it has."""
        names, owner, paths = self.names(), "", []
        for name in names:
            word = self.parts[name]
            owner = word.rpartition("::")[0] or owner
            found = defining(owner + "::" + word, groups[:1]) if owner and "::" not in word else []
            found = found or defining(word, groups)
            if not found:
                self.fault("`%s` is not %s" % (word, where))
            elif len(found) > 1 and self.column == TESTS:
                self.fault("`%s` is in several files: say in which" % word)
            paths.append(found[0] if len(found) == 1 or self.column == CODE and found else None)
        places = names[:-1] + [end]
        for place, path, following in zip(places, paths, paths[1:] + [None]):
            if path and path != following:
                self.parts[place] += "` in `" + short(path)
        self.waiting = []

    def fault(self, what):
        FAULTS.append("%s: %s (row: %s)" % (os.path.basename(self.crate), what, self.row))

    def full(self):
        parts = [("`%s`" % it if place % 2 else it) for place, it in enumerate(self.parts) if it is not None]
        return "".join(parts).strip()


def short(path):
    """Returns the path relative to `crates`, or to the top if it is elsewhere."""
    crates = os.path.join(TOP, "crates")
    return os.path.relpath(path, crates if path.startswith(crates + os.sep) else TOP)


def tables_of(text):
    """Yields the rows of the tables, each with a flag that says whether its table is one of rules."""
    is_rules = False
    for before, line in zip([""] + text.split("\n"), text.split("\n")):
        if not line.startswith("|"):
            continue
        cells = [cell.strip() for cell in line.strip("|").split("|")]
        if not before.startswith("|"):
            is_rules = cells[0] == "Rule"
        elif not re.match(r"\|[-| ]+\|$", line):
            yield is_rules, cells


def check_crate(crate):
    """Follows the pointers of a crate's tables, and returns its rules, as rows of cells with the file of each name."""
    readme, found, rows, before = crate + "/README.md", set(), [], []
    if not os.path.isfile(readme):
        return rows
    for is_rules, cells in tables_of(text_of(readme)):
        if is_rules:
            cells = [above if cell == "the same" else cell for cell, above in zip(cells, before or cells)]
            before = cells
        columns = [DEFINITIONS, CODE, CODE, TESTS] if is_rules else [None] * len(cells)
        full = [Cell(crate, cells[0], column, cell, found).full() for column, cell in zip(columns, cells[1:])]
        if is_rules:
            rows.append(cells[:1] + full)
    for path in sorted(glob.glob(crate + "/specs/**/*.antt", recursive=True)):
        if path not in found and os.path.basename(path) != "Lib.antt":
            FAULTS.append("%s: %s occurs in no row" % (os.path.basename(crate), os.path.relpath(path, crate)))
    return rows


def by_heading(rows_of_crates):
    """Returns the rows of each heading, by crate."""
    found = {}
    for crate, rows in rows_of_crates.items():
        names = [row[0] for row in rows]
        for start in rules.stray_starts(crate, names):
            FAULTS.append("tests/rules.py: `%s` of %s is not the beginning of one rule" % (start, crate))
        for row in rows:
            homes = rules.homes_of(crate, row[0])
            if homes is None:
                FAULTS.append("tests/rules.py: no heading for %s (row: %s)" % (crate, row[0]))
            for home in homes or ():
                found.setdefault(home, []).append(row)
    return found


def section(level, heading, rows):
    lines = ["%s %s" % (level, heading), ""]
    suites = ["`tests/%s`" % it for it in rules.OUTSIDE.get(heading, ())]
    if suites:
        lines += ["From the outside: " + ", ".join(suites) + ".", ""]
    if rows:
        lines += ["| Rule | Definition | Code | Proof | Test |", "|---|---|---|---|---|"]
        lines += ["| %s |" % " | ".join(row) for row in rows] + [""]
    return lines


def page(rows_of_crates):
    """Returns the text of docs/RULES.md: the headings of docs/FORMATS.md, each with its rules."""
    found = by_heading(rows_of_crates)
    headings = re.findall(r"^(##+) (.+)$", text_of(os.path.join(TOP, "docs", "FORMATS.md")), re.MULTILINE)
    for heading in set(found) | set(rules.OUTSIDE):
        if heading not in [it for _, it in headings] + [rules.CODE]:
            FAULTS.append("tests/rules.py: docs/FORMATS.md has no heading %s" % heading)
    lines = [
        "# Rules, by the headings of FORMATS.md", "",
        "Generated by `python3 tests/pointers.py --write` from the tables of rules in `crates/*/README.md`. To change a row,",
        "edit the table; to move a rule to another heading, edit `tests/rules.py`. Paths are relative to `crates`, or to the top",
        "of the repository. A proof that is *automatic* needs no proof file. *Safety only*, and *safety and termination only*,",
        "mean that no contract states the rule.", "",
    ]
    for level, heading in headings + [("##", rules.CODE)]:
        rows = found.get(heading, [])
        if not rows and heading not in rules.OUTSIDE:
            FAULTS.append("tests/rules.py: no rule and no test from the outside for %s" % heading)
        lines += section(level, heading, rows)
    return "\n".join(lines)


def main():
    crates = sorted(glob.glob(TOP + "/crates/*"))
    made = page({os.path.basename(crate): check_crate(crate) for crate in crates})
    for name in sorted({name for names in rules.OUTSIDE.values() for name in names}):
        if not os.path.isfile(os.path.join(TOP, "tests", name)):
            FAULTS.append("tests/rules.py: there is no tests/%s" % name)
    if sys.argv[1:] == ["--write"]:
        with open(PAGE, "w", encoding="utf-8") as file:
            file.write(made)
    elif not os.path.isfile(PAGE) or text_of(PAGE) != made:
        FAULTS.append("docs/RULES.md differs from the tables: run python3 tests/pointers.py --write")
    for fault in FAULTS:
        print(fault)
    print("%d faults in the tables of rules" % len(FAULTS))
    sys.exit(bool(FAULTS))


main()
