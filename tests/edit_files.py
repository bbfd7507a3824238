"""Reads an edit's file, finds the function that it changes, and tells whether the prover refuses that function.

The format is that of the kit's must-fail edits: a line `file: PATH`, then pairs of lines `old: TEXT` and `new: TEXT`, made one after
another; each old text must occur once. An edit has a place if it changes one function alone, body or contract. Any other
edit may have a line `law: FUNCTION`, which names the function whose proof it makes fail, as the prover prints it.
"""
import collections
import functools
import glob
import os
import re

from crates import CRATES

# An error of the prover: its file, its line, the name of what it refuses, and what it says.
ERROR = re.compile(r"(?:note: )?(?:\./)?(\S+?):(\d+):\d+: (?:error(?:\[[\w-]+\])?: (?:`[^`]*`: )?|(?=it is not proved))(.*)")
# What it says of a text that it cannot read, or of a proof that names what an edit removed: neither says anything of a contract.
UNREAD = re.compile(r"is not in scope|has no field|has no `|is no name|was not admitted|operand is missing|expected the end|cannot continue")
# The head of a type.
TYPE = r"^(?:pub(?:\(\w+\))? )?(?:struct|enum) (\w+)"
# The head of an impl block or of a trait, or of a function.
ITEM = r"^(?:impl\b[^{]*\{|(?:pub )?trait \w+[^{]*\{)|^( *)(?:pub(?:\([\w:]+\))? )?(?:const |unsafe )*fn (\w+).*"
# A function whose body means something to others: of a cycle, a comparison, a constant one, and one whose type is not named.
KEPT = re.compile(r"/\+|(?:PartialEq|Eq|PartialOrd|Ord|Hash)/\w+/|\bconst fn\b|-> *impl\b")
# The function that an edit changes: its file, its name, its first and last line, and where its proof files are.
Place = collections.namedtuple("Place", "file name first last proofs")


class Unusable(Exception):
    """An edit that cannot be applied, compiled or read."""


def text_of(path):
    with open(path, encoding="utf-8") as file:
        return file.read()


def enclosed(text):
    """Returns what the < with which a text may begin and the > that closes it enclose, and the rest of the text."""
    depth = 0
    for at, sign in enumerate(text.replace("->", "  ")):
        depth += {"<": 1, ">": -1}.get(sign, 0)
        if depth == 0:
            return (text[1:at], text[at + 1 :]) if at else ("", text)
    return "", text


def parts_of(text):
    """Returns the parts of a list that commas divide; those within < and > divide nothing."""
    parts, depth = [""], 0
    for sign, shown in zip(text.replace("->", "  "), text):
        depth += {"<": 1, ">": -1}.get(sign, 0)
        if sign == "," and depth == 0:
            parts.append("")
        else:
            parts[-1] += shown
    return [it.strip() for it in parts if it.strip()]


def owner_of(header):
    """Returns the name that the prover gives to an impl block: the type, the trait and the trait's concrete arguments."""
    generics, rest = enclosed(header.removeprefix("impl"))
    parameters = [it.removeprefix("const ").partition(":")[0].strip() for it in parts_of(generics)]
    trait, _, named = rest.partition("{")[0].rpartition(" for ")
    arguments = [it for it in re.findall(r"[\w']+", trait.partition("<")[2]) if it not in parameters and not it.startswith("'")]
    return re.match(r"\s*(?:\w+::)*(\w+)", named)[1] + "".join(re.findall(r"(\w+)\s*(?:<|$)", trait)[:1] + arguments)


def module_of(path):
    """Returns the names of the modules that lead to a source file."""
    return [it for it in path[len("src/") : -len(".rt")].split("/") if it != "lib"]


def arguments_of(header):
    """Returns the arguments of the type in the head of an impl block, or the parameters in that of a type."""
    named = header.partition("{")[0].rpartition(" for ")[2] if header.startswith("impl") else header
    named = enclosed(named.removeprefix("impl"))[1] if named.startswith("impl") else named
    return parts_of(enclosed(named[named.find("<") :])[0]) if "<" in named else []


@functools.lru_cache(maxsize=None)
def defaulted(crate):
    """Returns the number of parameters of each type of a crate of which some have defaults."""
    heads = [it for path in glob.glob(os.path.join(CRATES, crate) + "/src/**/*.rt", recursive=True) for it in re.findall(r"^(?:pub )?struct (\w+)(<.* = .*>)", text_of(path), re.M)]
    return {name: len(arguments_of("struct" + generics)) for name, generics in heads}


@functools.lru_cache(maxsize=None)
def homes(crate):
    """Returns the module of each type of a crate: the prover names its methods by it, wherever their impl block is. Of types with one
    name an impl block is that of its own file's."""
    found, top = {}, os.path.join(CRATES, crate)
    for path in glob.glob(top + "/src/**/*.rt", recursive=True):
        for name in re.findall(TYPE, text_of(path), re.M):
            found[name] = module_of(os.path.relpath(path, top))
    return found


def functions_of(crate, path, text):
    """Yields the place of each function of a source file, which is in the layout of `rt fmt`. Functions of traits have none."""
    owner, here = None, re.findall(TYPE, text, re.M)
    for item in re.finditer(ITEM, text, re.M):
        indent, name = item[1], item[2]
        if name is None:
            owner = owner_of(item[0]) if item[0].startswith("impl") else None
            given = arguments_of(item[0]) if owner in defaulted(crate) else []
            if given and len(given) < defaulted(crate)[owner]:
                # The prover names such a block where it is.
                owner = "+".join([owner, *given])
            continue
        if indent and owner is None:
            continue
        lines, first = text.split("\n"), text.count("\n", 0, item.start())
        last = first if lines[first].endswith("}") else next((at for at in range(first, len(lines)) if lines[at] in (indent + "}", indent + "{}")), first)
        # The prover's line of a function is that of its first attribute.
        while first and lines[first - 1].strip() and not re.match(r"\s*//|.*[};{]$", lines[first - 1]):
            first -= 1
        home = module_of(path) if not indent or owner in here else homes(crate).get(owner, module_of(path))
        home = [*home, owner] if indent else home
        cycle = re.search(r"^ *#\[cycle\((\w+)\)\]", "\n".join(lines[first:last]), re.M)
        proofs = "/".join(["proofs", *home, "+" + cycle[1] if cycle else name, ""])
        yield Place(path, "::".join([*home, name]), first + 1, last + 1, proofs)


def without_body(text, place):
    """Returns the text of a source file with a body for this function that does nothing, in as many lines, unless it has to keep its own."""
    lines = text.split("\n")
    item, indent = lines[place.first - 1 : place.last], re.match(" *", lines[place.last - 1])[0]
    opened = [at for at, line in enumerate(item) if line == indent + "{"] or [at for at, line in enumerate(item) if line.endswith("{")]
    if item[-1] != indent + "}" or not opened or len(item) - opened[0] < 3 or KEPT.search(place.proofs + "\n".join(item[: opened[0] + 1])):
        return text
    lines[place.first + opened[0] : place.last - 1] = [indent + "    loop {}"] + [""] * (len(item) - opened[0] - 3)
    return "\n".join(lines)


@functools.lru_cache(maxsize=None)
def functions_in(crate):
    """Returns the places of the functions of a crate, but for those of traits."""
    top = os.path.join(CRATES, crate)
    paths = [os.path.relpath(it, top) for it in glob.glob(top + "/src/**/*.rt", recursive=True)]
    return [place for path in paths for place in functions_of(crate, path, text_of(os.path.join(top, path)))]


class Edit:
    def __init__(self, crate, path):
        self.crate, self.name, self.pairs = crate, "%s/%s" % (crate, os.path.basename(path)), []
        file = old = self.law = None
        for line in text_of(path).split("\n"):
            if line.startswith("file: "):
                file = line[len("file: ") :].strip()
            elif line.startswith("old: "):
                old = line[len("old: ") :]
            elif line.startswith("new:") and file and old:
                self.pairs.append((file, old, line[len("new:") :].removeprefix(" ")))
                old = None
            elif line.startswith("law: "):
                self.law = line[len("law: ") :].strip()
        self.place = self.found()

    def text(self, path):
        """Returns a file of the crate as it stands, or nothing if the edit may not name it."""
        place = os.path.join(CRATES, self.crate, path)
        return text_of(place) if path.startswith(("src/", "specs/", "proofs/")) and os.path.isfile(place) else ""

    def made(self, texts):
        """Returns the texts of the crate's files with the edit made in them."""
        changed = dict(texts)
        for path, old, new in self.pairs:
            text = changed.get(path) or self.text(path)
            if text.count(old) != 1:
                raise Unusable("an old text occurs %d times in %s, and not once" % (text.count(old), path))
            changed[path] = text.replace(old, new)
        if not self.pairs or changed == texts:
            raise Unusable("it changes nothing")
        return changed

    def found(self):
        """Returns the place of the function that the edit changes, or None if it changes anything else."""
        places = set()
        for path, old, _ in self.pairs:
            text = self.text(path) if path.startswith("src/") else ""
            line = text.count("\n", 0, text.find(old)) + 1 if text.count(old) == 1 else 0
            places.add(next((it for it in functions_of(self.crate, path, text) if it.first <= line <= it.last), None))
        place = places.pop() if len(places) == 1 else None
        return place if place and self.law in (None, place.name) else None

    def refused(self, said):
        """Returns true if the prover refuses this function for an error of its own."""
        place, inside, proofs = self.place, [], []
        for path, line, text in errors_of(said):
            if path == place.file and place.first <= line <= place.last:
                inside.append(text)
            elif path.startswith(place.proofs):
                proofs.append(text)
        unread = [text for text in inside if UNREAD.search(text)]
        if unread:
            raise Unusable("the prover cannot read it: " + unread[0][:200])
        return is_refused(self.crate, place.name, said) and any(not UNREAD.search(text) for text in inside + proofs)


def is_refused(crate, name, said):
    """Returns true if the prover says that this function is not proved."""
    return re.search(r"^fn %s::%s: (not proved|no proof)" % (crate, re.escape(name)), said, re.M) is not None


def errors_of(said):
    """Returns the file, the line and the text of each error."""
    return [(at[1], int(at[2]), re.sub(r"`[^`]*`", "``", at[3])) for at in map(ERROR.match, said.split("\n")) if at]
