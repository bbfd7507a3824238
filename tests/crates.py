"""What `crates.txt` says of the crates, and where their tests are: `python3 tests/crates.py NAME` prints the test crate of a library."""
import functools
import glob
import hashlib
import os
import subprocess
import sys

TOP = os.path.dirname(os.path.dirname(os.path.abspath(__file__)))
CRATES = os.path.join(TOP, "crates")
# Folders of a crate that its proof does not read.
LEFT_OUT = ("out", "must-fail", "edits")


@functools.lru_cache(maxsize=None)
def lines_of():
    """Returns the line of each crate, by its name."""
    with open(os.path.join(TOP, "crates.txt")) as file:
        return {line.partition(":")[0].split()[0]: line for line in file if line.strip() and not line.startswith("#")}


def needed(names):
    """Returns the names of these crates and of those below them."""
    lines, found, left = lines_of(), set(), list(names)
    while left:
        name = left.pop()
        if name in lines and name not in found:
            found.add(name)
            left += lines[name].partition(":")[2].split()
    return found


def below(name):
    """Returns the names of the crates that a crate depends on."""
    return sorted(needed([name]) - {name})


def tests_of(library):
    """Returns the folder that the tests of a library are in, if there is one: `src/NAME` of a test crate that several share, or `src` of
    its own test crate."""
    shared = glob.glob(os.path.join(CRATES, "*_tests", "src", library.removeprefix("relay_"), ""))
    own = os.path.join(CRATES, library + "_tests", "src", "")
    return next(filter(os.path.isdir, [*shared, own]), None)


def files_below(folder, left_out=()):
    """Yields the path of each file below a folder, in order."""
    for place, folders, files in os.walk(folder):
        folders[:] = sorted(set(folders) - set(left_out))
        yield from (os.path.join(place, name) for name in sorted(files))


def sum_of(name):
    """Returns a checksum of the kit's identity and of all that the proof of a crate reads."""
    found = hashlib.sha256(subprocess.run(["rt", "version"], capture_output=True, check=True).stdout)
    for crate in sorted(needed([name])):
        found.update(lines_of()[crate].encode())
        for path in files_below(os.path.join(CRATES, crate), LEFT_OUT):
            add_file(found, path)
    return found.hexdigest()


def add_file(found, path):
    """Adds a file's path and content to a checksum."""
    with open(path, "rb") as file:
        content = file.read()
    found.update(b"%s %d\n" % (os.path.relpath(path, TOP).encode(), len(content)))
    found.update(content)


if __name__ == "__main__":
    for folder in filter(None, map(tests_of, sys.argv[1:])):
        print(os.path.relpath(folder, CRATES).split(os.sep)[0])
