"""Proves and links programs, their crates in parallel. `make build` runs `python3 tests/build.py PROGRAM..` at the top.

`rt run` would prove these crates one after another, and `rt ci` in this repository would run all tests and try all edits. So this
makes a temporary repository of the crates that the programs need, without tests and edits, and lets `rt ci` prove and link that.
Programs that were built from the same files with the same kit are not built again.
"""
import hashlib
import os
import shutil
import subprocess
import sys
import tempfile

from crates import CRATES, LEFT_OUT, TOP, lines_of, needed, sum_of
from gate import Watch, failures_of

LOG = os.path.join(TOP, "out", "build.log")


def copy(names, folder):
    """Makes the temporary repository."""
    for name in names:
        shutil.copytree(os.path.join(CRATES, name), os.path.join(folder, "crates", name), ignore=shutil.ignore_patterns(*LEFT_OUT))
    shutil.copy(os.path.join(TOP, "HANDLES"), folder)
    with open(os.path.join(folder, ".gitignore"), "w") as file:
        file.write("out/\n")
    with open(os.path.join(folder, "crates.txt"), "w") as file:
        file.writelines(line for name, line in lines_of().items() if name in names)
    subprocess.run(["git", "init", "-q"], cwd=folder, check=True)


def stamp_of(sources, place):
    """Returns what is kept beside a built program: the checksum of what it was built from, and its own."""
    with open(place, "rb") as file:
        return "%s %s\n" % (sources, hashlib.sha256(file.read()).hexdigest())


def is_built(sources, place):
    """Returns true if the program there is the one that this script built from these sources: `rt` also builds to that place."""
    if not os.path.exists(place) or not os.path.exists(place + ".sum"):
        return False
    with open(place + ".sum") as file:
        return file.read() == stamp_of(sources, place)


def prove(folder):
    """Runs `rt ci` there, and returns true if it passed. Its output goes to the log."""
    os.makedirs(os.path.dirname(LOG), exist_ok=True)
    with open(LOG, "w") as log:
        gate = subprocess.Popen(["rt", "ci"], cwd=folder, stdout=log, stderr=subprocess.STDOUT)
        watch = Watch(gate.pid)
        watch.start()
        status = gate.wait()
    watch.ended.set()
    watch.join()
    return status == 0


def main():
    programs = sys.argv[1:]
    unknown = [name for name in programs if name not in lines_of()]
    if unknown or not programs:
        sys.exit("usage: python3 tests/build.py PROGRAM.., each a crate of crates.txt")
    sums = {name: sum_of(name) for name in programs}
    places = {name: os.path.join("crates", name, "out", name) for name in programs}
    left = [name for name in programs if not is_built(sums[name], os.path.join(TOP, places[name]))]
    for name in programs:
        if name not in left:
            print("built before, and nothing has changed: %s" % places[name])
    if not left:
        return
    names = needed(left)
    print("proving and building %s, %d crates in all; for relay this takes more than an hour of processor time" % (" and ".join(left), len(names)), flush=True)
    with tempfile.TemporaryDirectory() as folder:
        copy(names, folder)
        if not prove(folder):
            with open(LOG, errors="replace") as log:
                print("\n".join(failures_of(log)))
            sys.exit("not built; the whole output is in %s" % LOG)
        for name in left:
            place = os.path.join(TOP, places[name])
            os.makedirs(os.path.dirname(place), exist_ok=True)
            shutil.copy(os.path.join(folder, places[name]), place)
            with open(place + ".sum", "w") as file:
                file.write(stamp_of(sums[name], place))
            print("built: %s" % places[name])


main()
