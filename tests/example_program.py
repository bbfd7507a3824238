"""Runs the example program over `relay_api`: `python3 tests/example_program.py PROGRAM`."""
import os
import sys

from crates import CRATES
from program import RESULTS, check, run

EXAMPLE = os.path.join(CRATES, "relay_example")


def main():
    with open(os.path.join(EXAMPLE, "stdout"), "rb") as file:
        wanted = file.read()
    done = run([])
    found = (done.stdout, done.stderr, done.returncode)
    check("the example", found == (wanted, b"", 0), found)
    print("%d passed, %d failed" % (RESULTS["passed"], RESULTS["failed"]))
    sys.exit(RESULTS["failed"] != 0)


main()
