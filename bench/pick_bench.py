"""Measures `relay pick` next to `relay lines` on the same operations."""
import os
import subprocess
import sys

import plain_rust
from lines_bench import once, verdict

TURNS = 7
# Each input: the number of operations, and the size of a source in bytes.
INPUTS = [(400_000, 100), (100_000, 1000)]
# One operation in this many is named.
NAMED = (100, 10)
# The goal: the maximum ratio of the time of `relay pick` to that of `relay lines`.
GOAL = 2.0

REPORT = '{"cause":"Refused","id":"%d","index":"books","kind":"mapper_parsing_exception","number":%d,"producer":0,"status":400}\n'


def measure_input(folder, program, count, size):
    source = os.path.join(folder, "input")
    with open(source, "wb") as file:
        subprocess.run([sys.executable, os.path.join(plain_rust.BENCH, "make_input.py"), str(count), str(size)], stdout=file, check=True)
    out = os.path.join(folder, "out")
    for of in NAMED:
        report = os.path.join(folder, "report")
        with open(report, "w") as file:
            file.writelines(REPORT % (number, number) for number in range(of, count + 1, of))
        ratios = []
        for _ in range(TURNS):
            lines, _ = once([program, "lines"], source, out)
            pick, _ = once([program, "pick", "--report", report, source], os.devnull, out)
            ratios.append(pick / lines)
        ratio = plain_rust.median(ratios)
        print("pick: %d operations, sources of %d bytes, one of %d named: %.2f of the time of relay lines (goal %.1f: %s)" % (count, size, of, ratio, GOAL, verdict(ratio, GOAL)))


def measure(folder, program):
    for count, size in INPUTS:
        measure_input(folder, program, count, size)
