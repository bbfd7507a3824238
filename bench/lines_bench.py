"""Measures `relay lines` next to other programs on the same input."""
import os
import shutil
import subprocess
import sys
import time

import plain_rust

# How many turns each program gets; the slow ones run once.
TURNS = 9
# Each input: the number of operations, the size of a source in bytes, and the maximum ratio of the time of `relay lines` to
# that of the straightforward plain Rust program.
INPUTS = [(400000, 100, 0.35), (100000, 1000, 0.5)]
# The goal: the maximum ratio to the time of the fast one.
GOAL = 1.3

JQ = (
    "foreach inputs as $line ({version: 0, source: false}; "
    "if .source then {version, source: false, out: $line} "
    'elif ($line | has("index")) then {version: (.version + 1), source: true, '
    'out: {index: ($line.index + {version: (.version + 1), version_type: "external"})}} '
    'else {version: (.version + 1), source: false, '
    'out: {delete: ($line.delete + {version: (.version + 1), version_type: "external"})}} end; .out)'
)


def peak_of(pid):
    """Returns the peak memory of a process so far in KiB, or 0 if it has ended."""
    try:
        with open("/proc/%d/status" % pid) as file:
            return next((int(line.split()[1]) for line in file if line.startswith("VmHWM")), 0)
    except OSError:
        return 0


def once(command, source, out):
    """Runs the command once, and returns its wall seconds and its peak memory in KiB, sampled while it runs."""
    with open(source, "rb") as stdin, open(out, "wb") as stdout:
        start = time.monotonic()
        process = subprocess.Popen(command, stdin=stdin, stdout=stdout)
        most = 0
        while process.poll() is None:
            most = max(most, peak_of(process.pid))
            time.sleep(0.002)
        wall = time.monotonic() - start
    if process.returncode != 0:
        sys.exit("%s ended with status %d" % (command[0], process.returncode))
    return wall, most


def same(left, right):
    return subprocess.run(["cmp", "-s", left, right]).returncode == 0


def programs_of(program, plain, fast):
    """The commands to measure, by name."""
    programs = {"relay lines": [program, "lines"]}
    if plain:
        programs["plain Rust"] = [plain]
    if fast:
        programs["fast Rust"] = [fast]
    programs["cat"] = ["cat"]
    programs["python3"] = [sys.executable, os.path.join(plain_rust.BENCH, "lines.py")]
    if shutil.which("jq"):
        programs["jq -c"] = ["jq", "-nc", JQ]
    return programs


def take_turns(folder, source, programs):
    """Returns, for each program, the seconds of its runs, and the peak memory of the largest one."""
    times, most = {name: [] for name in programs}, dict.fromkeys(programs, 0)
    for turn in range(TURNS):
        for name, command in programs.items():
            if turn > 0 and name in ("python3", "jq -c"):
                continue
            wall, memory = once(command, source, os.path.join(folder, name.replace(" ", "_")))
            times[name].append(wall)
            most[name] = max(most[name], memory)
    return times, most


def ratio_to(times, other):
    """Returns the median ratio of the time of `relay lines` to the other's in the same turn."""
    return plain_rust.median([own / its for own, its in zip(times["relay lines"], times[other])])


def verdict(ratio, limit):
    return "met" if ratio <= limit else "MISSED"


def measure_input(folder, program, plain, fast, count, size, target):
    source = os.path.join(folder, "input")
    with open(source, "wb") as file:
        subprocess.run([sys.executable, os.path.join(plain_rust.BENCH, "make_input.py"), str(count), str(size)], stdout=file, check=True)
    volume = os.path.getsize(source) / 1e6
    programs = programs_of(program, plain, fast)
    times, most = take_turns(folder, source, programs)
    for name in ("plain Rust", "fast Rust"):
        if name in programs and not same(os.path.join(folder, "relay_lines"), os.path.join(folder, name.replace(" ", "_"))):
            sys.exit("the output of the %s program is not that of relay lines" % name)
    print("%d operations, sources of %d bytes, %.1f MB; medians of %d runs, ratios by turns" % (count, size, volume, TURNS))
    for name in programs:
        wall = plain_rust.median(times[name])
        print("  %-12s %8.3f s %9.1f MB/s %10.0f operations/s  peak %6d KiB  relay/it %.2f" % (name, wall, volume / wall, count / wall, most[name], ratio_to(times, name)))
    if plain:
        ratio = ratio_to(times, "plain Rust")
        print("  relay lines takes %.2f of the plain Rust program's time (target %.2f: %s)" % (ratio, target, verdict(ratio, target)))
    else:
        print("  the target was not measured: librust-serde-json-dev is not installed")
    if fast:
        ratio = ratio_to(times, "fast Rust")
        print("  relay lines takes %.2f of the fast Rust program's time (goal %.1f: %s)" % (ratio, GOAL, verdict(ratio, GOAL)))
    else:
        print("  the goal was not measured: librust-serde-json-dev, librust-serde-dev, librust-memchr-dev or librust-itoa-dev is not installed")


def measure(folder, program):
    plain = plain_rust.build(folder, "lines", "serde_json")
    fast = plain_rust.build(folder, "lines_fast", "serde_json", "serde/derive", "memchr", "itoa")
    for count, size, target in INPUTS:
        measure_input(folder, program, plain, fast, count, size, target)
