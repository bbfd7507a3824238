"""Runs every test of the repository without proof: `make try` runs `python3 tests/try.py` at the top.

Each test crate is built with run-time checks and run by `rt try --test`, as many at once as there are processors, and so is the
example program, whose output is compared. `rt try` also builds the program so, and removes it when it ends: it is told to run
`relay stub`, and while that waits for a connection the program is copied. The end-to-end suites run on the copy: those in which
time does not matter beside the crates, and the others after them. With run-time checks the program is slow, so some of what `make
test` does is left out: each suite says what. The last line is 'N passed, M failed', counted over the lines above.
"""
import concurrent.futures
import os
import re
import shutil
import signal
import subprocess
import sys
import tempfile
import time

from crates import CRATES, lines_of
from suites import REST, TIMED, TIMELESS, output_of

BUILD_SECONDS, TEST_SECONDS = 900, 300
# Freed memory is used again at once, since one case compares how much memory two runs take, and a run may take longer.
CHECKED = {**os.environ, "ASAN_OPTIONS": "quarantine_size_mb=0:thread_local_quarantine_size_kb=0", "SECONDS_FOR_A_RUN": "300", "FEWER_CASES": "1"}
# The test crates that take longest, the longest first. The others follow, those with the most crates below them first.
LONGEST = ("relay_run_tests", "relay_telling_tests", "relay_http_tests", "relay_threads_tests", "relay_lane_tests", "relay_commands_tests", "relay_net_tests")


def programs():
    """Yields the number and the path of each program that `rt try` is running."""
    for number in filter(str.isdigit, os.listdir("/proc")):
        try:
            with open("/proc/%s/cmdline" % number, "rb") as file:
                words = file.read().decode(errors="replace").split("\0")
        except OSError:
            continue
        yield from ((int(number), word) for word in words if word.endswith("/program") and "stub" in words)


def is_below(number, top):
    """Returns true if a process was started by another, or by one that it started."""
    while number > 1 and number != top:
        try:
            with open("/proc/%d/stat" % number) as file:
                number = int(file.read().rpartition(")")[2].split()[1])
        except OSError:
            return False
    return number == top


def build(place):
    """Builds the program without proof, and returns whether it could."""
    words = ["rt", "try", "--seconds", "60", "--", "stub", "--listen", "127.0.0.1:0", "--requests", "1"]
    trial = subprocess.Popen(words, cwd=os.path.join(CRATES, "relay"), stdin=subprocess.DEVNULL, stdout=subprocess.PIPE, stderr=subprocess.STDOUT)
    until, copied = time.monotonic() + BUILD_SECONDS, False
    while not copied and trial.poll() is None and time.monotonic() < until:
        time.sleep(1)
        for number, path in programs():
            if is_below(number, trial.pid):
                shutil.copy(path, place)
                os.kill(number, signal.SIGTERM)
                copied = True
    said = trial.communicate()[0]
    return copied, "built" if copied else "not built", "" if copied else said.decode(errors="replace")


def tried(crate):
    """Runs the tests of a crate, and returns whether they pass, what to say of them, and the whole output."""
    words = ["rt", "try", "--test", "--seconds", "%d" % TEST_SECONDS]
    done = subprocess.run(words, cwd=os.path.join(CRATES, crate), stdin=subprocess.DEVNULL, stdout=subprocess.PIPE, stderr=subprocess.STDOUT, text=True, errors="replace")
    counts = re.findall(r"^test result: .*?(\d+) passed; (\d+) failed", done.stdout, re.M)
    return done.returncode == 0 and bool(counts), "%s passed, %s failed" % counts[-1] if counts else "no result", done.stdout


def example():
    """Runs the example program, and returns whether it prints what it must."""
    folder = os.path.join(CRATES, "relay_example")
    words = ["rt", "try", "--seconds", "%d" % TEST_SECONDS]
    done = subprocess.run(words, cwd=folder, stdin=subprocess.DEVNULL, stdout=subprocess.PIPE, stderr=subprocess.STDOUT, text=True, errors="replace")
    with open(os.path.join(folder, "stdout"), encoding="utf-8") as file:
        passed = done.returncode == 0 and file.read() in done.stdout
    return passed, "prints what it must" if passed else "prints something else", done.stdout


def suite(*words):
    """Runs a suite, and returns whether it passes, the last line that it prints, and the whole output."""
    status, said = output_of(*words, env=CHECKED)
    return status == 0, (said.strip() or "no output").split("\n")[-1], said


def told(name, run, *given):
    """Makes a trial, and prints its result: of a failure the end of the output, or else what it skipped. Returns whether it passes."""
    began = time.monotonic()
    passed, counts, said = run(*given)
    lines = said.strip().split("\n")[-30:] if not passed else re.findall(r"^(?:SKIPPED|LEFT TO).*", said, re.M)
    heading = "%-32s %-6s %s, in %.0f s" % (name, "ok" if passed else "FAILED", counts, time.monotonic() - began)
    print("\n".join([heading, *("    " + it for it in lines)]), flush=True)
    return passed


def beside(built, program):
    """Runs the suites in which time does not matter, once the program is built. Returns whether each passes."""
    return [told("tests/run.py " + " ".join(names), suite, "run.py", program, *names) for names in TIMELESS] if built.result() else []


def timed(program):
    """Runs the other suites beside each other, and returns whether each passes."""
    sets = {**{" ".join(names): names for names in TIMED}, "the others": REST}
    with concurrent.futures.ThreadPoolExecutor(len(sets) + 1) as pool:
        running = [pool.submit(told, "tests/run.py " + name, suite, "run.py", program, *words) for name, words in sets.items()]
        running.append(pool.submit(told, "tests/http_fixtures.py", suite, "http_fixtures.py"))
    return [it.result() for it in running]


def main():
    crates = [name for name in lines_of() if name.endswith("_tests")]
    crates.sort(key=lambda it: (LONGEST.index(it) if it in LONGEST else len(LONGEST), -len(lines_of()[it])))
    print("running the tests of %d crates and of the program, built without proof; `make test` proves them, and tests more" % len(crates), flush=True)
    began = time.monotonic()
    with tempfile.TemporaryDirectory() as folder:
        program = os.path.join(folder, "relay")
        with concurrent.futures.ThreadPoolExecutor(1) as one, concurrent.futures.ThreadPoolExecutor(len(os.sched_getaffinity(0))) as pool:
            built = pool.submit(told, "relay", build, program)
            suites = one.submit(beside, built, program)
            trials = [pool.submit(told, name, tried, name) for name in crates]
            trials.append(pool.submit(told, "relay_example", example))
        results = [built.result(), *(it.result() for it in trials), *suites.result()]
        results += timed(program) if built.result() else []
    print("%d passed, %d failed, in %.0f minutes" % (sum(results), len(results) - sum(results), (time.monotonic() - began) / 60))
    sys.exit(not all(results))


if __name__ == "__main__":
    main()
