"""Runs the end-to-end suites of `run.py`, sets of them beside each other: `make test` runs `python3 tests/suites.py PROGRAM` at the top.

Most of their time is spent waiting: for limits of time, for pauses, and for servers that are down. A set's output is printed once it
has ended. The last line is 'N passed, M failed', counted over the cases of all sets.
"""
import concurrent.futures
import os
import re
import subprocess
import sys

TESTS = os.path.dirname(os.path.abspath(__file__))
# The suites in which time does not matter, the longest first.
TIMELESS = (("serve_kills",), ("pick",), ("serve_clients",), ("scripts",), ("lines", "apply", "command_line"), ("world",))
# Sets of the others, each of which takes a minute or two; the rest are a set too.
TIMED = (("stop", "reply"), ("run", "outage", "several"), ("epoch", "option", "progress"), ("serve",), ("serve_hostile",), ("serve_fair",), ("serve_desk",), ("state",), ("minute",), ("recipe",))
REST = ("--except", *sum(TIMELESS + TIMED, ()))


def output_of(*words, env=None):
    """Runs a script of this folder, and returns its status and its output."""
    words = [sys.executable, os.path.join(TESTS, words[0]), *words[1:]]
    done = subprocess.run(words, env=env, stdout=subprocess.PIPE, stderr=subprocess.STDOUT, text=True, errors="replace")
    return done.returncode, done.stdout


def run_beside(program, sets):
    """Runs these sets beside each other, prints the output of each once it has ended, and yields how many cases passed and failed."""
    with concurrent.futures.ThreadPoolExecutor(len(sets)) as pool:
        running = {pool.submit(output_of, "run.py", program, *names): names for names in sets}
        for ended in concurrent.futures.as_completed(running):
            status, said = ended.result()
            print("== %s\n%s" % (" ".join(running[ended]), said), end="", flush=True)
            counts = re.search(r"^(\d+) passed, (\d+) failed\n\Z", said, re.M)
            passed, failed = map(int, counts.groups()) if counts else (0, 1)
            yield passed, failed or status != 0


def main(program):
    # Those that take processor time come first, so that the others find it free.
    counts = [*run_beside(program, TIMELESS), *run_beside(program, (*TIMED, REST))]
    passed, failed = map(sum, zip(*counts))
    print("%d passed, %d failed" % (passed, failed))
    sys.exit(failed != 0)


if __name__ == "__main__":
    main(sys.argv[1])
