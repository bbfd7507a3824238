"""Runs the gate, `rt ci` and then `edits.py`, and prints its progress and what each crate costs: `python3 tests/gate.py`, at the top.

`rt ci` reports no times. So this looks at the processes below, twice a second, and adds up the processor time of
each crate: for its proof, its tests and its edits. What ends between two looks is counted up to the
earlier one. The budget of a crate is 15 processor minutes, and 20 for the largest (`docs/CONTRIBUTING.md`).

`rt ci` by itself leaves processors idle that could prove: it runs so few checks at once as its estimate of their memory says, and most
take less than half of that. So where there is as much memory for each processor as most of them take at the most, this runs a check on
each processor.

Before `rt ci` tries the must-fail edits of a crate, it proves the crate once more, into a folder that it removes later. This
keeps a copy, with which `edits.py` begins; without one it proves no function but those that are edited.

The output is passed on as it arrives. If the gate fails, its lines on each failure are repeated at the end,
below the table, for those who see only the end of a log. The costs of the most expensive crates, their sum and the number of edits,
or the failures, are also left in `out/gate.txt`; while the gate runs, it has the costs so far.
"""
import collections
import contextlib
import os
import re
import shutil
import subprocess
import sys
import threading
import time

from edit_checks import SEEDS, free_memory, link

TICKS = os.sysconf("SC_CLK_TCK")
HERE = os.path.dirname(os.path.abspath(__file__))
LEFT = os.path.join(os.path.dirname(HERE), "out", "gate.txt")
# The two steps of the gate, and what each says of its edits at the end.
STEPS = (
    ("proving every crate, with its tests and must-fail edits", ["rt", "ci"], re.compile(r"^rt: .*; must-fail edits: (\d+) refused")),
    ("trying the other edits", [sys.executable, os.path.join(HERE, "edits.py"), "--gate"], re.compile(r"^edits: \d+ tried in .*, (\d+) refused")),
)
PARTS = ("proof", "tests", "edits")
BUDGET, LARGEST = 15, 20
# What most checks take of memory at the most, in bytes.
MEMORY = 5 << 30
# How many crates have a row in what is left.
ROWS_LEFT = 15
LOOK, TELL = 0.5, 60
# What marks a line of `rt ci` on a failure, and how many such lines are repeated.
FAILURE = re.compile(r"NOT PROVED|NOT REFUSED|BAD EDIT|FAILED|: error|not-proved|panicked|^rt: .*(status|differ|had not ended|stopped)")
EXPECTED = re.compile(r"refused, as it must be")
SAID_AGAIN = 60


class Process:
    """What /proc says about a process: its parent, its command line, its folder and the processor seconds that it took."""

    def __init__(self, number):
        with open("/proc/%d/stat" % number) as file:
            fields = file.read().rpartition(")")[2].split()
        self.parent = int(fields[1])
        self.seconds = (int(fields[11]) + int(fields[12])) / TICKS
        self.started = int(fields[19])
        with open("/proc/%d/cmdline" % number, "rb") as file:
            self.words = file.read().decode(errors="replace").split("\0")
        self.folder = os.readlink("/proc/%d/cwd" % number)

    def crate(self):
        """Returns the crate that it works for, if its command line names one."""
        words = self.words
        return words[words.index("--crate-name") + 1] if "--crate-name" in words[:-1] else None

    def part(self):
        if re.search("/(rt|relay)-edit", self.folder):
            return "edits"
        return "tests" if "--test" in self.words else "proof"

    def seed(self):
        """Returns the folder that `rt ci` proved the crate into, if this process tries an edit over a copy of it."""
        over = self.words[self.words.index("--incremental") + 1] if "--incremental" in self.words[:-1] else ""
        return re.sub(r"/\d+$", "/seed", over) if re.search(r"/rt-edits-[^/]*/\d+$", over) else None


def keep(seed, crate):
    """Keeps a copy of what `rt ci` proved, for `edits.py`."""
    place = os.path.join(SEEDS, crate)
    with contextlib.suppress(OSError, shutil.Error):
        if not os.path.exists(place):
            shutil.copytree(seed, place + ".part", copy_function=link)
            os.rename(place + ".part", place)


def processes():
    found = {}
    for name in os.listdir("/proc"):
        if name.isdigit():
            try:
                found[int(name)] = Process(int(name))
            except (OSError, IndexError, ValueError):
                pass
    return found


def task_of(number, found, top):
    """Returns the crate and the part that a process below the gate works for, or None for any other process."""
    task = None
    while number in found:
        if number == top:
            return task or ("", "proof")
        crate = found[number].crate()
        if crate:
            task = (crate, found[number].part())
        number = found[number].parent
    return None


class Watch(threading.Thread):
    """Adds up the processor time of the processes below the gate."""

    def __init__(self, top):
        super().__init__(daemon=True)
        self.top, self.seconds, self.ended = top, {}, threading.Event()

    def look(self):
        """Records the seconds of each process so far, and returns the tasks that are running."""
        found, at = processes(), set()
        for number, process in found.items():
            task = task_of(number, found, self.top)
            if task:
                self.seconds[number, process.started] = (task, process.seconds)
                at.add(task)
                if process.seed():
                    keep(process.seed(), task[0])
        return at

    def run(self):
        told = time.monotonic()
        while not self.ended.wait(LOOK):
            at = self.look()
            if time.monotonic() - told >= TELL:
                told = time.monotonic()
                names = sorted("%s (%s)" % task for task in at if task[0])
                print("gate: at %s; %.0f processor minutes so far" % (", ".join(names) or "the start", self.total() / 60), flush=True)
                leave([*rows_left(costs(self.table(), self.total())), "not at its end yet"])

    def total(self):
        return sum(seconds for _, seconds in list(self.seconds.values()))

    def table(self):
        """Returns, for each crate, the processor seconds of its parts."""
        table = {}
        for (crate, part), seconds in list(self.seconds.values()):
            if crate:
                table.setdefault(crate, dict.fromkeys(PARTS, 0.0))[part] += seconds
        return table


def costs(table, total):
    """Returns the lines of the table: its heading, a line for each crate, the most expensive first, and the sums."""
    lines = ["processor minutes of each crate", "  %-24s %7s %7s %7s %7s" % ("", *PARTS, "all")]
    rows = sorted(table.items(), key=lambda row: -sum(row[1].values()))
    for place, (crate, parts) in enumerate(rows):
        spent = sum(parts.values()) / 60
        limit = LARGEST if place == 0 else BUDGET
        over = "  over its %d" % limit if spent > limit else ""
        lines.append("  %-24s %7.1f %7.1f %7.1f %7.1f%s" % (crate, *(parts[it] / 60 for it in PARTS), spent, over))
    sums = [sum(parts[it] for parts in table.values()) / 60 for it in PARTS]
    return [*lines, "  %-24s %7.1f %7.1f %7.1f %7.1f" % ("all", *sums, total / 60)]


def rows_left(lines):
    return [*lines[: 2 + ROWS_LEFT], lines[-1]]


def environment():
    """Returns the environment of the steps: with the kit's RT_JOBS, how many checks run at once, unless memory is short or it is set."""
    processors = len(os.sched_getaffinity(0))
    has_room = free_memory() >= processors * MEMORY
    return {"RT_JOBS": str(processors), **os.environ} if has_room else os.environ


def leave(lines):
    os.makedirs(os.path.dirname(LEFT), exist_ok=True)
    with open(LEFT, "w") as file:
        file.writelines(line + "\n" for line in lines)


def failures_of(said):
    """Returns the lines that report a failure, or the last lines if none does."""
    failures, last = [], collections.deque(maxlen=10)
    for line in said:
        last.append(line.rstrip("\n"))
        if FAILURE.search(line) and not EXPECTED.search(line):
            failures.append(line.rstrip("\n"))
    return (failures or list(last))[-SAID_AGAIN:]


def pass_on(said):
    """Prints each line as it arrives, and yields it."""
    for line in said:
        print(line, end="", flush=True)
        yield line


def main():
    shutil.rmtree(SEEDS, ignore_errors=True)
    watch, refused = Watch(os.getpid()), []
    watch.start()
    for what, words, told in STEPS:
        print(what, flush=True)
        step = subprocess.Popen(words, env=environment(), stdout=subprocess.PIPE, stderr=subprocess.STDOUT, text=True, errors="replace")
        said = list(pass_on(step.stdout))
        status = step.wait()
        if status:
            break
        refused += [int(found[1]) for found in map(told.match, said) if found]
    watch.ended.set()
    watch.join()
    shutil.rmtree(SEEDS, ignore_errors=True)
    lines = costs(watch.table(), watch.total())
    print("\n".join(lines))
    left = rows_left(lines)
    if status:
        failed = ["what failed:", *("  " + line[:300] for line in failures_of(said))]
        print("\n".join(failed))
        leave([*left, *failed])
    else:
        edits = "edits tried and refused: %d" % sum(refused)
        print(edits)
        leave([*left, edits])
    sys.exit(status)


if __name__ == "__main__":
    main()
