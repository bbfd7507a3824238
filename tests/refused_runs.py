"""Runs `relay run` with every n-th allocation refused, against a `relay stub` without refusals. `refusals.py` calls this.

A run ends within a minute, either out of memory or as it would without refusals. Out of memory is also a thread that does not start: the
C library reports a refused allocation for a thread as a system that has no thread left. Whatever it sent, the stub's listing has for
each document a part of what was put, in that order and without duplicates; after a run with status 0 it has everything.

Each run is made once more with `--state` and `--report`. It may also end with a state whose last write failed, and say so. However it
ends, before each mark of its state are operations that the stub lists.
"""
import json
import os
import re
import socket
import subprocess
import tempfile

from program import RELAY, unlogged
from run_cases import operations, wait_for, written
from stub_cases import Stub

REFUSED = b"REFUSED\n"
# How a run ends whose memory was refused: the status, and the line of a thread that did not start; and the status of one whose last
# state was not written.
NO_MEMORY, NO_THREAD, NOT_SAVED = 4, (3, b"", b"start: Thread\n"), 3
# A hundred values: first 1, 2, 3, .., then in growing steps, up to more than the number of allocations of a run.
EVERY = sorted({*range(1, 41), *(int(40 * 1.09**step) for step in range(1, 61))})
# More connections than a run makes; the test opens and closes the rest, so that the stub ends.
CONNECTIONS, SECONDS = 300, 60
DONE = re.compile(rb"applied (\d+) already (\d+) reported 0\n")


def served_to_its_end(stub):
    """Uses up the connections of the stub, and returns the lines that it lists at its end."""
    while stub.process.poll() is None:
        try:
            socket.create_connection(("127.0.0.1", stub.port), timeout=10).close()
        except OSError:
            break
    return stub.process.communicate(timeout=60)[0].splitlines()


def writes_of(listed):
    """Returns the version and the kind of each write, in order, by document."""
    found = {}
    for line in listed:
        _, document, version, kind = line.decode().split()
        found.setdefault(document, []).append((int(version), kind))
    return found


def is_part(kinds, put):
    """Returns true if these are a part of what was put, in the same order."""
    left = iter(put)
    return all(kind in left for kind in kinds)


def wrong_writes(listed, producers, whole):
    """Returns what is wrong with the writes that the stub lists, or None."""
    found = writes_of(listed)
    for ops in producers:
        for identity in {it for it, _ in ops}:
            put = ["delete" if source is None else "index" for it, source in ops if it == identity]
            writes = found.pop("books/" + identity, [])
            versions, kinds = [it[0] for it in writes], [it[1] for it in writes]
            if versions != sorted(set(versions)) or not is_part(kinds, put):
                return "writes of books/%s out of order or doubled: %s" % (identity, writes)
            if whole and kinds != put:
                return "books/%s lacks writes: %s" % (identity, writes)
    return "writes that nobody put: %s" % found if found else None


def lines_of(ops):
    return sum(1 if source is None else 2 for _, source in ops)


def wrong_mark(listed, path, ops, mark):
    """Returns what is wrong with the mark of a file in a state, or None."""
    before, found = ops[: mark["count"]], writes_of(listed)
    with open(path, "rb") as file:
        end = sum(map(len, file.readlines()[: lines_of(before)]))
    if (mark["line"], mark["offset"]) != (lines_of(before), end):
        return "%s is no end of an operation: %s" % (path, mark)
    for identity in {it for it, _ in before}:
        put = ["delete" if source is None else "index" for it, source in before if it == identity]
        if [kind for _, kind in found.get("books/" + identity, [])][: len(put)] != put:
            return "the mark of %s is after writes of books/%s that were not made: %s" % (path, identity, mark)
    return None


def wrong_state(listed, state, files, producers):
    """Returns what is wrong with the state that a run left, or None. It need not be there."""
    if not os.path.exists(state):
        return None
    with open(state) as file:
        marks = json.load(file)["inputs"]
    wrongs = [wrong_mark(listed, *each) for each in zip(files, producers, marks)]
    return next(filter(None, wrongs), None) if len(marks) == len(files) else "the state lacks files: %s" % marks


def run_of(port, files, environment, *more):
    """Returns the exit status of a run, its output, and whether an allocation was refused. The status is None if it did not end."""
    args = [RELAY, "run", "--to", "127.0.0.1:%d" % port, "--lanes", "2", "--count", "7", "--linger", "0", "--attempts", "32", *more, *files]
    try:
        done = subprocess.run(args, env=environment, stdin=subprocess.DEVNULL, capture_output=True, timeout=SECONDS)
    except subprocess.TimeoutExpired:
        return None, b"", b"", True
    return done.returncode, done.stdout, unlogged(done.stderr.replace(REFUSED, b"")), REFUSED in done.stderr


def is_out_of_memory(status, out, err):
    return status == NO_MEMORY or (status, out, err) == NO_THREAD


def wrong_end(status, out, err, met, total, state):
    """Returns what is wrong with how a run ended, or None."""
    if status is None:
        return "has not ended after %d s" % SECONDS
    failed = b"%s: write failed\n" % state.encode() if state and met else b""
    if met and is_out_of_memory(status, out, err.removesuffix(failed)):
        return None
    counts = DONE.fullmatch(out)
    unsaved = failed and (status, err) == (NOT_SAVED, failed)
    if (status == 0 or unsaved) and counts and sum(map(int, counts.groups())) == total:
        return None
    return "ended with %d: %s %s" % (status, out[-300:], err[-300:])


def run_one(every, environment, files, producers, state=None):
    """Makes one run, with a state if its file is given. Returns its status, whether it met a refusal, and what is wrong."""
    stub = Stub(CONNECTIONS)
    wait_for(stub)
    more = ["--state", state, "--report", state + ".report"] if state else []
    status, out, err, met = run_of(stub.port, files, environment, *more)
    listed = served_to_its_end(stub)
    wrong = wrong_end(status, out, err, met, sum(map(len, producers)), state) or wrong_writes(listed, producers, status == 0)
    wrong = wrong or state and wrong_state(listed, state, files, producers)
    named = "relay run --state" if state else "relay run"
    return status, met, "%s with every allocation whose number %d divides refused: %s" % (named, every, wrong) if wrong else None


def counted(name, ends):
    """Prints how the runs have ended, and returns what went wrong."""
    statuses = [status for status, _, _ in ends]
    no_memory = statuses.count(NO_MEMORY) + statuses.count(NO_THREAD[0])
    print("  %s with every n-th allocation refused, %d values of n: %d ended out of memory, %d with status 0, %d of these with refusals" % (name, len(EVERY), no_memory, statuses.count(0), sum(status == 0 and met for status, met, _ in ends)), flush=True)
    return [wrong for _, _, wrong in ends if wrong]


def check_runs(refusing):
    """Makes a run for each value of n, and one with a state. Returns what went wrong."""
    with tempfile.TemporaryDirectory() as folder:
        producers = [operations(p, 60, 6) for p in range(2)]
        files = [written(folder, p, ops) for p, ops in enumerate(producers)]
        ends = [run_one(every, refusing(every), files, producers) for every in EVERY]
        kept = [run_one(every, refusing(every), files, producers, os.path.join(folder, "state%d" % every)) for every in EVERY]
    return counted("relay run", ends) + counted("relay run --state", kept)
