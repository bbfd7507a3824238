"""Measures how many events per second `relay world` plays, with 10,000 lines and with 1,000,000."""
import os
import statistics
import subprocess
import time

TURNS = 5


def script(lines):
    """Rounds of ten events on eight lanes: a put, its take, its request, runs of it and its reply, and events that are refused.
    Each document is written again and again."""
    yield "world 8 16 100 100 10 4096 0 3 1 1"
    count, requests, number = 1, 0, 0
    while True:
        number += 1
        requests += 1
        lane, identity = LANES[number % len(LANES)]
        for line in (
            'put %d books %s index {"n":%d}' % (number % 16, identity, number),
            "take %d" % lane,
            "send %d" % lane,
            "send %d" % lane,
            "run %d 1" % requests,
            "run %d 1 429" % requests,
            "run %d 1" % requests,
            "reply %d 1" % requests,
            "lost %d" % requests,
            "take %d" % lane,
        ):
            count += 1
            yield line
            if count == lines:
                return


# Lanes, and the documents of the index `books` that belong to them if there are eight.
LANES = list(zip((6, 1, 0, 3, 2, 5, 4, 7), "01234567"))


def measure(folder, relay):
    print("relay world, events per second (medians of %d turns)" % TURNS)
    for lines in (10_000, 1_000_000):
        path = os.path.join(folder, "script")
        with open(path, "w", encoding="utf-8") as file:
            file.writelines(line + "\n" for line in script(lines))
        times = []
        for _ in range(TURNS):
            with open(path, "rb") as file, open(os.devnull, "wb") as null:
                started = time.monotonic()
                subprocess.run([relay, "world"], stdin=file, stdout=null, check=True, timeout=600)
                times.append(time.monotonic() - started)
        print("  %9d lines: %9.0f events per second" % (lines, (lines - 1) / statistics.median(times)))
