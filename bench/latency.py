"""How long single writes take, by the number of clients: to an index, and to `relay serve` in front of the same index.

`python3 bench/latency.py [--figures] [PROGRAM [OPTION..]]`, with options for `relay serve`. Each client stores one document after
another (`PUT /books/_doc/ID`) on a connection of its own, which it keeps; an answer other than 200 or 201 ends the measurement. The
clients and the index are `bulk.rs`: the index runs four requests at a time, as a pool of four threads does, each for 1 millisecond
and 4 microseconds per operation, so it does at most 4,000 single writes a second, and requests that come meanwhile wait. For each
number of clients it prints, directly and through the relay, the median and the 99th percentile of the times until the answer has
come, and the writes a second. `--figures` also draws `docs/latency.svg`, and puts it into README.md with the date.
"""
import collections
import datetime
import math
import os
import re
import subprocess
import sys
import tempfile

import plain_rust
from compare import TOP, plot, rewrite
from run_bench import Server, once
from serve_bench import Relay, applied

CLIENTS = (1, 2, 4, 8, 16, 32, 64, 128, 256)
# For how many seconds the writes of each number of clients are counted, after 0.3 s in which they are not.
SECONDS = 2
# The index: the nanoseconds per operation, the microseconds per request, and how many requests it runs at a time.
NANOSECONDS, MICROSECONDS, THREADS = 4000, 1000, 4
# What one series did with a number of clients: all its writes, and of those that count the writes a second, and microseconds.
Row = collections.namedtuple("Row", "writes rate median late")


def read(told):
    """Returns what `bulk clients` has printed."""
    found = re.fullmatch(r"(\d+) writes, ([\d.]+) a second, median ([\d.]+) us, p99 ([\d.]+) us\n", told)
    return Row(int(found[1]), *map(float, found.groups()[1:]))


def write(bulk, server, port, clients):
    """Writes from so many clients. The index must answer each write, and once."""
    before = server.answered()
    row = read(once([bulk, "clients", port, str(clients), str(SECONDS)])[3])
    answered = server.answered() - before
    if answered != row.writes:
        sys.exit("%d clients: %d of %d writes were answered" % (clients, answered, row.writes))
    return row


def measure(folder, relay, *options):
    """Prints a line for each number of clients, and returns the rows of both series."""
    bulk, rows = plain_rust.build(folder, "bulk"), {}
    if not bulk:
        print("latency: not measured: cargo, which builds the server, is not installed")
        return rows
    print("latency: single writes, an index that runs %d requests at a time, each %d us and %d ns per operation; %s s for each number of clients" % (THREADS, MICROSECONDS, NANOSECONDS, SECONDS))
    print("  %7s  %9s %9s %8s  %9s %9s %8s  %s" % ("clients", "direct us", "p99 us", "a second", "relay us", "p99 us", "a second", "relay's rate/direct"))
    with Server(bulk, NANOSECONDS, None, MICROSECONDS, THREADS) as server:
        standing = Relay(relay, server, *options)
        for clients in CLIENTS:
            direct, own = rows[clients] = [write(bulk, server, port, clients) for port in (server.port, standing.port)]
            print("  %7d  %9.0f %9.0f %8.0f  %9.0f %9.0f %8.0f  %.2f" % (clients, direct.median, direct.late, direct.rate, own.median, own.late, own.rate, own.rate / direct.rate), flush=True)
        applied(standing, sum(own.writes for _, own in rows.values()))
    return rows


# ---- the figures


LEFT, WIDE, TOP_EDGE, HIGH = 70, 610, 40, 260
SERIES = (("direct", "direct"), ("relay", "through relay serve"))
LIGHT = """.direct { color: #bc4c00 } .relay { color: #0969da } .key { fill: currentColor }
.median { fill: none; stroke: currentColor; stroke-width: 2.5 } .late { fill: none; stroke: currentColor; stroke-opacity: .5 } .band { fill: currentColor; fill-opacity: .15 }"""
DARK = ".direct { color: #f0883e } .relay { color: #4493f8 }"
LABEL = "Latency of single writes by number of clients, direct and through relay serve"
IMAGE = "![%s](docs/latency.svg)" % LABEL


def ticks(least, most):
    """Returns the numbers 1, 2 and 5 times a power of ten from the last one that is not above `least` to the first that is not below
    `most`."""
    every = [digit * 10.0**power for power in range(-3, 9) for digit in (1, 2, 5)]
    return [it for it, following, before in zip(every, every[1:], [0] + every) if following > least and before < most]


def spoken(microseconds):
    """Returns a time in the largest unit of which it has one, with a decimal if there are fewer than ten."""
    number, unit = next((microseconds / size, name) for size, name in ((1e6, "s"), (1e3, "ms"), (1, "us")) if microseconds >= size or size == 1)
    return "%.*f %s" % (1 if number < 10 and number != int(number) else 0, number, unit)


def drawn(rows):
    """Returns a plot of the times by the number of clients, both logarithmic: for each series a line at the median, and above it a band
    up to the 99th percentile."""
    series = [[of[place] for of in rows.values()] for place in range(len(SERIES))]
    marks = ticks(min(row.median for of in series for row in of), max(row.late for of in series for row in of))
    x_of = lambda place: LEFT + WIDE * place / max(len(rows) - 1, 1)
    y_of = lambda time: TOP_EDGE + HIGH * (1 - math.log(time / marks[0]) / math.log(marks[-1] / marks[0]))
    parts, bottom = [], TOP_EDGE + HIGH
    for (name, label), x in zip(SERIES, (8, 90)):
        parts.append('<rect class="%s key" x="%d" y="8" width="12" height="12"/><text x="%d" y="19">%s</text>' % (name, x, x + 18, label))
    parts.append('<text x="772" y="19" text-anchor="end">line: median; band: up to the 99th percentile</text>')
    for time in marks:
        parts.append('<line class="grid" x1="%d" y1="%.1f" x2="%d" y2="%.1f"/><text x="%d" y="%.1f" text-anchor="end">%s</text>' % (LEFT, y_of(time), LEFT + WIDE, y_of(time), LEFT - 8, y_of(time) + 4, spoken(time)))
    for place, clients in enumerate(rows):
        parts.append('<text x="%.1f" y="%d" text-anchor="middle">%d</text>' % (x_of(place), bottom + 20, clients))
    parts.append('<text x="%d" y="%d" text-anchor="middle">clients, each of which sends one write after another</text>' % (LEFT + WIDE / 2, bottom + 40))
    joined = lambda points: " ".join("%.1f,%.1f" % point for point in points)
    for (name, _), of in zip(SERIES, series):
        medians, lates = ([(x_of(place), y_of(getattr(row, which))) for place, row in enumerate(of)] for which in ("median", "late"))
        parts.append('<polygon class="%s band" points="%s"/>' % (name, joined(medians + lates[::-1])))
        parts += ['<polyline class="%s %s" points="%s"/>' % (name, which, joined(points)) for which, points in (("late", lates), ("median", medians))]
    floor = -math.inf
    for row in sorted((of[-1] for of in series), key=lambda row: -row.median):
        floor = max(y_of(row.median) + 5, floor + 15)
        parts.append('<text class="mark" x="%d" y="%.1f">%s</text>' % (LEFT + WIDE + 8, floor, spoken(row.median)))
    return plot(LABEL, bottom + 48, LIGHT, DARK, parts)


def placed(text, line):
    """Puts the line with the plot behind the table of README.md, in place of one that is there."""
    lines = [it for it in text.split("\n") if not it.startswith(IMAGE)]
    lines.insert(lines.index("<!-- /compare -->") + 1, line)
    return "\n".join(lines)


def source(options):
    """Returns what README.md says of the plot."""
    version = subprocess.run(["rustc", "--version"], capture_output=True, text=True).stdout.split()[1:2]
    shown = "`%s`" % " ".join(["relay serve", *options])
    return "Clients that each send one write after another, directly or to %s: the median time until the answer, and the 99th percentile. The index runs %d requests at a time, each for %d ms and %d us per operation. Measured on %s by `python3 bench/latency.py` on %d processors; rustc %s." % (shown, THREADS, MICROSECONDS // 1000, NANOSECONDS // 1000, datetime.date.today(), len(os.sched_getaffinity(0)), " ".join(version))


def main():
    words = [it for it in sys.argv[1:] if it != "--figures"]
    relay, options = (words or [os.path.join(TOP, "crates", "relay", "out", "relay")])[0], words[1:]
    if not os.path.exists(relay):
        sys.exit("no program: run `make build` first")
    with tempfile.TemporaryDirectory() as folder:
        rows = measure(folder, relay, *options)
    if rows and "--figures" in sys.argv:
        rewrite("latency.svg", drawn(rows), lambda text: placed(text, IMAGE + "<br>" + source(options)))


if __name__ == "__main__":
    main()
