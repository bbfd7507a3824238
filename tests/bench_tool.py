"""Tests of the benchmark's tool at small sizes, and of the plot of latencies: `python3 tests/bench_tool.py PROGRAM`.

The times that the tool prints are ignored here: only what it did is compared. The plot is drawn of times that are made up.
"""
import os
import re
import sys
import xml.etree.ElementTree

from program import RESULTS, check, run

sys.path.append(os.path.join(os.path.dirname(os.path.dirname(os.path.abspath(__file__))), "bench"))
import latency

USAGE = b"usage: relay_bench "
REPLY = (
    b'{"took":1,"errors":true,"items":['
    b'{"index":{"_id":"1","status":201}},'
    b'{"delete":{"_id":"2","status":409,"error":{"type":"version_conflict_engine_exception"}}}]}'
)
HTTP_REPLY = b"HTTP/1.1 200 OK\r\nContent-Length: 5\r\n\r\nhello"


def measures(args, said, stdin=b""):
    """It does what is asked, and prints what it did, with times in tenths of a nanosecond."""
    done = run(args, stdin)
    wanted = re.escape(said).replace(rb"TIME", rb"[0-9]+\.[0-9]").replace(rb"WHOLE", rb"[0-9]+") + rb"\n"
    found = (done.stdout, done.stderr, done.returncode)
    check("bench: %s" % args, re.fullmatch(wanted, done.stdout) and found[1:] == (b"", 0), found)


def refuses(args, said, stdin=b""):
    """It measures nothing, and prints why."""
    done = run(args, stdin)
    found = (done.stdout, done.stderr, done.returncode)
    check("bench: %s" % args, done.stderr.startswith(said) and (done.stdout, done.returncode) == (b"", 1), found)


def words():
    done = run([])
    check("bench: no words", (done.stdout, done.stderr, done.returncode) == (b"", b"", 0), done)
    for turns in ("0", "-1", "1000000001"):
        refuses(["replies", turns], USAGE, REPLY)


def queues():
    measures(["queue", "1", "1", "20"], b"21 messages in order, TIME ns a message")
    measures(["queue", "3", "4", "50"], b"153 messages in order, TIME ns a message")


def lanes():
    """Fewer operations than a request carries, and more; and many on one document, which are sent one after another."""
    times = b"take TIME, request TIME, reply TIME ns an operation, due WHOLE ns"
    measures(["lane", "3"], b"3 held, 3 sent, " + times)
    measures(["lane", "501"], b"501 held, 500 sent, " + times)
    measures(["lane", "600", "1"], b"600 held, 500 sent, " + times)
    measures(["lane", "10", "2"], b"10 held, 10 sent, " + times)
    refuses(["lane", "0"], USAGE)
    refuses(["lane", "65537"], USAGE)
    refuses(["lane", "1", "0"], USAGE)
    refuses(["lane", "1", "65537"], USAGE)


def replies():
    for turns in ("1", "2"):
        measures(["replies", turns], b"2 items, 1 errors, statuses 610, TIME ns an item", REPLY)
    refuses(["replies", "1"], b"the input is not a reply: ", b"[]")


def messages():
    """Each write has an action line of 77 bytes, and its source."""
    measures(["http-read", "1", "3"], b"status 200, 5 bytes, TIME ns a reading", HTTP_REPLY)
    measures(["http-write", "2", "10", "3"], b"2 writes, %d bytes, TIME ns a request" % (2 * (77 + 10 + 1)))


def points_of(kind, rows):
    """Returns the points of the lines of this kind in the plot, those of the direct writes first."""
    svg = xml.etree.ElementTree.fromstring(latency.drawn(rows))
    lines = [it.get("points") for it in svg.iter("{http://www.w3.org/2000/svg}polyline") if it.get("class").endswith(kind)]
    return [[tuple(map(float, point.split(","))) for point in line.split()] for line in lines]


def plots():
    """A decade is as high anywhere in the plot, and twice as many clients are as far apart; a higher time is higher up."""
    row = latency.read("12 writes, 3.5 a second, median 1000.0 us, p99 100000.0 us\n")
    check("latency: what was printed", row == (12, 3.5, 1000.0, 100000.0), row)
    rows = {clients: [row, row._replace(median=10000.0)] for clients in latency.CLIENTS}
    across = [latency.LEFT + latency.WIDE * place / 8 for place in range(9)]
    bottom, middle, top = (latency.TOP_EDGE + latency.HIGH * part for part in (1, 0.5, 0))
    wanted = {"median": (bottom, middle), "late": (top, top)}
    for kind, heights in wanted.items():
        found = points_of(kind, rows)
        right = [[(round(x, 1), y) for x in across] for y in heights]
        check("latency: the lines of the %s" % kind, all(abs(a - b) < 0.1 for line, own in zip(found, right) for point, its in zip(line, own) for a, b in zip(point, its)) and [len(line) for line in found] == [9, 9], found)
    marks = latency.ticks(1100, 60000)
    check("latency: the marks", marks == [1000, 2000, 5000, 10000, 20000, 50000, 100000], marks)
    spoken = [latency.spoken(it) for it in (0.5, 70, 1000, 1540, 15400, 2e6)]
    check("latency: the times in words", spoken == ["0.5 us", "70 us", "1 ms", "1.5 ms", "15 ms", "2 s"], spoken)


def places():
    """The plot is put behind the table of README.md, and there once."""
    first = latency.placed("a\n<!-- /compare -->\n\nb\n", latency.IMAGE + " old")
    second = latency.placed(first, latency.IMAGE + " new")
    check("latency: its place", second == "a\n<!-- /compare -->\n%s new\n\nb\n" % latency.IMAGE, second)


def main():
    for group in (words, queues, lanes, replies, messages, plots, places):
        group()
    print("%d passed, %d failed" % (RESULTS["passed"], RESULTS["failed"]))
    sys.exit(RESULTS["failed"] != 0)


main()
