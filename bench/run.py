"""Compares the project's programs with others, all in one run. Only the ratios count.

`python3 bench/run.py [PART..]` measures the named parts, or all of them but the last: lines, pick, apply, queue, tell, replies, lane,
http, world, run, serve, latency, soak. `--operations N` sets the number of operations of `run`, 50,000 by default.
"""
import argparse
import os
import sys
import tempfile

import apply_bench
import http_bench
import lane_bench
import latency
import lines_bench
import pick_bench
import queue_bench
import replies_bench
import run_bench
import serve_bench
import soak_bench
import tell_bench
import world_bench

TOP = os.path.dirname(os.path.dirname(os.path.abspath(__file__)))
RELAY = os.path.join(TOP, "crates/relay/out/relay")
RELAY_BENCH = os.path.join(TOP, "crates/relay_bench/out/relay_bench")

# Each part: its name, the program that it runs, the command that builds that program, and the function that measures.
PARTS = [
    ("lines", RELAY, "`make build`", lines_bench.measure),
    ("pick", RELAY, "`make build`", pick_bench.measure),
    ("apply", RELAY, "`make build`", apply_bench.measure),
    ("queue", RELAY_BENCH, "`rt run` in crates/relay_bench", queue_bench.measure),
    ("tell", RELAY_BENCH, "`rt run` in crates/relay_bench", tell_bench.measure),
    ("replies", RELAY_BENCH, "`rt run` in crates/relay_bench", replies_bench.measure),
    ("lane", RELAY_BENCH, "`rt run` in crates/relay_bench", lane_bench.measure),
    ("http", RELAY_BENCH, "`rt run` in crates/relay_bench", http_bench.measure),
    ("world", RELAY, "`make build`", world_bench.measure),
    ("run", RELAY, "`make build`", run_bench.measure),
    ("serve", RELAY, "`make build`", serve_bench.measure),
    ("latency", RELAY, "`make build`", latency.measure),
    ("soak", RELAY, "`make build`", soak_bench.measure),
]
# What is measured only if it is named.
NAMED = ("soak",)


def main():
    parser = argparse.ArgumentParser()
    parser.add_argument("parts", nargs="*", metavar="PART")
    parser.add_argument("--operations", type=int, default=run_bench.OPERATIONS)
    words = parser.parse_args()
    names = [name for name, _, _, _ in PARTS]
    unknown = [word for word in words.parts if word not in names]
    if unknown:
        sys.exit("no part %s" % " ".join(unknown))
    for name, program, command, measure in PARTS:
        if name not in (words.parts or [it for it in names if it not in NAMED]):
            continue
        if not os.path.exists(program):
            sys.exit("no program for %s: run %s first" % (name, command))
        more = {"operations": words.operations} if name == "run" else {}
        with tempfile.TemporaryDirectory() as folder:
            measure(folder, program, **more)


main()
