"""Measures `read_reply` next to a plain Rust program that reads the same reply into a `serde_json::Value`."""
import os
import subprocess
import sys

import plain_rust

TURNS = 5
ITEMS = 500
READINGS = 400
# The maximum ratio of the time of `read_reply` to that of the plain program.
TARGET = 0.8


def measure(folder, program):
    plain = plain_rust.build(folder, "replies", "serde_json")
    source = os.path.join(folder, "reply")
    with open(source, "wb") as file:
        subprocess.run([sys.executable, os.path.join(plain_rust.BENCH, "make_reply.py"), str(ITEMS)], stdout=file, check=True)
    programs = {"relay": ([program, "replies", str(READINGS)], source)}
    if plain:
        programs["plain Rust"] = ([plain, str(READINGS)], source)
    told, best = plain_rust.best_of(TURNS, programs)
    print("replies: %s, %d bytes per item, best of %d" % (told, os.path.getsize(source) // ITEMS, TURNS))
    print("  read_reply   %8.1f ns per item" % best["relay"])
    if plain:
        ratio = best["relay"] / best["plain Rust"]
        print("  plain Rust   %8.1f ns per item, relay/it %.2f (target %.1f: %s)" % (best["plain Rust"], ratio, TARGET, "met" if ratio <= TARGET else "MISSED"))
    else:
        print("  the target was not measured: librust-serde-json-dev is not installed")
