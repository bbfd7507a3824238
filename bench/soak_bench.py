"""Measures the memory of `relay serve` over many terms: bulk requests from a few clients, each with documents of its own, of which the
index refuses one in a hundred, so that each term has reports. Every client opens its connection again from time to time. The relay's
variables are those of `examples/serve/relay.service`.

It is not among the parts that `make bench` measures: `python3 bench/run.py soak` takes a minute or two.
"""
import os
import re
import subprocess
import sys
import threading

import plain_rust
from lines_bench import peak_of
from run_bench import Server
from serve_bench import Relay

# The clients, and how many requests of 500 operations each sends: 6,000,000 operations in all, since a term ends only after what is open then.
CLIENTS, REQUESTS, OPERATIONS = 4, 3_000, 500
# A term ends after so many operations, and the memory is read each time that so many terms have ended.
TERM, EVERY, TERMS = 100_000, 10, 50
# The goal: the maximum ratio of the last reading to the first one.
GOAL = 1.05
# Its variables are the relay's.
UNIT = os.path.join(os.path.dirname(plain_rust.BENCH), "examples", "serve", "relay.service")


def variables():
    """Returns the variables of the unit of systemd, by name."""
    with open(UNIT, encoding="utf-8") as file:
        return dict(re.findall(r"^Environment=(\w+)=(.*)$", file.read(), re.M))


def readings(relay, found):
    """Reads the memory of the relay, and the most that it has had so far, whenever so many terms more have ended, until it ends."""
    for line in relay.process.stderr:
        epoch = re.fullmatch(r"epoch (\d+)\n", line)
        if epoch and int(epoch[1]) % EVERY == 0:
            found[int(epoch[1])] = relay.memory(), peak_of(relay.process.pid) * 1024


def measure(folder, program):
    bulk = plain_rust.build(folder, "bulk")
    if not bulk:
        print("soak: not measured: cargo, which builds the server, is not installed")
        return
    with Server(bulk, 0) as server:
        relay, found = Relay(program, server, "--turn-after", str(TERM), **variables()), {}
        begun = relay.memory()
        reading = threading.Thread(target=readings, args=(relay, found))
        reading.start()
        told = subprocess.run([bulk, "soak", relay.port, str(CLIENTS), str(REQUESTS)], stdout=subprocess.PIPE, check=True, text=True).stdout
        # Its end of input; the other thread reads what it says until it ends.
        relay.process.stdin.close()
        out = relay.process.stdout.read()
        reading.join()
        status = relay.process.wait()
    written, refused = map(int, re.fullmatch(r"(\d+) written, (\d+) refused\n", told).groups())
    if (status, out) != (0, "applied %d already 0 reported %d\n" % (written, refused)) or written + refused != CLIENTS * REQUESTS * OPERATIONS:
        sys.exit("soak: of %s, relay serve says %s, and ends with %d" % (told.strip(), out, status))
    if max(found, default=0) < TERMS:
        sys.exit("soak: only %d terms ended" % max(found, default=0))
    ratio = found[TERMS][0] / found[EVERY][0]
    print("soak: %d operations, of which %d were refused, in terms of %d: %.1f MB of memory at the start, %s; after %d terms it is %.2f of that after %d (goal %.2f: %s)" % (
        written + refused, refused, TERM, begun / 1e6, ", ".join("%.1f after %d terms (at most %.1f until then)" % (memory / 1e6, terms, most / 1e6) for terms, (memory, most) in sorted(found.items())), TERMS, ratio, EVERY, GOAL, "met" if ratio <= GOAL else "MISSED"))
