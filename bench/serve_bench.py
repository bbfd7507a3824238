"""Measures `relay serve` in front of a plain Rust server that answers every bulk request with success: the same clients and requests,
to it, directly to that server, and to a relay in plain Rust whose lanes only hand requests on: what any relay with lanes takes. Then many
clients that write single documents, to an index that runs few requests at a time; and a thousand idle connections beside others."""
import contextlib
import os
import re
import resource
import socket
import subprocess
import sys

import plain_rust
from run_bench import SERVERS, Server, make_files, once, write_bodies

TURNS, WRITES, OPERATIONS, CLIENTS = 7, 2_000, 50_000, 4
# The sizes of a source in bytes.
SIZES = (100, 1000)
# The microseconds that the server takes for a request, and the goal: the maximum ratio of the median time of a single write to that
# of a direct one.
SINGLES = ((0, 3.0), (1000, 1.2))
# The relays that clients send requests of 500 to, by name, with their options; and the goal: the minimum ratio of the operations per
# second of the last one to those of direct ones, with the slower server. A few clients with large requests keep more lanes busy.
RATED, RATE_GOAL = (("4 lanes", ()), ("8 lanes", ("--lanes", "8"))), 0.8
# The index of a crowd: the nanoseconds per operation, the microseconds per request, and how many requests it runs at a time.
CROWDED = (4000, 1000, 4)
# Clients that each write one document after another, the options of the relay, and the goal: the minimum ratio of their rate to the direct
# one.
CROWDS = ((32, (), 3.0), (256, ("--workers", "256"), 10.0))
# For how many seconds the writes of a crowd count in a turn, and how many turns there are.
CROWD_SECONDS, CROWD_TURNS = 2, 3
# Idle connections, the clients beside them, and the goals: the maximum of the memory for them in bytes, and the minimum ratio of the rate of the
# others to their rate alone.
IDLE, BESIDE, IDLE_MEMORY_GOAL, IDLE_RATE_GOAL = 1_000, 16, 40_000_000, 0.95


class Relay:
    """A running `relay serve` in front of a server, with these options, and these variables in its environment."""

    def __init__(self, relay, server, *options, **variables):
        with socket.create_server(("127.0.0.1", 0)) as free:
            self.port = str(free.getsockname()[1])
        words = ["serve", "--listen", "127.0.0.1:" + self.port, "--to", "127.0.0.1:" + server.port, "--epoch", "0", *options]
        self.process = subprocess.Popen([relay, *words], env={**os.environ, **variables}, stdin=subprocess.PIPE, stdout=subprocess.PIPE, stderr=subprocess.PIPE, text=True)
        if not self.process.stderr.readline().startswith("listening on"):
            sys.exit("relay serve has not begun")

    def memory(self):
        """How much memory it has, in bytes."""
        with open("/proc/%d/statm" % self.process.pid) as file:
            return int(file.read().split()[1]) * resource.getpagesize()

    def stop(self):
        """Stops it, and returns how many operations it has had applied."""
        out, err = self.process.communicate()
        counts = re.fullmatch(r"applied (\d+) already 0 reported 0\n", out)
        if self.process.returncode != 0 or not counts:
            sys.exit("relay serve ended with %d: %s %s" % (self.process.returncode, out[-300:], err[-300:]))
        return int(counts[1])


class Handing:
    """A running relay in plain Rust that only hands requests on, with as many lanes as `relay serve` has."""

    def __init__(self, handing, server):
        self.process = subprocess.Popen([handing, server.port, "4"], stdout=subprocess.PIPE, text=True)
        self.port = self.process.stdout.readline().strip()

    def __enter__(self):
        return self

    def __exit__(self, *_):
        self.process.kill()
        self.process.communicate()


@contextlib.contextmanager
def ports(relay, handing, server, operations, shapes=(("relay", ()),)):
    """Starts the relays before a server, and gives the port of each and of the server, by name. `relay serve` is started with the options of
    each shape, and must have had so many operations applied at the end."""
    with Handing(handing, server) if handing else contextlib.nullcontext() as floor:
        standing = {name: Relay(relay, server, *options) for name, options in shapes}
        yield {**{name: its.port for name, its in standing.items()}, **({"handing": floor.port} if floor else {}), "direct": server.port}
        for its in standing.values():
            applied(its, operations)


def applied(relay, wanted):
    found = relay.stop()
    if found != wanted:
        sys.exit("relay serve has had %d of %d operations applied" % (found, wanted))


def beside(of):
    """What to say of the relay that only hands on, given its ratio over the turns; nothing if it was not measured."""
    return "" if of is None else "; one in plain Rust that only hands on: %.2f" % of


def measure_singles(relay, bulk, handing):
    for microseconds, goal in SINGLES:
        with Server(bulk, 0, None, microseconds) as server, ports(relay, handing, server, TURNS * WRITES) as to:
            times = {name: [] for name in to}
            for _ in range(TURNS):
                for name, port in to.items():
                    told = once([bulk, "single", port, str(WRITES)])[3]
                    times[name].append(float(told.rpartition(", ")[2].split()[0]))
        ratio, floor = (plain_rust.median([own / its for own, its in zip(times[name], times["direct"])]) if name in times else None for name in ("relay", "handing"))
        print("serve: %d single writes one after another, a server that takes %d microseconds per request: median %.0f us, direct %.0f us, ratio %.2f (goal %.1f: %s)%s" % (WRITES, microseconds, plain_rust.median(times["relay"]), plain_rust.median(times["direct"]), ratio, goal, "met" if ratio <= goal else "MISSED", beside(floor)))


def measure_rates(folder, relay, bulk, handing):
    for size in SIZES:
        paths = []
        for path in make_files(folder, CLIENTS, OPERATIONS, size):
            with open(path, "rb") as file:
                paths.append(write_bodies(file.read().split(b"\n"), path + "-ready"))
        for nanoseconds, called in SERVERS:
            with Server(bulk, nanoseconds) as server, ports(relay, handing, server, TURNS * OPERATIONS, RATED) as to:
                walls = {name: [] for name in to}
                for _ in range(TURNS):
                    for name, port in to.items():
                        walls[name].append(once([bulk, "ready", port, *paths])[0])
            ratios = {name: plain_rust.median([its / own for own, its in zip(of, walls["direct"])]) for name, of in walls.items()}
            told = ", ".join("%s %.2f of direct" % (name, ratios[name]) for name, _ in RATED)
            line = "serve: %d operations of %d bytes in requests of 500 from %d clients, a server %s: direct %.0f operations/s, with %s" % (OPERATIONS, size, CLIENTS, called, OPERATIONS / plain_rust.median(walls["direct"]), told)
            met = "met" if ratios[RATED[-1][0]] >= RATE_GOAL else "MISSED"
            print(line + (" (goal of the last %.1f: %s)" % (RATE_GOAL, met) if nanoseconds else "") + beside(ratios.get("handing")))


def write(bulk, port, clients, seconds):
    """Has so many clients write, and returns how many documents they wrote, and how many of those that count a second."""
    found = re.fullmatch(r"(\d+) writes, ([\d.]+) a second, .*\n", once([bulk, "clients", port, str(clients), str(seconds)])[3])
    return int(found[1]), float(found[2])


def measure_crowds(relay, bulk):
    nanoseconds, microseconds, threads = CROWDED
    called = "a server that runs %d requests at a time, each %d microseconds and %d nanoseconds per operation" % (threads, microseconds, nanoseconds)
    for clients, options, goal in CROWDS:
        with Server(bulk, nanoseconds, None, microseconds, threads) as server:
            standing, written = Relay(relay, server, *options), 0
            rates = {standing.port: [], server.port: []}
            for _ in range(CROWD_TURNS):
                for port, of in rates.items():
                    count, rate = write(bulk, port, clients, CROWD_SECONDS)
                    written += count if port == standing.port else 0
                    of.append(rate)
            applied(standing, written)
        own, direct = rates.values()
        ratio = plain_rust.median([its / other for its, other in zip(own, direct)])
        print("serve: single writes of %d clients, %s, %s: %.0f a second, direct %.0f, ratio %.1f (goal %.0f: %s)" % (clients, " ".join(["relay serve", *options]), called, plain_rust.median(own), plain_rust.median(direct), ratio, goal, "met" if ratio >= goal else "MISSED"))


@contextlib.contextmanager
def idle(relay, is_used):
    """Has idle connections open: nothing has come on them, or, if they are used, a document was stored by each."""
    streams = []
    for number in range(IDLE):
        stream = socket.create_connection(("127.0.0.1", int(relay.port)))
        streams.append(stream)
        if is_used:
            stream.sendall(b"PUT /books/_doc/idle-%d HTTP/1.1\r\nHost: a\r\nContent-Length: 2\r\n\r\n{}" % number)
            if not stream.recv(65536).startswith(b"HTTP/1.1 201 "):
                sys.exit("relay serve has not stored the document of an idle connection")
    yield
    for stream in streams:
        stream.close()


def measure_idle(relay, bulk):
    if resource.getrlimit(resource.RLIMIT_NOFILE)[0] < 3 * IDLE:
        print("serve: idle connections were not measured: the limit of open files is below %d" % (3 * IDLE))
        return
    for is_used, called in ((False, "idle connections"), (True, "idle connections, each of which has stored a document")):
        with Server(bulk, 0) as server:
            standing = Relay(relay, server)
            written, _ = write(bulk, standing.port, BESIDE, CROWD_SECONDS)
            before, grown, ratios = standing.memory(), [], []
            for _ in range(CROWD_TURNS):
                count, alone = write(bulk, standing.port, BESIDE, CROWD_SECONDS)
                with idle(standing, is_used):
                    grown.append(standing.memory() - before)
                    more, beside_them = write(bulk, standing.port, BESIDE, CROWD_SECONDS)
                written += count + more + (IDLE if is_used else 0)
                ratios.append(beside_them / alone)
            applied(standing, written)
        most, ratio = max(grown), plain_rust.median(ratios)
        print("serve: %d %s: %.1f MB of memory before, at most %.1f MB more with them (goal under %.0f: %s); %d clients beside them wrote %.2f of their rate alone (goal %.2f: %s)" % (IDLE, called, before / 1e6, most / 1e6, IDLE_MEMORY_GOAL / 1e6, "met" if most < IDLE_MEMORY_GOAL else "MISSED", BESIDE, ratio, IDLE_RATE_GOAL, "met" if ratio >= IDLE_RATE_GOAL else "MISSED"))


def measure(folder, relay):
    bulk, handing = plain_rust.build(folder, "bulk"), plain_rust.build(folder, "handing", "crossbeam-channel")
    if not bulk:
        print("serve: not measured: cargo, which builds the server, is not installed")
        return
    if not handing:
        print("serve: the relay that only hands on was not measured: librust-crossbeam-channel-dev is not installed")
    measure_singles(relay, bulk, handing)
    measure_rates(folder, relay, bulk, handing)
    measure_crowds(relay, bulk)
    measure_idle(relay, bulk)
