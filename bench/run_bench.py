"""Measures `relay run` against a plain Rust server that answers every bulk request with success, next to two relays in plain
Rust, one that keeps the order of each document and one that does not, Python's `streaming_bulk`, and the floor: prepared
requests, sent by plain Rust."""
import contextlib
import http.client
import json
import os
import subprocess
import sys
import tempfile
import time

import plain_rust
from lines_bench import peak_of

TURNS = 7
OPERATIONS = 50_000
# The sizes of a source in bytes.
SIZES = (100, 1000)
# The number of files and of lanes.
SHAPES = ((1, 1), (4, 4))
COUNT = 500
# The capacity of a lane's queue: two batches, which is what the channels of the plain Rust relays have room for.
CAPACITY = 2 * COUNT
# The nanoseconds that the server takes for each operation, and how the output describes that server.
SERVERS = ((0, "that responds immediately"), (4000, "that takes 4 microseconds per operation"))
# The plain Rust relay that does the same work, and the one that keeps no order over files.
ORDERED, FORWARD = "plain Rust, ordered", "plain Rust"
# The goals: the maximum ratio of the time of `relay run` to that of each other program, with the slower server.
GOALS = {"ready bodies": 1.5, "streaming_bulk": 1.0}
# The goals next to the plain Rust relay that does the same work: the time with one request in flight, and the processor time,
# with both servers, and the time with two in flight, with the slower one.
ORDERED_GOALS = {"one": 1.0, "processor": 0.95, "two": 0.8}
# The limit in bytes of a server that has one, the size of a source in bytes, and the goal: the maximum ratio to the time
# without a limit.
MOST, LARGE, HALVES_GOAL = 60_000, 1000, 1.5
# What the relay is called if it has two requests of each lane in flight.
TWO = "relay, 2 in flight"
# A server that takes SLOW microseconds per request: the operations per request, the pairs of lanes and requests in flight
# that are measured, and the goal: how many times as fast one lane with 8 in flight must be as one lane with 1.
SLOW, FEW, FLIGHTS, FLIGHTS_GOAL = 5000, 100, ((1, 1), (1, 4), (1, 8), (4, 1), (4, 8)), 5.0
# The goals: the maximum ratio of the time of a run with --progress, and of one with --state, to that of one without.
PROGRESS_GOAL, STATE_GOAL = 1.03, 1.03
# By how many KiB the peak memory may grow if there are ten times as many operations.
GROWTH = 2048
# Interpreters that may have the helpers: this one, and the one that Debian's package installs them for.
PYTHONS = (sys.executable, "/usr/bin/python3")


class Server:
    """A running `bulk serve`."""

    def __init__(self, bulk, nanoseconds, most=None, microseconds=0, threads=0):
        words = [str(nanoseconds), str(2**40 if most is None else most), str(microseconds), str(threads)]
        self.process = subprocess.Popen([bulk, "serve", *words], stdout=subprocess.PIPE, text=True)
        self.port = self.process.stdout.readline().strip()

    def answered(self):
        """Returns how many operations it has answered so far."""
        client = http.client.HTTPConnection("127.0.0.1", int(self.port))
        with contextlib.closing(client):
            client.request("GET", "/")
            return json.load(client.getresponse())["answered"]

    def __enter__(self):
        return self

    def __exit__(self, *_):
        self.process.kill()
        self.process.communicate()


def once(command, stderr=None):
    """Runs the command once, and returns its wall seconds, its processor seconds, its peak memory in KiB, and its output.

    The peak is sampled while the process runs: the peak that the system reports for a process that ended is at least
    that of the process that started it."""
    with tempfile.TemporaryFile("w+") as out:
        start = time.monotonic()
        process = subprocess.Popen(command, stdin=subprocess.DEVNULL, stdout=out, stderr=stderr)
        peak, pid = 0, 0
        while pid == 0:
            peak = max(peak, peak_of(process.pid))
            time.sleep(0.001)
            pid, status, used = os.wait4(process.pid, os.WNOHANG)
        wall = time.monotonic() - start
        process.returncode = os.waitstatus_to_exitcode(status)
        out.seek(0)
        told = out.read()
    if process.returncode != 0:
        sys.exit("%s ended with status %d: %s" % (" ".join(command[:3]), process.returncode, told[-300:]))
    return wall, used.ru_utime + used.ru_stime, peak, told


def helpers():
    """Returns an interpreter that has the Elasticsearch helpers, or None."""
    for python in PYTHONS:
        if os.path.exists(python) and subprocess.run([python, "-c", "import elasticsearch.helpers"], capture_output=True).returncode == 0:
            return python
    return None


def make_files(folder, files, operations, size):
    """Makes one file for each producer, with `operations` in all of them together."""
    paths = []
    for number in range(files):
        path = os.path.join(folder, "operations-%d" % number)
        count = operations // files + (number < operations % files)
        words = [str(count), str(size), "%d-" % number]
        with open(path, "wb") as file:
            subprocess.run([sys.executable, os.path.join(plain_rust.BENCH, "make_input.py"), *words], stdout=file, check=True)
        paths.append(path)
    return paths


def write_requests(relay, path, ready):
    """Writes the requests for the operations of a file, byte for byte as they are sent."""
    with open(path, "rb") as file:
        lines = subprocess.run([relay, "lines"], stdin=file, stdout=subprocess.PIPE, check=True).stdout.split(b"\n")
    return write_bodies(lines, ready)


def write_bodies(lines, ready):
    """Writes requests of `COUNT` operations each with these lines, of which the last is empty."""
    body, count, at = [], 0, 0
    with open(ready, "wb") as file:
        while at < len(lines) - 1:
            taken = 1 if lines[at].startswith(b'{"delete"') else 2
            body += lines[at : at + taken]
            at, count = at + taken, count + 1
            if count == COUNT or at == len(lines) - 1:
                text = b"".join(line + b"\n" for line in body)
                file.write(b"POST /_bulk HTTP/1.1\r\nHost: 127.0.0.1\r\nContent-Type: application/x-ndjson\r\nContent-Length: %d\r\n\r\n" % len(text))
                file.write(text)
                body, count = [], 0
    return ready


def run_command(relay, port, lanes, paths, flying=1):
    return [relay, "run", "--to", "127.0.0.1:%s" % port, "--count", str(COUNT), "--capacity", str(CAPACITY), "--lanes", str(lanes), "--flying", str(flying), *paths]


def commands(tools, relay, port, lanes, paths, ready):
    """The commands to compare, by name."""
    found = {"relay run": run_command(relay, port, lanes, paths), TWO: run_command(relay, port, lanes, paths, 2)}
    if tools["ordered"]:
        found[ORDERED] = [tools["ordered"], port, str(lanes), *paths]
    if tools["forward"]:
        found[FORWARD] = [tools["forward"], port, *paths]
    found["ready bodies"] = [tools["bulk"], "ready", port, *ready]
    if tools["python"]:
        found["streaming_bulk"] = [tools["python"], os.path.join(plain_rust.BENCH, "streaming_bulk.py"), port, *paths]
    return found


def take_turns(server, programs, operations):
    """Runs the programs in turns, and returns the runs of each. In each run every operation must be answered, once."""
    runs = {name: [] for name in programs}
    for _ in range(TURNS):
        for name, command in programs.items():
            before = server.answered()
            run = once(command)
            answered = server.answered() - before
            if answered != operations:
                sys.exit("%s: %d of %d operations were answered" % (name, answered, operations))
            if name != "ready bodies" and run[3] != "applied %d already 0 reported 0\n" % operations:
                sys.exit("%s: %s" % (name, run[3][-300:]))
            runs[name].append(run)
    return runs


def tell(runs, operations, goals):
    """Prints a line for each program: its medians, and the median ratios of both forms of the relay to it over the turns."""
    for name, of in runs.items():
        wall, used, peak = (plain_rust.median([run[at] for run in of]) for at in range(3))
        ratio, two = (plain_rust.median([own[0] / its[0] for own, its in zip(runs[form], of)]) for form in ("relay run", TWO))
        work = plain_rust.median([own[1] / its[1] for own, its in zip(runs["relay run"], of)])
        line = "  %-19s %9.0f operations/s %8.3f s of processor %7d KiB  relay/it %.2f, processor %.2f, with 2 in flight %.2f" % (name, operations / wall, used, peak, ratio, work, two)
        if name in goals:
            line += " (goal %.1f: %s)" % (goals[name], "met" if ratio <= goals[name] else "MISSED")
        if name == ORDERED:
            found = {"one": ratio, "processor": work, "two": two if goals else None}
            line += " (goals %s)" % ", ".join("%.2f: %s" % (goal, "met" if found[of] <= goal else "MISSED") for of, goal in ORDERED_GOALS.items() if found[of] is not None)
        print(line)


def counted(number, what):
    return "%d %s%s" % (number, what, "" if number == 1 else "s")


def measure_shape(folder, relay, tools, shape, size, operations):
    files, lanes = shape
    paths = make_files(folder, files, operations, size)
    ready = [write_requests(relay, path, path + "-ready") for path in paths]
    for nanoseconds, called in SERVERS:
        print("run: %s, %s, %d operations of %d bytes, a server %s; medians of %d turns" % (counted(files, "file"), counted(lanes, "lane"), operations, size, called, TURNS))
        with Server(tools["bulk"], nanoseconds) as server:
            programs = commands(tools, relay, server.port, lanes, paths, ready)
            tell(take_turns(server, programs, operations), operations, GOALS if nanoseconds else {})


def measure_memory(folder, relay, tools, operations):
    """Ten times as many operations may not take more memory."""
    peaks = []
    for count in (operations, 10 * operations):
        paths = make_files(folder, 1, count, 100)
        with Server(tools["bulk"], 0) as server:
            wall, used, peak, told = once(run_command(relay, server.port, 1, paths))
        if told != "applied %d already 0 reported 0\n" % count:
            sys.exit("relay run: %s" % told[-300:])
        peaks.append(peak)
        print("  %8d operations: %7d KiB, %9.0f operations/s, %8.3f s of processor" % (count, peak, count / wall, used))
    if peaks[1] > peaks[0] + GROWTH:
        sys.exit("the memory of relay run grew from %d to %d KiB" % tuple(peaks))
    print("  the memory did not grow by more than %d KiB" % GROWTH)


def measure_halves(folder, relay, tools, operations):
    """A server that takes at most 60,000 bytes, and the same server without a limit: everything is applied."""
    paths = make_files(folder, 1, operations, LARGE)
    for nanoseconds, called in SERVERS:
        times = {None: [], MOST: []}
        for _ in range(TURNS):
            for most, walls in times.items():
                with Server(tools["bulk"], nanoseconds, most) as server:
                    wall, _, _, told = once(run_command(relay, server.port, 1, paths))
                if told != "applied %d already 0 reported 0\n" % operations:
                    sys.exit("relay run with a limit of %s bytes: %s" % (most, told[-300:]))
                walls.append(wall)
        ratio = plain_rust.median([limited / free for limited, free in zip(times[MOST], times[None])])
        line = "run: %d operations of %d bytes, a server %s with a limit of %d bytes: %.2f of its time without one" % (operations, LARGE, called, MOST, ratio)
        if nanoseconds:
            line += " (goal %.1f: %s)" % (HALVES_GOAL, "met" if ratio <= HALVES_GOAL else "MISSED")
        print(line)


def measure_flights(folder, relay, tools, operations):
    """A server that takes the same time for each request, whatever is in it: several requests in flight, and one."""
    paths = make_files(folder, 1, operations, SIZES[0])
    walls = {shape: [] for shape in FLIGHTS}
    if tools["python"]:
        walls["parallel_bulk"] = []
    with Server(tools["bulk"], 0, None, SLOW) as server:
        for _ in range(TURNS):
            for shape, of in walls.items():
                if shape == "parallel_bulk":
                    command = [tools["python"], os.path.join(plain_rust.BENCH, "streaming_bulk.py"), server.port, *paths, "--parallel", "8", str(FEW)]
                else:
                    command = [relay, "run", "--to", "127.0.0.1:%s" % server.port, "--count", str(FEW), "--capacity", str(8 * FEW), "--lanes", str(shape[0]), "--flying", str(shape[1]), *paths]
                wall, _, _, told = once(command)
                if shape != "parallel_bulk" and told != "applied %d already 0 reported 0\n" % operations:
                    sys.exit("relay run with %d in flight: %s" % (shape[1], told[-300:]))
                of.append(wall)
    print("run: 1 file, %d operations of %d bytes in requests of %d, a server that takes %d milliseconds per request; medians of %d turns" % (operations, SIZES[0], FEW, SLOW // 1000, TURNS))
    for shape, of in walls.items():
        times = plain_rust.median([one / own for one, own in zip(walls[1, 1], of)])
        name = "parallel_bulk of Python, 8 threads" if shape == "parallel_bulk" else "%s with %d in flight" % (counted(shape[0], "lane"), shape[1])
        line = "  %-34s %9.0f operations/s, %.1f times one lane with 1 in flight" % (name, operations / plain_rust.median(of), times)
        if shape == (1, 8):
            line += " (goal %.1f: %s)" % (FLIGHTS_GOAL, "met" if times >= FLIGHTS_GOAL else "MISSED")
        print(line)


def measure_progress(folder, relay, tools, operations):
    """The cost of counting, and of showing how far a run has got."""
    paths = make_files(folder, 1, operations, SIZES[0])
    for nanoseconds, called in SERVERS:
        runs = {(): [], ("--progress",): []}
        with Server(tools["bulk"], nanoseconds) as server:
            for _ in range(2 * TURNS):
                for more, of in runs.items():
                    of.append(once(run_command(relay, server.port, 1, [*more, *paths]), stderr=subprocess.DEVNULL))
        if any(run[3] != "applied %d already 0 reported 0\n" % operations for of in runs.values() for run in of):
            sys.exit("relay run --progress did something else")
        wall, work = (plain_rust.median([told[at] / silent[at] for silent, told in zip(*runs.values())]) for at in (0, 1))
        line = "run: %d operations of %d bytes, a server %s, with --progress: %.3f of its time without it, %.3f of the processor's" % (operations, SIZES[0], called, wall, work)
        if nanoseconds:
            line += " (goal %.2f: %s)" % (PROGRESS_GOAL, "met" if wall <= PROGRESS_GOAL else "MISSED")
        print(line)


def measure_state(folder, relay, tools, operations):
    """The cost of keeping how far a run has got, once what is written at its start and its end weighs little."""
    paths = make_files(folder, 1, operations, SIZES[0])
    for nanoseconds, called in SERVERS:
        runs = {False: [], True: []}
        with Server(tools["bulk"], nanoseconds) as server:
            for _ in range(TURNS):
                for is_kept, of in runs.items():
                    with tempfile.TemporaryDirectory(dir=folder) as place:
                        more = ["--state", os.path.join(place, "state"), "--report", os.path.join(place, "report")] if is_kept else []
                        of.append(once(run_command(relay, server.port, 1, [*more, *paths])))
        if any(run[3] != "applied %d already 0 reported 0\n" % operations for of in runs.values() for run in of):
            sys.exit("relay run --state did something else")
        wall, work = (plain_rust.median([kept[at] / plain[at] for plain, kept in zip(*runs.values())]) for at in (0, 1))
        line = "run: %d operations of %d bytes, a server %s, with --state: %.3f of its time without it, %.3f of the processor's" % (operations, SIZES[0], called, wall, work)
        if nanoseconds:
            line += " (goal %.2f: %s)" % (STATE_GOAL, "met" if wall <= STATE_GOAL else "MISSED")
        print(line)


def measure(folder, relay, operations=OPERATIONS):
    tools = {
        "bulk": plain_rust.build(folder, "bulk"),
        "ordered": plain_rust.build(folder, "ordered", "serde_json", "serde/derive", "crossbeam-channel"),
        "forward": plain_rust.build(folder, "forward", "serde_json", "serde/derive"),
        "python": helpers(),
    }
    if not tools["bulk"]:
        print("run: not measured: cargo, which builds the server, is not installed")
        return
    if not tools["forward"]:
        print("run: the plain Rust relays were not measured: librust-serde-json-dev or librust-serde-dev is not installed")
    elif not tools["ordered"]:
        print("run: the ordered plain Rust relay was not measured: librust-crossbeam-channel-dev is not installed")
    if not tools["python"]:
        print("run: streaming_bulk was not measured: python3-elasticsearch is not installed")
    for shape in SHAPES:
        for size in SIZES:
            measure_shape(folder, relay, tools, shape, size, operations)
    measure_halves(folder, relay, tools, operations)
    measure_flights(folder, relay, tools, operations)
    measure_progress(folder, relay, tools, operations)
    measure_state(folder, relay, tools, 10 * operations)
    print("run: the memory of 1 file and 1 lane, operations of 100 bytes")
    measure_memory(folder, relay, tools, operations)
