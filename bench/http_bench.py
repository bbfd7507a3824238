"""Measures reading HTTP replies and writing requests, next to a plain Rust program with httparse and a vector."""
import os

import plain_rust

TURNS = 5
# The maximum ratio to the plain program's time: reading a body with a length, reading a chunked one, writing a request.
TARGETS = {"length": 1.3, "chunked": 1.5, "request": 1.2}
# Bodies: the size in bytes, and how often each is read.
BODIES = ((50 * 1024, 2000), (16 * 1024 * 1024, 10))
CHUNK = 4096
# Requests: the size in bytes of each of 500 sources, and how often each request is written.
SOURCES = ((100, 1000), (1024, 200))
# Heads that arrive byte by byte: their sizes, and the maximum ratio of the long one's cost per byte to the short one's.
HEADS = (1000, 16000)
LINEAR = 1.5


def framed(size, chunked):
    """A reply whose body has `size` bytes."""
    head = "HTTP/1.1 200 OK\r\nContent-Type: application/json\r\n"
    if not chunked:
        return "%sContent-Length: %d\r\n\r\n%s" % (head, size, "x" * size)
    chunks = ["%x\r\n%s\r\n" % (CHUNK, "x" * CHUNK)] * (size // CHUNK)
    rest = size % CHUNK
    last = ["%x\r\n%s\r\n" % (rest, "x" * rest)] if rest else []
    return "%sTransfer-Encoding: chunked\r\n\r\n%s0\r\n\r\n" % (head, "".join(chunks + last))


def headed(size):
    """A reply without a body, whose head has `size` bytes."""
    start, end = "HTTP/1.1 200 OK\r\nContent-Length: 0\r\n", "\r\n"
    fields, left = [], size - len(start) - len(end)
    while left > 0:
        take = left if left < 1200 else 1000
        fields.append("X-Filler: %s\r\n" % ("x" * (take - len("X-Filler: \r\n"))))
        left -= take
    return start + "".join(fields) + end


def written(folder, name, text):
    path = os.path.join(folder, name)
    with open(path, "w", newline="") as file:
        file.write(text)
    return path


def tell(name, size, best, target):
    """Prints one line: megabytes per second, and the ratio to the plain program if it was built."""
    line = "  %-38s %9.1f MB/s" % (name, size / best["relay"] * 1000)
    if "plain Rust" in best:
        ratio = best["relay"] / best["plain Rust"]
        line += ", plain Rust %9.1f MB/s, relay/it %.2f (target %.1f: %s)" % (size / best["plain Rust"] * 1000, ratio, target, "met" if ratio <= target else "MISSED")
    print(line)


def measure(folder, program):
    plain = plain_rust.build(folder, "http", "httparse", "serde_json")
    print("http: best of %d" % TURNS)
    if not plain:
        print("  the targets were not measured: librust-httparse-dev or librust-serde-json-dev is not installed")
    for size, turns in BODIES:
        for kind in ("length", "chunked"):
            source = written(folder, "reply", framed(size, kind == "chunked"))
            programs = {"relay": ([program, "http-read", "65536", str(turns)], source)}
            if plain:
                programs["plain Rust"] = ([plain, "read", str(turns)], source)
            _, best = plain_rust.best_of(TURNS, programs)
            tell("read_reply, %s, %d bytes" % (kind, size), size, best, TARGETS[kind])
    for size, turns in SOURCES:
        programs = {"relay": ([program, "http-write", "500", str(size), str(turns)], None)}
        if plain:
            programs["plain Rust"] = ([plain, "write", "500", str(size), str(turns)], None)
        told, best = plain_rust.best_of(TURNS, programs)
        tell("write_request, 500 sources of %d bytes" % size, int(told.split()[2]), best, TARGETS["request"])
    spent = {}
    for size in HEADS:
        source = written(folder, "head", headed(size))
        assert os.path.getsize(source) == size
        _, best = plain_rust.best_of(TURNS, {"relay": ([program, "http-read", "1", "20"], source)})
        spent[size] = best["relay"] / size
    ratio = spent[HEADS[1]] / spent[HEADS[0]]
    print("  a head in one-byte reads: %.1f ns per byte at %d bytes, %.1f at %d (%.2f, at most %.1f: %s)" % (
        spent[HEADS[0]], HEADS[0], spent[HEADS[1]], HEADS[1], ratio, LINEAR, "met" if ratio <= LINEAR else "MISSED"))
