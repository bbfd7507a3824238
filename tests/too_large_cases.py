"""What `relay run` does when a request is too large: against `relay stub --max`, and against a server with a limit."""
import tempfile

from bulk_server import Server
from program import check, deleted
from run_cases import REPORT, judge, operations, relay_run, wait_for, written
from stub_cases import Stub

ONE = len(deleted(b'"books"', b'"0-0"', 1))


def to_the_stub():
    """Eight deletes of the same length in one batch: each request that is too large becomes two with half the operations."""
    with tempfile.TemporaryDirectory() as folder:
        path = written(folder, 0, [("0-%d" % n, None) for n in range(8)])
        for most, requests, reported in ((8 * ONE, 1, 0), (3 * ONE, 7, 0), (ONE, 15, 0), (ONE - 1, 15, 8)):
            served = Stub(requests, most=most)
            wait_for(served)
            status, out, err = relay_run(served.port, [path], "--count", "8", "--linger", "65535", "--attempts", "1")
            lines = b"".join(b"report 0:%d books/0-%d Request 413\n" % (n + 1, n) for n in range(reported))
            wanted = lines + b"applied %d already 0 reported %d\n" % (8 - reported, reported)
            check("at most %d bytes" % most, (status, out, err) == (5 if reported else 0, wanted, b""), (status, out, err))
            listed = served.process.communicate(timeout=60)[0]
            check("what was applied with at most %d bytes" % most, listed.count(b"\n") == 8 - reported, listed)


def to_a_server():
    with tempfile.TemporaryDirectory() as folder:
        producers = [operations(p, 150, 11) for p in range(3)]
        files = [written(folder, p, ops) for p, ops in enumerate(producers)]
        for early in (None, "drains", "closes"):
            server = Server(most=700, early=early)
            done = relay_run(server.port, files, "--count", "30", "--linger", "0", "--lanes", "2", "--attempts", "32")
            judge("a limit of 700 bytes, %s" % early, server, producers, done, 32)
            if early != "closes":
                check("nothing is reported, %s" % early, done[1].endswith(b"reported 0\n"), done[1][-200:])
            server.close()
        faults = ["drop after", "half", 503, 429]
        server = Server(lambda number: faults[number % 4] if number % 5 == 0 else None, most=500)
        judge("a limit among other faults", server, producers, relay_run(server.port, files, "--count", "50", "--linger", "0", "--lanes", "4", "--attempts", "32"), 32)
        server.close()
        large = [("0-%d" % n, '{"n":"%s"}' % ("x" * 2000 if n == 5 else n)) for n in range(20)]
        server = Server(most=1000)
        done = relay_run(server.port, [written(folder, 0, large)], "--count", "20", "--attempts", "1")
        judge("one that is too large alone", server, [large], done, 1)
        reports = [REPORT.fullmatch(line) for line in done[1].split(b"\n")[:-2]]
        check("it alone is reported", [it.groups()[1:] for it in reports] == [(b"6", b"books", b"0-5", b"Request 413")], done[1])
        server.close()


GROUPS = (to_the_stub, to_a_server)
