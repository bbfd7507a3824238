"""When `relay run` takes no more input: as many operations were reported as may be, or the index takes nothing at all."""
import os
import re
import subprocess
import tempfile

from bulk_server import Server
from program import RELAY, check, unlogged
from report_cases import content, count_of, deletes, named, until
from run_cases import operations, relay_run, written

AFTER = b"stopped after %d reports: --max-reports\n"
HOPELESS = b"stopped: the index answered a whole request with %d before it had applied anything\n"
# What one lane may have accepted, with the defaults of --held and --capacity, and an operation that its producer has read.
ACCEPTED = 4096 + 256 + 1


def reported(out):
    found = re.search(rb"applied (\d+) already (\d+) reported (\d+)\n\Z", out)
    return tuple(map(int, found.groups())) if found else None


def too_many():
    """After --max-reports reports no more is read; what was read is reported, printed and saved."""
    with tempfile.TemporaryDirectory() as folder:
        path, report = written(folder, 0, operations(0, 16_000, 100)), os.path.join(folder, "report")
        server = Server(refuse=lambda meta: 400)
        for limit, more in ((1, ("--max-reports", "1")), (700, ("--max-reports", "700")), (10_000, ())):
            if os.path.exists(report):
                os.remove(report)
            status, out, err = relay_run(server.port, [path], "--report", report, *more)
            counts = reported(out)
            right = status == 5 and err == AFTER % limit and counts and counts[:2] == (0, 0) and limit <= counts[2] <= limit + 500 + ACCEPTED
            check("%d reports" % limit, right, (status, err, counts))
            check("%d reports: what was read is saved" % limit, sorted(named(content(report))) == [(0, n) for n in range(1, counts[2] + 1)], counts)
        status, out, err = relay_run(server.port, [path], "--max-reports", "0")
        check("any number of reports", (status, err, reported(out)) == (5, b"", (0, 0, 16_000)), (status, err, out[-100:]))
        few = written(folder, 1, operations(1, 5, 5))
        status, out, err = relay_run(server.port, [few], "--max-reports", "3")
        check("nothing is said if nothing was left out", (status, err, reported(out)) == (5, b"", (0, 0, 5)), (status, err, out[-100:]))
        producers = [written(folder, p, operations(p, 16_000, 100)) for p in range(4)]
        status, out, err = relay_run(server.port, producers, "--lanes", "8", "--max-reports", "100")
        counts = reported(out)
        check("four files and eight lanes", status == 5 and err == AFTER % 100 and 100 <= counts[2] <= 100 + 8 * (500 + ACCEPTED), (status, err, counts))
        server.close()


def hopeless():
    """A whole request that is answered 401, 403, 404 or 3xx before anything was applied ends the run; later ones are reported."""
    with tempfile.TemporaryDirectory() as folder:
        path, few = written(folder, 0, operations(0, 16_000, 100)), written(folder, 1, operations(1, 5, 5))
        for status in (301, 302, 307, 399, 401, 403, 404):
            server = Server(lambda number: status)
            for name, most in ((path, 500 + ACCEPTED), (few, 5)):
                end, out, err = relay_run(server.port, [name])
                counts = reported(out)
                check("a first answer %d" % status, end == 3 and err == HOPELESS % status and counts[:2] == (0, 0) and counts[2] <= most, (end, err, counts))
            # A request has at most one operation on each of the 100 documents.
            check("a first answer %d: requests" % status, server.requests <= (500 + ACCEPTED) // 100 + 3, server.requests)
            server.close()
        for status in (400, 402, 405, 418, 299, 500):
            server = Server(lambda number: status)
            end, out, err = relay_run(server.port, [few], "--attempts", "1")
            check("a first answer %d" % status, (end, err, reported(out)) == (5, b"", (0, 0, 5)), (end, err, out[-100:]))
            server.close()
        server = Server(lambda number: 401 if number > 1 else None)
        end, out, err = relay_run(server.port, [path])
        check("a later answer 401", end == 5 and err == AFTER % 10_000 and reported(out)[0] > 0, (end, err, out[-100:]))
        server.close()
        server = Server(refuse=lambda meta: 403)
        end, out, err = relay_run(server.port, [few])
        check("operations that are refused with 403", (end, err, reported(out)) == (5, b"", (0, 0, 5)), (end, err, out[-100:]))
        server.close()


def an_open_pipe():
    """A run that is to stop ends with the next operation of a pipe, which stays open."""
    with tempfile.TemporaryDirectory() as folder:
        server, report = Server(lambda number: 401), os.path.join(folder, "report")
        args = [RELAY, "run", "--to", "127.0.0.1:%d" % server.port, "--linger", "0", "--report", report, "-"]
        process = subprocess.Popen(args, stdin=subprocess.PIPE, stdout=subprocess.PIPE, stderr=subprocess.PIPE)
        process.stdin.write(deletes([1]))
        process.stdin.flush()
        came = until(lambda: count_of(report) == 1)
        process.stdin.write(deletes([2]))
        process.stdin.flush()
        process.wait(timeout=60)
        process.stdin.close()
        out, err = process.stdout.read(), process.stderr.read()
        process.stdout.close()
        process.stderr.close()
        check("a pipe that stays open", came and process.returncode == 3 and unlogged(err) == HOPELESS % 401 and reported(out) == (0, 0, 2), (process.returncode, out, err))
        server.close()


GROUPS = (too_many, hopeless, an_open_pipe)
