"""What happens if `relay run` is killed and run again over the same files in the next epoch."""
import random
import re
import signal
import subprocess
import tempfile
import time

from bulk_server import Server
from program import RELAY, check, unlogged
from run_cases import operations, put_to, relay_run, written

TRIALS, KILLS = 10, 10


def start(port, files, epoch):
    args = [RELAY, "run", "--to", "127.0.0.1:%d" % port, "--epoch", "%d" % epoch, "--count", "7", "--linger", "0", "--lanes", "2", "--attempts", "32"]
    return subprocess.Popen([*args, *files], stdin=subprocess.DEVNULL, stdout=subprocess.PIPE, stderr=subprocess.PIPE)


def judge(name, server, producers, last):
    """Within each epoch, the writes applied to a document are the first ones that were put, in order; the epochs come one after
    another; and all writes of the last epoch were applied."""
    in_order, all_there = True, True
    for ops in producers:
        for identity in {it for it, _ in ops}:
            put, applied = put_to(ops, identity), server.index.applied.get(("books", identity), [])
            versions = [version for version, _, _ in applied]
            in_order = in_order and versions == sorted(set(versions))
            for epoch in range(last + 1):
                found = [source for version, _, source in applied if (version - 1) // 2**40 == epoch]
                in_order = in_order and found == put[: len(found)]
                all_there = all_there and (epoch < last or found == put)
    check("%s: in order within each epoch, and epochs in order" % name, in_order)
    check("%s: all of the last epoch is there" % name, all_there)


def killed():
    with tempfile.TemporaryDirectory() as folder:
        producers = [operations(p, 90, 6) for p in range(3)]
        files = [written(folder, p, ops) for p, ops in enumerate(producers)]
        dice, kills = random.Random(3), 0
        for trial in range(TRIALS):
            server = Server(delay=lambda: dice.choice((0, 0.002, 0.01, 0.05)))
            for epoch in range(KILLS):
                running = start(server.port, files, epoch)
                try:
                    running.wait(dice.uniform(0.01, 0.35))
                except subprocess.TimeoutExpired:
                    kills += 1
                running.send_signal(signal.SIGKILL)
                running.communicate()
            running = start(server.port, files, KILLS)
            out, err = running.communicate(timeout=120)
            counts = re.fullmatch(rb"applied (\d+) already (\d+) reported 0\n", out)
            check("trial %d: the last run ends" % trial, (running.returncode, unlogged(err)) == (0, b"") and counts is not None and sum(map(int, counts.groups())) == 270, (out, err))
            time.sleep(0.2)
            judge("trial %d" % trial, server, producers, KILLS)
            server.close()
        check("it was killed in the middle", kills > TRIALS * KILLS // 2, kills)


def lower_epochs():
    """A second run over the same index needs a higher epoch: in the same one, each write is a conflict and is reported."""
    with tempfile.TemporaryDirectory() as folder:
        path = written(folder, 0, [("1", "{}"), ("2", None)])
        server = Server(states=True)
        same = b"the index has versions of this epoch or of an earlier one: of another run in it, or of another writer\n"
        for epoch, wanted in (
            (3, (0, b"applied 2 already 0 reported 0\n", b"")),
            (3, (5, b"report 3.0:1 books/1 Conflict\nreport 3.0:2 books/2 Conflict\napplied 0 already 0 reported 2\n", same)),
            (2, (5, b"report 2.0:1 books/1 Conflict\nreport 2.0:2 books/2 Conflict\napplied 0 already 0 reported 2\n", b"the index has versions of epoch 3: run again with --epoch 4 or higher\n")),
            (4, (0, b"applied 2 already 0 reported 0\n", b"")),
            (4194303, (0, b"applied 2 already 0 reported 0\n", b"")),
        ):
            done = relay_run(server.port, [path], "--epoch", "%d" % epoch)
            check("epoch %d" % epoch, done == wanted, done)
        server.close()


GROUPS = (lower_epochs, killed)
