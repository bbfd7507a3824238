"""`relay run --flying`: several requests of a lane in flight, against servers that are slow, lose, cut, delay and refuse."""
import random
import tempfile
import threading
import time

from bulk_server import Server, writes_of
from option_cases import Pipe, Sizes
from program import check
from run_cases import FAULTS, judge, operations, relay_run, wait_until, written


class Slow(Server):
    """A server that takes a tenth of a second per request, and records the maximum number of requests that it had at a time,
    and the documents that were in two of them."""

    def __init__(self, *args, **more):
        self.now, self.crowd, self.documents, self.twice = 0, 0, [], []
        self.count = threading.Lock()
        super().__init__(*args, **more)

    def answer(self, stream, head, body):
        documents = [(meta["_index"], meta["_id"]) for _, meta, _ in writes_of(body)]
        with self.count:
            self.now += 1
            self.crowd = max(self.crowd, self.now)
            self.twice += [it for it in documents if it in self.documents]
            self.documents += documents
        time.sleep(0.1)
        with self.count:
            self.now -= 1
            for it in documents:
                self.documents.remove(it)
        return Server.answer(self, stream, head, body)


def crowds():
    """The number of requests in flight is that of --flying, each on its own connection, and no document is in two of them."""
    with tempfile.TemporaryDirectory() as folder:
        apart = [("%d" % n, '{"n":%d}' % n) for n in range(32)]
        for lanes, flying in ((1, 1), (1, 4), (1, 8), (2, 8)):
            server = Slow()
            path = written(folder, 0, apart)
            done = relay_run(server.port, [path], "--count", "1", "--lanes", "%d" % lanes, "--flying", "%d" % flying)
            name = "%d in flight in %d lanes" % (flying, lanes)
            check(name, done == (0, b"applied 32 already 0 reported 0\n", b""), done)
            check("%s at one time" % name, (server.crowd == flying if lanes == 1 else flying < server.crowd <= flying * lanes) and server.twice == [], (server.crowd, server.twice))
            check("%s: connections" % name, len(server.streams) <= flying * lanes, len(server.streams))
            server.close()
        one = [("1", '{"n":%d}' % n) for n in range(10)]
        server = Slow()
        done = relay_run(server.port, [written(folder, 0, one)], "--count", "1", "--flying", "8")
        right = [source for _, _, source in server.index.applied["books", "1"]] == [source for _, source in one]
        check("one document with 8 in flight", done == (0, b"applied 10 already 0 reported 0\n", b"") and server.crowd == 1 and right, (done, server.crowd))
        server.close()


def settled_while_idle():
    """An answer is settled at a tick even if nothing more is put: what got a 503 is sent again while the pipe is open."""
    with tempfile.TemporaryDirectory() as folder:
        server = Sizes(lambda number: 503 if number == 1 else None)
        pipe = Pipe(folder, server, "--linger", "0", "--flying", "8")
        pipe.put(1)
        start = time.monotonic()
        while server.requests < 2 and time.monotonic() < start + 30:
            time.sleep(0.01)
        spent = time.monotonic() - start
        check("a refused write goes out again while nothing is put", server.requests == 2 and spent < 3, (server.requests, spent))
        done = pipe.ends()
        check("it is applied", done == (0, b"applied 1 already 0 reported 0\n", b""), done)
        server.close()


def hostile():
    """Random faults, with up to eight lanes and up to eight requests of each in flight: each document has what was put, once and in
    order."""
    chance = random.Random(35)
    for turn, (lanes, flying, count) in enumerate(((1, 2, 3), (1, 8, 1), (2, 4, 10), (8, 8, 2), (8, 8, 50), (3, 5, 7))):
        with tempfile.TemporaryDirectory() as folder:
            producers = [operations(p, 250, 20) for p in range(3)]
            files = [written(folder, p, ops) for p, ops in enumerate(producers)]
            plan = {number: chance.choice(FAULTS) for number in range(1, 2000) if chance.random() < 0.3}
            server = Server(plan.get, delay=lambda: random.random() * 0.01)
            done = relay_run(server.port, files, "--lanes", "%d" % lanes, "--flying", "%d" % flying, "--count", "%d" % count, "--attempts", "32")
            judge("faults with %d lanes of %d in flight, turn %d" % (lanes, flying, turn), server, producers, done, 32)
            server.close()


def restarts():
    """A server that goes down with requests in flight, and comes back."""
    with tempfile.TemporaryDirectory() as folder:
        producers = [operations(p, 400, 30) for p in range(2)]
        files = [written(folder, p, ops) for p, ops in enumerate(producers)]
        came, may_answer, done = [], threading.Event(), []
        server = Server(delay=lambda: came.append(1) or may_answer.wait(60) and 0)
        options = ("--lanes", "2", "--flying", "8", "--count", "2", "--attempts", "32")
        running = threading.Thread(target=lambda: done.append(relay_run(server.port, files, *options)))
        running.start()
        wait_until(lambda: len(came) == 16)
        flying = len(came)
        server.rest(0.5)
        may_answer.set()
        running.join()
        check("requests are in flight at a restart", flying > 0, flying)
        judge("a server that restarts with 8 in flight", server, producers, done[0], 32)
        server.close()


def usage():
    for value in ("0", "9", "x"):
        done = relay_run(1, ["none"], "--flying", value)
        check("--flying %s" % value, done[0] == 1 and b"--flying" in done[2] and done[1] == b"", done)


GROUPS = (crowds, settled_while_idle, hostile, restarts, usage)
