"""The pauses between the attempts of an operation, in real time, and lanes that do not wait for each other."""
import concurrent.futures
import statistics
import tempfile
import threading
import time

from bulk_server import Server, writes_of
from option_cases import Pipe, Sizes
from program import check
from run_cases import judge, relay_run, written

# The pauses after the first attempt, the second one and so on, in seconds.
PAUSES = [0.1 * 2 ** min(k, 6) for k in range(7)]


def lane_of(identity, lanes, index="b"):
    """Returns the lane of a document: 64-bit FNV-1a over the name of its index, a byte 255 and its id, modulo the lanes."""
    found = 14695981039346656037
    for byte in index.encode() + b"\xff" + identity.encode():
        found = (found ^ byte) * 1099511628211 % 2**64
    return found % lanes


class Timed(Server):
    """A server that notes when each request arrived and when its answer was written. `holds` maps the number of a request,
    from 1, to the seconds for which it is held."""

    def __init__(self, plan=lambda number: None, holds=lambda number: 0, **more):
        self.times, self.holds = [], holds
        super().__init__(plan, **more)

    def answer(self, stream, head, body):
        with self.lock:
            times = [time.monotonic(), None]
            self.times.append(times)
            number = len(self.times)
        time.sleep(self.holds(number))
        keeps = super().answer(stream, head, body)
        times[1] = time.monotonic()
        return keeps

    def gaps(self):
        """The seconds between each answer and the next request."""
        return [after[0] - before[1] for before, after in zip(self.times, self.times[1:])]


def are_pauses(gaps, wanted=None):
    """Whether each gap is at least 60 % of the pause that is promised, and at most two seconds more."""
    wanted = PAUSES if wanted is None else wanted
    return len(gaps) == len(wanted) and all(0.6 * pause <= gap <= pause + 2 for gap, pause in zip(gaps, wanted))


def one_write(server, *options, seconds=60):
    """Puts one write through a pipe that stays open until the server has had all attempts or has applied it."""
    with tempfile.TemporaryDirectory() as folder:
        pipe = Pipe(folder, server, "--linger", "0", *options)
        pipe.put(1)
        start = time.monotonic()
        while time.monotonic() < start + seconds and not server.index.applied and sum(it[1] is not None for it in server.times) < 8:
            time.sleep(0.05)
        time.sleep(0.2)
        done = pipe.ends()
    server.close()
    return done


def after_a_hang(seconds, flying):
    """The server holds the first request, and then answers 503 to everything: the pauses are those that are promised."""
    server = Timed(lambda number: 503, lambda number: seconds if number == 1 else 0)
    done = one_write(server, "--flying", "%d" % flying)
    name = "the first request hangs for %s s, %d in flight" % (seconds, flying)
    gaps = server.gaps()
    check("%s: the pauses" % name, are_pauses(gaps), gaps)
    # OPERATING says 12.7 s. A pause may be up to a tick shorter, and a busy machine makes each longer.
    check("%s: their sum" % name, 11.4 < sum(gaps) < 20, gaps)
    check("%s: all attempts" % name, done == (5, b"report 0:1 b/1 GaveUp 8\napplied 0 already 0 reported 1\n", b""), done)


def until_it_is_back():
    """An outage that begins with a server that is silent for 6 s, answers 503 for some seconds and then is back: all is applied."""
    server = Timed(lambda number: 503 if number <= 6 else None, lambda number: 6 if number == 1 else 0)
    done = one_write(server)
    check("an outage that begins with a silent server: the pauses", are_pauses(server.gaps(), PAUSES[:6]), server.gaps())
    check("an outage that begins with a silent server: all is applied", done == (0, b"applied 1 already 0 reported 0\n", b""), done)


def while_it_drains(seconds):
    """The same from a file that ends at once, so that the lane has closed: several operations, whose pauses begin apart."""
    with tempfile.TemporaryDirectory() as folder:
        server = Timed(lambda number: 503, lambda number: seconds if number == 1 else 0)
        done = relay_run(server.port, [written(folder, 0, [("1", "{}")])])
        check("the first request hangs while the lane drains", are_pauses(server.gaps()) and done[0] == 5, (server.gaps(), done))
        server.close()


def after_timeouts():
    """A server that refuses nothing but is slower than --timeout: each attempt is lost after a second, and then paused for."""
    server = Timed(holds=lambda number: 4 if number <= 5 else 0)
    done = one_write(server, "--timeout", "1")
    arrived = [it[0] for it in server.times]
    gaps = [after - before - 1 for before, after in zip(arrived, arrived[1:])]
    check("a slow server: the pauses", are_pauses(gaps[:5], PAUSES[:5]), gaps)
    check("a slow server: it is settled", done[0] == 0 and done[1] in (b"applied 1 already 0 reported 0\n", b"applied 0 already 1 reported 0\n"), done)


def beside_a_slow_answer():
    """An operation that was refused goes out again on time while another request is held, if a place is free."""
    with tempfile.TemporaryDirectory() as folder:
        server = Apart(held="slow", seconds=8)
        pipe = Pipe(folder, server, "--linger", "0", "--count", "1", "--flying", "2")
        pipe.write("fast")
        wait_until(lambda: "fast" in server.arrived, 10)
        pipe.write("slow")
        wait_until(lambda: len(server.arrived["fast"]) == 2, 10)
        gaps = [after - before for before, after in zip(server.arrived["fast"], server.arrived["fast"][1:])]
        check("beside a slow answer: the pause", are_pauses(gaps, PAUSES[:1]) and "slow" in server.arrived, gaps)
        done = pipe.ends()
        check("beside a slow answer: all is applied", done == (0, b"applied 2 already 0 reported 0\n", b""), done)
        server.close()


def pauses():
    """The pauses of an operation follow real time, whatever the lane waited for."""
    cases = [(after_a_hang, 6, 1), (after_a_hang, 6.07, 2), (after_a_hang, 13, 1), (until_it_is_back,), (while_it_drains, 3), (after_timeouts,), (beside_a_slow_answer,)]
    running = [threading.Thread(target=it[0], args=it[1:]) for it in cases]
    for it in running:
        it.start()
    for it in running:
        it.join()


class Apart(Server):
    """A server that is silent to requests for documents whose ids begin with `held`, until `seconds` after the first one, and
    answers 503 to the first `refusals` requests for each other document. It notes when the requests for each arrived."""

    def __init__(self, held, seconds, refusals=4):
        self.held, self.seconds, self.refusals, self.arrived, self.end = held, seconds, refusals, {}, None
        super().__init__()

    def answer(self, stream, head, body):
        identity = next(writes_of(body))[1]["_id"]
        with self.lock:
            self.arrived.setdefault(identity, []).append(time.monotonic())
            count = len(self.arrived[identity])
            if identity.startswith(self.held) and self.end is None:
                self.end = time.monotonic() + self.seconds
        if identity.startswith(self.held):
            time.sleep(max(0, self.end - time.monotonic()))
        elif count <= self.refusals:
            return self.send(stream, 503, b"{}")
        return super().answer(stream, head, body)


def wait_until(holds, seconds):
    end = time.monotonic() + seconds
    while not holds() and time.monotonic() < end:
        time.sleep(0.01)
    return holds()


def ids_of(lane, lanes, prefix, count):
    """Returns ids that begin like this, of documents of one lane."""
    found, number = [], 0
    while len(found) < count:
        identity = "%s%d" % (prefix, number)
        if lane_of(identity, lanes) == lane:
            found.append(identity)
        number += 1
    return found


def put_all(pipe, ids):
    try:
        for it in ids:
            pipe.write(it)
    except OSError:
        pass


def one_silent_lane():
    """Two lanes, of which one waits for a silent server and has a full queue: single writes on the other one, each refused once,
    are settled within two seconds each."""
    with tempfile.TemporaryDirectory() as folder:
        server = Apart(held="held", seconds=60, refusals=1)
        pipe = Pipe(folder, server, "--linger", "0", "--lanes", "2", "--count", "1", "--capacity", "4", "--held", "4", producers=2)
        filling = threading.Thread(target=put_all, args=(pipe, ids_of(0, 2, "held", 200_000 // 500)), daemon=True)
        filling.start()
        check("the server is silent", wait_until(lambda: len(server.arrived) == 1, 10), server.arrived)
        time.sleep(1)
        spent = []
        for it in ids_of(1, 2, "single", 12):
            start = time.monotonic()
            pipe.write(it, producer=1)
            settled = wait_until(lambda: ("b", it) in server.index.applied, 10)
            spent.append(time.monotonic() - start if settled else None)
        check("beside a silent lane each write is settled", all(it is not None and it < 2 for it in spent), spent)
        check("the silent lane waits", len([it for it in server.arrived if it.startswith("held")]) == 1, server.arrived.keys())
        pipe.process.kill()
        pipe.process.communicate()
        filling.join(5)
        server.close()


def spent_by_seven(silent):
    """Returns how long the writes of seven of eight lanes take; the server of the eighth may be silent for 20 s."""
    with tempfile.TemporaryDirectory() as folder:
        server = Apart(held="held" if silent else "none", seconds=20, refusals=0)
        files = []
        for lane in range(8):
            ids = ids_of(lane, 8, "held" if lane == 0 else "free", 400)
            files.append(written(folder, lane, [(it, "{}") for it in ids], index='"_index":"b",'))
        done, start = [], time.monotonic()
        options = ("--lanes", "8", "--linger", "0", "--count", "4", "--capacity", "16", "--held", "16")
        running = threading.Thread(target=lambda: done.append(relay_run(server.port, files, *options)))
        running.start()
        seen = wait_until(lambda: sum(it[1].startswith("free") for it in list(server.index.applied)) == 2800, 40)
        spent = time.monotonic() - start
        running.join()
        check("seven of eight lanes, silent: %s" % silent, seen and done[0][:2] == (0, b"applied 3200 already 0 reported 0\n"), (seen, done))
        server.close()
    return spent


def seven_of_eight():
    """One silent lane among eight leaves the others more than half of the throughput that they have in another run meanwhile."""
    with concurrent.futures.ThreadPoolExecutor(2) as pool:
        silent, free = pool.map(spent_by_seven, (True, False))
    check("the throughput beside a silent lane", silent < 2 * free + 1, (silent, free))


def latencies(flying, count=40):
    """Returns the times between the writes of one document, which are sent one after another: each is the time of a write from
    its request to the next one, to a server that takes 5 ms."""
    with tempfile.TemporaryDirectory() as folder:
        server = Sizes(delay=lambda: 0.005)
        pipe = Pipe(folder, server, "--linger", "0", "--count", "1", "--flying", "%d" % flying)
        for _ in range(count):
            pipe.put(1)
        wait_until(lambda: server.requests == count, 60)
        arrived = [it[2] for it in server.sizes]
        done = pipe.ends()
        check("a write after another, %d in flight" % flying, done == (0, b"applied %d already 0 reported 0\n" % count, b""), done)
        server.close()
    return [after - before for before, after in zip(arrived, arrived[1:])]


def single_writes():
    """An answer is settled when it is there, and not at the next tick."""
    for flying in (1, 2, 8):
        spent = latencies(flying)
        check("settled when it is answered, %d in flight" % flying, 0.005 <= statistics.median(spent) < 0.05, statistics.median(spent))


GROUPS = (pauses, one_silent_lane, seven_of_eight, single_writes)
