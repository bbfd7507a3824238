"""No write that `relay serve` acknowledged is ever missing: the relay is killed a hundred times under load, the index is killed a hundred times,
and both are, while clients submit again what was not answered.

A hundred kills of the relay are `kill -9`, each followed by a start at the same port, with the same `--epoch-file`. A kill of the index is
modelled (`Mortal`): it falls in the middle of a request, of which the first writes stay applied, says nothing more, refuses connections for a
while, and comes back with all that it had applied, as an index does that keeps what it acknowledged.
"""
import collections
import json
import os
import random
import re
import signal
import socket
import subprocess
import tempfile
import threading
import time

from bulk_server import Server
from program import FEWER, RELAY, SECONDS, check, leave
from stub_cases import free_port

KILLS, CLIENTS = 5 if FEWER else 100, 32
# How many kills of both there are.
BOTH = KILLS // 5
# For how long there is load before a kill, in seconds.
LOAD = (0.02, 0.4)
# Limits that no kill of the index exceeds.
PATIENT = ("--give-up-after", "10m", "--answer-within", "10m")
# How many documents each client has of its own, and how many all have together.
OWN, SHARED = 3, 8
# What an item that is to be submitted again has as the type of its error, and after how many seconds it is: if what is late were submitted
# again at once, more and more would wait in a lane that is slow.
AGAIN, PAUSE = ("relay_timeout", "relay_gave_up"), 0.05
DONE = re.compile(rb"applied (\d+) already (\d+) reported (\d+)\n")


class Relay:
    """A `relay serve` that is started again and again, at one port and with one file of the epoch."""

    def __init__(self, server, folder):
        self.server, self.port, self.epoch, self.file = server, free_port(), 0, os.path.join(folder, "epoch")
        self.begun = threading.Event()

    def start(self, *options):
        """Starts it. Returns what is wrong, or None."""
        words = ["--listen", "127.0.0.1:%d" % self.port, "--to", "127.0.0.1:%d" % self.server.port, "--epoch-file", self.file]
        self.process = subprocess.Popen([RELAY, "serve", *words, *options], stdin=subprocess.PIPE, stdout=subprocess.PIPE, stderr=subprocess.PIPE)
        said = self.process.stderr.readline()
        found = re.fullmatch(rb"listening on 127\.0\.0\.1:%d, epoch (\d+)\n" % self.port, said)
        threading.Thread(target=self.process.stderr.read, daemon=True).start()
        if not found or int(found[1]) <= self.epoch:
            return said, self.epoch
        self.epoch = int(found[1])
        self.begun.set()
        return None

    def kill(self):
        """Kills it. Returns whether the file has an epoch that is not below that of its start."""
        self.begun.clear()
        self.process.send_signal(signal.SIGKILL)
        self.process.wait()
        for stream in (self.process.stdin, self.process.stdout):
            stream.close()
        with open(self.file) as file:
            reached = int(file.read())
        right, self.epoch = reached >= self.epoch, max(reached, self.epoch)
        return right

    def stop(self):
        """Stops it. Returns whether it ends as it should."""
        self.begun.clear()
        self.process.stdin.close()
        try:
            status = self.process.wait(timeout=SECONDS)
        except subprocess.TimeoutExpired:
            self.process.kill()
            status = self.process.wait()
        return status == 0 and DONE.fullmatch(self.process.stdout.read()) is not None


class Killed(Exception):
    """The index was killed before this was done."""


class Mortal(Server):
    """An index that can be killed. What was applied before stays, of a request that it was running the first writes; the rest of it is not
    applied, and nothing is answered any more. A request that waits when it is killed is not run, also once it is back."""

    def __init__(self, *args, **more):
        self.life, self.is_up, self.left, self.fell, self.own = 0, True, None, threading.Event(), threading.local()
        super().__init__(*args, **more)
        self.move(free_port())

    def serve(self, stream):
        self.own.life = self.life
        super().serve(stream)

    def answer(self, stream, head, body):
        try:
            return super().answer(stream, head, body)
        except Killed:
            return False

    def run(self, kind, meta, source):
        if not self.is_up or self.own.life != self.life:
            raise Killed
        entry = super().run(kind, meta, source)
        if self.left is not None:
            self.left -= 1
            if self.left <= 0:
                self.fall()
                raise Killed
        return entry

    def fall(self):
        self.is_up, self.left, self.life = False, None, self.life + 1
        self.fell.set()

    def kill(self, writes):
        """Kills it once it has applied so many writes more, and returns whether it came to that."""
        self.fell.clear()
        with self.lock:
            self.left = writes
            if writes == 0:
                self.fall()
        return self.fell.wait(SECONDS)

    def rise(self, seconds):
        """Drops all connections, refuses others for so long, and is back."""
        self.rest(seconds)

    def come_up(self):
        self.is_up = True
        super().come_up()


class Try:
    """One submission of a write: its source, None of a delete; when it began, and, if it was acknowledged, when and with which version."""

    def __init__(self, source):
        self.source, self.began, self.ended, self.version = source, time.monotonic(), None, None

    def is_as(self, row):
        return row[1:] == ("delete" if self.source is None else "index", self.source)


class Crowd:
    """Clients that write until they are told to end: then each submits what it has until that is answered. `tries` has the submissions of
    each document, by its index and id; each source occurs in one write, which may be submitted several times."""

    def __init__(self, relay):
        self.relay, self.tries, self.wrong, self.lock, self.ending = relay, {}, [], threading.Lock(), threading.Event()
        # When what was answered last was asked, how many requests had an answer and how many none, and how many writes were submitted again.
        self.asked, self.answered, self.lost, self.again = 0.0, 0, 0, 0
        self.threads = [threading.Thread(target=self.work, args=(number,), daemon=True) for number in range(CLIENTS)]
        for thread in self.threads:
            thread.start()

    def end(self):
        """Has all of them end. Returns whether they do."""
        self.ending.set()
        until = time.monotonic() + SECONDS
        for thread in self.threads:
            thread.join(timeout=max(until - time.monotonic(), 0))
        return not any(thread.is_alive() for thread in self.threads)

    def waits(self):
        """Waits until there is an answer to something that was asked after this call, and returns whether there is."""
        begun = time.monotonic()
        while self.asked < begun and time.monotonic() < begun + SECONDS:
            time.sleep(0.001)
        return self.asked >= begun

    def work(self, number):
        client = Client(self, number)
        try:
            while not self.ending.is_set():
                client.turn()
        except Exception as error:
            with self.lock:
                self.wrong.append("client %d: %r" % (number, error))


class Client:
    """Writes one request after another: single documents and bulk requests, to documents of its own, which it also deletes, and to those that
    all have together."""

    def __init__(self, crowd, number):
        self.crowd, self.number, self.dice, self.writes, self.stream = crowd, number, random.Random(number), 0, None

    def one(self):
        """The id and the source of another write, None of a delete."""
        self.writes += 1
        source = '{"client":%d,"write":%d}' % (self.number, self.writes)
        if self.dice.random() < 0.3:
            return "shared-%d" % self.dice.randrange(SHARED), source
        return "own-%d-%d" % (self.number, self.dice.randrange(OWN)), None if self.dice.random() < 0.2 else source

    def turn(self):
        form = self.dice.random()
        if form < 0.1:
            self.made('{"client":%d,"made":%d}' % (self.number, self.writes))
        elif form < 0.5:
            self.until_acknowledged([self.one()], self.single)
        else:
            self.until_acknowledged([self.one() for _ in range(self.dice.randrange(1, 7))], self.several)

    def until_acknowledged(self, operations, submit):
        """Submits the operations, and again those that were not acknowledged."""
        while operations:
            tries = [Try(source) for _, source in operations]
            with self.crowd.lock:
                for (identity, _), it in zip(operations, tries):
                    self.crowd.tries.setdefault(("books", identity), []).append(it)
            least = self.crowd.relay.epoch
            entries = submit(operations)
            ended, left = time.monotonic(), []
            for operation, it, entry in zip(operations, tries, entries or [None] * len(operations)):
                if entry is None or entry.get("error", {}).get("type") in AGAIN:
                    left.append(operation)
                elif self.is_acknowledged(operation, entry, least):
                    it.ended, it.version = ended, entry["_version"]
            with self.crowd.lock:
                self.crowd.again += len(left)
            if entries and left:
                time.sleep(PAUSE)
            operations = left

    def is_acknowledged(self, operation, entry, least):
        """Whether an entry says that its operation was written, in an epoch that is not below one that had begun. Anything else is wrong."""
        identity, source = operation
        results = ("deleted", "not_found") if source is None else ("created", "updated")
        right = "error" not in entry and entry["_id"] == identity and (entry["_version"] - 1) >> 40 >= least and entry["result"] in results
        if not right:
            self.wrong("an acknowledgement", (operation, entry, least))
        return right

    def single(self, operations):
        (identity, source), = operations
        status, value = self.ask("DELETE" if source is None else "PUT", "/books/_doc/" + identity, source or "")
        return None if value is None else [value]

    def several(self, operations):
        lines = []
        for identity, source in operations:
            lines.append('{"%s":{"_index":"books","_id":"%s"}}\n' % ("delete" if source is None else "index", identity))
            lines += [] if source is None else [source + "\n"]
        status, value = self.ask("POST", "/_bulk", "".join(lines))
        if value is None:
            return None
        entries = [entry for item in value.get("items", []) for entry in item.values()]
        if status != 200 or len(entries) != len(operations):
            self.wrong("an answer to a bulk request", (status, value))
        return entries

    def made(self, source):
        """Writes a document without an id, once."""
        least = self.crowd.relay.epoch
        status, value = self.ask("POST", "/made/_doc", source)
        if value is None or value.get("error", {}).get("type") in AGAIN:
            return
        if self.is_acknowledged((value.get("_id"), source), value, least):
            it = Try(source)
            it.version = value["_version"]
            with self.crowd.lock:
                self.crowd.tries[("made", value["_id"])] = [it]

    def ask(self, method, target, body):
        """Sends a request, and returns the status and the value of its answer, or twice None if none came whole."""
        self.crowd.relay.begun.wait(SECONDS)
        asked = time.monotonic()
        try:
            if self.stream is None:
                self.stream = socket.create_connection(("127.0.0.1", self.crowd.relay.port), timeout=SECONDS)
                self.stream.setsockopt(socket.IPPROTO_TCP, socket.TCP_NODELAY, 1)
            self.stream.sendall(("%s %s HTTP/1.1\r\nHost: a\r\nContent-Length: %d\r\n\r\n%s" % (method, target, len(body), body)).encode())
            status, text = answer(self.stream)
            value = json.loads(text)
        except TimeoutError:
            self.wrong("no answer in time", (method, target, body))
            status, value = None, None
        except (OSError, EOFError):
            status, value = None, None
        with self.crowd.lock:
            self.crowd.answered += value is not None
            self.crowd.lost += value is None
            self.crowd.asked = max(self.crowd.asked, asked if value is not None else 0.0)
        if value is None and self.stream is not None:
            self.stream.close()
            self.stream = None
        return status, value

    def wrong(self, what, found):
        with self.crowd.lock:
            self.crowd.wrong.append((what, found))


def answer(stream):
    """The status and the body of the next answer."""
    came = b""
    while b"\r\n\r\n" not in came:
        came += piece_of(stream)
    head, _, body = came.partition(b"\r\n\r\n")
    length = int(re.search(rb"content-length: (\d+)", head)[1])
    while len(body) < length:
        body += piece_of(stream)
    return int(head[9:12]), body


def piece_of(stream):
    piece = stream.recv(65536)
    if not piece:
        raise EOFError
    return piece


# ---- what has to hold at the end


def missing(index, tries):
    """Yields the acknowledged writes that the index does not have under their versions."""
    for key, of in tries.items():
        rows = {row[0]: row for row in index.applied.get(key, [])}
        yield from ((key, it.version, it.source) for it in of if it.version is not None and not (it.version in rows and it.is_as(rows[it.version])))


def is_row_of(rows, tries):
    """Whether these rows are some of the submissions, in their order: each that was acknowledged under its version."""
    places = {it.version: place for place, it in enumerate(tries) if it.version is not None}
    at = -1
    for row in rows:
        found = places.get(row[0])
        if found is None:
            found = next((place for place in range(at + 1, len(tries)) if tries[place].version is None and tries[place].is_as(row)), -1)
        if found <= at:
            return False
        at = found
    return True


def out_of_order(rows, tries):
    """Returns a write that was applied after one which began only when it had ended, or None. Tries of one source are one write."""
    begun, ended = {}, {}
    for it in tries:
        begun[it.source] = min(it.began, begun.get(it.source, it.began))
        ended[it.source] = it.ended or ended.get(it.source, float("inf"))
    least = float("inf")
    for version, _, source in reversed(rows):
        if least < begun[source]:
            return version, source
        least = min(least, ended[source])
    return None


def foreign(index, tries):
    """Yields what the index has that nobody wrote, or more often than it was submitted."""
    for key, rows in index.applied.items():
        more = collections.Counter(row[2] for row in rows) - collections.Counter(it.source for it in tries.get(key, []))
        yield from ((key, source) for source in more if key[0] == "books")


def judge(name, server, crowd):
    """Nothing acknowledged is missing; each document has its writes in order, versions ascend, and its last state is that of its last
    acknowledged write, or of one that was sent after it."""
    index, tries = server.index, crowd.tries
    gone = list(missing(index, tries))
    check("%s: what was acknowledged is there" % name, not gone, (len(gone), gone[:3]))
    versions = [[row[0] for row in rows] for rows in index.applied.values()]
    check("%s: versions ascend" % name, all(it == sorted(set(it)) for it in versions))
    own = {key: of for key, of in tries.items() if key[1].startswith("own-")}
    shared = {key: of for key, of in tries.items() if key[1].startswith("shared-")}
    wrong = [key for key, of in own.items() if not is_row_of(index.applied.get(key, []), of)]
    check("%s: a document of one client has what that submitted, in order" % name, own and not wrong, [(key, index.applied.get(key, [])[-3:], [vars(it) for it in own[key][-3:]]) for key in wrong[:2]])
    strays = list(foreign(index, shared | own))
    check("%s: nothing else was applied" % name, not strays, strays[:3])
    late = [] if strays else [(key, found) for key, of in shared.items() if (found := out_of_order(index.applied.get(key, []), of))]
    check("%s: a write that ended before another began was applied before it" % name, shared and not late, late[:3])
    last = [(key, rows[-1]) for key, of in tries.items() if (rows := index.applied.get(key)) and rows[-1][0] < max([it.version for it in of if it.version is not None], default=0)]
    check("%s: the last state is that of the last acknowledged write, or of a later one" % name, not last, last[:3])
    check("%s: each answer is an answer" % name, not crowd.wrong, crowd.wrong[:3])


def must(name, right, found=""):
    """Checks what the rest of a case rests on."""
    check(name, right, found)
    if not right:
        raise AssertionError(name)


class Killing:
    """A relay between a crowd and an index, for a folder."""

    def __init__(self, name, folder, seed):
        self.name, self.dice, delays = name, random.Random(seed), random.Random(-seed)
        self.server = Mortal(delay=lambda: delays.choice((0, 0, 0, 0.002, 0.01)))
        self.relay = Relay(self.server, folder)
        self.crowd = Crowd(self.relay)

    def start(self, *options):
        wrong = self.relay.start("--workers", str(self.dice.choice((8, 32, 64))), "--lanes", str(self.dice.randrange(1, 5)), *self.dice.choice(((), ("--turn-after", "100"))), *options)
        must("%s: it starts, in a higher epoch" % self.name, wrong is None, wrong)

    def load(self):
        """Waits until there is load, and for a while after that."""
        must("%s: it answers" % self.name, self.crowd.waits())
        time.sleep(self.dice.uniform(*LOAD))

    def kill_relay(self):
        check("%s: the epoch of a killed relay is in its file" % self.name, self.relay.kill())

    def kill_index(self):
        must("%s: the index is killed" % self.name, self.server.kill(self.dice.randrange(0, 20)))
        self.server.rise(self.dice.uniform(0, 0.1))

    def end(self):
        check("%s: each client has its last answer" % self.name, self.crowd.end())
        check("%s: the stop" % self.name, self.relay.stop())
        judge(self.name, self.server, self.crowd)
        self.server.close()


def relay_killed():
    """Kills of the relay, one in ten of them as soon as it listens."""
    with tempfile.TemporaryDirectory() as folder:
        killing = Killing("kills of the relay", folder, 1)
        for turn in range(KILLS):
            killing.start()
            if turn % 10 != 9:
                killing.load()
            killing.kill_relay()
        killing.start()
        killing.end()
        check("requests were lost", killing.crowd.lost > KILLS, killing.crowd.lost)


def index_killed():
    """Kills of the index: of two relays, one of which outlasts them, and one that gives up sooner than the index is back."""
    with tempfile.TemporaryDirectory() as folder:
        killing = Killing("kills of the index", folder, 2)
        for options in (PATIENT, ("--give-up-after", "150ms", "--answer-within", "200ms")):
            killing.start(*options)
            for _ in range(KILLS // 2):
                killing.load()
                killing.kill_index()
            if options is PATIENT:
                again = killing.crowd.again
                check("a relay that outlasts the kills acknowledges everything", again == 0, again)
            killing.load()
            check("a relay beside kills of the index stops", killing.relay.stop())
        check("writes were submitted again", killing.crowd.again > 0, killing.crowd.again)
        killing.start()
        killing.end()


def both_killed():
    """Kills of the relay and of the index, in any order."""
    with tempfile.TemporaryDirectory() as folder:
        killing = Killing("kills of both", folder, 3)
        killing.start()
        for _ in range(BOTH):
            kills = [killing.kill_index, lambda: (killing.kill_relay(), killing.start())]
            killing.dice.shuffle(kills)
            killing.load()
            for kill in kills:
                kill()
        killing.end()


def all_kills():
    if FEWER:
        leave("most of 220 kills of relay serve, of its index and of both")
    for group in (relay_killed, index_killed, both_killed):
        group()


GROUPS = (all_kills,)
