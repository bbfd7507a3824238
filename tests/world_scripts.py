"""Random scripts for `relay world`: `python3 tests/world_scripts.py PROGRAM COUNT [SEED [stated]]`.

With `stated` the index states the versions of conflicts, and has some before the script: any that no lane assigns. A seed determines a config and then events, each of which is chosen by looking at the answers so far. The answers and the
lines at the end are judged only by what happened: which puts were accepted, which items were sent and run, and what was
answered. Nothing here knows how a lane works.
"""
import json
import random
import subprocess
import sys
import tempfile
import time

EPOCHS, DEAL = 4194303, 1099511627775


def lane_of(index, identity, lanes):
    """64-bit FNV-1a."""
    state = 14695981039346656037
    for byte in index.encode() + b"\xff" + identity.encode():
        state = (state ^ byte) * 1099511628211 % 2**64
    return state % lanes


class Wrong(Exception):
    pass


def expect(right, *what):
    if not right:
        raise Wrong(*what)


class Script:
    """A script that is being played: the running program, and what its answers have shown so far."""

    def __init__(self, relay, seed, stated=False):
        self.random = random.Random(seed)
        pick = self.random.choice
        self.lanes, self.producers = pick((1, 1, 2, 3, 8)), pick((1, 2, 3, 16))
        self.capacity, self.held = pick((1, 2, 5, 100, 65536)), pick((1, 2, 5, 100, 65536))
        self.flying = pick((1, 1, 1, 2, 3, 8))
        self.attempts, self.epoch, self.deal = pick((1, 2, 3, 3, 32)), pick((0, 0, 0, 1, 77, EPOCHS - 1, EPOCHS)), pick((1, 3, 6, 1000, DEAL, DEAL))
        self.config = [self.lanes, self.producers, self.capacity, self.held, pick((1, 2, 3, 10000)), pick((1024, 1100, 16777216)), pick((0, 0, 1, 3, 65535)), self.attempts, self.flying, self.epoch, self.deal]
        names = ["a", "b-2", "\u00fc"][: pick((1, 1, 3))]
        self.documents = [(pick(names), str(n)) for n in range(pick((1, 2, 4, 30)))]
        self.faults, self.deaths = pick((0, 0.1, 0.5)), pick((0, 0, 0.01, 0.05))
        self.text, self.said = [], []
        self.stated, self.index, self.live, self.args = stated, {}, set(), ["world"]  # By document: the stored version, and whether it exists.
        if stated:
            self.writes = self.write_before()
            self.args += ["--reasons", "--writes", self.writes.name]
        self.process = subprocess.Popen([relay, *self.args], stdin=subprocess.PIPE, stdout=subprocess.PIPE, stderr=subprocess.PIPE)
        self.write("world " + " ".join(map(str, self.config)))
        self.requests = []  # For each: its lane, its items, the runs of each, and whether a further answer to it is refused.
        self.whole = []  # A request and the status of its answer, if that reported the operations of the request.
        self.applied = {}  # By document: the versions and statuses of the writes applied.
        self.accepted = {}  # By epoch and producer: the document and the action of each put.
        self.versions = {}  # By the name of an operation: the version that it was assigned.
        self.begin()

    def write_before(self):
        """Writes some documents before the script, as the body of a request, under versions that no lane assigns."""
        file = tempfile.NamedTemporaryFile("w", suffix=".ndjson")
        for document in self.documents:
            epoch = self.random.choice((self.epoch, self.epoch + 1, self.random.randrange(EPOCHS + 1)))
            version = epoch * 2**40 + self.random.choice((0, 0, min(self.deal + 1, 2**40), 2**40))
            if version and self.random.random() < 0.7:
                action = self.random.choice(("index", "delete"))
                metadata = {"_index": document[0], "_id": document[1], "version": version, "version_type": "external"}
                file.write(json.dumps({action: metadata}) + "\n" + "{}\n" * (action == "index"))
                self.index["/".join(document)] = version
                self.live.update(["/".join(document)] * (action == "index"))
        file.flush()
        return file

    def begin(self):
        """What starts afresh in each incarnation."""
        for producer in range(self.producers):
            self.accepted[self.epoch, producer] = []
        self.queues = [[] for _ in range(self.lanes)]  # The name of an operation that was put, `tick`, `flush` or `done`.
        self.closed = set()  # Pairs of a sender and a lane.
        self.taken, self.settled = [0] * self.lanes, [0] * self.lanes  # By lane: how many puts it took, and how many of them ended.
        self.caps = {}  # By document and version: the maximum number of items in a request with it, unless it is alone.

    def write(self, line):
        self.text.append(line)
        self.process.stdin.write(line.encode() + b"\n")

    def ask(self, line):
        """Plays an event, and returns the words of its answer."""
        self.write(line)
        self.process.stdin.flush()
        answer = self.process.stdout.readline().decode()
        self.said.append(answer)
        return answer.split()

    # Events, each with what follows from its answer.

    def put(self):
        producer, document = self.random.randrange(self.producers), self.random.choice(self.documents)
        action = self.random.choice(("delete", "index {\"n\": %d}" % len(self.text)))
        words = self.ask("put %d %s %s %s" % (producer, *document, action))
        lane = lane_of(*document, self.lanes)
        if any((producer, other) in self.closed for other in range(self.lanes)):
            expect(words == ["no", "Closed"], words)
        elif len(self.queues[lane]) >= self.capacity:
            expect(words == ["no", "QueueFull"], words)
        else:
            accepted = self.accepted[self.epoch, producer]
            accepted.append((document, action))
            epoch = "" if self.epoch == 0 else "%d." % self.epoch
            expect(words == ["ok", "%s%d:%d" % (epoch, producer, len(accepted))], words)
            self.queues[lane].append((self.epoch, producer, len(accepted)))

    def post(self, line, lane, kind, sender):
        words = self.ask(line)
        closed = (sender, lane) in self.closed if kind == "done" else any((sender, other) in self.closed for other in range(self.lanes))
        if closed:
            expect(words == ["no", "Closed"], words)
        elif len(self.queues[lane]) >= self.capacity:
            expect(words == ["no", "QueueFull"], words)
        else:
            expect(words == ["ok"], words)
            self.queues[lane].append(kind)
            if kind == "done":
                self.closed.add((sender, lane))
        return words == ["ok"]

    def close(self, sender, lane):
        return self.post("close %d %d" % (sender, lane), lane, "done", sender)

    def control(self, kind, lane):
        return self.post("%s %d" % (kind, lane), lane, kind, self.producers)

    def take(self, lane):
        words = self.ask("take %d" % lane)
        if not self.queues[lane]:
            expect(words == ["no", "NothingQueued"], words)
        elif words == ["ok"]:
            front = self.queues[lane].pop(0)
            if isinstance(front, tuple):
                self.taken[lane] += 1
                if self.taken[lane] > self.deal:
                    self.settled[lane] += 1
                else:
                    self.versions[front] = self.epoch * 2**40 + self.taken[lane]
        else:
            expect(words == ["no", "HeldFull"] and isinstance(self.queues[lane][0], tuple) and self.holds(lane) == self.held, words)
        return words == ["ok"]

    def holds(self, lane):
        return self.taken[lane] - self.settled[lane]

    def send(self, lane):
        words = self.ask("send %d" % lane)
        if words[0] == "no":
            expect(words == ["no", "NoRequest"], words)
            return None
        expect(words[:2] == ["ok", str(len(self.requests) + 1)] and len(words) > 2, words)
        items = [tuple(word.rsplit("@", 1)) for word in words[2:]]
        documents = [document for document, _ in items]
        expect(len(set(documents)) == len(items), "a document twice", words)
        for document in documents:
            expect(lane_of(*document.split("/"), self.lanes) == lane, "another lane's document", words)
        flying = [request for request in self.requests if request["lane"] == lane and not request["answered"]]
        expect(len(flying) < self.flying, "too many in flight", words)
        expect(not any(document in documents for request in flying for document, _ in request["items"]), "a document in flight twice", words)
        items = [(document, int(version)) for document, version in items]
        expect(len(items) == 1 or all(len(items) <= self.caps.get(item, len(items)) for item in items), "past the cap of one of them", words)
        self.requests.append({"lane": lane, "items": items, "runs": [[] for _ in items], "others": [False for _ in items], "answered": False})
        return len(self.requests)

    def run(self, request, item, status=None):
        words = self.ask("run %d %d%s" % (request, item, "" if status is None else " %d" % status))
        if not (1 <= request <= len(self.requests) and 1 <= item <= len(self.requests[request - 1]["items"])):
            expect(words == ["no", "NotSent"], words)
            return
        if status is not None and not (400 <= status <= 599 and status not in (404, 409)):
            expect(words == ["no", "BadStatus"], words)
            return
        if status is None:
            status = self.ran(*self.requests[request - 1]["items"][item - 1])
        expect(words[0] == "ok" and int(words[1]) in (status if isinstance(status, tuple) else (status,)), words, status)
        self.requests[request - 1]["runs"][item - 1].append(int(words[1]))
        document, version = self.requests[request - 1]["items"][item - 1]
        if int(words[1]) == 409 and self.index[document] != version:
            self.requests[request - 1]["others"][item - 1] = True
        if int(words[1]) in (200, 201, 404):
            self.index[document] = version
            self.applied.setdefault(document, []).append((version, int(words[1])))

    def ran(self, document, version):
        """Returns the statuses that a run may have, given the stored version of its document."""
        if self.index.get(document, -1) >= version:
            return 409
        return (200, 201, 404)

    def answer(self, line, request, settled, whole=None):
        words = self.ask(line)
        if not 1 <= request <= len(self.requests):
            expect(words == ["no", "NotSent"], words)
        elif self.requests[request - 1]["answered"]:
            expect(words == ["no", "NotFlying"], words)
        elif settled is not None:
            expect(words == ["no", settled], words)
        else:
            expect(words[0] == "ok" and len(words) == 5, words)
            counts = list(map(int, words[1:]))
            entry = self.requests[request - 1]
            expect(sum(counts) == len(entry["items"]), "counts", words)
            expect(whole is None or counts[:2] == [0, 0], "applied without an entry", words)
            if whole == 413:
                count = len(entry["items"])
                expect(counts == ([0, 0, 0, count] if count > 1 else [0, 0, 1, 0]), "not halved", words)
                self.caps.update((item, count // 2) for item in entry["items"])
                entry["halved"] = count > 1
            entry["answered"] = True
            self.settled[entry["lane"]] += sum(counts[:3])
            if whole and not entry.get("halved"):
                self.whole.append((request, whole))

    def reply(self, request, picks=()):
        runs = self.requests[request - 1]["runs"] if 1 <= request <= len(self.requests) else []
        right = (not picks and all(runs)) or (len(picks) == len(runs) and all(1 <= pick <= len(run) for pick, run in zip(picks, runs)))
        self.answer("reply %d%s" % (request, "".join(" %d" % pick for pick in picks)), request, None if right else "NotRun")

    def answered_whole(self, request, status):
        self.answer("whole %d %d" % (request, status), request, None if 201 <= status <= 599 else "BadStatus", status)

    def lost(self, request):
        self.answer("lost %d" % request, request, None, 0)

    def restart(self, epoch):
        words = self.ask("restart %d" % epoch)
        if epoch <= self.epoch or epoch > EPOCHS:
            expect(words == ["no", "NotAbove"], words)
            return
        expect(words == ["ok"], words)
        self.epoch = epoch
        for request in self.requests:
            request["answered"] = True
        self.begin()

    # The choice of events.

    def any_request(self):
        """Returns the number of a request, often of one in flight, seldom of one that does not exist."""
        flying = [number for number, request in enumerate(self.requests, 1) if not request["answered"]]
        roll = self.random.random()
        if flying and roll < 0.6:
            return self.random.choice(flying)
        return max(0, len(self.requests) - int(self.random.expovariate(0.5))) if roll < 0.98 else self.random.choice((0, len(self.requests) + 1, 2**64 - 1))

    def any_event(self):
        roll, lane = self.random.random(), self.random.randrange(self.lanes)
        if self.random.random() < self.deaths:
            self.restart(self.epoch + self.random.choice((1, 1, 1, 2, 1000, 0, -1, 2**22)) if self.epoch else self.random.choice((1, 0, 5, EPOCHS)))
        elif roll < 0.2:
            self.put()
        elif roll < 0.4:
            self.take(lane)
        elif roll < 0.55:
            self.send(lane)
        elif roll < 0.75:
            request = self.any_request()
            items = len(self.requests[request - 1]["items"]) if 1 <= request <= len(self.requests) else 1
            item = self.random.randint(1, items) if self.random.random() < 0.95 else self.random.choice((0, items + 1))
            self.run(request, item, None if self.random.random() < 0.7 else self.random.choice((429, 429, 503, 400, 400, 500, 599, 399, 404, 409, 600)))
        elif roll < 0.85:
            self.reply_some()
        elif roll < 0.88:
            self.lost(self.any_request())
        elif roll < 0.91:
            self.answered_whole(self.any_request(), self.random.choice((503, 429, 502, 504, 401, 413, 413, 413, 413, 201, 599, 200, 600, 403, 500)))
        elif roll < 0.97:
            self.control("tick", lane)
        elif roll < 0.985:
            self.control("flush", lane)
        elif roll < 0.99:
            self.close(self.random.randrange(self.producers + 1), lane)

    def reply_some(self):
        request = self.any_request()
        if not 1 <= request <= len(self.requests):
            return self.reply(request)
        for item, runs in enumerate(self.requests[request - 1]["runs"], 1):
            if not runs and self.random.random() < 0.9:
                self.run(request, item, None if self.random.random() < 0.8 else self.random.choice((429, 503, 400)))
        runs = self.requests[request - 1]["runs"]
        if self.random.random() < 0.3:
            return self.reply(request, [self.random.randint(1, max(1, len(run))) for run in runs])
        self.reply(request)

    def finish(self):
        """Works until nothing is held, and closes everything that is still open. The control closes last, since an operation that
        is not settled may have to wait for ticks. A full lane with a full queue makes no progress, since no tick reaches it."""
        for lane in range(self.lanes):
            for _ in range(300):
                self.work(lane)
                if not self.queues[lane] and not self.holds(lane):
                    break
                if not self.control("flush" if self.random.random() < 0.2 else "tick", lane) and self.holds(lane) == self.held:
                    break
        for lane in range(self.lanes):
            for sender in range(self.producers + 1):
                if (sender, lane) not in self.closed and not self.close(sender, lane):
                    self.work(lane)
                    self.close(sender, lane)
            self.work(lane)

    def work(self, lane):
        """A lane takes what it can and sends it; the requests are run and answered, mostly without a fault."""
        while self.queues[lane] and self.take(lane):
            pass
        flying = [number for number, request in enumerate(self.requests, 1) if request["lane"] == lane and not request["answered"]]
        for request in flying + [self.send(lane)]:
            if request:
                for item in range(1, len(self.requests[request - 1]["items"]) + 1):
                    self.run(request, item, 429 if self.random.random() < self.faults else None)
                if self.random.random() < self.faults:
                    self.lost(request)
                elif len(self.requests[request - 1]["items"]) > 1 and self.random.random() < self.faults:
                    self.answered_whole(request, 413)
                else:
                    self.reply(request)

    def play(self):
        for _ in range(self.random.choice((5, 30, 60, 120))):
            self.any_event()
        if self.random.random() < 0.6:
            self.finish()
        self.process.stdin.close()
        self.end = self.process.stdout.read().decode()
        error = self.process.stderr.read()
        expect((self.process.wait(), error) == (0, b""), self.process.returncode, error)
        self.process.stdout.close()
        self.process.stderr.close()
        self.judge([line.split(" ") for line in self.end.splitlines()])

    # The lines at the end.

    def judge(self, lines):
        accepted = [self.accepted[self.epoch, producer] for producer in range(self.producers)]
        expect([words for words in lines if words[0] == "accepted"] == [["accepted", str(p), str(len(ops))] for p, ops in enumerate(accepted)], "accepted", lines)
        named = self.attribution([words[1:] for words in lines if words[0] == "applied"])
        reported = self.reported([words[1:] for words in lines if words[0] == "report"])
        expect(len(lines) == self.producers + sum(map(len, self.applied.values())) + len(reported) + 1, "lines", lines)
        closed = len(self.closed) == self.lanes * (self.producers + 1)
        done = closed and not any(self.queues) and not any(map(self.holds, range(self.lanes)))
        expect(lines[-1] == ["finished", "yes" if done else "no"], "finished", lines[-1])
        if done:
            for producer, ops in enumerate(accepted):
                for number in range(1, len(ops) + 1):
                    name = (self.epoch, producer, number)
                    expect(name in named or name in reported, "neither applied nor reported", name)

    def operation(self, name, document):
        """Returns the operation of this name, which must have been accepted in its epoch, and its action."""
        epoch, name = name.split(".") if "." in name else ("0", name)
        producer, number = map(int, name.split(":"))
        accepted = self.accepted.get((int(epoch), producer), [])
        expect(1 <= number <= len(accepted), "not accepted", epoch, name)
        of, action = accepted[number - 1]
        expect("/".join(of) == document, "of another document", name)
        return (int(epoch), producer, number), action

    def attribution(self, lines):
        """The names are those of distinct operations, one for each write that was applied, with its action and the version that it
        was assigned; they are in producer order in each epoch, and the epochs come one after another."""
        named, last, epochs, versions, live = set(), {}, {}, {}, set(self.live)
        expect([words[0] for words in lines] == sorted((words[0] for words in lines), key=lambda d: [part.encode() for part in d.split("/")]), "order of documents")
        for document, version, name in lines:
            operation, action = self.operation(name, document)
            expect(operation not in named, "named twice", name)
            named.add(operation)
            expect(epochs.get(document, 0) <= operation[0], "an earlier epoch after a later one", name)
            epochs[document] = operation[0]
            expect(last.get((document, *operation[:2]), 0) < operation[2], "not in producer order", name)
            last[document, *operation[:2]] = operation[2]
            expect(self.versions.get(operation) == int(version), "another version", name)
            place = versions.setdefault(document, [])
            place.append(int(version))
            expect(len(place) <= len(self.applied.get(document, [])), "applied and never run", document)
            status = (201 if document not in live else 200) if action != "delete" else (200 if document in live else 404)
            expect(self.applied[document][len(place) - 1] == (int(version), status), "not what was run", document, version, status)
            live.add(document) if action != "delete" else live.discard(document)
        expect({d: len(v) for d, v in self.applied.items()} == {d: len(v) for d, v in versions.items()}, "run and not applied")
        return named

    def reported(self, lines):
        """Each report names an operation that was accepted in this epoch, none is named twice, and each cause is what happened."""
        reported, order = set(), [int(words[0]) for words in lines]
        expect(order == sorted(order), "order of lanes")
        for lane, name, document, cause, *more in lines:
            operation, _ = self.operation(name, document)
            expect(operation not in reported, "reported twice", name)
            reported.add(operation)
            expect(operation[0] == self.epoch, "another epoch's report", name)
            expect(lane_of(*document.split("/"), self.lanes) == int(lane), "another lane's report", name)
            item = (document, self.versions.get(operation))
            sent = [(number, request["items"].index(item)) for number, request in enumerate(self.requests, 1) if item in request["items"]]
            runs = [status for number, place in sent for status in self.requests[number - 1]["runs"][place]]
            tries = [number for number, _ in sent if not self.requests[number - 1].get("halved")]
            expect(
                {
                    "Refused": lambda: len(more) == 2 and int(more[0]) in runs and more[1] == "scripted_refusal",
                    "Request": lambda: len(more) == 1 and any((number, int(more[0])) in self.whole for number, _ in sent),
                    "Conflict": lambda: not more and 409 in runs and (len(sent) == 1 or self.stated and any(self.requests[number - 1]["others"][place] for number, place in sent)),
                    "GaveUp": lambda: len(more) == 1 and int(more[0]) == len(sent) and self.attempts <= len(tries),
                    "Spent": lambda: not more and not sent and self.taken[int(lane)] > self.deal,
                }[cause](),
                "cause",
                name,
                cause,
                more,
            )
        return reported


def play(relay, seed, stated=False):
    script = Script(relay, seed, stated)
    try:
        script.play()
        if seed % 10 == 0:
            text = "\n".join(script.text).encode()
            again = subprocess.run([relay, *script.args], input=text, capture_output=True, timeout=60)
            expect(again.stdout.decode() == "".join(script.said) + script.end and again.returncode == 0, "another answer if the text comes in one piece")
        return len(script.text)
    except Exception as wrong:
        script.process.kill()
        script.process.wait()
        raise Wrong("seed %d, line %d" % (seed, len(script.text)), script.text[-1], *wrong.args) from wrong


def play_all(relay, count, first=0, stated=False):
    """Plays `count` scripts. Returns how many lines they had, and what was wrong."""
    events, failures = 0, []
    for seed in range(first, first + count):
        try:
            events += play(relay, seed, stated)
        except Wrong as wrong:
            failures.append(wrong)
    return events, failures


def main():
    started = time.monotonic()
    count, first = int(sys.argv[2]), int(sys.argv[3]) if len(sys.argv) > 3 else 0
    events, failures = play_all(sys.argv[1], count, first, sys.argv[4:] == ["stated"])
    for failure in failures[:20]:
        print("FAILED:", failure)
    print("%d scripts, %d lines, %d failed, %.1f s" % (count, events, len(failures), time.monotonic() - started))
    sys.exit(bool(failures))


if __name__ == "__main__":
    main()
