"""Runs `relay serve` with every n-th allocation refused, in front of an index without faults, from which it takes its epoch if n is
even; otherwise it takes it from a file. `refusals.py` calls this.

It ends within a minute of the end of its standard input, or by itself, out of memory; never by a signal. Out of memory is also a
thread that does not start, and a seed for ids that is not had. One more client leaves before its answer, and sends the same again. Each answer that begins is whole, and what it says was written the index
applied, with that version and that source. The index has no write twice, and the writes of a document in the order of their
client.
"""
import http.client
import json
import os
import re
import socket
import subprocess
import tempfile
import threading
import time

from epoch_cases import CounterServer
from program import RELAY
from stub_cases import free_port

REFUSED = b"REFUSED\n"
# A hundred values: first 1, 2, 3, .., then in growing steps, up to more than the number of allocations of these requests.
EVERY = sorted({*range(1, 41), *(int(40 * 1.09**step) for step in range(1, 61))})
CLIENTS, TURNS, SECONDS = 3, 6, 60
# For how many seconds the index takes a request whose client leaves: long enough that its answer is kept.
SLOW = 0.13
DONE = re.compile(rb"applied (\d+) already (\d+) reported (\d+)\n")
# What an answer may have as its status if memory ran out: that of the service, and those of the server below it.
STATUSES = (200, 201, 500, 503)


def body_of(operations):
    lines = []
    for identity, source in operations:
        lines += [json.dumps({"index": {"_index": "books", "_id": identity}}), source]
    return ("\n".join(lines) + "\n").encode()


class Client:
    """Sends its requests one after another, each once, and notes what is wrong with the answers. Its documents are its own."""

    def __init__(self, number, port):
        self.number, self.port, self.connection = number, port, None
        self.put, self.acknowledged, self.answers, self.wrong = [], [], 0, []

    def ask(self, method, target, body=None):
        """Returns the status and the value of the answer, or None if none has come."""
        self.connection = self.connection or http.client.HTTPConnection("127.0.0.1", self.port, timeout=SECONDS)
        try:
            self.connection.request(method, target, body)
            answer = self.connection.getresponse()
            text = answer.read()
        except (http.client.IncompleteRead, http.client.BadStatusLine, TimeoutError) as error:
            if not isinstance(error, http.client.RemoteDisconnected):
                self.wrong.append("an answer that is not whole, or none in time: %r" % error)
            self.connection = None
            return None
        except OSError:
            self.connection = None
            return None
        self.answers += 1
        try:
            value = json.loads(text)
        except ValueError:
            self.wrong.append("an answer that is not JSON: %s" % text[:200])
            return None
        if answer.status not in STATUSES or (answer.status >= 500) != (value.get("status") == answer.status):
            self.wrong.append("an answer of status %d: %s" % (answer.status, text[:200]))
        return answer.status, value

    def note(self, identity, source, item):
        if "error" not in item:
            self.acknowledged.append((identity, item["_version"], source))

    def one(self, identity, source):
        self.put.append((identity, source))
        answer = self.ask("PUT", "/books/_doc/" + identity, source.encode())
        if answer and answer[0] < 300:
            self.note(identity, source, answer[1])

    def several(self, operations):
        self.put += operations
        answer = self.ask("POST", "/_bulk", body_of(operations))
        if answer and answer[0] == 200:
            if len(answer[1]["items"]) != len(operations):
                self.wrong.append("%d items for %d operations" % (len(answer[1]["items"]), len(operations)))
            for (identity, source), item in zip(operations, answer[1]["items"]):
                self.note(identity, source, item["index"])

    def work(self):
        for turn in range(TURNS):
            source = '{"client":%d,"turn":%d,"at":%%d,"text":"%s"}' % (self.number, turn, "long " * 20)
            identity = "a-document-with-a-long-name-of-client-%d-number-%%d" % self.number
            self.one(identity % (turn % 2), source % 0)
            self.several([(identity % (at % 3), source % at) for at in range(1, 6)])
        self.ask("GET", "/")


class Leaver(Client):
    """A client that leaves before it is answered, and then sends the same again."""

    def work(self):
        identity, source = "left", '{"left":true}'
        head = "PUT /books/_doc/%s HTTP/1.1\r\nhost: a\r\ncontent-length: %d\r\n\r\n" % (identity, len(source))
        try:
            with socket.create_connection(("127.0.0.1", self.port), timeout=SECONDS) as stream:
                stream.sendall((head + source).encode())
        except OSError:
            return
        # If memory runs out, it may be put again.
        self.put.append((identity, source))
        self.one(identity, source)


def begun(process, path):
    """Waits until the server says where it listens, and returns whether it does."""
    until = time.monotonic() + SECONDS
    while process.poll() is None and time.monotonic() < until:
        with open(path, "rb") as file:
            if b"listening on" in file.read():
                return True
        time.sleep(0.005)
    return False


def wrong_writes(server, clients):
    """Returns what is wrong with what the index applied, or None."""
    put = {}
    for client in clients:
        for identity, source in client.put:
            put.setdefault(identity, []).append(source)
        for identity, version, source in client.acknowledged:
            if (version, "index", source) not in server.index.applied.get(("books", identity), []):
                return "said to be written, and not applied: %s %d %s" % (identity, version, source)
    for (_, identity), rows in server.index.applied.items():
        left = iter(put.get(identity, []))
        if not all(source in left for _, _, source in rows):
            return "writes of %s doubled, out of order or put by nobody: %s" % (identity, rows)
    return None


def wrong_end(status, out, met, clients):
    """Returns what is wrong with how it ended, or None."""
    if status is None:
        return "has not ended after %d s" % SECONDS
    if status == 0 and DONE.fullmatch(out):
        whole = sum(it.answers for it in clients) == CLIENTS * (2 * TURNS + 1) + 1
        return None if met or whole else "left requests without answers, and no allocation was refused"
    return None if met and status in (3, 4) else "ended with %d: %s" % (status, out[-300:])


def serve_one(every, environment):
    """Lets the clients write through one server. Returns its status, how many answers there were, and what is wrong."""
    slow = [0.0]
    server, port = CounterServer(delay=lambda: slow[0]), free_port()
    args = [RELAY, "serve", "--listen", "127.0.0.1:%d" % port, "--to", "127.0.0.1:%d" % server.port, "--workers", "4", "--lanes", "2", "--count", "7", "--attempts", "32", "--answer-within", "30s"]
    clients, leaver = [Client(number, port) for number in range(CLIENTS)], Leaver(CLIENTS, port)
    with tempfile.TemporaryDirectory() as folder, open(os.path.join(folder, "said"), "w+b") as said:
        args += ["--epoch-file", os.path.join(folder, "epoch")] if every % 2 else ["--epoch-from", "relay/epoch"]
        process = subprocess.Popen(args, env=environment, stdin=subprocess.PIPE, stdout=subprocess.PIPE, stderr=said)
        if begun(process, said.name):
            threads = [threading.Thread(target=it.work) for it in clients]
            for thread in threads:
                thread.start()
            for thread in threads:
                thread.join()
            slow[0] = SLOW
            leaver.work()
        clients.append(leaver)
        process.stdin.close()
        try:
            status = process.wait(timeout=SECONDS)
        except subprocess.TimeoutExpired:
            process.kill()
            process.wait()
            status = None
        out = process.stdout.read()
        with open(said.name, "rb") as file:
            met = REFUSED in file.read()
    server.close()
    wrongs = [it for client in clients for it in client.wrong]
    wrong = wrong_end(status, out, met, clients) or (wrongs[0] if wrongs else None) or wrong_writes(server, clients)
    return status, sum(it.answers for it in clients), "relay serve with every allocation whose number %d divides refused: %s" % (every, wrong) if wrong else None


def check_serves(refusing):
    """Serves once for each value of n. Returns what went wrong."""
    ends = [serve_one(every, refusing(every)) for every in EVERY]
    statuses = [status for status, _, _ in ends]
    print("  relay serve with every n-th allocation refused, %d values of n: %d ended out of memory, %d with status 0; %d answers" % (len(EVERY), statuses.count(4) + statuses.count(3), statuses.count(0), sum(answers for _, answers, _ in ends)), flush=True)
    return [wrong for _, _, wrong in ends if wrong]
