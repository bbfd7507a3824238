"""`relay serve` between peers that misbehave: an index with each fault, and clients that send garbage, never end or never read."""
import json
import random
import socket
import subprocess
import threading
import time

from bulk_server import LOST, Server
from program import FEWER, RELAY, SECONDS, check, leave
from reason_cases import EPOCH, server_with
from run_cases import FAULTS, wait_until
from serve_cases import Serve, body_of, is_refusal, judge, received

PUT = b"PUT /books/_doc/%d HTTP/1.1\r\nHost: a\r\nContent-Length: 2\r\n\r\n{}"


def three_clients(name, server, blanks=0, attempts=32):
    """Three clients write, in bulk and one by one. Each answer is true: what it says is written was applied, in order and nothing else, and
    the other writes have an error. Returns the statuses of these. What is written one by one has so many blanks more."""
    serve = Serve(server, "--workers", "3", "--lanes", "2", "--count", "7", "--attempts", "%d" % attempts)
    said, errors, lock = {}, [], threading.Lock()

    def client(number):
        own = random.Random(number)
        for turn in range(5):
            operations = [operation(own, number, turn * 10 + at) for at in range(own.randrange(1, 10))]
            status, answer = serve.ask("POST", "/_bulk", body_of(operations))
            source = '{"n":%d}' % turn + " " * blanks
            new, text = serve.ask("POST", "/made/_doc", source.encode())
            entries = [entry for it in answer["items"] for entry in it.values()]
            wrong = [it["status"] for it in entries if "error" in it]
            with lock:
                judge("%s: the items" % name, server, operations, answer["items"])
                check("%s: the status" % name, (status, answer["errors"]) == (200, bool(wrong)), (status, answer))
                check("%s: the status of one" % name, (new == 201) != ("error" in text), (new, text))
                for (identity, source_of), entry in zip(operations, entries):
                    if "error" not in entry:
                        said.setdefault(("books", identity), []).append(source_of)
                if new == 201:
                    said["made", text["_id"]] = [source]
                errors.extend(wrong if new == 201 else [*wrong, new])

    threads = [threading.Thread(target=client, args=(number,)) for number in range(3)]
    for thread in threads:
        thread.start()
    for thread in threads:
        thread.join()
    found = {key: [row[2] for row in rows] for key, rows in server.index.applied.items()}
    check("%s: what was applied, in order" % name, found == said, [it for it in {**found, **said} if found.get(it) != said.get(it)][:3])
    status, out, err = serve.stop()
    check("%s: the stop" % name, (status, err) == (0, b""), (status, out, err))
    server.close()
    return errors


def operation(dice, client, number):
    """A write of one of three documents of a client."""
    return "%d-%d" % (client, dice.randrange(3)), None if dice.random() < 0.2 else '{"n":%d}' % number


def often(*faults):
    """A plan with one of these faults on the first request, and on two of five others."""
    dice = random.Random(3)
    return lambda number: dice.choice(faults) if number == 1 or dice.random() < 0.4 else None


def each_fault():
    """With each fault of the index alone everything is applied, and said to be."""
    for fault in (*FAULTS, 502, 504):
        errors = three_clients(fault, Server(often(fault)))
        check("%s: no errors" % fault, errors == [], errors)


def refused_whole():
    """A whole request that gets 500 is not sent again: that is the error of its writes."""
    errors = three_clients("a whole 500", Server(often(500)))
    check("a whole 500: the errors", set(errors) == {500}, errors)


class Noting(Server):
    """A server that notes the status of each message that it has sent."""

    def __init__(self, *args, **more):
        self.sent = []
        super().__init__(*args, **more)

    def write(self, stream, data):
        done = Server.write(stream, data)
        self.sent.append(int(data[9:12]))
        return done


def too_large():
    """An index that takes one small document at a time: requests are halved, and a large document is refused. If the connection is closed
    before a request was sent, the answer may be lost."""
    for early in (None, "drains", "closes"):
        name = "one document at a time, early: %s" % early
        server = Noting(most=150, early=early)
        errors = three_clients(name, server, blanks=100_000, attempts=4)
        right = set(errors) <= {413, 503} and len(errors) >= 15 if early == "closes" else errors == [413] * 15
        check("%s: the errors" % name, right, errors)
        check("%s: others were too large at first" % name, server.sent.count(413) > 15, server.sent)


def stated():
    """An index that states the stored version in each conflict: a write of an earlier request is not taken for one of another writer."""
    server = server_with({"%d-0" % client: 2 * EPOCH for client in range(3)}, plan=often(*LOST))
    errors = three_clients("stated versions", server)
    check("stated versions: the errors", set(errors) == {409}, errors)


def answered_again():
    """A reply that comes again before the next request is not taken for the reply to that, which goes by another connection. One that comes
    again after that cannot be told from it, as PROMISES says."""
    server = Noting(lambda number: "twice late")
    serve = Serve(server, "--workers", "2", "--lanes", "1")
    statuses, sources = [], ['{"n":%d}' % turn for turn in range(5)]
    for turn, source in enumerate(sources):
        statuses.append(serve.ask("PUT", "/books/_doc/1", source.encode())[0])
        wait_until(lambda: len(server.sent) == 2 * turn + 2)
    applied = [row[2] for row in server.index.applied["books", "1"]]
    check("twice, late: what was applied", statuses == [201, 200, 200, 200, 200] and applied == sources, (statuses, applied))
    check("twice, late: the stop", serve.stop()[0] == 0)
    wait_until(lambda: len(server.strays) == 5)
    check("twice, late: no request goes out where something came", server.strays == [b""] * 5, server.strays)
    server.close()


def answers_in(came):
    """Whether this is a row of answers, each a refusal in OpenSearch's form."""
    for answer in came.split(b"HTTP/1.1 ")[1:]:
        head, _, text = answer.partition(b"\r\n\r\n")
        status = int(head[:3])
        if status not in (400, 413, 414, 431, 501) or not is_refusal(status, json.loads(text), ""):
            return False
    return came == b"" or came.startswith(b"HTTP/1.1 ")


def garbage():
    """Bytes that are no request: they are refused or given up, and everybody else is served."""
    dice, server = random.Random(7), Server()
    serve = Serve(server, "--workers", "2", "--lanes", "1", "--idle", "1s")
    hello = bytes.fromhex("16030100c2010000be0303") + dice.randbytes(190)
    pieces = [b"\0" * 20_000, b"\xff" * 100_000, b"\r\n" * 50_000, b" " * 20_000, hello, b"PRI * HTTP/2.0\r\n\r\nSM\r\n\r\n", b"GET / HTTP/0.9\r\n\r\n", b"\n\n\n", b'{"index":{}}\n{}\n', b"POST /_bulk\r\n\r\n"]
    pieces += [dice.randbytes(dice.randrange(1, 3_000)) for _ in range(40 if FEWER else 400)]
    for piece in pieces:
        came = serve.raw(piece)
        check("garbage is refused", answers_in(came), (piece[:60], came[:300]))
    check("nothing of it was sent", server.requests == 0 and serve.ask("PUT", "/books/_doc/1", b"{}")[0] == 201)
    check("the stop after garbage", serve.stop()[0] == 0)


def poured(serve, front, piece, most):
    """Sends a front, and then this piece again and again, until the connection is closed or `most` bytes were sent."""
    with socket.create_connection(("127.0.0.1", serve.port), timeout=SECONDS) as stream:
        sent = 0
        try:
            stream.sendall(front)
            while sent < most:
                stream.sendall(piece)
                sent += len(piece)
            stream.shutdown(socket.SHUT_WR)
        except OSError:
            pass
        return sent, received(stream)


def endless():
    """Heads and bodies that do not end: each is refused within its limit, and the one worker serves the others meanwhile."""
    server = Server()
    serve = Serve(server, "--workers", "1", "--lanes", "1", "--idle", "20s")
    chunked = b"POST /_bulk HTTP/1.1\r\nHost: a\r\nTransfer-Encoding: chunked\r\n\r\n"
    for name, front, piece, statuses in (
        ("fields", b"GET / HTTP/1.1\r\nHost: a\r\n", b"A: b\r\n" * 100, (431,)),
        ("a field", b"GET / HTTP/1.1\r\nHost: a\r\nA: ", b"b" * 1_000, (431,)),
        ("a target", b"GET /", b"b" * 1_000, (414,)),
        ("a method", b"G", b"G" * 1_000, (400, 414, 431)),
        ("extensions of a chunk", chunked + b"1;a=", b"b" * 1_000, (400, 431)),
        ("a chunk's size", chunked, b"0" * 1_000, (400, 431)),
        ("trailers", chunked + b"0\r\n", b"A: b\r\n" * 100, (400, 431)),
    ):
        sent, came = poured(serve, front, piece, 20_000_000)
        status = int(came[9:12] or 0)
        check("without end: %s" % name, status in statuses and is_refusal(status, json.loads(came.partition(b"\r\n\r\n")[2]), ""), (sent, came[:300]))
    if FEWER:
        leave("a chunked body of 105 MB to relay serve")
    else:
        sent, came = poured(serve, chunked, b"fa0\r\n%s\r\n" % (b" " * 4_000), 200_000_000)
        check("without end: a chunked body", came.startswith(b"HTTP/1.1 413 ") and sent > 104_000_000, (sent, came[:300]))
    for name, front in (("a head", b"GET / HTTP/1.1\r\nHost: a\r\nA: "), ("a body", b"PUT /books/_doc/1 HTTP/1.1\r\nHost: a\r\nContent-Length: 1000000\r\n\r\n")):
        trickles(serve, name, front)
    check("the stop after these", serve.stop()[0] == 0)


def trickles(serve, name, front):
    """Bytes that come one by one keep their connection open, and keep the worker from nobody: otherwise they would for `--idle`."""
    with socket.create_connection(("127.0.0.1", serve.port), timeout=30) as stream:
        stream.sendall(front)
        ends, longest, turn = time.monotonic() + 3, 0.0, 0
        while time.monotonic() < ends:
            stream.sendall(b"x")
            began = time.monotonic()
            turn += 1
            status = serve.ask("PUT", "/books/_doc/%s-%d" % (name.replace(" ", ""), turn), b"{}")[0]
            longest = max(longest, time.monotonic() - began)
            check("beside %s that trickles" % name, status == 201, status)
            time.sleep(0.02)
        check("nobody waits for long beside %s that trickles" % name, longest < 10, longest)


def large():
    """A body above the limit is refused once it was sent, and one at the limit is taken."""
    serve = Serve(Server(), "--workers", "2", "--lanes", "1")
    head = b"POST /books/_bulk HTTP/1.1\r\nHost: a\r\nContent-Length: %d\r\n\r\n"
    came = serve.raw(head % 104_857_601 + b" " * 104_857_601, SECONDS)
    check("a body above the limit", came.startswith(b"HTTP/1.1 413 ") and is_refusal(413, json.loads(came.partition(b"\r\n\r\n")[2]), "104857600 bytes"), came[:300])
    if FEWER:
        leave("a body of 104,857,600 bytes to relay serve")
    else:
        body = b'{"index":{"_id":"1"}}\n{}\n' + b"\n" * (104_857_600 - 25)
        came = serve.raw(head % len(body) + body, SECONDS)
        check("a body at the limit", came.startswith(b"HTTP/1.1 200 ") and b'"errors":false' in came, came[:300])
    check("the stop after large bodies", serve.stop()[0] == 0)


def unread():
    """A client that sends requests and does not read: others are served, and when it reads, each answer is there in its order."""
    serve = Serve(Server(), "--workers", "1", "--lanes", "1", "--idle", "60s")
    count = 300 if FEWER else 3_000
    with socket.create_connection(("127.0.0.1", serve.port), timeout=SECONDS) as stream:
        stream.setsockopt(socket.SOL_SOCKET, socket.SO_RCVBUF, 4_096)
        sending = threading.Thread(target=lambda: stream.sendall(b"".join(PUT % it for it in range(count)) + b"GET / HTTP/1.1\r\nHost: a\r\nConnection: close\r\n\r\n"))
        sending.start()
        for turn in range(5):
            check("beside a client that does not read", serve.ask("PUT", "/books/_doc/other-%d" % turn, b"{}")[0] == 201)
        came = received(stream)
        sending.join()
    ids = [int(it.partition(b'"')[0]) for it in came.split(b'"_id":"')[1:]]
    check("its answers, when it reads", ids == list(range(count)) and came.count(b"HTTP/1.1 ") == count + 1, (len(ids), came[-300:]))
    check("the stop after that", serve.stop()[0] == 0)


def midway():
    """The end of standard input in the middle of requests: what still comes is answered, and what does not come is waited for only so long."""
    serve = Serve(Server(), "--workers", "4", "--lanes", "1")
    head = b"PUT /books/_doc/1 HTTP/1.1\r\nHost: a\r\nContent-Length: 40\r\n\r\n"
    found = []

    def send(length):
        with socket.create_connection(("127.0.0.1", serve.port), timeout=SECONDS) as stream:
            stream.sendall(head)
            try:
                for at in range(length):
                    stream.sendall(b" " if at < 38 else b"{}"[at - 38:at - 37])
                    time.sleep(0.03)
            except OSError:
                pass
            found.append((length, received(stream)))

    whole, endless = threading.Thread(target=send, args=(40,)), threading.Thread(target=send, args=(39,))
    whole.start()
    endless.start()
    time.sleep(0.5)
    began = time.monotonic()
    status, out, err = serve.stop()
    whole.join()
    endless.join()
    check("a stop in the middle of requests", (status, out, err) == (0, b"applied 1 already 0 reported 0\n", b"") and time.monotonic() - began < 30, (status, out, err))
    check("what came whole is answered", dict(found)[40].startswith(b"HTTP/1.1 201 ") and b"connection: close" in dict(found)[40], found)
    check("what did not is not", dict(found)[39] == b"", found)


def any_port():
    """Port 0: the system chooses one, standard error names it, and the stop finds it."""
    for host in ("127.0.0.1", "0.0.0.0"):
        process = subprocess.Popen([RELAY, "serve", "--listen", host + ":0", "--to", "127.0.0.1:1", "--epoch", "1"], stdin=subprocess.PIPE, stdout=subprocess.PIPE, stderr=subprocess.PIPE)
        port = int(process.stderr.readline().partition(b",")[0].rpartition(b":")[2])
        socket.create_connection(("127.0.0.1", port), timeout=30).close()
        process.stdin.close()
        check("the stop at %s and any port" % host, process.wait(timeout=60) == 0 and process.stdout.read() == b"applied 0 already 0 reported 0\n")


GROUPS = (each_fault, refused_whole, too_large, stated, answered_again, garbage, endless, large, unread, midway, any_port)
