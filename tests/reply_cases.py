"""Thousands of replies that are broken in all sorts of ways, sent to `relay run` by a server that has applied what it
received: the program ends by itself, and each operation is applied, once and in order, or reported."""
import json
import random
import socket
import tempfile

from bulk_server import Server, writes_of
from program import check
from run_cases import judge, operations, relay_run, written

# The minimum number of broken replies, over several runs.
REPLIES = 3000


def built(dice, body):
    """Returns a reply in one of the forms that servers use."""
    front = dice.choice([b"", b"", b"", b"HTTP/1.1 100 Continue\r\n\r\n"])
    more = dice.choice([b"", b"", b"Connection: close\r\n", b"Content-Encoding: identity\r\n", b"Date: Thu, 01 Jan 1970 00:00:00 GMT\r\n"])
    if dice.randrange(3):
        return b"%sHTTP/1.1 200 OK\r\n%sContent-Length: %d\r\n\r\n%s" % (front, more, len(body), body)
    at = dice.randrange(1, len(body))
    chunks = b"".join(b"%x\r\n%s\r\n" % (len(it), it) for it in (body[:at], body[at:]))
    return b"%sHTTP/1.1 200 OK\r\n%sTransfer-Encoding: chunked\r\n\r\n%s0\r\n\r\n" % (front, more, chunks)


def numbers_in(message):
    """Returns the start and the end of each number in the message."""
    found, at = [], 0
    while at < len(message):
        end = at
        while end < len(message) and message[end : end + 1].isdigit():
            end += 1
        if end > at:
            found.append((at, end))
        at = end + 1
    return found


def broken(dice, message):
    """Returns the message with one to three changes."""
    for _ in range(dice.choice([1, 1, 1, 2, 3])):
        at = dice.randrange(len(message) + 1)
        end = dice.randrange(at, min(len(message), at + 40) + 1)
        kind = dice.randrange(9)
        if kind == 0:
            message = message[:at]
        elif kind == 1:
            message = message + message
        elif kind == 2:
            message = message[:end] + message[at:]
        elif kind == 3:
            message = message[:at] + message[end:]
        elif kind == 4:
            message = message[:at] + dice.randbytes(dice.randrange(1, 5)) + message[at:]
        elif kind == 5:
            message = message[:at] + dice.randbytes(end - at) + message[end:]
        elif kind == 6:
            rest = message[:at] + message[end:]
            to = dice.randrange(len(rest) + 1)
            message = rest[:to] + message[at:end] + rest[to:]
        elif kind == 7:
            message = message + message[at:end]
        else:
            places = numbers_in(message)
            if places:
                at, end = dice.choice(places)
                message = message[:at] + b"%d" % max(0, int(message[at:end]) + dice.choice([-1, 1])) + message[end:]
        if not message:
            break
    return message


class BrokenReplies(Server):
    """Applies each request, and breaks two in three replies. How depends only on the seed and the number of the request."""

    tells = False

    def __init__(self, seed):
        self.seed, self.played = seed, 0
        super().__init__()

    def answer(self, stream, head, body):
        with self.lock:
            self.requests += 1
            dice = random.Random("%d %d" % (self.seed, self.requests))
            entries = [self.index.run(kind, meta, source) for kind, meta, source in writes_of(body)]
            message = built(dice, json.dumps({"took": 1, "errors": False, "items": entries}).encode())
            breaks = dice.randrange(3) > 0
            if breaks:
                self.played += 1
                message = broken(dice, message)
        # After a broken reply, a further request may or may not be served; one that is not may not count as applied.
        serves = not breaks or dice.randrange(2)
        return self.write(stream, message) and self.goes_on(stream, 0.02 if breaks else 1) and serves

    @staticmethod
    def goes_on(stream, seconds):
        """Returns true if another request arrives soon. A client that waits for more of the reply gets the end of the stream."""
        try:
            stream.settimeout(seconds)
            return stream.recv(1, socket.MSG_PEEK) != b""
        except OSError:
            return False
        finally:
            stream.settimeout(None)


def broken_replies():
    played = 0
    for seed in range(1, 100):
        with tempfile.TemporaryDirectory() as folder:
            producers = [operations(p, 120, 4) for p in range(4)]
            files = [written(folder, p, ops) for p, ops in enumerate(producers)]
            server = BrokenReplies(seed)
            done = relay_run(server.port, files, "--count", "1", "--linger", "0", "--lanes", "8", "--attempts", "4", timeout=120)
            judge("broken replies, seed %d" % seed, server, producers, done)
            server.close()
            played += server.played
        if played >= REPLIES:
            break
    check("enough broken replies were sent", played >= REPLIES, played)


class EarlyReplies(Server):
    """Answers two in three requests with 503 as soon as their head has arrived. After one of these it reads the body and keeps
    serving the connection; after the other it closes it immediately."""

    sees_all = False

    def __init__(self):
        self.begun = 0
        super().__init__()

    def answers_early(self, stream):
        with self.lock:
            self.begun += 1
            place = self.begun % 3
        if place == 0:
            return None
        self.send(stream, 503, b"{}")
        return "closes" if place == 1 else "reads on"


def early_replies():
    """A reply before a request of several 100 KB is complete, on a connection that is kept and on one that is closed."""
    with tempfile.TemporaryDirectory() as folder:
        producers = [[("%d-%d" % (p, n % 7), '{"n":%d,"text":"%s"}' % (n, "x" * 100_000)) for n in range(60)] for p in range(2)]
        files = [written(folder, p, ops) for p, ops in enumerate(producers)]
        server = EarlyReplies()
        done = relay_run(server.port, files, "--count", "20", "--linger", "0", "--lanes", "2", "--attempts", "32")
        judge("early replies", server, producers, done)
        check("early replies: all is applied", done[1] == b"applied 120 already 0 reported 0\n", done)
        server.close()


GROUPS = (broken_replies, early_replies)
