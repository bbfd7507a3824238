"""A server of bulk requests for the tests of `relay run`: an index with external versions, which keeps those of deleted
documents, and a plan of faults, which says which request is lost, cut, late, refused or answered with something else."""
import contextlib
import json
import socket
import threading
import time


class Index:
    """The version of each document, and the writes that were applied to it, in order. If `states`, each conflict states the
    version in its reason, in the words of OpenSearch."""

    def __init__(self, states=False):
        self.versions, self.applied, self.states = {}, {}, states

    def run(self, kind, meta, source):
        """Runs one write, and returns its entry in the reply."""
        key = (meta["_index"], meta["_id"])
        if meta["version"] <= self.versions.get(key, 0):
            error = {"type": "version_conflict_engine_exception"}
            if self.states:
                error["reason"] = "[%s]: version conflict, current version [%d] is higher or equal to the one provided [%d]" % (key[1], self.versions[key], meta["version"])
            return {kind: {"_id": key[1], "status": 409, "error": error}}
        live = self.applied.get(key, [(0, "delete", None)])[-1][1] == "index"
        self.versions[key] = meta["version"]
        self.applied.setdefault(key, []).append((meta["version"], kind, source))
        if kind == "delete":
            return {kind: {"_id": key[1], "status": 200 if live else 404}}
        return {kind: {"_id": key[1], "status": 200 if live else 201}}


def writes_of(body):
    """Yields the writes of a bulk body: kind, metadata, source."""
    lines = iter(body.decode().split("\n")[:-1])
    for line in lines:
        (kind, meta), = json.loads(line).items()
        yield kind, meta, next(lines) if kind == "index" else None


# The faults after which a client has no answer.
LOST = ("drop before", "drop after", "half", "garbage", "no items")


def key_of(meta):
    return meta["_index"], meta["_id"], meta["version"]


class Server:
    """Serves each connection in a thread, one request at a time. `plan` maps the number of a request, from 1, to the name of a
    fault or None. A body of more than `most` bytes gets 413 once it has been read. If `early` is given, it gets 413 before it is
    read, and the connection is closed immediately (`closes`) or after the body has arrived (`drains`). A request waits for
    `delay()` seconds before it is processed. `states` as in `Index`.

    `told` has what each write was answered, by its index, id and version, one for each request that carried it: ("lost",),
    ("unsure",) if the answer could not be written, ("whole", status) or ("item", status, type of the error)."""

    # Whether all requests are served by `answer`, and whether it notes what it answers.
    sees_all, tells = True, True
    # Where it listens.
    family, host = socket.AF_INET, "127.0.0.1"

    def __init__(self, plan=lambda number: None, refuse=lambda meta: None, most=2**64, early=None, delay=None, states=False):
        self.index, self.plan, self.refuse, self.most, self.early, self.delay = Index(states), plan, refuse, most, early, delay
        self.requests, self.lock = 0, threading.Lock()
        self.sees_all = type(self).sees_all and early is None
        self.heads, self.streams, self.strays, self.told = [], [], [], {}
        self.listen(0)

    def accept(self):
        while True:
            try:
                stream, _ = self.listener.accept()
            except OSError:
                return
            with self.lock:
                self.streams.append(stream)
            threading.Thread(target=self.serve, args=(stream,), daemon=True).start()

    def listen(self, port):
        self.hold(port)
        self.come_up()

    def hold(self, port):
        """Takes a port, and does not listen yet: connections are refused, and the system gives the port to nobody else."""
        self.listener = socket.socket(self.family)
        self.listener.setsockopt(socket.SOL_SOCKET, socket.SO_REUSEADDR, 1)
        self.listener.bind((self.host, port))
        self.port = self.listener.getsockname()[1]

    def come_up(self):
        """Listens on the port that it holds."""
        self.listener.listen()
        self.acceptor = threading.Thread(target=self.accept, daemon=True)
        self.acceptor.start()

    def go_down(self):
        """Stops listening, and drops all connections. It keeps its port: one that nobody holds may be that of the next connection of any
        program, for as long as that lasts."""
        self.close()
        self.hold(self.port)
        with self.lock:
            streams, self.streams = self.streams, []
        for stream in streams:
            with contextlib.suppress(OSError):
                stream.shutdown(socket.SHUT_RDWR)

    def close(self):
        """Stops listening. The accepting thread is joined before its socket is closed: otherwise it could accept a connection
        to the next server, whose socket may get the same number."""
        self.listener.shutdown(socket.SHUT_RDWR)
        self.acceptor.join()
        self.listener.close()

    def move(self, port):
        """Listens on another port."""
        self.close()
        self.listen(port)

    def rest(self, seconds):
        """Is down for `seconds`."""
        self.sees_all = False
        self.go_down()
        time.sleep(seconds)
        self.come_up()

    def serve(self, stream):
        with stream:
            came = b""
            while True:
                while b"\r\n\r\n" not in came:
                    piece = self.receive(stream)
                    if not piece:
                        return
                    came += piece
                head, came = came.split(b"\r\n\r\n", 1)
                early = self.answers_early(stream)
                if early == "closes":
                    return
                length = int(next(it for it in head.split(b"\r\n") if it.lower().startswith(b"content-length:")).split(b":")[1])
                if self.early and length > self.most:
                    return self.refuse_early(stream, length - len(came))
                while len(came) < length:
                    piece = self.receive(stream)
                    if not piece:
                        return
                    came += piece
                body, came = came[:length], came[length:]
                if not early and not self.answer(stream, head, body):
                    return

    def refuse_early(self, stream, left):
        with self.lock:
            self.requests += 1
        self.send(stream, 413, b"<html>too large</html>", more=b"Connection: close\r\n")
        while self.early == "drains" and left > 0:
            piece = self.receive(stream)
            left = left - len(piece) if piece else 0

    def answers_early(self, stream):
        """Subclasses may answer a request as soon as its head has arrived, instead of serving it. They return what they do with
        the connection then, "reads on" or "closes", or None if the request is to be served."""
        return None

    @staticmethod
    def receive(stream):
        try:
            return stream.recv(65536)
        except OSError:
            return b""

    def answer(self, stream, head, body):
        """Serves one request. Returns true if the connection is kept."""
        if self.delay:
            time.sleep(self.delay())
        writes = list(writes_of(body))
        with self.lock:
            self.requests += 1
            self.heads.append(head)
            fault = self.plan(self.requests)
            whole = fault if isinstance(fault, int) else 413 if len(body) > self.most and fault != "drop before" else None
            runs = fault != "drop before" and whole is None
            entries = [self.run(*it) for it in writes] if runs else []
            reply = json.dumps({"took": 1, "errors": False, "items": entries}).encode()
            told = [(it, self.tell(it, at, fault, whole, entries)) for at, it in enumerate(writes)]
        keeps = self.reply_with(stream, fault, whole, reply)
        if not keeps and fault in (None, "late", "chunked", "interim"):
            with self.lock:
                for (_, meta, _), place in told:
                    self.told[key_of(meta)][place] = ("unsure",)
        return keeps

    def run(self, kind, meta, source):
        """Runs or refuses one write, and returns its entry in the reply."""
        status = self.refuse(meta)
        if status:
            return {kind: {"_id": meta["_id"], "status": status, "error": {"type": "planned"}}}
        return self.index.run(kind, meta, source)

    def tell(self, write, at, fault, whole, entries):
        """Notes what a write is answered, and returns the place of the note."""
        kind, meta, _ = write
        if whole is not None:
            answer = ("whole", whole)
        elif fault in LOST:
            answer = ("lost",)
        else:
            entry = entries[at][kind]
            answer = ("item", entry["status"], entry.get("error", {}).get("type"))
        notes = self.told.setdefault(key_of(meta), [])
        notes.append(answer)
        return len(notes) - 1

    def reply_with(self, stream, fault, whole, reply):
        """Sends the answer to a request. Returns true if the connection is kept."""
        if fault == "drop before":
            return False
        if whole is not None:
            return self.send(stream, whole, b"{}")
        if fault == "drop after":
            return False
        if fault == "late":
            time.sleep(0.3)
        if fault == "half":
            self.send(stream, 200, reply, cut=len(reply) // 2 + 1)
            return False
        if fault == "garbage":
            return self.send(stream, 200, b"<html>not JSON</html>")
        if fault == "no items":
            return self.send(stream, 200, b'{"took":1,"errors":false,"items":[]}')
        if fault == "chunked":
            parts = b"".join(b"%x\r\n%s\r\n" % (len(it), it) for it in (reply[:7], reply[7:]) if it)
            return self.write(stream, b"HTTP/1.1 200 OK\r\nTransfer-Encoding: chunked\r\n\r\n" + parts + b"0\r\n\r\n")
        if fault in ("twice", "twice late", "and a half"):
            return self.unasked(stream, reply, fault)
        if fault == "interim":
            self.write(stream, b"HTTP/1.1 100 Continue\r\n\r\n")
            return self.send(stream, 200, reply)
        if fault == "close":
            self.send(stream, 200, reply, more=b"Connection: close\r\n")
            return False
        if fault == "close silently":
            self.send(stream, 200, reply)
            return False
        return self.send(stream, 200, reply)

    def unasked(self, stream, reply, fault):
        """Sends a reply, and then, immediately or a tenth of a second later, the same again or half of it. What arrives on the
        connection after that is not served but kept, so that a test can look at it."""
        message = self.message(200, reply)
        second = message[: len(message) // 2] if fault == "and a half" else message
        if fault == "twice late":
            self.write(stream, message)
            time.sleep(0.1)
            self.write(stream, second)
        else:
            self.write(stream, message + second)
        came = self.receive(stream)
        with self.lock:
            self.strays.append(came)
        return False

    @staticmethod
    def message(status, body, more=b""):
        return b"HTTP/1.1 %d X\r\nContent-Type: application/json\r\n%sContent-Length: %d\r\n\r\n%s" % (status, more, len(body), body)

    def send(self, stream, status, body, more=b"", cut=0):
        message = self.message(status, body, more)
        return self.write(stream, message[: len(message) - cut])

    @staticmethod
    def write(stream, data):
        try:
            stream.sendall(data)
            return True
        except OSError:
            return False
