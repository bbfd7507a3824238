"""What `relay stub` does: a server on a free port of the loopback, queried with Python's own client."""
import contextlib
import http.client
import random
import socket
import subprocess
import threading

from apply_cases import delete, index
from program import RELAY, check, run

NOT_BULK = b'{"error":{"type":"NotBulk"},"status":400}'


def free_port():
    """Returns a free port that the system gives to no connection. While nobody listens at such a one, a client that tries to connect cannot
    meet itself there, and no other program takes it."""
    with open("/proc/sys/net/ipv4/ip_local_port_range") as file:
        least = int(file.read().split()[0])
    for _ in range(1_000 if least > 20_000 else 0):
        port = random.randrange(10_000, least)
        with contextlib.suppress(OSError):
            socket.create_server(("127.0.0.1", port)).close()
            return port
    with socket.create_server(("127.0.0.1", 0)) as free:
        return free.getsockname()[1]


class Stub:
    """A running `relay stub`."""

    def __init__(self, requests, refuse=None, stdout=subprocess.PIPE, most=None, reasons=False):
        self.port = free_port()
        more = [] if refuse is None else ["--refuse", refuse]
        more += [] if most is None else ["--max", "%d" % most]
        more += ["--reasons"] if reasons else []
        args = ["stub", "--listen", "127.0.0.1:%d" % self.port, "--requests", "%d" % requests, *more]
        self.process = subprocess.Popen([RELAY, *args], stdin=subprocess.DEVNULL, stdout=stdout, stderr=subprocess.PIPE)

    def connect(self):
        """Opens a connection. The first one waits until the program listens."""
        for _ in range(1000):
            try:
                return socket.create_connection(("127.0.0.1", self.port), timeout=60)
            except ConnectionRefusedError:
                if self.process.poll() is not None:
                    raise
                threading.Event().wait(0.01)
        raise TimeoutError("the stub does not listen")

    def ask(self, body, method="POST", target="/_bulk", headers=None, chunked=False):
        """Sends a request with Python's client, and returns the answer: status, reason, body, and the Connection field."""
        client = http.client.HTTPConnection("127.0.0.1", self.port, timeout=60)
        client.sock = self.connect()
        client.request(method, target, body, headers or {}, encode_chunked=chunked)
        answer = client.getresponse()
        found = (answer.status, answer.reason, answer.read(), answer.getheader("Connection"))
        client.close()
        return found

    def send(self, *parts):
        """Sends these bytes and then the end of the stream, and returns everything that comes back. The server may close earlier."""
        with self.connect() as stream:
            try:
                for part in parts:
                    stream.sendall(part)
                stream.shutdown(socket.SHUT_WR)
            except OSError:
                pass
            came = b""
            while True:
                try:
                    piece = stream.recv(65536)
                except ConnectionResetError:
                    return came
                if not piece:
                    return came
                came += piece

    def ends(self, name, stdout, stderr=b"", status=0):
        """The program ends with this output and this status."""
        out, err = self.process.communicate(timeout=60)
        found = (out, err, self.process.returncode)
        check(name, found == (stdout, stderr, status), found if len(str(found)) < 600 else "")


def applied(body, refuse=None):
    """Returns what `relay apply` answers to a body: status and text."""
    more = [] if refuse is None else ["--refuse", refuse]
    status, text = run(["apply", *more], body).stdout.split(b"\n", 1)
    return int(status), text[:-1]


def answers(stub, name, body, wanted, **more):
    """The body gets this answer, and the connection closes."""
    status, text = wanted
    reason = {200: "OK", 400: "Bad Request", 413: "Content Too Large"}[status]
    found = stub.ask(body, **more)
    check(name, found == (status, reason, text, "close"), found if len(str(found)) < 600 else "")


def same_answers():
    """The answers to single bodies are those of `relay apply`."""
    bodies = [
        b"",
        delete(b"1", 1),
        index(b"1", 1) + index(b"1", 2) + delete(b"1", 3) + delete(b"1", 3),
        index("h\u00e9".encode(), 7, '{"t": "\u00fc"}'.encode()),
        delete(b"1", 1) + b"{\n",
        delete(b"1", 1)[:-1],
        b"\xff\n",
        b"".join(index(b"%d" % n, 9, b'{"title": "Emma"}') for n in range(2000)),
    ]
    for body in bodies:
        name = "the answer to %d bytes" % len(body)
        wanted = applied(body)
        for chunked in (False, True):
            stub = Stub(1)
            parts = [body[at : at + 1000] for at in range(0, len(body), 1000)]
            headers = {"Transfer-Encoding": "chunked"} if chunked else None
            answers(stub, name, iter(parts) if chunked else body, wanted, chunked=chunked, headers=headers)
            stub.process.communicate(timeout=60)


def one_index():
    """Versions are kept from connection to connection, and what was applied is listed in byte order of the documents."""
    stub = Stub(4)
    answers(stub, "a first request", index(b"2", 5), (200, b'{"errors":false,"items":[{"index":{"_id":"2","_index":"b","_seq_no":0,"_version":5,"result":"created","status":201}}],"took":0}'))
    conflict = b'{"errors":true,"items":[{"index":{"_id":"2","_index":"b","error":{"type":"version_conflict_engine_exception"},"status":409}}],"took":0}'
    answers(stub, "the same version again", index(b"2", 5), (200, conflict))
    later = b'{"errors":false,"items":[{"delete":{"_id":"2","_index":"b","_seq_no":1,"_version":6,"result":"deleted","status":200}},{"delete":{"_id":"10","_index":"b","_seq_no":2,"_version":1,"result":"not_found","status":404}}],"took":0}'
    answers(stub, "a later version", delete(b"2", 6) + delete(b"10", 1), (200, later))
    other = delete(b"3", 1).replace(b'"b"', b'"a"') + index(b"x y/z", 2)
    items = b'{"delete":{"_id":"3","_index":"a","_seq_no":3,"_version":1,"result":"not_found","status":404}},{"index":{"_id":"x y/z","_index":"b","_seq_no":4,"_version":2,"result":"created","status":201}}'
    answers(stub, "other documents", other, (200, b'{"errors":false,"items":[%s],"took":0}' % items))
    listing = b"applied a/3 1 delete\napplied b/10 1 delete\napplied b/2 5 index\napplied b/2 6 delete\napplied b/x y/z 2 index\n"
    stub.ends("what was applied", listing)


def refusals():
    """Positions are counted over all requests. A write that was refused may be sent again."""
    stub = Stub(3, "2:429,3:503,5:400")
    answers(stub, "items 1 and 2", delete(b"1", 1) + delete(b"2", 2), applied(delete(b"1", 1) + delete(b"2", 2), "2:429"))
    refused = b'{"errors":true,"items":[{"delete":{"_id":"2","_index":"b","error":{"type":"scripted_refusal"},"status":503}}],"took":0}'
    answers(stub, "item 3", delete(b"2", 2), (200, refused))
    last = b'{"delete":{"_id":"2","_index":"b","_seq_no":1,"_version":2,"result":"not_found","status":404}}'
    fifth = b'{"delete":{"_id":"3","_index":"b","error":{"type":"scripted_refusal"},"status":400}}'
    answers(stub, "items 4 and 5", delete(b"2", 2) + delete(b"3", 3), (200, b'{"errors":true,"items":[%s,%s],"took":0}' % (last, fifth)))
    stub.ends("what was not refused", b"applied b/1 1 delete\napplied b/2 2 delete\n")


def other_requests():
    """A request that is not a POST to /_bulk gets NotBulk, and nothing is run."""
    asked = [("GET", "/_bulk", None), ("PUT", "/_bulk", delete(b"1", 1)), ("POST", "/", delete(b"1", 1)), ("POST", "/_bulk?refresh", delete(b"1", 1)), ("GET", "/", None)]
    stub = Stub(len(asked))
    for method, target, body in asked:
        answers(stub, "%s %s" % (method, target), body, (400, NOT_BULK), method=method, target=target)
    stub.ends("nothing of these is run", b"")


def too_large():
    """A body that is longer than --max gets 413: it is not read as lines, and nothing of it is run. The size of a request that
    is not a bulk request is not checked."""
    one, two = delete(b"1", 1), delete(b"2", 2)
    refused = (413, b'{"error":{"type":"TooLarge"},"status":413}')
    stub = Stub(6, most=len(one))
    answers(stub, "a body at the limit", one, applied(one))
    answers(stub, "two that are longer", one + two, refused)
    answers(stub, "a byte more, and no lines", b"x" * (len(one) + 1), refused)
    answers(stub, "as many bytes, and no lines", b"x" * len(one), applied(b"x" * len(one)))
    answers(stub, "no bulk request, and longer", one + two, (400, NOT_BULK), target="/")
    second = b'{"errors":false,"items":[{"delete":{"_id":"2","_index":"b","_seq_no":1,"_version":2,"result":"not_found","status":404}}],"took":0}'
    answers(stub, "the second alone", two, (200, second))
    stub.ends("what was not too large", b"applied b/1 1 delete\napplied b/2 2 delete\n")
    stub = Stub(2, "1:429", most=0)
    answers(stub, "no bytes are allowed, and these are some", one, refused)
    answers(stub, "and these are none", b"", applied(b""))
    stub.ends("nothing was run", b"")
    stub = Stub(1, most=2**64 - 1)
    came = stub.send(b"POST /_bulk HTTP/1.1\r\nContent-Length: 16777217\r\n\r\n")
    check("past 16 MiB it is dropped, whatever --max says", came == b"", came)
    stub.ends("it counts", b"")


def dropped():
    """Bytes that are not a request are dropped without an answer; the connection counts, and nothing is run."""
    body = delete(b"1", 1)
    head = b"POST /_bulk HTTP/1.1\r\nHost: x\r\n"
    sized = head + b"Content-Length: %d\r\n\r\n" % len(body)
    rows = [
        b"",
        b"garbage\r\n\r\n",
        b"\x16\x03\x01\x02\x00\x01\x00\x01\xfc\x03\x03",
        sized,
        sized + body[:-1],
        (sized + body)[:20],
        head + b"Content-Length: x\r\n\r\n" + body,
        head + b"Content-Length: 1\r\nTransfer-Encoding: chunked\r\n\r\n" + body,
        head + b"Content-Length: 16777217\r\n\r\n",
        head + b"Content-Encoding: gzip\r\nContent-Length: %d\r\n\r\n" % len(body) + body,
        head + b"Transfer-Encoding: chunked\r\n\r\n4e\r\n" + body + b"\r\nx\r\n",
        head + b"X: " + b"y" * 20000 + b"\r\n\r\n",
    ]
    stub = Stub(len(rows) + 1)
    for row in rows:
        came = stub.send(row)
        check("dropped: %r" % row[:80], came == b"", came)
    answers(stub, "a request after those that were dropped", body, applied(body))
    stub.ends("they count", b"applied b/1 1 delete\n")


def answer_to(body):
    status, text = applied(body)
    return b"HTTP/1.1 %d OK\r\nContent-Type: application/json\r\nContent-Length: %d\r\nConnection: close\r\n\r\n%s" % (status, len(text), text)


def byte_for_byte():
    """What the socket carries, in whatever pieces the request arrives."""
    one, two = delete(b"1", 1), delete(b"2", 1)
    head = b"POST /_bulk HTTP/1.1\r\nHost: x\r\nContent-Length: %d\r\n\r\n" % len(one)
    stub = Stub(4)
    came = stub.send(head + one)
    check("an answer", came == answer_to(one), came)
    conflict = b'{"errors":true,"items":[{"delete":{"_id":"1","_index":"b","error":{"type":"version_conflict_engine_exception"},"status":409}}],"took":0}'
    again = b"HTTP/1.1 200 OK\r\nContent-Type: application/json\r\nContent-Length: %d\r\nConnection: close\r\n\r\n%s" % (len(conflict), conflict)
    came = stub.send(*[b"%c" % byte for byte in head + one])
    check("a request byte by byte", came == again, came)
    came = stub.send(b"POST /_bulk HTTP/1.0\r\nContent-Length: %d\r\n\r\n" % len(one) + one)
    check("HTTP/1.0", came == again, came)
    came = stub.send(head + one + head + two)
    check("one request a connection", came == again, came)
    stub.ends("the second request of a connection is not run", b"applied b/1 1 delete\n")


def unread_answers():
    """The connection of a client that goes away counts, and its request is run."""
    body = delete(b"1", 1)
    stub = Stub(2)
    with stub.connect() as stream:
        stream.sendall(b"POST /_bulk HTTP/1.1\r\nHost: x\r\nContent-Length: %d\r\n\r\n" % len(body) + body)
    conflict = b'{"errors":true,"items":[{"delete":{"_id":"1","_index":"b","error":{"type":"version_conflict_engine_exception"},"status":409}}],"took":0}'
    answers(stub, "after a client that went away", body, (200, conflict))
    stub.ends("its request was run", b"applied b/1 1 delete\n")


def many_connections():
    """Clients that connect at the same time are served one after the other, each once."""
    stub = Stub(64)
    stub.connect().close()
    found = []
    threads = [threading.Thread(target=lambda n=n: found.append(stub.ask(delete(b"%02d" % n, 1)))) for n in range(63)]
    for thread in threads:
        thread.start()
    for thread in threads:
        thread.join()
    check("63 clients at once", len(found) == 63 and all(one[0] == 200 and b'"status":404' in one[2] for one in found))
    stub.ends("each is served", b"".join(b"applied b/%02d 1 delete\n" % n for n in range(63)))


def ends():
    """How it ends if it does not serve all connections."""
    for args in ([], ["--refuse", "1:429"]):
        stub = run(["stub", "--listen", "127.0.0.1:%d" % free_port(), "--requests", "0", *args])
        check("no requests", (stub.stdout, stub.stderr, stub.returncode) == (b"", b"", 0), stub)
    with socket.socket() as taken:
        taken.bind(("127.0.0.1", 0))
        taken.listen()
        for address in ("127.0.0.1:%d" % taken.getsockname()[1], "127.0.0.1", "127.0.0.1:65536", ":", "", "no host:1", "192.0.2.1:9"):
            done = run(["stub", "--listen", address, "--requests", "1"])
            check("cannot listen at %r" % address, (done.stdout, done.stderr, done.returncode) == (b"", b"listen failed\n", 3), done)
    for args, said in (
        (["--requests", "1"], b"--listen"),
        (["--listen", "127.0.0.1:1"], b"--requests"),
        (["--listen", "127.0.0.1:1", "--requests", "-1"], b"-1"),
        (["--listen", "127.0.0.1:1", "--requests", "18446744073709551616"], b"18446744073709551616"),
        (["--listen", "127.0.0.1:1", "--requests", "x"], b"'x'"),
        (["--listen", "127.0.0.1:1", "--requests", "1", "x"], b"'x'"),
        (["--listen", "127.0.0.1:1", "--requests", "1", "--refuse", "1:429,1:404"], b"pair 2 "),
        (["--listen", "127.0.0.1:1", "--requests", "1", "--bogus"], b"--bogus"),
        (["--listen", "127.0.0.1:1", "--requests", "1", "--max", "-1"], b"-1"),
        (["--listen", "127.0.0.1:1", "--requests", "1", "--max", "18446744073709551616"], b"18446744073709551616"),
    ):
        done = run(["stub", *args])
        check("usage: %s" % args, done.returncode == 1 and said in done.stderr and done.stdout == b"", done)
    helped = run(["help", "stub"])
    check("help stub", helped.returncode == 0 and b"applied INDEX/ID VERSION index" in helped.stdout and b"accept failed" in helped.stdout, helped)
    with open("/dev/full", "wb") as full:
        stub = Stub(1, stdout=full)
        stub.ask(delete(b"1", 1))
        stub.ends("a list to a full device", None, b"write failed\n", 3)
    stub = Stub(18446744073709551615)
    answers(stub, "one of very many requests", delete(b"1", 1), applied(delete(b"1", 1)))
    stub.process.kill()
    stub.process.communicate()


GROUPS = (same_answers, one_index, refusals, too_large, other_requests, dropped, byte_for_byte, unread_answers, many_connections, ends)
