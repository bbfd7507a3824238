#!/usr/bin/env python3
"""What Python's own HTTP client and server write, and how they read what the relay writes.

Prints the bytes that `http.client` and `http.server` write, as byte strings: the tables of
`crates/relay_http_tests/src/peers.rt`. Then it passes the request and the answers that `relay_http` writes, which those
tests compare byte for byte, to Python's server and client, and fails if these read anything else.
"""
import http.client
import http.server
import io
import sys

HOST = "127.0.0.1:9200"
BODY = b'{"delete":{"_id":"1","_index":"a","version":7,"version_type":"external"}}\n'
REPLY = b'{"errors":false,"items":[]}'


class Pipe:
    """A socket in memory: it returns given bytes, and keeps what is sent."""

    def __init__(self, given=b""):
        self.given, self.sent = io.BytesIO(given), b""

    def makefile(self, mode, *_, **__):
        return self.given

    def sendall(self, data):
        self.sent += data

    def setsockopt(self, *_):
        pass

    def close(self):
        pass


class Handler(http.server.BaseHTTPRequestHandler):
    """Serves POST, and records what it read."""

    seen = []
    reply = staticmethod(lambda handler: None)

    def setup(self):
        self.rfile, self.wfile = self.request.given, io.BytesIO()

    def finish(self):
        self.request.sent = self.wfile.getvalue()

    def do_POST(self):
        length = int(self.headers["Content-Length"])
        self.seen.append((self.path, self.headers["Host"], self.rfile.read(length), self.headers["Content-Type"]))
        self.reply(self)

    def date_time_string(self, timestamp=None):
        return "Mon, 02 Nov 2026 10:00:00 GMT"

    def version_string(self):
        return "BaseHTTP/0.6 Python/3.11"

    def log_message(self, *_):
        pass


def sent_by_client(**request):
    connection = http.client.HTTPConnection("127.0.0.1", 9200)
    connection.sock = Pipe()
    connection.request("POST", "/_bulk", **request)
    return connection.sock.sent


def sent_by_server(protocol, reply, request):
    kind = type("Kind", (Handler,), {"protocol_version": protocol, "reply": staticmethod(reply), "seen": []})
    pipe = Pipe(request)
    kind(pipe, ("127.0.0.1", 1), None)
    return pipe.sent, kind.seen


def with_length(handler):
    handler.send_response(200)
    handler.send_header("Content-Type", "application/json")
    handler.send_header("Content-Length", str(len(REPLY)))
    handler.end_headers()
    handler.wfile.write(REPLY)


def in_chunks(handler):
    handler.send_response(200)
    handler.send_header("Transfer-Encoding", "chunked")
    handler.end_headers()
    for part in (REPLY[:10], REPLY[10:]):
        handler.wfile.write(b"%x\r\n%s\r\n" % (len(part), part))
    handler.wfile.write(b"0\r\n\r\n")


def to_the_end(handler):
    handler.send_response(503)
    handler.end_headers()
    handler.wfile.write(REPLY)


def refused(handler):
    handler.send_error(429)


# What relay_http writes.
REQUEST = (b"POST /_bulk HTTP/1.1\r\nHost: 127.0.0.1:9200\r\nContent-Type: application/x-ndjson\r\n"
           b"Content-Length: %d\r\n\r\n" % len(BODY)) + BODY
ANSWERS = {
    (200, True): b"HTTP/1.1 200 OK\r\nContent-Type: application/json\r\nContent-Length: 2\r\n\r\nok",
    (503, False): b"HTTP/1.1 503 Service Unavailable\r\nContent-Type: application/json\r\nContent-Length: 2\r\n"
                  b"Connection: close\r\n\r\nok",
    (418, True): b"HTTP/1.1 418 \r\nContent-Type: application/json\r\nContent-Length: 2\r\n\r\nok",
}


def main():
    kind = {"Content-Type": "application/x-ndjson"}
    written = [
        ("client, a length", sent_by_client(body=BODY, headers=kind)),
        ("client, chunks", sent_by_client(body=iter([BODY[:50], BODY[50:]]), headers=kind, encode_chunked=True)),
        ("client, close", sent_by_client(body=BODY, headers={"Connection": "close", **kind})),
        ("client, no body", sent_by_client()),
    ]
    for name, protocol, reply in [
        ("server, a length", "HTTP/1.1", with_length), ("server, chunks", "HTTP/1.1", in_chunks),
        ("server, to the end", "HTTP/1.0", to_the_end), ("server, an error page", "HTTP/1.1", refused),
    ]:
        written.append((name, sent_by_server(protocol, reply, REQUEST)[0]))
    for name, data in written:
        print(f"-- {name}")
        print(data)

    bad = 0
    seen = sent_by_server("HTTP/1.1", with_length, REQUEST)[1]
    if seen != [("/_bulk", HOST, BODY, "application/x-ndjson")]:
        bad += 1
        print("FAIL the server read", seen)
    for (status, keep), data in ANSWERS.items():
        connection = http.client.HTTPConnection("127.0.0.1", 9200)
        connection.sock = Pipe(data)
        connection.request("POST", "/_bulk", body=BODY)
        answer = connection.getresponse()
        read = (answer.status, answer.read(), not answer.will_close)
        if read != (status, b"ok", keep):
            bad += 1
            print("FAIL the client read", read)
    print(f"{1 + len(ANSWERS)} messages of relay_http read, {bad} of them wrong")
    return 1 if bad else 0


if __name__ == "__main__":
    sys.exit(main())
