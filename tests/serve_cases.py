"""What `relay serve` does: clients of its bulk and document APIs, against an index that loses, cuts, delays and refuses."""
import http.client
import json
import os
import random
import re
import socket
import subprocess
import tempfile
import threading
import time
import uuid

from bulk_server import Server
from program import FEWER, RELAY, SECONDS, check, leave
from run_cases import FAULTS, wait_for, wait_until
from stub_cases import Stub, free_port

WRITTEN = {"_shards": {"total": 1, "successful": 1, "failed": 0}, "_seq_no": -2, "_primary_term": 0}


class Serve:
    """A running `relay serve`, and a connection to it for each thread that asks. If no option says otherwise, its epoch is 0, a
    request may take as long as it takes on a busy machine, and standard error does not get what goes wrong with the index."""

    def __init__(self, server, *options, epoch=True, log="none"):
        self.port, self.own = free_port(), threading.local()
        more = ["--epoch", "0"] if epoch and not any(it.startswith("--epoch") for it in options) else []
        more += [] if "--answer-within" in options else ["--answer-within", "10m"]
        more += [] if "--log" in options or not log else ["--log", log]
        args = ["serve", "--listen", "127.0.0.1:%d" % self.port, "--to", "127.0.0.1:%d" % server.port, *options, *more]
        self.process = subprocess.Popen([RELAY, *args], stdin=subprocess.PIPE, stdout=subprocess.PIPE, stderr=subprocess.PIPE)
        self.begun = self.process.stderr.readline()

    def epoch(self):
        found = re.fullmatch(rb"listening on 127\.0\.0\.1:%d, epoch (\d+)\n" % self.port, self.begun)
        return found and int(found[1])

    def connect(self):
        return http.client.HTTPConnection("127.0.0.1", self.port, timeout=60)

    def whole(self, method, target, body=None, headers={}):
        """Sends a request on the connection of the thread, and returns the status, the fields and the text of the answer."""
        connection = getattr(self.own, "connection", None) or self.connect()
        self.own.connection = None
        connection.request(method, target, body, headers)
        answer = connection.getresponse()
        text = answer.read()
        self.own.connection = connection
        return answer.status, answer.headers, text

    def ask(self, method, target, body=None, headers={}):
        """Sends a request, and returns the status and the value of the answer."""
        status, _, text = self.whole(method, target, body, headers)
        return status, json.loads(text) if text else None

    def raw(self, message, seconds=30):
        """Sends bytes on a connection of their own, and returns what comes until it is closed."""
        with socket.create_connection(("127.0.0.1", self.port), timeout=seconds) as stream:
            try:
                stream.sendall(message)
                stream.shutdown(socket.SHUT_WR)
            except OSError:
                pass
            return received(stream)

    def stop(self):
        """Ends its standard input, and returns its exit status and the counts that it prints."""
        self.process.stdin.close()
        status = self.process.wait(timeout=60)
        return status, self.process.stdout.read(), self.process.stderr.read()


def received(stream):
    came = b""
    while True:
        try:
            piece = stream.recv(65536)
        except OSError:
            return came
        if not piece:
            return came
        came += piece


def body_of(operations):
    """The body of a bulk request: an id and a source each, None for a delete."""
    lines = []
    for identity, source in operations:
        lines.append(json.dumps({"delete" if source is None else "index": {"_index": "books", "_id": identity}}))
        if source is not None:
            lines.append(source)
    return ("\n".join(lines) + "\n").encode()


def judge(name, server, operations, items):
    """Each item that says that its operation was written has the version of a write with that source that the index applied."""
    wrong = []
    for (identity, source), item in zip(operations, items):
        (kind, entry), = item.items()
        applied = server.index.applied.get(("books", identity), [])
        if "error" in entry:
            continue
        if (entry["_version"], kind, source) not in applied or entry["status"] not in (200, 201, 404):
            wrong.append((identity, entry))
    check(name, len(items) == len(operations) and not wrong, wrong[:3])


def is_refusal(status, value, reason):
    """Whether a refusal as a whole is in OpenSearch's form."""
    error = value and value.get("error", {})
    cause = {"type": "illegal_argument_exception", "reason": error.get("reason")} if error else None
    return bool(error) and value["status"] == status and error == {"root_cause": [cause], **cause} and reason in error["reason"]


def refused(serve, server, name, status, reason, method, target, body=None, headers={}):
    before = server.requests
    found, value = serve.ask(method, target, body, headers)
    check("%s is refused" % name, found == status and is_refusal(status, value, reason) and server.requests == before, (found, value))


def documents():
    server = Server(refuse=lambda meta: 400 if meta["_id"] == "bad" else None)
    serve = Serve(server, "--workers", "4", "--lanes", "2")
    check("the epoch that is given", serve.epoch() == 0, serve.begun)
    status, fields, text = serve.whole("PUT", "/books/_doc/emma", b'{\n "t": 1\n}')
    check("a document", (status, json.loads(text)) == (201, {"_index": "books", "_id": "emma", "_version": 1, "result": "created", **WRITTEN}), text)
    check("its fields", fields["content-type"] == "application/json" and fields["x-elastic-product"] == "Elasticsearch" and "connection" not in fields, fields.items())
    check("what was written of it", server.index.applied[("books", "emma")] == [(1, "index", '{  "t": 1 }')], server.index.applied)
    check("the document again, by POST", serve.ask("POST", "/books/_doc/emma", b"{}") == (200, {"_index": "books", "_id": "emma", "_version": 2, "result": "updated", **WRITTEN}))
    status, value = serve.ask("DELETE", "/books/_doc/emma")
    check("its deletion", (status, value["result"], value["_version"]) == (200, "deleted", 3), value)
    status, value = serve.ask("DELETE", "/books/_doc/emma")
    check("a second deletion", (status, value["result"], "error" in value) == (404, "not_found", False), value)
    status, value = serve.ask("PUT", "/books/_doc/bad", b"{}")
    check("a document that the index refuses", status == 400 and value["error"]["type"] == "planned" and value["error"]["root_cause"][0]["type"] == "planned", value)
    status, value = serve.ask("PUT", "/a%2Fb/_doc/a%2Fb%20%C3%BC+%25", b"{}")
    check("a path with escapes", (value["_index"], value["_id"]) == ("a/b", "a/b ü+%"), value)
    status, value = serve.ask("POST", "/books/_doc", b'{"n":1}')
    check("a document without an id", status == 201 and value["result"] == "created" and uuid.UUID(value["_id"]).version == 7, value)
    check("it is written under that id", server.index.applied[("books", value["_id"])] == [(value["_version"], "index", '{"n":1}')])
    refused(serve, server, "an empty body", 400, "must not be empty", "PUT", "/books/_doc/1")
    refused(serve, server, "a long id", 400, "512 bytes", "PUT", "/books/_doc/" + "x" * 513, b"{}")
    refused(serve, server, "a body that is not UTF-8", 400, "UTF-8", "PUT", "/books/_doc/1", b'{"\xff":1}')
    refused(serve, server, "a path that is not UTF-8", 400, "UTF-8", "PUT", "/books/_doc/%FF", b"{}")
    refused(serve, server, "a coded body", 415, "content-encoding", "PUT", "/books/_doc/1", b"{}", {"Content-Encoding": "gzip"})
    refused(serve, server, "a coded bulk request", 415, "content-encoding", "POST", "/_bulk", b"{}", {"Content-Encoding": "GZIP"})
    refused(serve, server, "a coded body with a parameter", 400, "[routing]", "PUT", "/books/_doc/1?routing=x", b"{}", {"Content-Encoding": "gzip"})
    two = b"PUT /books/_doc/1 HTTP/1.1\r\nHost: relay\r\nContent-Length: 2\r\nContent-Encoding: identity\r\nContent-Encoding: gzip\r\n\r\n{}"
    check("a body of two codings", serve.raw(two).startswith(b"HTTP/1.1 415 "))
    check("a body whose coding is none", serve.ask("PUT", "/books/_doc/plain", b"{}", {"Content-Encoding": "identity"})[0] == 201)
    check("a coding where nothing is written", serve.whole("GET", "/", None, {"Content-Encoding": "gzip"})[0] == 200)
    status, out, err = serve.stop()
    check("the stop", (status, err) == (0, b""), (status, err))
    check("the counts", out == b"applied 7 already 0 reported 1\n", out)


def bulk():
    server = Server(refuse=lambda meta: 400 if meta["_id"] == "bad" else None)
    serve = Serve(server, "--workers", "4", "--lanes", "2", "--index", "usual")
    operations = [("a", "{}"), ("a", '{"t":2}'), ("bad", "{}"), ("a", None), ("b", '{"t":"\\u00e9"}')]
    status, fields, text = serve.whole("POST", "/_bulk", body_of(operations))
    value = json.loads(text)
    check("a bulk request", status == 200 and value["errors"] is True and isinstance(value["took"], int) and fields["x-elastic-product"] == "Elasticsearch", value)
    judge("its items", server, operations, value["items"])
    check("an item in full", value["items"][0] == {"index": {"_index": "books", "_id": "a", "_version": value["items"][0]["index"]["_version"], "result": "created", **WRITTEN, "status": 201}}, value["items"][0])
    check("an item that the index refuses", value["items"][2]["index"] == {"_index": "books", "_id": "bad", "error": {"type": "planned", "reason": "the index refused the write"}, "status": 400}, value["items"][2])
    check("the order of a document", [it[1:] for it in server.index.applied[("books", "a")]] == [("index", "{}"), ("index", '{"t":2}'), ("delete", None)])
    status, value = serve.ask("PUT", "/other/_bulk", b'{"delete":{"_id":"1"}}\n')
    check("a delete that finds nothing", not value["errors"] and value["items"] == [{"delete": {"_index": "other", "_id": "1", "_version": value["items"][0]["delete"]["_version"], "result": "not_found", **WRITTEN, "status": 404}}], value)
    for target in ("/other/_bulk", "/other/_doc/_bulk", "/other/_bulk?refresh=true&timeout=1m&filter_path=errors&_source=false"):
        value = serve.ask("POST", target, b'{"index":{"_id":"1"}}\n{}\n')[1]
        check("the index of the path: %s" % target, value["items"][0]["index"]["_index"] == "other", value)
    value = serve.ask("POST", "/_bulk", b'{"index":{"_id":"1"}}\n{}\n')[1]
    check("the index of the command line", value["items"][0]["index"]["_index"] == "usual", value)
    value = serve.ask("POST", "/other/_bulk", b' {"index" : {"_type":"events", "routing":null, "_id": 7, "_index":"third"}}\r\n {"n" : 1}\r\n\n{"create":{"_id":null}}\n{}\n')[1]
    first, second = value["items"]
    check("an action line with blanks", not value["errors"] and (first["index"]["_index"], first["index"]["_id"]) == ("third", "7") and server.index.applied[("third", "7")][0][2] == ' {"n" : 1}', value)
    check("a create without an id", second["create"]["status"] == 201 and second["create"]["result"] == "created" and uuid.UUID(second["create"]["_id"]).version == 7, second)
    sources = [(number, '{"n":%d}' % number) for number in range(3_000)]
    value = serve.ask("POST", "/many/_bulk", "".join('{"index":{"_id":%d}}\n%s\n' % it for it in sources).encode())[1]
    check("more operations than the window", not value["errors"] and [it["index"]["_id"] for it in value["items"]] == [str(it) for it, _ in sources], value["items"][:2])
    ids = [it["index"]["_id"] for it in serve.ask("POST", "/made/_bulk", b'{"index":{}}\n{}\n' * 500)[1]["items"]]
    check("ids are distinct and ascend", len(set(ids)) == 500 and ids == sorted(ids))
    check("the stop after bulk requests", serve.stop()[0] == 0)


def refusals_by_item():
    server = Server()
    serve = Serve(server, "--workers", "2", "--lanes", "1")
    cases = [
        ('{"update":{"_index":"books","_id":"1"}}\n{"doc":{}}\n', "update", "1", "[update]"),
        ('{"create":{"_index":"books","_id":"1"}}\n{}\n', "create", "1", "[create]"),
        ('{"index":{"_index":"books","_id":"1","routing":"x"}}\n{}\n', "index", "1", "[routing]"),
        ('{"index":{"_index":"books","_id":"1","version":3,"version_type":"external"}}\n{}\n', "index", "1", "[version]"),
        ('{"index":{"_index":"books","_id":"1","if_seq_no":3}}\n{}\n', "index", "1", "[if_seq_no]"),
        ('{"index":{"_index":"books","_id":"1","pipeline":"p"}}\n{}\n', "index", "1", "[pipeline]"),
        ('{"delete":{"_index":"books"}}\n', "delete", None, "[_id] is missing"),
        ('{"delete":{"_index":"books","_id":[]}}\n', "delete", None, "[_id] must be"),
        ('{"index":{"_id":"1"}}\n{}\n', "index", "1", "[_index] is missing"),
        ('{"index":{"_index":7,"_id":"1"}}\n{}\n', "index", "1", "[_index] must be"),
        ('{"index":{"_index":"books","_id":""}}\n{}\n', "index", "", "[_id] must not be empty"),
        ('{"index":{"_index":"books","_id":"1"}}\n\n', "index", "1", "source must not be empty"),
    ]
    for text, kind, identity, reason in cases:
        body = body_of([("good", "{}")]) + text.encode() + body_of([("good", None)])
        status, value = serve.ask("POST", "/_bulk", body)
        first, item, last = value["items"]
        entry = item[kind]
        right = status == 200 and value["errors"] and entry["_id"] == identity and entry["status"] == 400
        right = right and entry["error"]["type"] == "illegal_argument_exception" and reason in entry["error"]["reason"]
        check("refused by item: %s" % reason, right and "error" not in first["index"] and "error" not in last["delete"], value)
    check("nothing of them was written", set(server.index.applied) == {("books", "good")}, server.index.applied)
    check("the stop after refused items", serve.stop()[0] == 0)


def refusals_of_requests():
    server = Server()
    serve = Serve(server, "--workers", "2", "--lanes", "1")
    good = body_of([("c", "{}")])
    for name, reason, body in (
        ("a line that is no JSON", "line 3", good + b"x\n{}\n"),
        ("two actions on a line", "line 3", good + b'{"index":{},"delete":{}}\n'),
        ("an unknown action", "line 3", good + b'{"get":{"_id":"1"}}\n'),
        ("a body without a last newline", "newline", good + b'{"delete":{"_id":"1"}}'),
        ("a body without its last source", "source", good + b'{"index":{"_id":"1"}}\n'),
        ("an empty body", "no operation", b""),
        ("a body of blank lines", "no operation", b"\n\n"),
    ):
        refused(serve, server, name, 400, reason, "POST", "/books/_bulk", body)
    for query in ("routing=x", "pipeline=p", "version=3&version_type=external", "refresh=true&op_type=create", "if_seq_no=1", "require_alias=true"):
        name = re.search(r"(?:^|&)(?!refresh)([^=]*)=", query)[1]
        refused(serve, server, "the parameter %s" % name, 400, "[%s]" % name, "POST", "/_bulk?" + query, good)
        refused(serve, server, "the parameter %s of a document" % name, 400, "[%s]" % name, "PUT", "/books/_doc/1?" + query, b"{}")
    for method, target in (("GET", "/books/_search"), ("POST", "/books/_update/1"), ("PUT", "/books/_create/1"), ("POST", "/_search"), ("POST", "/books/_doc/1/2")):
        refused(serve, server, "%s %s" % (method, target), 400, "no such target", method, target, b"{}")
    for method, target, allow in (("GET", "/_bulk", "POST, PUT"), ("GET", "/books/_doc/1", "PUT, POST, DELETE"), ("POST", "/", "GET, HEAD"), ("PUT", "/books", "HEAD"), ("PUT", "/books/_doc", "POST")):
        status, fields, text = serve.whole(method, target, b"{}")
        check("%s %s" % (method, target), status == 405 and fields["allow"] == allow and is_refusal(405, json.loads(text), "method"), (status, fields.items(), text))
    check("nothing was sent", server.requests == 0)
    check("the stop after refusals", serve.stop()[0] == 0)


def faces():
    server = Server()
    serve = Serve(server, "--workers", "2", "--lanes", "1")
    status, fields, text = serve.whole("GET", "/?timeout=5000ms")
    value = json.loads(text)
    check("the face", status == 200 and fields["x-elastic-product"] == "Elasticsearch" and value["version"]["number"] == "7.10.2" and value["version"]["distribution"] == "opensearch" and value["tagline"] == "You Know, for Search", text)
    status, fields, text = serve.whole("HEAD", "/")
    check("HEAD of it", status == 200 and text == b"" and fields["x-elastic-product"] == "Elasticsearch", (status, text))
    check("the health of the cluster", serve.ask("GET", "/_cluster/health")[1]["status"] == "green")
    check("the health as a line", serve.whole("GET", "/_cat/health")[2].split()[3] == b"green")
    node, = serve.ask("GET", "/_nodes/_all/http")[1]["nodes"].values()
    check("its node", node["http"]["publish_address"] == "127.0.0.1:%d" % serve.port, node)
    check("an index", serve.whole("HEAD", "/books")[0] == 200)
    check("its licence", serve.ask("GET", "/_license")[1]["license"]["status"] == "active")
    serve.stop()
    serve = Serve(server, "--face", "opensearch")
    status, fields, text = serve.whole("GET", "/")
    check("OpenSearch's face", json.loads(text)["version"]["number"] == "2.11.0" and "x-elastic-product" not in fields, text)
    serve.stop()


def framing():
    server = Server()
    serve = Serve(server, "--workers", "2", "--lanes", "1", "--idle", "2s")
    host = b"Host: 127.0.0.1\r\n"
    body = body_of([("1", "{}")])
    chunks = b"".join(b"%x\r\n%s\r\n" % (len(it), it) for it in (body[:9], body[9:])) + b"0\r\n\r\n"
    came = serve.raw(b"POST /_bulk HTTP/1.1\r\n" + host + b"Transfer-Encoding: chunked\r\n\r\n" + chunks)
    check("a chunked body", came.startswith(b"HTTP/1.1 200") and b'"created"' in came, came)
    put = b"PUT /books/_doc/%d HTTP/1.1\r\n" + host + b"Content-Length: 2\r\n\r\n{}"
    came = serve.raw(b"".join(put % it for it in range(10, 30)))
    check("requests one after another without waiting", re.findall(rb'"_id":"(\d+)"', came) == [b"%d" % it for it in range(10, 30)], came[:300])
    with socket.create_connection(("127.0.0.1", serve.port), timeout=30) as stream:
        stream.sendall(b"POST /_bulk HTTP/1.1\r\n" + host + b"Expect: 100-continue\r\nContent-Length: %d\r\n\r\n" % len(body))
        began = time.monotonic()
        check("100 Continue", stream.recv(65536) == b"HTTP/1.1 100 Continue\r\n\r\n" and time.monotonic() - began < 5)
        stream.sendall(body)
        check("the answer after it", stream.recv(65536).startswith(b"HTTP/1.1 200"))
    for name, message, status in (
        ("no HTTP", b"hello\r\n\r\n", 400),
        ("no Host", b"GET / HTTP/1.1\r\n\r\n", 400),
        ("an unknown coding", b"POST /_bulk HTTP/1.1\r\n" + host + b"Transfer-Encoding: gzip, chunked\r\n\r\n", 501),
        ("a body that is too long", b"POST /_bulk HTTP/1.1\r\n" + host + b"Content-Length: 104857601\r\n\r\n", 413),
        ("many fields", b"GET / HTTP/1.1\r\n" + host + b"".join(b"A%d: b\r\n" % it for it in range(100)) + b"\r\n", 431),
        ("a long target", b"GET /" + b"a" * 20_000 + b" HTTP/1.1\r\n" + host + b"\r\n", 414),
    ):
        came = serve.raw(message)
        head, _, text = came.partition(b"\r\n\r\n")
        right = head.startswith(b"HTTP/1.1 %d " % status) and b"connection: close" in head and b"content-length: %d\r\n" % len(text) in head + b"\r\n"
        check("refused with a body: %s" % name, right and is_refusal(status, json.loads(text or b"{}"), ""), came[:300])
        came = serve.raw((put % 1) + message)
        check("after an answer: %s" % name, came.startswith(b"HTTP/1.1 200") and b"HTTP/1.1 %d " % status in came, came[:300])
    with socket.create_connection(("127.0.0.1", serve.port), timeout=30) as stream:
        stream.sendall(b"GET / HTTP/1.1\r\n" + host)
        began = time.monotonic()
        came = received(stream)
        check("a head that does not end is given up", came == b"" and 1 < time.monotonic() - began < 10, (came, time.monotonic() - began))
    connection = serve.connect()
    for turn in range(3):
        connection.request("PUT", "/books/_doc/kept", b"{}")
        answer = connection.getresponse()
        check("a connection is kept", answer.read() and answer.getheader("connection") is None)
        time.sleep(0.3)
    check("the stop after these", serve.stop()[0] == 0)


def broken():
    """Requests that are broken at random: none stops the relay, and what is answered is an answer."""
    dice, server = random.Random(54), Server()
    serve = Serve(server, "--workers", "8", "--lanes", "2", "--idle", "1s")
    whole = b"POST /_bulk HTTP/1.1\r\nHost: a\r\nContent-Length: %d\r\n\r\n%s"
    count = 300 if FEWER else 10_000
    if FEWER:
        leave("9,700 of 10,000 requests to relay serve that are broken at random")

    def message():
        body = bytearray(body_of([("%d" % dice.randrange(9), None if dice.random() < 0.3 else '{"n":1}') for _ in range(dice.randrange(1, 4))]))
        text = bytearray(whole % (len(body), body))
        for _ in range(dice.randrange(1, 4)):
            at = dice.randrange(len(text))
            if dice.random() < 0.3:
                del text[at:at + dice.randrange(1, 20)]
            else:
                text[at:at + 1] = bytes([dice.choice(b'\r\n {}":,\x00\xff0a')])
        return bytes(text)

    messages, wrong, lock = [message() for _ in range(count)], [], threading.Lock()

    def client():
        while True:
            with lock:
                if not messages:
                    return
                sent = messages.pop()
            came = serve.raw(sent)
            for answer in came.split(b"HTTP/1.1 ")[1:]:
                text = answer.partition(b"\r\n\r\n")[2]
                try:
                    fine = answer[:3] in (b"200", b"400", b"404", b"405", b"413", b"414", b"431", b"501", b"415", b"100") and (answer[:3] == b"100" or isinstance(json.loads(text), dict))
                except ValueError:
                    fine = False
                if not fine:
                    wrong.append((sent, came))

    threads = [threading.Thread(target=client) for _ in range(8)]
    for thread in threads:
        thread.start()
    for thread in threads:
        thread.join()
    check("answers to broken requests", not wrong, wrong[:2])
    check("it works after them", serve.ask("PUT", "/books/_doc/after", b"{}")[0] == 201)
    check("the stop after broken requests", serve.stop()[0] == 0)


def faults():
    """Under every fault of the index each answer is true, and each document has its client's writes in order: in one term, and in many."""
    in_terms(5)
    in_terms(6, "--turn-after", "20")


def in_terms(seed, *options):
    dice = random.Random(seed)
    server = Server(lambda number: dice.choice([None, None, *FAULTS]))
    serve = Serve(server, "--workers", "9", "--lanes", "3", "--attempts", "32", "--count", "20", *options)
    said, lock = {}, threading.Lock()

    def client(number):
        own = random.Random(number)
        for turn in range(12):
            operations = [("%d-%d" % (number, own.randrange(6)), '{"n":%d}' % (turn * 10 + at)) for at in range(own.randrange(1, 10))]
            status, answer = serve.ask("POST", "/_bulk", body_of(operations))
            with lock:
                check("an answer", status == 200, status)
                judge("an answer under faults", server, operations, answer["items"])
                for (identity, source), item in zip(operations, answer["items"]):
                    if "error" not in item["index"]:
                        said.setdefault(identity, []).append(source)

    threads = [threading.Thread(target=client, args=(number,)) for number in range(8)]
    for thread in threads:
        thread.start()
    for thread in threads:
        thread.join()
    found = {identity: [it[2] for it in server.index.applied[("books", identity)]] for identity in said}
    check("what was said to be written, in order", found == said, [it for it in said if found[it] != said[it]][:3])
    status, out, _ = serve.stop()
    counts = re.fullmatch(rb"applied (\d+) already (\d+) reported (\d+)\n", out)
    check("some were written by an earlier request", status == 0 and counts and int(counts[2]) > 0, (status, out))


def killed():
    """Killed in the middle of its work and started again by its epoch file: what was acknowledged was applied, and nothing of
    an old epoch comes after something of a new one."""
    with tempfile.TemporaryDirectory() as folder:
        epoch, server = os.path.join(folder, "epoch"), Server()
        acknowledged, numbers = [], iter(range(10**9))
        for turn in range(8):
            serve = Serve(server, "--workers", "4", "--lanes", "2", "--epoch-file", epoch)
            check("the epoch from a file", serve.epoch() == turn + 1, serve.begun)
            wanted = len(acknowledged) + 5 * turn

            def client(number):
                while True:
                    source = '{"n":%d}' % next(numbers)
                    try:
                        if serve.ask("PUT", "/books/_doc/%d" % number, source.encode())[0] in (200, 201):
                            acknowledged.append(("%d" % number, source))
                    except (OSError, http.client.HTTPException):
                        return

            threads = [threading.Thread(target=client, args=(number,)) for number in range(4)]
            for thread in threads:
                thread.start()
            ends = time.monotonic() + SECONDS
            while len(acknowledged) < wanted and time.monotonic() < ends:
                time.sleep(0.001)
            serve.process.kill()
            serve.process.wait()
            for thread in threads:
                thread.join()
            check("the epoch in the file", int(open(epoch).read()) == turn + 1)
        missing = [it for it in acknowledged if it[1] not in [row[2] for row in server.index.applied.get(("books", it[0]), [])]]
        check("what was acknowledged was applied", acknowledged and not missing, missing[:3])
        versions = [[row[0] for row in rows] for rows in server.index.applied.values()]
        check("versions ascend over the epochs", all(it == sorted(set(it)) for it in versions))


def fails(name, args, said, status):
    done = subprocess.run([RELAY, "serve", "--listen", "127.0.0.1:%d" % free_port(), *args], stdin=subprocess.DEVNULL, capture_output=True, timeout=60)
    check(name, done.returncode == status and said in done.stderr and done.stdout == b"", done)


def epochs():
    with tempfile.TemporaryDirectory() as folder:
        path, server = os.path.join(folder, "epoch"), Server()
        to = ["--to", "127.0.0.1:%d" % server.port]
        serve = Serve(server, "--epoch-file", path)
        fails("a file that is locked", [*to, "--epoch-file", path], b"locked", 3)
        check("the first epoch", serve.epoch() == 1)
        serve.stop()
        for text, said, status in ((b"x\n", b"no number", 2), (b"-1", b"no number", 2), (b"4194304\n", b"no number", 2), (b"4194303\n", b"last epoch", 3)):
            with open(path, "wb") as file:
                file.write(text)
            fails("a file with %s" % text, [*to, "--epoch-file", path], said, status)
            check("it is left as it was", open(path, "rb").read() == text)
        with open(path, "wb") as file:
            file.write(b"99\n")
        serve = Serve(server, "--epoch-file", path)
        check("an epoch that was written by hand", serve.epoch() == 100 and open(path, "rb").read() == b"0000100\n", serve.begun)
        serve.ask("PUT", "/books/_doc/1", b"{}")
        check("versions of the epoch", server.index.versions[("books", "1")] == 100 * 2**40 + 1)
        serve.stop()
        fails("a file in no folder", [*to, "--epoch-file", os.path.join(folder, "no", "epoch")], b"could not be opened", 3)
        check("nothing was sent without an epoch", server.requests == 1)
    stub = Stub(2)
    wait_for(stub)
    for epoch in (1, 2):
        serve = Serve(stub, "--epoch-from", "relay/epoch")
        check("an epoch from the index", serve.epoch() == epoch, serve.begun)
        serve.stop()
    fails("an index that is down", ["--to", "127.0.0.1:%d" % free_port(), "--epoch-from", "relay/epoch"], b"epoch: unreachable", 3)
    for name, args, said in (
        ("no epoch", [], b"is needed"),
        ("two epochs", ["--epoch", "1", "--epoch-file", "x"], b"--epoch"),
        ("a face", ["--epoch", "1", "--face", "x"], b"--face"),
        ("a number of workers", ["--epoch", "1", "--workers", "257"], b"--workers"),
        ("a counter", ["--epoch-from", "x"], b"--epoch-from"),
        ("a duration", ["--epoch", "1", "--answer-within", "2h"], b"--answer-within"),
        ("how long to keep answers", ["--epoch", "1", "--remember", "0"], b"--remember"),
    ):
        fails("the command line: %s" % name, [*to, *args], said, 1)


def terms():
    """Terms follow one another while clients write: connections stay, and each document has its writes in order, in rising epochs."""
    clients, each = 8, 60
    with tempfile.TemporaryDirectory() as folder:
        path, server, wrong = os.path.join(folder, "epoch"), Server(), []
        serve = Serve(server, "--workers", "6", "--lanes", "2", "--epoch-file", path, "--turn-after", "40")

        def client(number):
            connection = serve.connect()
            connection.connect()
            port = connection.sock.getsockname()[1]
            for turn in range(each):
                connection.request("PUT", "/books/_doc/%d" % number, b'{"n":%d}' % turn)
                answer = connection.getresponse()
                answer.read()
                if answer.status not in (200, 201) or connection.sock is None or connection.sock.getsockname()[1] != port:
                    wrong.append((number, turn, answer.status))

        threads = [threading.Thread(target=client, args=(number,)) for number in range(clients)]
        for thread in threads:
            thread.start()
        for thread in threads:
            thread.join()
        check("each write is answered, on its client's one connection", not wrong, wrong[:3])
        rows = [server.index.applied.get(("books", "%d" % number), []) for number in range(clients)]
        check("each document has its writes in order", all([it[2] for it in found] == ['{"n":%d}' % turn for turn in range(each)] for found in rows))
        versions = [[row[0] for row in found] for found in rows]
        check("versions ascend over the terms", all(it == sorted(set(it)) for it in versions))
        epochs, shown = {it >> 40 for it in sum(versions, [])}, metrics_of(serve)
        last = max(epochs)
        check("each term has the next epoch", epochs == set(range(1, last + 1)) and last >= clients * each // 50, epochs)
        # The last writes may end a term, and the next one begins at any moment after their answers.
        check("what is shown of the terms", shown["relay_epoch"] == shown["relay_terms_total"] and shown["relay_epoch"] - last in (0, 1), (shown["relay_epoch"], last))
        status, out, err = serve.stop()
        reached = int(open(path).read())
        check("the epoch of the last term is in the file", reached in (shown["relay_epoch"], last + 1), (reached, shown["relay_epoch"], last))
        said = b"".join(b"epoch %d\n" % it for it in range(2, reached + 1))
        check("the counts of all terms", (status, out, err) == (0, b"applied %d already 0 reported 0\n" % (clients * each), said), (status, out, err))


def late():
    """An index that is slow: what has not ended in time is answered with 503, and its order is kept."""
    slow = [0.0]
    server = Server(delay=lambda: slow[0])
    serve = Serve(server, "--workers", "4", "--lanes", "1", "--answer-within", "300ms")
    check("in time", serve.ask("PUT", "/books/_doc/1", b'{"n":1}')[0] == 201)
    slow[0] = 1.5
    began = time.monotonic()
    status, value = serve.ask("PUT", "/books/_doc/1", b'{"n":2}')
    took = time.monotonic() - began
    check("too late", status == 503 and value["error"]["type"] == "relay_timeout" and "may still be applied" in value["error"]["reason"] and 0.25 < took < 1.4, (took, value))
    status, value = serve.ask("POST", "/_bulk", body_of([("1", '{"n":3}'), ("2", "{}")]))
    check("items too late", status == 200 and value["errors"] and [it["index"]["status"] for it in value["items"]] == [503, 503], value)
    slow[0] = 0.0
    for _ in range(100):
        status, value = serve.ask("PUT", "/books/_doc/1", b'{"n":4}')
        if status == 200:
            break
        time.sleep(0.05)
    check("in time again", status == 200, (status, value))
    sources = list(dict.fromkeys(it[2] for it in server.index.applied[("books", "1")]))
    check("the order is kept", sources == ['{"n":1}', '{"n":2}', '{"n":3}', '{"n":4}'], sources)
    check("the stop after late ones", serve.stop()[0] == 0)


def turns():
    """More connections than workers: each gets its turn, and none is closed."""
    serve = Serve(Server(), "--workers", "2", "--lanes", "1")
    done, lock = [], threading.Lock()

    def client(number):
        connection = serve.connect()
        for turn in range(5):
            connection.request("PUT", "/books/_doc/%d" % number, b"{}")
            answer = connection.getresponse()
            answer.read()
            with lock:
                done.append(answer.status)
            time.sleep(0.02)

    threads = [threading.Thread(target=client, args=(number,)) for number in range(16)]
    for thread in threads:
        thread.start()
    for thread in threads:
        thread.join(timeout=60)
    check("more connections than workers", len(done) == 80 and set(done) <= {200, 201}, (len(done), set(done)))
    check("the stop with connections open", serve.stop()[0] == 0)


def stops():
    """The end of standard input: what was asked is answered, and then it ends."""
    server = Server(delay=lambda: 0.7)
    serve = Serve(server, "--workers", "3", "--lanes", "1")
    found = []
    thread = threading.Thread(target=lambda: found.append(serve.whole("PUT", "/books/_doc/1", b"{}")))
    thread.start()
    time.sleep(0.3)
    began = time.monotonic()
    status, out, err = serve.stop()
    thread.join(timeout=30)
    check("the answer at the end", found and found[0][0] == 201 and found[0][1]["connection"] == "close", found)
    check("the end", (status, out, err) == (0, b"applied 1 already 0 reported 0\n", b"") and time.monotonic() - began < 30, (status, out, err))
    try:
        socket.create_connection(("127.0.0.1", serve.port), timeout=5).close()
        check("nothing listens after it", False)
    except OSError:
        check("nothing listens after it", True)
    taken = socket.create_server(("127.0.0.1", 0))
    done = subprocess.run([RELAY, "serve", "--listen", "127.0.0.1:%d" % taken.getsockname()[1], "--to", "127.0.0.1:1", "--epoch", "1"], stdin=subprocess.DEVNULL, capture_output=True, timeout=60)
    check("a port that is taken", (done.returncode, done.stdout, done.stderr) == (3, b"", b"listen failed\n"), done)
    taken.close()
    serve = Serve(Server(), "--attempts", "1")
    check("a stop with nothing asked", serve.stop() == (0, b"applied 0 already 0 reported 0\n", b""))


def down():
    """An index that is down: the client hears so, and the relay goes on."""
    server = Server()
    server.go_down()
    serve = Serve(server, "--workers", "2", "--lanes", "1", "--attempts", "2")
    status, value = serve.ask("PUT", "/books/_doc/1", b"{}")
    check("an index that is down", status == 503 and value["error"]["type"] == "relay_gave_up", value)
    server.come_up()
    check("it is up again", serve.ask("PUT", "/books/_doc/1", b"{}")[0] == 201)
    check("the stop after an outage", serve.stop()[:2] == (0, b"applied 1 already 0 reported 1\n"))


def metrics_of(serve):
    """The values of the metrics, by their names with their labels; each metric has its help and its type."""
    status, fields, text = serve.whole("GET", "/_relay/metrics")
    check("the metrics", status == 200 and fields["content-type"] == "text/plain; version=0.0.4; charset=utf-8", (status, fields.items()))
    found, named = {}, {}
    for line in text.decode().splitlines():
        if line.startswith("# "):
            _, what, name, said = line.split(" ", 3)
            named.setdefault(name, {})[what] = said
            continue
        name, value = line.rsplit(" ", 1)
        found[name] = float(value)
        plain = re.sub(r"_(bucket|sum|count)$", "", name.partition("{")[0])
        check("%s has its help and its type" % name, named.get(plain, {}).keys() == {"HELP", "TYPE"}, named)
    return found


def watched():
    """What operators see: whether writes can be settled, and what is counted."""
    server = Server(refuse=lambda meta: 400 if meta["_id"] == "bad" else None)
    serve = Serve(server, "--workers", "4", "--lanes", "2", "--epoch", "7", "--give-up-after", "60s")
    check("it is up", serve.ask("GET", "/_relay/health") == (200, {"status": "up"}))
    check("HEAD of its health", serve.whole("HEAD", "/_relay/health")[::2] == (200, b""))
    for target in ("/_relay/health", "/_relay/metrics"):
        status, fields, text = serve.whole("POST", target, b"")
        check("POST of %s" % target, status == 405 and fields["allow"] == "GET, HEAD", (status, fields.items()))
    check("another part of the relay", serve.ask("GET", "/_relay/others")[0] == 400)
    before = metrics_of(serve)
    check("nothing ended yet", all(value == 0 for name, value in before.items() if name.startswith("relay_operations_total")) and before["relay_epoch"] == 7, before)
    status, value = serve.ask("POST", "/_bulk", body_of([("1", "{}"), ("2", "{}"), ("bad", "{}"), ("1", None)]))
    check("a bulk of four", status == 200 and value["errors"], value)
    serve.ask("PUT", "/books/_doc/3", b"{}")
    found = metrics_of(serve)
    ends = {end: found['relay_operations_total{end="%s"}' % end] for end in ("applied", "already", "reported", "late", "unput", "gone")}
    check("how the operations ended", ends == {"applied": 4, "already": 0, "reported": 1, "late": 0, "unput": 0, "gone": 0}, ends)
    buckets = [value for name, value in found.items() if name.startswith("relay_request_seconds_bucket")]
    check("how long the requests took", found["relay_request_seconds_count"] == 2 == buckets[-1] and buckets == sorted(buckets) and len(buckets) == 11, found)
    check("what the index was sent", found["relay_index_operations_total"] == 5 and found["relay_index_requests_total"] == found['relay_index_answers_total{status="200"}'] == server.requests and found["relay_index_up"] == 1, found)
    check("nothing is open", found['relay_open_operations{lane="0"}'] == found['relay_open_operations{lane="1"}'] == found["relay_oldest_open_seconds"] == 0 and found["relay_open_bytes"] < 65536, found)
    check("its connections", found['relay_connections{state="served"}'] >= 1 and found['relay_connections{state="waiting"}'] == 0, found)
    server.go_down()
    asking = threading.Thread(target=serve.ask, args=("PUT", "/books/_doc/4", b"{}"))
    asking.start()
    wait_until(lambda: serve.ask("GET", "/_relay/health")[0] == 503)
    wait_until(lambda: "not answered" in serve.ask("GET", "/_relay/health")[1]["reason"])
    status, value = serve.ask("GET", "/_relay/health")
    check("it is down, and for how long", (status, value["status"]) == (503, "down") and re.fullmatch(r"the index has not answered for at least [1-9]\d* s", value["reason"]), value)
    time.sleep(0.2)
    found = metrics_of(serve)
    check("so its metrics say", found["relay_index_up"] == 0, found)
    check("one operation is open, in one lane", sorted(found['relay_open_operations{lane="%d"}' % lane] for lane in (0, 1)) == [0, 1], found)
    check("for as long as its request", 0.1 <= found["relay_oldest_open_seconds"] <= 60, found)
    server.come_up()
    asking.join()
    check("it is up again", serve.ask("GET", "/_relay/health") == (200, {"status": "up"}))
    status, out, _ = serve.stop()
    check("it ends", (status, out) in ((0, b"applied 5 already 0 reported 1\n"), (0, b"applied 4 already 1 reported 1\n")), (status, out))
    server.close()


def left(serve, method, target, body):
    """Sends a request, and leaves before it is answered."""
    head = "%s %s HTTP/1.1\r\nhost: relay\r\ncontent-type: application/json\r\ncontent-length: %d\r\n\r\n" % (method, target, len(body))
    with socket.create_connection(("127.0.0.1", serve.port), timeout=30) as stream:
        stream.sendall(head.encode() + body)


def written(server, number):
    """The sources of a document that were applied, one for each version."""
    return [it[2] for it in dict.fromkeys(server.index.applied.get(("books", number), []))]


class Gate:
    """The delay of an index that holds requests while it is shut. Each takes long enough for its answer to be kept."""

    def __init__(self):
        self.is_open, self.requests = threading.Event(), 0
        self.is_open.set()

    def __call__(self):
        self.requests += 1
        self.is_open.wait(60)
        return 0.15


def kept(serve, count):
    """Waits until so many answers are kept."""
    wait_until(lambda: metrics_of(serve)["relay_kept_answers"] == count)


def leaves_one(serve, method, target, body):
    """Has a client leave before it is answered, and waits until the answer is kept."""
    left(serve, method, target, body)
    kept(serve, 1)


ONE, TWO = b'{"n":1}', b'{"n":2}'


def repeats():
    """Clients that leave before their answer, and send the same again."""
    gate = Gate()
    server = Server(delay=gate)
    serve = Serve(server, "--workers", "4", "--lanes", "1")
    one, two = ONE.decode(), TWO.decode()

    gate.is_open.clear()
    left(serve, "PUT", "/books/_doc/1", ONE)
    wait_until(lambda: gate.requests == 1)
    time.sleep(0.2)
    answers = []
    joining = threading.Thread(target=lambda: answers.append(serve.ask("PUT", "/books/_doc/1", ONE)))
    joining.start()
    time.sleep(0.2)
    gate.is_open.set()
    joining.join()
    check("one that comes while the first still runs gets its answer", answers[0][0] == 201 and answers[0][1]["result"] == "created" and written(server, "1") == [one], answers)
    check("it is given once", serve.ask("PUT", "/books/_doc/1", ONE)[0] == 200 and written(server, "1") == [one, one], written(server, "1"))

    leaves_one(serve, "PUT", "/books/_doc/2", ONE)
    check("one that comes later gets its answer", serve.ask("PUT", "/books/_doc/2", ONE)[0] == 201 and written(server, "2") == [one], written(server, "2"))
    leaves_one(serve, "PUT", "/books/_doc/3", ONE)
    check("another body is put", serve.ask("PUT", "/books/_doc/3", TWO)[0] == 200 and written(server, "3") == [one, two], written(server, "3"))
    check("and so is the first one again, since it would be an untruth now", serve.ask("PUT", "/books/_doc/3", ONE)[0] == 200 and written(server, "3") == [one, two, one], written(server, "3"))

    check("the stop after repeats", serve.stop()[0] == 0)
    server.close()


def repeats_that_leave():
    """A client that leaves, and sends the same again, and has left again when a worker comes to it: the only one serves another until then."""
    gate = Gate()
    server = Server(delay=gate)
    serve = Serve(server, "--workers", "1", "--lanes", "1")
    leaves_one(serve, "PUT", "/books/_doc/1", ONE)
    gate.is_open.clear()
    before = gate.requests
    other = threading.Thread(target=serve.ask, args=("PUT", "/books/_doc/2", ONE))
    other.start()
    wait_until(lambda: gate.requests > before)
    left(serve, "PUT", "/books/_doc/1", ONE)
    gate.is_open.set()
    other.join()
    wait_until(lambda: metrics_of(serve)["relay_requests_repeated_total"] == 1)
    kept(serve, 1)
    check("one whose second client left, too, is kept", serve.ask("PUT", "/books/_doc/1", ONE)[0] == 201 and written(server, "1") == [ONE.decode()], written(server, "1"))
    found = metrics_of(serve)
    check("and given once more", (found["relay_requests_repeated_total"], found["relay_kept_answers"]) == (2, 0), found)
    leaves_one(serve, "PUT", "/books/_doc/3", ONE)
    check("the next one is kept, too", serve.ask("PUT", "/books/_doc/3", ONE)[0] == 201 and written(server, "3") == [ONE.decode()], written(server, "3"))
    check("the stop after clients that leave", serve.stop()[0] == 0)
    server.close()


def repeats_of_many():
    """The same of bulk requests, beside other writes, and of documents without ids."""
    server = Server(delay=Gate())
    serve = Serve(server, "--workers", "4", "--lanes", "2")
    many = body_of([(str(number), "{}") for number in range(500)])
    leaves_one(serve, "POST", "/books/_bulk", many)
    for turn in range(4):
        serve.ask("POST", "/books/_bulk", body_of([("%d-%d" % (turn, number), "{}") for number in range(500)]))
    for query in ("", "?timeout=1m"):
        status, value = serve.ask("POST", "/books/_bulk" + query, many)
        check("a whole body" + query, status == 200 and not value["errors"] and len(written(server, "7")) == (2 if query else 1), written(server, "7"))

    part = body_of([("a", "{}")]) + b'{"update":{"_index":"books","_id":"b"}}\n{"doc":{}}\n'
    left(serve, "POST", "/_bulk", part)
    wait_until(lambda: written(server, "a"))
    time.sleep(0.3)
    status, value = serve.ask("POST", "/_bulk", part)
    check("one with an item that is an error is put again", status == 200 and value["errors"] and len(written(server, "a")) == 2, (value, written(server, "a")))

    def add(ids):
        _, value = serve.ask("POST", "/books/_doc", b'{"line":"same"}')
        ids.append(value["_id"])

    ids = []
    adding = [threading.Thread(target=add, args=(ids,)) for _ in range(2)]
    for one_more in adding:
        one_more.start()
        time.sleep(0.25)
    for one_more in adding:
        one_more.join()
    check("two clients that stay make two documents", len(set(ids)) == 2, ids)
    leaves_one(serve, "POST", "/books/_doc", b'{"line":"same"}')
    add(ids)
    add(ids)
    check("of two that come after one that left, one gets its document", len(set(ids)) == 4 and all(written(server, it) for it in ids), ids)
    check("there is a document for each client", sum(key[1] not in ids for key in server.index.applied if written(server, key[1]) == ['{"line":"same"}']) == 0, ids)
    check("the stop after many", serve.stop()[0] == 0)
    server.close()


def kept_for():
    """How long an answer is kept."""
    server = Server(delay=Gate())
    serve = Serve(server, "--workers", "4", "--lanes", "1", "--remember", "1s")
    left(serve, "PUT", "/books/_doc/1", ONE)
    wait_until(lambda: written(server, "1"))
    time.sleep(2)
    check("after the time it is put again", serve.ask("PUT", "/books/_doc/1", ONE)[0] == 200 and len(written(server, "1")) == 2, written(server, "1"))
    check("the stop after the time", serve.stop()[0] == 0)

    serve = Serve(server, "--workers", "4", "--lanes", "1", "--remember", "never", "--epoch", "1")
    left(serve, "PUT", "/books/_doc/2", ONE)
    wait_until(lambda: written(server, "2"))
    time.sleep(0.3)
    check("nothing is kept if that is said", serve.ask("PUT", "/books/_doc/2", ONE)[0] == 200 and len(written(server, "2")) == 2, written(server, "2"))
    check("the stop without", serve.stop()[0] == 0)
    server.close()


def filled():
    """Once answers that were kept leave little room for more, the next term begins, if this one has lasted for as long as one is kept."""
    server = Server(delay=Gate())
    # An eighth of this is for what is kept.
    serve = Serve(server, "--workers", "4", "--lanes", "1", "--epoch", "1", "--max-open-bytes", "1048576", "--remember", "20s")
    begun = time.monotonic()
    long = b'{"text":"%s"}' % (b"x" * 70_000)
    leaves_one(serve, "PUT", "/books/_doc/1", long)
    check("what is kept is given", serve.ask("PUT", "/books/_doc/1", long)[0] == 201 and len(written(server, "1")) == 1, len(written(server, "1")))
    serve.ask("PUT", "/books/_doc/2", b"{}")
    if time.monotonic() - begun < 15:
        check("the term goes on", metrics_of(serve)["relay_terms_total"] == 1, metrics_of(serve))
    time.sleep(max(0, begun + 21 - time.monotonic()))
    check("a request after that ends the term", serve.ask("PUT", "/books/_doc/2", b"{}")[0] == 200)
    wait_until(lambda: metrics_of(serve)["relay_terms_total"] == 2)
    check("the next term has begun", metrics_of(serve)["relay_terms_total"] == 2, metrics_of(serve))
    check("and has kept nothing", metrics_of(serve)["relay_kept_bytes"] == 0 and serve.ask("PUT", "/books/_doc/1", long)[0] == 200 and len(written(server, "1")) == 2, len(written(server, "1")))
    check("the stop after two terms", serve.stop()[0] == 0)
    server.close()


def late_repeats():
    """An answer that says that a write was late is not kept, and the time of a request is that of its waiting, too."""
    gate = Gate()
    server = Server(delay=gate)
    serve = Serve(server, "--workers", "4", "--lanes", "1", "--answer-within", "2s")
    gate.is_open.clear()
    left(serve, "PUT", "/books/_doc/1", b"{}")
    wait_until(lambda: gate.requests == 1)
    time.sleep(0.2)
    begun = time.monotonic()
    status, value = serve.ask("PUT", "/books/_doc/1", b"{}")
    check("one that waits for the first is answered in time", status == 503 and value["error"]["type"] == "relay_timeout" and time.monotonic() - begun < 3.5, (value, time.monotonic() - begun))
    gate.is_open.set()
    wait_until(lambda: len(written(server, "1")) == 2)
    check("what was late is put again", serve.ask("PUT", "/books/_doc/1", b"{}")[0] == 200 and len(written(server, "1")) == 3, written(server, "1"))
    check("the stop after a late one", serve.stop()[0] == 0)
    server.close()


GROUPS = (documents, bulk, refusals_by_item, refusals_of_requests, faces, framing, broken, faults, killed, epochs, terms, late, turns, stops, down, watched, repeats, repeats_that_leave, repeats_of_many, kept_for, filled, late_repeats)
