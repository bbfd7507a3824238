"""What operators of `relay serve` have at hand: several listeners, room for requests, a stop, a log and a file for what was refused."""
import calendar
import json
import os
import re
import socket
import subprocess
import tempfile
import threading
import time

from bulk_server import Server
from program import FEWER, RELAY, check
from run_cases import wait_until
from serve_cases import Serve, body_of, metrics_of, received
from stub_cases import free_port

STAMP = re.compile(rb"(\d{4}-\d\d-\d\dT\d\d:\d\d:\d\dZ) ([^\n]*)")
MIB = 1 << 20


def stamped(err):
    """What each of these lines says, without its time, which is about now."""
    found = [STAMP.fullmatch(line) for line in err.splitlines()]
    stamps = [calendar.timegm(time.strptime(it[1].decode(), "%Y-%m-%dT%H:%M:%SZ")) if it else 0 for it in found]
    check("each line has its time", None not in found and all(time.time() - 300 < it < time.time() + 2 for it in stamps), err)
    return [it[2].decode() for it in found if it]


def open_bytes(serve):
    """How many bytes of requests are open."""
    return int(re.search(rb"^relay_open_bytes (\d+)$", serve.whole("GET", "/_relay/metrics")[2], re.M)[1])


def put_of(length):
    """A write of a document that has so many bytes, with its head."""
    head = b"PUT /books/_doc/3 HTTP/1.1\r\nhost: x\r\ncontent-length: %05d\r\n\r\n"
    size = length - len(head % 0)
    return head % size + b'{"pad":"%s"}' % (b"x" * (size - 10))


def stop():
    """`POST /_relay/stop`, by a listener at a loopback address and by another one."""
    came, may_answer = [], threading.Event()
    server = Server(delay=lambda: came.append(1) or may_answer.wait(60) and 0)
    serve = Serve(server, "--workers", "3", "--lanes", "1")
    status, fields, _ = serve.whole("GET", "/_relay/stop")
    check("GET of the stop", status == 405 and fields["allow"] == "POST", (status, fields.items()))
    found = []
    asking = threading.Thread(target=lambda: found.append(serve.whole("PUT", "/books/_doc/1", b"{}")))
    asking.start()
    wait_until(lambda: came)
    status, fields, text = serve.whole("POST", "/_relay/stop")
    may_answer.set()
    check("the stop", (status, fields["connection"], json.loads(text)) == (200, "close", {"status": "stopping"}), (status, fields.items(), text))
    asking.join(timeout=30)
    check("what was asked before is answered", found and found[0][0] == 201 and found[0][1]["connection"] == "close", found)
    out, err = serve.process.communicate(timeout=60)
    check("it ends though its input has not", (serve.process.returncode, out, err) == (0, b"applied 1 already 0 reported 0\n", b""), (serve.process.returncode, out, err))
    server.close()
    server, near, far = Server(), free_port(), free_port()
    args = ["serve", "--listen", "127.0.0.1:%d" % near, "--listen", "0.0.0.0:%d" % far, "--to", "127.0.0.1:%d" % server.port, "--epoch", "3"]
    process = subprocess.Popen([RELAY, *args], stdin=subprocess.PIPE, stdout=subprocess.PIPE, stderr=subprocess.PIPE)
    begun = process.stderr.readline() + process.stderr.readline()
    check("it listens at both", begun == b"listening on 127.0.0.1:%d, epoch 3\nlistening on 0.0.0.0:%d, epoch 3\n" % (near, far), begun)
    asked = "POST /_relay/stop HTTP/1.1\r\nhost: x\r\ncontent-length: 0\r\nconnection: close\r\n\r\n".encode()
    with socket.create_connection(("127.0.0.1", far), timeout=60) as peer:
        peer.sendall(asked)
        said = b"".join(iter(lambda: peer.recv(65536), b""))
    check("a stop by another listener", said.startswith(b"HTTP/1.1 403 ") and b"loopback" in said, said)
    with socket.create_connection(("127.0.0.1", near), timeout=60) as peer:
        peer.sendall(asked)
        said = b"".join(iter(lambda: peer.recv(65536), b""))
    check("a stop by the loopback address", said.startswith(b"HTTP/1.1 200 "), said)
    check("it ends after it", process.wait(timeout=60) == 0)
    process.communicate()
    server.close()


def backlog():
    """Connections that the system has taken when the relay ends are answered, or closed, but not left waiting."""
    server = Server(delay=lambda: 0.5)
    serve = Serve(server, "--workers", "2", "--lanes", "1")
    asking = threading.Thread(target=lambda: serve.whole("PUT", "/books/_doc/0", b"{}"))
    asking.start()
    wait_until(lambda: server.requests)
    peers = []
    for number in range(20):
        peer = socket.create_connection(("127.0.0.1", serve.port), timeout=60)
        peer.sendall(b"PUT /books/_doc/%d HTTP/1.1\r\nhost: x\r\ncontent-length: 2\r\n\r\n{}" % (number + 1))
        peers.append(peer)
    serve.process.stdin.close()
    said = []
    for peer in peers:
        with peer:
            said.append(b"".join(iter(lambda: peer.recv(65536), b"")))
    asking.join()
    out, err = serve.process.stdout.read(), serve.process.stderr.read()
    check("each request that came before the end is answered", all(it.startswith(b"HTTP/1.1 201 ") for it in said), said[:3])
    check("it ends", (serve.process.wait(timeout=60), out, err) == (0, b"applied 21 already 0 reported 0\n", b""), (out, err))
    server.close()


def logs():
    """`--log`: what goes wrong, the start and the end, and each request."""
    def down_and_up(*more, log=None):
        server = Server()
        server.go_down()
        serve = Serve(server, "--workers", "2", "--lanes", "1", "--give-up-after", "60s", "--epoch", "9", *more, log=log)
        asking = threading.Thread(target=lambda: serve.ask("PUT", "/books/_doc/1", b"{}"))
        asking.start()
        time.sleep(1.5)
        server.come_up()
        asking.join()
        status, out, err = serve.stop()
        check("it ends %s" % (more,), (status, out) == (0, b"applied 1 already 0 reported 0\n"), (status, out))
        server.close()
        return server.port, err

    port, err = down_and_up()
    said = stamped(err)
    check("what goes wrong", len(said) == 2 and said[0] == "127.0.0.1:%d: down: connection refused" % port and said[1].startswith("127.0.0.1:%d: up again after " % port), said)
    check("nothing with --log none", down_and_up("--log", "none")[1] == b"")
    port, err = down_and_up("--log", "events")
    said = [it.partition(": ")[2].split(" ")[0] for it in stamped(err)]
    check("the start and the end with --log events", said == ["start:", "down:", "up", "end:"], err)
    server = Server(refuse=lambda meta: 400 if meta["_id"] == "bad" else None)
    serve = Serve(server, "--workers", "2", "--lanes", "1", "--log", "requests")
    serve.ask("PUT", "/books/_doc/1", b'{"n":1}')
    serve.ask("GET", "/_cluster/health")
    serve.ask("POST", "/_bulk", body_of([("1", "{}"), ("bad", "{}")]))
    serve.ask("PUT", "/" + "x" * 600 + "/_doc/1", b"{}")
    serve.raw(b"no request at all\r\n\r\n")
    serve.raw(b"PUT /books/_doc/1 HTTP/1.1\r\nhost: x\r\ncontent-length: 104857601\r\n\r\n")
    status, _, err = serve.stop()
    lines = stamped(err)
    rows = [it.split(" ") for it in lines if re.match(r"127\.0\.0\.1:\d+ ", it)]
    own = [(method, path, status, int(asked)) for _, method, path, status, asked, *_ in rows]
    bulk = len(body_of([("1", "{}"), ("bad", "{}")]))
    check("each request", own == [("PUT", "/books/_doc/1", "201", 7), ("GET", "/_cluster/health", "200", 0), ("POST", "/_bulk", "200", bulk), ("PUT", "/" + "x" * 511, "400", 2)] + [("-", "-", status, 0) for status in ("400", "413")], lines)
    check("the answers' sizes and times", all((int(row[5]) > 0) == (row[1] != "-") and 0 <= int(row[6]) < 60000 and len(row) == 7 for row in rows), rows)
    check("the index's refusal", any(it.endswith("refused: 400 mapper_parsing_exception") or "refused: 400" in it for it in lines), lines)
    server.close()
    done = subprocess.run([RELAY, "serve", "--listen", "127.0.0.1:0", "--to", "127.0.0.1:1", "--epoch", "1", "--log", "all"], stdin=subprocess.DEVNULL, capture_output=True, timeout=60)
    check("another log", done.returncode == 1 and b"--log" in done.stderr, done)


def report():
    """`--report`: what the index refused is in the file, as lines that can be submitted again as they are."""
    with tempfile.TemporaryDirectory() as folder:
        path, refused = os.path.join(folder, "refused.ndjson"), [True]
        server = Server(refuse=lambda meta: 400 if refused[0] and "bad" in meta["_id"] else None)
        serve = Serve(server, "--workers", "4", "--lanes", "2", "--report", path)
        lines = [
            '{"index":{"_index":"books","_id":"bad\\"1"}}', '{"n":1}',
            '{"delete":{"_index":"books","_id":"good"}}',
            '{"update":{"_index":"books","_id":"bad2"}}', '{"doc":{}}',
            '{ "delete": {"_id":"bad3", "_index":"books", "_type":"_doc"} }',
            '{"create":{"_index":"books"}}', '{"made":true}',
            '{"index":{"_index":"books","_id":"bad4"}}', '{ "n" : "\\u00e9" }',
        ]
        status, value = serve.ask("POST", "/_bulk", "\n".join(lines).encode() + b"\n")
        check("a bulk with refused operations", status == 200 and [list(it.values())[0]["status"] for it in value["items"]] == [400, 404, 400, 400, 201, 400], value)
        serve.ask("PUT", "/books/_doc/bad5", b'{\n"n":5}')
        serve.ask("DELETE", "/books/_doc/bad6")
        serve.ask("PUT", "/books/_doc/fine", b"{}")
        wanted = b"".join(
            line.encode() + b"\n"
            for line in (
                '{"index":{"_index":"books","_id":"bad\\"1"}}', '{"n":1}',
                '{"delete":{"_index":"books","_id":"bad3"}}',
                '{"index":{"_index":"books","_id":"bad4"}}', '{ "n" : "\\u00e9" }',
                '{"index":{"_index":"books","_id":"bad5"}}', '{ "n":5}',
                '{"delete":{"_index":"books","_id":"bad6"}}',
            )
        )
        check("what is in the file", open(path, "rb").read() == wanted, open(path, "rb").read())
        check("nothing failed", metrics_of(serve)["relay_report_failures_total"] == 0)
        done = subprocess.run([RELAY, "serve", "--listen", "127.0.0.1:0", "--to", "127.0.0.1:1", "--epoch", "1", "--report", path], stdin=subprocess.DEVNULL, capture_output=True, timeout=60)
        check("a file that another relay has", (done.returncode, done.stderr) == (3, path.encode() + b": is locked by another process\n"), done)
        check("it ends", serve.stop()[0] == 0)
        # The last operation is torn, as by a kill: each of its fronts is cut off.
        for torn in (b'{"index":{"_ind', b'{"index":{"_index":"books","_id":"bad7"}}\n', b'{"index":{"_index":"books","_id":"bad7"}}\n{"n":', b'{"delete":{"_index":"books","_id":"bad7"}}', b"{"):
            with open(path, "ab") as file:
                file.write(torn)
            serve = Serve(server, "--report", path)
            check("cut off %s" % torn, open(path, "rb").read() == wanted, open(path, "rb").read())
            serve.stop()
        refused[0] = False
        serve = Serve(server, "--report", path, "--epoch", "1")
        status, value = serve.ask("POST", "/_bulk", wanted)
        check("it is submitted again as it is", status == 200 and not value["errors"] and len(value["items"]) == 5, value)
        check("the documents", [server.index.applied[("books", it)][-1][2] for it in ('bad"1', "bad4", "bad5")] == ['{"n":1}', '{ "n" : "\\u00e9" }', '{ "n":5}'], server.index.applied)
        serve.stop()
        other = os.path.join(folder, "other")
        for text in (b"x\n", b'{"index":1}\n{}\n', b'{"update":{"_index":"b","_id":"1"}}\n', b"\n"):
            with open(other, "wb") as file:
                file.write(text)
            done = subprocess.run([RELAY, "serve", "--listen", "127.0.0.1:0", "--to", "127.0.0.1:1", "--epoch", "1", "--report", other], stdin=subprocess.DEVNULL, capture_output=True, timeout=60)
            check("a file of something else: %s" % text, (done.returncode, done.stderr) == (2, other.encode() + b": holds something else than operations that were set aside\n") and open(other, "rb").read() == text, done)
        refused[0] = True
        serve = Serve(server, "--report", "/dev/full", "--epoch", "2")
        serve.ask("PUT", "/books/_doc/bad8", b"{}")
        check("a file that takes nothing", metrics_of(serve)["relay_report_failures_total"] == 1)
        status, _, err = serve.stop()
        check("it is said", status == 0 and any(it == "report: operations were not saved" for it in stamped(err)), err)
        server.close()


def begin(port, length):
    """A connection on which a request with so long a body has begun."""
    peer = socket.create_connection(("127.0.0.1", port), timeout=120)
    peer.sendall(b"PUT /books/_doc/1 HTTP/1.1\r\nhost: x\r\ncontent-length: %d\r\n\r\n" % length)
    return peer


def fill(peer, count):
    """Sends so many bytes, or as many as are taken. Returns how many went."""
    peer.setblocking(False)
    sent, until = 0, time.monotonic() + 20
    while sent < count and time.monotonic() < until:
        try:
            sent += peer.send(b" " * min(65536, count - sent))
        except BlockingIOError:
            time.sleep(0.01)
    peer.setblocking(True)
    peer.settimeout(120)
    return sent


def room():
    """`--max-open-bytes`: what does not fit waits, is let in once there is room, and is refused once it has waited for long enough."""
    size = 3 * MIB
    server = Server()
    port = free_port()
    serve = Serve(server, "--workers", "4", "--lanes", "1", "--max-open-bytes", str(4 * MIB), "--idle", "10m", "--listen", "127.0.0.1:%d,wait=2s" % port, "--listen", "127.0.0.1:0,wait=never")
    begun = [serve.process.stderr.readline() for _ in range(2)]
    other = int(re.fullmatch(rb"listening on 127\.0\.0\.1:(\d+), epoch 0\n", begun[1])[1])
    # The first takes most of the room, the second reads on beyond it, and the others wait.
    first = begin(serve.port, size)
    check("the first is read", fill(first, size - 1) == size - 1)
    wait_until(lambda: open_bytes(serve) > size - 65536 // 2)
    second = begin(serve.port, size)
    check("the second is read beyond the room", fill(second, size - 1) == size - 1)
    wait_until(lambda: open_bytes(serve) > 2 * size - 65536)
    check("a small write is always read", serve.ask("PUT", "/books/_doc/2", b"{}")[0] == 201)
    with socket.create_connection(("127.0.0.1", serve.port), timeout=60) as peer:
        whole = put_of(16384)
        peer.sendall(whole)
        said = peer.recv(65536)
    check("one of 16,384 bytes is always read", len(whole) == 16384 and said.startswith(b"HTTP/1.1 201 "), said)
    third = begin(port, size)
    began = time.monotonic()
    fill(third, 65536)
    said = received(third)
    took = time.monotonic() - began
    third.close()
    check("the third is refused", said.startswith(b"HTTP/1.1 429 Too Many Requests\r\n") and b"\r\nretry-after: 1\r\n" in said and b"connection: close" in said and json.loads(said.partition(b"\r\n\r\n")[2])["status"] == 429, said)
    check("after its time", 1.8 < took < 30, took)
    fourth = begin(other, 65536)
    fill(fourth, 65536)
    fourth.settimeout(3)
    try:
        early = fourth.recv(1)
    except socket.timeout:
        early = None
    check("one that waits without end is not refused", early is None, early)
    second.sendall(b" ")
    fourth.settimeout(120)
    said = second.recv(65536)
    check("the second is answered", said.startswith(b"HTTP/1.1 400 "), said)
    said = fourth.recv(65536)
    check("then the fourth is", said.startswith(b"HTTP/1.1 201 "), said)
    first.sendall(b" ")
    said = first.recv(65536)
    check("the first is", said.startswith(b"HTTP/1.1 400 "), said)
    for peer in (first, second, fourth):
        peer.close()
    found = metrics_of(serve)
    check("what is counted", found["relay_requests_refused_total"] == 1 and found["relay_open_bytes"] < 65536, found)
    check("it ends", serve.stop()[0] == 0)
    server.close()


def crowded():
    """Many clients with more bytes than there is room for: each request is answered, and memory stays bounded."""
    clients, each = (8, 3) if FEWER else (24, 6)
    server = Server()
    serve = Serve(server, "--workers", "16", "--lanes", "2", "--max-open-bytes", str(8 * MIB))
    done, lock = [], threading.Lock()
    pad = "x" * 1000

    def client(number):
        rows = [("%d-%d" % (number, it), '{"pad":"%s"}' % pad) for it in range(2000)]
        body = body_of(rows)
        for _ in range(each):
            status, value = serve.ask("POST", "/_bulk", body)
            with lock:
                done.append(status == 200 and not value["errors"])

    threads = [threading.Thread(target=client, args=(number,)) for number in range(clients)]
    for thread in threads:
        thread.start()
    most = 0
    while any(it.is_alive() for it in threads):
        most = max(most, open_bytes(serve))
        time.sleep(0.05)
    body = len(body_of([("0-0", '{"pad":"%s"}' % pad)])) * 2000
    check("each request is answered", len(done) == clients * each and all(done), (len(done), done.count(True)))
    check("no more is open than the room and a request", 0 < most <= 8 * MIB + 2 * body, most)
    check("it ends", serve.stop()[0] == 0)
    server.close()


GROUPS = (stop, backlog, logs, report, room, crowded)
