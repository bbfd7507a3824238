"""`relay serve` as OPERATING sets it up: behind nginx with TLS, in front of one with TLS and credentials, shared out by nginx over several
relays, behind a stream of Redis, and watched by Prometheus. The configurations are those of examples/serve and examples/proxies. What is
not installed is skipped, with a message."""
import http.client
import json
import os
import random
import shutil
import ssl
import subprocess
import sys
import tempfile
import threading
import time
import urllib.request
import zlib

from bulk_server import Server
from epoch_cases import CounterServer
from program import RELAY, SECONDS, check, skip
from proxy_cases import CREDENTIAL, TOP, Proxy, TlsServer, certificate
from run_cases import FAULTS
from serve_cases import Serve, body_of
from stub_cases import free_port

EXAMPLES = os.path.join(TOP, "examples", "serve")
INDEXES = ("books", "films", "maps", "plays")


def lacks(what, **programs):
    """Says that a test is skipped if one of these programs is not there; each has the name of its package."""
    lacking = [package for program, package in programs.items() if shutil.which(program.replace("_", "-")) is None]
    if lacking:
        skip(what, " and ".join(lacking))
    return bool(lacking)


def wait_until(holds):
    ends = time.monotonic() + SECONDS
    while not holds() and time.monotonic() < ends:
        time.sleep(0.02)


class Front(Proxy):
    """nginx with a configuration of examples/serve."""

    def __init__(self, name, folder, own, replaced):
        self.begin("nginx", "serve/" + name, folder, own, replaced)


def in_turn(faults):
    """A plan with each of these faults in turn, on a third of the requests."""
    return lambda number: faults[number % len(faults)] if number % 3 == 0 else None


def told_by(connect):
    """Has six clients write in bulk, each on a connection of its own. Returns what they were told is written of each document, in order."""
    told = {}

    def client(number):
        connection = connect()
        for turn in range(20):
            operations = [("%d-%d" % (number, it), '{"n":%d}' % turn) for it in range(3)]
            connection.request("POST", "/_bulk", body_of(operations), {"Content-Type": "application/x-ndjson"})
            answer = connection.getresponse()
            value = json.loads(answer.read())
            if answer.status == 200 and not value["errors"]:
                for identity, source in operations:
                    told.setdefault(identity, []).append(source)
        connection.close()

    together([lambda number=number: client(number) for number in range(6)])
    return told


def judge(name, server, told):
    """What the clients were told is what was applied."""
    found = {identity: [row[2] for row in server.index.applied.get(("books", identity), [])] for identity in told}
    wrong = [it for it in told if found[it] != told[it]]
    check("%s, what was told is what was applied, in order" % name, len(told) == 18 and not wrong, wrong[:3])


def behind_tls():
    """Clients over TLS, through nginx in front of the relay: what they are told is what was applied."""
    if lacks("relay serve behind nginx", nginx="nginx-light", openssl="openssl"):
        return
    with tempfile.TemporaryDirectory() as folder:
        key, chain = certificate(folder)
        server = Server(plan=in_turn(FAULTS))
        serve = Serve(server, "--workers", "8", "--lanes", "2", "--attempts", "32")
        replaced = {"127.0.0.1:9300": "127.0.0.1:%s" % serve.port, "/etc/relay/chain.pem": chain, "/etc/relay/key.pem": key}
        front = Front("tls.conf", folder, "127.0.0.1:9343", replaced)
        context = ssl.create_default_context(cafile=chain)
        context.check_hostname = False
        told = told_by(lambda: http.client.HTTPSConnection("127.0.0.1", front.port, timeout=60, context=context))
        judge("through TLS", server, told)
        front.close()
        check("the stop behind TLS", serve.stop()[0] == 0)
        server.close()


def before_tls():
    """An index over TLS, to which nginx adds the credentials: what the clients are told is what was applied, and each request has them."""
    if lacks("relay serve in front of nginx", nginx="nginx-light", openssl="openssl"):
        return
    with tempfile.TemporaryDirectory() as folder:
        key, chain = certificate(folder)
        # nginx takes an interim answer that it did not ask for as the whole one.
        server = TlsServer(key, chain, plan=in_turn([it for it in FAULTS if it != "interim"]))
        proxy = Proxy("nginx", folder, server, chain)
        serve = Serve(proxy, "--workers", "8", "--lanes", "2", "--attempts", "32")
        judge("in front of TLS", server, told_by(serve.connect))
        right = server.heads and all(CREDENTIAL.lower() in it.lower() for it in server.heads)
        check("in front of TLS, each request has the credential", right, server.heads[:1])
        check("the stop in front of TLS", serve.stop()[0] == 0)
        proxy.close()
        server.close()


def together(calls):
    threads = [threading.Thread(target=it) for it in calls]
    for thread in threads:
        thread.start()
    for thread in threads:
        thread.join()


def shared(by, share):
    """Two relays, each with a counter of its own for its epoch, before one index: each share's writes come from one of them, in order.
    `share` gives the share of a document."""
    with tempfile.TemporaryDirectory() as folder:
        server, wrong = CounterServer(), []
        # The second one was started once before, so the versions say which of them wrote.
        server.versions[b"/relay/_doc/epoch-1"] = 1
        relays = [Serve(server, "--workers", "8", "--lanes", "2", "--epoch-from", "relay/epoch-%d" % number) for number in range(2)]
        check("shared out by %s: each has its own epoch" % by, [relay.epoch() for relay in relays] == [1, 2], [it.begun for it in relays])
        ports = {"127.0.0.1:93%d0" % number: "127.0.0.1:%s" % relay.port for number, relay in enumerate(relays)}
        front = Front("shares.conf", folder, "127.0.0.1:9200", {**ports, "hash $share": by})

        def client(number):
            connection = http.client.HTTPConnection("127.0.0.1", front.port, timeout=60)
            for turn in range(15):
                for index in INDEXES:
                    connection.request("PUT", "/%s/_doc/%d" % (index, number), b'{"n":%d}' % turn)
                    answer = connection.getresponse()
                    answer.read()
                    wrong.extend([answer.status] if answer.status not in (200, 201) else [])
            connection.close()

        together([lambda number=number: client(number) for number in range(6)])
        rows = server.index.applied
        check("shared out by %s: all is written" % by, not wrong and len(rows) == 24, wrong[:3])
        check("shared out by %s: in order" % by, all([row[2] for row in it] == ['{"n":%d}' % turn for turn in range(15)] for it in rows.values()))
        epochs = {}
        for key, it in rows.items():
            epochs.setdefault(share(key), set()).update(row[0] >> 40 for row in it)
        check("shared out by %s: a share is one relay's, and each has some" % by, sorted(set(map(tuple, epochs.values()))) == [(1,), (2,)], epochs)
        check("shared out by %s: what has no share is refused" % by, asked(front, "POST", "/_bulk", body_of([("1", "{}")])) == 400)
        relays[0].process.kill()
        relays[0].process.wait()
        statuses = {number: asked(front, "PUT", "/%s/_doc/later-%d" % (INDEXES[number % 4], number), b"{}") for number in range(40)}
        fresh = {key: it for key, it in rows.items() if key[1].startswith("later")}
        check("shared out by %s: a relay that is down keeps its share" % by, set(statuses.values()) == {201, 502} and {row[0] >> 40 for it in fresh.values() for row in it} == {2}, statuses)
        check("shared out by %s: what was answered as written is" % by, len(fresh) == list(statuses.values()).count(201), statuses)
        front.close()
        check("shared out by %s: the stop" % by, relays[1].stop()[0] == 0)
        server.close()


def asked(front, method, target, body):
    """Sends a request on a connection of its own, and returns the status."""
    connection = http.client.HTTPConnection("127.0.0.1", front.port, timeout=60)
    connection.request(method, target, body)
    status = connection.getresponse().status
    connection.close()
    return status


def several():
    if lacks("several relays behind nginx", nginx="nginx-light"):
        return
    shared("hash $share", lambda key: key[0])
    shared("hash $uri", lambda key: key)


class Queue:
    """A Redis server on a free port, in a folder, and a connection to it."""

    def __init__(self, folder):
        sys.path.insert(0, EXAMPLES)
        import consume

        self.port, self.folder = free_port(), folder
        self.process = subprocess.Popen(["redis-server", "--port", "%d" % self.port, "--bind", "127.0.0.1", "--dir", folder, "--save", ""], stdin=subprocess.DEVNULL, stdout=subprocess.DEVNULL)
        self.redis = []
        wait_until(lambda: self.connected(consume))
        self.ask = self.redis[0].ask

    def connected(self, consume):
        try:
            self.redis.append(consume.Redis(self.port))
        except OSError:
            return False
        return True

    def consumer(self, stream, port):
        return subprocess.Popen([sys.executable, os.path.join(EXAMPLES, "consume.py"), "%d" % self.port, stream, "%d" % port], stdin=subprocess.DEVNULL)

    def rest(self, stream):
        """How many entries of a stream were not acknowledged."""
        groups = self.ask("XINFO", "GROUPS", stream)
        if not groups:
            return None
        values = dict(zip(groups[0][::2], groups[0][1::2]))
        handed = self.ask("XRANGE", stream, "(" + values[b"last-delivered-id"].decode(), "+")
        return int(values[b"pending"]) + len(handed)


def share_of(identity):
    return zlib.crc32(identity.encode()) % 2


def queued():
    """Writes in two streams of Redis, by document, each with a relay behind it. Consumers and relays are killed meanwhile: in the end
    each document is as its last write left it, and what the index refused stands in a stream, with the reason."""
    if lacks("relay serve behind Redis", redis_server="redis-server"):
        return
    dice = random.Random(29)
    with tempfile.TemporaryDirectory() as folder:
        queue, server = Queue(folder), Server(refuse=lambda meta: 400 if meta["_id"] == "bad" else None, delay=lambda: 0.005)
        files, last = [os.path.join(folder, "epoch-%d" % share) for share in range(2)], {}
        options = lambda share: ("--workers", "4", "--lanes", "2", "--epoch-file", files[share])
        relays = [Serve(server, *options(share)) for share in range(2)]
        for number in range(3000):
            identity = "bad" if number % 500 == 7 else "%d" % dice.randrange(40)
            source = None if number % 11 == 0 else '{"n":%d}' % number
            fields = ["index", "books", "id", identity, *(["source", source] if source else [])]
            queue.ask("XADD", "writes-%d" % share_of(identity), "*", *fields)
            last[identity] = source
        consumers = [queue.consumer("writes-%d" % share, relays[share].port) for share in range(2)]
        for turn in range(3):
            wanted = server.requests + 5
            wait_until(lambda: server.requests >= wanted or not any(queue.rest("writes-%d" % share) for share in range(2)))
            share = turn % 2
            consumers[share].kill()
            consumers[share].wait()
            relays[share].process.kill()
            relays[share].process.wait()
            relays[share] = Serve(server, *options(share))
            consumers[share] = queue.consumer("writes-%d" % share, relays[share].port)
        wait_until(lambda: all(queue.rest("writes-%d" % share) == 0 for share in range(2)))
        found = {key[1]: rows[-1][2] for key, rows in server.index.applied.items()}
        check("from a queue, each document is as its last write left it", found == {key: it for key, it in last.items() if key != "bad"}, (found, last))
        entries = queue.ask("XRANGE", "writes-%d:refused" % share_of("bad"), "-", "+")
        refused = [dict(zip(fields[::2], fields[1::2])) for _, fields in entries]
        check("from a queue, what was refused is told", len(refused) >= 6 and all(it[b"id"] == b"bad" and it[b"status"] == b"400" and b"planned" in it[b"reason"] for it in refused), refused[:2])
        for process in consumers:
            process.kill()
            process.wait()
        check("the stops behind a queue", all(relay.stop()[0] == 0 for relay in relays))
        queue.process.terminate()
        queue.process.wait(20)
        server.close()


def unit():
    """The unit of systemd, by its commands: it stops once what was taken is answered."""
    with open(os.path.join(EXAMPLES, "relay.service"), encoding="utf-8") as file:
        lines = dict(line.rstrip("\n").split("=", 1) for line in file if "=" in line and line[0] != "#")
    with tempfile.TemporaryDirectory() as folder:
        server, port = Server(delay=lambda: 0.5), free_port()
        start = lines["ExecStart"].replace("127.0.0.1:9300", "127.0.0.1:%d" % port).replace("127.0.0.1:9201", "127.0.0.1:%d" % server.port)
        start = start.replace("/var/lib/relay", folder).replace("exec relay", "exec " + RELAY)
        name, value = lines["Environment"].split("=", 1)
        process = subprocess.Popen(["sh", "-c", "exec " + start], env={**os.environ, name: value}, stdin=subprocess.DEVNULL, stdout=subprocess.PIPE, stderr=subprocess.PIPE)
        process.stderr.readline()
        answers = []

        def client():
            connection = http.client.HTTPConnection("127.0.0.1", port, timeout=60)
            connection.request("PUT", "/books/_doc/1", b"{}")
            answers.append(connection.getresponse().status)

        asking = threading.Thread(target=client)
        asking.start()
        wait_until(lambda: server.heads)
        # Its parent notes that it has ended, as systemd does.
        threading.Thread(target=process.wait).start()
        began = time.monotonic()
        stop = subprocess.run(["sh", "-c", lines["ExecStop"]], env={**os.environ, "MAINPID": "%d" % process.pid}, timeout=60)
        asking.join()
        check("the unit stops once what it took is answered", stop.returncode == 0 and answers == [201] and process.poll() is not None and time.monotonic() - began < 30, (stop, answers, process.poll()))
        check("the unit's counts", process.communicate(timeout=60)[0] == b"applied 1 already 0 reported 0\n")
        server.close()


def read_by_prometheus():
    """Debian's Prometheus reads the metrics, and its own check is content with them."""
    if lacks("metrics read by Prometheus", prometheus="prometheus", promtool="prometheus"):
        return
    with tempfile.TemporaryDirectory() as folder:
        server = Server()
        serve, port = Serve(server, "--workers", "4", "--lanes", "2"), free_port()
        serve.ask("POST", "/_bulk", body_of([("1", "{}"), ("2", "{}"), ("3", "{}")]))
        text = serve.whole("GET", "/_relay/metrics")[2]
        checked = subprocess.run(["promtool", "check", "metrics"], input=text, capture_output=True, timeout=60)
        check("promtool is content with the metrics", checked.returncode == 0 and not checked.stdout + checked.stderr, checked)
        path = os.path.join(folder, "prometheus.yml")
        with open(path, "w") as file:
            file.write("scrape_configs:\n  - job_name: relay\n    scrape_interval: 1s\n    metrics_path: /_relay/metrics\n    static_configs:\n      - targets: ['127.0.0.1:%d']\n" % serve.port)
        words = ["prometheus", "--config.file=" + path, "--storage.tsdb.path=" + os.path.join(folder, "data"), "--web.listen-address=127.0.0.1:%d" % port]
        watching = subprocess.Popen(words, stdin=subprocess.DEVNULL, stdout=subprocess.DEVNULL, stderr=subprocess.DEVNULL)
        query = 'http://127.0.0.1:%d/api/v1/query?query=relay_operations_total{end="applied"}' % port

        def collected():
            try:
                with urllib.request.urlopen(query.replace("{", "%7B").replace("}", "%7D").replace('"', "%22"), timeout=5) as answer:
                    found = json.load(answer)["data"]["result"]
            except (OSError, ValueError):
                return False
            return [it["value"][1] for it in found] == ["3"]

        wait_until(collected)
        check("Prometheus has what was applied", collected())
        watching.terminate()
        watching.wait(20)
        check("the stop under Prometheus", serve.stop()[0] == 0)
        server.close()


GROUPS = (behind_tls, before_tls, several, queued, unit, read_by_prometheus)
