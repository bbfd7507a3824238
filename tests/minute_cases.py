"""Outages of a minute, all at once: of an index, of an index behind a proxy, and one that only refuses. With `--give-up-after never` nothing
is reported."""
import shutil
import tempfile
import threading
import time

from bulk_server import Server
from outage_cases import refused_until, timed
from program import check, skip
from proxy_cases import PACKAGES, Proxy, TlsServer, certificate
from run_cases import judge, operations, wait_until, written

MINUTE = 60
COUNT = 1_500


def outlasts(name, server, port, goes_down):
    """Everything is applied once and in order, though the server is down for a minute after its first requests."""
    with tempfile.TemporaryDirectory() as folder:
        ops, done = operations(0, COUNT, 50), []
        path = written(folder, 0, ops)
        run = threading.Thread(target=lambda: done.append(timed(port or server.port, [path], "--give-up-after", "never", "--count", "50", "--linger", "0")))
        run.start()
        wait_until(lambda: server.requests > 3)
        goes_down(server)
        run.join()
        result, spent = done[0]
        judge(name, server, [ops], result)
        check("%s: nothing is reported" % name, result[0] == 0 and result[1].endswith(b" reported 0\n") and MINUTE < spent < 2 * MINUTE, (result, spent))
        server.close()


def directly():
    outlasts("an index that is down", Server(delay=lambda: 0.02), None, lambda server: server.rest(MINUTE))


def refusing():
    def refuse(server):
        server.refuse = refused_until(time.monotonic(), MINUTE)

    outlasts("an index that refuses items with 429", Server(delay=lambda: 0.02), None, refuse)


def through(kind):
    if shutil.which(kind) is None or shutil.which("openssl") is None:
        return skip("an outage of a minute behind %s" % kind, "%s and openssl" % PACKAGES[kind])
    with tempfile.TemporaryDirectory() as folder:
        key, chain = certificate(folder)
        server = TlsServer(key, chain, delay=lambda: 0.02)
        proxy = Proxy(kind, folder, server, chain)
        outlasts("an index that is down behind %s" % kind, server, proxy.port, lambda server: server.rest(MINUTE))
        proxy.close()


def minutes():
    cases = [threading.Thread(target=it) for it in (directly, refusing, lambda: through("nginx"), lambda: through("haproxy"))]
    for case in cases:
        case.start()
    for case in cases:
        case.join()


GROUPS = (minutes,)
