"""Runs through nginx, haproxy and stunnel, each with its configuration from examples/proxies, to a server over TLS. A proxy
that is not installed is skipped, with a message. Each proxy is stopped through its own process."""
import base64
import os
import shutil
import socket
import ssl
import subprocess
import tempfile
import threading
import time

from bulk_server import Server
from program import check, skip
from run_cases import judge, operations, relay_run, written
from stub_cases import free_port

TOP = os.path.dirname(os.path.dirname(os.path.abspath(__file__)))
NAME = "search.example.org"
# The proxies, and Debian's package of each.
PACKAGES = {"nginx": "nginx-light", "haproxy": "haproxy", "stunnel4": "stunnel4"}
CREDENTIAL = b"authorization: basic " + base64.b64encode(b"relay:secret")


def certificate(folder):
    """Makes a certificate for the server's name, and its key, in one file each."""
    key, chain = os.path.join(folder, "key.pem"), os.path.join(folder, "chain.pem")
    subprocess.run(["openssl", "req", "-x509", "-newkey", "rsa:2048", "-nodes", "-days", "2", "-subj", "/CN=" + NAME, "-addext", "subjectAltName=DNS:" + NAME, "-keyout", key, "-out", chain], check=True, capture_output=True, timeout=60)
    return key, chain


class TlsServer(Server):
    """The server of the other tests, over TLS."""

    sees_all = False

    def __init__(self, key, chain, **more):
        self.context = ssl.SSLContext(ssl.PROTOCOL_TLS_SERVER)
        self.context.load_cert_chain(chain, key)
        super().__init__(**more)

    def serve(self, stream):
        try:
            inside = self.context.wrap_socket(stream, server_side=True)
        except OSError:
            return stream.close()
        with self.lock:
            self.streams.append(inside)
        return super().serve(inside)


def configuration(name):
    """Returns the configuration in this file of the examples."""
    with open(os.path.join(TOP, "examples", name), encoding="utf-8") as file:
        return file.read()


class Proxy:
    """A proxy with the example configuration, in which only the ports and the certificate are replaced."""

    def __init__(self, kind, folder, server, chain, change=lambda text: text):
        name = {"nginx": "nginx.conf", "haproxy": "haproxy.cfg", "stunnel4": "stunnel.conf"}[kind]
        replaced = {NAME + ":9200": "127.0.0.1:%d" % server.port, "/etc/ssl/certs/ca-certificates.crt": chain}
        self.begin(kind, "proxies/" + name, folder, "127.0.0.1:9201", replaced, change)

    def begin(self, kind, name, folder, own, replaced, change=lambda text: text):
        """Starts it with this file of the examples, in which its own address and these texts are replaced."""
        self.port, text = free_port(), configuration(name)
        for old, new in {own: "127.0.0.1:%d" % self.port, **replaced}.items():
            if old not in text:
                raise ValueError("%s does not name %s" % (name, old))
            text = text.replace(old, new)
        if kind == "nginx":
            text = text.replace("http {", "http {\n" + "".join("    %s_temp_path %s;\n" % (it, folder) for it in ("client_body", "proxy", "fastcgi", "uwsgi", "scgi")))
        path = os.path.join(folder, kind + ".conf")
        with open(path, "w", encoding="utf-8") as file:
            file.write(change(self.in_front(kind, folder) + text))
        args = {"nginx": ["nginx", "-e", os.path.join(folder, "nginx.error"), "-p", folder, "-c", path], "haproxy": ["haproxy", "-db", "-q", "-f", path], "stunnel4": ["stunnel4", path]}[kind]
        self.log = open(os.path.join(folder, kind + ".log"), "wb")
        self.process = subprocess.Popen(args, stdin=subprocess.DEVNULL, stdout=self.log, stderr=self.log)
        self.wait()

    @staticmethod
    def in_front(kind, folder):
        """The lines that keep a proxy in the foreground, and its files in the folder."""
        if kind == "nginx":
            return "daemon off;\nuser %s;\npid %s/nginx.pid;\n" % ("root" if os.getuid() == 0 else "nobody", folder)
        return "foreground = yes\npid =\n" if kind == "stunnel4" else ""

    def wait(self):
        for _ in range(500):
            try:
                socket.create_connection(("127.0.0.1", self.port), 1).close()
                return
            except OSError:
                if self.process.poll() is not None:
                    break
                time.sleep(0.02)
        with open(self.log.name, "rb") as file:
            raise TimeoutError("the proxy does not listen: %s" % file.read()[-500:])

    def close(self):
        self.process.terminate()
        self.process.wait(20)
        self.log.close()


def through(kind, folder, key, chain):
    """Everything in two files is applied once and in order, and each request has the credential that the proxy adds."""
    producers = [operations(p, 300, 11) for p in range(2)]
    files = [written(folder, p, ops) for p, ops in enumerate(producers)]
    server = TlsServer(key, chain)
    proxy = Proxy(kind, folder, server, chain)
    done = relay_run(proxy.port, files, "--count", "40", "--linger", "0", "--lanes", "2")
    judge("through %s" % kind, server, producers, done)
    check("through %s: all is applied" % kind, done[1].endswith(b"applied 600 already 0 reported 0\n"), done)
    if kind != "stunnel4":
        check("through %s: each request has the credential" % kind, server.heads and all(CREDENTIAL.lower() in it.lower() for it in server.heads), server.heads[:1])
    proxy.close()
    server.close()


def restarted(kind, folder, key, chain):
    """The server is down for two seconds in the middle of a run."""
    ops = operations(0, 400, 13)
    files = [written(folder, 0, ops)]
    server = TlsServer(key, chain, delay=lambda: 0.02)
    proxy = Proxy(kind, folder, server, chain)
    done = []
    run = threading.Thread(target=lambda: done.append(relay_run(proxy.port, files, "--count", "20", "--linger", "0")))
    run.start()
    while server.requests < 4 and run.is_alive():
        time.sleep(0.01)
    server.rest(2)
    run.join()
    judge("%s, with the server restarted" % kind, server, [ops], done[0])
    check("%s, with the server restarted: all is applied" % kind, done[0][1].endswith(b" reported 0\n") and server.requests > 20, done[0])
    proxy.close()
    server.close()


def limited(kind, folder, key, chain):
    """The proxy refuses bodies over 2,000 bytes with 413: requests are halved until they pass."""
    ops = operations(0, 200, 17)
    files = [written(folder, 0, ops)]
    server = TlsServer(key, chain)
    if kind == "nginx":
        change = lambda text: text.replace("client_max_body_size 17m;", "client_max_body_size 2000;")
    else:
        change = lambda text: text.replace("    default_backend", "    http-request deny deny_status 413 if { req.hdr_val(content-length) gt 2000 }\n    default_backend")
    proxy = Proxy(kind, folder, server, chain, change)
    done = relay_run(proxy.port, files, "--count", "100", "--linger", "0")
    judge("%s with a limit below the batch" % kind, server, [ops], done)
    check("%s with a limit below the batch: all is applied" % kind, done[1].endswith(b"applied 200 already 0 reported 0\n"), done)
    check("%s with a limit below the batch: no body passes it" % kind, server.requests >= 200 * 60 // 2000, server.requests)
    proxy.close()
    server.close()


def proxies():
    for kind in PACKAGES:
        lacking = [package for program, package in ((kind, PACKAGES[kind]), ("openssl", "openssl")) if shutil.which(program) is None]
        if lacking:
            skip("a run through %s" % kind, " and ".join(lacking))
            continue
        with tempfile.TemporaryDirectory() as folder:
            key, chain = certificate(folder)
            through(kind, folder, key, chain)
            restarted(kind, folder, key, chain)
            if kind != "stunnel4":
                limited(kind, folder, key, chain)


GROUPS = (proxies,)
