"""What `relay run` does with the addresses of a name, and with its connections to a server that acknowledges late."""
import os
import socket
import statistics
import subprocess
import tempfile
import time

from bulk_server import Server
from option_cases import Pipe
from program import RELAY, check, unlogged
from run_cases import written

# Runs a command with another table of hosts, in a mount namespace of its own.
WITH_HOSTS = ("unshare", "--user", "--map-root-user", "--mount", "sh", "-c", 'mount --bind "$0" /etc/hosts && exec "$@"')
TWO_ADDRESSES = "127.0.0.1 twice.example\n::1 twice.example\n"


class At(Server):
    """A server that listens on one address."""

    def __init__(self, family, host):
        self.family, self.host = family, host
        super().__init__()


def is_possible(hosts):
    """Whether this machine has both addresses, and lets a command see another table of hosts."""
    try:
        socket.create_server(("::1", 0), family=socket.AF_INET6).close()
        return subprocess.run([*WITH_HOSTS, hosts, "true"], stdin=subprocess.DEVNULL, capture_output=True).returncode == 0
    except OSError:
        return False


def names_with_two_addresses():
    """A server that listens on one of a name's two addresses is reached, whichever it is, with a time limit and without one."""
    with tempfile.TemporaryDirectory() as folder:
        hosts, path = os.path.join(folder, "hosts"), written(folder, 0, [("1", "{}")])
        with open(hosts, "w") as file:
            file.write(TWO_ADDRESSES)
        if not is_possible(hosts):
            return print("SKIPPED: a name with two addresses needs IPv6 and mount namespaces, which this machine does not allow")
        for family, host in ((socket.AF_INET, "127.0.0.1"), (socket.AF_INET6, "::1")):
            for limit in ("0", "5"):
                server = At(family, host)
                args = [RELAY, "run", "--to", "twice.example:%d" % server.port, "--timeout", limit, "--attempts", "1", path]
                done = subprocess.run([*WITH_HOSTS, hosts, *args], stdin=subprocess.DEVNULL, capture_output=True, timeout=60)
                found = (done.returncode, done.stdout, unlogged(done.stderr))
                check("only %s answers, --timeout %s" % (host, limit), found == (0, b"applied 1 already 0 reported 0\n", b""), found)
                server.close()


class Lazy(Server):
    """A server that delays its acknowledgements as long as the system allows, and notes the time from each request's head to its
    last byte."""

    def __init__(self):
        self.gaps = []
        super().__init__()

    def receive(self, stream):
        stream.setsockopt(socket.IPPROTO_TCP, socket.TCP_QUICKACK, 0)
        return super().receive(stream)

    def answers_early(self, stream):
        self.head_came = time.monotonic()
        return super().answers_early(stream)

    def answer(self, stream, head, body):
        self.gaps.append(time.monotonic() - self.head_came)
        return super().answer(stream, head, body)


def late_acknowledgements():
    """No part of a request waits for the acknowledgement of an earlier one (RFC 9293, section 3.7.4): a source of this size is sent
    by itself, and the line end after it follows."""
    count = 40
    with tempfile.TemporaryDirectory() as folder:
        server = Lazy()
        pipe = Pipe(folder, server, "--linger", "0", "--count", "1", "--flying", "1")
        for number in range(count):
            pipe.put(number, 20_000)
        done = pipe.ends()
        check("late acknowledgements: all is applied", done == (0, b"applied %d already 0 reported 0\n" % count, b""), done)
        check("late acknowledgements: nothing waits", len(server.gaps) == count and statistics.median(server.gaps) < 0.02, server.gaps)
        server.close()


GROUPS = (names_with_two_addresses, late_acknowledgements)
