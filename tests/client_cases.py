"""What `relay stub` answers to a third-party client: Python's Elasticsearch helpers, major version 7, which Debian has
as python3-elasticsearch. If they are not installed, the tests print that and are skipped."""
import json
import os
import random
import subprocess
import sys

from bulk_server import Index
from program import check, skip
from run_cases import wait_for
from stub_cases import Stub

# Interpreters that may have the helpers: this one, and the one that Debian's package installs them for.
PYTHONS = (sys.executable, "/usr/bin/python3")
CLIENT = os.path.join(os.path.dirname(os.path.abspath(__file__)), "foreign_client.py")
FIND = "import elasticsearch, elasticsearch.helpers; print(elasticsearch.__version__[0])"


def helpers():
    """Returns an interpreter that has version 7 of the helpers, or None."""
    for python in PYTHONS:
        if os.path.exists(python) and subprocess.run([python, "-c", FIND], capture_output=True).stdout == b"7\n":
            return python
    return None


def actions(count, documents, size):
    """Index actions and deletes with external versions, most of them increasing, on documents with all sorts of names."""
    dice = random.Random(7)
    found = []
    for number in range(count):
        document = dice.randrange(documents)
        action = {"_index": "books" if document % 3 else "b\u00fccher", "_id": ("%d", "x y/%d", "\u00e9\"\\%d", "\u6771\u4eac %d")[document % 4] % document}
        action["version"] = number + 1 if dice.randrange(5) else dice.randrange(1, number + 2)
        action["version_type"] = "external"
        if dice.randrange(4) == 0:
            action["_op_type"] = "delete"
        else:
            action["_source"] = {"n": number, "text": "\u00fc\n" + "x" * dice.randrange(size)}
        found.append(action)
    return found


def expected(index, wanted, count, retries, refused):
    """Returns what the client should report, worked out on an index of our own, and how many requests that takes. The requests
    have `count` actions and are sent one after another; those refused with 429 are sent again right after their request."""
    told, requests, place = [], 0, 0
    for at in range(0, len(wanted), count):
        batch = wanted[at : at + count]
        for attempt in range(retries + 1):
            again, requests = [], requests + 1
            for action in batch:
                place += 1
                kind = action.get("_op_type", "index")
                status = refused.get(place)
                if status == 429 and attempt < retries:
                    again.append(action)
                    continue
                status = status or index.run(kind, action, None)[kind]["status"]
                told.append((status < 300, kind, action["_index"], action["_id"], status))
            batch = again
            if not batch:
                break
    return told, requests


def listing(index):
    """Returns what the stub should print at its end if this was applied."""
    lines = []
    for (name, identity), writes in index.applied.items():
        for version, kind, _ in writes:
            lines.append((name.encode(), identity.encode(), version, kind.encode()))
    return b"".join(b"applied %s/%s %d %s\n" % line for line in sorted(lines, key=lambda it: it[:3]))


def ask(name, python, wanted, count, retries=0, refused=None):
    """The client sends these actions, and both what it reports and what the stub prints are as expected."""
    refused = refused or {}
    index = Index()
    told, requests = expected(index, wanted, count, retries, refused)
    stub = Stub(requests, ",".join("%d:%d" % it for it in sorted(refused.items())) or None)
    wait_for(stub)
    words = json.dumps({"port": stub.port, "actions": wanted, "count": count, "retries": retries})
    done = subprocess.run([python, "-W", "ignore", CLIENT], input=words.encode(), capture_output=True, timeout=60)
    check("%s: the client ends" % name, done.returncode == 0 and done.stderr == b"", done.stderr[-600:])
    found = []
    for line in done.stdout.splitlines():
        good, answer = json.loads(line)
        (kind, item), = answer.items()
        found.append((good, kind, item["_index"], item["_id"], item["status"]))
    check("%s: what the client tells" % name, found == told, (len(found), len(told)))
    if done.returncode != 0:
        stub.process.kill()
    stub.ends("%s: what was applied" % name, listing(index))


def foreign_client():
    python = helpers()
    if python is None:
        return skip("the Elasticsearch helpers against relay stub", "python3-elasticsearch of version 7")
    wanted = actions(200, 12, 100)
    ask("requests of 7", python, wanted, 7)
    ask("one request", python, wanted, 500)
    ask("refusals that are sent again", python, wanted, 50, 3, {3: 429, 17: 429, 49: 429, 51: 429, 55: 429, 120: 429})
    ask("refusals that stay", python, wanted, 50, 0, {3: 429, 17: 400, 60: 503, 199: 429})
    ask("a large request", python, actions(3000, 3000, 4000), 3000)


GROUPS = (foreign_client,)
