"""Third-party clients of `relay serve`: what each believes of its writes is exactly what the index behind holds. They are curl, and
Python's, Perl's, Ruby's and Go's, of the packages that Debian has; the tests of one that is not installed say so, and are skipped."""
import json
import os
import random
import shutil
import subprocess
import sys
import tempfile

from bulk_server import Server
from client_cases import helpers
from program import check, skip
from run_cases import FAULTS
from serve_cases import Serve

HERE = os.path.dirname(os.path.abspath(__file__))


def actions(way, count, seed):
    """Actions on a few documents of the way's own index: some have no id, some the index refuses, and a delete finds a document.
    A client that sends in parallel has no order of its own, so it deletes nothing."""
    dice, found, live = random.Random(seed), [], set()
    name = "b\u00fccher-%s" % way.replace("_", "-")
    for number in range(count):
        identity = ("%d", "x y/%d", "\u00e9\"\\%d", "bad %d")[number % 4] % dice.randrange(5)
        action = {"_index": name, "_id": identity}
        if identity in live and dice.random() < 0.25 and way != "parallel":
            live.discard(identity)
            found.append({**action, "_op_type": "delete"})
            continue
        if dice.random() < 0.1:
            del action["_id"]
        elif not identity.startswith("bad"):
            live.add(identity)
        found.append({**action, "_source": {"n": number, "text": "\u00fc\n\u2028" + "x" * dice.randrange(50)}})
    return found


def is_bad(action):
    return action.get("_id", "").startswith("bad")


def source_of(action):
    return None if action.get("_op_type") == "delete" else action["_source"]


def judge(name, server, wanted, told, ordered):
    """Each item is that of its action, and says written exactly for what the index applied, with the version and the source."""
    applied, wrong, used = server.index.applied, [], 0
    by_document = {}
    for action, (good, answer) in zip(wanted, told):
        (kind, item), = answer.items()
        right = good != is_bad(action)
        if good:
            used += 1
            rows = {row[0]: (row[1], row[2]) for row in applied.get((action["_index"], item["_id"]), [])}
            row = rows.get(item["_version"])
            right = right and row is not None and row[0] == kind and (json.loads(row[1]) if row[1] else None) == source_of(action)
            right = right and item["_id"] == action.get("_id", item["_id"])
            by_document.setdefault((action["_index"], item["_id"]), []).append(item["_version"])
        if not right:
            wrong.append((action, good, answer))
    check("%s: an item for each action" % name, len(told) == len(wanted), (len(told), len(wanted)))
    check("%s: what the client believes" % name, not wrong, wrong[:2])
    count = sum(len(rows) for (index, _), rows in applied.items() if index == wanted[0]["_index"])
    check("%s: nothing else was applied" % name, used == count, (used, count))
    if ordered:
        unordered = [it for it, versions in by_document.items() if versions != [row[0] for row in applied[it]]]
        check("%s: each document's writes in their order" % name, not unordered, unordered[:2])


def judge_counted(name, server, wanted, said):
    written, failed = said
    bad = [it for it in wanted if is_bad(it)]
    count = sum(len(rows) for (index, _), rows in server.index.applied.items() if index == wanted[0]["_index"])
    check("%s: how many were written" % name, written == len(wanted) - len(bad) == count, (written, count))
    check("%s: what was not" % name, [it["index"]["_id"] for it in failed] == [it["_id"] for it in bad], failed[:2])


def write(name, command, serve, server, way, wanted, count):
    words = json.dumps({"port": serve.port, "way": way, "actions": wanted, "count": count})
    done = subprocess.run(command, input=words.encode(), capture_output=True, timeout=300)
    check("%s: the client ends" % name, done.returncode == 0 and done.stderr == b"", done.stderr[-600:])
    told = [json.loads(line) for line in done.stdout.splitlines()]
    if done.returncode == 0 and way == "counted":
        judge_counted(name, server, wanted, told[0])
    elif done.returncode == 0:
        judge(name, server, wanted, told, way != "parallel")


def writes(client, command, ways):
    """The client writes in each of the ways, to an index without faults and to one with all of them."""
    dice = random.Random(54)
    for kind, plan in (("", lambda number: None), (" under faults", lambda number: dice.choice([None, None, *FAULTS]))):
        server = Server(plan, refuse=lambda meta: 400 if meta["_id"].startswith("bad") else None)
        serve = Serve(server, "--workers", "6", "--lanes", "3", "--attempts", "32")
        for way in ways:
            wanted = actions(way, 60 if way == "one_by_one" else 400, "%s%s" % (way, kind))
            write("%s, %s%s" % (client, way, kind), command, serve, server, way, wanted, 37)
        status, out, err = serve.stop()
        check("the stop after %s%s" % (client, kind), (status, err) == (0, b""), (status, out, err))
        server.close()


def runs(*command):
    """Whether there is such a program, and it ends well."""
    return shutil.which(command[0]) is not None and subprocess.run(command, capture_output=True).returncode == 0


def curl_client():
    if not runs("curl", "--version"):
        return skip("curl against relay serve", "curl")
    writes("curl", [sys.executable, os.path.join(HERE, "foreign_curl.py")], ("one_by_one", "whole", "chunked", "large"))


def python_client():
    python = helpers()
    if python is None:
        return skip("the Elasticsearch helpers against relay serve", "python3-elasticsearch of version 7")
    command = [python, "-W", "ignore", os.path.join(HERE, "foreign_writer.py")]
    writes("the Python client", command, ("one_by_one", "whole", "counted", "streaming", "parallel"))


def perl_client():
    if not runs("perl", "-MSearch::Elasticsearch", "-e", "1"):
        return skip("Perl's Search::Elasticsearch against relay serve", "libsearch-elasticsearch-perl")
    writes("the Perl client", ["perl", os.path.join(HERE, "foreign_writer.pl")], ("one_by_one", "whole", "helper"))


def ruby_client():
    if not runs("ruby", "-e", "require 'elasticsearch'"):
        return skip("Ruby's elasticsearch against relay serve", "ruby-elasticsearch")
    writes("the Ruby client", ["ruby", "-W0", os.path.join(HERE, "foreign_writer.rb")], ("one_by_one", "whole"))


def go_client():
    with tempfile.TemporaryDirectory() as folder:
        place = os.path.join(folder, "foreign_writer")
        environment = {**os.environ, "GOPATH": "/usr/share/gocode", "GO111MODULE": "off", "GOCACHE": os.path.join(folder, "cache")}
        if not shutil.which("go") or not os.path.exists("/usr/share/gocode/src/gopkg.in/olivere/elastic.v5"):
            return skip("Go's olivere/elastic against relay serve", "golang-go and golang-gopkg-olivere-elastic.v5-dev")
        done = subprocess.run(["go", "build", "-o", place, os.path.join(HERE, "foreign_writer.go")], env=environment, capture_output=True, text=True)
        check("the Go client builds", done.returncode == 0, done.stderr[-600:])
        if done.returncode == 0:
            writes("the Go client", [place], ("one_by_one", "whole", "processor"))


GROUPS = (curl_client, python_client, perl_client, ruby_client, go_client)
