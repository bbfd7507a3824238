"""A third-party client of `relay serve`: curl, as scripts use it. It reads what to write as JSON from standard input, and prints what it
believes of each operation, one JSON text per line: whether it was written, its action and its item. It fails if curl does, or if curl
does not ask before it sends a large body.
"""
import json
import subprocess
import sys
from urllib.parse import quote


def curl(wanted, method, target, body=None, *more):
    """Returns whether the status says that all went well, the answer, and what curl says of the heads."""
    words = ["curl", "-q", "--noproxy", "*", "-sSv", "--fail-with-body", "-X", method, *more]
    words += [] if body is None else ["-H", "Content-Type: application/json", "--data-binary", "@-"]
    done = subprocess.run([*words, "http://127.0.0.1:%d%s" % (wanted["port"], target)], input=body or b"", capture_output=True)
    # 22 is a status that is no success.
    if done.returncode not in (0, 22):
        raise OSError(done.stderr)
    return done.returncode == 0, json.loads(done.stdout), done.stderr


def one_by_one(wanted):
    for action in wanted["actions"]:
        deletes = action.get("_op_type") == "delete"
        method = "DELETE" if deletes else "PUT" if "_id" in action else "POST"
        target = "/%s/_doc" % quote(action["_index"]) + ("/" + quote(action["_id"], safe="") if "_id" in action else "")
        good, item, _ = curl(wanted, method, target, None if deletes else json.dumps(action["_source"]).encode())
        yield good, {"delete" if deletes else "index": item}


def lines_of(action, blanks):
    kind = action.get("_op_type", "index")
    yield json.dumps({kind: {it: action[it] for it in ("_index", "_id") if it in action}})
    if kind == "index":
        yield json.dumps(action["_source"]) + " " * blanks


def bulk(wanted, *more, count, blanks=0):
    """One request for each `count` actions, with so many blanks after each source. Yields the items of each, and what curl says."""
    for at in range(0, len(wanted["actions"]), count):
        body = "".join(line + "\n" for action in wanted["actions"][at:at + count] for line in lines_of(action, blanks))
        good, answer, heads = curl(wanted, "POST", "/_bulk", body.encode(), *more)
        if not good:
            raise OSError(answer)
        yield [("error" not in next(iter(it.values())), it) for it in answer["items"]], heads


def whole(wanted):
    for items, _ in bulk(wanted, count=wanted["count"]):
        yield from items


def chunked(wanted):
    for items, _ in bulk(wanted, "-H", "Transfer-Encoding: chunked", count=wanted["count"]):
        yield from items


def large(wanted):
    """All in one body of more than 1 MiB, which curl sends once it got 100 Continue."""
    for items, heads in bulk(wanted, count=len(wanted["actions"]), blanks=4_000):
        if b"\n> Expect: 100-continue\r\n" not in heads or b"\n< HTTP/1.1 100 Continue\r\n" not in heads:
            raise OSError(heads)
        yield from items


WAYS = {it.__name__: it for it in (one_by_one, whole, chunked, large)}


def main():
    wanted = json.load(sys.stdin)
    for said in WAYS[wanted["way"]](wanted):
        print(json.dumps(said))


main()
