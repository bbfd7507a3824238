"""A third-party client of `relay serve`: Python's Elasticsearch client and its helpers, as a service uses them. It reads what to
write as JSON from standard input, and prints what it believes of each operation, one JSON text per line: whether it was written,
its action and its item. Nothing of the client is skipped: it asks first whether the server is Elasticsearch.
"""
import json
import sys

import elasticsearch
from elasticsearch.helpers import bulk, parallel_bulk, streaming_bulk


def one_by_one(client, wanted):
    for action in wanted["actions"]:
        name, identity = action["_index"], action.get("_id")
        try:
            if action.get("_op_type") == "delete":
                kind, item = "delete", client.delete(index=name, id=identity)
            else:
                kind, item = "index", client.index(index=name, id=identity, document=action["_source"])
            yield "error" not in item, {kind: item}
        except elasticsearch.TransportError as error:
            yield False, {"index": {"_id": identity, "status": error.status_code, "error": error.info["error"]}}


def whole(client, wanted):
    """One call of the bulk API for each `count` actions."""
    actions = wanted["actions"]
    for at in range(0, len(actions), wanted["count"]):
        lines = []
        for action in actions[at:at + wanted["count"]]:
            kind = action.get("_op_type", "index")
            lines.append({kind: {it: action[it] for it in ("_index", "_id") if it in action}})
            lines.extend([action["_source"]] if kind != "delete" else [])
        answer = client.bulk(body=lines)
        for item in answer["items"]:
            (_, entry), = item.items()
            yield "error" not in entry, item


def counted(client, wanted):
    """`bulk` of the helpers, which tells only how many were written, and those that were not."""
    written, failed = bulk(client, wanted["actions"], chunk_size=wanted["count"], raise_on_error=False)
    yield written, failed


def streaming(client, wanted):
    return streaming_bulk(client, wanted["actions"], chunk_size=wanted["count"], raise_on_error=False)


def parallel(client, wanted):
    return parallel_bulk(client, wanted["actions"], thread_count=4, chunk_size=wanted["count"], raise_on_error=False)


WAYS = {it.__name__: it for it in (one_by_one, whole, counted, streaming, parallel)}


def main():
    wanted = json.load(sys.stdin)
    client = elasticsearch.Elasticsearch(["http://127.0.0.1:%d" % wanted["port"]], timeout=120, max_retries=0)
    for said in WAYS[wanted["way"]](client, wanted):
        print(json.dumps(said))


main()
