"""Generates the reply to a bulk request for the benchmark. It is seeded, so each run gets the same bytes."""
import json
import random
import sys


def item(rng, number):
    """One item of a reply: nine in ten are index actions, the rest deletes, and a tenth of either conflict."""
    name = "delete" if rng.randrange(10) == 0 else "index"
    fields = {"_index": "books", "_id": str(rng.randrange(100000))}
    version = rng.randrange(1, 1000000)
    if rng.randrange(10) == 0:
        reason = "[%s]: version conflict, current version [%d] is higher" % (fields["_id"], version)
        error = {"type": "version_conflict_engine_exception", "reason": reason, "index": "books", "shard": "0"}
        return {name: {**fields, "status": 409, "error": error}}
    created = name == "index" and rng.randrange(2) == 0
    fields["_version"] = version
    fields["result"] = "created" if created else "deleted" if name == "delete" else "updated"
    fields["_shards"] = {"total": 2, "successful": 1, "failed": 0}
    fields["_seq_no"] = number
    fields["_primary_term"] = 1
    fields["status"] = 201 if created else 200
    return {name: fields}


def main():
    rng = random.Random(20260101)
    items = [item(rng, number) for number in range(int(sys.argv[1]))]
    errors = any("error" in fields for entry in items for fields in entry.values())
    json.dump({"took": 30, "errors": errors, "items": items}, sys.stdout, separators=(",", ":"))


main()
