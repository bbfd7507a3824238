"""Passes operations to a helper of Python's Elasticsearch client: `python3 compare_helpers.py PORT FILE KIND`, where KIND is
`streaming`, `streaming-external` (with versions, the numbers of the operations) or `parallel`. It retries as its documentation
shows, at most 8 times. Prints as JSON the numbers of the operations that it reports as failed."""
import json
import sys

import elasticsearch
from elasticsearch.helpers import parallel_bulk, streaming_bulk


def operations(path, versions):
    with open(path) as file:
        for line in file:
            metadata, source = json.loads(line)["index"], json.loads(next(file))
            if versions:
                metadata = {**metadata, "version": source["seq"], "version_type": "external"}
            yield {"_op_type": "index", **metadata, "_source": source}


def number_of(info):
    """Returns the number of the operation that a failure is about: its own, if there was no answer."""
    failure = info["index"]
    return failure["data"]["seq"] if "data" in failure else int(failure["_type"])


def main():
    port, path, kind = sys.argv[1:]
    client = elasticsearch.Elasticsearch(["http://127.0.0.1:%s" % port], maxsize=16, max_retries=3, retry_on_timeout=True)
    ops = operations(path, kind == "streaming-external")
    if kind == "parallel":
        results = parallel_bulk(client, ops, thread_count=4, chunk_size=500, raise_on_error=False, raise_on_exception=False)
    else:
        results = streaming_bulk(client, ops, chunk_size=500, max_retries=8, initial_backoff=0.01, max_backoff=1, raise_on_error=False, raise_on_exception=False)
    print(json.dumps([number_of(info) for done, info in results if not done]))


main()
