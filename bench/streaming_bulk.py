"""`relay run` as one would write it in Python: `streaming_bulk PORT FILE..` passes the operations of each file to
`streaming_bulk` of the Elasticsearch helpers, 500 per request, with increasing external versions, in one thread per file.
`streaming_bulk PORT FILE.. --parallel THREADS COUNT` passes them to `parallel_bulk`, COUNT per request: it never retries an
operation, and the requests of its threads overtake each other."""
import json
import sys
import threading

import elasticsearch
from elasticsearch.helpers import parallel_bulk, streaming_bulk


def operations(path):
    """Yields the actions for the helpers, which send a source that is a string unchanged."""
    version = 0
    with open(path) as file:
        for line in file:
            (name, metadata), = json.loads(line).items()
            version += 1
            action = {"_op_type": name, **metadata, "version": version, "version_type": "external"}
            if name == "index":
                action["_source"] = next(file).rstrip("\n")
            yield action


def send(port, path, parallel, counts):
    client = elasticsearch.Elasticsearch(["http://127.0.0.1:%s" % port], maxsize=16)
    if parallel:
        threads, count = map(int, parallel)
        results = parallel_bulk(client, operations(path), thread_count=threads, queue_size=threads, chunk_size=count, raise_on_error=False)
    else:
        results = streaming_bulk(client, operations(path), chunk_size=500, max_retries=7, initial_backoff=0.1, raise_on_error=False)
    for done, _ in results:
        counts.append(done)


def main():
    port, *paths = sys.argv[1:]
    parallel = []
    if "--parallel" in paths:
        at = paths.index("--parallel")
        paths, parallel = paths[:at], paths[at + 1:]
    counts = []
    threads = [threading.Thread(target=send, args=(port, path, parallel, counts)) for path in paths]
    for thread in threads:
        thread.start()
    for thread in threads:
        thread.join()
    print("applied %d already 0 reported %d" % (counts.count(True), counts.count(False)))


main()
