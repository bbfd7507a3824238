"""A third-party client: reads actions as JSON from standard input, passes them to `streaming_bulk` of the Elasticsearch
helpers, and prints what that returns for each, one JSON text per line.

The client would first ask whether the server is Elasticsearch, which the stand-in index does not answer. That check is
skipped here; everything else that is sent and read is the client's own.
"""
import json
import sys

import elasticsearch
from elasticsearch.helpers import streaming_bulk


def main():
    wanted = json.load(sys.stdin)
    client = elasticsearch.Elasticsearch(["http://127.0.0.1:%d" % wanted["port"]], timeout=60, max_retries=0)
    client.transport._verified_elasticsearch = True
    told = streaming_bulk(client, wanted["actions"], chunk_size=wanted["count"], max_retries=wanted["retries"], initial_backoff=0, raise_on_error=False)
    for done, answer in told:
        print(json.dumps([done, answer]))


main()
