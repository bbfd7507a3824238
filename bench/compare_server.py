"""A server of bulk requests that knows what it applied: `python3 compare_server.py FAULT SEED` prints its port, serves until its
standard input ends, and then prints as JSON how many requests came and, for each document, the numbers of the writes applied to it.

The source of each write has its number in the input, `seq`. A write with an external version is applied if that is above the
stored one; any other is applied always. An item of a reply has the number of its write as its `_type`, so that every client can
tell which one it is about. The faults:

    none
    429     2 % of the items are refused, each time they come
    lost    5 % of the requests are applied, and the connection is closed without an answer
    dropped 5 % of the requests are not even read before the connection is closed
    both    429 and lost
    413     a body of more than 60,000 bytes is refused as a whole
"""
import asyncio
import json
import random
import sys

LARGEST, ITEM, REQUEST = 60_000, 0.02, 0.05


class Index:
    def __init__(self, fault, seed):
        self.fault, self.random = fault, random.Random(seed)
        self.versions, self.applied, self.requests = {}, {}, 0

    def run(self, metadata, source):
        """Runs one write, and returns its entry in the reply."""
        identity, seq = metadata["_id"], json.loads(source)["seq"]
        entry = {"_index": metadata["_index"], "_type": str(seq), "_id": identity}
        if self.fault in ("429", "both") and self.random.random() < ITEM:
            return {**entry, "status": 429, "error": {"type": "es_rejected_execution_exception", "reason": "queue is full"}}
        version = metadata.get("version", metadata.get("_version"))
        if version is not None:
            stored = self.versions.get(identity, 0)
            if version <= stored:
                reason = "[%s]: version conflict, current version [%d] is higher or equal to the one provided [%d]" % (identity, stored, version)
                return {**entry, "status": 409, "error": {"type": "version_conflict_engine_exception", "reason": reason}}
            self.versions[identity] = version
        self.applied.setdefault(identity, []).append(seq)
        return {**entry, "_version": version or 1, "result": "updated", "status": 200}

    def answer(self, body):
        """Returns the status and the body of the answer to a request, or None if there is none."""
        self.requests += 1
        if self.fault == "413" and len(body) > LARGEST:
            return 413, b'{"error":"content too large","status":413}'
        if self.fault == "dropped" and self.random.random() < REQUEST:
            return None
        lines = iter(body.split(b"\n"))
        items = [{"index": self.run(json.loads(line)["index"], next(lines))} for line in lines if line]
        if self.fault in ("lost", "both") and self.random.random() < REQUEST:
            return None
        errors = any("error" in item["index"] for item in items)
        return 200, json.dumps({"took": 1, "errors": errors, "items": items}).encode()


async def serve(index, reader, writer):
    try:
        while True:
            head = (await reader.readuntil(b"\r\n\r\n")).lower()
            length = next((int(it.split(b":")[1]) for it in head.split(b"\r\n") if it.startswith(b"content-length:")), 0)
            if b"expect: 100-continue" in head:
                writer.write(b"HTTP/1.1 100 Continue\r\n\r\n")
            body = await reader.readexactly(length)
            if b"/_bulk" in head.split(b"\r\n")[0]:
                answer = index.answer(body)
            else:
                answer = 200, b'{"version":{"number":"7.17.6","build_flavor":"default"},"tagline":"You Know, for Search"}'
            if answer is None:
                break
            writer.write(b"HTTP/1.1 %d X\r\nX-elastic-product: Elasticsearch\r\nContent-Type: application/json\r\nContent-Length: %d\r\n\r\n" % (answer[0], len(answer[1])))
            if not head.startswith(b"head "):
                writer.write(answer[1])
            await writer.drain()
    except (asyncio.IncompleteReadError, ConnectionError):
        pass
    writer.close()


async def main():
    index = Index(sys.argv[1], int(sys.argv[2]))
    server = await asyncio.start_server(lambda reader, writer: serve(index, reader, writer), "127.0.0.1", 0, limit=2**26)
    print(server.sockets[0].getsockname()[1], flush=True)
    await asyncio.get_running_loop().run_in_executor(None, sys.stdin.read)
    print(json.dumps({"requests": index.requests, "applied": index.applied}), flush=True)


asyncio.run(main())
