"""Hands the writes of a Redis stream to a relay: `python3 consume.py REDIS_PORT STREAM RELAY_PORT`.

Each entry of the stream has the fields `index`, `id` and, unless it is a delete, `source`. Whoever adds entries picks the stream by the
document, so that all writes of a document stand in one stream, in order; each stream has one consumer, and one relay behind it. An
entry is acknowledged once the relay has answered that it was written, or that the index refused it; those go to the stream
STREAM:refused, with the reason. Whatever happens to the consumer or to the relay, an entry that was not acknowledged is handed
over again, with all that came after it in its batch: so an older write does not stay the last one of its document. For that the
relay serves its consumer alone: a request of a consumer that was killed must not wait there for a worker, and be put later.
"""
import http.client
import json
import socket
import sys
import time

GROUP, CONSUMER, COUNT = "relay", "consumer", 500
# What a relay answers about an operation that may be handed over again, and how long to wait before that, in seconds.
AGAIN, PAUSE = (429, 503), 0.2


class Redis:
    """A connection to a server of the protocol RESP."""

    def __init__(self, port):
        self.stream = socket.create_connection(("127.0.0.1", port))
        self.lines = self.stream.makefile("rb")

    def ask(self, *words):
        words = [word if isinstance(word, bytes) else str(word).encode() for word in words]
        self.stream.sendall(b"*%d\r\n" % len(words) + b"".join(b"$%d\r\n%s\r\n" % (len(word), word) for word in words))
        return self.value()

    def value(self):
        line = self.lines.readline()
        if not line.endswith(b"\r\n"):
            raise ConnectionError("the server is gone")
        kind, said = line[:1], line[1:-2]
        if kind == b"-":
            raise ValueError(said.decode())
        if kind == b"*":
            return [self.value() for _ in range(int(said))] if said != b"-1" else None
        if kind == b"$":
            return self.lines.read(int(said) + 2)[:-2] if said != b"-1" else None
        return said


def entries_from(redis, stream, start, wait):
    """Returns the next entries of the stream, each with its fields: those that were never acknowledged from "0", new ones from ">"."""
    found = redis.ask("XREADGROUP", "GROUP", GROUP, CONSUMER, "COUNT", COUNT, "BLOCK", wait, "STREAMS", stream, start)
    entries = found[0][1] if found else []
    return [(name, dict(zip(fields[::2], fields[1::2]))) for name, fields in entries]


def body_of(entries):
    lines = []
    for _, fields in entries:
        meta = {"_index": fields[b"index"].decode(), "_id": fields[b"id"].decode()}
        lines += [json.dumps({"index": meta}).encode(), fields[b"source"]] if b"source" in fields else [json.dumps({"delete": meta}).encode()]
    return b"\n".join(lines) + b"\n"


def answers_to(relay, entries):
    """Hands these writes over, and returns the status and the error of each, or None if the relay has not answered."""
    connection = http.client.HTTPConnection("127.0.0.1", relay, timeout=60)
    try:
        connection.request("POST", "/_bulk", body_of(entries), {"Content-Type": "application/x-ndjson"})
        answer = connection.getresponse()
        text = answer.read()
    except (OSError, http.client.HTTPException):
        return None
    finally:
        connection.close()
    if answer.status in AGAIN:
        return None
    if answer.status != 200:
        raise ValueError("the relay answers %d: %s" % (answer.status, text[:200]))
    return [(entry["status"], entry.get("error")) for item in json.loads(text)["items"] for entry in item.values()]


def settle(redis, stream, relay, entries):
    """Hands writes over until each is written or refused."""
    while entries:
        answers = answers_to(relay, entries) or [(503, None)] * len(entries)
        settled = next((at for at, (status, _) in enumerate(answers) if status in AGAIN), len(entries))
        for (name, fields), (status, error) in zip(entries[:settled], answers):
            if error is not None:
                redis.ask("XADD", stream + ":refused", "*", "status", status, "reason", json.dumps(error), *(it for pair in fields.items() for it in pair))
            redis.ask("XACK", stream, GROUP, name)
        entries = entries[settled:]
        if entries:
            time.sleep(PAUSE)


def main(port, stream, relay):
    redis = Redis(port)
    try:
        redis.ask("XGROUP", "CREATE", stream, GROUP, "0", "MKSTREAM")
    except ValueError as fault:
        if not str(fault).startswith("BUSYGROUP"):
            raise
    entries = entries_from(redis, stream, "0", 1)
    while True:
        settle(redis, stream, relay, entries)
        entries = entries_from(redis, stream, ">", 1000)


if __name__ == "__main__":
    main(int(sys.argv[1]), sys.argv[2], int(sys.argv[3]))
