"""`relay lines` in Python, for the benchmark."""
import json
import sys


def main():
    version = 1
    lines = iter(sys.stdin)
    out = sys.stdout
    for line in lines:
        if line == "\n":
            continue
        action = json.loads(line)
        ((name, metadata),) = action.items()
        numbered = {"_id": metadata["_id"], "_index": metadata["_index"], "version": version, "version_type": "external"}
        out.write(json.dumps({name: numbered}, separators=(",", ":"), ensure_ascii=False))
        out.write("\n")
        if name == "index":
            out.write(next(lines))
        version += 1


main()
