"""Generates a producer's input for the benchmark. It is seeded, so each run gets the same bytes.

`make_input.py OPERATIONS BYTES [PREFIX]`: each id begins with the prefix."""
import json
import random
import sys


def main():
    count, size = int(sys.argv[1]), int(sys.argv[2])
    prefix = sys.argv[3] if len(sys.argv) > 3 else ""
    rng = random.Random(20260101)
    out = sys.stdout
    letters = "abcdefghijklmnopqrstuvwxyz0123456789 "
    filler = "".join(rng.choice(letters) for _ in range(4096))
    for number in range(count):
        document = rng.randrange(count)
        if rng.randrange(10) == 0:
            out.write('{"delete":{"_index":"books","_id":"%s%d"}}\n' % (prefix, document))
            continue
        out.write('{"index":{"_index":"books","_id":"%s%d"}}\n' % (prefix, document))
        head = '{"title":"%d","text":"' % number
        start = rng.randrange(2048)
        out.write(head + filler[start : start + size - len(head) - 2] + '"}\n')


main()
