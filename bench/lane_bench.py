"""Measures a lane's calls with few held operations and with many, each on its own document or all on one hot document: `take`,
requests and their replies until 500 operations have been sent, one query for the first due tick, and the peak memory."""
import re
import subprocess
import tempfile
import time

from lines_bench import peak_of

TURNS = 5
FEW, MANY = 1000, 65536
WORDS = ("take", "request", "reply", "due")
# What the operations write to, the number of documents for a number of held operations, and the goal: the maximum ratio of
# the cost of an operation with many held to its cost with few.
SHAPES = (("documents of their own", lambda held: held, 1.5), ("one hot document", lambda held: 1, 1.1))


def once(program, held, documents):
    """Returns the nanoseconds of each call, and the peak memory in KiB."""
    with tempfile.TemporaryFile("w+") as out:
        process = subprocess.Popen([program, "lane", str(held), str(documents)], stdout=out)
        peak = 0
        while process.poll() is None:
            peak = max(peak, peak_of(process.pid))
            time.sleep(0.001)
        out.seek(0)
        told = out.read()
    return {word: float(re.search(word + r" ([0-9.]+)", told).group(1)) for word in WORDS}, peak


def best_of(program, held, documents):
    best, peak = {}, 0
    for _ in range(TURNS):
        spent, memory = once(program, held, documents)
        best = {word: min(spent[word], best.get(word, spent[word])) for word in WORDS}
        peak = max(peak, memory)
    return best, peak


def measure(folder, program):
    for called, documents_of, goal in SHAPES:
        (few, little), (many, much) = (best_of(program, held, documents_of(held)) for held in (FEW, MANY))
        print("lane: %d and %d held, %s, best of %d" % (FEW, MANY, called, TURNS))
        for word in WORDS[:3]:
            print("  %-8s %10.1f %10.1f ns per operation  %.2f" % (word, few[word], many[word], many[word] / few[word]))
        print("  %-8s %10.0f %10.0f ns per query" % ("due", few["due"], many["due"]))
        ratio = sum(many[word] for word in WORDS[:3]) / sum(few[word] for word in WORDS[:3])
        print("  memory %d and %d KiB; an operation costs %.2f of what it costs at %d held (goal %.1f: %s)" % (little, much, ratio, FEW, goal, "met" if ratio <= goal else "MISSED"))
