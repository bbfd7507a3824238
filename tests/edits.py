"""Tries the edits of `crates/*/edits`, several in one check: `python3 tests/edits.py [--gate] [CRATE..]` at the top.

Each is a wrong body that the prover must refuse, in the format of the kit's must-fail edits. A proof rests on the contracts of what
its function calls and not on their bodies, so edits of different functions are tried in one check. Such an edit is refused if the
prover reports an error of the function itself, at its own lines or in its own proof files: that it calls a function which is not
proved does not count. So in a crate that was not proved before, the functions that are not edited get an empty proof: that saves
proving those that are called. An edit that its batch does not refuse is tried again alone, and once more with all bodies if need be.
So is an edit of more than one function or of a definition, for which any error counts. If it names a law, only that function is
checked, which is quicker, and must be refused. The run fails if an edit is not refused, or cannot be applied, compiled or read.

With --gate, the libraries below are those that `rt ci` has just built, and each check of a crate begins with what `gate.py` kept of
it, or if it kept nothing, with what the check before it did. Otherwise `rt check` builds the libraries that changed, and each check
begins with what `rt check` kept.

The edits of a crate that were all refused are not tried again until it, a crate below it or one of them changes.
"""
import collections
import concurrent.futures
import contextlib
import hashlib
import itertools
import os
import sys
import threading
import time

from crates import CRATES, TOP, add_file, files_below, lines_of, sum_of
from edit_checks import Kept, check, free_memory, is_ready, is_verdict
from edit_files import UNREAD, Edit, Unusable, errors_of, functions_in, is_refused, text_of

# Where the checksums of crates are kept whose edits were all refused.
DONE = os.path.join(TOP, "out", "edits")
SCRIPTS = ("crates.py", "edit_checks.py", "edit_files.py", "edits.py")
# The memory that one check may take, in bytes, and how often the progress is reported, in seconds.
MEMORY, TELL = 3 << 30, 60


def others(crate, names):
    """Returns the functions of the crate but for these and those of their cycles."""
    places = functions_in(crate)
    cycles = {it.proofs for it in places if it.name in names}
    return [it for it in places if it.proofs not in cycles]


def verdict_of(crate, texts, kept, only):
    """Checks these functions of the crate, or all, with these texts. If nothing is proved yet, the other functions are left empty,
    unless the text then does not reach the prover."""
    empty = others(crate, only) if only and not kept.proved else []
    status, said = check(crate, texts, kept, only, empty)
    return check(crate, texts, kept, only) if empty and not is_verdict(said) else (status, said)


def is_refused_in(said, edit):
    """Returns true if the prover refuses the function of an edit for an error of its own that it could read."""
    with contextlib.suppress(Unusable):
        return edit.refused(said)
    return False


def alone(edit, kept):
    """Tries one edit. Returns None if it is refused, or else why that fails."""
    only = [edit.place.name] if edit.place else [edit.law] if edit.law else []
    status, said = verdict_of(edit.crate, edit.made({}), kept, only)
    if edit.place and not kept.proved and not is_refused_in(said, edit):
        status, said = check(edit.crate, edit.made({}), kept, only)
    errors = errors_of(said)
    told = "; ".join("%s:%d: %s" % error for error in errors[:2])[:300] or said.strip().rpartition("\n")[2][:300]
    if status == 0:
        return "NOT REFUSED: the %s is still proved" % ("function" if edit.place else "law" if edit.law else "crate")
    if not is_verdict(said):
        raise Unusable("it did not reach the prover, or the prover gave no verdict: " + told)
    if edit.place:
        return None if edit.refused(said) else "NOT REFUSED by an error of its own function: " + told
    if any(UNREAD.search(text) and path in (it for it, _, _ in edit.pairs) for path, _, text in errors):
        raise Unusable("the prover cannot read it: " + told)
    if edit.law and not is_refused(edit.crate, edit.law, said):
        return "NOT REFUSED by its law: " + told
    return None if errors else "NOT REFUSED by an error: " + told


class Run:
    def __init__(self, after_gate):
        self.after_gate, self.lock, self.ended = after_gate, threading.Lock(), threading.Event()
        self.at, self.tried, self.checks, self.earlier, self.failures = set(), 0, 0, 0, []

    def tell(self):
        while not self.ended.wait(TELL):
            print("edits: at %s; %d tried in %d checks" % (", ".join(sorted(self.at)), self.tried, self.checks), flush=True)

    def count(self, tried, checks=1, earlier=0):
        with self.lock:
            self.tried, self.checks, self.earlier = self.tried + tried, self.checks + checks, self.earlier + earlier

    def fail(self, name, why):
        self.failures.append("%s: %s" % (name, why))
        print("edits: " + self.failures[-1], flush=True)

    def crate(self, crate):
        """Tries the edits of a crate, unless an earlier run refused them all."""
        edits, stamp, place = edits_of(crate), stamp_of(crate), os.path.join(DONE, crate)
        if os.path.exists(place) and text_of(place) == stamp:
            self.count(len(edits), 0, len(edits))
            return print("edits: %s: an earlier run of the same files refused its %d" % (crate, len(edits)), flush=True)
        self.at.add(crate)
        if not is_ready(crate, self.after_gate):
            return self.fail(crate, "the libraries below it are not built: `rt check` there says why")
        left = self.each(crate, edits)
        self.at.remove(crate)
        if not any(it.startswith(crate + "/") for it in self.failures):
            os.makedirs(DONE, exist_ok=True)
            with open(place, "w") as file:
                file.write(stamp)
        print("edits: %s: %d tried, %d of them alone" % (crate, len(edits), len(left)), flush=True)

    def each(self, crate, edits):
        """Tries these edits, and returns those that were tried alone."""
        rows = collections.defaultdict(list)
        for edit in edits:
            rows[edit.place and edit.place.proofs].append(edit)
        left = rows.pop(None, [])
        kept = Kept(crate, self.after_gate)
        for batch in itertools.zip_longest(*rows.values()):
            left += self.together([it for it in batch if it], kept)
        for edit in left:
            self.alone(edit, kept)
        return left

    def together(self, edits, kept):
        """Tries edits of different functions in one check. Returns those that it does not refuse. If the text does not reach the
        prover, each half is tried apart."""
        if len(edits) < 2:
            return edits
        texts, made = {}, []
        for edit in edits:
            with contextlib.suppress(Unusable):
                texts = edit.made(texts)
                made.append(edit)
        said = verdict_of(edits[0].crate, texts, kept, [it.place.name for it in made])[1]
        self.count(0)
        if not is_verdict(said):
            half = len(edits) // 2
            return self.together(edits[:half], kept) + self.together(edits[half:], kept)
        refused = [it for it in made if is_refused_in(said, it)]
        self.count(len(refused), 0)
        return [it for it in edits if it not in refused]

    def alone(self, edit, kept):
        try:
            why = alone(edit, kept)
        except Unusable as fault:
            why = "BAD EDIT: %s" % fault
        self.count(1)
        if why:
            self.fail(edit.name, why)


def edits_of(crate):
    folder = os.path.join(CRATES, crate, "edits")
    return [Edit(crate, os.path.join(folder, it)) for it in sorted(os.listdir(folder)) if it.endswith(".edit")]


def stamp_of(crate):
    """Returns a checksum of all that the results of a crate's edits rest on."""
    found, here = hashlib.sha256(sum_of(crate).encode()), os.path.dirname(os.path.abspath(__file__))
    for path in [*files_below(os.path.join(CRATES, crate, "edits")), *(os.path.join(here, it) for it in SCRIPTS)]:
        add_file(found, path)
    return found.hexdigest()


def workers():
    """Returns how many checks to run at once: one for each processor, as many as memory holds. The kit's RT_JOBS sets another number."""
    if os.environ.get("RT_JOBS", "").isdigit():
        return int(os.environ["RT_JOBS"])
    return max(1, min(len(os.sched_getaffinity(0)), free_memory() // MEMORY))


def main(names, after_gate):
    """Tries the edits of the crates of these names, or of all. Those with the most edits come first, since a crate's follow one another."""
    crates = [it for it in lines_of() if os.path.isdir(os.path.join(CRATES, it, "edits")) and (not names or it in names)]
    crates.sort(key=lambda it: -len(os.listdir(os.path.join(CRATES, it, "edits"))))
    run, began = Run(after_gate), time.monotonic()
    threading.Thread(target=run.tell, daemon=True).start()
    with concurrent.futures.ThreadPoolExecutor(workers()) as pool:
        list(pool.map(run.crate, crates))
    run.ended.set()
    minutes, refused = (time.monotonic() - began) / 60, run.tried - len(run.failures)
    earlier = "; %d of them in an earlier run" % run.earlier if run.earlier else ""
    print("edits: %d tried in %d checks and %.0f minutes, %d refused%s" % (run.tried, run.checks, minutes, refused, earlier))
    for line in run.failures:
        print("  " + line)
    return 1 if run.failures else 0


if __name__ == "__main__":
    sys.exit(main([it for it in sys.argv[1:] if it != "--gate"], "--gate" in sys.argv))
