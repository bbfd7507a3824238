"""Refuses each allocation in turn. After the gate, `make refusals` runs `python3 tests/refusals.py PROGRAM [CRATE..]` at the top;
with names of test crates it runs only their tests.

The tests in a file `refusals.rt` of a test crate pass whichever single allocation is refused. Each of them is run, as the gate
built it, with its 1st, 2nd, .. allocation refused, until a run meets no refusal: `tests/refuse.c` intercepts the allocator of the
C library. Then `relay run` is run against `relay stub`, and `relay serve` in front of an index, with every n-th allocation refused.

It fails if a test fails, times out or never meets a refusal; if the table of docs/CONTRIBUTING.md lacks a public call that
allocates, or names a test that does not exist or does not make that call; if a run does not end, ends neither as out of memory
nor as it would without refusals, or writes to a document twice or out of order; and if a server says that something was written that
was not, or breaks an answer off.
"""
import concurrent.futures
import glob
import os
import re
import subprocess
import sys
import tempfile

from crates import tests_of

TOP = os.path.dirname(os.path.dirname(os.path.abspath(__file__)))
CRATES = os.path.join(TOP, "crates")
TABLE = os.path.join(TOP, "docs", "CONTRIBUTING.md")
HEADING = "## Each allocation refused in turn"
REFUSED = b"REFUSED\n"
# What test crates share. Its calls need no tests of their own: the tests that use it make them.
FIXTURES = "relay_fixtures"
# Public calls that allocate and do not report a refusal.
SILENT = {
    "relay_keeping": ["InputTelling::put", "InputTelling::flush", "LaneTelling::applied", "LaneTelling::reported", "MarkKeeper::try_follow"],
    "relay_progress": ["show_progress"],
}
# A test should make only a few calls, so it has fewer allocations than this; one run takes a few milliseconds.
MOST, SECONDS = 20_000, 10
FAULTS = []


def fault(text):
    FAULTS.append(text)
    print("FAILED: %s" % text, flush=True)


# ---- the public calls that allocate


def text_of(path):
    with open(path) as file:
        return file.read()


def modules_of(crate):
    """Returns the source of each module of a crate, by its path."""
    return modules_in(os.path.join(CRATES, crate, "src"))


def modules_in(folder):
    found = {}
    for path in glob.glob(os.path.join(folder, "**", "*.rt"), recursive=True):
        name = os.path.relpath(path, folder)[: -len(".rt")].replace(os.sep, "::")
        if name not in ("lib", "main"):
            found[name] = text_of(path)
    return found


def libraries():
    names = (it for it in sorted(os.listdir(CRATES)) if not it.endswith("_tests") and it != FIXTURES)
    return [it for it in names if os.path.exists(os.path.join(CRATES, it, "src", "lib.rt"))]


def public_names(crate):
    """Returns the modules that a library makes public, and the names that it re-exports."""
    root = text_of(os.path.join(CRATES, crate, "src", "lib.rt"))
    names = set()
    for words in re.findall(r"^pub use [\w:]+::(\w+|\{[^}]*\});", root, re.M):
        names.update(re.findall(r"\w+", words))
    return set(re.findall(r"^pub mod (\w+);", root, re.M)), names


def refusal_types():
    """Returns the types that report a refusal: enums with a variant Memory, types whose text mentions memory, and types with one of
    these inside."""
    found, holders = {"AllocError", "NotHeld"}, {}
    for crate in libraries():
        for source in modules_of(crate).values():
            for head, name, body in re.findall(r"((?:^#\[[^\n]*\]\n)*)^pub (?:enum|struct) (\w+)[^{;]*\{(.*?)^\}", source, re.M | re.S):
                holders[name] = set(re.findall(r"\w+", re.sub(r"//.*|#\[.*", "", body)))
                if re.search(r"^    Memory\b", body, re.M) or re.search(r'#\[error\("[^"]*memory', head):
                    found.add(name)
    holders = {name: words for name, words in holders.items() if re.search(r"(Fault|FaultKind|Error|End)$", name)}
    while True:
        more = {name for name, words in holders.items() if words & found} - found
        if not more:
            return found
        found |= more


def after_brackets(text):
    """Returns the text without the angle brackets at its front, if there are any."""
    depth = 0
    for at, letter in enumerate(text):
        depth += (letter == "<") - (letter == ">" and text[at - 1] != "-")
        if depth == 0:
            return text[at + 1 :] if letter == ">" else text
    return text


def functions_of(source):
    """Yields each function that callers see: its type if it is a method, its name, its arguments and its result."""
    owner, of_wire = None, False
    for line in re.finditer(r"^(?P<pad> *)(?:impl(?P<impl>[^{]+)\{|(?P<pub>pub )?fn (?P<name>\w+)(?P<rest>[^{;]*))", source, re.M):
        if line["impl"]:
            trait, _, named = after_brackets(line["impl"].strip()).rpartition(" for ")
            owner, of_wire = re.match(r"\w+", named.strip())[0], trait.strip() == "Wire"
        elif line["pub"] or (line["pad"] and of_wire):
            arguments, _, result = after_brackets(line["rest"]).partition("->")
            yield owner if line["pad"] else None, line["name"], arguments, re.split(r"\n\s*(?:requires|ensures|where)\b", result)[0]


def words_of(text):
    return set(re.findall(r"\w+", text))


def calls_that_allocate(crate, refusals):
    """Returns the public calls of a library whose result reports a refusal, and those that do not report it, each with whether it is
    called on a value.

    A function that only converts a fault, such as to its exit status, is not one of them.
    """
    modules, names = public_names(crate)
    found = {}
    for module, source in modules_of(crate).items():
        for owner, name, arguments, result in functions_of(source):
            call = "%s::%s" % (owner, name) if owner else name
            is_public = module.split("::")[0] in modules or (owner or name) in names
            makes_one = "Result<" in result or not refusals & words_of(arguments)
            if is_public and (call in SILENT.get(crate, ()) or refusals & words_of(result) and makes_one):
                found[call] = bool(re.match(r"\(\s*(&(mut )?|mut )?self\b", arguments))
    return found


# ---- the table


def rows():
    """Yields each row of the table: the crate, its calls, the test, and the folder that has the test, or the script."""
    part = text_of(TABLE).partition(HEADING + "\n")[2].partition("\n## ")[0]
    for line in re.findall(r"^\| (.*) \|$", part, re.M)[1:]:
        call, test = line.split(" | ")
        crate, *calls = re.findall(r"`([^`]+)`", call)
        test, *place = re.findall(r"`([^`]+)`", test)
        yield crate, calls, test, folder_of(crate, place[0] if place else crate + "_tests")


def folder_of(library, place):
    """Returns the folder with the tests of a library, given the folder, their crate or the script: in a crate that of its own tests, if
    it has one there."""
    own = tests_of(library)
    if place.endswith(".py"):
        return place
    return own if own and place in own.split(os.sep) else os.path.join(CRATES, place, "" if "/" in place else "src", "")


def crate_of(folder):
    return os.path.relpath(folder, CRATES).split(os.sep)[0]


def module_of(folder):
    """Returns the path of the module that a folder of tests is, for what is in it."""
    return "".join(it + "::" for it in os.path.relpath(folder, CRATES).split(os.sep)[2:])


def source_of_tests(folder):
    return os.path.join(folder, "refusals.rt")


def tests_in(folder):
    """Returns the names of the tests in a folder's refusals.rt."""
    return re.findall(r"^#\[test\]\nfn (\w+)\(", text_of(source_of_tests(folder)), re.M)


def calls_made(folder):
    """Returns the source of a folder's refusals.rt, of the modules beside it that it uses, and of the fixtures that these use."""
    source = text_of(source_of_tests(folder))
    for modules, prefix in (modules_in(folder), "crate::" + module_of(folder)), (modules_of(FIXTURES), FIXTURES + "::"):
        used = set(re.findall(r"\w+", " ".join(re.findall(r"^use %s(\w+|\{[^}]*\})" % prefix, source, re.M))))
        source += "".join(text for name, text in modules.items() if name in used)
    return source


def makes_call(source, call, on_value):
    """Returns true if the source makes this call."""
    owner, _, name = call.rpartition("::")
    before = r"\." if on_value else r"\b%s::" % owner if owner else r"(?<![\w.:])(?<!fn )"
    return re.search(before + name + r"(::<.*>)?\(", source) is not None


def check_row(crate, calls, test, folder, wanted):
    if folder.endswith(".py"):
        if "def %s(" % test not in text_of(os.path.join(TOP, folder)):
            fault("no function `%s` in %s" % (test, folder))
        return
    place = crate_of(folder)
    if not os.path.exists(source_of_tests(folder)) or test not in tests_in(folder):
        fault("no test `%s` in the refusals.rt of %s" % (test, place))
        return
    for call in calls:
        if call in wanted and not makes_call(calls_made(folder), call, wanted[call]):
            fault("`%s` of %s does not call `%s` of %s" % (test, place, call, crate))


def check_table():
    """Compares the table with the sources. Returns the number of public calls that allocate."""
    refusals, table = refusal_types(), list(rows())
    named = [(crate, call) for crate, calls, _, _ in table for call in calls]
    wanted = {crate: calls_that_allocate(crate, refusals) for crate in libraries()}
    for crate, calls in wanted.items():
        for call in sorted(calls):
            if (crate, call) not in named:
                fault("`%s` of %s allocates and has no row in docs/CONTRIBUTING.md" % (call, crate))
    for crate, call in named:
        if call not in wanted.get(crate, {}):
            fault("`%s` of %s has a row in docs/CONTRIBUTING.md and does not allocate, or is not there" % (call, crate))
    for crate, calls, test, folder in table:
        check_row(crate, calls, test, folder, wanted.get(crate, {}))
    return sum(len(calls) for calls in wanted.values())


# ---- the tests


def refuser(folder):
    """Compiles the library that refuses allocations, and returns its path."""
    path = os.path.join(folder, "refuse.so")
    subprocess.run(["cc", "-O2", "-shared", "-fPIC", os.path.join(TOP, "tests", "refuse.c"), "-o", path], check=True)
    return path


def refusing(library, **how):
    return {**os.environ, "LD_PRELOAD": library, **{key: "%d" % value for key, value in how.items()}}


def folders_with_tests():
    return [os.path.join(os.path.dirname(it), "") for it in sorted(glob.glob(os.path.join(CRATES, "*_tests", "src", "**", "refusals.rt"), recursive=True))]


def built(tests):
    crate = crate_of(tests)
    return os.path.join(CRATES, crate, "out", crate + "_tests")


def is_built(tests):
    """Returns true if the tests of this folder are built, and their names are those of the source."""
    if not os.path.exists(built(tests)):
        fault("%s is not built: `make test` builds it" % crate_of(tests))
        return False
    listed = subprocess.run([built(tests), "--list"], stdin=subprocess.DEVNULL, capture_output=True, text=True).stdout
    if set(re.findall(r"^%srefusals::(\w+): test$" % module_of(tests), listed, re.M)) != set(tests_in(tests)):
        fault("the tests of %s are not built as they are now: `make test` builds them" % crate_of(tests))
        return False
    return True


def try_at(library, tests, test, number, folder):
    """Runs a test with one allocation refused. Returns whether one was, and what went wrong."""
    try:
        done = subprocess.run([built(tests), module_of(tests) + "refusals::" + test], env=refusing(library, REFUSE_AT=number), cwd=folder, stdin=subprocess.DEVNULL, capture_output=True, timeout=SECONDS)
    except subprocess.TimeoutExpired:
        return True, "has not ended after %d s" % SECONDS
    said = (done.stdout + done.stderr).replace(REFUSED, b"").decode(errors="replace").strip()
    wrong = None if done.returncode == 0 else "ended with %d: %s" % (done.returncode, said[-300:])
    return REFUSED in done.stderr, wrong


def refuse_each(library, tests, test, folder):
    """Refuses each allocation of a test in turn. Returns how many there are, and what went wrong at which."""
    wrongs = []
    for number in range(1, MOST):
        met, wrong = try_at(library, tests, test, number, folder)
        if wrong:
            wrongs.append("`%s` of %s with allocation %d refused %s" % (test, crate_of(tests), number if met else 0, wrong))
        if not met or len(wrongs) >= 3:
            return number - 1, wrongs
    return MOST, ["`%s` of %s has more than %d allocations" % (test, crate_of(tests), MOST)]


def check_tests(library, folder, wanted):
    """Runs every test, one per processor at a time."""
    tasks = [(tests, test) for tests in folders_with_tests() if (not wanted or crate_of(tests) in wanted) and is_built(tests) for test in tests_in(tests)]
    with concurrent.futures.ThreadPoolExecutor(os.cpu_count()) as pool:
        for (tests, test), (count, wrongs) in zip(tasks, pool.map(lambda task: refuse_each(library, *task, folder), tasks)):
            crate = crate_of(tests)
            print("  %-24s %-44s %6d allocations refused" % (crate, module_of(tests) + test, count), flush=True)
            for wrong in wrongs:
                fault(wrong)
            if count == 0:
                fault("`%s` of %s met no refusal" % (test, crate))


def main():
    wanted = sys.argv[2:]
    calls = check_table()
    print("%d public calls allocate; the table of docs/CONTRIBUTING.md names a test for each" % calls if not FAULTS else "the table of docs/CONTRIBUTING.md is wrong", flush=True)
    with tempfile.TemporaryDirectory() as folder:
        library = refuser(folder)
        check_tests(library, folder, wanted)
        if not wanted:
            import refused_runs
            import refused_serves

            for check in (refused_runs.check_runs, refused_serves.check_serves):
                for wrong in check(lambda every: refusing(library, REFUSE_EVERY=every)):
                    fault(wrong)
    print("%d failures" % len(FAULTS))
    sys.exit(1 if FAULTS else 0)


if __name__ == "__main__":
    main()
