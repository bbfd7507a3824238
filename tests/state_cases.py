"""A run that keeps its state: it is killed and started again by the same command, and ended by a file."""
import collections
import itertools
import json
import os
import random
import re
import shlex
import shutil
import signal
import subprocess
import tempfile
import threading
import time

from bulk_server import Server, key_of
from program import FEWER, RELAY, SECONDS, check, leave, run, skip, unlogged
from run_cases import is_sent_again, operations, wait_until, written

# How often a run is killed, and the number of its operations: more than are settled by then, so that each kill hits a run that works.
KILLS, COUNT = (10, 4_000) if FEWER else (50, 20_000)
# How many seconds before a state was written its marks may have been taken: the reports are synchronized in between.
SLACK = 1.0
COUNTS = re.compile(rb"applied (\d+) already (\d+) reported (\d+)\n\Z")


def epoch_of(key):
    return (key[2] - 1) // 2**40


class Noting(Server):
    """Notes writes by their index, id and version. `sent` has the number in the source of each that has one. Of each whose operation is settled
    by the answer, `read` has when that was read, at the latest: when the next request came on its connection; and its status."""

    def __init__(self, *more, **options):
        self.sent, self.read, self.own = {}, {}, threading.local()
        super().__init__(*more, **options)

    def serve(self, stream):
        self.own.answered = []
        super().serve(stream)

    def answers_early(self, stream):
        now = time.time()
        self.read.update((key, (now, status)) for key, status in self.own.answered)
        self.own.answered = []

    def tell(self, write, at, fault, whole, entries):
        place, key = super().tell(write, at, fault, whole, entries), key_of(write[1])
        if write[2] is not None:
            self.sent[key] = json.loads(write[2])["n"]
        if not is_sent_again(self.told[key][place]):
            self.own.answered.append((key, self.told[key][place][1]))
        return place


def command(port, folder, files, *more):
    state, report = os.path.join(folder, "state"), os.path.join(folder, "report")
    return [RELAY, "run", "--to", "127.0.0.1:%d" % port, "--state", state, "--report", report, *more, *files]


def start(*words):
    return subprocess.Popen(command(*words), stdin=subprocess.DEVNULL, stdout=subprocess.PIPE, stderr=subprocess.PIPE)


def finish(*words):
    done = subprocess.run(command(*words), stdin=subprocess.DEVNULL, capture_output=True, timeout=300)
    return done.returncode, done.stdout, unlogged(done.stderr)


def state_of(folder):
    """The state in a folder; None if there is none."""
    try:
        with open(os.path.join(folder, "state")) as file:
            return json.loads(file.read())
    except FileNotFoundError:
        return None


def marks_of(folder):
    state = state_of(folder)
    return state and [(it["offset"], it["line"], it["count"]) for it in state["inputs"]]


def lines_of(ops):
    return sum(1 if source is None else 2 for _, source in ops)


def add(path, text):
    with open(path, "a") as file:
        file.write(text)


def from_run_to_run():
    """A file is gone on with where it was left; one that grew, at what is new."""
    with tempfile.TemporaryDirectory() as folder:
        first, second = operations(0, 700, 50), operations(1, 300, 20)
        files = [written(folder, 0, first), written(folder, 1, second)]
        server = Noting(refuse=lambda meta: 400 if meta["_id"] == "1-3" else None)
        status, out, err = finish(server.port, folder, files)
        check("a first run", status == 5 and COUNTS.search(out).groups() == (b"985", b"0", b"15") and err == b"", (status, out, err))
        whole = [(os.path.getsize(path), lines_of(ops), len(ops)) for path, ops in zip(files, (first, second))]
        state = state_of(folder)
        check("its state", marks_of(folder) == whole and state["epoch"] == 1 and [it["path"] for it in state["inputs"]] == files, state)
        check("the files beside it", sorted(os.listdir(folder)) == ["ops0.ndjson", "ops1.ndjson", "report", "state", "state.lock"], os.listdir(folder))
        requests = server.requests
        status, out, err = finish(server.port, folder, files)
        says = b"".join(b"%s: goes on after %d operations, at line %d\n" % (path.encode(), len(ops), lines_of(ops) + 1) for path, ops in zip(files, (first, second)))
        check("a second run", (status, out, err) == (0, b"applied 0 already 0 reported 0\n", says) and server.requests == requests, (status, out, err))
        check("its epoch", state_of(folder)["epoch"] == 2, state_of(folder))
        add(files[1], '{"index":{"_index":"books","_id":"1-3"}}\n{"n":300}\n\n{"delete":{"_index":"books","_id":"1-4"}}\n')
        status, out, err = finish(server.port, folder, files)
        check("a file that grew", status == 5 and out == b"report 3.1:301 books/1-3 Refused 400 planned\napplied 1 already 0 reported 1\n", (status, out, err))
        check("its mark", marks_of(folder) == [whole[0], (os.path.getsize(files[1]), whole[1][1] + 4, 302)], state_of(folder))
        with open(os.path.join(folder, "report")) as report:
            saved = [json.loads(line) for line in report]
        check("the reports of all runs", len(saved) == 16 and saved[-1]["number"] == 301 and saved[-1]["epoch"] == 3, saved)
        picked = subprocess.run([RELAY, "pick", "--report", os.path.join(folder, "report"), *files], capture_output=True, timeout=60)
        check("what is picked", picked.stdout.endswith(b'{"n":300}\n') and picked.returncode == 0, picked)
        add(files[1], '{"index":{"_index":"books","_id":"9"}}\n{"n":9}\n{"create":{}}\n')
        line = whole[1][1] + 4 + 3
        status, out, err = finish(server.port, folder, files)
        check("the line of a fault", status == 2 and b": line %d: " % line in err and out == b"applied 1 already 0 reported 0\n", (status, out, err))
        server.close()


def refused():
    """What is not what it was is refused, and nothing is sent."""
    with tempfile.TemporaryDirectory() as folder:
        files = [written(folder, p, operations(p, 50, 5)) for p in range(2)]
        server = Server()
        check("a first run", finish(server.port, folder, files)[0] == 0)
        state, requests = os.path.join(folder, "state"), server.requests
        kept = open(state).read()

        def refuses(name, wanted, *words):
            done = finish(server.port, folder, *words)
            check("%s is refused" % name, done == wanted and server.requests == requests and open(state).read() == kept, done)

        others = (2, b"", b"%s: is the state of other files, or of these in another order\n" % state.encode())
        refuses("another order", others, files[::-1])
        refuses("one file less", others, files[:1])
        refuses("one file more", others, [*files, written(folder, 2, operations(2, 5, 5))])
        text, aside = open(files[1]).read(), files[1] + ".aside"
        os.rename(files[1], aside)
        refuses("a file that is not there", (3, b"", b"%s: open or read failed\n" % files[1].encode()), files)
        add(files[1], text)
        refuses("a file that was replaced", (2, b"", b"%s: is not the file that its state is of\n" % files[1].encode()), files)
        os.rename(aside, files[1])
        with open(files[1], "r+") as file:
            file.truncate(len(text) - 1)
        refuses("a shorter file", (2, b"", b"%s: is shorter than it was\n" % files[1].encode()), files)
        with open(files[1], "r+") as file:
            file.write(text.replace("books", "bouks", 1))
        refuses("another start", (2, b"", b"%s: begins with other bytes than it did\n" % files[1].encode()), files)
        with open(files[1], "r+") as file:
            file.write(text)
        whole = kept
        for name, damaged in (("an empty state", ""), ("half a state", kept[: len(kept) // 2]), ("a state with a blank", " " + kept)):
            kept = damaged
            with open(state, "w") as file:
                file.write(damaged)
            refuses(name, (2, b"", b"%s: not a state of a run\n" % state.encode()), files)
        kept = '{"epoch":4194303,"inputs":[]}\n'
        with open(state, "w") as file:
            file.write(kept)
        refuses("the last epoch, of other files", others, files)
        with open(state, "w") as file:
            file.write(whole.replace('{"epoch":1,', '{"epoch":4194302,'))
        status, out, _ = finish(server.port, folder, files)
        check("the last epoch but one", (status, out) == (0, b"applied 0 already 0 reported 0\n") and state_of(folder)["epoch"] == 4194303, (status, out, state_of(folder)))
        add(files[0], '{"delete":{"_index":"books","_id":"new"}}\n')
        kept = open(state).read()
        refuses("the last epoch", (2, b"", b"%s: holds the last epoch, 4194303\n" % state.encode()), files)
        os.remove(state)
        check("a state that is gone", finish(server.port, folder, files)[0] == 5)
        server.close()
    for more in (["--state", "s"], ["--state", "s", "--report", "r", "--skip-invalid", "i"], ["--state", "s", "--report", "r", "--epoch-from", "a/b"]):
        done = run(["run", "--to", "127.0.0.1:1", *more, "x"])
        check("refused together: %s" % more, done.returncode == 1 and done.stdout == b"" and b"error: " in done.stderr, done)


def names_beside():
    """An input with the name of a file that is kept beside the state is not written over."""
    for end in (".lock", ".new"):
        with tempfile.TemporaryDirectory() as folder:
            server, path = Server(), os.path.join(folder, "state" + end)
            os.rename(written(folder, 0, operations(0, 50, 5)), path)
            text = open(path).read()
            status, out, err = finish(server.port, folder, [path])
            check("an input named state%s stays" % end, open(path).read() == text, os.path.getsize(path))
            check("an input named state%s is refused" % end, (status, out) == (3, b"") and server.requests == 0, (status, out, err))
            server.close()


def long_paths():
    """The longest path that the system opens is kept in a state. A longer one cannot be opened, and nothing is sent."""
    with tempfile.TemporaryDirectory() as folder:
        server, ops = Server(), operations(0, 50, 5)
        path = written(folder, 0, ops)
        for length in (4_096, 4_097, 5_000):
            longer = folder + "/" * (1 + length - len(path)) + os.path.basename(path)
            done = finish(server.port, folder, [longer])
            check("a path of %d bytes" % length, done == (3, b"", b"%s: open or read failed\n" % longer.encode()) and server.requests == 0 and state_of(folder) is None, done)
        longest = folder + "/" * (1 + 4_095 - len(path)) + os.path.basename(path)
        done = finish(server.port, folder, [longest])
        check("the longest path", done == (0, b"applied 50 already 0 reported 0\n", b"") and state_of(folder)["inputs"][0]["path"] == longest, done)
        done = finish(server.port, folder, [longest])
        says = b"%s: goes on after 50 operations, at line %d\n" % (longest.encode(), lines_of(ops) + 1)
        check("the longest path again", done == (0, b"applied 0 already 0 reported 0\n", says), done)
        server.close()


def two_at_once():
    """A second run with the same state is refused, and told who has it."""
    with tempfile.TemporaryDirectory() as folder:
        files, server = [written(folder, 0, operations(0, 5, 5))], Server(delay=lambda: 2)
        running = start(server.port, folder, files)
        wait_until(lambda: state_of(folder))
        requests, begun = server.requests, time.monotonic()
        done = finish(server.port, folder, files)
        wanted = b"%s: another run has it\n  process %d\n" % (os.path.join(folder, "state").encode(), running.pid)
        check("a second run is refused", done == (3, b"", wanted) and time.monotonic() - begun < 2 and server.requests == requests, done)
        out, err = running.communicate(timeout=60)
        check("the first one goes on", running.returncode == 0 and out == b"applied 5 already 0 reported 0\n", (out, err))
        server.close()


def replaced():
    """Whatever is left of a replacement that was not finished, the state is the old one; one that cannot be written is said."""
    with tempfile.TemporaryDirectory() as folder:
        files, server = [written(folder, 0, operations(0, 50, 5))], Server()
        new = os.path.join(folder, "state.new")
        add(new, '{"epoch":7,"inputs":[{"path":"half of a state that')
        check("after half a replacement", finish(server.port, folder, files)[0] == 0 and marks_of(folder)[0][2] == 50, state_of(folder))
        add(files[0], '{"delete":{"_index":"books","_id":"new"}}\n')
        os.symlink("/dev/full", new)
        requests, kept = server.requests, state_of(folder)
        done = finish(server.port, folder, files)
        check("a full disk at the start", done[0] == 3 and done[2].startswith(b"%s: could not be used\n" % os.path.join(folder, "state").encode()) and server.requests == requests and state_of(folder) == kept, done)
        os.remove(new)
        os.mkfifo(new)
        running = start(server.port, folder, files)
        time.sleep(0.5)
        running.send_signal(signal.SIGKILL)
        running.communicate()
        check("killed in the first replacement", server.requests == requests and state_of(folder) == kept, state_of(folder))
        os.remove(new)
        server.delay = lambda: 3
        running = start(server.port, folder, files)
        wait_until(lambda: state_of(folder) != kept)
        os.symlink("/dev/full", new)
        out, err = running.communicate(timeout=60)
        said = b"%s: write failed\n" % os.path.join(folder, "state").encode()
        check("a full disk meanwhile", running.returncode == 3 and out == b"applied 1 already 0 reported 0\n" and err.endswith(said) and marks_of(folder)[0][2] == 50, (out, err, state_of(folder)))
        os.remove(new)
        server.delay = None
        check("and again", finish(server.port, folder, files)[0] == 0 and marks_of(folder)[0][2] == 51, state_of(folder))
        server.close()


# What `strace` shows of the state of one input: the count of its mark in each write of the new file, and the time of each replacement.
WRITES, RENAMES = (re.compile(it, re.M) for it in (r'^\d+ +\d+\.\d+ write\(.*\\"count\\":(\d+)\}', r"^\d+ +(\d+\.\d+) rename\("))


def once_a_second():
    """A state is written at the start, once a second while its mark moves, and once at the end, and each time with another mark."""
    if shutil.which("strace") is None:
        return skip("how often a state is written", "strace")
    with tempfile.TemporaryDirectory() as folder:
        folder, server = os.path.realpath(folder), Server(delay=lambda: 0.1)
        words = command(server.port, folder, [written(folder, 0, operations(0, 2_200, 50))], "--count", "50", "--linger", "0")
        trace = ["strace", "-f", "-qq", "-ttt", "-s", "1000", "-o", os.path.join(folder, "log"), "-P", os.path.join(folder, "state.new"), "-e", "trace=write,rename"]
        done = subprocess.run([*trace, *words], stdin=subprocess.DEVNULL, capture_output=True, timeout=SECONDS)
        check("a run of several seconds", done.returncode == 0 and done.stdout == b"applied 2200 already 0 reported 0\n", done)
        with open(os.path.join(folder, "log")) as file:
            log = file.read()
        marks, times = list(map(int, WRITES.findall(log))), list(map(float, RENAMES.findall(log)))
        check("each write has another mark", len(marks) == len(times) and marks == sorted(set(marks)) and marks[:1] + marks[-1:] == [0, 2_200], (marks, times))
        gaps = [after - before for before, after in zip(times, times[1:])]
        check("at most once a second, and at the end", all(it > 0.98 for it in gaps[:-1]), gaps)
        check("about once a second", len(gaps) > 3 and sum(gaps[:-1]) < 2.5 * len(gaps[:-1]), gaps)
        server.close()


# The system calls of a replacement, in order: those on the new file, and then those on the folder.
REPLACES = [(name, "state.new") for name in ("openat", "write", "fsync", "close", "rename")] + [(name, "") for name in ("openat", "fsync", "close")]


def killed_in_a_replacement():
    """A run that is killed before any system call of its first or last replacement leaves the old state or the new one, and the same
    command goes on from it."""
    if shutil.which("strace") is None:
        return skip("kills between the system calls of a replacement", "strace")
    with tempfile.TemporaryDirectory() as folder:
        folder = os.path.realpath(folder)
        ops, server = operations(0, 10, 5), Noting()
        files = [written(folder, 0, ops)]
        check("a first run", finish(server.port, folder, files)[0] == 0)
        for number in (1, 2):
            for place, (name, on) in enumerate(REPLACES):
                ops.append(("%d-%d" % (number, place), None))
                add(files[0], '{"delete":{"_index":"books","_id":"%s"}}\n' % ops[-1][0])
                old, applied = state_of(folder), len(server.index.applied)
                # The first time that it opens the new file, a run looks whether it is there.
                calls = number + ((name, on) == REPLACES[0])
                trace = ["strace", "-f", "-qq", "-o", "/dev/null", "-P", os.path.join(folder, on), "-e", "trace=" + name, "-e", "inject=%s:signal=KILL:when=%d" % (name, calls)]
                done = subprocess.run([*trace, *command(server.port, folder, files)], stdin=subprocess.DEVNULL, capture_output=True, timeout=60)
                now, is_new = state_of(folder), place > REPLACES.index(("rename", "state.new"))
                epoch = old["epoch"] + (number == 2 or is_new)
                mark = len(ops) if number == 2 and is_new else len(ops) - 1
                what = "killed before %s of %s, in the %s replacement" % (name, on or "the folder", ("first", "last")[number - 1])
                check(what, done.returncode == -signal.SIGKILL and (now["epoch"], now["inputs"][0]["count"]) == (epoch, mark), (done.returncode, now, epoch, mark))
                check("%s: what was sent" % what, len(server.index.applied) - applied == (number == 2), len(server.index.applied) - applied)
                check("%s: and again" % what, finish(server.port, folder, files)[0] == 0 and state_of(folder)["inputs"][0]["count"] == len(ops), state_of(folder))
        judge(server, [ops], set())
        server.close()


def chaos(dice):
    """A server that takes its time, refuses items, some of them for good, and loses replies."""
    faults = ("drop before", "drop after", "half", 429, 503)
    return Noting(
        plan=lambda number: dice.choice(faults) if dice.random() < 0.1 else None,
        refuse=lambda meta: 429 if dice.random() < 0.02 else 400 if dice.random() < 0.005 else None,
        delay=lambda: dice.uniform(0.05, 0.2),
    )


def outages(server, dice, ended):
    while not ended.wait(dice.uniform(2, 5)):
        server.rest(dice.uniform(0.1, 0.5))


# What was seen of a run that was killed: its states, from the first that it wrote to the one that it left, whether it wrote as many as it
# was to write, when it wrote the last one, and how it ended.
Life = collections.namedtuple("Life", "states wrote written status")


def next_state(folder, old):
    """Waits until there is another state than this one, and returns it."""
    end = time.monotonic() + 30
    while state_of(folder) == old and time.monotonic() < end:
        time.sleep(0.01)
    return state_of(folder)


def lived(folder, words, writes, seconds):
    """Starts a run, and kills it this many seconds after it has written its state this often since its start."""
    states = [state_of(folder)]
    running = start(*words)
    for _ in range(1 + writes):
        states.append(next_state(folder, states[-1]))
    wrote = all(old != new for old, new in zip(states, states[1:]))
    try:
        running.wait(seconds)
    except subprocess.TimeoutExpired:
        running.send_signal(signal.SIGKILL)
    running.communicate()
    return Life([*states[1:], state_of(folder)], wrote, os.path.getmtime(os.path.join(folder, "state")), running.returncode)


def killed():
    """However often a run is killed, the same command ends with every operation applied or reported, in order. No mark goes back, and what was
    settled is not sent again but for the last second, and for what follows an operation that was not."""
    if FEWER:
        leave("40 of 50 kills of a run with a state, over 20,000 operations")
    with tempfile.TemporaryDirectory() as folder:
        dice, kills, ended = random.Random(53), random.Random(53), threading.Event()
        producers = [operations(p, COUNT // 2, 40) for p in range(2)]
        files = [written(folder, p, ops) for p, ops in enumerate(producers)]
        server = chaos(dice)
        troubles = threading.Thread(target=outages, args=(server, dice, ended))
        troubles.start()
        words = (server.port, folder, files, "--lanes", "2", "--count", "50", "--linger", "0", "--attempts", "32")
        lives = [lived(folder, words, kills.choice((0, 0, 1, 1, 2)), kills.uniform(0, 1.1)) for _ in range(KILLS)]
        server.delay = None
        status, out, err = finish(*words)
        ended.set()
        troubles.join()
        check("the last run ends", status in (0, 5) and COUNTS.search(out), (status, out[-200:], err))
        check("each kill hits a run", [life.status for life in lives] == [-signal.SIGKILL] * KILLS, [life.status for life in lives])
        check("each run writes its state while it works", all(life.wrote for life in lives), [life.wrote for life in lives])
        judge_marks(folder, lives)
        with open(os.path.join(folder, "report")) as report:
            named = {(it["epoch"], it["producer"], it["number"]) for it in map(json.loads, report)}
        judge_sends(server, producers, lives, named)
        judge(server, producers, {it[1:] for it in named})
        check("everything is settled", marks_of(folder) == [(os.path.getsize(path), lines_of(ops), len(ops)) for path, ops in zip(files, producers)], state_of(folder))
        server.close()


def judge_marks(folder, lives):
    """Each run goes on where the one before was left, and no mark of any input ever goes back."""
    goes_on = [(old.states[-1], new.states[0]) for old, new in zip(lives, lives[1:])]
    wrong = [(old, new) for old, new in goes_on if new != {**old, "epoch": old["epoch"] + 1}]
    check("each goes on where the one before was left", not wrong, wrong[:2])
    states = [*(state for life in lives for state in life.states), state_of(folder)]
    back = [(old, new) for old, new in zip(states, states[1:]) if goes_back(old, new)]
    check("no mark goes back", not back, back[:2])
    check("each moves on", all(it["count"] > COUNT // 16 for it in lives[-1].states[0]["inputs"]), lives[-1].states[0])


def goes_back(old, new):
    """Whether any part of the mark of any input has become less."""
    return any(after[it] < before[it] for before, after in zip(old["inputs"], new["inputs"]) for it in ("offset", "line", "count"))


def numbered(keys, producers, counts):
    """Yields each of the writes of a run that began after so many operations of each producer, with its producer and its number from 0, or None
    if there is no such operation. The versions of a document ascend in the order of its operations."""
    left = collections.defaultdict(collections.deque)
    for producer, (ops, count) in enumerate(zip(producers, counts)):
        for number in range(count, len(ops)):
            left[ops[number][0]].append((producer, number))
    for key in sorted(keys, key=lambda it: it[2]):
        yield key, left[key[1]].popleft() if left[key[1]] else None


def settled_by(server, sent, counts, latest, reported):
    """Returns of each producer the first operation that was not settled by then, in a run that began after so many and sent these. Settled are
    those of which it had read an answer that says so, and which are reported if they were refused."""
    done = set()
    for key, place in sent:
        when, status = server.read.get(key, (latest + 1, None))
        if when <= latest and (status != 400 or place in reported):
            done.add(place)
    return [next(number for number in itertools.count(count) if (producer, number) not in done) for producer, count in enumerate(counts)]


def judge_sends(server, producers, lives, named):
    """Each run sends the operations of each document from its mark on, and none that was settled in one before it, but for the last second:
    `SLACK` before that one wrote its state for the last time, which was little more than a second before it was killed."""
    keys, floors, settled, strays, moved = collections.defaultdict(list), {}, [0] * len(producers), [], 0
    for key in server.told:
        keys[epoch_of(key)].append(key)
    for life in lives:
        epoch, counts = life.states[0]["epoch"], [it["count"] for it in life.states[0]["inputs"]]
        floors[epoch] = settled
        sent = list(numbered(keys[epoch], producers, counts))
        strays += [(key, place) for key, place in sent if place is None or server.sent.get(key, place[1]) != place[1]]
        reported = {(producer, number - 1) for it, producer, number in named if it == epoch}
        now = settled_by(server, sent, counts, life.written - SLACK, reported)
        settled, moved = list(map(max, settled, now)), moved + sum(now) - sum(counts)
    later = [(key, number, floors.get(epoch_of(key), settled)[int(key[1].split("-")[0])]) for key, number in server.sent.items()]
    again = [it for it in later if it[1] < it[2]]
    check("each run sends what follows its marks", not strays, strays[:3])
    check("nothing settled is sent again", not again, again[:5])
    check("enough was settled for that", moved > COUNT // 40, moved)


def judge(server, producers, named):
    """Each operation was applied or is reported; within each epoch the writes of a document are in order, and its last one was that of its last
    operation."""
    missing, in_order, last = [], True, True
    for p, ops in enumerate(producers):
        applied = {}
        for (_, identity), writes in server.index.applied.items():
            if identity.startswith("%d-" % p):
                applied[identity] = writes
        done = {json.loads(source)["n"] for writes in applied.values() for _, _, source in writes if source is not None}
        missing += [(p, n) for n, (_, source) in enumerate(ops) if source is not None and n not in done and (p, n + 1) not in named]
        for identity, writes in applied.items():
            put = [source for it, source in ops if it == identity]
            by_epoch = {}
            for version, _, source in writes:
                by_epoch.setdefault((version - 1) // 2**40, []).append(source)
            in_order = in_order and all(is_run_of(found, put) for found in by_epoch.values())
            numbers = [n + 1 for n, (it, _) in enumerate(ops) if it == identity]
            last = last and (writes[-1][2] == put[-1] or (p, numbers[-1]) in named)
    check("every operation was applied or reported", not missing, missing[:5])
    check("in order within each epoch", in_order)
    check("the last state of each document", last)


def is_run_of(found, put):
    """Returns true if what was found was put in this order, maybe with others between."""
    left = iter(put)
    return all(it in left for it in found)


def ended_by(folder, process, seconds):
    """Makes the file that ends a run, and returns how it ended, and whether it did within this time."""
    begun = time.monotonic()
    add(os.path.join(folder, "until"), "")
    out, err = process.communicate(timeout=60)
    return process.returncode, out, unlogged(err), time.monotonic() - begun < seconds


def until_idle():
    """A run that waits for a pipe, or for nothing, ends at once."""
    with tempfile.TemporaryDirectory() as folder:
        server, pipe, until = Server(), os.path.join(folder, "pipe"), os.path.join(folder, "until")
        os.mkfifo(pipe)
        for name, words in (("a pipe", [pipe]), ("standard input", ["-"])):
            process = subprocess.Popen([RELAY, "run", "--to", "127.0.0.1:%d" % server.port, "--until", until, "--linger", "0", "--index", "books", *words], stdin=subprocess.PIPE, stdout=subprocess.PIPE, stderr=subprocess.PIPE)
            writer = open(pipe, "wb") if words[0] == pipe else process.stdin
            before = len(server.index.applied)
            writer.write(b'{"delete":{"_id":"%s 1"}}\n{"delete":{"_id":"%s 2"}}\n{"delete":' % (name.encode(), name.encode()))
            writer.flush()
            wait_until(lambda: len(server.index.applied) == before + 2)
            time.sleep(0.3)
            begun = time.monotonic()
            add(until, "")
            process.wait(timeout=60)
            took = time.monotonic() - begun
            out, err = process.stdout.read(), process.stderr.read()
            check("%s that waits" % name, (process.returncode, out, unlogged(err)) == (0, b"applied 2 already 0 reported 0\n", b"stopped: --until\n") and took < 2, (process.returncode, out, err, took))
            writer.close() if writer is not process.stdin else process.stdin.close()
            os.remove(until)
        nobody = subprocess.Popen([RELAY, "run", "--to", "127.0.0.1:%d" % server.port, "--until", until, "--index", "books", pipe], stdin=subprocess.DEVNULL, stdout=subprocess.PIPE, stderr=subprocess.PIPE)
        time.sleep(0.3)
        done = ended_by(folder, nobody, 2)
        check("a pipe that nobody writes to", done == (0, b"applied 0 already 0 reported 0\n", b"stopped: --until\n", True), done)
        server.close()


def until_busy():
    """A run with requests in flight finishes them, and its state has them; in an outage without end it is left, with what was settled."""
    with tempfile.TemporaryDirectory() as folder:
        ops = operations(0, 20_000, 100)
        files, until = [written(folder, 0, ops)], os.path.join(folder, "until")
        server = Noting(delay=lambda: 0.05)
        words = (server.port, folder, files, "--until", until, "--count", "50", "--linger", "0", "--held", "200", "--capacity", "50", "--give-up-after", "never", "--timeout", "2s")
        process = start(*words)
        wait_until(lambda: server.requests > 10)
        status, out, err, _ = ended_by(folder, process, 60)
        counted = int(COUNTS.search(out)[1])
        check("requests in flight", status == 0 and err == b"stopped: --until\n" and 0 < counted < 20_000 and marks_of(folder)[0][2] == counted, (status, out, err, state_of(folder)))
        os.remove(until)
        process = start(*words)
        wait_until(lambda: server.requests > counted // 50 + 10)
        server.go_down()
        time.sleep(0.5)
        status, out, err, soon = ended_by(folder, process, 4)
        mark = marks_of(folder)[0][2]
        done = {json.loads(source)["n"] for writes in server.index.applied.values() for _, _, source in writes if source is not None}
        lacks = [n for n, (_, source) in enumerate(ops[:mark]) if source is not None and n not in done]
        check("an outage", soon and status == 3 and out == b"" and err.endswith(b"stopped: --until; not all was settled\n") and mark >= counted and not lacks, (soon, status, out, err, mark, lacks[:5]))
        os.remove(until)
        server.come_up()
        server.delay = None
        status, out, err = finish(*words)
        check("and again", status == 0 and marks_of(folder)[0][2] == 20_000, (status, out, err))
        judge(server, [ops], set())
        server.close()


def unit():
    """Returns what the unit in docs/OPERATING.md has, by its keys."""
    with open(os.path.join(os.path.dirname(os.path.dirname(os.path.abspath(__file__))), "docs", "OPERATING.md"), encoding="utf-8") as file:
        text = file.read().split("    [Service]\n")[1].split("\n\n")[0].replace("\\\n", "")
    return dict(line.strip().split("=", 1) for line in text.split("\n"))


def by_its_unit():
    """The commands of the unit in docs/OPERATING.md: it is stopped while it works, and goes on when it is started again."""
    with tempfile.TemporaryDirectory() as folder:
        ops, keys = operations(0, 20_000, 100), unit()
        os.rename(written(folder, 0, ops), os.path.join(folder, "ops.ndjson"))
        server = Server(delay=lambda: 0.05)
        words = shlex.split(keys["ExecStart"].replace("/usr/local/bin/relay", RELAY).replace("127.0.0.1:9200", "127.0.0.1:%d" % server.port))
        counts = []
        for is_last in (False, True):
            subprocess.run(shlex.split(keys["ExecStartPre"]), cwd=folder, check=True)
            process, done = subprocess.Popen(words, cwd=folder, stdin=subprocess.DEVNULL, stdout=subprocess.PIPE, stderr=subprocess.PIPE), []
            ending = threading.Thread(target=lambda: done.append(process.communicate(timeout=120)))
            ending.start()
            if is_last:
                server.delay = None
            else:
                wait_until(lambda: server.requests > 10)
                subprocess.run(shlex.split(keys["ExecStop"]), cwd=folder, env={**os.environ, "MAINPID": str(process.pid)}, check=True, timeout=float(keys["TimeoutStopSec"]))
                check("its ExecStop waits", process.poll() is not None)
            ending.join()
            counts.append(int(COUNTS.search(done[0][0])[1]))
            said = b"" if is_last else b"stopped: --until\n"
            check("a unit of systemd", process.returncode == 0 and unlogged(done[0][1]).endswith(said), (process.returncode, done))
        check("it goes on", counts[0] > 0 and sum(counts) == 20_000, counts)
        judge(server, [ops], set())
        server.close()


def takes_nothing(name, server, folder, files):
    """A run that begins while the file is there that ends it takes nothing from its files: nothing is sent, and the marks stay."""
    until, wanted = os.path.join(folder, "until"), b"applied 0 already 0 reported 0\n"
    marks, requests, epoch = marks_of(folder) or [(0, 0, 0)], server.requests, (state_of(folder) or {"epoch": 0})["epoch"]
    says = b"".join(b"%s: goes on after %d operations, at line %d\n" % (path.encode(), count, line + 1) for path, (_, line, count) in zip(files, marks) if count)
    status, out, err = finish(server.port, folder, files, "--until", until)
    check("%s: what it says" % name, (status, err) == (0, says + b"stopped: --until\n"), (status, out, err))
    check("%s: its epoch" % name, state_of(folder)["epoch"] == epoch + 1, (state_of(folder), epoch))
    check("%s: nothing is taken" % name, out == wanted and server.requests == requests and marks_of(folder) == marks, (out, server.requests - requests, state_of(folder)))


def until_there():
    """A run that begins while the file is there that ends it takes nothing, from a file or from a pipe."""
    with tempfile.TemporaryDirectory() as folder:
        ops, server, until = operations(0, 1_000, 100), Server(), os.path.join(folder, "until")
        files = [written(folder, 0, ops)]
        add(until, "")
        takes_nothing("a file that is there", server, folder, files)
        os.remove(until)
        status, out, err = finish(server.port, folder, files, "--until", until)
        check("and again without it", status == 0 and marks_of(folder) == [(os.path.getsize(files[0]), lines_of(ops), 1_000)] and b"stopped" not in err, (status, out, err))
        add(files[0], open(files[0]).read())
        add(until, "")
        takes_nothing("a file that is there, from a mark on", server, folder, files)
        line, (reader, writer) = b'{"delete":{"_id":"1"}}\n', os.pipe()
        os.write(writer, line)
        words = [RELAY, "run", "--to", "127.0.0.1:%d" % server.port, "--until", until, "--index", "books", "-"]
        done = subprocess.run(words, stdin=reader, stdout=subprocess.PIPE, stderr=subprocess.PIPE, timeout=SECONDS)
        left = os.read(reader, 100)
        check("what is in a pipe stays there", (done.returncode, done.stdout, unlogged(done.stderr), left) == (0, b"applied 0 already 0 reported 0\n", b"stopped: --until\n", line), (done, left))
        os.close(reader)
        os.close(writer)
        server.close()


GROUPS = (from_run_to_run, refused, names_beside, long_paths, two_at_once, replaced, once_a_second, killed_in_a_replacement, until_idle, until_busy, by_its_unit, until_there, killed)
