"""What `relay world` does."""
import subprocess
import tempfile

from program import FEWER, RELAY, case, check, directory, endless, leave
from world_scripts import play_all

THREE = "world 1 1 10 10 10 4096 0 3 1 0 1000"
TWO = "world 1 1 10 10 10 4096 0 2 1 0 1000"
EPOCHS, DEAL = 4194303, 1099511627775
LIMIT = 1114112
LINES = 1000000
# How many random scripts are played over an empty index, and over one that states the versions that it has from before.
PLAYED, PLAYED_STATED = (200, 300) if FEWER else (2000, 3000)


def played(name, first, rows, end=None):
    """Plays a script, given as rows `EVENT [ANSWER]` joined by `; `, and compares its answers and the lines at its end."""
    lines, answers = [first], []
    for row in filter(None, rows.split("; ")):
        event, answer = row[:-1].rsplit(" [", 1)
        lines.append(event)
        answers.append(answer)
    if end is None:
        end = "accepted 0 0; finished no"
    text = "\n".join(lines).encode()
    said = "\n".join(answers + end.split("; ")).encode() + b"\n"
    case(name, ["world"], text + b"\n", said, b"", 0)
    case(name + ", CR LF and an open end", ["world"], text.replace(b"\n", b"\r\n"), said, b"", 0)


def bad(name, text, line, stdout=b""):
    case("bad line: %s" % name, ["world"], text, stdout, b"line %d: BadLine\n" % line, 2)


SENT = 'put 0 b 1 index {"a":1} [ok 0:1]; take 0 [ok]; send 0 [ok 1 b/1@1]; '
AGAIN = SENT + "lost 1 [ok 0 0 0 1]; tick 0 [ok]; take 0 [ok]; send 0 [ok 2 b/1@1]; "


def rows():
    played(
        "three, of which one is sent again",
        THREE,
        'put 0 b 1 index {"a":1} [ok 0:1]; put 0 b 2 index {"a":2} [ok 0:2]; put 0 b 3 delete [ok 0:3]; take 0 [ok]; '
        "take 0 [ok]; take 0 [ok]; send 0 [ok 1 b/1@1 b/2@2 b/3@3]; run 1 1 [ok 201]; run 1 2 429 [ok 429]; run 1 3 [ok 404]; "
        "reply 1 [ok 2 0 0 1]; send 0 [no NoRequest]; tick 0 [ok]; take 0 [ok]; send 0 [ok 2 b/2@2]; run 2 1 [ok 201]; "
        "reply 2 [ok 1 0 0 0]; close 0 0 [ok]; close 1 0 [ok]; take 0 [ok]; take 0 [ok]",
        "accepted 0 3; applied b/1 1 0:1; applied b/2 2 0:2; applied b/3 3 0:3; finished yes",
    )
    played(
        "a reply is lost after the write was applied",
        THREE,
        SENT + "run 1 1 [ok 201]; lost 1 [ok 0 0 0 1]; tick 0 [ok]; take 0 [ok]; send 0 [ok 2 b/1@1]; run 2 1 [ok 409]; reply 2 [ok 0 1 0 0]",
        "accepted 0 1; applied b/1 1 0:1; finished no",
    )
    played(
        "a late run after its repeat",
        THREE,
        AGAIN + "run 2 1 [ok 201]; run 1 1 [ok 409]; reply 2 [ok 1 0 0 0]; reply 2 [no NotFlying]",
        "accepted 0 1; applied b/1 1 0:1; finished no",
    )
    played(
        "one of a document at a time",
        THREE,
        'put 0 b 1 index {"a":1} [ok 0:1]; put 0 b 1 index {"a":2} [ok 0:2]; take 0 [ok]; take 0 [ok]; send 0 [ok 1 b/1@1]; '
        "send 0 [no NoRequest]; run 1 1 429 [ok 429]; reply 1 [ok 0 0 0 1]; send 0 [no NoRequest]; tick 0 [ok]; take 0 [ok]; "
        "send 0 [ok 2 b/1@1]; run 2 1 [ok 201]; reply 2 [ok 1 0 0 0]; send 0 [ok 3 b/1@2]; run 3 1 [ok 200]; reply 3 [ok 1 0 0 0]",
        "accepted 0 2; applied b/1 1 0:1; applied b/1 2 0:2; finished no",
    )
    played(
        "one of a document at a time, with two in flight",
        THREE.replace(" 1 0 1000", " 2 0 1000"),
        'put 0 b 1 index {"a":1} [ok 0:1]; put 0 b 1 index {"a":2} [ok 0:2]; take 0 [ok]; take 0 [ok]; send 0 [ok 1 b/1@1]; '
        "send 0 [no NoRequest]; run 1 1 429 [ok 429]; reply 1 [ok 0 0 0 1]; send 0 [no NoRequest]; tick 0 [ok]; take 0 [ok]; "
        "send 0 [ok 2 b/1@1]; run 2 1 [ok 201]; reply 2 [ok 1 0 0 0]; send 0 [ok 3 b/1@2]; run 3 1 [ok 200]; reply 3 [ok 1 0 0 0]",
        "accepted 0 2; applied b/1 1 0:1; applied b/1 2 0:2; finished no",
    )
    played(
        "two in flight, answered in another order",
        "world 1 1 10 10 1 4096 0 3 2 0 1000",
        "put 0 b 1 delete [ok 0:1]; put 0 b 2 delete [ok 0:2]; put 0 b 3 delete [ok 0:3]; take 0 [ok]; take 0 [ok]; take 0 [ok]; "
        "send 0 [ok 1 b/1@1]; send 0 [ok 2 b/2@2]; send 0 [no NoRequest]; run 2 1 [ok 404]; reply 2 [ok 1 0 0 0]; send 0 [ok 3 b/3@3]; "
        "run 1 1 [ok 404]; run 3 1 [ok 404]; reply 3 [ok 1 0 0 0]; reply 1 [ok 1 0 0 0]",
        "accepted 0 3; applied b/1 1 0:1; applied b/2 2 0:2; applied b/3 3 0:3; finished no",
    )
    twice = "put 0 b 1 delete [ok 0:1]; take 0 [ok]; send 0 [ok 1 b/1@1]; reply 1 [no NotRun]; run 1 1 [ok 404]; run 1 1 [ok 409]; "
    played("the last run answers", THREE, twice + "reply 1 [ok 0 0 1 0]", "accepted 0 1; applied b/1 1 0:1; report 0 0:1 b/1 Conflict; finished no")
    played(
        "or one that is picked",
        THREE,
        twice + "reply 1 3 [no NotRun]; reply 1 0 [no NotRun]; reply 1 1 1 [no NotRun]; reply 1 18446744073709551615 [no NotRun]; reply 1 1 [ok 1 0 0 0]",
        "accepted 0 1; applied b/1 1 0:1; finished no",
    )
    played(
        "given up, and applied late",
        TWO,
        AGAIN + "lost 2 [ok 0 0 1 0]; put 0 b 1 delete [ok 0:2]; take 0 [ok]; run 1 1 [ok 201]; send 0 [ok 3 b/1@2]; "
        "run 3 1 [ok 200]; run 2 1 [ok 409]; reply 3 [ok 1 0 0 0]",
        "accepted 0 2; applied b/1 1 0:1; applied b/1 2 0:2; report 0 0:1 b/1 GaveUp 2; finished no",
    )
    played(
        "an item is refused",
        THREE,
        SENT + "run 1 1 409 [no BadStatus]; whole 1 200 [no BadStatus]; run 1 1 400 [ok 400]; reply 1 [ok 0 0 1 0]",
        "accepted 0 1; report 0 0:1 b/1 Refused 400 scripted_refusal; finished no",
    )
    played("a request is refused", THREE, SENT + "whole 1 401 [ok 0 0 1 0]", "accepted 0 1; report 0 0:1 b/1 Request 401; finished no")
    played("or sent again", THREE, SENT + "whole 1 503 [ok 0 0 0 1]", "accepted 0 1; finished no")
    played(
        "the last version",
        "world 1 1 1 1 10 4096 0 3 1 8 1",
        "put 0 b 1 delete [ok 8.0:1]; put 0 b 2 delete [no QueueFull]; take 0 [ok]; put 0 b 2 delete [ok 8.0:2]; take 0 [no HeldFull]; "
        "send 0 [ok 1 b/1@8796093022209]; run 1 1 [ok 404]; reply 1 [ok 1 0 0 0]; take 0 [ok]; close 0 0 [ok]; put 0 b 3 delete [no Closed]",
        "accepted 0 2; applied b/1 8796093022209 8.0:1; report 0 8.0:2 b/2 Spent; finished no",
    )


def too_large():
    """A request that is too large is sent again in halves, and a single operation that is too large is reported."""
    played(
        "halves, of which one is too large alone",
        THREE,
        "put 0 b 1 delete [ok 0:1]; put 0 b 2 delete [ok 0:2]; put 0 b 3 delete [ok 0:3]; take 0 [ok]; take 0 [ok]; take 0 [ok]; "
        "send 0 [ok 1 b/1@1 b/2@2 b/3@3]; run 1 2 [ok 404]; whole 1 413 [ok 0 0 0 3]; send 0 [ok 2 b/1@1]; whole 2 413 [ok 0 0 1 0]; "
        "send 0 [ok 3 b/2@2]; run 3 1 [ok 409]; reply 3 [ok 0 1 0 0]; send 0 [ok 4 b/3@3]",
        "accepted 0 3; applied b/2 2 0:2; report 0 0:1 b/1 Request 413; finished no",
    )
    played(
        "a half is no attempt: with one attempt what is halved is sent again, and GaveUp counts both requests",
        "world 1 1 10 10 10 4096 0 1 1 0 1000",
        "put 0 b 1 delete [ok 0:1]; put 0 b 2 delete [ok 0:2]; take 0 [ok]; take 0 [ok]; send 0 [ok 1 b/1@1 b/2@2]; "
        "whole 1 413 [ok 0 0 0 2]; send 0 [ok 2 b/1@1]; lost 2 [ok 0 0 1 0]; send 0 [ok 3 b/2@2]; whole 3 503 [ok 0 0 1 0]",
        "accepted 0 2; report 0 0:1 b/1 GaveUp 2; report 0 0:2 b/2 GaveUp 2; finished no",
    )
    played(
        "an item whose own status is 413 is refused",
        THREE,
        SENT + "run 1 1 413 [ok 413]; reply 1 [ok 0 0 1 0]",
        "accepted 0 1; report 0 0:1 b/1 Refused 413 scripted_refusal; finished no",
    )


def restarts():
    """A new incarnation in a higher epoch: everything but the requests and the index starts afresh."""
    first, second, third = 1, 2**40 + 1, 3 * 2**40 + 1
    played(
        "a restart, and a late run of an old request",
        THREE,
        SENT + "restart 1 [ok]; reply 1 [no NotFlying]; put 0 b 1 delete [ok 1.0:1]; take 0 [ok]; run 1 1 [ok 201]; "
        "send 0 [ok 2 b/1@1099511627777]; run 2 1 [ok 200]; run 1 1 [ok 409]; reply 2 [ok 1 0 0 0]; restart 1 [no NotAbove]",
        "accepted 0 1; applied b/1 1 0:1; applied b/1 1099511627777 1.0:1; finished no",
    )
    played(
        "an old request is not applied once a newer write was",
        THREE,
        SENT + "restart 1 [ok]; put 0 b 1 delete [ok 1.0:1]; take 0 [ok]; send 0 [ok 2 b/1@%d]; run 2 1 [ok 404]; run 1 1 [ok 409]; reply 2 [ok 1 0 0 0]" % second,
        "accepted 0 1; applied b/1 %d 1.0:1; finished no" % second,
    )
    played(
        "an old request is answered no more, in whatever way",
        THREE,
        SENT + "run 1 1 [ok 201]; restart 3 [ok]; lost 1 [no NotFlying]; whole 1 503 [no NotFlying]; whole 1 200 [no NotFlying]; reply 1 [no NotFlying]; "
        "reply 1 1 [no NotFlying]; put 0 b 1 delete [ok 3.0:1]; take 0 [ok]; send 0 [ok 2 b/1@%d]; reply 1 [no NotFlying]; lost 2 [ok 0 0 0 1]; lost 2 [no NotFlying]" % third,
        "accepted 0 1; applied b/1 %d 0:1; finished no" % first,
    )
    played(
        "queues, closings, reports and what was held are gone",
        "world 2 2 1 1 10 4096 0 1 1 0 1000",
        "put 0 b 4 delete [ok 0:1]; close 1 1 [ok]; close 0 1 [no QueueFull]; take 1 [ok]; close 0 1 [ok]; take 0 [ok]; send 0 [ok 1 b/4@1]; "
        "lost 1 [ok 0 0 1 0]; tick 0 [ok]; restart 7 [ok]; take 0 [no NothingQueued]; take 1 [no NothingQueued]; send 0 [no NoRequest]; "
        "put 0 b 4 delete [ok 7.0:1]; put 1 b 4 delete [no QueueFull]; close 0 1 [ok]; take 0 [ok]; put 1 b 4 delete [ok 7.1:1]",
        "accepted 0 1; accepted 1 1; finished no",
    )
    played(
        "numbers and versions begin anew, and a second restart begins them anew",
        THREE,
        "put 0 b 1 delete [ok 0:1]; put 0 b 2 delete [ok 0:2]; restart 1 [ok]; put 0 b 1 delete [ok 1.0:1]; take 0 [ok]; send 0 [ok 1 b/1@%d]; run 1 1 [ok 404]; "
        "restart 3 [ok]; put 0 b 1 delete [ok 3.0:1]; put 0 b 1 delete [ok 3.0:2]; take 0 [ok]; take 0 [ok]; send 0 [ok 2 b/1@%d]; run 1 1 [ok 409]; "
        "run 2 1 [ok 404]; run 1 1 [ok 409]; reply 2 [ok 1 0 0 0]" % (second, third),
        "accepted 0 2; applied b/1 %d 1.0:1; applied b/1 %d 3.0:1; finished no" % (second, third),
    )
    played(
        "what was taken past the deal of an epoch is of no other epoch",
        "world 1 1 10 10 10 4096 0 3 1 0 1",
        "put 0 b 1 delete [ok 0:1]; put 0 b 1 delete [ok 0:2]; take 0 [ok]; take 0 [ok]; restart 1 [ok]; put 0 b 1 index {} [ok 1.0:1]; take 0 [ok]; "
        "send 0 [ok 1 b/1@%d]; run 1 1 [ok 201]; put 0 b 1 delete [ok 1.0:2]; take 0 [ok]" % second,
        "accepted 0 2; applied b/1 %d 1.0:1; report 0 1.0:2 b/1 Spent; finished no" % second,
    )
    played(
        "not above",
        "world 1 1 10 10 10 4096 0 3 1 5 1000",
        "restart 0 [no NotAbove]; restart 4 [no NotAbove]; restart 5 [no NotAbove]; restart 4194304 [no NotAbove]; restart 4294967295 [no NotAbove]; "
        "restart 6 [ok]; restart 6 [no NotAbove]; restart 4194303 [ok]; restart 4194303 [no NotAbove]; put 0 b 1 delete [ok 4194303.0:1]; take 0 [ok]; "
        "send 0 [ok 1 b/1@%d]" % (4194303 * 2**40 + 1),
        "accepted 0 1; finished no",
    )


def refusals():
    """Each cause of refusal of each event; if several apply, the first one is named."""
    played(
        "of senders",
        "world 2 2 1 10 10 4096 0 3 1 0 1000",
        "put 2 b 0 delete [no NoSuch]; close 0 2 [no NoSuch]; close 3 0 [no NoSuch]; close 3 2 [no NoSuch]; tick 2 [no NoSuch]; "
        "flush 2 [no NoSuch]; take 2 [no NoSuch]; send 2 [no NoSuch]; tick 4294967295 [no NoSuch]; take 0 [no NothingQueued]; "
        "send 0 [no NoRequest]; flush 0 [ok]; tick 0 [no QueueFull]; flush 0 [no QueueFull]; close 0 0 [no QueueFull]; "
        "close 3 0 [no NoSuch]; close 0 1 [ok]; close 0 1 [no Closed]; put 0 b 0 delete [no Closed]; put 2 b 0 delete [no NoSuch]; "
        "take 1 [ok]; close 2 1 [ok]; tick 0 [no Closed]; flush 1 [no Closed]; tick 2 [no NoSuch]; take 0 [ok]; close 2 0 [ok]; "
        "close 1 1 [no QueueFull]; take 1 [ok]; close 1 1 [ok]; put 1 b 0 delete [no Closed]",
        "accepted 0 0; accepted 1 0; finished no",
    )
    played(
        "of requests",
        THREE,
        "run 1 1 [no NotSent]; run 1 1 409 [no NotSent]; reply 1 [no NotSent]; reply 1 1 1 [no NotSent]; whole 1 200 [no NotSent]; lost 1 [no NotSent]; "
        "put 0 b 1 delete [ok 0:1]; take 0 [ok]; send 0 [ok 1 b/1@1]; run 0 1 [no NotSent]; run 1 0 [no NotSent]; run 1 2 [no NotSent]; "
        "run 1 2 409 [no NotSent]; run 1 18446744073709551615 [no NotSent]; run 18446744073709551615 1 [no NotSent]; run 1 1 399 [no BadStatus]; "
        "run 1 1 404 [no BadStatus]; run 1 1 600 [no BadStatus]; run 1 1 0 [no BadStatus]; run 1 1 65535 [no BadStatus]; "
        "whole 1 199 [no BadStatus]; whole 1 200 [no BadStatus]; whole 1 600 [no BadStatus]; whole 1 0 [no BadStatus]; lost 0 [no NotSent]; "
        "whole 0 201 [no NotSent]; reply 0 [no NotSent]; lost 2 [no NotSent]; reply 1 [no NotRun]; reply 1 1 [no NotRun]; lost 1 [ok 0 0 0 1]; lost 1 [no NotFlying]; "
        "whole 1 200 [no NotFlying]; reply 1 7 7 [no NotFlying]; run 1 1 599 [ok 599]; run 1 1 400 [ok 400]; run 1 1 [ok 404]",
        "accepted 0 1; applied b/1 1 0:1; finished no",
    )
    played("a status for a whole request may be 201", THREE, SENT + "whole 1 201 [ok 0 0 1 0]", "accepted 0 1; report 0 0:1 b/1 Request 201; finished no")
    played("or 599", THREE, SENT + "whole 1 599 [ok 0 0 1 0]", "accepted 0 1; report 0 0:1 b/1 Request 599; finished no")
    played(
        "picks, one for each item",
        THREE,
        "put 0 b 1 delete [ok 0:1]; put 0 b 2 delete [ok 0:2]; take 0 [ok]; take 0 [ok]; send 0 [ok 1 b/1@1 b/2@2]; run 1 1 [ok 404]; "
        "reply 1 [no NotRun]; run 1 2 500 [ok 500]; run 1 2 [ok 404]; run 1 2 [ok 409]; reply 1 1 [no NotRun]; reply 1 1 4 [no NotRun]; "
        "reply 1 2 1 [no NotRun]; reply 1 1 1 1 [no NotRun]; reply 1 1 2 [ok 2 0 0 0]",
        "accepted 0 2; applied b/1 1 0:1; applied b/2 2 0:2; finished no",
    )
    played(
        "a second sender's messages and a full batch",
        "world 1 2 10 10 1 4096 5 3 1 0 1000",
        "put 1 b 1 delete [ok 1:1]; put 0 a 9 delete [ok 0:1]; take 0 [ok]; send 0 [ok 1 b/1@1]; take 0 [ok]; send 0 [no NoRequest]; lost 1 [ok 0 0 0 1]; send 0 [ok 2 a/9@2]",
        "accepted 0 1; accepted 1 1; finished no",
    )
    played(
        "a batch lingers until it is flushed",
        "world 1 1 10 10 10 4096 5 3 1 0 1000",
        "put 0 b 1 delete [ok 0:1]; take 0 [ok]; send 0 [no NoRequest]; flush 0 [ok]; send 0 [no NoRequest]; take 0 [ok]; send 0 [ok 1 b/1@1]",
        "accepted 0 1; finished no",
    )


def many():
    """Eight lanes and sixteen producers; the lanes of these documents were computed independently."""
    lanes = [6, 1, 0, 3, 2, 5, 4, 7]
    puts = "; ".join("put %d books %d delete [ok %d:1]" % (p, p % 8, p) for p in range(16))
    takes = "; ".join("take %d [ok]; take %d [ok]; take %d [no NothingQueued]" % (lane, lane, lane) for lane in range(8))
    sends = "; ".join("send %d [ok %d books/%d@1]; run %d 1 [ok 404]; reply %d [ok 1 0 0 0]" % (lanes[i], i + 1, i, i + 1, i + 1) for i in range(8))
    end = "; ".join(["accepted %d 1" % p for p in range(16)] + ["applied books/%d 1 %d:1" % (i, i) for i in range(8)] + ["finished no"])
    played("eight lanes and sixteen producers", "world 8 16 10 10 10 4096 0 3 1 0 1000", "; ".join([puts, takes, sends]), end)
    closed = "; ".join("close %d %d [ok]" % (s, lane) for lane in range(8) for s in range(17))
    taken = "; ".join("take %d [ok]" % lane for lane in range(8) for _ in range(17))
    end = "; ".join(["accepted %d 0" % p for p in range(16)])
    played("all close", "world 8 16 17 10 10 4096 0 3 1 0 1000", "; ".join([closed, taken]), end + "; finished yes")
    played("all but one message was taken", "world 8 16 17 10 10 4096 0 3 1 0 1000", "; ".join([closed, taken.rsplit("; ", 1)[0]]), end + "; finished no")
    order = ["b", "a!", "a", "b!", "\u00e9", "aa"]
    text = "; ".join("put 0 %s x delete [ok 0:%d]; take 0 [ok]" % (name, at + 1) for at, name in enumerate(order))
    sent = " ".join("%s/x@%d" % (name, at + 1) for at, name in enumerate(order))
    runs = "; ".join("run 1 %d [ok 404]" % (at + 1) for at in range(len(order)))
    end = ["applied %s/x %d 0:%d" % (name, at + 1, at + 1) for at, name in sorted(enumerate(order), key=lambda pair: pair[1].encode())]
    played("documents in byte order", THREE, "; ".join([text, "send 0 [ok 1 %s]" % sent, runs]), "; ".join(["accepted 0 6"] + end + ["finished no"]))


def bad_lines():
    first = THREE.encode() + b"\n"
    bad("an empty script", b"", 1)
    bad("a blank line alone", b"\n", 1)
    bad("an event first", b"take 0\n", 1)
    for text in (
        "world", "world ", "world 1 1 10 10 10 4096 0 3 1", "world 1 1 10 10 10 4096 0 3 1 0", THREE + " 1", THREE + " ", " " + THREE, "World" + THREE[5:], THREE.replace(" ", "  ", 1),
        "world 0 1 10 10 10 4096 0 3 1 0 1000", "world 9 1 10 10 10 4096 0 3 1 0 1000", "world 1 0 10 10 10 4096 0 3 1 0 1000", "world 1 257 10 10 10 4096 0 3 1 0 1000",
        "world 1 1 0 10 10 4096 0 3 1 0 1000", "world 1 1 65537 10 10 4096 0 3 1 0 1000", "world 1 1 10 0 10 4096 0 3 1 0 1000", "world 1 1 10 65537 10 4096 0 3 1 0 1000",
        "world 1 1 10 10 0 4096 0 3 1 0 1000", "world 1 1 10 10 10001 4096 0 3 1 0 1000", "world 1 1 10 10 10 1023 0 3 1 0 1000", "world 1 1 10 10 10 16777217 0 3 1 0 1000",
        "world 1 1 10 10 10 4096 65536 3 1 0 1000", "world 1 1 10 10 10 4096 0 0 1 0 1000", "world 1 1 10 10 10 4096 0 33 1 0 1000", "world 1 1 10 10 10 4096 0 2097152 1 0 1000", "world 1 1 10 10 10 4096 0 3 0 0 1000",
        "world 1 1 10 10 10 4096 0 3 9 0 1000", "world 1 1 10 10 10 4096 0 3 1 0 0", "world 1 1 10 10 10 4096 0 3 1 0 %d" % (DEAL + 1), "world 1 1 10 10 10 4096 0 3 1 %d 1000" % (EPOCHS + 1),
        "world 4294967297 1 10 10 10 4096 0 3 1 0 1000", "world 1 1 10 10 10 4096 4294967296 3 1 0 1000", "world 1 1 10 10 10 4096 0 3 1 0 18446744073709551617", "world 1 1 10 10 10 4096 0 3 1 4294967296 1000",
        "world 1 1 10 10 10 18446744073709552640 0 3 1 0 1000", "world +1 1 10 10 10 4096 0 3 1 0 1000", "world 1 1 10 10 10 4096 0 3 1 -1 1000", "world 1 1 10 10 10 4096 0 3 1 0 -1", "world 1 1 10 10 10 4096 0 3 1 0 x",
    ):
        bad("config %s" % text, text.encode() + b"\n", 1)
    for text in ("world 8 16 65536 65536 10000 16777216 65535 32 8 %d %d" % (EPOCHS, DEAL), "world 1 1 1 1 1 1024 0 1 1 0 1", "world 001 1 10 10 10 04096 00 3 1 00 01000"):
        producers = int(text.split()[2])
        case("config %s" % text, ["world"], text.encode(), b"".join(b"accepted %d 0\n" % p for p in range(producers)) + b"finished no\n", b"", 0)
    for text in (
        b"", b" ", b"\r", b"take", b"take ", b"take 0 ", b" take 0", b"take  0", b"take\t0", b"take 0\t", b"take 0 0", b"take +0", b"take -0", b"take 0x0", b"take \xd9\xa0",
        b"take 4294967296", b"take 18446744073709551616", b"take 1.0", b"TAKE 0", b"took 0", b"tick", b"flush x", b"send 0,0", b"close 0", b"close 0 0 0", b"close 4294967296 0",
        b"close 0 4294967296", b"run 1", b"run 1 1 1 1", b"run 1 1 65536", b"run 18446744073709551616 1", b"run 1 18446744073709551616", b"run 1 1 +400", b"reply", b"reply x",
        b"reply 1 ", b"reply 1  1", b"reply 1 18446744073709551616", b"reply 1 1 x", b"whole 1", b"whole 1 65536", b"whole 1 401 1", b"lost", b"lost 1 1", b"lost 18446744073709551616",
        b"world 1 1 10 10 10 4096 0 3 1 0 1000", b"restart", b"restart ", b"restart 1 1", b"restart -1", b"restart 4294967296", b"\xff", b"take 0\xff", b"put", b"put 0", b"put 0 b", b"put 0 b 1", b"put 0 b 1 ", b"put 0 b 1 index", b"put 0 b 1 index ",
        b"put 0 b 1 delete ", b"put 0 b 1 delete x", b"put 0 b 1 deleted", b"put 0 b 1 update x", b"put 0 b  delete", b"put 0  1 delete", b"put 0  b 1 delete", b"put  0 b 1 delete",
        b"put 4294967296 b 1 delete", b"put x b 1 delete", b"put 0 b 1\tdelete", b"put 0 b 1 index a\rb", b"put 0 b 1 index a\xff", b"put 0 b\xff 1 delete",
        b"put 0 %s 1 delete" % (b"i" * 256), b"put 0 b %s delete" % (b"i" * 513), b"put 0 b 1 index %s" % (b"x" * 1048577),
    ):
        bad(repr(text[:60]), first + text + b"\n", 2)
        bad(repr(text[:60]) + " after an event", first + b"take 0\n" + text + b"\ntake 0\n", 3, b"no NothingQueued\n")
    bad("an open carriage return", first + b"take 0\r", 2)
    end = b"accepted 0 %d\nfinished no\n"
    for text in (b"take 000", b"take 0\r", b"take " + b"0" * 1000):
        case("good line: %r" % text[:60], ["world"], first + text + b"\n", b"no NothingQueued\n" + end % 0, b"", 0)
    for text in (
        b"put 0 b 1 index a b  c ", b"put 0 b 1 index  ", b"put 00000000000 b 1 delete", b"put 0 \t \t delete", b"put 0 b 1 index \t", b"put 0 b 1 index delete",
        b"put 0 %s 1 delete" % (b"i" * 255), b"put 0 b %s delete" % (b"i" * 512), b"put 0 b 1 index %s" % (b"x" * 1048576), b"put 0 \xc3\xa9 \xe2\x82\xac index \xf0\x9f\x98\x80",
    ):
        case("good line: %r" % text[:60], ["world"], first + text + b"\n", b"ok 0:1\n" + end % 1, b"", 0)


def limits():
    first = THREE.encode() + b"\n"
    end = b"accepted 0 0\nfinished no\n"
    line = b"take " + b"0" * (LIMIT - 5)
    for close in (b"\n", b"\r\n", b""):
        case("a line at the limit, %r" % close, ["world"], first + line + close, b"no NothingQueued\n" + end, b"", 0)
        bad("past the limit, %r" % close, first + line + b"0" + close, 2)
        bad("past the limit after an event, %r" % close, first + b"take 0\n" + line + b"0" + close, 3, b"no NothingQueued\n")
    bad("a lone carriage return past the limit", first + line + b"\r", 2)
    case("a first line at the limit", ["world"], b"world " + b"0" * (LIMIT - len(first) + 1) + first[6:], end, b"", 0)
    bad("a first line past it", b"world " + b"0" * (LIMIT - len(first) + 2) + first[6:], 1)
    endless("world", "yes x | tr -d '\\n'", b"line 1: BadLine\n")
    endless("world", "yes ''", b"line 1: BadLine\n")


def million():
    """A script has at most a million lines."""
    if FEWER:
        return leave("three scripts of a million lines, at the limit of `relay world` and past it")
    first, end = THREE.encode() + b"\n", b"accepted 0 0\nfinished no\n"
    takes = b"take 0\n" * (LINES - 1)
    answers = b"no NothingQueued\n" * (LINES - 1)
    case("a million lines", ["world"], first + takes, answers + end, b"", 0)
    bad("the line after a million", first + takes + b"take 0\n", LINES + 1, answers)
    bad("an open line after a million", first + takes + b"x", LINES + 1, answers)


def devices():
    directory("world")
    with open("/dev/full", "wb") as full:
        done = subprocess.run([RELAY, "world"], input=THREE.encode(), stdout=full, stderr=subprocess.PIPE, timeout=60)
        check("a full device", (done.stderr, done.returncode) == (b"write failed\n", 3), done)
        done = subprocess.run([RELAY, "world"], input=THREE.encode() + b"\ntake 0\nx\n", stdout=full, stderr=subprocess.PIPE, timeout=60)
        check("a full device before a bad line", (done.stderr, done.returncode) == (b"write failed\n", 3), done)
        done = subprocess.run([RELAY, "world"], input=b"x\n", stdout=subprocess.PIPE, stderr=full, timeout=60)
        check("a bad line that cannot be printed", (done.stdout, done.returncode) == (b"", 2), done)


def prompt():
    """Each answer is written before the next line is read."""
    process = subprocess.Popen([RELAY, "world"], stdin=subprocess.PIPE, stdout=subprocess.PIPE)
    process.stdin.write(THREE.encode() + b"\n")
    for number in range(1, 4):
        process.stdin.write(b"put 0 b 1 delete\n")
        process.stdin.flush()
        line = process.stdout.readline()
        check("answer %d comes at once" % number, line == b"ok 0:%d\n" % number, line)
    process.stdin.write(b"take 0\ntake 0\n")
    process.stdin.flush()
    lines = process.stdout.readline() + process.stdout.readline()
    check("and two of two lines", lines == b"ok\nok\n", lines)
    process.stdin.close()
    rest = process.stdout.read()
    check("and the end", rest == b"accepted 0 3\nfinished no\n", rest)
    check("and it ends", process.wait(timeout=60) == 0)


def before():
    """A request that the index serves before the script."""
    first = b"world 1 1 10 10 10 4096 0 3 1 0 3\n"
    events = b"put 0 b 1 delete\ntake 0\nsend 0\nlost 1\ntick 0\ntake 0\nsend 0\nrun 2 1\nreply 2\n"
    told = b"ok 0:1\nok\nok 1 b/1@1\nok 0 0 0 1\nok\nok\nok 2 b/1@1\nok 409\n"
    with tempfile.NamedTemporaryFile(suffix=".ndjson") as file:
        file.write(b'{"delete":{"_index":"b","_id":"1","version":5,"version_type":"external"}}\n')
        file.flush()
        served = ["world", "--writes", file.name]
        case("a version from before that is stated", [*served, "--reasons"], first + events, told + b"ok 0 0 1 0\naccepted 0 1\nreport 0 0:1 b/1 Conflict\nfinished no\n", b"", 0)
        case("and one that is not", served, first + events, told + b"ok 0 1 0 0\naccepted 0 1\nfinished no\n", b"", 0)
        file.write(b"{}\n")
        file.flush()
        case("a request that is none", served, first, b"", file.name.encode() + b': {"error":{"line":2,"type":"NotOneAction"},"status":400}\n', 2)
    case("no such file", ["world", "--writes", file.name], first, b"", file.name.encode() + b": open failed\n  entity not found\n", 3)
    case("a directory", ["world", "--writes", "/"], first, b"", b"/: read failed\n  is a directory\n", 3)


def scripts():
    """Random scripts; run `world_scripts.py` by hand to play any number of them."""
    if FEWER:
        leave("5,000 random scripts, of which %d are played here" % (PLAYED + PLAYED_STATED))
    _, failures = play_all(RELAY, PLAYED)
    check("%d random scripts" % PLAYED, not failures, failures[:5])
    _, failures = play_all(RELAY, PLAYED_STATED, 10000, stated=True)
    check("%d random scripts over versions from before" % PLAYED_STATED, not failures, failures[:5])


GROUPS = (rows, too_large, restarts, refusals, many, bad_lines, limits, million, devices, prompt, before)
SCRIPTS = (scripts,)
