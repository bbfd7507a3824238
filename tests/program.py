"""Runs the built program: both output streams and the exit status, byte for byte."""
import os
import re
import subprocess
import sys

RELAY = os.path.abspath(sys.argv[1])
RESULTS = {"passed": 0, "failed": 0}
# How long one run may take: a program with run-time checks is slower, and `try.py` gives it longer.
SECONDS = int(os.environ.get("SECONDS_FOR_A_RUN", "60"))
# Set by `try.py`, since a program with run-time checks is slow: what takes many minutes then is left to `make test`, and each case says so.
FEWER = "FEWER_CASES" in os.environ


# A line about what goes wrong while a run goes on: each has the time, and on a terminal replaces the one before.
LOGGED = re.compile(rb"(?:\r\x1b\[K)?\d{4}-\d\d-\d\dT\d\d:\d\d:\d\dZ [^\r\n]*\r?\n")


def unlogged(err):
    """Returns standard error without these lines, of which `log_cases.py` has the tests."""
    return LOGGED.sub(b"", err)


def check(name, right, found=""):
    RESULTS["passed" if right else "failed"] += 1
    if not right:
        print("FAILED: %s %s" % (name, found))


def skip(name, package):
    """Says that a test is skipped for want of a package. That is a failure if the environment has NOTHING_SKIPPED, as `.ci/run` sets it."""
    if os.environ.get("NOTHING_SKIPPED"):
        check(name, False, "needs %s, which is not installed" % package)
    else:
        print("SKIPPED: %s needs %s, which is not installed" % (name, package))


def leave(what):
    """Says what `make test` does here and `make try` leaves out."""
    print("LEFT TO make test: %s" % what)


def run(args, stdin=b"", **more):
    return subprocess.run([RELAY] + args, input=stdin, capture_output=True, timeout=SECONDS, **more)


def case(name, args, stdin, stdout, stderr, status):
    done = run(args, stdin)
    found = (done.stdout, done.stderr, done.returncode)
    check(name, found == (stdout, stderr, status), found if len(str(found)) < 600 else "")


def directory(command):
    """Runs a command whose standard input is a directory."""
    folder = os.open("/", os.O_RDONLY)
    try:
        done = subprocess.run([RELAY, command], stdin=folder, capture_output=True, timeout=SECONDS)
    finally:
        os.close(folder)
    found = (done.stdout, done.stderr, done.returncode)
    check("a directory as the input of %s" % command, found == (b"", b"read failed\n", 3), found)


def endless(command, producer, text):
    """Runs a command on an endless input, from a shell command: it must end with this text and status 2."""
    source = subprocess.Popen(["sh", "-c", producer], stdout=subprocess.PIPE, stderr=subprocess.DEVNULL)
    done = subprocess.run([RELAY, command], stdin=source.stdout, capture_output=True, timeout=SECONDS)
    source.stdout.close()
    source.wait()
    found = (done.stdout, done.stderr, done.returncode)
    check("%s after %s" % (command, producer), found == (b"", text, 2), found)


def deleted(index, identity, version):
    return b'{"delete":{"_id":%s,"_index":%s,"version":%d,"version_type":"external"}}\n' % (identity, index, version)


def indexed(index, identity, version, source):
    return b'{"index":{"_id":%s,"_index":%s,"version":%d,"version_type":"external"}}\n%s\n' % (identity, index, version, source)
