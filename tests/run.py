"""End-to-end tests of the built program: `python3 tests/run.py PROGRAM [[--except] SUITE..]`, all suites if none is named.

Each case has the program's arguments, its standard input and what it must do. The expected values are worked out by hand
from the formats, and never taken from the program's own output.
"""
import sys

import apply_cases
import client_cases
import epoch_cases
import input_cases
import lines_cases
import minute_cases
import log_cases
import option_cases
import outage_cases
import pause_cases
import pick_cases
import progress_cases
import proxy_cases
import reason_cases
import recipe_cases
import reply_cases
import report_cases
import restart_cases
import run_cases
import serve_cases
import serve_client_cases
import serve_desk_cases
import serve_fair_cases
import serve_hostile_cases
import serve_kills_cases
import several_cases
import skip_cases
import state_cases
import socket_cases
import stop_cases
import stub_cases
import too_large_cases
import world_cases
from program import RESULTS, check, run


def command_line():
    version = run(["--version"])
    check("the version", (version.stdout, version.stderr, version.returncode) == (b"relay 0.1.0\n", b"", 0), version)
    for args in (["--help"], ["help"], ["lines", "--help"], ["help", "lines"], ["apply", "--help"], ["help", "apply"], ["run", "--help"], ["help", "run"], ["pick", "--help"], ["help", "pick"], ["stub", "--help"], ["help", "stub"], ["world", "--help"], ["help", "world"], ["serve", "--help"], ["help", "serve"]):
        done = run(args)
        check("help: %s" % args, done.returncode == 0 and b"Usage: relay" in done.stdout and done.stderr == b"", done)
    kinds = run(["help", "lines"]).stdout
    for kind in (b"LineLong", b"NotJson", b"UnsupportedField", b"SourceNewline", b"VersionsSpent", b"relay lines --index"):
        check("help lines names %s" % kind, kind in kinds)
    running = run(["help", "run"]).stdout
    for word in (b"zcat dump.gz | relay run", b"--timeout <DURATION>", b"--patience <DURATION>", b"--report <FILE>", b"--progress", b"12.7 s", b"166 s", b"below twice --count", b"4.6 GB per lane", b"a run that is killed prints none", b"stopped after N reports", b"--log <WHAT>", b"[default: errors]", b"up again after"):
        check("help run names %s" % word, word in running)
    script = run(["help", "world"]).stdout
    for word in (b"world LANES", b"put P INDEX ID index SOURCE", b"reply R N ..", b"restart EPOCH", b"NotAbove", b"NumbersSpent", b"BadLine", b"finished yes"):
        check("help world names %s" % word, word in script)
    for args, said in (
        ([], b"subcommand"),
        (["bogus"], b"bogus"),
        (["lines", "--bogus"], b"--bogus"),
        (["lines", "x"], b"'x'"),
        (["apply", "--bogus"], b"--bogus"),
        (["apply", "x"], b"'x'"),
        (["apply", "--refuse"], b"--refuse"),
        (["apply", "--refuse", "1:429", "--refuse", "2:429"], b"--refuse"),
        (["apply", "--index", "b"], b"--index"),
        (["world", "--bogus"], b"--bogus"),
        (["world", "x"], b"'x'"),
        (["lines", "--first"], b"--first"),
        (["lines", "--first", "0"], b"'0'"),
        (["lines", "--first", "9000000000000000001"], b"9000000000000000001"),
        (["lines", "--first", "-1"], b"-1"),
        (["lines", "--first", "x"], b"'x'"),
        (["lines", "--first", "1", "--first", "2"], b"--first"),
        ([b"lines", b"\xff"], b"not all text"),
    ):
        done = run(args, b'{"delete":{"_index":"b","_id":"1"}}\n')
        check("usage: %s" % args, done.returncode == 1 and said in done.stderr and done.stdout == b"", done)


# The suites by name, in the order in which they run.
SUITES = {
    "lines": lines_cases.GROUPS, "apply": apply_cases.GROUPS, "stub": stub_cases.GROUPS, "client": client_cases.GROUPS, "run": run_cases.GROUPS, "serve": serve_cases.GROUPS,
    "serve_desk": serve_desk_cases.GROUPS, "serve_hostile": serve_hostile_cases.GROUPS, "serve_fair": serve_fair_cases.GROUPS, "serve_kills": serve_kills_cases.GROUPS, "serve_clients": serve_client_cases.GROUPS, "recipe": recipe_cases.GROUPS,
    "pick": pick_cases.GROUPS, "proxy": proxy_cases.GROUPS, "reason": reason_cases.GROUPS, "option": option_cases.GROUPS, "several": several_cases.GROUPS, "skip": skip_cases.GROUPS, "state": state_cases.GROUPS,
    "input": input_cases.GROUPS, "outage": outage_cases.GROUPS, "minute": minute_cases.GROUPS, "socket": socket_cases.GROUPS, "pause": pause_cases.GROUPS, "report": report_cases.GROUPS, "stop": stop_cases.GROUPS,
    "progress": progress_cases.GROUPS, "log": log_cases.GROUPS, "reply": reply_cases.GROUPS, "too_large": too_large_cases.GROUPS, "restart": restart_cases.GROUPS,
    "epoch": epoch_cases.GROUPS, "world": world_cases.GROUPS, "scripts": world_cases.SCRIPTS, "command_line": (command_line,),
}


def main():
    names = sys.argv[2:] or list(SUITES)
    if names[0] == "--except":
        names = [it for it in SUITES if it not in names[1:]]
    for name in names:
        for group in SUITES[name]:
            group()
    print("%d passed, %d failed" % (RESULTS["passed"], RESULTS["failed"]))
    sys.exit(RESULTS["failed"] != 0)


main()
