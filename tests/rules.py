"""Assigns each rule of the tables in crates/*/README.md to a heading of docs/FORMATS.md.

`HOMES` has an entry for each crate with such a table: the heading of its rules, and the exceptions. A rule is named by the
beginning of its first cell; `CODE` is the heading of rules that concern only the code and no format. `OUTSIDE` lists, for
each heading, the suites of this folder that test it with the built program. `pointers.py` checks both.
"""
CODE = "Rules about the code only"

BULK, INPUT, KINDS, BODIES = "Bulk text", "Producer input", "Kinds of faults", "Bulk bodies"
LINES, APPLY, WORLD, RUN, PICK, STUB = ("`relay %s`" % it for it in ("lines", "apply", "world", "run", "pick", "stub"))
REPLIES, ITEM, WHOLE, WRITTEN = "Replies", "The verdict on an item", "The verdict on a whole request", "A written reply"
LANE, SCRIPT, HTTP, COMING = "What a lane does", "The script of the world", "HTTP", "Faults while the bytes come"
MESSAGES, EPOCHS, RESUME = "Written messages", "An epoch from the index", "The state of a run"
SERVE, REQUESTS, OPERATIONS, ANSWERS = "`relay serve`", "Requests", "Operations of a body", "Answers"

HOMES = {
    "relay": (CODE, {"the options of %s" % it: it for it in (LINES, APPLY, WORLD, RUN, SERVE, PICK, STUB)}),
    "relay_action": (CODE, {
        "limits of index names": "Limits",
        "the order of refusals": KINDS,
        "the name of each fault": KINDS,
        "names of the kinds of actions": (BULK, INPUT),
        "the lane of a document": "Lanes",
    }),
    "relay_batch": ("Batches", {}),
    "relay_clients": ((SERVE, REQUESTS), {}),
    "relay_clock": (RUN, {}),
    "relay_commands": (LINES, {
        "which calls of the streams failed": (LINES, APPLY),
        "what `relay apply` reads": APPLY,
        "the body, read piece by piece": APPLY,
        "the refusals in a list": (APPLY, STUB),
        "how `relay lines` and `relay apply` end": (LINES, APPLY),
        "the names of the subcommands": CODE,
    }),
    "relay_core": (LANE, {
        "the limits of a config": "Limits",
        "the lane after an answer; the counts": (LANE, WHOLE),
        "a request keeps the limits of a batch": "Batches",
        "private: what is in memory": CODE,
    }),
    "relay_delay": (LANE, {}),
    "relay_delivery": (LANE, {
        "halves:": WHOLE,
        "restarts, with requests": SCRIPT,
        "worked schedules": CODE,
    }),
    "relay_epoch": (EPOCHS, {}),
    "relay_flight": (LANE, {}),
    "relay_front": (ANSWERS, {
        "what a request asks for": REQUESTS,
        "parameters that are ignored": REQUESTS,
        "bodies that have a coding": REQUESTS,
        "the lines of a body": OPERATIONS,
        "the operations of a body": OPERATIONS,
        "members of an action line": OPERATIONS,
        "why an operation is refused": OPERATIONS,
        "what is settled for": (REQUESTS, ANSWERS),
        "a request has its writes": CODE,
    }),
    "relay_held": (LANE, {}),
    "relay_http": (HTTP, {
        "heads of replies": "A reply",
        "heads of requests": "A request",
        "where a body ends": ("A reply", "A request"),
        "a reply without a body": "A reply",
        "fields by name": ("A reply", "A request"),
        "a fault in the heads": ("A reply", "A request"),
        "which fault is": COMING,
        "which messages keep the connection": "What keeps a connection",
        "what a connection is": "What keeps a connection",
        "bodies with a length": COMING,
        "chunked bodies": COMING,
        "at most one call of a stream": COMING,
        "memory for a body": COMING,
        "the request that is written": MESSAGES,
        "how much of a request was sent": MESSAGES,
        "a request is sent in pieces": MESSAGES,
        "the head is sent before": MESSAGES,
        "the answer that is written": MESSAGES,
        "an answer is composed": MESSAGES,
        "the target of a PUT": "A request",
    }),
    "relay_index": ("The stand-in index", {}),
    "relay_json": (INPUT, {"the items of an array": REPLIES, "the decimal number": REPLIES}),
    "relay_lane": (LANE, {}),
    "relay_loop": (LANE, {}),
    "relay_ndjson": (INPUT, {
        "bulk text": BULK,
        "escapes": BULK,
        "an action line alone": BULK,
        "the text after a failed append": BULK,
        "how much was written when": BULK,
        "lengths": BULK,
        "an action line reads back": BULK,
        "lines, blank lines, limits": "Lines",
        "lines one after another": "Lines",
        "the bytes of such a line": "Lines",
        "the line in which a fault stopped": KINDS,
        "operation, end and fault": KINDS,
        "the names of the kinds of faults": (KINDS, BODIES),
        "what an action line on the index side": BODIES,
        "bulk bodies": BODIES,
        "what was written reads back": BODIES,
        "a body has only one list": BODIES,
    }),
    "relay_net": (RUN, {"accepted connections": STUB}),
    "relay_pace": (RUN, {}),
    "relay_producer": (RUN, {}),
    "relay_progress": (RUN, {}),
    "relay_queue": (RUN, {}),
    "relay_sift": (RUN, {"private:": CODE}),
    "relay_report": (PICK, {"the line of a report": (RUN, PICK), "the lines of several": RUN}),
    "relay_results": (REPLIES, {
        "documents, actions and writes": CODE,
        "numbers from 1": CODE,
        "the verdict on an item": ITEM,
        "the outcome of an item": WRITTEN,
        "sent requests, versioned runs": LANE,
        "why an operation is reported": (ITEM, WHOLE),
        "a request that is too large": WHOLE,
        "what an answer means for an operation": WHOLE,
        "what the definitions rule out": CODE,
        "definitions on lists": CODE,
    }),
    "relay_resume": (RESUME, {
        "private: what a trail keeps": CODE,
        "private: the texts of the inputs": CODE,
        "private: the state in a JSON value": CODE,
    }),
    "relay_common": (RUN, {"an epoch from the counter": EPOCHS}),
    "relay_run": (RUN, {"the epoch of a run": EPOCHS}),
    "relay_scenario": (SCRIPT, {"which lines are taken": WORLD, "which calls failed": WORLD, "exit statuses": WORLD}),
    "relay_serve": (SERVE, {
        "putting the writes": ANSWERS,
        "what clients are told": ANSWERS,
        "a producer as what": OPERATIONS,
        "terms, and when": (SERVE, EPOCHS),
    }),
    "relay_stub": (STUB, {}),
    "relay_target": ((EPOCHS, STUB), {"a document as a command line": EPOCHS}),
    "relay_words": ((SCRIPT, RUN), {
        "reading a number": (APPLY, SCRIPT),
        "exit statuses": (LINES, RUN),
        "the operations taken": (LINES, RUN),
    }),
    "relay_keeping": (RESUME, {
        "the ends of a new channel": CODE,
        "private: the trails of all inputs": CODE,
        "private: the ends that are met": CODE,
    }),
    "relay_receipts": (RUN, {}),
    "relay_telling": (RUN, {}),
    "relay_threads": (RUN, {}),
    "relay_wires": (LANE, {}),
    "relay_world": (SCRIPT, {}),
}

OUTSIDE = {
    LINES: ("lines_cases.py",),
    APPLY: ("apply_cases.py",),
    REPLIES: ("reply_cases.py",),
    WHOLE: ("run_cases.py", "too_large_cases.py"),
    LANE: ("option_cases.py", "several_cases.py", "restart_cases.py"),
    SCRIPT: ("world_cases.py", "world_scripts.py"),
    WORLD: ("world_cases.py",),
    RUN: ("run_cases.py", "option_cases.py", "outage_cases.py", "input_cases.py", "report_cases.py", "progress_cases.py", "log_cases.py"),
    PICK: ("pick_cases.py",),
    EPOCHS: ("epoch_cases.py",),
    SERVE: ("serve_cases.py", "serve_hostile_cases.py", "serve_fair_cases.py", "serve_kills_cases.py"),
    REQUESTS: ("serve_cases.py", "serve_hostile_cases.py"),
    OPERATIONS: ("serve_cases.py",),
    ANSWERS: ("serve_cases.py", "serve_client_cases.py"),
    STUB: ("stub_cases.py", "client_cases.py", "epoch_cases.py"),
    HTTP: ("http_fixtures.py", "proxy_cases.py", "client_cases.py"),
}


def homes_of(crate, rule):
    """Returns the headings of a rule, or None if its crate has no entry."""
    if crate not in HOMES:
        return None
    usual, others = HOMES[crate]
    found = [home for start, home in others.items() if rule.startswith(start)]
    home = found[0] if found else usual
    return home if isinstance(home, tuple) else (home,)


def stray_starts(crate, rules):
    """Returns the entries of `HOMES` for a crate that begin no rule, or several."""
    return [start for start in HOMES.get(crate, (CODE, {}))[1] if sum(rule.startswith(start) for rule in rules) != 1]
