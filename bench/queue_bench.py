"""Measures the lane queue next to crossbeam-channel's bounded channel in plain Rust.

Single runs of either program differ by a factor of two, depending on how the system schedules its two threads, and the
best run is a lucky one. So the programs take turns, and their medians are compared; the best runs are printed too.
"""
import plain_rust

TURNS = 25
# Messages in all. With a capacity of one there are fewer, since each hand-over takes long.
MESSAGES = 400000
MESSAGES_AT_ONE_PLACE = 50000
# The maximum ratio to the plain channel's time with a capacity of 256, by the number of senders.
TARGETS = {1: 1.7, 4: 1.5}


def measure_one(program, plain, senders, capacity):
    count = MESSAGES_AT_ONE_PLACE if capacity == 1 else MESSAGES
    words = [str(senders), str(capacity), str(count // senders)]
    programs = {"relay": ([program, "queue"] + words, None)}
    if plain:
        programs["plain Rust"] = ([plain] + words, None)
    told, times = plain_rust.times_of(TURNS, programs)
    middle = {name: plain_rust.median(of) for name, of in times.items()}
    line = "  %d senders, %5d places: relay %7.1f (best %.1f)" % (senders, capacity, middle["relay"], min(times["relay"]))
    if plain:
        ratio = middle["relay"] / middle["plain Rust"]
        line += ", crossbeam-channel %7.1f (best %.1f), relay/it %.2f" % (middle["plain Rust"], min(times["plain Rust"]), ratio)
        if capacity == 256:
            target = TARGETS[senders]
            line += " (target %.1f: %s)" % (target, "met" if ratio <= target else "MISSED")
    print("%s (%s)" % (line, told))


def measure(folder, program):
    plain = plain_rust.build(folder, "queue", "crossbeam-channel")
    print("queue: nanoseconds per message, median of %d" % TURNS)
    for senders in TARGETS:
        for capacity in (1, 256, 65536):
            measure_one(program, plain, senders, capacity)
    if not plain:
        print("  the target was not measured: librust-crossbeam-channel-dev is not installed")
