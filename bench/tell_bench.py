"""Measures what telling costs: endings from several lanes to one producer, each a notice on its channel.

A producer that keeps its window takes a receipt for each operation before it has more open than the window, and the channel has a
place for each of them and one for each lane, so no lane waits. One run of the program tells one such window. A channel of 64 places
stands beside it, on which lanes wait for their producer.
"""
import plain_rust

TURNS = 25
# The places of a channel: an ending for each operation of the window, and for each of the lanes that it tells no more.
PLACES = 65536
# The maximum time of a notice in nanoseconds if no lane waits.
TARGET = 100


def measure(folder, program):
    print("tell: nanoseconds per notice, median of %d" % TURNS)
    for lanes in (1, 8):
        for places in (PLACES, 64):
            words = [program, "tell", str(lanes), str(places), str(PLACES // lanes - 1)]
            told, times = plain_rust.times_of(TURNS, {"relay": (words, None)})
            middle = plain_rust.median(times["relay"])
            target = " (target %d: %s)" % (TARGET, "met" if middle <= TARGET else "MISSED") if places == PLACES else ""
            print("  %d lanes, %5d places: relay %7.1f (best %.1f)%s (%s)" % (lanes, places, middle, min(times["relay"]), target, told))
