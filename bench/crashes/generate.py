#!/usr/bin/env python3
"""Writes a script to standard output: three sites of four partitions, of which one crashes in each third round.

    python3 bench/crashes/generate.py [LINES [once]]

In a round one session of each site moves a counter of each partition and commits over all four; then each partition
sends to its twins, and all is delivered, reported and heard. In each third round a partition crashes before that and
restarts, and the round after a fuse stops the disk of another while it votes. Clocks are ahead of each snapshot, so
that nothing waits. LINES is 100,000; the script ends with the last round that fits. With `once` no partition crashes
and no disk fails in a round, and after the last one each partition crashes and restarts once."""
import os
import sys

sys.path.insert(0, os.path.join(os.path.dirname(os.path.abspath(__file__)), ".."))
from placing import place

LINES = int(sys.argv[1]) if len(sys.argv) > 1 else 100_000
ONCE = sys.argv[2:] == ["once"]
SITES, PARTS = 3, 4
OBJECTS = 200
# The clock of a partition that restarts stands at the end of its lease, at most so far ahead.
LEASE = 1_000


def clocks(site, time):
    for part in range(1, PARTS + 1):
        yield "clock %d.%d %d" % (site, part, time)


def transaction(site, time, keys):
    """A transaction over all partitions of a site."""
    yield from clocks(site, time)
    yield "begin s%d" % site
    yield from clocks(site, time + 3)
    for key in keys:
        yield "update s%d %s counter_pn increment %d" % (site, key, time % 100)
    yield "commit s%d" % site
    yield from clocks(site, time + 6)


def streams(counts):
    """Takes what was committed to each other site."""
    for site in range(1, SITES + 1):
        for part in range(1, PARTS + 1):
            for to in range(1, SITES + 1):
                if to != site:
                    counts["m"] += 1
                    yield "send %d.%d %d" % (site, part, to)
                    yield "deliver m%d" % counts["m"]
                    yield "drop m%d" % counts["m"]
        for part in range(2, PARTS + 1):
            counts["g"] += 1
            yield "report %d.%d" % (site, part)
            yield "hear g%d %d.1" % (counts["g"], site)
            yield "drop g%d" % counts["g"]


def faults(number, time, keys):
    """A crash between calls in each third round, and in the next one a fault of the disk in a vote."""
    site, part = 1 + number % SITES, 1 + number % PARTS
    if number % 3 == 2:
        yield "crash %d.%d" % (site, part)
        yield "restart %d.%d" % (site, part)
    if number % 3 == 0 and number > 0:
        yield from clocks(site, time)
        yield "begin s%d" % site
        yield from clocks(site, time + 3)
        for key in keys:
            yield "update s%d %s counter_pn increment 1" % (site, key)
        yield "fuse %d.%d 2 0" % (site, part)
        yield "commit s%d" % site
        yield "restart %d.%d" % (site, part)


def main():
    keys = ["k%d" % number for number in range(OBJECTS)]
    held = [[key for key in keys if place(key, PARTS) == part] for part in range(1, PARTS + 1)]
    out = ["cluster %d %d" % (SITES, PARTS)] + ["session s%d %d" % (site, site) for site in range(1, SITES + 1)]
    counts = {"m": 0, "g": 0}
    number, time = 0, 10
    lines = []
    while len(out) + len(lines) <= LINES:
        out += lines
        lines = []
        chosen = [names[number % len(names)] for names in held]
        for site in range(1, SITES + 1):
            lines += transaction(site, time, chosen)
            time += 10
        if not ONCE:
            lines += faults(number, time, chosen)
        time += LEASE + 10 if number % 3 != 1 else 10
        lines += streams(counts)
        number += 1
    if ONCE:
        places = [(site, part) for site in range(1, SITES + 1) for part in range(1, PARTS + 1)]
        out += ["%s %d.%d" % (word, site, part) for site, part in places for word in ("crash", "restart")]
    sys.stdout.write("\n".join(out) + "\n")


main()
