#!/usr/bin/env python3
"""Writes a script to standard output: eight sites of two partitions, with a session at each site.

    python3 bench/sites/generate.py [LINES]

One session after another updates a counter at both partitions of its site, reads one of them, and commits. Then both
partitions send what was committed to each other site, where it is delivered, reported and heard, so that all later
snapshots show it. Nothing is refused, and nothing waits. LINES is 1,000,000; the script ends with the last transaction
that fits."""
import os
import sys

sys.path.insert(0, os.path.join(os.path.dirname(os.path.abspath(__file__)), ".."))
from placing import place

LINES = int(sys.argv[1]) if len(sys.argv) > 1 else 1_000_000
SITES = 8
OBJECTS = 1_000


def transaction(site, time, keys):
    """A transaction over both partitions. Their clocks are ahead of its snapshot, and in the end of its commit time."""
    yield "clock %d.1 %d\n" % (site, time)
    yield "begin s%d\n" % site
    for part in (1, 2):
        yield "clock %d.%d %d\n" % (site, part, time + 3)
    for key in keys:
        yield "update s%d %s counter_pn increment %d\n" % (site, key, time % 100)
    yield "read s%d %s counter_pn\n" % (site, keys[0])
    yield "commit s%d\n" % site
    for part in (1, 2):
        yield "clock %d.%d %d\n" % (site, part, time + 6)


def streams(site, round_number):
    """Takes what was committed at a site to each other one, by two messages and one report for each of these."""
    others = [to for to in range(1, SITES + 1) if to != site]
    for number, to in enumerate(others, round_number * len(others)):
        for part in (1, 2):
            message = 2 * number + part
            yield "send %d.%d %d\n" % (site, part, to)
            yield "deliver m%d\n" % message
            yield "drop m%d\n" % message
        yield "report %d.2\n" % to
        yield "hear g%d %d.1\n" % (number + 1, to)
        yield "drop g%d\n" % (number + 1)


def main():
    keys = ["k%d" % number for number in range(OBJECTS)]
    held = [[key for key in keys if place(key, 2) == part] for part in (1, 2)]
    out = ["cluster %d 2\n" % SITES] + ["session s%d %d\n" % (site, site) for site in range(1, SITES + 1)]
    number = 0
    lines = []
    while len(out) + len(lines) <= LINES:
        out += lines
        site = 1 + number % SITES
        chosen = [names[number % len(names)] for names in held]
        lines = [*transaction(site, 10 * number + 10, chosen), *streams(site, number)]
        number += 1
    sys.stdout.write("".join(out))


main()
