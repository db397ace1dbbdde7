#!/usr/bin/env python3
"""Writes a script of about a million lines to standard output: one session whose transactions update two counters, each at a
partition of its own, of one site with 16. It ticks the two clocks, begins at the first, updates both, and commits. None waits."""
import sys

LINES = int(sys.argv[1]) if len(sys.argv) > 1 else 1_000_000
PARTS = int(sys.argv[2]) if len(sys.argv) > 2 else 16
OBJECTS = 1_000


def place(key):
    """The partition of an object without a bucket."""
    number = 7
    for byte in b"\0" + key.encode():
        number = (31 * number + byte) % 65536
    return 1 + number % PARTS


def main():
    names = [[] for _ in range(PARTS + 1)]
    for number in range(OBJECTS):
        names[place("k%d" % number)].append("k%d" % number)
    places = [part for part in range(1, PARTS + 1) if names[part]]
    out = ["cluster 1 %d\n" % PARTS, "session a 1\n"]
    clock = 1
    number = 0
    while len(out) + 6 <= LINES:
        clock += 7
        number += 1
        one = places[number % len(places)]
        other = places[(number * 7 + 3) % len(places)]
        for part in (one, other):
            out.append("clock 1.%d %d\n" % (part, clock))
        out.append("begin a 1.%d\n" % one)
        clock += 1
        for part in (one, other):
            out.append("update a %s counter_pn increment %d\n" % (names[part][number % len(names[part])], number % 100))
        out.append("clock 1.%d %d\n" % (other, clock))
        out.append("commit a\n")
    sys.stdout.write("".join(out))


main()
