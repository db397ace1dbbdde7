#!/usr/bin/env python3
"""Writes a script of about a million lines to standard output: one session that ticks the clock, begins, updates two objects,
reads one, commits and begins again. It goes over 1,000 objects of all kinds in turn. Each line is in the grammar and none is refused."""
import sys

LINES = int(sys.argv[1]) if len(sys.argv) > 1 else 1_000_000

OBJECTS = 1_000

KINDS = ["counter_pn", "counter_fat", "set_go", "set_aw", "set_rw", "flag_ew", "flag_dw", "register_lww", "register_mv", "map_go", "map_rr"]


def act(kind, number):
    """An operation of the kind. Texts come from a small store, so that objects stay small."""
    text = "t%d" % (number % 7)
    if kind in ("counter_pn", "counter_fat"):
        return "increment %d" % (number % 1000)
    if kind == "set_go":
        return "add %s" % text
    if kind in ("set_aw", "set_rw"):
        return ("remove %s" if number % 5 == 0 else "add %s") % text
    if kind in ("flag_ew", "flag_dw"):
        return "disable" if number % 3 == 0 else "enable"
    if kind in ("register_lww", "register_mv"):
        return "assign %s" % text
    return "in f%d set_aw add %s" % (number % 3, text)


def main():
    out = ["cluster 1 1\n", "clock 1.1 1\n", "session a 1\n"]
    clock = 1
    number = 0
    while len(out) + 6 <= LINES:
        clock += 7
        number += 1
        out.append("clock 1.1 %d\n" % clock)
        out.append("begin a\n")
        for which in (2 * number, 2 * number + 1):
            kind = KINDS[which % OBJECTS % len(KINDS)]
            out.append("update a k%d %s %s\n" % (which % OBJECTS, kind, act(kind, number)))
        which = 3 * number
        out.append("read a k%d %s\n" % (which % OBJECTS, KINDS[which % OBJECTS % len(KINDS)]))
        out.append("commit a\n")
    while len(out) < LINES:
        clock += 1
        out.append("clock 1.1 %d\n" % clock)
    sys.stdout.write("".join(out))


main()
