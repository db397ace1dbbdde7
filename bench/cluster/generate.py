#!/usr/bin/env python3
"""Writes a script to standard output.

    python3 bench/cluster/generate.py PROFILE [LINES]

PROFILE is one of

    counter  one partition: begin, five updates of 1,000 counters in turn, commit
    reads    one partition: twenty objects with a history of a hundred updates each, then twenty reads a transaction
    own      one partition and such objects: each transaction updates ten of them, and reads each behind its update
    kinds    one partition and objects of all kinds, as bench/play/generate.py
    sites    eight sites of two partitions that send to one another, as bench/sites/generate.py
    crash    three sites; in two of three rounds a partition crashes or its disk fails, as bench/crashes/generate.py
    once     the same, but no disk fails, and each partition crashes and restarts once, after all rounds

LINES is 100,000. Nothing is refused, and nothing waits."""
import os
import subprocess
import sys

HERE = os.path.dirname(os.path.abspath(__file__))
OTHERS = {"kinds": "../play/generate.py", "sites": "../sites/generate.py", "crash": "../crashes/generate.py"}
OTHERS["once"] = OTHERS["crash"]
KINDS = ["counter_fat", "set_go", "set_aw", "set_rw", "register_lww", "register_mv", "map_go", "map_rr"]


def counter(lines):
    """Transactions of seven lines."""
    yield "cluster 1 1"
    yield "session a 1"
    for number in range((lines - 2) // 7):
        yield "begin a"
        for k in range(5 * number, 5 * number + 5):
            yield "update a k%d counter_pn increment %d" % (k % 1000, 1 + k % 99)
        yield "commit a"


def act(kind, number):
    """An operation of a kind; texts come from twenty."""
    text = "text%d" % (number % 20)
    if kind == "counter_fat":
        return "increment %d" % (1 + number % 99)
    if kind in ("set_go", "set_aw", "set_rw"):
        return "add %s" % text
    if kind in ("register_lww", "register_mv"):
        return "assign %s" % text
    return "in f%d set_aw add %s" % (number % 5, text)


def history(objects):
    """A cluster, a session, and a hundred updates of each object: 2,202 lines for twenty."""
    yield "cluster 1 1"
    yield "session a 1"
    for number in range(100):
        yield "begin a"
        for key, kind in objects:
            yield "update a %s %s %s" % (key, kind, act(kind, number))
        yield "commit a"


def own(lines):
    """A history, and then transactions of 22 lines. No object grows: a counter_fat would, by an entry for each update."""
    objects = [("k%d" % k, KINDS[1 + k % (len(KINDS) - 1)]) for k in range(20)]
    yield from history(objects)
    for number in range(max(0, (lines - 2202) // 22)):
        yield "begin a"
        for key, kind in objects[number % 2 :: 2]:
            yield "update a %s %s %s" % (key, kind, act(kind, number))
            yield "read a %s %s" % (key, kind)
        yield "commit a"


def reads(lines):
    """A history, and then transactions of 22 lines."""
    objects = [("k%d" % k, KINDS[k % len(KINDS)]) for k in range(20)]
    yield from history(objects)
    for _ in range(max(0, (lines - 2202) // 22)):
        yield "begin a"
        for key, kind in objects:
            yield "read a %s %s" % (key, kind)
        yield "commit a"


def main():
    profile = sys.argv[1]
    lines = int(sys.argv[2]) if len(sys.argv) > 2 else 100_000
    if profile in OTHERS:
        words = [str(lines)] + (["once"] if profile == "once" else [])
        sys.exit(subprocess.call([sys.executable, os.path.join(HERE, OTHERS[profile])] + words))
    made = {"counter": counter, "reads": reads, "own": own}[profile](lines)
    sys.stdout.write("".join(line + "\n" for line in made))


main()
