#!/usr/bin/env python3
"""Measures how fast records are put and taken.

    python3 bench/records/measure.py [TIMES]

A Batch of one part with ten updates (285 bytes) is put and taken TIMES times (1,000,000), three times each, and the best is printed. The program is
crates/log_table/out/log_table, which `rt run` in crates/log_table leaves there. What one time takes is taken off, so that the start of the program isn't
counted."""
import os
import subprocess
import sys
import time

HERE = os.path.dirname(os.path.abspath(__file__))
PROGRAM = os.path.join(HERE, "../../crates/log_table/out/log_table")
TIMES = int(sys.argv[1]) if len(sys.argv) > 1 else 1000000


def run(work, times):
    """The least of three times in seconds, and how many bytes were put or taken."""
    best = None
    for _ in range(3):
        start = time.monotonic()
        done = subprocess.run([PROGRAM, work, str(times)], stdout=subprocess.PIPE, check=True)
        spent = time.monotonic() - start
        best = spent if best is None else min(best, spent)
    return best, int(done.stdout.split()[0])


def main():
    for work in ["put", "take"]:
        one, size = run(work, 1)
        if size == 0:
            sys.exit("%s: no bytes" % work)
        many, _ = run(work, TIMES + 1)
        spent = max(many - one, 1e-9) / TIMES
        print("%s: %.0f records of %d bytes a second, %.0f MB a second" % (work, 1 / spent, size, size / spent / 1e6))


main()
