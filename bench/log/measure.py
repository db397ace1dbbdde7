#!/usr/bin/env python3
"""Measures how fast a log grows and is opened, beside a plain copy of as many bytes.

    python3 bench/log/measure.py [RECORDS] [TIMES]

RECORDS of 100 bytes are appended over a disk in memory (2,000,000), and a log of 256 MiB is opened TIMES times (5), as 256 MiB are copied. The program is
crates/disk_table/out/disk_table, which `rt run` in crates/disk_table leaves there. What one time takes is taken off, so that neither the start of the
program nor the making of the log is counted. The target is that opening is at least a quarter as fast as the copy."""
import os
import subprocess
import sys
import time

HERE = os.path.dirname(os.path.abspath(__file__))
PROGRAM = os.path.join(HERE, "../../crates/disk_table/out/disk_table")
RECORDS = int(sys.argv[1]) if len(sys.argv) > 1 else 2000000
TIMES = int(sys.argv[2]) if len(sys.argv) > 2 else 5
SIZE = 1 << 28


def seconds(work, count):
    best = None
    for _ in range(3):
        start = time.monotonic()
        done = subprocess.run([PROGRAM, work, str(count)], stdout=subprocess.PIPE, check=True)
        spent = time.monotonic() - start
        if not done.stdout:
            sys.exit("%s %d wrote nothing" % (work, count))
        best = spent if best is None else min(best, spent)
    return best


def one_by_one(work, count):
    return max(seconds(work, count + 1) - seconds(work, 1), 1e-9) / count


def main():
    append = one_by_one("append", RECORDS)
    print("append: %.0f records of 100 bytes a second" % (1 / append))
    opening = SIZE / one_by_one("open", TIMES)
    print("open: %.0f MB a second" % (opening / 1e6))
    copy = SIZE / one_by_one("copy", TIMES)
    print("copy: %.0f MB a second" % (copy / 1e6))
    print("opening has %.2f of the copy's speed" % (opening / copy))


main()
