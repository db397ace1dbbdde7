#!/usr/bin/env python3
"""Measures the tables under a partition.

    python3 bench/tables/measure.py [PARTS]

PARTS is 1000000. The program is crates/table_bench/out/table_bench, which `rt run` in crates/table_bench leaves there. It fills a store with so many parts
of one update each over 1,000 counters, in order and with one in ten 64 places late, and reads it; this prints what was done in a second, and the peak
of memory for each part."""
import os
import subprocess
import sys

HERE = os.path.dirname(os.path.abspath(__file__))
PROGRAM = os.path.join(HERE, "../../crates/table_bench/out/table_bench")
PARTS = int(sys.argv[1]) if len(sys.argv) > 1 else 1000000


def run(work):
    """What the program prints, and its peak of memory in bytes."""
    process = subprocess.Popen([PROGRAM, work, str(PARTS)], stdout=subprocess.PIPE)
    text = process.stdout.read().decode()
    _, status, used = os.wait4(process.pid, 0)
    if status != 0:
        sys.exit("%s: status %d" % (work, status))
    return text, used.ru_maxrss * 1024


def main():
    made, own = run("hold")
    done, peak = run("bench")
    for line in (made + done).splitlines():
        what, count, spent = line.rsplit(" ", 2)
        rate = int(count) / max(int(spent), 1)
        print("%s: %s in %.3f s, %.3f million a second" % (what, count, int(spent) / 1e6, rate))
    print("peak of memory: %.0f bytes a part, of which %.0f are the parts as they were made" % (peak / PARTS, own / PARTS))


main()
