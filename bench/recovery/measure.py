#!/usr/bin/env python3
"""Measures a partition on its disk, and its restart.

    python3 bench/recovery/measure.py [TRANSACTIONS]

TRANSACTIONS is 500000, whose log has a little over a million records. The program is
crates/recovery_table/out/recovery_table, which `rt run` in crates/recovery_table leaves there, or the one that PROGRAM
names. It makes so many transactions of one update, one after another, at one partition over a disk in memory: begin,
prepare, decide, each record durable before the call answers. Then it restarts the partition: twice more in a second run
than in a first, and half the difference is one restart. This checks what is shown, and prints the best of three runs
and the peaks of memory."""
import os
import subprocess
import sys
import time

HERE = os.path.dirname(os.path.abspath(__file__))
PROGRAM = os.environ.get("PROGRAM", os.path.join(HERE, "../../crates/recovery_table/out/recovery_table"))
COUNT = int(sys.argv[1]) if len(sys.argv) > 1 else 500000


def run(restarts):
    """The seconds that the program takes with so many restarts, the processor's among them, and its peak in bytes."""
    start = time.monotonic()
    process = subprocess.Popen([PROGRAM, "restart", str(COUNT), str(restarts)], stdout=subprocess.PIPE)
    text = process.stdout.read().decode()
    _, status, used = os.wait4(process.pid, 0)
    spent = time.monotonic() - start
    if status != 0 or text != "%d transactions, %d restarts, %d shown\n" % (COUNT, restarts, COUNT):
        sys.exit("status %d: %s" % (status, text))
    return spent, used.ru_utime + used.ru_stime, used.ru_maxrss * 1024


def best(restarts):
    """The least of three runs."""
    return min(run(restarts) for _ in range(3))


def main():
    none, one, three = best(0), best(1), best(3)
    spent, busy = (three[0] - one[0]) / 2, (three[1] - one[1]) / 2
    print("%d transactions in %.3f s, %.0f a second; %.3f s of the processor" % (COUNT, none[0], COUNT / none[0], none[1]))
    print("one restart in %.3f s, %.3f s of the processor" % (spent, busy))
    print("peak of memory: %.0f bytes a transaction, %.0f with a restart" % (none[2] / COUNT, one[2] / COUNT))


main()
