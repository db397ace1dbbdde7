#!/usr/bin/env python3
"""Plays generated scripts of eight sites on a built dc_shell, and times a message of 10,000 parts.

    python3 bench/sites/measure.py [PROGRAM] [LINES] [OTHER ..]

PROGRAM is crates/dc_shell/out/dc_shell, which `rt run` in crates/dc_shell leaves there, and LINES 1,000,000. Prints
lines per second of a processor's time, which other work on the machine moves little, and the peak memory, of a quarter
of the lines too: how the speed goes with a script's length. OTHER is the command of another program that plays scripts
from standard input; then that one plays them as well, the replies are compared, and the ratio of the times is printed.
A delivery is timed from the writing of its line to the reading of its reply."""
import os
import subprocess
import sys
import tempfile
import threading
import time

HERE = os.path.dirname(os.path.abspath(__file__))
PROGRAM = sys.argv[1] if len(sys.argv) > 1 else os.path.join(HERE, "../../crates/dc_shell/out/dc_shell")
LINES = int(sys.argv[2]) if len(sys.argv) > 2 else 1_000_000
OTHER = sys.argv[3:]
RUNS = 3
PARTS = 10_000


def peak_of(pid):
    """The peak so far, in KiB, as the kernel tells it. The usage that wait4 gives counts this script's own memory."""
    with open("/proc/%d/status" % pid) as status:
        for line in status:
            if line.startswith("VmHWM:"):
                return int(line.split()[1])
    return 0


def play(command, script, replies):
    """Plays a script once: status, seconds, seconds of a processor, peak in KiB."""
    with open(script, "rb") as source, open(replies, "wb") as sink:
        start = time.monotonic()
        child = subprocess.Popen(command, stdin=source, stdout=sink)
        peak = ended = 0
        while not ended:
            peak = max(peak, peak_of(child.pid))
            time.sleep(0.001)
            ended, status, usage = os.wait4(child.pid, os.WNOHANG)
        seconds = time.monotonic() - start
    child.returncode = os.waitstatus_to_exitcode(status)
    return child.returncode, seconds, usage.ru_utime + usage.ru_stime, peak


def measure(command, script, replies, lines):
    """Plays a script some times, prints how that went, and answers the least time of a processor."""
    least = float("inf")
    for _ in range(RUNS):
        status, seconds, busy, peak = play(command, script, replies)
        least = min(least, busy)
        told = (status, seconds, busy, lines / busy, peak / 1024)
        print("  status %d, %.3f s, %.3f s of a processor, %.0f lines a second of it, peak %.1f MB" % told)
    return least


def compare(folder, lines):
    """Plays a script of so many lines, on the other program too if there is one."""
    script, replies, others = (os.path.join(folder, name) for name in ("script", "replies", "others"))
    with open(script, "wb") as sink:
        subprocess.run([sys.executable, os.path.join(HERE, "generate.py"), str(lines)], stdout=sink, check=True)
    with open(script, "rb") as source:
        count = sum(1 for _ in source)
    print("%d lines, %d bytes" % (count, os.path.getsize(script)))
    own = measure([PROGRAM, "play"], script, replies, count)
    if OTHER:
        print("%s:" % " ".join(OTHER))
        other = measure(OTHER, script, others, count)
        with open(replies, "rb") as ours, open(others, "rb") as theirs:
            same = "the same" if ours.read() == theirs.read() else "DIFFERENT"
        print("  ratio of the least times %.2f, replies %s" % (own / other, same))


def large_script():
    """Makes a message of 10,000 parts, and a second one of no part."""
    yield "cluster 2 1\n"
    yield "session a 1\n"
    for number in range(PARTS):
        yield "begin a\n"
        yield "update a k%d counter_pn increment 1\n" % (number % 1_000)
        yield "commit a\n"
    yield "send 1.1 2\n"
    yield "send 1.1 2\n"


def busy_of(pid):
    """The seconds of a processor so far, as the kernel tells them."""
    with open("/proc/%d/schedstat" % pid) as told:
        return int(told.read().split()[0]) / 1e9


def ask(child, lines, front):
    """Writes lines and reads replies up to one that begins so: that one, and both kinds of seconds until it came."""
    busy = busy_of(child.pid)
    start = time.monotonic()
    # Beside the reading, since a pipe holds less than these lines and their replies.
    writer = threading.Thread(target=lambda: (child.stdin.write(lines), child.stdin.flush()))
    writer.start()
    for reply in child.stdout:
        if reply.startswith(front):
            seconds = time.monotonic() - start
            writer.join()
            return reply.strip(), seconds, busy_of(child.pid) - busy
    raise SystemExit("no reply begins with " + front)


def measure_large():
    """Times the delivery of a large message, and then of the same one again, which is refused: what asking takes."""
    for _ in range(RUNS):
        child = subprocess.Popen([PROGRAM, "play"], stdin=subprocess.PIPE, stdout=subprocess.PIPE, text=True)
        ask(child, "".join(large_script()), "sent m2 ")
        for front in ("took ", "dup "):
            reply, seconds, busy = ask(child, "deliver m1\n", front)
            print("  %s: %.2f ms, %.2f ms of a processor" % (reply, seconds * 1000, busy * 1000))
        child.communicate()


def main():
    with tempfile.TemporaryDirectory() as folder:
        for lines in (LINES // 4, LINES):
            compare(folder, lines)
    print("a message of %d parts" % PARTS)
    measure_large()


main()
