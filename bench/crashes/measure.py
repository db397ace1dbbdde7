#!/usr/bin/env python3
"""Plays a generated script of crashes, faults and restarts on a built dc_shell.

    python3 bench/crashes/measure.py [PROGRAM] [LINES] [OTHER ..]

PROGRAM is crates/dc_shell/out/dc_shell, which `rt run` in crates/dc_shell leaves there, and LINES 100,000. Prints the
lines per second of a processor's time, of a quarter of the lines too, and how many lines tell of crashes, faults and
restarts. OTHER is the command of another program that plays scripts from standard input; then that one plays them as
well, the replies are compared, and the ratio of the times is printed."""
import os
import subprocess
import sys
import tempfile

HERE = os.path.dirname(os.path.abspath(__file__))
sys.path.insert(0, os.path.join(HERE, ".."))
from playing import play

PROGRAM = sys.argv[1] if len(sys.argv) > 1 else os.path.join(HERE, "../../crates/dc_shell/out/dc_shell")
LINES = int(sys.argv[2]) if len(sys.argv) > 2 else 100_000
OTHER = sys.argv[3:]
RUNS = 3
TOLD = (b"crashed", b"disk", b"restarted", b"down")


def measure(command, script, replies, lines):
    """Plays a script some times, and answers the least time of a processor."""
    least = min(play(command, script, replies)[0] for _ in range(RUNS))
    print("  %s: %.3f s of a processor, %.0f lines a second of it" % (os.path.basename(command[0]), least, lines / least))
    return least


def compare(folder, lines):
    """Plays a script of so many lines, on the other program too if there is one."""
    script, replies, others = (os.path.join(folder, name) for name in ("script", "replies", "others"))
    with open(script, "wb") as sink:
        subprocess.run([sys.executable, os.path.join(HERE, "generate.py"), str(lines)], stdout=sink, check=True)
    with open(script, "rb") as source:
        count = sum(1 for _ in source)
    print("%d lines" % count)
    own = measure([PROGRAM, "play"], script, replies, count)
    with open(replies, "rb") as ours:
        words = [line.split(b" ", 1)[0] for line in ours]
    print("  replies: %s" % ", ".join("%d %s" % (words.count(word), word.decode()) for word in TOLD))
    if OTHER:
        other = measure(OTHER, script, others, count)
        with open(replies, "rb") as ours, open(others, "rb") as theirs:
            same = "the same" if ours.read() == theirs.read() else "DIFFERENT"
        print("  ratio of the least times %.2f, replies %s" % (own / other, same))


def main():
    with tempfile.TemporaryDirectory() as folder:
        for lines in (LINES // 4, LINES):
            compare(folder, lines)


main()
