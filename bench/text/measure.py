#!/usr/bin/env python3
"""Measures how fast lines are parsed and printed, over the scripts of a folder joined to one.

    python3 bench/text/measure.py [FOLDER] [PASSES]

FOLDER is examples/, or any folder of .script files, and PASSES is 2000. The program is crates/text_bench/out/text_bench, which
`rt run` in crates/text_bench leaves there. What a single pass takes is taken off, so that the start of the program isn't counted. It stops where the passes
count something else than so many times what one pass counts."""
import glob
import os
import subprocess
import sys
import time

HERE = os.path.dirname(os.path.abspath(__file__))
PROGRAM = os.path.join(HERE, "../../crates/text_bench/out/text_bench")
FOLDER = sys.argv[1] if len(sys.argv) > 1 else os.path.join(HERE, "../../examples")
PASSES = int(sys.argv[2]) if len(sys.argv) > 2 else 2000


def joined():
    scripts = []
    for name in sorted(glob.glob(os.path.join(FOLDER, "*.script"))):
        with open(name, "rb") as source:
            scripts.append(source.read().rstrip(b"\n") + b"\n")
    return b"".join(scripts)


def seconds(work, passes, script):
    start = time.monotonic()
    done = subprocess.run([PROGRAM, work, str(passes)], input=script, stdout=subprocess.PIPE, check=True)
    return time.monotonic() - start, int(done.stdout.split()[0])


def main():
    script = joined()
    lines = script.count(b"\n")
    print("scripts: %d lines, %d bytes" % (lines, len(script)))
    for work in ("parse", "line"):
        first, made = seconds(work, 1, script)
        all_passes, counted = seconds(work, PASSES + 1, script)
        if counted != (PASSES + 1) * made:
            sys.exit("%s: %d passes counted %d, and one pass %d" % (work, PASSES + 1, counted, made))
        spent = max(all_passes - first, 1e-9)
        what = "commands" if work == "parse" else "bytes"
        print(
            "%s: %d passes, %d %s each, %.3f s, %.2f million %s a second"
            % (work, PASSES, made, what, spent, PASSES * made / spent / 1e6, what)
        )


main()
