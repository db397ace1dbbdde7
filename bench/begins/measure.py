#!/usr/bin/env python3
"""What a stable begin costs beside a begin: instructions for each, as valgrind counts them.

    python3 bench/begins/measure.py [PROGRAM]

A script begins a transaction and gives it up, so many times; the difference of two lengths is what one more costs.
"""
import os
import re
import subprocess
import sys
import tempfile

BUILT = os.path.join(os.path.dirname(os.path.abspath(__file__)), "../../crates/dc_shell/out/dc_shell")
LENGTHS = 4000, 8000


def script(word, count, parts):
    """At partition 1.1 of a site of so many, which knows how far the others have come."""
    lines = [f"cluster 2 {parts}", "session a 1"]
    lines += [f"clock 1.{part} 1000" for part in range(1, parts + 1)]
    for part in range(2, parts + 1):
        lines += [f"report 1.{part}", f"hear g{part - 1} 1.1"]
    lines += [f"begin a 1.1{word}", "abort a"] * count
    return "\n".join(lines) + "\n"


def instructions(program, text):
    with tempfile.TemporaryDirectory() as folder:
        words = ["valgrind", "--tool=callgrind", f"--callgrind-out-file={folder}/out", program, "play"]
        done = subprocess.run(words, input=text.encode(), capture_output=True, check=True)
    return int(re.search(rb"refs:\s+([\d,]+)", done.stderr).group(1).replace(b",", b""))


def main():
    program = sys.argv[1] if len(sys.argv) > 1 else BUILT
    print("| partitions of the site | a begin and its abort | a stable one |")
    print("|---|---|---|")
    for parts in 1, 4, 16:
        cost = []
        for word in "", " stable":
            few, many = (instructions(program, script(word, count, parts)) for count in LENGTHS)
            cost.append((many - few) // (LENGTHS[1] - LENGTHS[0]))
        print(f"| {parts} | {cost[0]:,} | {cost[1]:,} |")


if __name__ == "__main__":
    main()
