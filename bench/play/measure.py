#!/usr/bin/env python3
"""Runs a built dc_shell on generated scripts, of one partition and of sixteen, and prints lines per second and the peak memory.

    python3 bench/play/measure.py [PROGRAM] [LINES]

PROGRAM is crates/dc_shell/out/dc_shell, which `rt run` in crates/dc_shell leaves there, and LINES 1,000,000."""
import os
import subprocess
import sys
import tempfile
import time

HERE = os.path.dirname(os.path.abspath(__file__))
PROGRAM = sys.argv[1] if len(sys.argv) > 1 else os.path.join(HERE, "../../crates/dc_shell/out/dc_shell")
LINES = int(sys.argv[2]) if len(sys.argv) > 2 else 1_000_000


def peak_of(pid):
    """The peak so far, in KiB, as the kernel tells it. The usage that wait4 gives counts this script's own memory."""
    with open("/proc/%d/status" % pid) as status:
        for line in status:
            if line.startswith("VmHWM:"):
                return int(line.split()[1])
    return 0


def measure(script, replies):
    with open(script, "rb") as source, open(replies, "wb") as sink:
        start = time.monotonic()
        child = subprocess.Popen([PROGRAM, "play"], stdin=source, stdout=sink)
        peak = 0
        while child.poll() is None:
            peak = max(peak, peak_of(child.pid))
            time.sleep(0.001)
        seconds = time.monotonic() - start
    return child.returncode, seconds, peak


def main():
    for generator in ("generate.py", "generate_parts.py"):
        with tempfile.TemporaryDirectory() as folder:
            script = os.path.join(folder, "script")
            replies = os.path.join(folder, "replies")
            with open(script, "wb") as sink:
                subprocess.run([sys.executable, os.path.join(HERE, generator), str(LINES)], stdout=sink, check=True)
            print("%s: %d lines, %d bytes" % (generator, LINES, os.path.getsize(script)))
            for _ in range(3):
                status, seconds, peak = measure(script, replies)
                print(
                    "status %d, %.3f s, %.0f lines a second, peak %.1f MB, replies %d bytes"
                    % (status, seconds, LINES / seconds, peak / 1024, os.path.getsize(replies))
                )


main()
