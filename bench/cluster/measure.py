#!/usr/bin/env python3
"""Plays scripts of seven profiles and several lengths on a built dc_shell, and beside it on another program.

    python3 bench/cluster/measure.py [--program PROGRAM] [--other 'COMMAND'] [--lengths 10000,100000,..]
                                     [--profiles counter,reads,..] [--seconds SECONDS] [--picture FILE]

PROGRAM is crates/dc_shell/out/dc_shell, which `rt run` in crates/dc_shell leaves there. COMMAND plays a script from
standard input, as a plain program of the same behaviour does; its replies have to be the same, byte by byte. Each
script is played three times by each program in turn, and of these the least time of a processor counts, which is
said of no machine but this one. Prints a table, and with --picture draws lines a second against the length of the
script, as an SVG: a cost that grows with the history shows as a line that falls. Scripts of more than 64 MiB, which are
refused, are left out, and so are those of a profile that are longer than one which took more than SECONDS (10)."""
import argparse
import os
import shlex
import subprocess
import sys
import tempfile

HERE = os.path.dirname(os.path.abspath(__file__))
sys.path.insert(0, os.path.join(HERE, ".."))
from playing import play

PROGRAM = os.path.join(HERE, "../../crates/dc_shell/out/dc_shell")
PROFILES = ("counter", "kinds", "reads", "own", "sites", "crash", "once")
LENGTHS = (10_000, 100_000, 300_000, 1_000_000, 2_000_000, 3_000_000)
MOST_BYTES = 64 << 20
COLOURS = ("#1b6ca8", "#c8553d", "#3a7d44", "#a83279", "#8e5ea2", "#b8860b", "#5f6b7a")
RUNS = 3


def same(first, second):
    """Whether two files are the same."""
    return subprocess.call(["cmp", "-s", first, second]) == 0


def measure(folder, profile, length, commands):
    """The lines of a script, and of each command the least time and the peak; None where the script is too long."""
    script = os.path.join(folder, "script")
    with open(script, "wb") as sink:
        subprocess.run([sys.executable, os.path.join(HERE, "generate.py"), profile, str(length)], stdout=sink, check=True)
    if os.path.getsize(script) > MOST_BYTES:
        return None
    with open(script, "rb") as source:
        lines = sum(1 for _ in source)
    replies = [os.path.join(folder, "replies%d" % k) for k in range(len(commands))]
    runs = [[play(command, script, reply) for command, reply in zip(commands, replies)] for _ in range(RUNS)]
    if not all(same(replies[0], reply) for reply in replies[1:]):
        sys.exit("%s, %d lines: the replies differ" % (profile, lines))
    return lines, [(min(run[k][0] for run in runs), max(run[k][1] for run in runs)) for k in range(len(commands))]


def row(profile, lines, found):
    """A line of the table."""
    cells = [profile, f"{lines:,}"] + [f"{lines / time:,.0f}, {peak:.0f} MB" for time, peak in found]
    if len(found) > 1:
        cells.append("%.2f" % (found[0][0] / found[1][0]))
    return "| %s |" % " | ".join(cells)


def apart(places):
    """How far down the names at these places stand, none over another."""
    down, last = {}, None
    for at, (_, y) in sorted(enumerate(places), key=lambda one: one[1][1]):
        last = y if last is None else max(y, last + 13)
        down[at] = last
    return [down[at] for at in range(len(places))]


def picture(points, file):
    """Draws lines a second against lines; both by powers of ten."""
    from math import ceil, log10

    wide, high, left, low = 640, 400, 86, 40
    xs = [log10(lines) for drawn in points.values() for lines, _ in drawn]
    ys = [log10(speed) for drawn in points.values() for _, speed in drawn]
    x0, x1, y0, y1 = min(xs), max(max(xs), min(xs) + 1), int(min(ys)), int(max(ys)) + 1

    def place(lines, speed):
        return (
            left + (log10(lines) - x0) / (x1 - x0) * (wide - left - 110),
            high - low - (log10(speed) - y0) / (y1 - y0) * (high - low - 20),
        )

    out = ['<svg xmlns="http://www.w3.org/2000/svg" viewBox="0 0 %d %d" font-family="sans-serif" font-size="12">' % (wide, high)]
    for power in range(y0, y1 + 1):
        _, y = place(10**x0, 10**power)
        out.append('<path d="M%d %.0fH%d" stroke="#ddd"/><text x="8" y="%.0f">%s/s</text>' % (left, y, wide - 110, y + 4, format(10**power, ",")))
    for power in range(ceil(x0 - 0.01), int(x1) + 1):
        x, _ = place(10**power, 10**y0)
        out.append('<text x="%.0f" y="%d" text-anchor="middle">%s lines</text>' % (x, high - 12, format(10**power, ",")))
    labels = apart([place(*drawn[-1]) for drawn in points.values()])
    for (name, drawn), colour, label in zip(points.items(), COLOURS, labels):
        path = " ".join("%.1f,%.1f" % place(*point) for point in drawn)
        x, _ = place(*drawn[-1])
        out.append('<polyline points="%s" fill="none" stroke="%s" stroke-width="2"/>' % (path, colour))
        out.append('<text x="%.0f" y="%.0f" fill="%s">%s</text>' % (x + 6, label + 4, colour, name))
    with open(file, "w") as sink:
        sink.write("\n".join(out) + "\n</svg>\n")


def main():
    words = argparse.ArgumentParser()
    words.add_argument("--program", default=PROGRAM)
    words.add_argument("--other")
    words.add_argument("--lengths", default=",".join(map(str, LENGTHS)))
    words.add_argument("--profiles", default=",".join(PROFILES))
    words.add_argument("--seconds", type=float, default=10)
    words.add_argument("--picture")
    asked = words.parse_args()
    commands = [[asked.program, "play"]] + ([shlex.split(asked.other)] if asked.other else [])
    print("| profile | lines | lines a second, peak |%s" % (" of the other | ratio of times |" if asked.other else ""))
    print("|---|---|---|%s" % ("---|---|" if asked.other else ""))
    points = {}
    with tempfile.TemporaryDirectory() as folder:
        for profile in asked.profiles.split(","):
            for length in map(int, asked.lengths.split(",")):
                measured = measure(folder, profile, length, commands)
                if measured is None:
                    break
                lines, found = measured
                print(row(profile, lines, found), flush=True)
                points.setdefault(profile, []).append((lines, lines / found[0][0]))
                if max(time for time, _ in found) > asked.seconds:
                    break
    if asked.picture:
        picture(points, asked.picture)


main()
