#!/usr/bin/env python3
"""Cases that stop a partition's disk at each of its calls, as script_table reads them, and what they have to show.

    python3 bench/stops/generate.py PROGRAM           prints the cases
    python3 bench/stops/generate.py PROGRAM replies   prints the cases with their replies, as script_table does

PROGRAM is the command of a program that plays scripts, as `dc_shell play`. For each of `clock`, `commit`, `deliver`,
`settle` and `restart` a fuse stands at call 1, 2 and on until it doesn't fire, and 0, 1 or all bytes of a write are
kept. Then the partition restarts, and what is read is what it was before or after the command: of a commit over two
partitions at both or at neither. Behind them each call of a disk fails once, by a list of faults and without a fuse:
the replies are those of a fuse there. Ends with 1 where something else is read, and names the case."""
import shlex
import subprocess
import sys

PROGRAM = shlex.split(sys.argv[1])
KEPT = {0: "none", 1: "one byte", 1000: "all"}
# the calls by which a disk is formatted, before a list of faults is in force, and those by which its empty log is opened
FORMATTING, OPENING = 3, 2

ONE = ["cluster 1 1", "clock 1.1 100", "session a 1", "begin a", "update a k counter_pn increment 5"]
TWO = ["cluster 1 2", "clock 1.1 100", "clock 1.2 200", "session a 1", "begin a 1.1",
       "update a k counter_pn increment 5", "update a j counter_pn increment 7"]
LATER = ["clock 1.1 5000", "clock 1.2 6000", "session b 1", "begin b 1.1", "read b k counter_pn", "read b j counter_pn"]
AGAIN = ["session b 1", "begin b", "read b k counter_pn"]


def up(part):
    """A restart at which a fuse that is left may fire, and one more."""
    return [f"restart {part}", f"restart {part}"]


# what stops, at which partition, the lines before, the command, the lines after, and what may be read at the end
STOPS = [
    ("a clock that takes a lease", "1.1", ONE + ["commit a"], "clock 1.1 2000", up("1.1") + AGAIN, [["5"]]),
    ("a commit, at its lead", "1.1", TWO, "commit a",
     up("1.1") + up("1.2") + ["expire 1.1 1.1#101", "settle 1.1", "settle 1.2"] + LATER, [["0", "0"], ["5", "7"]]),
    ("a commit, at another participant", "1.2", TWO, "commit a",
     up("1.2") + ["expire 1.1 1.1#101", "settle 1.1", "settle 1.2"] + LATER, [["0", "0"], ["5", "7"]]),
    ("a commit that takes a lease", "1.1", ["cluster 1 1", "clock 1.1 1099"] + ONE[2:], "commit a",
     up("1.1") + ["expire 1.1 1.1#1100"] + AGAIN, [["0"], ["5"]]),
    ("a delivery", "2.1", ["cluster 2 1"] + ONE[1:] + ["commit a", "send 1.1 2"], "deliver m1",
     up("2.1") + ["session b 2"] + AGAIN[1:] + ["commit b", "deliver m1"] + AGAIN[1:], [["0", "5"], ["5", "5"]]),
    ("a settle that finishes", "1.2", TWO + ["commit a 3"], "settle 1.2",
     up("1.2") + ["settle 1.2"] + LATER, [["5", "7"]]),
    ("a settle that aborts", "1.2", TWO + ["commit a 2", "expire 1.1 1.1#101"], "settle 1.2",
     up("1.2") + ["settle 1.2"] + LATER, [["0", "0"]]),
    ("a restart", "1.1", ONE + ["commit a", "crash 1.1"], "restart 1.1", up("1.1") + AGAIN, [["5"]]),
]
FAULTS = (ONE + ["commit a"] + up("1.1") + ["expire 1.1 1.1#101", "clock 1.1 3000"] + up("1.1") + AGAIN
          + up("1.1") + AGAIN[1:])


def play(lines):
    """The replies to these lines."""
    text = "\n".join(lines) + "\n"
    return subprocess.run(PROGRAM, input=text, capture_output=True, text=True, check=True).stdout.splitlines()


def read_in(replies):
    """What session b reads, in order."""
    return [line.split()[-1] for line in replies if line.startswith("value b ")]


def stops():
    """Each case of a fuse: its note, its lines and replies, and what may be read."""
    for what, part, before, command, after, may in STOPS:
        for kept, said in KEPT.items():
            fires, at = True, 0
            while fires:
                at += 1
                armed = before + [f"fuse {part} {at} {kept}"]
                told = play(armed + [command])[len(play(armed)):]
                fires = any(line == f"disk {part}" or line.startswith("unsure ") for line in told)
                note = f"# {what}: {'stopped at' if fires else 'not stopped by'} call {at} of {part}, {said} kept"
                lines = armed + [command] + after
                yield note, "plain", lines, play(lines), may


def faults():
    """Each case of a call that fails by a list."""
    before = FORMATTING + OPENING
    for call in range(FORMATTING + 1, before + 1):
        lines = ["cluster 1 1", "clock 1.1 5"]
        yield f"# call {call} of a disk fails as it is opened", f"disk {call}", lines, ["disk 1.1", "no cluster"], [[]]
    fires, call = True, before
    while fires:
        call += 1
        replies = play(FAULTS[:1] + [f"fuse 1.1 {call - before} 0"] + FAULTS[1:])
        del replies[1]
        fires = any(line == "disk 1.1" or line.startswith("unsure ") for line in replies)
        note, may = f"# call {call} of each disk fails", [["0"], ["5"], ["0", "0"], ["5", "5"]]
        yield note, f"disk {call}", FAULTS, replies, may


def disks_of(lines, replies):
    """The lines by which script_table tells of the disks that came back."""
    if not replies[0].startswith("cluster "):
        return []
    sites, parts = map(int, lines[0].split()[1:])
    return [f"back {site}.{part}" for site in range(1, sites + 1) for part in range(1, parts + 1)]


def main():
    wrong = 0
    for note, setting, lines, replies, may in [*stops(), *faults()]:
        if read_in(replies) not in may:
            wrong += 1
            print(f"{note}: reads {read_in(replies)}, and not one of {may}", file=sys.stderr)
        if sys.argv[2:] == ["replies"]:
            print(f"== {setting}", *replies, "ends with 0", *disks_of(lines, replies), sep="\n")
        else:
            print(f"== {setting}", note, *lines, sep="\n")
    sys.exit(wrong > 0)


if __name__ == "__main__":
    main()
