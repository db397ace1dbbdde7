#!/usr/bin/env python3
"""Plays sixteen million random bytes of lines that look like the grammar's on a built dc_shell.

    python3 bench/hostile/measure.py [PROGRAM] [BYTES] [SEED]

PROGRAM is crates/dc_shell/out/dc_shell, which `rt run` in crates/dc_shell leaves there, BYTES is 16,777,216, SEED 1.
A line is made of the grammar's own words in a random order, numbers at their bounds and one beyond, words that are cut
off within quotes, and bytes that are no text; one in three is a line of the grammar. The program plays them as lines,
as JSON and as frames, with a rest that is no whole frame. It has to end with status 0, 1 or 6 each time, with a line of
reply for each line of the script at least that is neither empty nor a note, and nothing on standard error but what a
status says. Prints the times and how many lines were `bad`; ends with 1 where something else came."""
import os
import random
import subprocess
import sys
import time

HERE = os.path.dirname(os.path.abspath(__file__))
PROGRAM = sys.argv[1] if len(sys.argv) > 1 else os.path.join(HERE, "../../crates/dc_shell/out/dc_shell")
BYTES, SEED = (int(sys.argv[k]) if len(sys.argv) > k else least for k, least in ((2, 16_777_216), (3, 1)))
COMMANDS = ["cluster", "clock", "session", "move", "lose", "begin", "read", "update", "commit", "abort", "expire",
            "settle", "send", "deliver", "drop", "report", "hear", "crash", "fuse", "restart", "storm", "play", "foo"]
KINDS = ["counter_pn", "counter_fat", "set_go", "set_aw", "set_rw", "flag_ew", "flag_dw", "register_lww", "register_mv",
         "map_go", "map_rr", "counter_b"]
ACTS = ["increment", "decrement", "reset", "add", "remove", "enable", "disable", "assign", "in", "drop", "stable"]
PLACES = ["1.1", "1.2", "8.16", "0.1", "9.1", "1.17", "001.1", "1.", ".1", "1.1#101", "1.1#0", "1.1#281474976710656"]
NUMBERS = ["0", "1", "05", "-1", "8", "9", "16", "17", "256", "2147483647", "2147483648", "-2147483648",
           "281474976710655", "281474976710656", "18446744073709551616", "m1", "g1", "m0", "i1"]
TEXTS = ["a", "b", "k", "j", '"k"', '""', '"a b"', '"\\u00e9"', '"\\ud800"', '"\\n"', '"open', '"x\\"', "@", "@shop",
         '@"a b"', "é", "\x07", "x" * 256, "x" * 257, '"' + "y" * 257 + '"', "#"]
WORDS = [COMMANDS, KINDS, ACTS, PLACES, NUMBERS, TEXTS]
RIGHT = ["cluster 1 2", "clock 1.1 5", "clock 1.2 281474976710655", "session a 1", "begin a", "begin a 1.2 stable",
         "update a k counter_pn increment 1", "read a k counter_pn", "commit a", "abort a", "settle 1.2", "report 1.1",
         "fuse 1.1 3 1", "crash 1.1", "restart 1.1", "update a m map_rr in f map_go in g set_aw add x \"y z\""]


def line_of(dice):
    """A line, without its end."""
    chance = dice.random()
    if chance < 0.35:
        return dice.choice(RIGHT).encode()
    words = [dice.choice(COMMANDS)] + [dice.choice(dice.choice(WORDS)) for _ in range(dice.randrange(7))]
    line = dice.choice([" ", " ", " ", "  ", "\t"]).join(words).encode()
    if chance > 0.9:
        at = dice.randrange(len(line) + 1)
        line = line[:at] + dice.randbytes(dice.randrange(1, 9)).replace(b"\n", b"") + line[at:]
    if chance > 0.9995:
        line += b" " * dice.choice([4_000, 4_096, 70_000])
    return line


def lines_of(dice):
    """Lines of so many bytes together, at the least, each with its end."""
    lines, size = [], 0
    while size < BYTES:
        lines.append(line_of(dice))
        size += len(lines[-1]) + 1
    return lines


def counts(line):
    """Whether a line has a reply: it is neither empty nor a note."""
    bare = line.removesuffix(b"\r").strip(b" ")
    return bare != b"" and not bare.startswith(b"#")


def play(words, script):
    """The status, the replies, what was said on standard error, and the seconds of one play."""
    before = time.time()
    ended = subprocess.run([PROGRAM, "play", *words], input=script, capture_output=True)
    return ended.returncode, ended.stdout, ended.stderr, time.time() - before


def main():
    lines = lines_of(random.Random(SEED))
    wrong = 0
    text = b"".join(line + b"\n" for line in lines)
    due = sum(map(counts, lines))
    for words in ([], ["--json"]):
        status, out, error, seconds = play(words, text)
        told = out.count(b"\n")
        bad = out.count(b'"bad"') if words else out.count(b"\nbad\n")
        print(f"play {' '.join(words)}: {len(text)} bytes, status {status}, {told} replies, {bad} bad, {seconds:.1f} s")
        wrong += status not in (0, 1, 6) or told < due or error != b""
    framed = b"".join(len(line).to_bytes(2, "big") + line for line in lines if len(line) < 65_536) + b"\x00\x09cut"
    status, out, error, seconds = play(["--frames"], framed[:67_108_864])
    print(f"play --frames: {len(framed)} bytes, status {status}, {len(out)} bytes of replies, {seconds:.1f} s")
    wrong += status not in (0, 1, 6) or error != b""
    sys.exit(wrong > 0)


if __name__ == "__main__":
    main()
