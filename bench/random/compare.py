#!/usr/bin/env python3
"""Plays random scripts on a built dc_shell and on another program, and compares the replies byte by byte.

    python3 bench/random/compare.py 'OTHER' [PROGRAM] [SCRIPTS] [LINES] [SEED]

OTHER is the command of a program that plays a script from standard input, PROGRAM is crates/dc_shell/out/dc_shell,
which `rt run` in crates/dc_shell leaves there; SCRIPTS is 1,000, LINES 300, and SEED, the number of the first script, 1.
PROGRAM plays each script a second time as frames, now and then with a last one that is cut off, and has to answer with
the frames of the same replies.
A script is made from its number alone: any commands in any order, mostly of what there is, sometimes of what there
isn't, with all kinds and maps in maps, crashes, fuses and restarts, and now and then a line that isn't in the grammar.
Prints how many lines of which reply were compared, and ends with 1 at the first script whose replies differ, which it
leaves in a file that it names."""
import collections
import os
import random
import shlex
import subprocess
import sys
import tempfile

HERE = os.path.dirname(os.path.abspath(__file__))
OTHER = shlex.split(sys.argv[1])
PROGRAM = sys.argv[2] if len(sys.argv) > 2 else os.path.join(HERE, "../../crates/dc_shell/out/dc_shell")
SCRIPTS, LINES, SEED = (int(sys.argv[k]) if len(sys.argv) > k else least for k, least in ((3, 1_000), (4, 300), (5, 1)))
COUNTERS, SETS, FLAGS = ["counter_pn", "counter_fat"], ["set_go", "set_aw", "set_rw"], ["flag_ew", "flag_dw"]
REGISTERS, MAPS = ["register_lww", "register_mv"], ["map_go", "map_rr"]
KINDS = COUNTERS + SETS + FLAGS + REGISTERS + MAPS
TEXTS = ["tea", "milk", '"oat milk"', '"a\\"b"', '"\\u00e9"', "x", "y", '""', "add", "-7"]
BUCKETS = ["", "", "", " @shop", ' @"a b"']
BAD = ["foo", "clock 1.1", "clock 1.1 05", "read a k", "update a k counter_pn increment 2147483648", "begin", "cluster 9 1",
       'read a "k counter_pn', "commit a x", "deliver 1", "fuse 1.1 0 0", "update a k set_aw add", "# note", "", "  ", "send 1.1"]


class Script:
    """What a script has named so far, so that most lines are about what there is."""

    def __init__(self, number):
        self.dice = random.Random(number)
        self.sites, self.parts = self.dice.choice([(1, 1), (1, 2), (2, 1), (2, 2), (3, 2), (2, 4)])
        self.now = collections.Counter()
        self.messages = self.reports = 0
        self.begun = set()

    def one(self, choices):
        return self.dice.choice(choices)

    def place(self):
        return "%d.%d" % (self.dice.randint(1, self.sites), self.dice.randint(1, self.parts))

    def session(self):
        """A session; mostly one that has begun, as far as its begins tell."""
        if self.begun and self.dice.random() < 0.9:
            return self.one(sorted(self.begun))
        return self.one(["a", "b", "c", "d"])

    def begin(self):
        session = self.one(["a", "b", "c"])
        self.begun.add(session)
        return "begin %s%s%s" % (session, self.one(["", "", " " + self.place()]), self.one(["", "", " stable"]))

    def commit(self):
        session = self.session()
        steps = self.one(["", "", "", " %d" % self.dice.randint(1, 4)])
        if not steps:
            self.begun.discard(session)
        return "commit %s%s" % (session, steps)

    def object(self, kind):
        return "k%d %s%s" % (self.dice.randrange(6), kind, self.one(BUCKETS))

    def act(self, kind, depth=0):
        """An operation, which mostly fits the kind."""
        if self.dice.random() < 0.03:
            kind = self.one(KINDS)
        if kind in COUNTERS:
            word = self.one(["increment", "increment", "decrement"]) + " %d" % self.dice.randint(-9, 99)
            return "reset" if kind == "counter_fat" and self.dice.random() < 0.2 else word
        if kind in SETS:
            word = self.one(["add", "add", "add", "remove", "reset"] if kind != "set_go" else ["add"])
            return word if word == "reset" else "%s %s" % (word, " ".join(self.dice.choices(TEXTS, k=self.dice.randint(1, 3))))
        if kind in FLAGS:
            return self.one(["enable", "disable", "reset"])
        if kind in REGISTERS:
            return "reset" if kind == "register_mv" and self.dice.random() < 0.2 else "assign " + self.one(TEXTS)
        if kind == "map_rr" and self.dice.random() < 0.2:
            return self.one(["reset", "drop %s %s" % (self.one(["f", "g"]), self.one(KINDS))])
        inner = self.one(KINDS if depth < 4 else KINDS[:9])
        return "in %s %s %s" % (self.one(["f", "g", '"h i"']), inner, self.act(inner, depth + 1))

    def clock(self):
        place = self.place()
        self.now[place] += self.dice.randint(-20, 400)
        return "clock %s %d" % (place, max(0, self.now[place]))

    def send(self):
        self.messages += 1
        low = self.one(["", "", "", " 0", " %d" % self.dice.randrange(1000)])
        return "send %s %d%s" % (self.place(), self.dice.randint(1, self.sites), low)

    def report(self):
        self.reports += 1
        return "report " + self.place()

    def transaction(self):
        return "%s#%d" % (self.place(), self.dice.randrange(1, 2000))

    def line(self):
        session, kind, dice = self.session(), self.one(KINDS), self.dice
        return self.one([
            self.begin,
            lambda: "update %s %s %s" % (session, self.object(kind), self.act(kind)),
            lambda: "update %s %s %s" % (session, self.object(kind), self.act(kind)),
            lambda: "update %s %s %s" % (session, self.object(kind), self.act(kind)),
            lambda: "read %s %s" % (session, self.object(kind)),
            lambda: "read %s %s" % (session, self.object(kind)),
            self.commit, self.clock, self.clock, self.send, self.report,
            lambda: "deliver m%d" % dice.randint(1, self.messages + 1),
            lambda: "deliver m%d" % max(1, self.messages),
            lambda: "hear g%d %s" % (dice.randint(max(1, self.reports - 3), self.reports + 1), self.place()),
            self.rare if dice.random() < 0.5 else self.clock,
        ])()

    def rare(self):
        session, dice = self.session(), self.dice
        return self.one([
            lambda: "abort " + session, lambda: "lose " + session, lambda: "session %s %d" % (session, dice.randint(1, self.sites)),
            lambda: "move %s %d" % (session, dice.randint(1, self.sites)), lambda: "drop m%d" % dice.randint(1, self.messages + 1),
            lambda: "drop g%d" % dice.randint(1, self.reports + 1), lambda: "crash " + self.place(),
            lambda: "restart " + self.place(), lambda: "restart " + self.place(), lambda: "restart " + self.place(),
            lambda: "fuse %s %d %d" % (self.place(), dice.randint(1, 9), dice.randint(0, 40)),
            lambda: "settle " + self.place(), lambda: "expire %s %s" % (self.place(), self.transaction()),
            lambda: "clock %d.%d 5" % (dice.randint(1, 4), dice.randint(1, 5)), lambda: "cluster 1 1", lambda: self.one(BAD),
        ])()

    def text(self):
        lines = ["cluster %d %d" % (self.sites, self.parts)]
        lines += ["session %s %d" % (name, self.dice.randint(1, self.sites)) for name in "abc"]
        return "".join(line + "\n" for line in lines + [self.line() for _ in range(LINES)])


def replies(command, script):
    """The replies of a program and the status that it ends with."""
    ran = subprocess.run(command, input=script.encode(), stdout=subprocess.PIPE, stderr=subprocess.DEVNULL)
    return ran.stdout, ran.returncode


def framed(lines, head):
    """Lines as frames, whose length takes so many bytes."""
    return b"".join(len(line).to_bytes(head, "big") + line for line in lines)


def in_frames(script, ours, cut):
    """Whether the script as frames is answered with these replies as frames, where it is cut off too."""
    lines, (text, status) = script.encode().split(b"\n")[:-1], ours
    frames, wanted = framed(lines, 2) + b"\0\7cluster"[:cut], framed(text.split(b"\n")[:-1], 4)
    if cut:
        wanted, status = wanted + framed([b"bad"], 4), 1
    ran = subprocess.run([PROGRAM, "play", "--frames"], input=frames, stdout=subprocess.PIPE, stderr=subprocess.DEVNULL)
    return (ran.stdout, ran.returncode) == (wanted, status)


def main():
    words = collections.Counter()
    for number in range(SEED, SEED + SCRIPTS):
        script = Script(number).text()
        ours, theirs = replies([PROGRAM, "play"], script), replies(OTHER, script)
        if ours != theirs:
            with tempfile.NamedTemporaryFile("w", suffix=".script", delete=False) as kept:
                kept.write(script)
            both = zip(ours[0].split(b"\n"), theirs[0].split(b"\n"))
            first = next((pair for pair in both if pair[0] != pair[1]), (ours[1], theirs[1]))
            sys.exit("script %d: %s and %s differ: %s" % (number, first[0], first[1], kept.name))
        if not in_frames(script, ours, number % 9):
            sys.exit("script %d: as frames it is answered otherwise" % number)
        words.update(line.split(b" ", 1)[0].decode() for line in ours[0].splitlines())
    print("%d scripts, %d replies, all the same: %s" % (SCRIPTS, sum(words.values()), ", ".join("%d %s" % (n, w) for w, n in words.most_common())))


main()
