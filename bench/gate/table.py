#!/usr/bin/env python3
"""The table of the gate: for each crate its lines, and the minutes of a processor that its proof and its edits took.

    bench/gate/table.py watch FILE      beside a gate, from its start until it is stopped
    bench/gate/table.py table [FILE]    prints the table
    bench/gate/table.py edits FILE      prints what each edit took, the dearest first

The tools print no times, and those of a clock say little where other work goes on. So `watch` looks every other second
at the processes of the prover that a gate started, and keeps in FILE what each has spent of a processor. What is proved
in the repository, or in a gate's copy of it, counts as the crate's proof, tests and the programs of both compilers too;
what is proved in a copy for edits, as its edits: the gate proves a crate once more before it tries them (its base). An
edit is known by the lines that it writes. A crate that an earlier run proved has empty columns, as all have where there
is no FILE.
"""
import collections
import glob
import json
import os
import re
import sys
import time

TOP = os.path.dirname(os.path.dirname(os.path.dirname(os.path.abspath(__file__))))
TICKS = os.sysconf("SC_CLK_TCK")
# the folders in which `rt ci` proves, and tries edits: the repository's own where it was given no names
GATES = re.compile(f"/rt-(copy|edit)-|^{re.escape(TOP)}/crates/")


def crates():
    """The crates in the order of crates.txt."""
    with open(f"{TOP}/crates.txt") as text:
        lines = (line.split("#")[0].partition(":") for line in text)
        return [name.strip() for name, colon, _ in lines if colon]


def lines_of(crate, folder):
    """The lines of the crate's files in src, specs or proofs."""
    count = 0
    for file in glob.glob(f"{TOP}/crates/{crate}/{folder}/**/*.*t", recursive=True):
        if file.endswith((".rt", ".antt")):
            with open(file) as text:
                count += sum(1 for _ in text)
    return count


def looked_at(number):
    """What a gate's prover is known by, its crate, its folder and its seconds of a processor; of others, None."""
    with open(f"/proc/{number}/stat") as text:
        head, _, rest = text.read().rpartition(") ")
    if not head.endswith("(rattle"):
        return None
    with open(f"/proc/{number}/cmdline") as text:
        words = text.read().split("\0")
    if "--crate-name" not in words:
        return None
    folder = os.readlink(f"/proc/{number}/cwd")
    if not GATES.search(folder):
        return None
    fields = rest.split()
    # its own and that of the processes which it started and waited for
    spent = sum(map(int, fields[11:15])) / TICKS
    crate = words[words.index("--crate-name") + 1]
    return f"{number}-{fields[19]}", crate, folder, spent


def lines_in(path):
    with open(path) as text:
        return collections.Counter(line.strip() for line in text)


def written_by(edit):
    """The files and lines that an edit writes."""
    written, file = [], None
    with open(edit) as text:
        for line in text:
            word, _, rest = line.strip().partition(" ")
            if word == "file:":
                file = rest.strip()
            elif word == "new:" and rest:
                written.append((file, rest.strip()))
    return written


def kind_of(crate, folder):
    """What a prover in this folder proves: the crate itself, the base of its edits, or one of them by its name."""
    if folder.endswith(f"/crates/{crate}"):
        return "proof"
    more = lambda file, line: lines_in(f"{folder}/{file}")[line] > lines_in(f"{TOP}/crates/{crate}/{file}")[line]
    for edit in sorted(glob.glob(f"{TOP}/crates/{crate}/must-fail/*.edit")):
        written = written_by(edit)
        if written and all(more(file, line) for file, line in written):
            return os.path.basename(edit)
    return "base"


def watch(path):
    """Keeps in a file what each process of the prover has spent, until this is stopped."""
    seen, kinds = {}, {}
    while True:
        for number in filter(str.isdigit, os.listdir("/proc")):
            try:
                found = looked_at(number)
                if found:
                    name, crate, folder, spent = found
                    kinds[name] = kinds.get(name) or kind_of(crate, folder)
                    seen[name] = (crate, kinds[name], spent)
            except OSError:
                # it has ended
                continue
        with open(f"{path}.new", "w") as text:
            json.dump(sorted(seen.values()), text)
        os.replace(f"{path}.new", path)
        time.sleep(2)


def table(path):
    spent = collections.Counter()
    for crate, kind, seconds in json.load(open(path)) if path else []:
        spent[crate, "proof" if kind == "proof" else "edits"] += seconds / 60
    shown = lambda minutes: f"{minutes:.1f}" if minutes else ""
    total = collections.Counter()
    print("| crate | lines of src, specs, proofs | minutes of its proof | edits | minutes of edits |")
    print("|---|---|---|---|---|")
    for crate in crates():
        lines = ", ".join(str(lines_of(crate, it)) for it in ("src", "specs", "proofs"))
        count = len(glob.glob(f"{TOP}/crates/{crate}/must-fail/*.edit"))
        proof, edits = spent[crate, "proof"], spent[crate, "edits"]
        total.update(proof=proof, edits=edits, count=count)
        print(f"| {crate} | {lines} | {shown(proof)} | {count or ''} | {shown(edits)} |")
    print(f"| all | | {shown(total['proof'])} | {total['count']} | {shown(total['edits'])} |")


def edits(path):
    for seconds, crate, kind in sorted(((it[2], it[0], it[1]) for it in json.load(open(path))), reverse=True):
        if kind != "proof":
            print(f"{seconds:6.0f} s  {crate}  {kind}")


if sys.argv[1:2] == ["watch"] and len(sys.argv) == 3:
    watch(sys.argv[2])
elif sys.argv[1:2] == ["table"] and len(sys.argv) <= 3:
    table(sys.argv[2] if len(sys.argv) == 3 else None)
elif sys.argv[1:2] == ["edits"] and len(sys.argv) == 3:
    edits(sys.argv[2])
else:
    sys.exit(__doc__)
