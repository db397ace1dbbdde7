#!/usr/bin/env python3
"""Whether the gate plays each example: its script and its replies stand in the stored run of script_table.

    python3 examples/stored.py           tells which don't, and then ends with 1
    python3 examples/stored.py --write   puts them there
"""
import glob
import os
import re
import sys

HERE = os.path.dirname(os.path.abspath(__file__))
TABLE = os.path.join(HERE, "..", "crates", "script_table")


def read(path):
    with open(path, encoding="utf-8", newline="") as file:
        return file.read()


def places(replies):
    """The partitions of the last cluster, site by site."""
    made = re.findall(r"^cluster (\d+) (\d+)$", replies, re.M)
    if not made:
        return []
    sites, parts = map(int, made[-1])
    return [f"{site}.{part}" for site in range(1, sites + 1) for part in range(1, parts + 1)]


def case_of(path):
    """An example as script_table reads it, and what it is to print of it."""
    name = os.path.basename(path)[: -len(".script")]
    script, replies = read(path), read(path[: -len("script")] + "replies")
    status = 1 if re.search(r"^bad$", replies, re.M) else 0
    back = "".join(f"back {place}\n" for place in places(replies))
    return f"== plain\n# examples/{name}\n{script}", f"== plain\n{replies}ends with {status}\n{back}"


def main():
    paths = sorted(path for path in glob.glob(os.path.join(HERE, "*.script"))
                   if os.path.exists(path[: -len("script")] + "replies"))
    stdin, stdout = (read(os.path.join(TABLE, name)) for name in ("stdin", "stdout"))
    missing = []
    for path in paths:
        script, replies = case_of(path)
        if script not in stdin or replies not in stdout:
            missing.append(path)
            stdin, stdout = stdin + script, stdout + replies
    if "--write" in sys.argv[1:]:
        for name, text in (("stdin", stdin), ("stdout", stdout)):
            with open(os.path.join(TABLE, name), "w", encoding="utf-8", newline="") as file:
                file.write(text)
        return 0
    for path in missing:
        print(f"{os.path.relpath(path)}: not in the stored run of script_table, or not so", file=sys.stderr)
    return 1 if missing else 0


if __name__ == "__main__":
    sys.exit(main())
