#!/usr/bin/env python3
"""Draws a run: reads a script and its replies, and writes one page that opens by itself.

view/run.py SCRIPT REPLIES [-o FILE.html]    the page; beside the replies, if no file is named
view/run.py SCRIPT REPLIES -o FILE.svg       the picture alone; with --lines A-B of these script lines
view/run.py SCRIPT REPLIES -o FILE.txt       as text, each command beside its replies

The status is 1 where the script and the replies don't belong together, and 2 where a file can't be read or written.
"""

import argparse
import sys
from pathlib import Path

import page
from answers import Differs, Walk
from layout import Layout
from replies import replies_of
from script import commands_of, headings_of
from words import lines_of

# No command's column is wider: a longer one pushes its reply to the right.
WIDEST = 70


def drawn(words):
    """The page or picture that these words ask for."""
    script, replies = Path(words.script).read_bytes(), Path(words.replies).read_bytes()
    walk = Walk(commands_of(script), replies_of(replies))
    if words.output.suffix == ".txt":
        return beside(script, walk)
    run = walk.whole()
    layout = Layout(run).whole()
    if words.output.suffix == ".svg":
        return page.picture(run, layout, *words.lines)
    return page.page(Path(words.script).name, run, layout, headings_of(script))


def beside(script, walk):
    """The lines of a script, comments and blank ones too, each with its replies to the right."""
    lines = [line.decode("utf-8", "replace") for line in lines_of(script)]
    replies = {command.line: [reply.text for reply in found] for command, found in walk.answers()}
    width = min(WIDEST, max((len(lines[at - 1]) for at in replies), default=0))
    out = []
    for at, line in enumerate(lines, 1):
        first, *others = replies.get(at) or [""]
        out.append(f"{line:{width}}  {first}".rstrip())
        out += [f"{'':{width}}  {other}" for other in others]
    return "".join(line + "\n" for line in out)


def stretch(text):
    """Two line numbers with a dash between."""
    first, _, last = text.partition("-")
    return int(first), int(last)


def words_of_process():
    """What the process was asked for."""
    parser = argparse.ArgumentParser(prog="view/run.py", description="Draws a script and its replies as one page.")
    parser.add_argument("script")
    parser.add_argument("replies")
    parser.add_argument("-o", "--output", type=Path, help="a file that ends in .html, .svg or .txt")
    parser.add_argument("--lines", type=stretch, default=(1, sys.maxsize), help="A-B: script lines of a .svg")
    words = parser.parse_args()
    words.output = words.output or Path(words.replies).with_suffix(".html")
    return words


def main():
    """Draws, and ends with the status."""
    words = words_of_process()
    try:
        words.output.write_text(drawn(words), encoding="utf-8")
    except Differs as differs:
        print(f"view/run.py: the script and the replies don't belong together: {differs}", file=sys.stderr)
        return 1
    except OSError as error:
        print(f"view/run.py: {error}", file=sys.stderr)
        return 2
    return 0


if __name__ == "__main__":
    sys.exit(main())
