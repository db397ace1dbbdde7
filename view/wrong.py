#!/usr/bin/env python3
"""Says what went wrong in a run: view/wrong.py SCRIPT REPLIES

It names each line that isn't in the grammar, each wait that was never sent again with what came of its transaction, and
every other refusal. The status is 0 where nothing did, 1 where something did, and 2 where a file can't be read or the
two don't belong together.
"""

import sys
from dataclasses import dataclass
from pathlib import Path

from answers import Differs, Walk
from replies import replies_of
from script import commands_of

WAITS = {"wait clock", "wait txn", "wait stable"}
REFUSED = ("bad", "no ", "has ", "limit ", "down ", "gone ", "gap ", "disk ", "unsure ", "damaged ")


@dataclass
class Answer:
    """A command and its replies."""

    command: object
    replies: list

    def shown(self):
        """The line as the script has it, and its last reply."""
        return f"line {self.command.line}: `{self.command.text}`: {self.replies[-1].text}"


def waits(answer):
    """Whether the command ended with a wait."""
    return answer.replies[-1].name in WAITS


def comes_of(answer, later):
    """What came of a wait: nothing where the line was sent again, else what became of its transaction."""
    command, session = answer.command, answer.command.args.get("session")
    for other in later:
        if other.command.args.get("session") != session:
            continue
        if other.command.text == command.text:
            return None
        if command.name == "commit" and other.command.name in ("commit", "abort"):
            return None
        last = other.replies[-1]
        if other.command.name == "commit" and last.name == "ended":
            return f"line {other.command.line} ended its transaction without it"
        if other.command.name == "abort" and last.name == "ended":
            return f"line {other.command.line} gave its transaction up"
        if last.name == "lost":
            return f"line {other.command.line} lost its session"
    return "its transaction is open at the end" if command.name != "begin" else "it began nothing"


def wrong(answers):
    """What went wrong, line by line."""
    for at, answer in enumerate(answers):
        last = answer.replies[-1]
        if last.name == "bad":
            yield f"line {answer.command.line}: `{answer.command.text}` isn't in the grammar"
        elif waits(answer):
            fate = comes_of(answer, answers[at + 1 :])
            if fate:
                yield f"{answer.shown()}: never sent again; {fate}"
        elif any(reply.text.startswith(REFUSED) for reply in answer.replies):
            refused = next(reply for reply in answer.replies if reply.text.startswith(REFUSED))
            yield f"line {answer.command.line}: `{answer.command.text}`: {refused.text}"


def main():
    """Tells, and ends with the status."""
    try:
        script, replies = (Path(name).read_bytes() for name in sys.argv[1:])
    except (OSError, ValueError) as error:
        print(f"view/wrong.py: {error}: SCRIPT REPLIES are wanted", file=sys.stderr)
        return 2
    try:
        walked = Walk(commands_of(script), replies_of(replies)).answers()
        lines = list(wrong([Answer(*both) for both in walked]))
    except Differs as differs:
        print(f"view/wrong.py: the script and the replies don't belong together: {differs}", file=sys.stderr)
        return 2
    for line in lines:
        print(line)
    print(f"{len(lines) or 'no'} line{'' if len(lines) == 1 else 's'} went wrong")
    return 1 if lines else 0


if __name__ == "__main__":
    sys.exit(main())
