"""The words of a line, and the forms that a word may have (docs/SCRIPT.md)."""

import json
import re
from typing import NamedTuple

LONGEST_LINE = 4096
LONGEST_TEXT = 256
KINDS = frozenset(
    "counter_pn counter_fat set_go set_aw set_rw flag_ew flag_dw register_lww register_mv map_go map_rr".split()
)
BARE = re.compile(r"[A-Za-z0-9_.-]+\Z")
DECIMAL = re.compile(r"(0|[1-9][0-9]*)\Z")
QUOTED = re.compile(r'"(?:[^"\\]|\\.)*"', re.DOTALL)


class Bad(Exception):
    """A line, a word or a reply that isn't in the grammar."""


class Place(NamedTuple):
    """A partition: its site and its number there."""

    site: int
    part: int

    def __str__(self):
        return f"{self.site}.{self.part}"


class Object(NamedTuple):
    """An object's names."""

    key: str
    kind: str
    bucket: str

    def __str__(self):
        shown = f"{shown_text(self.key)} {self.kind}"
        return shown + (f" @{shown_text(self.bucket)}" if self.bucket else "")


def lines_of(script):
    """The lines of these bytes, without their ends; the end of the script right after a line feed adds none."""
    lines = script.split(b"\n")
    if lines[-1] == b"":
        lines.pop()
    return [line[:-1] if line.endswith(b"\r") else line for line in lines]


def decoded(line):
    """The text of a line, or Bad where it is too long or isn't UTF-8."""
    if len(line) > LONGEST_LINE:
        raise Bad("the line is too long")
    try:
        return line.decode("utf-8")
    except UnicodeDecodeError as error:
        raise Bad("the line isn't UTF-8") from error


def words_of(line):
    """The words of a line as they are spelled, quotes kept."""
    words, at = [], 0
    while at < len(line):
        if line[at] == " ":
            at += 1
            continue
        end = end_of_word(line, at)
        words.append(line[at:end])
        at = end
    return words


def end_of_word(line, at):
    """Where the word that begins here ends; one may be quoted, also behind an @."""
    start = at + 1 if line.startswith('@"', at) else at
    if line[start] == '"':
        match = QUOTED.match(line, start)
        if not match or line[match.end():match.end() + 1] not in ("", " "):
            raise Bad("a quoted text has no end")
        return match.end()
    end = line.find(" ", at)
    return len(line) if end < 0 else end


def text(word):
    """The text that a bare or quoted word stands for."""
    stands_for = unquoted(word) if word.startswith('"') else word
    if not word.startswith('"') and not BARE.match(word):
        raise Bad(f"{word} is no text")
    if len(stands_for.encode("utf-8")) > LONGEST_TEXT:
        raise Bad("a text is too long")
    return stands_for


def unquoted(word):
    """What a JSON string stands for; a lone surrogate is refused."""
    try:
        stands_for = json.loads(word)
        stands_for.encode("utf-8")
    except ValueError as error:
        raise Bad(f"{word} is no JSON string") from error
    return stands_for


def shown_text(stands_for):
    """A text as replies print it: bare where it may be."""
    return stands_for if BARE.match(stands_for) else json.dumps(stands_for, ensure_ascii=False)


def number(word, least, most):
    """A whole number without a leading zero, within these bounds."""
    if not DECIMAL.match(word) or not least <= int(word) <= most:
        raise Bad(f"{word} is no number from {least} to {most}")
    return int(word)


def small(word):
    """A NUM: below 2^48."""
    return number(word, 0, 2**48 - 1)


def time(word):
    """A TIME: at most 2^62."""
    return number(word, 0, 2**62)


def integer(word):
    """An INT: of 32 bits, with a sign where it is below zero."""
    if word.startswith("-"):
        return -number(word[1:], 1, 2**31)
    return number(word, 0, 2**31 - 1)


def site(word):
    """A SITE: from 1 to 8."""
    return number(word, 1, 8)


def place(word):
    """A P: site and partition with a dot between."""
    first, dot, second = word.partition(".")
    if not dot:
        raise Bad(f"{word} is no partition")
    return Place(site(first), number(second, 1, 16))


def transaction(word):
    """A T: the partition where it began, and its time; it is kept as it is spelled."""
    where, mark, drawn = word.partition("#")
    if not mark:
        raise Bad(f"{word} is no transaction")
    place(where)
    time(drawn)
    return word


def message(word):
    """The name of a message, as m5."""
    return named(word, "m")


def report(word):
    """The name of a report, as g5."""
    return named(word, "g")


def named(word, letter):
    """A letter and a number."""
    if not word.startswith(letter):
        raise Bad(f"{word} is none of {letter}1, {letter}2, ..")
    small(word[1:])
    return word


def kind(word):
    """The name of a kind."""
    if word not in KINDS:
        raise Bad(f"{word} is no kind")
    return word


def vector(word):
    """A vector as replies write it: its entries in the order of the sites."""
    if not (word.startswith("[") and word.endswith("]")):
        raise Bad(f"{word} is no vector")
    return [time(entry) for entry in word[1:-1].split(",")]
