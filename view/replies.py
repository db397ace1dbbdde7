"""The lines of replies, read."""

import json
from dataclasses import dataclass, field

import words as w


@dataclass
class Reply:
    """One reply: its number from 1, its text, its name (`wait clock` is one name), and what it tells."""

    row: int
    text: str
    name: str
    tells: dict = field(default_factory=dict)

    def get(self, what):
        """What it tells of this, or None."""
        return self.tells.get(what)


class Line:
    """The words of a reply, taken one after another; the last may be everything that is left."""

    def __init__(self, text):
        self.text, self.at = text, 0

    def take(self, form):
        """The next word, which has this form."""
        if self.is_done():
            raise w.Bad("the reply is cut off")
        end = w.end_of_word(self.text, self.at)
        word, self.at = self.text[self.at:end], end + 1
        return form(word)

    def is_done(self):
        """Whether no word is left."""
        return self.at >= len(self.text)

    def rest(self):
        """All that is left."""
        rest, self.at = self.text[self.at:], len(self.text)
        return rest

    def has(self, word):
        """Whether this word is next; then it is taken."""
        found = self.text[self.at:].split(" ", 1)[0] == word
        if found:
            self.at += len(word) + 1
        return found

    def object(self):
        """Key, kind, and maybe a bucket behind an @."""
        key, kind = self.take(w.text), self.take(w.kind)
        named = not self.is_done() and self.text[self.at] == "@"
        return w.Object(key, kind, self.take(lambda word: w.text(word[1:])) if named else "")


def replies_of(data):
    """The replies of these bytes, in order; those that are written as JSON too."""
    return [reply_of(row, text_in(line)) for row, line in enumerate(w.lines_of(data), 1)]


def text_in(line):
    """The text of a reply, also where it stands in a JSON object."""
    if not line.startswith(b"{"):
        return line
    try:
        return json.loads(line)["reply"].encode()
    except (ValueError, KeyError, AttributeError):
        return line


def reply_of(row, line):
    """One reply; its name is None where no reply is written so."""
    shown = line.decode("utf-8", "replace")
    try:
        name, tells = parsed(Line(shown))
    except w.Bad:
        return Reply(row, shown, None)
    return Reply(row, shown, name, tells)


def parsed(line):
    """The name of a reply and what it tells."""
    name = line.take(str)
    if name in ("no", "has", "wait", "limit") or (name == "bad" and not line.is_done()):
        name = f"{name} {line.take(str)}"
    if name not in FORMS:
        raise w.Bad(f"{name} is no reply")
    tells = FORMS[name](line)
    if not line.is_done():
        raise w.Bad("the reply is too long")
    return name, tells


def each(**forms):
    """A reply whose words have these forms."""
    return lambda line: {name: line.take(form) for name, form in forms.items()}


def value(line):
    """value S OBJECT value"""
    return {"session": line.take(w.text), "object": line.object(), "value": line.rest()}


def updated(line):
    """updated S OBJECT, and maybe a stamp"""
    tells = {"session": line.take(w.text), "object": line.object()}
    if line.has("stamp"):
        tells["stamp"] = line.take(w.time)
    return tells


def stretch(word):
    """(lo,hi] of a message"""
    if not (word.startswith("(") and word.endswith("]")):
        raise w.Bad(f"{word} is no stretch")
    low, _, high = word[1:-1].partition(",")
    return w.time(low), w.time(high)


def restarted(line):
    """restarted P now [bounds], maybe a decision, and what is pending"""
    tells = {"place": line.take(w.place), "time": line.take(w.time), "vector": line.take(w.vector), "pending": []}
    if line.has("decided"):
        tells["decided"] = line.take(w.transaction)
    while line.has("pending"):
        tells["pending"].append((line.take(w.transaction), line.take(w.time)))
    return tells


def either(word):
    """The name of a message or of a report."""
    return w.report(word) if word.startswith("g") else w.message(word)


AT_ONE = each(place=w.place)
OF_SESSION = each(session=w.text)
OF_ONE = each(place=w.place, transaction=w.transaction)
OF_MESSAGE = each(message=w.message, time=w.time)
SIMPLE = each()
LIMIT = each(time=w.time)

FORMS = {
    "cluster": each(sites=w.site, parts=w.small),
    "now": each(place=w.place, time=w.time),
    "session": each(session=w.text, site=w.site),
    "moved": each(session=w.text, site=w.site),
    "lost": OF_SESSION,
    "began": each(session=w.text, transaction=w.transaction, vector=w.vector),
    "value": value,
    "updated": updated,
    "prepared": each(place=w.place, transaction=w.transaction, time=w.time),
    "decided": each(place=w.place, transaction=w.transaction, vector=w.vector),
    "finished": OF_ONE,
    "aborted": OF_ONE,
    "pending": OF_ONE,
    "gone": OF_ONE,
    "unsure": each(transaction=w.transaction),
    "ended": OF_SESSION,
    "settled": AT_ONE,
    "sent": each(message=w.message, place=w.place, site=w.site, stretch=stretch, count=w.small),
    "took": OF_MESSAGE,
    "dup": OF_MESSAGE,
    "gap": OF_MESSAGE,
    "dropped": each(message=either),
    "report": each(report=w.report, place=w.place, vector=w.vector),
    "heard": each(report=w.report, place=w.place, vector=w.vector),
    "crashed": AT_ONE,
    "fused": each(place=w.place, call=w.small, bytes=w.small),
    "restarted": restarted,
    "down": AT_ONE,
    "disk": AT_ONE,
    "damaged": each(place=w.place, at=w.time),
    "wait clock": each(place=w.place, time=w.time),
    "wait txn": each(place=w.place, other=w.transaction, time=w.time),
    "wait stable": each(site=w.site, time=w.time),
    "bad": SIMPLE,
    "bad op": SIMPLE,
    **{f"no {what}": SIMPLE for what in ("cluster", "part", "session", "txn", "message")},
    **{f"has {what}": SIMPLE for what in ("cluster", "session", "txn")},
    **{f"limit {what}": LIMIT for what in ("unbuilt", "sessions", "updates", "messages", "reports", "time", "log")},
}
