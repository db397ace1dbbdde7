"""The commands of a script."""

from dataclasses import dataclass, field

import words as w


@dataclass
class Command:
    """One command: its line's number and text, its name, and what it names."""

    line: int
    text: str
    name: str
    args: dict = field(default_factory=dict)


class Words:
    """The words of a line, taken one after another."""

    def __init__(self, spelled):
        self.rest = list(spelled)

    def take(self, form):
        """The next word, which has this form."""
        if not self.rest:
            raise w.Bad("a word is missing")
        return form(self.rest.pop(0))

    def maybe(self, form):
        """The next word, or None at the end."""
        return self.take(form) if self.rest else None

    def object(self):
        """Key, kind, and maybe a bucket behind an @."""
        key, kind = self.take(w.text), self.take(w.kind)
        if self.rest and self.rest[0].startswith("@"):
            return w.Object(key, kind, w.text(self.rest.pop(0)[1:]))
        return w.Object(key, kind, "")

    def end(self):
        """Nothing may be left."""
        if self.rest:
            raise w.Bad(f"{self.rest[0]} is one word too many")


def commands_of(script):
    """The commands of these bytes: every line with a word that is no comment; name `bad` where it isn't in the
    grammar."""
    numbered = ((at, command_at(at, line)) for at, line in enumerate(w.lines_of(script), 1))
    return [command for _, command in numbered if command]


def headings_of(script):
    """The comments of a script: each with the number of the line behind it, lines of comments in a row as one text."""
    found, last = [], 0
    for at, line in enumerate(w.lines_of(script), 1):
        text = line.decode("utf-8", "replace").strip(" ")
        if not text.startswith("#"):
            continue
        text = text.lstrip("#").strip()
        if found and last == at - 1:
            text = f"{found.pop()[1]} {text}"
        found.append([at + 1, text])
        last = at
    return found


def command_at(at, line):
    """The command of a line, or None where the line is blank or a comment."""
    shown = line[:200].decode("utf-8", "replace").strip(" ")
    try:
        text = w.decoded(line)
        if text.strip(" ") == "" or text.lstrip(" ").startswith("#"):
            return None
        name, args = read(Words(w.words_of(text)))
    except w.Bad:
        return Command(at, shown, "bad")
    return Command(at, shown, name, args)


def read(line):
    """The name of a command and what it names."""
    name = line.take(str)
    if name not in FORMS:
        raise w.Bad(f"{name} is no command")
    args = FORMS[name](line)
    line.end()
    return name, args


def each(**forms):
    """A command whose words have these forms."""
    return lambda line: {name: line.take(form) for name, form in forms.items()}


def begin(line):
    """begin S [P] [stable]"""
    session, stable = line.take(w.text), line.rest[-1:] == ["stable"]
    if stable:
        line.rest.pop()
    return {"session": session, "place": line.maybe(w.place), "stable": stable}


def on_object(line):
    """read S OBJECT"""
    return {"session": line.take(w.text), "object": line.object()}


def update(line):
    """update S OBJECT path act"""
    args = on_object(line)
    spelled = " ".join(line.rest)
    while line.rest and line.rest[0] == "in":
        line.take(str)
        line.take(w.text)
        line.take(w.kind)
    act(line)
    return {**args, "act": spelled}


def act(line):
    """What an update does, at the end of its path."""
    name = line.take(str)
    if name in ("increment", "decrement"):
        line.take(w.integer)
    elif name in ("add", "remove"):
        texts(line)
    elif name == "assign":
        line.take(w.text)
    elif name == "drop":
        line.take(w.text)
        line.take(w.kind)
    elif name not in ("enable", "disable", "reset"):
        raise w.Bad(f"{name} is no act")


def texts(line):
    """One or more texts."""
    line.take(w.text)
    while line.rest:
        line.take(w.text)


def commit(line):
    """commit S [k]"""
    return {"session": line.take(w.text), "steps": line.maybe(lambda word: w.number(word, 1, 2**48 - 1))}


def send(line):
    """send P SITE [TIME]"""
    return {"place": line.take(w.place), "site": line.take(w.site), "time": line.maybe(w.time)}


def either(word):
    """The name of a message or of a report."""
    return w.report(word) if word.startswith("g") else w.message(word)


FORMS = {
    "cluster": each(sites=w.site, parts=lambda word: w.number(word, 1, 16)),
    "clock": each(place=w.place, time=w.small),
    "session": each(session=w.text, site=w.site),
    "move": each(session=w.text, site=w.site),
    "lose": each(session=w.text),
    "begin": begin,
    "read": on_object,
    "update": update,
    "commit": commit,
    "abort": each(session=w.text),
    "expire": each(place=w.place, transaction=w.transaction),
    "settle": each(place=w.place),
    "send": send,
    "deliver": each(message=w.message),
    "drop": each(message=either),
    "report": each(place=w.place),
    "hear": each(report=w.report, place=w.place),
    "crash": each(place=w.place),
    "fuse": each(place=w.place, call=lambda word: w.number(word, 1, 2**48 - 1), bytes=w.small),
    "restart": each(place=w.place),
}
