#!/usr/bin/env python3
"""Tests examples/client.py on the program: python3 bench/client/check.py [PROGRAM]"""
import contextlib
import io
import os
import sys
import tempfile

EXAMPLES = os.path.join(os.path.dirname(os.path.abspath(__file__)), "../../examples")
sys.path.insert(0, EXAMPLES)
import cart
from client import BUILT, Closed, Database, Refused, text

PROGRAM = sys.argv[1] if len(sys.argv) > 1 else BUILT
COUNTER = "k", "counter_pn"


def is_raised(error, call, *words):
    """What this call raises, which has to be such an error."""
    try:
        call(*words)
    except error as raised:
        return raised
    sys.exit("bench/client/check.py: %r raised no %s" % (words, error.__name__))


def tick(it, time):
    for part in 1, 2:
        it.ask("clock", "1.%d" % part, time)


def one_and_many():
    """A command with one reply, with several, and with none."""
    with Database(1, 2, program=PROGRAM) as it:
        assert it.one("session", "a", 1) == "session a 1"
        tick(it, 100)
        assert it.one("begin", "a") == "began a 1.1#101 [101]"
        tick(it, 200)
        for key in "kmnpqr":
            it.ask("update", "a", key, "counter_pn", "increment", 2)
        steps = it.ask("commit", "a")
        assert len(steps) > 2 and steps[-1] == "ended a", steps
        assert it.ask() == [] and it.ask("# nothing") == []
        tick(it, 300)
        it.ask("begin", "a")
        tick(it, 400)
        assert it.value("a", *COUNTER) == 2


def every_text():
    """Texts come back as they were given, whatever they hold."""
    texts = ["", " ", '"', "\\", "\n", "\r", "\0", "Zoë", "\U0001f6d2", "has txn", "x" * 256]
    with Database(1, 1, program=PROGRAM) as it:
        it.ask("session", text("no session"), 1)
        it.ask("clock", "1.1", 100)
        for key in texts:
            it.ask("begin", text("no session"))
            it.ask("update", text("no session"), text(key), "set_aw", "add", *map(text, texts))
            it.ask("commit", text("no session"))
        it.ask("begin", text("no session"))
        for key in texts:
            value = it.value(text("no session"), text(key), "set_aw")
            assert value == sorted(texts, key=str.encode), value


def refusals():
    """A refusal is raised with its text and with what came before it, and the next command is answered."""
    with Database(1, 2, program=PROGRAM) as it:
        assert str(is_raised(Refused, it.ask, "read", "a", *COUNTER)) == "no session"
        assert str(is_raised(Refused, it.ask, "what")) == "bad"
        assert it.one("session", "a", 1) == "session a 1"
        it.ask("crash", "1.2")
        refusal = is_raised(Refused, it.ask, "settle", "1.2")
        assert str(refusal) == "down 1.2" and len(refusal.replies) == 1
        assert it.close() == 1


def ends():
    """A program that isn't there or has ended is told, and so are a cluster that can't be and a folder in use."""
    assert "make play" in str(is_raised(Closed, lambda: Database(1, 1, program="/no/program")))
    assert str(is_raised(Refused, lambda: Database(9, 1, program=PROGRAM))) == "bad"
    with Database(1, 1, program=PROGRAM) as it:
        it.process.kill()
        assert "status -9" in str(is_raised(Closed, it.ask, "clock", "1.1", 1))
    with tempfile.TemporaryDirectory() as folder:
        with Database(1, 1, data=folder, program=PROGRAM) as it:
            assert it.close() == 0
        assert "status 7" in str(is_raised(Closed, lambda: Database(1, 1, data=folder, program=PROGRAM)))


def example():
    """The program that is told of in examples/README.md."""
    said = io.StringIO()
    with contextlib.redirect_stdout(said):
        cart.main(PROGRAM)
    seen = "sees ['bread', 'oat milk', 'tea']"
    assert said.getvalue() == "ana %s\nben %s\nrefused: has txn\nended with 0\n" % (seen, seen), said.getvalue()


for test in one_and_many, every_text, refusals, ends, example:
    test()
    print("bench/client/check.py: %s: passed" % test.__name__)
