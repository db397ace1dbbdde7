"""A client over pipes: a program imports it, opens a database of its own, asks, and closes.

    from client import Database, Refused
    with Database(sites=2, parts=1) as shop:
        shop.ask("session", "ana", 1)
        print(shop.one("begin", "ana"))

Commands go to the program as frames, and its replies come back as frames of JSON objects, so that texts may hold
anything. The replies to a command end where those to a mark begin: a second `cluster`, which is always refused.
"""
import json
import os
import subprocess

BUILT = os.path.join(os.path.dirname(os.path.abspath(__file__)), "../crates/dc_shell/out/dc_shell")
MARK = b"cluster 1 1"
REFUSALS = ("bad", "no", "has", "limit", "down", "wait", "gone", "disk", "unsure", "damaged", "gap")


class Refused(Exception):
    """A command was answered with a refusal, whose text this is; `replies` has all that it was answered with."""

    def __init__(self, text, replies):
        super().__init__(text)
        self.replies = replies


class Closed(Exception):
    """The program isn't there, or has ended: the text tells which, and with what."""


def text(word):
    """A text as a script spells it, whatever it holds. What a reply shows may be given back as it is."""
    return json.dumps(word)


class Database:
    """A cluster in a process of its own. It lives as long as this does, or in files of the folder `data`."""

    def __init__(self, sites, parts, data=None, program=BUILT):
        words = [program, "play", "--frames", "--json"] + ([] if data is None else ["--data", data])
        pipes = dict.fromkeys(("stdin", "stdout", "stderr"), subprocess.PIPE)
        try:
            self.process = subprocess.Popen(words, **pipes)
        except OSError as error:
            raise Closed("%s: %s; `make play` proves and makes it" % (program, error.strerror)) from error
        self.lines = 0
        try:
            self.ask("cluster", sites, parts)
        except Refused:
            self.close()
            raise

    def ask(self, *words):
        """The replies to a command, each the text of its line. Its words are texts as `text` spells them, or numbers.

        Refused where one of them is a refusal, Closed where the program has ended.
        """
        return [reply["reply"] for reply in self.replies(*words)]

    def one(self, *words):
        """The reply to a command that has one."""
        (reply,) = self.ask(*words)
        return reply

    def value(self, *words):
        """The value that a `read` shows, as JSON has it."""
        (reply,) = self.replies("read", *words)
        return reply["value"]

    def replies(self, *words):
        """The replies to a command, each an object with `line` and `reply`, and with `value` where it shows one."""
        frames = " ".join(str(word) for word in words).encode(), MARK
        self.lines += 2
        try:
            self.process.stdin.write(b"".join(len(frame).to_bytes(2, "big") + frame for frame in frames))
            self.process.stdin.flush()
            # What answers the mark bears the number of its line.
            found = list(iter(self.receive, None))
        except (BrokenPipeError, EOFError) as error:
            said = self.process.stderr.read().decode(errors="replace").strip()
            raise Closed("the program ended with status %d: %s" % (self.process.wait(), said)) from error
        for reply in found:
            if reply["reply"].split(" ")[0] in REFUSALS:
                raise Refused(reply["reply"], found)
        return found

    def receive(self):
        """The next reply to the command, if there is one more."""
        reply = json.loads(self.read(int.from_bytes(self.read(4), "big")))
        return reply if reply["line"] < self.lines else None

    def read(self, size):
        read = self.process.stdout.read(size)
        if len(read) < size:
            raise EOFError
        return read

    def close(self):
        """Ends the program, and tells its status: 0, or 1 where a line was bad, or as docs/SCRIPT.md says."""
        for pipe in self.process.stdin, self.process.stdout, self.process.stderr:
            pipe.close()
        return self.process.wait()

    def __enter__(self):
        return self

    def __exit__(self, *_):
        self.close()
