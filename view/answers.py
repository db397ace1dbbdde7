"""Which replies answer which command: a script and its replies are walked together."""

import words as w
from due import has_steps, refusal_due
from model import Run
from notes import note

ANYWHERE = {"limit unbuilt"}
NEEDS_DISK = {"down", "limit log", "disk"}
MAY = {
    "bad": {"bad"},
    "cluster": {"cluster", "damaged", "disk"},
    "clock": {"now"} | NEEDS_DISK,
    "session": {"session", "limit sessions"},
    "move": {"moved"},
    "lose": {"lost"},
    "begin": {"began", "wait stable", "limit time"} | NEEDS_DISK,
    "read": {"value", "bad op", "down", "wait clock", "wait txn"},
    "update": {"updated", "bad op", "limit updates", "down", "wait clock", "wait txn"},
    "commit": set(),
    "abort": set(),
    "expire": {"aborted", "pending", "finished", "gone"} | NEEDS_DISK,
    "settle": {"settled", "aborted", "pending", "finished"} | NEEDS_DISK,
    "send": {"sent", "down", "limit messages"},
    "deliver": {"took", "dup", "gap"} | NEEDS_DISK,
    "drop": {"dropped"},
    "report": {"report", "down", "limit reports"},
    "hear": {"heard", "down"},
    "crash": {"crashed"},
    "fuse": {"fused"},
    "restart": {"restarted", "disk", "damaged", "limit log"},
}
STEPS = {
    "prepare": {"prepared", "wait clock", "limit time", "limit log", "down", "disk"},
    "decide": {"decided", "gone", "unsure", "down", "limit log"},
    "finish": {"finished", "gone", "down", "disk", "limit log"},
    "abort": {"aborted", "gone", "down", "disk", "limit log"},
}
STAYS = {
    "prepare": {"wait clock", "limit time", "limit log"},
    "decide": {"down", "limit log"},
    "finish": {"down", "disk", "limit log"},
    "abort": set(),
}
SETTLES = {"aborted", "pending", "finished"}


class Differs(Exception):
    """The script and the replies don't belong together; the text tells from which line on."""


class Walk:
    """A script's commands and its replies, walked side by side; the run grows with each reply."""

    def __init__(self, commands, replies):
        self.commands, self.replies, self.at, self.run = commands, replies, 0, Run()

    def answers(self):
        """Each command of the script with its replies."""
        for command in self.commands:
            before = self.at
            self.answer(command)
            yield command, self.replies[before : self.at]
        if self.at < len(self.replies):
            extra = self.replies[self.at]
            raise Differs(f"reply line {extra.row}, `{extra.text}`, answers no command: the script is at its end")

    def whole(self):
        """The run of the whole script."""
        for _ in self.answers():
            pass
        return self.run

    def answer(self, command):
        """One command and all replies to it."""
        name, args = command.name, command.args
        if name in ("commit", "abort") and has_steps(self.run.sessions.get(args["session"]), name):
            return self.commit(command)
        where = self.place_of(command)
        reply = self.take(command, MAY[name], where)
        while name == "settle" and reply.name in SETTLES:
            reply = self.take(command, MAY[name], where, first=False)
        if name == "cluster" and reply.name == "cluster":
            if (reply.get("sites"), reply.get("parts")) != (args["sites"], args["parts"]):
                self.differ(command, reply, {"cluster"})
        return None

    def take(self, command, may, where, first=True, txn=None):
        """The next reply, which must be one of these and speak of what the command names."""
        if self.at >= len(self.replies):
            raise Differs(f"script line {command.line}, `{command.text}`, has no reply: the replies are at their end")
        reply = self.replies[self.at]
        due = refusal_due(self.run, command) if first else None
        allowed = {due} if due else may
        if reply.name not in allowed | ANYWHERE or not self.fits(command, reply, where, txn):
            self.differ(command, reply, allowed)
        self.at += 1
        note(self.run, command, reply, where, first)
        return reply

    def differ(self, command, reply, may):
        """Tells which reply doesn't answer which command."""
        wanted = ", ".join(sorted(f"`{name} ..`" for name in may))
        raise Differs(
            f"reply line {reply.row}, `{reply.text}`, doesn't answer script line {command.line}, `{command.text}`: "
            f"due is one of {wanted}"
        )

    def fits(self, command, reply, where, txn):
        """Whether a reply speaks of the same session, object, partition, message and transaction."""
        args = command.args
        if command.name == "expire":
            txn = args["transaction"]
        same = [(args.get(what), reply.get(what)) for what in ("session", "object", "message", "report")]
        if command.name in ("session", "move", "send"):
            same.append((args["site"], reply.get("site")))
        same += [(where, reply.get("place")), (txn, reply.get("transaction"))]
        agree = all(one is None or other is None or one == other for one, other in same)
        vector = reply.get("vector")
        return agree and (vector is None or len(vector) == self.run.sites) and self.is_next(reply, where)

    def is_next(self, reply, where):
        """Whether what the reply names anew is named as the next of its row, and where it is made."""
        if reply.name == "began":
            return reply.get("transaction").startswith(f"{where}#")
        if reply.name == "wait stable":
            return reply.get("site") <= self.run.sites
        made = {"sent": f"m{len(self.run.messages) + 1}", "report": f"g{len(self.run.reports) + 1}"}
        return reply.name not in made or made[reply.name] in (reply.get("message"), reply.get("report"))

    def place_of(self, command):
        """The partition that a command is about, where it is known."""
        run, args, name = self.run, command.args, command.name
        session = run.sessions.get(args.get("session"))
        if name == "begin" and session:
            return args["place"] or w.Place(session.site, 1)
        if name in ("read", "update") and session and session.transaction and run.sites:
            return run.holder(session.transaction.place.site, args["object"])
        if name == "deliver" and args["message"] in run.messages:
            return run.messages[args["message"]].target
        return args.get("place")

    def commit(self, command):
        """The steps of a commit, each answered by one line, and its end."""
        session = self.run.sessions[command.args["session"]]
        transaction = session.transaction
        if command.name == "abort" and not session.is_aborting():
            session.left = [("abort", place) for place in sorted(transaction.votes)]
            self.give_up(transaction)
        elif session.left is None:
            session.left = first_steps(transaction)
        made, most = 0, command.args.get("steps")
        while session.left and (most is None or made < most):
            if not self.step(command, session, made == 0):
                return
            made += 1
        if not session.left:
            self.take(command, {"ended"}, None, first=made == 0)

    def step(self, command, session, first):
        """One step; whether the command goes on behind it."""
        act, place = session.left[0]
        transaction = session.transaction
        reply = self.take(command, STEPS[act], place, first, transaction.id)
        if reply.name in STAYS[act] or reply.name == "limit unbuilt":
            return False
        session.left = self.steps_after(act, reply.name, transaction, session.left[1:])
        return True

    def steps_after(self, act, name, transaction, left):
        """What is left after this answer to a step."""
        voted = [("abort", place) for place in transaction.participants if place in transaction.votes]
        if act == "prepare" and name != "prepared":
            self.give_up(transaction)
            return voted
        if act == "decide" and name == "decided":
            return [("finish", place) for place in transaction.participants[1:]]
        if act == "decide" and name == "gone":
            self.give_up(transaction)
            return voted[1:]
        return [] if act == "decide" else left

    def give_up(self, transaction):
        """The transaction will not be committed by its session."""
        if transaction.status == "open":
            transaction.status = "aborted"


def first_steps(transaction):
    """All steps of a commit, were each answered well; the finishes come with the decision."""
    prepares = [("prepare", place) for place in transaction.participants]
    return prepares + ([("decide", transaction.participants[0])] if prepares else [])
