"""What each reply adds to a run."""

import words as w
from model import Access, Event, Link, Message, Report, Session, Transaction, joined

MOVES = {"now", "began", "prepared", "decided", "finished", "aborted", "took", "heard", "restarted"}


def note(run, command, reply, where, first):
    """Adds a reply to a run; `where` is the partition that the command is about, if it is about one."""
    event = Event(reply.row, command.line, command.text, reply.text, reply.name, first=first)
    place = reply.get("place") or where
    event.place = place if place in run.partitions else None
    named = reply.get("session") or command.args.get("session")
    event.session = named if named in run.sessions else None
    open_one = run.sessions[named].transaction if event.session is not None else None
    event.transaction = reply.get("transaction") or (open_one.id if open_one else None)
    run.events.append(event)
    Notes(run, command, reply, event).take()


class Notes:
    """What one reply changes in a run."""

    def __init__(self, run, command, reply, event):
        self.run, self.command, self.reply, self.event = run, command, reply, event
        self.args, self.tells = command.args, reply.tells
        self.here = run.partitions.get(event.place)

    def take(self):
        """Changes the run by this reply."""
        name = self.reply.name.replace(" ", "_")
        getattr(self, f"on_{name}", lambda: None)()
        if self.command.name in ("read", "update") and self.event.transaction:
            self.access()
        if self.here is None:
            self.here = self.run.partitions.get(self.event.place)
        if self.here:
            self.event.clock = self.here.clock
            self.resolve()

    def transaction(self):
        """The transaction that the reply speaks of."""
        return self.run.transactions.get(self.event.transaction)

    def tick(self, time):
        """The clock shows this time."""
        self.here.clock = max(self.here.clock, time)

    def link(self, to_row, to_place=None):
        """Joins this reply to an earlier one."""
        if to_row is not None and self.event.place:
            name = "link waits" if self.reply.name.startswith("wait ") else "link rests"
            self.run.links.append(Link(self.event.row, self.event.place, to_row, to_place or self.event.place, name))

    def wait_for(self, target, is_due):
        """This reply waits until the partition has come so far."""
        self.run.waits.append((self.event, self.reply.name, target))
        self.run.waiting[self.event.place].append((self.event, is_due))

    def resolve(self):
        """Joins the waits that this reply ends to it."""
        if self.reply.name not in MOVES or not self.run.waiting[self.event.place]:
            return
        waiting = [(wait, is_due, is_due()) for wait, is_due in self.run.waiting[self.event.place]]
        self.run.waiting[self.event.place] = [(wait, is_due) for wait, is_due, is_over in waiting if not is_over]
        for wait in (wait for wait, _, is_over in waiting if is_over):
            self.run.links.append(Link(wait.row, wait.place, self.event.row, self.event.place, "link waits"))

    def access(self):
        """A read or an update, done or refused."""
        transaction = self.transaction()
        name = self.reply.name
        shows = self.tells.get("value", name if name != "updated" else "")
        made = Access(self.event.row, transaction.id, self.args["object"], self.event.place, shows)
        if self.command.name == "read":
            transaction.reads.append(made)
        elif name == "updated":
            made.shows = self.args["act"]
            transaction.updates.append(made)
            transaction.participants = sorted({update.place for update in transaction.updates})

    def on_cluster(self):
        self.run.make(self.tells["sites"], self.tells["parts"])

    def on_bad(self):
        self.run.bad.append(self.command.line)

    def on_now(self):
        self.tick(self.tells["time"])

    def on_session(self):
        name = self.tells["session"]
        made = Session(name, self.tells["site"], self.run.colour(name), [0] * self.run.sites)
        self.run.sessions[name] = made
        self.event.session = name

    def on_moved(self):
        self.run.sessions[self.tells["session"]].site = self.tells["site"]

    def on_lost(self):
        session = self.run.sessions.pop(self.tells["session"], None)
        if session and session.transaction:
            session.transaction.ended = self.event.row

    def on_began(self):
        tells, session = self.tells, self.run.sessions[self.tells["session"]]
        place = w.place(tells["transaction"].split("#")[0])
        made = Transaction(tells["transaction"], session.name, place, self.event.row, tells["vector"])
        self.run.transactions[made.id] = session.transaction = made
        session.depends, session.left = joined(session.depends, made.snapshot), None
        self.tick(int(made.id.split("#")[1]))

    def on_prepared(self):
        self.tick(self.tells["time"])
        transaction = self.transaction()
        transaction.votes[self.event.place] = self.tells["time"]
        self.here.votes[transaction.id] = self.tells["time"]
        transaction.steps[self.event.place] = self.event.row

    def on_decided(self):
        transaction, vector = self.transaction(), self.tells["vector"]
        transaction.decide(vector)
        self.here.votes.pop(transaction.id, None)
        session = self.run.sessions[transaction.session]
        session.depends = joined(session.depends, vector)

    def on_finished(self):
        self.here.votes.pop(self.event.transaction, None)
        if self.transaction():
            self.transaction().decide()

    def on_aborted(self):
        transaction = self.transaction()
        self.run.aborted[self.event.transaction, self.event.place] = self.event.row
        self.here.votes.pop(self.event.transaction, None)
        if transaction and transaction.status != "committed":
            transaction.status = "aborted"

    def on_unsure(self):
        self.transaction().status = "unsure"
        self.fails()

    def on_ended(self):
        session = self.run.sessions[self.tells["session"]]
        transaction, session.transaction, session.left = session.transaction, None, None
        transaction.ended = self.event.row
        self.event.place = transaction.place
        if transaction.status == "open":
            transaction.status = "committed" if self.command.name == "commit" else "aborted"

    def on_sent(self):
        tells = self.tells
        target = w.Place(tells["site"], tells["place"].part)
        self.run.messages[tells["message"]] = Message(tells["message"], tells["place"], target, self.event.row)

    def on_took(self):
        message = self.ends()
        self.here.bounds[message.place.site - 1] = self.tells["time"]

    def on_dup(self):
        self.ends()

    def on_gap(self):
        self.ends()

    def ends(self):
        """The message ends here."""
        message = self.run.messages[self.tells["message"]]
        message.ends.append(self.event)
        return message

    def on_dropped(self):
        kept = {**self.run.messages, **self.run.reports}
        dropped = kept.get(self.tells["message"])
        if dropped:
            dropped.dropped = self.event.row
            self.event.place = dropped.place

    def on_report(self):
        tells = self.tells
        made = Report(tells["report"], tells["place"], self.event.row, tells["vector"])
        self.run.reports[made.name] = made

    def on_heard(self):
        report = self.run.reports[self.tells["report"]]
        report.heard.append(self.event)
        known = self.here.heard.get(report.place, report.vector)
        self.here.heard[report.place] = joined(known, report.vector)

    def on_crashed(self):
        self.goes_down()

    def goes_down(self):
        """The partition is down from here on."""
        if self.here and self.here.down is None:
            self.here.down = self.event.row

    def fails(self):
        """The disk failed: the partition is down, by its fuse where it has one."""
        if self.here:
            self.link(self.here.fuse)
        self.goes_down()

    def on_disk(self):
        self.fails()

    def on_damaged(self):
        self.goes_down()

    def on_fused(self):
        self.here.fuse = self.event.row

    def on_restarted(self):
        here, tells = self.here, self.tells
        here.downs.append((here.down or self.event.row, self.event.row))
        here.clock, here.bounds, here.heard, here.down = tells["time"], list(tells["vector"]), {}, None
        here.votes = dict(tells["pending"])
        decided = self.run.transactions.get(tells.get("decided"))
        if decided and decided.status != "committed":
            decided.decide()

    def on_down(self):
        self.link(self.here.down if self.here else None)

    def on_gone(self):
        self.link(self.run.aborted.get((self.event.transaction, self.event.place)))

    def on_no_message(self):
        name = self.args.get("message") or self.args.get("report")
        kept = self.run.messages.get(name) or self.run.reports.get(name)
        if kept:
            self.event.place = self.event.place or kept.place
            self.link(kept.dropped, kept.place)

    def on_wait_clock(self):
        here, target = self.here, self.transaction().snapshot[self.event.place.site - 1]
        self.wait_for(target, lambda: here.clock >= target)

    def on_wait_txn(self):
        other = self.run.transactions.get(self.tells["other"])
        self.run.waits.append((self.event, self.reply.name, self.tells["other"]))
        self.link(other.steps.get(self.event.place) if other else None)

    def on_wait_stable(self):
        run, place, site = self.run, self.event.place, self.tells["site"]
        target = run.sessions[self.args["session"]].depends[site - 1]
        self.wait_for(target, lambda: run.stable(place, site) >= target)
