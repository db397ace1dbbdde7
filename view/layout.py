"""Where everything of a run stands in its picture: shapes in layers, from the back to the front.

A shape is a list: a letter, a class, its numbers or text, and at its end the number of its transaction or -1 and the
row of the read or update that it stands for or 0. The letters: L line, R rectangle, C circle, P path, T text. A
path's numbers begin with the top and bottom that it reaches.
"""

from dataclasses import dataclass

ROW = 24
LETTER = 6.7
LABEL = 16
COLOURS = 8
LAYERS = ("lanes", "bars", "threads", "links", "arrows", "marks", "labels", "heads")
MARKS = {
    "began": "begin", "prepared": "vote", "decided": "decide", "finished": "finish", "aborted": "cross",
    "value": "read", "updated": "update", "pending": "vote", "crashed": "crash", "restarted": "restart",
    "fused": "fuse", "disk": "crash", "unsure": "crash", "damaged": "crash", "dup": "again", "gap": "refused",
}
LABELS = {
    "wait clock": "waits: clock", "wait txn": "waits: txn", "wait stable": "waits: stable", "crashed": "crash",
    "restarted": "restart", "fused": "fuse", "disk": "disk fails", "unsure": "unsure", "bad op": "bad op",
}


@dataclass
class Lane:
    """A partition's lane: its left edge, its line, where bars begin, where labels stand, its right edge."""

    place: object
    left: float
    line: float
    bars: float
    label: float
    right: float


def is_wait(name):
    """Whether a reply tells to wait."""
    return name.startswith("wait ")


def is_refusal(name):
    """Whether a reply refuses, other than by a wait."""
    return name.startswith(("no ", "has ", "limit ", "bad", "down", "disk", "unsure", "gone", "damaged", "gap"))


def cut(text, most):
    """A text of at most so many letters."""
    return text if len(text) <= most else text[:most - 1] + "…"


def beside(access, name):
    """An object's key, and the value of a read where it is short."""
    both = f"{access.object.key} = {access.shows}"
    return both if name == "value" and len(both) <= LABEL else access.object.key


def greatest(pairs):
    """Of each name the greatest number that stands with it."""
    most = {}
    for name, number in pairs:
        most[name] = max(most.get(name, 0), number)
    return most


def middle(row):
    """The height of the middle of a row; rows count from 1."""
    return (row - 0.5) * ROW


class Layout:
    """The picture of a run."""

    def __init__(self, run):
        self.run, self.rows = run, len(run.events)
        self.layers = {name: [] for name in LAYERS}
        self.numbers = {id_: at for at, id_ in enumerate(run.transactions)}
        self.accesses = {a.row: a for t in run.transactions.values() for a in t.reads + t.updates}
        self.lost_in = {one.dropped: one for one in run.messages.values() if one.is_lost()}
        self.labels = {event.row: self.label_of(event) for event in run.events}
        self.last = {event.transaction: event.row for event in run.events}
        self.slots = self.slots_of_bars()
        self.lanes = self.lanes_of_partitions()

    def whole(self):
        """All layers, filled."""
        self.draw_lanes()
        for transaction in self.run.transactions.values():
            self.draw_bar(transaction)
        for event in self.run.events:
            if event.place:
                self.draw_event(event)
        for message in self.run.messages.values():
            self.draw_message(message)
        for report in self.run.reports.values():
            self.draw_report(report)
        for link in self.run.links:
            self.draw_link(link)
        return self

    def width(self):
        """The width of all lanes."""
        return max((lane.right for lane in self.lanes.values()), default=200)

    def height(self):
        """The height of all rows."""
        return (self.rows + 1) * ROW

    def slots_of_bars(self):
        """Of each transaction, which place beside the line its bar has: the first that is free."""
        slots, free_from = {}, {}
        for transaction in self.run.transactions.values():
            ends = free_from.setdefault(transaction.place, [])
            slot = next((at for at, end in enumerate(ends) if end < transaction.began), len(ends))
            ended = max(transaction.ended, self.last[transaction.id]) if transaction.ended else self.rows + 1
            ends[slot:slot + 1] = [ended]
            slots[transaction.id] = slot
        return slots

    def needed(self):
        """Of each partition the letters of its longest clock and of its longest label, and how many bars it has."""
        events, ones = self.run.events, self.run.transactions.values()
        clocks = greatest((event.place, len(str(event.clock or 0))) for event in events)
        labels = greatest((event.place, len(self.labels[event.row])) for event in events)
        bars = greatest((one.place, self.slots[one.id] + 1) for one in ones)
        places = self.run.partitions
        return {place: (clocks.get(place, 1), labels.get(place, 0), bars.get(place, 0)) for place in places}

    def lanes_of_partitions(self):
        """The lanes from left to right, as wide as their clocks, bars and labels need; a gap stands between sites."""
        lanes, left = {}, 6
        for place, (clock, text, bars) in self.needed().items():
            line = left + 19 + LETTER * clock
            label = line + 14 + 12 * bars
            right = max(label + 8 + LETTER * min(text, LABEL), left + 56)
            lanes[place] = Lane(place, left, line, line + 12, label, right)
            left = right + (22 if place.part == self.run.parts else 0)
        return lanes

    def add(self, layer, *shape, owner=-1, access=0):
        """Adds a shape to a layer."""
        numbers = [round(part, 1) if isinstance(part, float) else part for part in shape]
        self.layers[layer].append([*numbers, owner, access])

    def colour(self, session):
        """The class of a session's colour."""
        return f"s{self.run.colour(session) % COLOURS}"

    def bar_middle(self, transaction):
        """Where a transaction's bar stands."""
        return self.lanes[transaction.place].bars + 12 * self.slots[transaction.id] + 4

    def draw_lanes(self):
        """Each lane's line, and the bands where it is down."""
        for place, lane in self.lanes.items():
            self.add("lanes", "L", "lane", lane.line, 0, lane.line, self.height())
            self.draw_downs(lane, self.run.partitions[place])

    def draw_downs(self, lane, partition):
        """The bands where a partition is down; the last may have no end."""
        last = [(partition.down, self.rows + 1)] if partition.down else []
        for start, end in partition.downs + last:
            top, bottom = middle(start), middle(end)
            self.add("lanes", "R", "down", lane.left + 2, top, lane.right - lane.left - 4, bottom - top)
            self.add("lanes", "L", "broken", lane.line, top, lane.line, bottom)

    def draw_bar(self, transaction):
        """A transaction from its begin to its end, with a tail to what others still do about it."""
        top = middle(transaction.began)
        bottom = middle(transaction.ended) if transaction.ended else self.height()
        name = f"bar {self.colour(transaction.session)} {transaction.status}"
        at, owner, last = self.bar_middle(transaction), self.numbers[transaction.id], middle(self.last[transaction.id])
        self.add("bars", "R", name, at - 4, top - 5, 8, bottom - top + 10, owner=owner)
        if last > bottom:
            self.add("bars", "L", f"tail {self.colour(transaction.session)}", at, bottom, at, last, owner=owner)

    def draw_event(self, event):
        """The clock, the mark, the label, and the thread to the transaction's bar."""
        lane, y = self.lanes[event.place], middle(event.row)
        transaction = self.run.transactions.get(event.transaction)
        owner = self.numbers.get(event.transaction, -1)
        access = event.row if event.row in self.accesses else 0
        if event.name != "dropped":
            self.add("labels", "T", "clock", lane.line - 11, y + 4, str(event.clock))
        if transaction and event.name != "ended":
            bar, name = self.bar_middle(transaction), f"thread {self.colour(transaction.session)}"
            self.add("threads", "L", name, lane.line, y, bar, y, owner=owner)
        self.draw_mark(event, lane.line, y, owner, access)
        if self.labels[event.row]:
            tone = self.tone(event)
            shown = cut(self.labels[event.row], LABEL)
            self.add("labels", "T", f"label {tone}", lane.label, y + 4, shown, owner=owner, access=access)

    def tone(self, event):
        """How a label looks: a wait, a refusal, a session's begin, or plain."""
        if is_wait(event.name):
            return "wait"
        if is_refusal(event.name) or event.name in ("crashed", "fused"):
            return "refusal"
        return f"name {self.colour(event.session)}" if event.name == "began" else "plain"

    def label_of(self, event):
        """What stands beside an event: short, since the reply stands in its row."""
        name = event.name
        if name == "began":
            return event.session
        if name in ("value", "updated"):
            return beside(self.accesses[event.row], name)
        if name in ("sent", "took", "dup", "gap", "report", "heard"):
            words = event.text.split(" ")
            return {"sent": "", "took": "", "report": "", "heard": ""}.get(name, name + " ") + words[1]
        if name == "dropped":
            return "" if event.row in self.lost_in else f"{event.text.split(' ')[1]} dropped"
        if name in ("down", "gone") or name.startswith(("no ", "has ", "limit ")):
            return name
        return LABELS.get(name, "")

    def draw_mark(self, event, x, y, owner, access):
        """The mark of an event on its lane's line."""
        name = MARKS.get(event.name, "tick")
        if is_wait(event.name):
            name = "wait"
        elif is_refusal(event.name) and name == "tick":
            name = "refused"
        if name == "tick" and event.name not in ("ended", "dropped"):
            return self.add("marks", "L", "tick", x - 4, y, x + 4, y)
        if event.name in ("ended", "dropped"):
            return None
        colour = self.colour(self.session_of(event)) if owner >= 0 else "nobody"
        self.add("marks", *mark(name, x, y, colour), owner=owner, access=access)
        return None

    def session_of(self, event):
        """Whose transaction an event is of."""
        return self.run.transactions[event.transaction].session

    def draw_message(self, message):
        """The arrows of a message: to each partition and row where it ended, to where it was dropped, or unfinished."""
        start, goal = self.lanes[message.place].line, self.lanes[message.target].line
        top = middle(message.row)
        for end in message.ends:
            self.arrow(f"message {end.name}", start, top, goal, middle(end.row))
        if message.is_lost():
            self.lost(message, start, top)
        elif not message.ends:
            x, bottom = start + (goal - start) * 0.3, top + 1.6 * ROW
            self.add("arrows", "P", "message flying", top, bottom, f"M{start:.1f} {top:.1f}L{x:.1f} {bottom:.1f}")

    def end_of_lost(self, message):
        """Where between two lanes the arrow of a lost message ends."""
        start, goal = self.lanes[message.place].line, self.lanes[message.target].line
        return start + (goal - start) * 0.7

    def lost(self, message, start, top):
        """An arrow that ends on its way, where its message was dropped."""
        x, bottom = self.end_of_lost(message), middle(message.dropped)
        self.add("arrows", "P", "message lost", top, bottom, f"M{start:.1f} {top:.1f}L{x:.1f} {bottom:.1f}")
        self.add("marks", *mark("crash", x, bottom, "nobody"))
        self.add("labels", "T", "label refusal", x + 10, bottom + 4, f"{message.name} lost")

    def draw_report(self, report):
        """The thin arrows of a report, to who heard it."""
        start, top = self.lanes[report.place].line, middle(report.row)
        for end in report.heard:
            self.arrow("report", start, top, self.lanes[end.place].line, middle(end.row))

    def arrow(self, name, x, y, goal_x, goal_y):
        """A line with a head; one that stays in its lane bends to the left."""
        bend = f"Q{x - 26:.1f} {(y + goal_y) / 2:.1f} " if x == goal_x else "L"
        from_x, from_y = (x - 26, (y + goal_y) / 2) if x == goal_x else (x, y)
        length = max(((goal_x - from_x) ** 2 + (goal_y - from_y) ** 2) ** 0.5, 1)
        along, down = (goal_x - from_x) / length, (goal_y - from_y) / length
        tip_x, tip_y = goal_x - 3 * along, goal_y - 3 * down
        wings = [(tip_x - 8 * along + side * 3.5 * down, tip_y - 8 * down - side * 3.5 * along) for side in (1, -1)]
        head = f"M{tip_x:.1f} {tip_y:.1f}" + "".join(f"L{wing_x:.1f} {wing_y:.1f}" for wing_x, wing_y in wings) + "z"
        self.add("arrows", "P", name, y, goal_y, f"M{x:.1f} {y:.1f}{bend}{tip_x:.1f} {tip_y:.1f}")
        self.add("heads", "P", f"head-of {name}", goal_y - 12, goal_y + 4, head)

    def draw_link(self, link):
        """A wait or refusal, joined to what it waits for or rests on."""
        start, goal = self.lanes[link.place].line, self.lanes[link.to_place].line
        lost = self.lost_in.get(link.to_row)
        goal = self.end_of_lost(lost) if lost else goal
        y, to_y = middle(link.row), middle(link.to_row)
        bend = 18 if start == goal else 0
        path = f"M{start:.1f} {y:.1f}Q{(start + goal) / 2 - bend:.1f} {(y + to_y) / 2:.1f} {goal:.1f} {to_y:.1f}"
        self.add("links", "P", link.name, min(y, to_y), max(y, to_y), path)


def mark(name, x, y, colour):
    """The shape of a mark at a place."""
    shown = f"mark {name} {colour}"
    if name in ("begin", "vote", "decide", "finish", "again"):
        return ["C", shown, x, y, {"decide": 6, "finish": 4, "begin": 3}.get(name, 5)]
    if name in ("read", "update", "wait", "refused"):
        half = {"wait": 6, "refused": 6}.get(name, 4.5)
        return ["R", shown, x - half, y - half, 2 * half, 2 * half]
    paths = {
        "cross": "m-5 -5l10 10m0 -10l-10 10",
        "crash": "m-7 -7l14 14m0 -14l-14 14",
        "restart": "m-6 5h12l-6 -11z",
        "fuse": "m2 -8l-6 9h7l-4 8",
    }
    return ["P", shown, y - 8, y + 8, f"M{x:.1f} {y:.1f}{paths[name]}"]
