"""What a run is made of, as far as its replies tell."""

from collections import defaultdict
from dataclasses import dataclass, field

import words as w


def joined(one, other):
    """The entrywise greater of two vectors."""
    return [max(pair) for pair in zip(one, other)]


def is_within(one, other):
    """Whether a vector is at most another, entry by entry."""
    return all(left <= right for left, right in zip(one, other))


@dataclass
class Event:
    """A reply in its run: where it stands, whose it is, what the clock showed there then."""

    row: int
    line: int
    command: str
    text: str
    name: str
    place: w.Place = None
    session: str = None
    transaction: str = None
    clock: int = None
    first: bool = False


@dataclass
class Access:
    """A read or an update of an object by a transaction, or one that had to wait."""

    row: int
    transaction: str
    object: w.Object
    place: w.Place
    shows: str


@dataclass
class Transaction:
    """A transaction: where and when it began and ended, and what is known of its end."""

    id: str
    session: str
    place: w.Place
    began: int
    snapshot: list
    ended: int = None
    commit: list = None
    status: str = "open"
    reads: list = field(default_factory=list)
    updates: list = field(default_factory=list)
    votes: dict = field(default_factory=dict)
    steps: dict = field(default_factory=dict)
    participants: list = field(default_factory=list)

    def decide(self, vector=None):
        """It is committed: with this vector, or with the one that its votes come to."""
        vector = vector or self.commit
        if vector is None and self.votes:
            vector = list(self.snapshot)
            vector[self.place.site - 1] = max(self.votes.values())
        self.commit, self.status = vector, "committed"


@dataclass
class Session:
    """A session: its site, what it depends on, its transaction, and what is left of a commit."""

    name: str
    site: int
    number: int
    depends: list
    transaction: Transaction = None
    left: list = None

    def is_decided(self):
        """Whether its transaction is decided, so that only finishes are left."""
        return bool(self.left) and self.left[0][0] == "finish"

    def is_aborting(self):
        """Whether its transaction was given up, and aborts are left."""
        return bool(self.left) and self.left[0][0] == "abort"


@dataclass
class Partition:
    """A partition: its clock, what it took and heard, and since when it is down."""

    place: w.Place
    clock: int = 0
    bounds: list = field(default_factory=list)
    votes: dict = field(default_factory=dict)
    heard: dict = field(default_factory=dict)
    down: int = None
    fuse: int = None
    downs: list = field(default_factory=list)

    def own_bound(self):
        """Up to this time nothing more is committed here: the clock, or one below the least vote that is pending."""
        return min([self.clock] + [vote - 1 for vote in self.votes.values()])


@dataclass
class Message:
    """A message, and where it ended: rows with the names of what was told there."""

    name: str
    place: w.Place
    target: w.Place
    row: int
    ends: list = field(default_factory=list)
    dropped: int = None

    def is_lost(self):
        """Whether it was dropped before anybody took it."""
        return self.dropped is not None and all(end.name != "took" for end in self.ends)


@dataclass
class Report:
    """A report, and who heard it."""

    name: str
    place: w.Place
    row: int
    vector: list
    heard: list = field(default_factory=list)
    dropped: int = None


@dataclass
class Link:
    """A wait or refusal, joined to what it waits for or rests on: from a row at a partition to another."""

    row: int
    place: w.Place
    to_row: int
    to_place: w.Place
    name: str = "link"


class Run:
    """All of a run, and the table of its partitions."""

    def __init__(self):
        self.sites = self.parts = 0
        self.partitions, self.sessions, self.names = {}, {}, []
        self.transactions, self.messages, self.reports = {}, {}, {}
        self.events, self.links, self.waits, self.bad = [], [], [], []
        self.waiting, self.aborted = defaultdict(list), {}

    def make(self, sites, parts):
        """The cluster is made."""
        self.sites, self.parts = sites, parts
        places = (w.Place(site, part) for site in range(1, sites + 1) for part in range(1, parts + 1))
        self.partitions = {place: Partition(place, bounds=[0] * sites) for place in places}

    def holder(self, site, target):
        """The partition of this site that holds an object, by its bucket and key."""
        grown = 7
        for byte in target.bucket.encode() + b"\0" + target.key.encode():
            grown = (31 * grown + byte) % 65536
        return w.Place(site, 1 + grown % self.parts)

    def colour(self, name):
        """The number of a session's name, by which it has its colour."""
        if name not in self.names:
            self.names.append(name)
        return self.names.index(name)

    def stable(self, place, site):
        """How far all of this partition's site have come with a site, as it knows."""
        here = self.partitions[place]
        others = (w.Place(place.site, part) for part in range(1, self.parts + 1) if part != place.part)
        least = min((here.heard.get(other, [0] * self.sites)[site - 1] for other in others), default=None)
        own = here.own_bound() if site == place.site else here.bounds[site - 1]
        return own if least is None else min(own, least)

    def sees(self, transaction):
        """The committed transactions that a snapshot sees: those whose vector is at most it."""
        ended = (other for other in self.transactions.values() if other.commit and other is not transaction)
        return [other for other in ended if is_within(other.commit, transaction.snapshot)]
