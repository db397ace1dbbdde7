"""The refusals that a script alone makes due: of the cluster, of places, sessions, transactions and messages."""

import words as w


def refusal_due(run, command):
    """The name of the refusal that is due before a partition is asked, or None."""
    if command.name == "bad":
        return None
    if command.name == "cluster":
        return "has cluster" if run.sites else None
    if not run.sites:
        return "no cluster"
    tests = (place_due, session_due, transaction_due, message_due)
    return next((due for due in (test(run, command) for test in tests) if due), None)


def place_due(run, command):
    """A site or partition that isn't there, or isn't one that this command may name."""
    args = command.args
    place, site = args.get("place"), args.get("site", 1)
    if site > run.sites or (place and place not in run.partitions):
        return "no part"
    if command.name == "send" and site == place.site:
        return "no part"
    if command.name == "expire":
        begun = w.place(args["transaction"].split("#")[0])
        return None if begun in run.partitions and begun.site == place.site else "no part"
    return None


def session_due(run, command):
    """A session that isn't there, or is there already; a begin at another site's partition."""
    name = command.args.get("session")
    if name is None:
        return None
    session = run.sessions.get(name)
    if command.name == "session":
        return "has session" if session else None
    if session is None:
        return "no session"
    place = command.args.get("place")
    return "no part" if place and place.site != session.site else None


def transaction_due(run, command):
    """A transaction that isn't in the state that the command needs."""
    session = run.sessions.get(command.args.get("session"))
    if command.name in ("begin", "move"):
        return "has txn" if session.transaction else None
    if command.name in ("read", "update"):
        return "no txn" if session.transaction is None or session.left is not None else None
    if command.name in ("commit", "abort"):
        return None if has_steps(session, command.name) else "no txn"
    return None


def has_steps(session, name):
    """Whether this session's commit or abort makes steps now, and isn't refused."""
    if session is None or session.transaction is None:
        return False
    return name == "commit" or not session.is_decided()


def message_due(run, command):
    """A message or report that isn't kept; a report heard at another site."""
    name = command.args.get("message") or command.args.get("report")
    if name is None:
        return None
    kept = run.messages.get(name) or run.reports.get(name)
    if kept is None or kept.dropped is not None:
        return "no message"
    return "no part" if command.name == "hear" and kept.place.site != command.args["place"].site else None
