"""A run as one page that opens by itself, and as a picture alone."""

import html
import json
from collections import Counter
from pathlib import Path

from layout import COLOURS, LETTER, ROW, cut, is_refusal, is_wait, middle

HERE = Path(__file__).resolve().parent
MOST_GUTTER = 390
HEADER = 44


def page(title, run, layout, headings=()):
    """The whole page, as text."""
    text = (HERE / "page.html").read_text()
    parts = {
        "TITLE": html.escape(title),
        "NAME": html.escape(title),
        "STYLE": style(),
        "SUMMARY": summary(run),
        "DATA": json.dumps({**data(run, layout), "headings": list(headings)}, ensure_ascii=True, separators=(",", ":")).replace("<", "\\u003c"),
        "SCRIPT": (HERE / "page.js").read_text(),
    }
    for name, part in parts.items():
        text = text.replace(f"<!--{name}-->", part, 1)
    return text


def style():
    """The styles of page and picture."""
    return (HERE / "page.css").read_text() + (HERE / "picture.css").read_text()


def data(run, layout):
    """What the page's script draws and answers clicks by."""
    return {
        "row": ROW, "width": layout.width(), "height": layout.height(),
        "lanes": [[str(lane.place), lane.left, lane.line, lane.right] for lane in layout.lanes.values()],
        "layers": list(layout.layers.items()),
        "rows": [row_of(event, layout) for event in run.events],
        "transactions": [transaction_of(transaction, run) for transaction in run.transactions.values()],
    }


def shown_in_row(event):
    """What stands in the row of a reply: the command too, where the reply doesn't tell what it was."""
    if event.name == "updated":
        return event.command
    if event.first and (is_wait(event.name) or is_refusal(event.name)):
        return f"{event.text} ← {event.command}"
    return event.text


def tone(event):
    """How a row's text looks."""
    return "wait" if is_wait(event.name) else "refusal" if is_refusal(event.name) else "plain"


def row_of(event, layout):
    """A row: script line, text, command, class, transaction, read or update, and where its lane is."""
    return [
        event.line if event.first else 0, shown_in_row(event), event.command, tone(event),
        layout.numbers.get(event.transaction, -1), event.row if event.row in layout.accesses else 0,
        round(layout.lanes[event.place].line) if event.place else 0,
    ]


def transaction_of(transaction, run):
    """What the page tells of a transaction."""
    accesses = [[[a.row, str(a.object), a.shows] for a in some] for some in (transaction.reads, transaction.updates)]
    return {
        "id": transaction.id, "session": transaction.session, "colour": run.colour(transaction.session) % COLOURS,
        "began": transaction.began, "snapshot": transaction.snapshot, "commit": transaction.commit,
        "status": transaction.status, "ended": transaction.ended, "reads": accesses[0], "updates": accesses[1],
    }


def summary(run):
    """The counts above the picture."""
    status = Counter(transaction.status for transaction in run.transactions.values())
    waits = Counter(name.split(" ")[1] for _, name, _ in run.waits)
    names = Counter(event.name for event in run.events)
    refused = sum(count for name, count in names.items() if name and is_refusal(name) and name not in ("gap", "bad"))
    lost = sum(message.is_lost() for message in run.messages.values())
    facts = [
        ("sites", run.sites), ("partitions", len(run.partitions)), ("sessions", len(run.names)),
        ("committed", status["committed"]), ("aborted", status["aborted"]),
        ("open", status["open"] + status["unsure"]),
        ("waits for a clock", waits["clock"]), ("waits for a transaction", waits["txn"]),
        ("waits for a stable entry", waits["stable"]), ("refusals", refused), ("messages sent", len(run.messages)),
        ("taken", names["took"]), ("repeated", names["dup"]), ("gaps", names["gap"]), ("lost", lost),
        ("reports", len(run.reports)), ("crashes", names["crashed"]), ("restarts", names["restarted"]),
    ]
    cells = "".join(f"<div><dt>{name}</dt><dd>{count}</dd></div>" for name, count in facts if count)
    return f'<dl id="summary">{cells}</dl>{bad_lines(run)}'


def bad_lines(run):
    """The lines that aren't in the grammar."""
    if not run.bad:
        return ""
    numbers = ", ".join(str(line) for line in run.bad)
    return f'<p id="bad">Not in the grammar: script line{"s" if len(run.bad) > 1 else ""} {numbers}</p>'


def picture(run, layout, least, most):
    """The rows of these script lines as an SVG that stands alone."""
    events = [event for event in run.events if least <= event.line <= most]
    top, bottom = (middle(events[0].row) - ROW * 0.6, middle(events[-1].row) + ROW) if events else (0, ROW)
    side = min(MOST_GUTTER, 60 + LETTER * max((len(shown_in_row(event)) for event in events), default=0))
    width, height = side + layout.width() + 10, bottom - top + HEADER
    shapes = "".join(drawn(shape, top, bottom) for layer in layout.layers.values() for shape in layer)
    rows = "".join(drawn_row(event, top) for event in events)
    heads = "".join(drawn_head(lane) for lane in layout.lanes.values())
    return (
        f'<svg xmlns="http://www.w3.org/2000/svg" class="picture" viewBox="0 0 {width:.0f} {height:.0f}" '
        f'width="{width:.0f}" height="{height:.0f}" role="img">\n'
        f"<style>{(HERE / 'picture.css').read_text()}</style>\n"
        f'<rect class="paper" width="100%" height="100%"/>\n<g transform="translate(0 {HEADER})">{rows}</g>\n'
        f'<g transform="translate({side:.0f} 0)">{heads}</g>\n'
        f'<svg x="{side:.0f}" y="{HEADER}" width="{layout.width():.0f}" height="{bottom - top:.0f}" '
        f'viewBox="0 {top:.0f} {layout.width():.0f} {bottom - top:.0f}">{shapes}</svg>\n</svg>\n'
    )


def drawn_row(event, top):
    """A row's script line and text."""
    y = middle(event.row) - top + 4
    line = f'<text class="line" x="34" y="{y:.0f}">{event.line}</text>' if event.first else ""
    shown = html.escape(cut(shown_in_row(event), int((MOST_GUTTER - 50) / LETTER)))
    return f'{line}<text class="reply {tone(event)}" x="44" y="{y:.0f}">{shown}</text>'


def drawn_head(lane):
    """The name of a lane."""
    return f'<text class="head" x="{lane.line:.0f}" y="32">{lane.place}</text>'


def drawn(shape, top, bottom):
    """A shape as an element of SVG, or nothing where it is out of sight."""
    letter, name, *rest = shape[:-2]
    if letter == "P":
        return f'<path class="{name}" d="{rest[2]}"/>' if rest[0] <= bottom and rest[1] >= top else ""
    if letter == "L":
        x, y, to_x, to_y = rest
        inside = y <= bottom and to_y >= top
        return f'<line class="{name}" x1="{x}" y1="{y}" x2="{to_x}" y2="{to_y}"/>' if inside else ""
    if not (rest[1] <= bottom and rest[1] + (rest[3] if letter == "R" else 0) >= top):
        return ""
    if letter == "R":
        x, y, width, height = rest
        return f'<rect class="{name}" x="{x}" y="{y}" width="{width}" height="{height}" rx="3"/>'
    if letter == "C":
        return f'<circle class="{name}" cx="{rest[0]}" cy="{rest[1]}" r="{rest[2]}"/>'
    return f'<text class="{name}" x="{rest[0]}" y="{rest[1]}">{html.escape(rest[2])}</text>'
