#!/usr/bin/env python3
"""Draws pages, opens them in a headless Chromium, and checks that clicks and keys mark what they should.

view/check.py [--browser chromium] [--play PROGRAM] [--shots DIR] [DIR..]

Of each directory (examples/, if none is named) it takes every NAME.script: with the replies of NAME.replies, or else
with those that PROGRAM writes. Besides it takes the stored run of dc_shell. It is run by hand; the status is 1 where
something isn't as it should be. A pair that doesn't belong together is told and left out.
"""

import argparse
import subprocess
import sys
import tempfile
from pathlib import Path

import page
from answers import Differs, Walk
from browser import DRAWN, Browser
from layout import Layout
from model import is_within
from replies import replies_of
from script import commands_of, headings_of

TOP = Path(__file__).resolve().parent.parent
MOST_CLICKS = 40
MOST_SECONDS = 2
CENTRE = """(one => {{ if (!one) return null; const box = one.getBoundingClientRect();
  return [box.x + box.width / 2, box.y + Math.min(box.height / 2, 4)]; }})(document.querySelector('{}'))"""


class Wrong(Exception):
    """Something in a page isn't as it should be."""


def demand(holds, text):
    """Stops where something doesn't hold."""
    if not holds:
        raise Wrong(text)


def pairs(words):
    """Names, scripts and replies of all that is to be checked."""
    for directory in words.directories or [TOP / "examples"]:
        for script in sorted(Path(directory).glob("*.script")):
            stored = script.with_suffix(".replies")
            if stored.exists():
                yield script.stem, script.read_bytes(), stored.read_bytes()
            elif words.play:
                yield script.stem, script.read_bytes(), played(words.play, script.read_bytes())
            else:
                print(f"left out: {script.name} has no replies beside it, and no program is named")
    stored = TOP / "crates" / "dc_shell"
    yield "stored_run", (stored / "stdin").read_bytes(), (stored / "stdout").read_bytes()
    if words.play:
        script = long_script()
        yield "ten_thousand", script, played(words.play, script)


def played(program, script):
    """The replies that a program writes."""
    return subprocess.run([program, "play"], input=script, stdout=subprocess.PIPE, check=False).stdout


def long_script():
    """A script with ten thousand replies, at three sites of two partitions."""
    lines = ["cluster 3 2"] + [f"session c{at} {at}" for at in (1, 2, 3)]
    message = 0
    for turn in range(1, 360):
        lines += [f"clock {site}.{part} {turn * 100 + 20 * part}" for site in (1, 2, 3) for part in (1, 2)]
        for at in (1, 2, 3):
            lines += [f"begin c{at}", f"read c{at} k counter_pn", f"update c{at} k counter_pn increment 1",
                      f"update c{at} j counter_pn increment 1", f"commit c{at}"]
        lines += [f"send {turn % 3 + 1}.1 {(turn + 1) % 3 + 1}", f"deliver m{(message := message + 1)}"]
    return "\n".join(lines).encode() + b"\n"


class Check:
    """The checks of one page."""

    def __init__(self, browser, name, run, file, shots):
        self.browser, self.name, self.run, self.file, self.shots = browser, name, run, file, shots
        self.clicks = 0

    def whole(self):
        """All checks; tells how long it took to open."""
        self.browser.look()
        seconds = self.browser.open(self.file.as_uri())
        demand(seconds < MOST_SECONDS, f"it opened in {seconds:.1f} s")
        requests = self.browser.happened("Network.requestWillBeSent")
        demand(all(request["request"]["url"].startswith("file:") for request in requests), "it asked the network")
        self.shoot()
        for transaction in self.some(list(self.run.transactions.values())):
            self.click_transaction(transaction)
        for transaction, read in self.some(self.reads()):
            self.click_read(transaction, read)
        self.keys()
        self.tap()
        errors = self.browser.happened("Runtime.exceptionThrown")
        demand(not errors, f"its script failed: {errors[:1]}")
        return seconds

    def some(self, all_of_them):
        """At most so many, spread over all."""
        return all_of_them[::max(1, -(-len(all_of_them) // MOST_CLICKS))]

    def reads(self):
        """All reads, with their transactions."""
        return [(one, read) for one in self.run.transactions.values() for read in one.reads]

    def shoot(self):
        """Screenshots: light, dark, and narrow."""
        looks = [("light", 1400, 1000), ("dark", 1400, 1000), ("light", 420, 860)]
        for scheme, width, height in looks if self.shots else []:
            self.browser.look(scheme, width, height)
            self.browser.shot(self.shots / f"{self.name}_{scheme}_{width}.png")
        self.browser.look()

    def bring(self, row, place=None):
        """Scrolls so that a row and a lane are in sight, and lets go of what was chosen."""
        left = f'(run.lanes.find(lane => lane[0] === "{place}") || [0, 0, 0])[2] - 150'
        top = f"{max(0, row - 8)} * run.row"
        self.browser.value(f"choose(-1, 0); view.scrollLeft = {left}; view.scrollTop = {top}; {DRAWN}")

    def click_on(self, selector):
        """Clicks on the first element that is found by this selector, scrolled into sight."""
        where = self.browser.value(CENTRE.format(selector))
        demand(where, f"nothing is drawn at {selector}")
        self.browser.click(*where)
        self.clicks += 1

    def listed(self, kind):
        """The transactions that the panel lists so."""
        found = f"document.querySelectorAll('#panel li.{kind} button')"
        return self.browser.value(f"[...{found}].map(one => one.dataset.id)")

    def click_transaction(self, one):
        """A click on a bar marks what its snapshot sees."""
        owner = list(self.run.transactions).index(one.id)
        self.bring(one.began, one.place)
        self.click_on(f'rect.bar[data-owner="{owner}"]')
        title = self.browser.value("document.querySelector('#panel h2').textContent")
        demand(title == f"Transaction {one.id} of {one.session}", f"a click on {one.id} shows {title}")
        wanted = [other.id for other in self.run.sees(one)]
        demand(self.listed("yes") == wanted[:200], f"{one.id} should see {wanted}, shown is {self.listed('yes')}")
        seen = self.browser.value("[...document.querySelectorAll('rect.bar.seen')].map(one => one.dataset.owner)")
        names = {list(self.run.transactions)[int(at)] for at in seen}
        demand(names <= set(wanted), f"{one.id} marks {names}")

    def click_read(self, one, read):
        """A click on a read marks the updates that it sees, and those that it doesn't."""
        self.bring(read.row, read.place)
        self.click_on(f'rect.mark[data-access="{read.row}"]')
        seen, others = [], []
        for other in self.run.transactions.values():
            for update in other.updates:
                if update.object == read.object:
                    own = other is one and update.row < read.row
                    is_seen = own or (other is not one and other.commit and is_within(other.commit, one.snapshot))
                    (seen if is_seen else others).append(other.id)
        demand(self.listed("yes") == seen[:200], f"the read in row {read.row} should see {seen}")
        demand(self.listed("no") == others[:200], f"the read in row {read.row} shouldn't see {others}")

    def tap(self):
        """A tap on a bar chooses as a click does."""
        for one in list(self.run.transactions.values())[:1]:
            self.bring(one.began, one.place)
            self.browser.tap(*self.browser.value(CENTRE.format('rect.bar[data-owner="0"]')))
            demand(self.browser.value("chosen && chosen.transaction === 0"), "a tap chooses nothing")
            self.browser.value("choose(-1, 0)")

    def keys(self):
        """The arrows choose, and Escape lets go."""
        if not self.run.transactions:
            return
        self.bring(1)
        self.browser.value("view.focus()")
        self.browser.key("Home")
        title = self.browser.value("(document.querySelector('#panel h2') || {}).textContent")
        demand(title and title.startswith("Transaction"), f"Home shows {title}")
        if self.shots:
            self.browser.key("End")
            self.browser.shot(self.shots / f"{self.name}_chosen.png")
        self.finds()
        self.browser.key("Escape")
        demand(self.browser.value("!document.querySelector('#panel h2')"), "Escape doesn't let go")


    def finds(self):
        """A text is found, and the address of a line leads to its row."""
        one = next(iter(self.run.transactions.values()))
        self.browser.value(f"cursor = 0; find('{one.id}')")
        row = next(event.row for event in self.run.events if one.id in event.text + event.command)
        demand(self.browser.value("cursor") == row, f"{one.id} is found elsewhere than in row {row}")
        event = next(event for event in self.run.events if event.first and event.row == row)
        self.browser.value(f"choose(-1, 0); location.hash = '#{event.line}'; follow()")
        demand(self.browser.value("cursor") == row, f"line {event.line} leads elsewhere than to row {row}")
        self.browser.value("view.focus()")
        self.browser.key("j")
        demand(self.browser.value("cursor") == min(row + 1, len(self.run.events)), "j doesn't go one row on")


def refuses(script, replies):
    """A reply too many, one too few, and one between others are told."""
    lines = replies.splitlines(keepends=True)
    commands = commands_of(script)
    for changed in (lines + [b"ended nobody\n"], lines[1:], lines[:1] + [b"settled 9.9\n"] + lines[1:]):
        if changed == lines:
            continue
        try:
            Walk(commands, replies_of(b"".join(changed))).whole()
        except Differs:
            continue
        raise Wrong("a changed list of replies is taken")


def told(folder):
    """The program tells of a pair that doesn't belong together, with the line and the status 1."""
    shop, cut = TOP / "examples" / "shop.script", folder / "cut.replies"
    lines = shop.with_suffix(".replies").read_bytes().splitlines(keepends=True)
    cut.write_bytes(b"".join(lines[:7] + lines[8:]))
    words = [sys.executable, TOP / "view" / "run.py", shop, cut, "-o", folder / "cut.html"]
    ended = subprocess.run(words, stderr=subprocess.PIPE, text=True, check=False)
    demand(ended.returncode == 1, f"the status is {ended.returncode} where replies are missing")
    demand("reply line 8" in ended.stderr and not (folder / "cut.html").exists(), f"it told {ended.stderr}")


def check(words, browser, folder):
    """Checks all; how many pages are wrong."""
    wrong = 0
    for name, script, replies in pairs(words):
        try:
            run = Walk(commands_of(script), replies_of(replies)).whole()
        except Differs as differs:
            print(f"apart: {name}: {str(differs)[:100]}")
            continue
        file = folder / f"{name}.html"
        file.write_text(page.page(f"{name}.script", run, Layout(run).whole(), headings_of(script)), encoding="utf-8")
        one = Check(browser, name, run, file, words.shots)
        try:
            refuses(script, replies)
            stored = TOP / "examples" / file.name
            demand(not stored.exists() or stored.read_text() == file.read_text(), f"{stored} is of another day")
            print(f"right: {name}: {len(run.events)} replies, opened in {one.whole():.2f} s, {one.clicks} clicks")
        except Wrong as error:
            print(f"WRONG: {name}: {error}")
            wrong += 1
    return wrong


def main():
    """Checks, and ends with the status."""
    built = TOP / "crates" / "dc_shell" / "out" / "dc_shell"
    parser = argparse.ArgumentParser(description=__doc__, formatter_class=argparse.RawDescriptionHelpFormatter)
    parser.add_argument("directories", nargs="*", type=Path)
    parser.add_argument("--browser", default="chromium")
    parser.add_argument("--play", default=str(built) if built.exists() else None)
    parser.add_argument("--shots", type=Path)
    words = parser.parse_args()
    if words.shots:
        words.shots.mkdir(parents=True, exist_ok=True)
    with tempfile.TemporaryDirectory() as folder, Browser(words.browser) as browser:
        told(Path(folder))
        return min(check(words, browser, Path(folder)), 1)


if __name__ == "__main__":
    sys.exit(main())
