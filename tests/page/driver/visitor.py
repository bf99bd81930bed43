"""Uses the page by random events, as a person who tries everything: clicks and double clicks on what is in sight, keys, drags, notes, machines one after another.

    PYTHONPATH=tools python3 -m tests.page.driver.visitor [SEED] [EVENTS]

There are two tabs, used in turn. For a while the browser's storage is full, or answers nothing but errors. What was there has to be there again after a page is loaded
anew, after its process or the whole browser is ended, and in the tab that waited meanwhile; each run that was shown as kept is kept with all its inputs, unless it was
deleted; and each recording that a page saves has to be accepted. It prints what is not so, and what the page said for the first time, each with what was done before: much of that is right, so a
person reads it. The gate has some events of fixed seeds (test_visitor.py).
"""

import argparse
import random
import tempfile
import time
from collections.abc import Callable
from pathlib import Path
from typing import Any

from tests.page.driver.desk import PAGE, program
from tests.page.driver.given import DRAWS, ECHOES, FACE
from tests.page.driver.person import TEXT, Person, begun
from tests.page.driver.records import PARTED
from tests.page.driver.shows import IS_KEPT, NOTICE, OWN_JUDGED, SENT
from tests.tools import browser
from tests.tools.samples import EXAMPLES

# The controls in sight, which the page's window has as `controls`; returns their names.
CONTROLS = """
(() => {
  const all = [...document.querySelectorAll("#galluspa :is(button, summary, input, [role=tab])")], skipped = ["g-full-screen", "g-forget-all"];
  window.controls = all.filter((it) => it.checkVisibility({ opacityProperty: true, visibilityProperty: true }) && !it.disabled && it.type !== "file" && !skipped.includes(it.id));
  return window.controls.map((it) => it.id || it.textContent.trim().slice(0, 40) || it.className);
})()
"""
MIDDLE = "(({ left, top, width, height }) => [left + width / 2, top + height / 2])(%s.getBoundingClientRect())"
# What is open, as far as it is to be there again.
OPEN = f"""
(() => ({{
  name: galluspa.work().name, branch: galluspa.work().branch, branches: el("branches").textContent.replace("Other branches: ", "").split("; "), text: galluspa.source().isRunning ? {TEXT} : "", sent: {SENT}, notes: notes(),
  breaks: breakpoints(), watches: watched(), count: galluspa.count(), cursor: galluspa.cursor(),
  isKept: Boolean(galluspa.frame()?.hasOwn && !galluspa.frame().on),
}}))()
"""
KEYS = {
    "ArrowLeft": 37,
    "ArrowUp": 38,
    "ArrowRight": 39,
    "ArrowDown": 40,
    "Home": 36,
    "End": 35,
    "Enter": 13,
    "Tab": 9,
    "Escape": 27,
}
SIGNS = "abc wxn/?+-0[].,"
WRITTEN = ("100", "50%", "1e6", "+100", "R1", "0x20", "500 ms", "MOV R1, 5", "-1", "9" * 20, "pc=4", "\u00a0", "“x”")
PLACES = ("screen", "lanes", "source", "listing", "memory", "panel-state", "panel-devices")
SIZES = ((1400, 900), (1366, 625), (1280, 720), (1024, 600), (800, 600), (400, 800))
# After so many events what is kept is compared; and the recording is saved in the middle between. The storage is full, or fails, from some event on up to that.
EVENTS = 60
# How often it is compared, each half a second, until it is there.
TRIES = 40
FULL_FROM = (24, 46)
# The browser's storage answers nothing but errors, and answers again.
FAILS = """
globalThis.transaction ??= IDBDatabase.prototype.transaction;
IDBDatabase.prototype.transaction = () => { throw new DOMException("There is no room.", "QuotaExceededError"); };
"""
ANSWERS = "globalThis.transaction && (IDBDatabase.prototype.transaction = globalThis.transaction);"
HEADS = f"{PARTED.strip()}.then(({{ heads, bodies }}) => heads.filter(({{ of }}) => bodies[of]))"
# A run with inputs that is kept: its id, and how many inputs it has.
SAFE = "galluspa.work().head && galluspa.frame()?.hasOwn && !galluspa.isUnsafe() ? [galluspa.work().head.of, galluspa.work().head.inputs] : null"


class Visitor:
    """Somebody who tries everything, and what they did and were told. `safe` has the inputs of each run that was shown as kept, by its id."""

    def __init__(self, who: Person, other: Person, seed: int) -> None:
        self.who = who
        self.other = other
        self.chance = random.Random(seed)
        self.done: list[str] = []
        self.told: set[str] = set()
        self.safe: dict[str, int] = {}
        # The runs that may give way to the next one of their source: they may have no inputs but those of the run before.
        self.passing: set[str] = set()
        self.left: Any = None
        self.found = 0

    def do_something(self) -> None:
        """Does one thing, and hears what the page says."""
        tasks: dict[Callable[[], None], int] = {
            self.press: 30, self.press_key: 14, self.type: 5, self.point: 20, self.write: 6, self.note: 3, self.open: 2, self.resize: 1,
        }  # fmt: skip
        self.chance.choices([*tasks], [*tasks.values()])[0]()
        said, safe = self.who.page.answer(f"[{NOTICE}, {SAFE}]")
        if said and said not in self.told:
            self.say(f"says: {said}")
            self.told.add(said)
        for error in self.who.page.errors:
            self.say(f"ERROR {error}")
        self.who.page.errors.clear()
        if safe and safe[1] and safe[0] not in self.passing:
            self.safe[safe[0]] = safe[1]

    def say(self, text: str) -> None:
        """Prints something, with what was done last."""
        self.found += not text.startswith("says")
        print(f"{text[:600]} | after {', '.join(self.done[-12:])}", flush=True)

    def press(self) -> None:
        """Clicks on a control that is in sight, once or twice."""
        page, names = self.who.page, self.who.page.answer(CONTROLS)
        at, clicks = self.chance.randrange(len(names)), self.chance.choice((1, 1, 1, 2))
        self.done.append(f"{names[at]!r}{' twice' if clicks > 1 else ''}")
        if names[at] in ("Delete", "Delete all of it"):
            self.safe.clear()
        if names[at] in ("g-source-run", "g-source-again") and (run := page.answer("galluspa.work().head?.of")):
            self.passing.add(run)
            self.safe.pop(run, None)
        page.answer(f"controls[{at}].scrollIntoView({{ block: 'nearest' }})")
        x, y = page.answer(MIDDLE % f"controls[{at}]")
        page.point("mouseMoved", x, y)
        for click in range(1, clicks + 1):
            page.point_with("mousePressed", x, y, 1, 0, click)
            page.point_with("mouseReleased", x, y, 0, 0, click)

    def press_key(self) -> None:
        """Presses a key, where the focus is."""
        key = self.chance.choice([*KEYS, *SIGNS])
        self.done.append(f"key {key}")
        self.who.page.press(key, number=KEYS.get(key, 0))

    def type(self) -> None:
        """Types for the machine."""
        keys = "".join(self.chance.choices("abcdefgh", k=3))
        self.done.append(f"types {keys}")
        self.who.page.answer("el('screen').focus()")
        for key in keys:
            self.who.page.press(key)

    def point(self) -> None:
        """Clicks somewhere in a part of the page, or drags there."""
        page, part = self.who.page, f"el('{self.chance.choice(PLACES)}')"
        if not page.answer(f"{part}.checkVisibility()"):
            return
        left, top, width, height = page.answer(
            f"(({{ left, top, width, height }}) => [left, top, width, height])({part}.getBoundingClientRect())"
        )
        spots = [
            (left + self.chance.random() * width, top + self.chance.random() * height) for _ in range(self.chance.choice((1, 4)))
        ]
        self.done.append(f"{'drags' if len(spots) > 1 else 'clicks'} in {part}")
        page.point("mouseMoved", *spots[0])
        page.point("mousePressed", *spots[0], 1)
        for spot in spots[1:]:
            page.point("mouseMoved", *spot, 1)
        page.point("mouseReleased", *spots[-1])

    def write(self) -> None:
        """Writes something into a field that is in sight."""
        page, text = self.who.page, self.chance.choice(WRITTEN)
        names = page.answer(CONTROLS)
        fields = page.answer(
            "controls.map((it, at) => (it.matches('input:not([type=checkbox]):not([type=range])') ? at : -1)).filter((at) => at >= 0)"
        )
        if fields:
            at = self.chance.choice(fields)
            self.done.append(f"writes {text!r} in {names[at]}")
            page.answer(f"controls[{at}].focus(); controls[{at}].select()")
            page.insert(text)
            page.press("Enter", number=13)

    def note(self) -> None:
        """Pins a note."""
        page, text = self.who.page, f"note {self.chance.randrange(100)}"
        self.done.append(text)
        page.answer("el('tab-log').click(); el('note').focus()")
        page.insert(text)
        page.press("Enter", number=13)

    def open(self) -> None:
        """Opens a machine, or a source and runs it."""
        who, name = self.who, self.chance.choice(("echo", "draws", "draw", "face", "keys", "hello", "lines", "race", "snake"))
        self.done.append(f"opens {name}")
        if name == "draw":
            return who.page.answer("el('draw').click()")
        if name == "face":
            return who.choose("face.orsr", FACE)
        sources = {"echo": ECHOES.format(more=0), "draws": DRAWS}
        if name not in sources:
            return who.choose(f"{name}.json", (EXAMPLES / f"{name}.json").read_bytes())
        who.choose(f"{name}.asm", sources[name].encode())
        who.page.wait(f"galluspa.source().file === '{name}.asm'")
        who.page.answer("el('source-run').click()")

    def resize(self) -> None:
        """Gives the window another size."""
        size = self.chance.choice(SIZES)
        self.done.append(f"a window of {size}")
        self.who.page.resize(*size)

    # What has to be so

    def is_paused(self) -> bool:
        """Pauses the machine, if one runs. Returns whether it is paused, and was run or opened at all."""
        self.who.page.answer("el('board').close(); galluspa.frame()?.on && el('run').click()")
        time.sleep(0.5)
        return bool(self.who.page.answer("galluspa.frame() && !galluspa.frame().on"))

    def save(self) -> None:
        """The recording that the page saves is accepted."""
        for old in self.who.folder.glob("*.orsr"):
            old.unlink()
        if not self.is_paused():
            return
        self.done.append("saves")
        self.who.page.answer("el('own-line').textContent = ''; el('save-recording').click()")
        self.who.page.wait(OWN_JUDGED)
        time.sleep(0.5)
        for path in self.who.folder.glob("*-live.orsr"):
            if program("check", path.read_bytes())[1]:
                self.say(f"FALSE: {program('check', path.read_bytes())[0]}")

    def fill(self) -> None:
        """The storage is full from here on, or fails."""
        is_full = self.chance.random() < 0.5
        self.done.append("fills the storage" if is_full else "has the storage fail")
        if is_full:
            self.who.page.limit_storage(1000)
        else:
            self.who.page.answer(FAILS)

    def make_room(self) -> None:
        """The storage answers again, and all is kept then."""
        self.done.append("makes room")
        self.who.page.limit_storage()
        self.who.page.answer(ANSWERS)
        self.is_paused()
        self.wait_until_kept()

    def wait_until_kept(self) -> None:
        """Waits until nothing is lost if the page is left, and where a machine that is kept is paused is kept, too."""
        self.who.page.wait(f"!galluspa.isUnsafe() && (!galluspa.frame()?.hasOwn || galluspa.frame().on || {IS_KEPT})")

    def change_tab(self) -> None:
        """Goes to the other tab, in which all is as it was."""
        self.is_paused()
        left, (self.who, self.other) = self.who.page.answer(OPEN), (self.other, self.who)
        self.who.page.show()
        self.done.append("goes to the other tab")
        if self.left is not None:
            self.compare(self.left, "in the other tab")
        self.left = left

    def compare(self, before: dict[str, Any], where: str) -> None:
        """What is open is what was open before."""
        lost: dict[str, object] = {}
        for _ in range(TRIES):
            after = self.who.page.answer(OPEN)
            # A copy that the other tab made of a branch is a branch, too.
            after["branches"] = [branch for branch in after["branches"] if branch in before["branches"]]
            lost = {part: (before[part], after[part]) for part in before if before[part] != after[part]}
            if not lost:
                break
            time.sleep(0.5)
        if lost:
            self.say(f"DIFFERS {where}: {lost}")

    def look_up(self) -> None:
        """Each run that was shown as kept is kept, with its inputs."""
        heads = {head["of"]: head.get("inputs", 0) for head in self.who.page.answer(HEADS)}
        for run, inputs in self.safe.items():
            if heads.get(run, -1) < inputs:
                self.say(f"LOST {run}, with {inputs} inputs: {heads.get(run, 'it is gone')}")
        self.safe = {run: inputs for run, inputs in self.safe.items() if run in heads}

    def come_back(self) -> None:
        """What was open is there again, though the page was loaded anew or its process was ended."""
        who = self.who
        is_open = self.is_paused()
        who.page.answer("el('tab-log').click(); el('note').focus()")
        if is_open:
            # It is what was worked on last, whatever was done in the other tab.
            who.page.insert("last")
            who.page.press("Enter", number=13)
            time.sleep(2)
            self.wait_until_kept()
        before: dict[str, Any] = who.page.answer(OPEN)
        if self.chance.random() < 0.5:
            self.done.append("loads the page anew")
            who.reload()
        else:
            self.done.append("ends the page")
            who.page.crash()
            who.page = browser.Page(who.browser.pipe, PAGE)
            who.page.show()
            who.ready()
            who.page.save_into(who.folder)
        self.look_up()
        if not before.pop("isKept") or not is_open:
            return
        who.page.wait("!el('continue').disabled")
        offered = who.page.answer("el('continue').textContent")
        if f"Continue{before['name']}," not in offered:
            return self.say(f"{before['name']} was open, and another one is offered: {offered}")
        who.page.answer("el('continue').click()")
        who.page.wait("galluspa.work().generation && galluspa.frame() && !galluspa.frame().on && !galluspa.frame().isReplay")
        self.compare(before, "after that")


def visit(seed: int, events: int) -> int:
    """Uses the page by so many events. Returns how many times something was lost, false or wrong."""
    with tempfile.TemporaryDirectory(ignore_cleanup_errors=True) as folder, begun(Path(folder)) as who:
        (Path(folder) / "other").mkdir()
        other = Person(who.browser, Path(folder) / "other")
        visitor = Visitor(who, other, seed)
        for each in (other, who):
            each.page.resize(*SIZES[0])
        who.page.show()
        visitor.open()
        for number in range(1, events + 1):
            visitor.do_something()
            at, is_full = number % EVENTS, number // EVENTS % 3 == 2
            if at == EVENTS // 3:
                visitor.save()
            if is_full and at == FULL_FROM[0]:
                visitor.fill()
            if is_full and at == FULL_FROM[1]:
                visitor.make_room()
            if at == 0:
                visitor.come_back()
                if visitor.chance.random() < 0.5:
                    visitor.change_tab()
        return visitor.found


if __name__ == "__main__":
    parser = argparse.ArgumentParser(description="Uses the page by random events, and says what is lost or false.")
    parser.add_argument("seed", type=int, nargs="?", default=1)
    parser.add_argument("events", type=int, nargs="?", default=1000)
    given = parser.parse_args()
    found = visit(given.seed, given.events)
    print(f"seed {given.seed}: {given.events} events, {found} findings")
