"""Somebody who uses the page by keys and clicks, with a browser whose profile is there again later."""

import json
import re
from collections.abc import Iterator
from contextlib import contextmanager
from pathlib import Path

import galluspa.formats.recording
from tests.page.driver.desk import PAGE, Desk, expect, fail, program
from tests.page.driver.given import KEY
from tests.page.driver.records import HOLD_UP
from tests.page.driver.shows import IS_STORED, OWN_JUDGED, SENT, WORD
from tests.tools import browser

TEXT = "(document.querySelector('#g-source .text')?.textContent ?? '')"
NUMBER = "document.getElementById('g-kept-number').textContent"
KEPT = "[...document.querySelectorAll('#g-kept-list p')].map((it) => it.textContent)"
ITEM = re.compile(r"(\w+)(?:, branch (\d))?, of .*: ([\d,]+) instructions?, (\d+) inputs?, [\d.]+ [kM]B")
COUNT = "Number(document.getElementById('g-count').textContent.split(' ')[0].replaceAll(',', ''))"


class Person(Desk):
    """Somebody who uses the page by keys and clicks, with a browser that is there again later."""

    def __init__(self, running: browser.Browser, folder: Path) -> None:
        super().__init__(running, browser.Page(running.pipe, PAGE), folder)

    def begin_drawing(self) -> None:
        """Starts the drawing program, which sends back each key."""
        self.press("#g-draw")
        self.page.wait("document.activeElement.id === 'g-screen' && document.getElementById('g-run').textContent === 'Pause'")

    def type(self, keys: str) -> None:
        """Types keys, and waits until the program has sent them."""
        for key in keys:
            self.page.press(key)
        self.page.wait(f"{SENT}.endsWith({keys!r})")

    def run_or_pause(self) -> None:
        """Presses the button that runs and pauses, and waits until the other one is there."""
        before = self.page.answer("document.getElementById('g-run').textContent")
        self.press("#g-run")
        self.page.wait(f"document.getElementById('g-run').textContent !== '{before}'")

    def wait_until_kept(self) -> None:
        """Waits until the page has kept what came, which it does by itself half a second later. A machine that does much else takes longer."""
        self.page.wait(IS_STORED)

    def hold_up_writes(self) -> None:
        """Holds up all that the page writes from here on."""
        self.page.answer(HOLD_UP)

    def count(self) -> int:
        """Returns the count that is shown."""
        return self.page.answer(COUNT)

    def kept(self) -> list[tuple[str, int, int]]:
        """Returns what the page offers of what is kept: the branch of each, its count and its inputs."""
        self.page.wait(f"{KEPT}.length")
        texts = self.page.answer(KEPT)
        found = [it for it in map(ITEM.fullmatch, texts) if it]
        if len(found) != len(texts):
            fail(f"what is kept: {texts}")
        return sorted((it[2] or "", int(it[3].replace(",", "")), int(it[4])) for it in found)

    def resume(self) -> None:
        """Continues what was kept last, and waits until it is where it was."""
        self.page.wait("!document.getElementById('g-continue').disabled")
        self.press("#g-continue")
        self.page.wait(f"{WORD} === 'PAUSED' && document.getElementById('g-run').textContent === 'Run'")

    def keys(self) -> str:
        """Returns the keys of the recording of what is open, which the program accepts."""
        self.page.answer("document.getElementById('g-own-line').textContent = ''")
        self.press("#g-save-recording")
        recording = self.saved("draw-live.orsr")
        # The verdict moves what is below it, so that a click that comes before it may miss.
        self.page.wait(OWN_JUDGED)
        expect("the line of what was kept", program("check", recording)[1], 0)
        return "".join(chr(event.value) for event in galluspa.formats.recording.read(recording).events if event.kind == KEY)


@contextmanager
def begun(folder: Path) -> Iterator[Person]:
    """A browser over the profile of a folder, with the page open, of which nothing may go wrong."""
    with browser.browser(folder / "profile") as running:
        who = Person(running, folder)
        yield who
        who.expect_sound()


def open_kept(who: Person, what: str, number: int = 1) -> None:
    """Presses the button of a kind of an item in the list of what is kept."""
    if not who.page.answer("document.getElementById('g-kept').open"):
        who.press("#g-kept summary")
    found = f"[...document.querySelectorAll('#g-kept-list button')].filter((it) => it.textContent === '{what}')[{number - 1}]"
    who.page.wait(found)
    who.click_on(found)


def write_line(who: Person, text: str) -> None:
    """Types a line into the source."""
    for character in text:
        who.page.press(character)
    who.page.wait(f"{TEXT}.includes({json.dumps(text)})")


def write_first(who: Person, text: str) -> None:
    """Types at the beginning of the source that is shown."""
    who.press("#g-source .text .chunk > :first-child")
    who.page.press("Home", number=36)
    write_line(who, text)


def continue_with(who: Person, name: str) -> None:
    """Presses *Continue*, which offers something of a name."""
    who.page.wait("!document.getElementById('g-continue').disabled")
    offered = who.page.answer("document.getElementById('g-continue-what').textContent")
    if not offered.startswith(f"{name},"):
        fail(f"Continue offers {offered!r} in place of {name}")
    who.press("#g-continue")
