"""The walk of docs/live.md from an empty page to a program that others can open and check: its mistake is found by where a dot comes from;
the project is exported, opened in a browser that has never seen it, and its recording is checked. Each step has real events, with the program, the mended line, the
words and the command of the document."""

import os
import re
from pathlib import Path

from tests.page.driver.shows import ASSEMBLED, EXACT, FOLLOWED, HEADLINE, JUDGED, LINE, PARTS, SOURCE_LINE, SOURCE_SAID, WHY
from tests.page.driver.desk import CTRL, Desk, expect, fail

from tests.tools import browser
from tests.tools.samples import PROGRAM, TOP, group, run

# Where the document begins to be about the walk, and the bars that it draws: their height, and for each how wide it is before the mistake is mended.
HEADING = "### From nothing to a program of your own"
KEYS, HIGH, WIDE, UNIT = "123", 256, (19, 22, 25), 3


def read_walk() -> tuple[list[str], str]:
    """Returns the texts that the document has typed and run, in their order, and what it says, in one line."""
    text = (TOP / "docs/live.md").read_text().partition(HEADING)[2].partition("\n##")[0]
    # A list has them three blanks to the right.
    blocks = re.findall(r"^   ```\w+\n(.*?)^   ```", text, re.DOTALL | re.MULTILINE)
    return [re.sub(r"^   ", "", it, flags=re.MULTILINE).rstrip("\n") for it in blocks], " ".join(text.split())


def line_of(said: str) -> int:
    """Returns the line, counted from 1, to which the document says that a link leads."""
    return int(group(r"goes to line (\d+)", said))


def test_walk(desk: Desk) -> None:
    """Each step of the walk does what the document says of it."""
    (source, mended, command), said = read_walk()
    write(desk, source, said)
    type_digits(desk)
    ask_why(desk, said)
    mend(desk, mended, said)
    desk.press("export")
    name = group(r"recording-of (\S+)", command)
    path = desk.folder / name
    path.write_bytes(desk.saved(name))
    line = open_elsewhere(path, desk.page.answer("sourceField.text"), said)
    places = {**os.environ, "PATH": f"{PROGRAM.parent}:{TOP}:{os.environ['PATH']}", "PYTHONDONTWRITEBYTECODE": "1"}
    ran = run(["bash", "-ec", command], cwd=desk.folder, env=places)
    expect("what the command prints of the exported page", (ran.output.decode(), ran.errors), (f"{line}\n", ""))


def write(desk: Desk, source: str, said: str) -> None:
    """Types the program into an empty page."""
    page = desk.page
    desk.press("write")
    page.wait("document.activeElement === sourceField.field")
    for line in source.split("\n"):
        type_as_a_person(desk, line)
        page.press("Enter")
    page.wait(ASSEMBLED)
    expect("what the page says of the program", page.answer(SOURCE_SAID), group(r"is \*(program.asm: [^*]*)\*", said))


def type_digits(desk: Desk) -> None:
    """Runs the program by Ctrl+Enter, types the digits, and pauses: each has drawn a bar that is too wide."""
    page = desk.page
    page.press("Enter", modifiers=CTRL)
    page.wait("galluspa.source().isRunning && galluspa.frame().on && document.activeElement === el('screen')")
    for number, key in enumerate(KEYS):
        page.press(key)
        page.wait(f"galluspa.frame().inputs === {number + 1}")
    page.wait(f"darkDots() === {HIGH * sum(WIDE)}")
    desk.press("run")
    page.wait("!galluspa.frame().on && sourceField.rows.some((row) => row.dataset.did)")


def ask_why(desk: Desk, said: str) -> None:
    """Clicks on the right bar: the links lead from the dot to the key, and a click on one goes to its line."""
    page = desk.page
    desk.click_dot(64 + WIDE[-1] // 2, HIGH // 2)
    page.wait(f"el('why-list')?.childElementCount && {FOLLOWED}")
    card = page.answer("el('card').innerText")
    for words in (group(r"a card: \*([^*]*) \.\.\*", said), group(r"Below \*([^*]*)\*", said)):
        expect(f"whether the card says {words!r}", words in card, True)
    links, rows = re.findall(r"`(R\d+ = [0-9A-F]{8})`", said), page.answer(WHY)
    found = [next((at for at, row in enumerate(rows) if link in row), None) for link in links]
    if None in found or found != sorted(found, key=lambda at: at or 0):
        fail(f"the links {links} are not in this order in {rows}")
    expect("where the links lead", any(group(r"\*(the input key \d+)\*", said) in row for row in rows), True)
    desk.click_on(f"el('why-list').children[{found[1]}].querySelector('button')")
    page.wait(f"{EXACT} && {SOURCE_LINE} === {line_of(said)}")


def mend(desk: Desk, line: str, said: str) -> None:
    """Puts a line above that one, and runs the program with the same keys: the page names the first line that differs, and the bars are as wide as they should be."""
    page = desk.page
    desk.click_on(f"sourceField.rows[{line_of(said) - 2}]")
    page.press("End", number=35)
    page.press("Enter")
    type_as_a_person(desk, line)
    page.wait(f"{ASSEMBLED} && galluspa.source().isAssembled")
    desk.press("source-again")
    page.wait(f"galluspa.frame().on && !galluspa.frame().isReplay && galluspa.frame().inputs === {len(KEYS)}")
    page.wait(f"{PARTS}.includes('First difference at')")
    differs = re.sub(r", at [\d,]+", "", page.answer(PARTS)).partition(" in this one")
    expect("the line that differs first", "".join(differs[:2]), group(r"\*(First difference at [^*]*)\*", said))
    page.wait(f"darkDots() === {HIGH * sum(UNIT * int(key) for key in KEYS)}")


def open_elsewhere(path: Path, source: str, said: str) -> str:
    """Opens the exported page in a browser with a profile of its own, as somebody does who got the file. Returns the verdict line that it shows."""
    with browser.browser() as running, running.page(path) as page:
        there = Desk(running, page, path.parent)
        page.wait(f"{JUDGED} && galluspa.source().isRunning")
        expect("the source there", page.answer("sourceField.text"), source)
        page.wait(f"darkDots() === {HIGH * sum(UNIT * int(key) for key in KEYS)}")
        headline = page.answer(HEADLINE)
        expect(f"whether {headline!r} is what the document says", headline.startswith(group(r"\*(Verified: )", said)), True)
        page.wait("el('lists').textContent.includes(`true at ${galluspa.count().toLocaleString('en-US')}`)")
        line: str = page.answer(LINE)
        there.expect_sound()
    return line


def type_as_a_person(desk: Desk, line: str) -> None:
    """Types a line character by character, over the blanks that the page put before it."""
    page = desk.page
    for _ in range(page.answer("sourceField.selected[0][1]")):
        page.press("Backspace")
    for character in line:
        page.insert(character)
