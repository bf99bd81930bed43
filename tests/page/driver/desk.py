"""The page in a browser, as a user has it before them, and what a test expects of it."""

import base64
import json
import re
import tempfile
import time
from collections.abc import Mapping
from functools import cache
from pathlib import Path
from typing import NoReturn

from galluspa.engine.program import Program
from tests.page.driver.shows import (
    ASSEMBLED,
    EXACT,
    IS_ON,
    IS_OVER,
    JUDGED,
    LINE,
    NOTICE,
    OWN_JUDGED,
    OWN_LINE,
    REFUSED_LINE,
    WORD,
    shown,
)
from tests.tools import browser
from tests.tools.samples import PROGRAM, TOP, run

PAGE = TOP / "web/galluspa.html"
CTRL, SHIFT = 2, 8
# The longest task of the page, in milliseconds of a processor.
LONGEST_TASK_MS = 100
# The menus, with what is in them.
MENUS = {
    "examples": ("snake", "draw", "face"),
    "kept": ("kept-list", "forget-all", "export", "pin-run", "project-name"),
    "more": ("find-before", "find-next", "search-kind", "search-range", "next", "zoom-all", "speed", "each"),
}
# What the browser says if a page that was used by script alone wants to ask before it is left.
NO_GESTURE = "Blocked attempt to show a 'beforeunload' confirmation panel for a frame that never had a user gesture since its load."
LINE_BYTES, LINES = 128, 768
REVERSED = bytes(int(f"{byte:08b}"[::-1], 2) for byte in range(256))


def fail(why: str) -> NoReturn:
    """Ends the test, and says why."""
    raise AssertionError(why)


def expect(what: str, found: object, wanted: object) -> None:
    """Ends the test unless what was found is what was wanted."""
    if found != wanted:
        fail(f"{what}: {found!r:.400} in place of {wanted!r:.400}")


@cache
def program(command: str, text: bytes) -> tuple[str, int]:
    """Returns the line that the program prints of a text, and the status."""
    answer = Program(PROGRAM).answer([command], text)
    return answer.line, answer.status


def program_dots(recording: bytes, checkpoint: int) -> bytes:
    """Returns the dots of a checkpoint as the machine has them in memory, of the picture that the program draws."""
    rows = run([PROGRAM, "screen", "--at", checkpoint], recording).output[-LINE_BYTES * LINES :].translate(REVERSED)
    return b"".join(rows[LINE_BYTES * line : LINE_BYTES * (line + 1)] for line in reversed(range(LINES)))


class Desk:
    """The page in a browser, as a user has it before them."""

    def __init__(self, running: browser.Browser, page: browser.Page, folder: Path) -> None:
        self.browser = running
        self.page = page
        self.folder = folder
        self.ready()
        page.save_into(folder)

    def ready(self) -> None:
        """Waits until the page can be used."""
        self.page.wait("document.body.dataset.ready")

    def reload(self) -> None:
        """Loads the page anew."""
        self.page.reload()
        self.ready()

    def begin_empty(self) -> None:
        """Loads the page anew, with nothing that is kept: what was open is written as the page is left, so all is deleted after that."""
        self.page.leave_for("about:blank")
        self.page.clear_storage()
        self.page.leave_for(self.page.url)
        self.ready()

    def settle(self) -> None:
        """Waits until the page has drawn what there is to draw by now."""
        self.page.answer("drawnAnew()")

    # The mouse and the keys

    def click_on(self, found: str) -> None:
        """Clicks with the mouse on the middle of the element that an expression is of. The page may move the element until the click comes,
        as its workers answer: then it is clicked on again, as a person would."""
        for _ in range(5):
            self.page.answer("drawnAnew()")
            self.page.answer(f"{found}.scrollIntoView({{ block: 'nearest' }})")
            # The page may make the element anew before the click: whatever the expression is of by then counts.
            self.page.answer(
                f"document.body.dataset.clicked = ''; document.addEventListener('click', ({{ target }}) => "
                f"(document.body.dataset.clicked = ({found})?.contains(target) ? 'yes' : ''), {{ once: true, capture: true }})"
            )
            self.click_at(*self.middle_of(found))
            if self.page.answer("document.body.dataset.clicked"):
                return
        fail(f"{found} is not hit by five clicks")

    def middle_of(self, found: str) -> tuple[float, float]:
        """Returns where the middle of the element is that an expression is of."""
        x, y = self.page.answer(
            f"(({{ left, top, width, height }}) => [left + width / 2, top + height / 2])({found}.getBoundingClientRect())"
        )
        return x, y

    def click_at(self, x: float, y: float, clicks: int = 1) -> None:
        """Clicks on a place of the window, once or twice."""
        self.page.point("mouseMoved", x, y)
        for number in range(1, clicks + 1):
            self.page.point_with("mousePressed", x, y, 1, 0, number)
            self.page.point_with("mouseReleased", x, y, 0, 0, number)

    def press(self, name: str) -> None:
        """Clicks on a control with the mouse, once it can be used; the menu that has it is opened first. A selector begins with `#`."""
        page, found = self.page, f"document.querySelector({json.dumps(name)})" if name.startswith("#") else f"el('{name}')"
        menu = next((menu for menu, names in MENUS.items() if name.removeprefix("#g-").split(" ")[0] in names), "")
        if menu and not page.answer(f"el('{menu}').open"):
            page.answer(f"el('{menu}').querySelector('summary').focus()")
            page.press("Enter")
        page.wait(f"{found}?.checkVisibility() && !{found}.disabled")
        self.click_on(found)

    def click(self, name: str) -> None:
        """Presses a button, though it may be out of sight."""
        self.page.answer(f"el('{name}').click()")

    def go(self, name: str, back: bool = False) -> None:
        """Goes to a control by Tab, or back to it by Shift+Tab."""
        for _ in range(100):
            self.page.press("Tab", modifiers=SHIFT if back else 0)
            if self.page.answer("document.activeElement.id") == f"g-{name}":
                return
        fail(f"Tab does not reach {name}")

    def write_to(self, field: str, text: str) -> None:
        """Writes to a field, in place of what is there, and presses Enter."""
        self.press(field)
        self.page.answer(f"el('{field}').select()")
        self.page.insert(text)
        self.page.press("Enter")

    def choose_option(self, name: str, text: str) -> None:
        """Chooses what a list of choices has, by its text or its value."""
        said = f"[...el('{name}').options].find((it) => it.textContent === {text!r} || it.value === {text!r}).value"
        self.page.answer(f"el('{name}').value = {said}; el('{name}').dispatchEvent(new Event('change', {{ bubbles: true }}))")

    def point_at_dot(self, x: int, y: int) -> tuple[float, float]:
        """Returns where a dot of the screen is, which is counted from the left and from below."""
        left, top, width = self.screen()
        return left + (x + 0.5) / 1024 * width, top + (767 - y + 0.5) / 768 * width * 0.75

    def click_dot(self, x: int, y: int) -> None:
        """Clicks on a dot of the screen."""
        self.click_at(*self.point_at_dot(x, y))

    def screen(self) -> tuple[float, float, float]:
        """Returns the left and the upper end of the screen, and its width."""
        return self.page.answer("(({ left, top, width }) => [left, top, width])(el('screen').getBoundingClientRect())")

    def dots(self) -> bytes:
        """Returns the dots that are on the screen, as the machine has them in memory."""
        self.settle()
        return base64.b64decode(self.page.answer("screenBytes()"))

    # Files

    def clear(self) -> None:
        """Clears what the page says, so that what it says next is seen."""
        self.page.answer("document.querySelector('.refusal').click(); el('notice').click(); el('refused').textContent = ''")

    def choose(self, name: str, text: bytes) -> None:
        """Opens a file by the button."""
        path = self.folder / name
        path.write_bytes(text)
        self.page.choose("#g-file", path)

    def open(self, name: str, text: bytes) -> None:
        """Opens a file by the button, after what the page says was cleared, also of verdicts and of the machine."""
        self.clear()
        self.page.answer("for (const name of ['line', 'how', 'own-line']) el(name).textContent = ''; galluspa.forget()")
        self.choose(name, text)

    def drop(self, files: Mapping[str, bytes]) -> None:
        """Drags files over the screen and drops them there together, after what the page says was cleared."""
        self.clear()
        if any(name.endswith(".orsr") for name in files):
            self.page.answer("el('line').textContent = el('how').textContent = ''")
        folder = Path(tempfile.mkdtemp(dir=self.folder))
        for name, text in files.items():
            (folder / name).write_bytes(text)
        left, top, width = self.screen()
        self.page.drop([folder / name for name in files], left + width / 2, top + width / 4)

    def saved(self, name: str) -> bytes:
        """Returns a file that the page saved, once it is whole."""
        path, end = self.folder / name, time.monotonic() + browser.PATIENCE
        while not self.page.has_saved(name):
            if time.monotonic() > end:
                fail(f"the page did not save {name}")
            time.sleep(0.05)
        content = path.read_bytes()
        path.unlink()
        return content

    # The machine

    def another_machine(self, opens: str) -> str:
        """Returns the expression for whether another machine is there than before something was done, which an expression does."""
        before = self.page.answer("galluspa.work().generation")
        self.page.answer(opens)
        return f"galluspa.work().generation !== {before} && galluspa.frame()?.generation === galluspa.work().generation"

    def start(self, name: str, text: bytes) -> None:
        """Opens a file, and waits until its machine is there."""
        is_there = self.another_machine("0")
        self.open(name, text)
        self.page.wait(is_there)

    def draw(self) -> None:
        """Starts the drawing program, and waits until it runs."""
        is_there = self.another_machine("0")
        self.press("draw")
        self.page.wait(f"{is_there} && {IS_ON} && document.activeElement === el('screen')")

    def go_on(self) -> None:
        """Runs the machine."""
        self.click("run")
        self.page.wait(IS_ON)

    def pause(self) -> None:
        """Pauses the machine, unless its run has ended meanwhile, as that of a game that is over: then the button would run it."""
        self.page.answer("galluspa.frame().on && el('run').click()")
        self.page.wait("!galluspa.frame().on")

    def type(self, keys: str) -> None:
        """Types keys, each of which the program sends back."""
        for key in keys:
            self.page.press(key)
            self.page.wait(f"el('out').textContent.endsWith({key!r})")

    def set_speed(self, speed: str) -> None:
        """Has the machine run at 25 MHz (`clock`), or as fast as it goes (`fast`)."""
        self.choose_option("speed", speed)

    def run_to_end(self, name: str, text: bytes) -> None:
        """Opens a recording or a session, and runs it to its end."""
        self.set_speed("fast")
        self.start(name, text)
        self.click("run")
        self.page.wait(IS_OVER + (f" && {JUDGED}" if name.endswith(".orsr") else ""), moving="galluspa.count()")

    def show_claim(self, number: int) -> None:
        """Shows a checkpoint of the recording that is open."""
        self.press("tab-state")
        self.write_to("claim-number", str(number))
        self.page.wait(f"el('claim').querySelector('canvas')?.getAttribute('aria-label').endsWith(' {number}')")

    def open_at_claim(self, number: int, count: int) -> None:
        """Opens a new recording at what a checkpoint claims, whose count is given."""
        self.show_claim(number)
        self.press("run-on")
        self.page.wait(f"galluspa.frame() && galluspa.count() === {count}")

    def save(self, name: str, what: str) -> bytes:
        """Saves the recording; its line is the program's, and the program accepts it."""
        self.page.answer("el('own-line').textContent = ''")
        self.click("save-recording")
        self.page.wait(OWN_JUDGED)
        recording = self.saved(f"{name}-live.orsr")
        expect(what, (self.page.answer(OWN_LINE), 0), program("check", recording))
        return recording

    # The past

    def look_at(self, count: int) -> None:
        """Looks at a count by the field of the region, once the timeline goes that far: how far a file goes the page asks when it is opened."""
        page = self.page
        page.wait(f"Number(el('cursor').getAttribute('aria-valuemax')) >= {count}")
        self.go_to(str(count))
        page.wait(f"galluspa.cursor() === {count} && {EXACT}")
        page.answer("el('cursor').focus()")

    def go_to(self, text: str) -> None:
        """Types a text into *Go to*, and Enter."""
        page = self.page
        page.answer("el('cursor').focus()")
        page.press("g")
        page.answer("el('goto').value = ''")
        page.insert(text)
        page.press("Enter")

    def press_and_look(self, name: str) -> int:
        """Clicks a button of the transport, and returns the count that is looked at then."""
        before = self.page.answer("galluspa.shownCount()")
        self.press(name)
        self.page.wait(f"galluspa.shownCount() !== {before} && {EXACT}")
        count: int = self.page.answer("galluspa.shownCount()")
        return count

    def column_of(self, count: float) -> float:
        """Returns where a count is in the timeline: its distance from the left end of the window."""
        x: float = self.page.answer(
            f"(({{ left, width }}, [from, to]) => left + width * ({count} - from) / (to - from))"
            "(el('track').getBoundingClientRect(), galluspa.span())"
        )
        return x

    def zoom_in(self, most: int) -> None:
        """Zooms to the cursor until so many counts are in sight at most."""
        self.page.answer("el('cursor').focus()")
        while self.page.answer(f"galluspa.span()[1] - galluspa.span()[0] > {most}"):
            self.page.press("+")
            self.settle()

    def ask_who_wrote(self, part: str) -> None:
        """Clicks on a part of the machine in *State*."""
        self.page.answer(f"stateCell('{part}').querySelector('button').click()")

    def set_break(self, place: str) -> None:
        """Sets a breakpoint at an address, a word or a name, in *Code*."""
        self.press("tab-code")
        self.press("code-at")
        self.page.answer("el('code-at').select()")
        self.page.insert(place)
        self.click_on("el('code-form').querySelector('[value=break]')")

    # A source

    def open_source(self, name: str, text: str) -> None:
        """Drops a source on the page, and waits until it is assembled; one of this name may be open before."""
        self.drop({name: text.encode()})
        shows = (
            f"sourceField.text === {json.dumps(text)}"
            if len(text) < 100000
            else f"sourceField.rows.length === {len(text.splitlines())}"
        )
        self.page.wait(f"galluspa.source().file === '{name}' && {shows} && {ASSEMBLED}")

    def run_source(self) -> None:
        """Runs the source by the button, and waits until its machine is there."""
        is_there = self.another_machine("0")
        self.press("source-run")
        self.page.wait(f"{is_there} && galluspa.source().isRunning")

    def run_text(self, name: str, text: str, past: int = -1) -> None:
        """Opens a source, runs it, and waits until its machine is past a count; a program that ends before goes on where it ends."""
        self.open_source(name, text)
        self.run_source()
        self.page.wait(f"galluspa.count() > {past} || {WORD} === 'DONE'")
        if self.page.answer(f"galluspa.count() <= {past}"):
            self.go_on()
            self.page.wait(f"galluspa.count() > {past}")

    def type_line(self, text: str) -> None:
        """Types a line into the source, and Enter."""
        self.page.insert(text)
        self.page.press("Enter")

    def replace_source(self, text: str) -> None:
        """Pastes a text in place of the whole source."""
        self.page.answer("sourceField.field.focus()")
        self.page.press("a", modifiers=CTRL, commands=["selectAll"])
        self.page.answer(
            "sourceField.field.dispatchEvent(new ClipboardEvent('paste', { bubbles: true, cancelable: true, clipboardData: (() => {"
            f" const data = new DataTransfer(); data.setData('text/plain', {json.dumps(text)}); return data; }})() }}))"
        )
        self.page.wait(f"sourceField.text === {json.dumps(text)} && {ASSEMBLED}")

    # What is expected

    def expect_line(self, what: str, text: bytes) -> None:
        """Expects the program's line of a recording that is open, in its colour."""
        self.page.wait(JUDGED)
        wanted, status = program("check", text)
        expect(what, self.page.answer(LINE), wanted)
        expect(
            f"the colour of {what}", self.page.answer("el('line').className"), f"line {('accepted', 'false', 'refused')[status]}"
        )

    def expect_refused(self, name: str, line: str) -> None:
        """Expects a file to be refused with a line."""
        self.page.wait(REFUSED_LINE)
        found = self.page.answer(f"[{shown('refused-name')}, {REFUSED_LINE}]")
        expect(f"what is refused of {name}", found, [f"The file {name} is refused:", line])

    def expect_notice(self, what: str, pattern: str) -> None:
        """Expects a notice in one line. One that is there from before may still be shown when this begins."""
        end = time.monotonic() + browser.PATIENCE
        while not re.fullmatch(pattern, said := self.page.answer(NOTICE)):
            if time.monotonic() > end:
                fail(f"{what}: {said!r}")
            time.sleep(0.03)

    def expect_sound(self) -> None:
        """Expects that nothing went wrong on the console, and that nothing was asked of the network."""
        expect("the errors of the page", [it for it in self.page.errors if not it.startswith(NO_GESTURE)], [])
        outside = [url for url in self.page.requests if not url.startswith(("file:", "blob:", "data:"))]
        expect("what the page asked of the network", outside, [])
