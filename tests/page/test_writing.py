"""Help where one writes, and the ways between a program and its source, by real events: what a word means, how a name goes on, the one row of steps, Escape,
and where keys are taken."""

import json
import re
from collections import defaultdict

from tests.page.driver.shows import ASSEMBLED, EXACT, SOURCE_LINE, WORD, shown
from tests.page.driver.desk import CTRL, SHIFT, Desk, expect
from tests.page.driver.given import DRAWS, RECURSIVE
from tests.tools.samples import TOP, tool

HELP, OFFERED = shown("help"), "[...el('words').children].map((it) => it.textContent)"
IS_HELPED, IS_OFFERED = "el('help').checkVisibility()", "el('words').checkVisibility()"
FOCUS = "document.activeElement === sourceField.field ? 'source' : document.activeElement.id.slice(2)"
# The middle of a word of a line, by its columns.
MIDDLE = """(([line, from, to]) => {
  const range = document.createRange(), text = sourceField.rows[line].firstChild;
  range.setStart(text, from);
  range.setEnd(text, to);
  const { left, top, width, height } = range.getBoundingClientRect();
  return [left + width / 2, top + height / 2];
})"""
WORDS = """SIZE = 0x41
Count = R5
start:  MOV' R3, SIZE       ; MOV is only said here
        SUB SP, SP, 8
loop:   STR R3, R1, SERIAL - TIMER
        ADD Count, Count, 0FFH
        B loop
        string "MOV"
        until loops
"""
STEPS = ("line-out-back", "line-over-back", "back", "run", "step", "line-over", "line-out", "next-run")


def point_at(desk: Desk, line: int, word: str) -> None:
    """Rests the mouse on a word of a line, which is counted from 1."""
    text = desk.page.answer(f"sourceField.lines[{line - 1}]")
    at = text.index(word)
    x, y = desk.page.answer(f"{MIDDLE}({[line - 1, at, at + len(word)]})")
    desk.page.point("mouseMoved", x, y)


def said_rows(text: str, head: str) -> list[list[str]]:
    """Returns the rows of a table of docs/assembler.md, by its head, without its marks and links."""
    table = text.partition(f"| {head}")[2].split("\n\n")[0].split("\n")[2:]
    plain = [re.sub(r"\. \[How[^]]*\]\([^)]*\)", "", row) for row in table]
    plain = [re.sub(r"\[([^]]*)\]\([^)]*\)", r"\1", row).replace("`", "") for row in plain]
    return [[cell.strip() for cell in row.strip("|").split(" | ")] for row in plain]


def have_the_tables(desk: Desk) -> None:
    """The help has what the tables of docs/assembler.md say of each mnemonic, directive, device and register."""
    page, text = desk.page, (TOP / "docs/assembler.md").read_text()
    wanted = defaultdict[str, list[str]](list)
    for form, _, does in said_rows(text, "instruction |"):
        wanted[form.split()[0]] += [form, does]
    for form, _, call, does in said_rows(text, "branch | word"):
        wanted[form.split()[0]] += [form, does]
        wanted[call.split()[0]] += [call, does if does == "(nothing)" else f"R15 := 404, {does}"]
    for forms, does in said_rows(text, "directive |"):
        for form in re.split(r", (?=offsets|phase)", forms):
            wanted[form.split()[0]] += [form, does]
    for name, _, what in said_rows(text, "name | value"):
        wanted[f"word {name}"].append(what)
    for names, what in said_rows(text, "register |"):
        for name in re.findall(r"[A-Z]+\d*", names):
            wanted[f"MOV R1, {name}"].append(what)
    desk.open_source("tables.asm", "\n".join(wanted))
    for line, (name, parts) in enumerate(wanted.items()):
        page.answer(f"sourceField.goTo({line}, {len(name) - 1})")
        # What scrolls hides the help.
        desk.settle()
        page.press("F1")
        page.wait(f"{IS_HELPED} && {HELP}.startsWith({json.dumps(name.split()[-1])})")
        said = page.answer(HELP)
        expect(f"what the help of {name} lacks: {said}", [it for it in parts if it not in said], [])
        page.press("Escape")


def test_say_words(desk: Desk) -> None:
    """The mouse over a word, and F1 at it, say what it means; values are decimal, hexadecimal and a character; a register has its value at the cursor."""
    page = desk.page
    have_the_tables(desk)
    desk.open_source("words.asm", WORDS)
    for line, word, wanted in (
        (3, "MOV'", ("MOV': an instruction", "MOV' R13, 14", "R13 := 000E0000H", "from 0 to 65,535")),
        (1, "0x41", ("65 = 41H = 'A'",)),
        (6, "0FFH", ("255 = FFH",)),
        (3, "SIZE", ("SIZE: a constant, line 1", "65 = 41H = 'A'")),
        (7, "loop", ("loop: a label, line 5", "address 0008 · 2", "8 = 8H")),
        (6, "Count", ("Count: a name of R5",)),
        (5, "SERIAL", ("SERIAL: a device", "the serial line", "-56 = FFFFFFC8H")),
        (8, "string", ("string: a directive", "puts the bytes of a text")),
        (9, "until", ("until: a directive", "until stops", "until loops")),
    ):
        page.point("mouseMoved", 5, 5)
        page.wait(f"!{IS_HELPED}")
        point_at(desk, line, word)
        page.wait(IS_HELPED)
        for text in wanted:
            expect(f"whether the help of {word} has {text}: {page.answer(HELP)}", text in page.answer(HELP), True)
        # It is beside the word, in the window.
        inside = "(({ left, right, top, bottom }) => left >= 0 && right <= innerWidth && top >= 0 && bottom <= innerHeight)(el('help').getBoundingClientRect())"
        expect(f"whether the help of {word} is in the window", page.answer(inside), True)
    for line, word in ((3, "is only"), (8, '"MOV"')):
        point_at(desk, line, word)
        page.wait(f"!{IS_HELPED}")
        # Help that is to come is there half a second after the mouse rests, in frames of a busy browser.
        for _ in range(40):
            desk.settle()
        expect(f"whether {word} has help", page.answer(IS_HELPED), False)
    page.answer("sourceField.goTo(4, 11)")
    page.press("F1")
    page.wait(f"{IS_HELPED} && {HELP}.startsWith('STR: an instruction')")
    page.press("Escape")
    expect("what Escape leaves", page.answer(f"[{IS_HELPED}, {FOCUS}]"), [False, "source"])
    page.press("F1")
    page.insert(" ")
    page.wait(f"!{IS_HELPED}")
    page.press("z", modifiers=CTRL)
    page.answer("sourceField.goTo(9, 0)")
    page.press("F1")
    page.wait(f"{IS_HELPED} && {HELP}.startsWith('Help')")
    page.wait(ASSEMBLED)
    desk.run_source()
    page.wait("galluspa.count() > 1000")
    desk.pause()
    point_at(desk, 3, "R3")
    page.wait(f"{IS_HELPED} && {HELP}.includes('at the cursor: 4,259,840 = 410000H')")
    point_at(desk, 6, "Count")
    page.wait(f"{IS_HELPED} && {HELP}.includes('at the cursor: ')")
    value = page.answer("galluspa.shownPart('R', 5)")
    expect("the value of the register that has a name", f"at the cursor: {value:,} = {value:X}H" in page.answer(HELP), True)
    page.point("mouseMoved", 5, 5)
    page.wait(f"!{IS_HELPED}")


def test_complete(desk: Desk) -> None:
    """As one types, the names with which a word goes on are offered: Tab takes one, arrows choose, Escape ends that, and no key else is changed by it."""
    page = desk.page
    desk.open_source("names.asm", "waiting: B waiting\nwaited = 5\nDisplay.Dot: B R15\n")
    page.answer("sourceField.goTo(3, 0)")

    def type_text(text: str) -> None:
        for character in text:
            page.insert(character)

    type_text("M")
    expect("whether one letter is enough", page.answer(IS_OFFERED), False)
    type_text("U")
    page.wait(IS_OFFERED)
    expect("what is offered at the beginning of a line", page.answer(OFFERED), ["MUL", "MUL'"])
    page.press("Tab")
    type_text(" R1, ser")
    expect("what is offered of devices, in lower case", page.answer(OFFERED), ["serial"])
    page.press("Tab")
    type_text(", wai")
    expect("the names of the source", page.answer(OFFERED), ["waiting", "waited"])
    page.press("ArrowDown")
    page.press("ArrowDown")
    expect("the one that is chosen", page.answer("el('words').querySelector('[aria-selected=true]').textContent"), "waited")
    page.press("Enter")
    expect("the line", page.answer("sourceField.lines[3]"), "MUL R1, serial, waited")
    type_text(" + wai")
    page.press("Escape")
    expect(
        "what Escape leaves",
        page.answer(f"[{IS_OFFERED}, {FOCUS}, sourceField.lines[3]]"),
        [False, "source", "MUL R1, serial, waited + wai"],
    )
    page.press("Enter")
    expect("the lines after Enter", page.answer("sourceField.lines.slice(3)"), ["MUL R1, serial, waited + wai", ""])
    type_text("b disp")
    expect("a name with a dot", page.answer(OFFERED), ["Display.Dot", "display"])
    page.press(" ", "Space", 2, 32)
    page.press("Enter")
    expect("the line that Ctrl+Space completes", page.answer("sourceField.lines[4]"), "b Display.Dot")
    type_text(" ; wai")
    expect("whether a comment is completed", page.answer(IS_OFFERED), False)
    page.press("Enter")
    type_text("MOV")
    expect("whether a mnemonic that is whole is completed", page.answer(IS_OFFERED), False)
    type_text(" R1, wai")
    page.wait(IS_OFFERED)
    page.press("ArrowLeft", number=37)
    page.wait(f"!{IS_OFFERED}")
    page.press("End", number=35)
    type_text("t")
    page.wait(IS_OFFERED)
    x, y = page.answer("(({ left, top }) => [left + 5, top + 5])(el('words').firstChild.getBoundingClientRect())")
    desk.click_at(x, y)
    expect("the line after a click", page.answer("sourceField.lines[5]"), "MOV R1, waiting")


def test_name_mistakes(desk: Desk) -> None:
    """A missing comma is called so, a sign that begins nothing is shown, and of a long word a message has the beginning."""
    long = "a" * 5000
    desk.open_source("wrong.asm", f"MOV R1 5\nMOV\u00a0R1, 5\nstring \u201cHi\u201d\n{long}")
    said = desk.page.answer("sourceField.rows.map((row) => row.dataset.wrong ?? '')")
    wanted = [
        "^ a comma is missing before 5",
        "^ '\\xa0' begins no name, number, string or sign",
        "^ '\u201c' begins no name, number, string or sign",
        f"^ {'a' * 60}.. is neither an instruction nor a directive; a label ends with a colon",
    ]
    expect("what is said below the lines", said, wanted)


def test_step_by_keys(desk: Desk) -> None:
    """One row of steps is beside the source and beside the code; the keys of a browser's debugger do the same from anywhere; a machine without a source has
    the same steps."""
    page = desk.page
    desk.run_text("sum.asm", RECURSIVE, 1_000)
    page.press("F8")
    page.wait("!galluspa.frame().on")
    for tab in ("code", "source", "state"):
        desk.press(f"tab-{tab}")
        expect(f"the steps beside {tab}", page.answer(f"{json.dumps(STEPS)}.filter((name) => !el(name).checkVisibility())"), [])
    expect("how many rows of steps there are", page.answer("document.querySelectorAll('#g-line-over').length"), 1)
    desk.press("tab-source")
    counts = walk_by_keys(desk)
    # The source of the machine is not shown, so that the page does not take it for the machine's.
    desk.open_source("other.asm", "done: B done")
    path = desk.folder / "sum.asm"
    path.write_text(RECURSIVE)
    desk.start("sum.json", tool("assemble", path).output)
    desk.click("run")
    page.wait(f"{WORD} === 'DONE' && !galluspa.source().isRunning")
    desk.go_on()
    page.wait("galluspa.count() > 1000")
    desk.pause()
    desk.press("tab-code")
    expect("the counts of the same steps without a source", walk_by_keys(desk), counts)
    desk.press("tab-state")


def walk_by_keys(desk: Desk) -> list[int]:
    """Steps over a call that calls itself, back, into it, out of it, and by buttons; returns the counts."""
    page, counts = desk.page, list[int]()
    desk.look_at(2)
    for name, modifiers in (
        ("F10", 0),
        ("O", SHIFT),
        ("F11", 0),
        ("F11", 0),
        ("U", SHIFT),
        ("F11", 0),
        ("F11", SHIFT),
        ("O", SHIFT),
    ):
        before = page.answer("galluspa.shownCount()")
        if name in "OU":
            page.answer("el('cursor').focus()")
        page.press(name, modifiers=modifiers)
        page.wait(f"galluspa.shownCount() !== {before} && {EXACT}")
        counts.append(page.answer("galluspa.shownCount()"))
    for name in ("step", "line-out-back", "line-over", "line-over-back", "step", "line-out"):
        before = page.answer("galluspa.shownCount()")
        desk.press(name)
        page.wait(f"galluspa.shownCount() !== {before} && {EXACT}")
        counts.append(page.answer("galluspa.shownCount()"))
    return counts


def test_escape_between(desk: Desk) -> None:
    """Escape goes from the source to the program that runs, and back; with another tab in sight it is a key of the machine; without a machine it leaves the
    source."""
    page = desk.page
    desk.open_source("draws.asm", DRAWS)
    page.answer("sourceField.goTo(5, 3)")
    page.press("Escape")
    expect("where Escape goes without a program", page.answer(FOCUS), "source-run")
    desk.run_source()
    page.wait("galluspa.frame().on && document.activeElement === el('screen')")
    page.press("Escape")
    expect("where Escape goes from the screen", page.answer(f"[{FOCUS}, sourceField.selected[0]]"), ["source", [5, 3]])
    page.press("Escape")
    expect("where Escape goes from the source", page.answer(FOCUS), "screen")
    page.press("a")
    page.wait("galluspa.frame().inputs === 1")
    desk.press("tab-state")
    page.answer("el('screen').focus()")
    page.press("Escape")
    page.wait("galluspa.frame().inputs === 2")
    expect("what has the focus then", page.answer(FOCUS), "screen")
    desk.pause()
    desk.press("tab-source")


def test_go_to_keys(desk: Desk) -> None:
    """Back and on by inputs lands at the instruction that takes the key, also of keys that waited; by comma and dot at the count at which it came."""
    page = desk.page
    desk.run_text("draws.asm", DRAWS, 1_000_000)
    for number, key in enumerate("abc", 1):
        page.press(key)
        page.wait(f"galluspa.frame().inputs === {number}")
    page.wait("galluspa.count() > 3000000")
    desk.pause()
    came = [count for count, *_ in page.answer("galluspa.live('inputs', {})")["inputs"]]
    taken = list[int]()
    for key in "cba":
        taken.insert(0, desk.press_and_look("back-run"))
        expect(f"the line that takes {key}", page.answer(SOURCE_LINE), 9)
        page.press("F11")
        page.wait(f"galluspa.shownCount() === {taken[0] + 1} && {EXACT}")
        expect(f"R0 after it takes {key}", page.answer("galluspa.shownPart('R')"), ord(key))
        desk.look_at(taken[0])
    expect("whether each is taken after it came", [one < other for one, other in zip(came, taken)], [True] * 3)
    expect("where one goes before the first key", desk.press_and_look("back-run"), 0)
    for count in taken:
        expect("where one goes on", desk.press_and_look("next-run"), count)
    desk.press("next-run")
    page.wait("!galluspa.isPast()")
    page.answer("el('cursor').focus()")
    for count in reversed(came):
        page.press(",")
        page.wait(f"galluspa.shownCount() === {count} && {EXACT}")
    # Two keys at one count: the second one waits.
    waiting = "\n".join(f"        {line}" for line in ('input 10, key, "xy"', "checkpoints 9000"))
    desk.run_text("waits.asm", DRAWS + waiting, 100_000)
    desk.pause()
    last = desk.press_and_look("back-run")
    first = desk.press_and_look("back-run")
    expect("whether both are taken in turn", 10 < first < last, True)
    for count, key in ((first, "x"), (last, "y")):
        desk.look_at(count + 1)
        expect(f"R0 after the instruction at {count}", page.answer("galluspa.shownPart('R')"), ord(key))
    desk.look_at(first)
    expect("where one goes on from the first", desk.press_and_look("next-run"), last)


def test_go_to_lines(desk: Desk) -> None:
    """The field *go to* takes a line of the source that is shown, one of a file, a name and what the page writes of a word."""
    page = desk.page
    desk.run_text("draws.asm", DRAWS, 1_000_000)
    page.press("a")
    page.wait("galluspa.frame().inputs === 1")
    page.wait("galluspa.count() > 2000000")
    desk.pause()
    for text, line in (
        ("line 9", 9),
        ("draws.asm:12", 12),
        ("wait", 6),
        ("draw + 4", 13),
        ("line 10 of draws.asm", 10),
        ("PC 4", 3),
        ("·11", 13),
    ):
        page.answer("el('cursor').focus()")
        page.press("Home")
        page.wait(f"galluspa.cursor() === 0 && {EXACT}")
        desk.go_to(text)
        page.wait(f"galluspa.shownCount() > 0 && {EXACT} && !galluspa.isSearching() && {SOURCE_LINE} === {line}")
    for text, why in (("line 1", "Line 1 of draws.asm has no instruction."), ("Draw", "There is no name Draw; did you mean draw?")):
        desk.go_to(text)
        page.wait(f"{shown('notice')} === {json.dumps(why)}")
