"""A source in the page: it is written, run, changed, run again with the same inputs, and gone through line by line, by real events."""

import re

from tests.page.driver.shows import ASSEMBLED, MODE, NOTICE, PARTS, SOURCE_LINE, SOURCE_SAID, STOP, WORD
from tests.page.driver.desk import CTRL, SHIFT, Desk, expect, fail
from tests.page.driver.given import DRAWS, RECURSIVE
from tests.tools.samples import EXAMPLES


def test_write(desk: Desk) -> None:
    """A program is written from nothing: a mistake has a row below its line, the count of words follows, labels go to the left, and it runs by
    Ctrl+Enter."""
    page = desk.page
    desk.press("write")
    page.wait("document.activeElement === sourceField.field")
    for character in "MVO R0, 5":
        page.insert(character)
    page.press("Enter")
    for character in "loop:":
        page.insert(character)
    desk.type_line("   ADD R0, R0, 1")
    desk.type_line("MOV R1, 3")
    desk.type_line("B loop")
    page.wait(f"{ASSEMBLED} && {SOURCE_SAID}.includes('1 problem')")
    said = page.answer("sourceField.rows.map((row) => row.dataset.wrong ?? '').filter(Boolean)")
    expect("what is said below the line", said, ["^ MVO is neither an instruction nor a directive: did you mean MOV?"])
    lines = page.answer("sourceField.lines")
    expect("the lines", lines[2:7], ["MVO R0, 5", "loop:   ADD R0, R0, 1", "        MOV R1, 3", "        B loop", "        "])
    expect("how it is said", page.answer("getComputedStyle(sourceField.rows[2], '::after').display"), "block")
    desk.press("source-run")
    desk.expect_notice("what is said without a program", "There is no program yet: 1 problem, the first in line 3[.]")
    desk.click_on("el('source-said').querySelector('button')")
    expect("where the caret is", page.answer("sourceField.selected[1]"), [2, 0])
    for _ in range(3):
        page.press("Delete")
    page.insert("MOV")
    page.wait(f"{ASSEMBLED} && {SOURCE_SAID} === 'program.asm: 4 words, 0 problems'")
    page.press("Enter", modifiers=CTRL)
    page.wait("galluspa.source().isRunning && galluspa.frame().on && galluspa.count() > 100000")
    desk.pause()
    page.wait(f"[4, 5, 6].includes({SOURCE_LINE}) && sourceField.rows.some((row) => row.dataset.did)")
    did = page.answer("sourceField.rows.map((row) => row.dataset.did ?? '')")
    if not did[3].startswith("R0 = ") or did[4] != "R1 = 00000003" or not did[5].startswith("to "):
        fail(f"what the lines did: {did}")


def test_edit(desk: Desk) -> None:
    """The text field does what people expect of one: undo and redo, Tab, selections, paste, and words that are deleted; Home and arrows are the browser's."""
    page = desk.page
    desk.open_source("edit.asm", "one\ntwo\n\nfour")
    page.answer("sourceField.goTo(1, 3)")
    for key in ("x", "y", "z"):
        page.insert(key)
    page.press("Enter")
    page.press("Tab")
    page.insert("(")
    expect("the text", page.answer("sourceField.text"), "one\ntwoxyz\n        (\n\nfour")
    page.press("Backspace", modifiers=CTRL)
    for _ in range(9):
        page.press("z", modifiers=CTRL)
    expect("the text after undo", page.answer("sourceField.text"), "one\ntwo\n\nfour")
    for _ in range(9):
        page.press("y", modifiers=CTRL)
    expect("the text after redo", page.answer("sourceField.text").startswith("one\ntwoxyz\n"), True)
    desk.open_source("edit.asm", "a\nb\nc")
    page.answer("sourceField.goTo(0, 0)")
    page.press("ArrowDown", modifiers=SHIFT)
    page.press("Tab")
    expect("the text after Tab over lines", page.answer("sourceField.text"), "        a\n        b\nc")
    page.press("Tab", modifiers=SHIFT)
    expect("the text after Shift+Tab", page.answer("sourceField.text"), "a\nb\nc")
    page.answer("sourceField.goTo(2, 0)")
    page.press("Backspace")
    expect("the text after Backspace at the beginning of a line", page.answer("sourceField.text"), "a\nbc")
    page.answer(
        "sourceField.field.dispatchEvent(new ClipboardEvent('paste', { bubbles: true, cancelable: true, clipboardData: (() => {"
        " const data = new DataTransfer(); data.setData('text/plain', '1\\r\\n2'); return data; })() }))"
    )
    expect("the text after a paste", page.answer("sourceField.text"), "a\nb1\n2c")
    expect("the elements", page.answer("sourceField.rows.map((row) => row.textContent).join('|')"), "a|b1|2c")
    page.answer("sourceField.goTo(0, 1)")
    page.compose("^", "ê")
    expect("the text after a composition", page.answer("sourceField.text"), "aê\nb1\n2c")
    page.press("Escape")
    expect("what has the focus after Escape", page.answer("document.activeElement.id"), "g-source-run")


def test_begin_at_left(desk: Desk) -> None:
    """The field begins at the left of the text, also after one went to a mistake, and the caret is never below the numbers of the lines."""
    page = desk.page
    desk.press("write")
    page.wait("document.activeElement === sourceField.field")
    sideways = "sourceField.box.scrollLeft"
    expect("how far a new program is scrolled", page.answer(sideways), 0)
    wide = "".join(
        f"        ADD R0, R0, {at:<24}; a remark that is so long that the line is wider than the field, and longer still, so that its end is far out of sight\n"
        for at in range(60)
    )
    desk.open_source("wide.asm", f"{wide}        MVO R1, 3\nwait:   B wait\n{wide}")
    expect("how far a source is scrolled", page.answer(sideways), 0)
    desk.click_on("el('source-said').querySelector('button')")
    expect("how far it is scrolled at a mistake", page.answer(f"[sourceField.selected[0], {sideways}]"), [[60, 8], 0])
    page.press("ArrowUp")
    page.press("End", number=35)
    if page.answer(sideways) < 100:
        fail("the end of a wide line is not in sight")
    page.press("Home", number=36)
    expect("where the caret is", page.answer("sourceField.selected[0]"), [59, 0])
    place = "getSelection().getRangeAt(0).getBoundingClientRect().left - document.querySelector('#g-source .numbers').firstChild.getBoundingClientRect().right"
    if page.answer(place) < 0:
        fail(f"the caret is {-page.answer(place)} points below the numbers of the lines")


def test_run_again(desk: Desk) -> None:
    """A program is changed and run with the keys of the run before, each at its count: the page names the first line that does something else, with both values,
    and x shows either run. A line that is put in moves nothing."""
    page = desk.page
    desk.run_text("draws.asm", DRAWS, 1_000_000)
    for key in "abc":
        page.press(key)
        page.wait(f"galluspa.frame().inputs === {'abc'.index(key) + 1}")
    page.wait("galluspa.count() > 3000000")
    desk.pause()
    inputs = page.answer("galluspa.live('inputs', {})")["inputs"]
    page.answer("sourceField.goTo(13, sourceField.lines[13].length)")
    page.press("Backspace")
    page.insert("8")
    page.wait(ASSEMBLED)
    line, did, before, at = compare_runs(desk)
    expect("the inputs of the second run", page.answer("galluspa.live('inputs', {})")["inputs"], inputs)
    # The first key is taken some instructions after it came: nine from its first look on, the last of them adds 8 in place of 4.
    if not inputs[0][0] < at < inputs[0][0] + 20:
        fail(f"the runs differ at {at}; the first key came at {inputs[0][0]}")
    expect("the line, what it did, and where in the run before", (line, did, before), (14, ["R5 = 00000004", "R5 = 00000008"], at))
    expect_both(desk, at, 8, 4)
    page.press("ArrowLeft")
    page.wait(f"galluspa.moment()?.at === {at - 1}")
    page.press("x")
    page.wait("el('when').textContent.startsWith('Previous run')")
    expect("R5 in the run before, before they part", page.answer("galluspa.shownPart('R', 5)"), 0)
    # Two lines that change nothing are put in, one at the beginning and one where the program waits for a key.
    for place, text in ((1, "        MOV R9, 0"), (7, "        ADD R9, R9, 0")):
        page.answer(f"sourceField.goTo({place}, 0)")
        page.insert(text)
        page.press("Enter")
    page.answer("sourceField.goTo(15, sourceField.lines[15].length)")
    page.press("Backspace")
    page.insert("4")
    page.wait(ASSEMBLED)
    line, did, before, later = compare_runs(desk)
    expect(
        "the line that was moved, what it did, and where in the run before",
        (line, did, before),
        (16, ["R5 = 00000008", "R5 = 00000004"], at),
    )
    expect_both(desk, later, 4, 8)


def compare_runs(desk: Desk) -> tuple[int, list[str], int, int]:
    """Runs the changed program with the inputs of the run before; that the button is pressed once more meanwhile changes nothing. Returns the line that differs
    first, what it did in both, and the counts after it."""
    page = desk.page
    page.answer("el('source-parts').textContent = ''")
    page.answer("el('source-again').click(); el('source-again').click()")
    page.wait(f"{PARTS}.startsWith('First difference at line ')")
    # Nor does the second press of a slow double click.
    for kind, pressed in (("mousePressed", 1), ("mouseReleased", 0)):
        page.point_with(kind, *desk.middle_of("el('source-again')"), pressed, 0, 2)
    expect("what the page says besides", page.answer(NOTICE), "")
    page.wait("galluspa.frame().on && !galluspa.frame().isReplay")
    desk.pause()
    said = re.match(
        r"First difference at line (\d+): (.*?) in the previous run, at ([\d,]+); (.*?) in this one, at ([\d,]+), ",
        page.answer(PARTS),
    )
    if not said:
        fail(f"the page says {page.answer(PARTS)!r}")
    before, at = (int(said[place].replace(",", "")) + 1 for place in (3, 5))
    expect("the mark in the timeline", page.answer("lane('hits').at(-1)").rpartition(" at ")[2], f"{at:,}")
    return int(said[1]), [said[2], said[4]], before, at


def expect_both(desk: Desk, at: int, own: int, other: int) -> None:
    """Expects R5 after the line that differs, in the run that is open and in the one before."""
    page = desk.page
    desk.click_on("el('source-parts').querySelector('button')")
    page.wait(f"galluspa.moment()?.exact && galluspa.moment().at === {at}")
    expect("R5 there", page.answer("galluspa.shownPart('R', 5)"), own)
    page.answer("el('cursor').focus()")
    page.press("x")
    page.wait("el('when').textContent.startsWith('Previous run')")
    expect("R5 in the run before", page.answer("galluspa.shownPart('R', 5)"), other)
    page.press("x")
    page.wait("el('when').textContent.startsWith('Registers')")
    expect("R5 again", page.answer("galluspa.shownPart('R', 5)"), own)


def test_step(desk: Desk) -> None:
    """Steps by line go into, over and out of a procedure that calls itself, forward and back, in the past and at now."""
    page = desk.page
    desk.run_text("sum.asm", RECURSIVE, 1_000)
    desk.pause()
    desk.look_at(2)
    page.wait(f"galluspa.moment()?.at === 2 && {SOURCE_LINE} === 3")

    def go(name: str, line: int, count: int) -> None:
        page.wait("!document.getElementById('g-" + name + "').disabled")
        desk.click_on(f"el('{name}')")
        # The line is drawn in the frame after the count.
        page.wait(
            f"galluspa.shownCount() === {count} && (galluspa.cursor() === null || galluspa.moment()?.at === {count}) && {SOURCE_LINE} === {line}"
        )

    over = page.answer(
        "galluspa.past('find', { from: 3, to: 1000, conditions: [{ kind: 1, from: 3, end: 4 }], request: galluspa.past('numbered') })"
    )["at"]
    go("line-over", 4, over)
    go("line-over-back", 3, 2)
    go("step", 5, 3)
    for count, line in ((4, 6), (5, 7), (6, 8), (7, 9), (8, 10)):
        go("step", line, count)
    inner = page.answer(
        "galluspa.past('find', { from: 9, to: 1000, last: true, conditions: [{ kind: 1, from: 10, end: 11 }], request: galluspa.past('numbered') })"
    )["at"]
    go("line-over", 11, inner)
    go("line-over-back", 10, 8)
    go("step", 5, 9)
    go("line-out-back", 10, 8)
    go("step", 5, 9)
    go("line-out", 11, inner)
    expect("R1 once the inner calls have returned", page.answer("galluspa.shownPart('R', 1)"), 6)
    go("line-out", 4, over)
    # At now, in a machine that has just begun.
    desk.click("back-now")
    page.answer("el('source').querySelector('[data-line=\"2\"]').click()")
    expect("the breakpoint", page.answer("breakpoints()"), [2])
    desk.run_source()
    page.wait(f"!galluspa.frame().on && galluspa.count() === 2 && {SOURCE_LINE} === 3")
    go("line-over", 4, over)
    expect("whether the machine itself went on", page.answer("[galluspa.count(), galluspa.isPast()]"), [over, False])
    desk.click_on("el('source').querySelector('[data-line=\"2\"]')")
    # Without a stack R14 is any register: here it is lower after the call than before.
    desk.run_text("scratch.asm", "again: BL one\n BL one\n B again\none: MOV R14, R15\n BL two\n B R14\ntwo: B R15\n", 1_000)
    desk.pause()
    desk.look_at(11)
    page.wait(f"galluspa.moment()?.at === 11 && {SOURCE_LINE} === 1")
    go("line-over", 2, 16)
    go("line-over-back", 1, 11)


def test_run_parts(desk: Desk) -> None:
    """Sources that are dropped together are one program: each is chosen, changed and run with the others, a breakpoint stays with its line, and the tab goes to
    the source where the machine is."""
    page = desk.page
    files = {path.name: path.read_text() for path in sorted((EXAMPLES / "frames").glob("*.asm"))}
    desk.drop({name: text.encode() for name, text in files.items()})
    page.wait(f"{ASSEMBLED} && {SOURCE_SAID}.endsWith(' and 2 more files: 81 words, 0 problems')")
    page.answer("el('source-part').focus()")
    page.press("s")
    page.wait("galluspa.source().file === 'shapes.asm'")
    desk.run_source()
    page.wait(f"{WORD} === 'DONE' && galluspa.source().file === 'main.asm'")
    page.answer("el('source-part').focus()")
    page.press("s")
    number = "document.querySelector('#g-source .numbers [data-line=\"12\"]')"
    page.wait(f"galluspa.source().file === 'shapes.asm' && {number}")
    desk.click_on(number)
    page.wait("breakpoints().length === 1")
    page.answer("sourceField.goTo(4, 0)")
    page.insert("; one more line")
    page.press("Enter")
    page.wait(f"{ASSEMBLED} && {SOURCE_SAID}.startsWith('shapes.asm and 2 more files: 81 words')")
    page.answer("el('source-part').focus()")
    page.press("m")
    page.wait("galluspa.source().file === 'main.asm'")
    desk.run_source()
    page.wait(f"!galluspa.frame().on && galluspa.source().file === 'shapes.asm' && {SOURCE_LINE} === 14 && galluspa.count() > 0")
    expect("the line at which it stopped", page.answer("sourceField.lines[13]"), files["shapes.asm"].split("\n")[12])


# The most milliseconds of a processor for a key in a long source.
LONGEST_KEY_MS = 500


def test_fill(desk: Desk) -> None:
    """A text of 10,000 lines stays fluent, and hostile sources neither hang nor end the page."""
    page = desk.page
    many = "\n".join(f"l{at}: ADD R0, R0, {at % 9}" for at in range(10000))
    desk.open_source("long.asm", many)
    expect("what is said of 10,000 lines", page.answer(SOURCE_SAID), "long.asm: 10,000 words, 0 problems")
    page.answer("sourceField.goTo(5000, 0)")
    with page.measuring() as tasks:
        for _ in range(20):
            page.insert("x")
            page.answer("new Promise((done) => requestAnimationFrame(() => done()))")
    took = sum(tasks) / 20
    expect("the line", page.answer("sourceField.lines[5000]"), "x" * 20 + "l5000: ADD R0, R0, 5")
    if took > page.allowed(LONGEST_KEY_MS):
        fail(f"a key in a source of 10,000 lines takes {took:.0f} ms of the processor")
    hostile = {
        "wide.asm": "byte " + "1, " * 300000 + "1",
        "quoted.asm": 'string "' + "a" * 1000000 + '"',
        "open.asm": '"' + "a" * 1000000,
        "nested.asm": "word " + "(" * 500000 + "1",
        "labels.asm": "\n".join(f"label{at}: word label{99999 - at}" for at in range(100000)),
        "wrong.asm": "\n".join("nonsense" for _ in range(100000)),
        "__proto__.asm": "__proto__: B __proto__\nconstructor = 5\nword toString",
    }
    for name, text in hostile.items():
        desk.open_source(name, text)
    page.wait("sourceField.rows[2]?.dataset.wrong")
    expect(
        "what is said of the last one",
        page.answer(f"[{SOURCE_SAID}, sourceField.rows[2].dataset.wrong]"),
        ["__proto__.asm: 1 problem line 3", "^ toString is not defined"],
    )


def test_explain_stop(desk: Desk) -> None:
    """A stop is explained where it happened, with the line that set the register; a click goes to each."""
    page = desk.page
    desk.open_source(
        "stops.asm", "        MOV R0, 3\n        MOV R1, -256\n        ADD R0, R0, 1\n        LDR R2, R1, 4\ndone:   B done\n"
    )
    desk.run_source()
    page.wait(f"{WORD} === 'STOPPED' && {STOP}.endsWith('.')")
    wanted = "address: R1 + 4 = 00FFFF04 is neither memory nor a device, line 4; R1 was set by line 2."
    expect("what is said of the stop", page.answer(STOP), wanted)
    expect("where the cursor is", page.answer(f"[galluspa.shownCount(), {SOURCE_LINE}]"), [3, 4])
    desk.click_on("el('source-stop').querySelectorAll('button')[1]")
    page.wait(f"galluspa.moment()?.at === 1 && {SOURCE_LINE} === 2")
    expect("where the caret is", page.answer("sourceField.selected[0]"), [1, 0])
    for source, said in (
        ("MOV R3, 5\nSUB R3, R3, 5\nDIV R0, R0, R3", "divisor: R3 = 00000000 is below 1, line 3; R3 was set by line 2."),
        ("DIV R0, R0, R3", "divisor: R3 = 00000000 is below 1, line 1; R3 was never written since the start."),
        ("MOV R3, 0\nDIV R0, R0, R3", "divisor: R3 = 00000000 is below 1, line 2; R3 was set by line 1."),
        ("MOV R0, 1\nFAD R0, R0, R0", "float: there is no FAD in this machine, line 2; it came from line 1."),
        ("MOV R0, 1\nMOV R0, 2", "fetch: PC = 100000 is outside memory, PC 262144; it left the program after line 2."),
    ):
        desk.run_text("other.asm", source)
        page.wait(f"{STOP}.endsWith('.')")
        expect(f"what is said of {source!r}", page.answer(STOP), said)


# Counts down, and ends: at a jump to itself, by a flag or without one.
ENDS = "        {move}\nagain:  SUB R0, R0, 1\n        BNE again\n        SUB R1, R0, 0\ndone:   {jump} done\n"


def test_end(desk: Desk) -> None:
    """The run of a program pauses as it comes to its end, also late or at full speed; a step back leads to the line before, also once it has run on there."""
    page = desk.page
    late = ("MOV' R0, 100", 100 << 16)
    for speed, (move, rounds), jump in (("clock", ("MOV R0, 3", 3), "B"), ("clock", late, "BEQ"), ("fast", late, "B")):
        desk.set_speed(speed)
        desk.run_text("ends.asm", ENDS.format(move=move, jump=jump))
        page.wait(f"{WORD} === 'DONE' && {SOURCE_LINE} === 5 && {MODE}.includes('Done at line 5, ')")
        end = 2 + 2 * rounds
        expect("where it ends", page.answer("[galluspa.count(), galluspa.isPast()]"), [end, False])
        for more in (0, 1_000_000):
            if more:
                desk.go_on()
                page.wait(f"galluspa.count() > {end + more}")
                desk.pause()
            expect("the line before", (desk.press_and_look("back"), page.answer(SOURCE_LINE)), (end - 1, 4))
            desk.press("now")


# What each step of a lesson asks for, as a change of its example, by the number of the lesson. Each step's claim is at a count that a run passes at once.
SOLVED: tuple[tuple[str, tuple[tuple[str, str], ...]], ...] = (
    ("flags", (("", ""), ("MOV R0, 5", "MOV' R0, 8000H"))),
    ("clock", (("", ""), ("input 20, timer, 1", "input 20, timer, 7\n        input 21, timer, 7"))),
    ("rejoin", (("", ""), ("MOV R5, 1", "ADD R5, R5, 1"))),
    ("lines", (("", ""), ("up:     STR R0, R1, 0", "up:     LDR R3, R1, 0\n        IOR R3, R3, R0\n        STR R3, R1, 0"))),
    ("race", (("", ""), ("MOV R2, 5 ", "MOV R2, 6 "))),
    (
        "snake",
        (
            ("PACE = 120", "PACE = 60"),
            (
                "        BL length\npress",
                "        ADD R2, R2, R3\n        BL grow\n        ADD R2, R2, R3\n        BL grow\n        BL length\npress",
            ),
        ),
    ),
)


def test_learn(desk: Desk) -> None:
    """Each lesson's steps can be done: the proved check accepts what it wants of the right program, and says what is false of another one."""
    desk.set_speed("fast")
    for number, (name, changes) in enumerate(SOLVED, 1):
        open_lessons(desk)
        desk.click_on(f"el('lessons-list').querySelectorAll('button')[{number}]")
        source = (EXAMPLES / f"{name}.asm").read_text()
        for at, (old, new) in enumerate(changes):
            if at:
                desk.click_on(lesson_button("Next step"))
            desk.page.wait(
                f"galluspa.source().file === '{name}.asm' && {ASSEMBLED} && el('lesson').textContent.includes(', step {at + 1} of ')"
            )
            if at or name == "snake":
                desk.replace_source(source)
                expect(f"the verdict of {name}, step {at + 1}, undone", run_and_judge(desk).startswith("Not yet: at count "), True)
            expect(f"whether {name} has what is changed", old in source, True)
            desk.replace_source(
                source.replace(old, new).replace("input 22, key, 'k'", "input 23, key, 'k'" if at else "input 22, key, 'k'")
            )
            expect(f"the verdict of {name}, step {at + 1}", run_and_judge(desk).startswith("accepted 1 checkpoints "), True)
        desk.click_on("el('lesson').querySelector('.close')")


def open_lessons(desk: Desk) -> None:
    """Opens the chooser of lessons."""
    desk.press("tab-source")
    desk.click_on("el('lessons').querySelector('summary')")
    desk.page.wait("el('lessons-list').childElementCount > 10")


def run_and_judge(desk: Desk) -> str:
    """Runs the source as far as the step of a lesson asks, and has it judged."""
    desk.run_source()
    while (said := judged(desk)).startswith("The run is at count "):
        desk.settle()
    desk.page.answer("galluspa.frame().on && el('run').click()")
    return said


def test_judge_plainly(desk: Desk) -> None:
    """A step is not judged before its program ran, nor after a change that did not run; what differs is said with its place."""
    page = desk.page
    open_lessons(desk)
    desk.click_on("el('lessons-list').querySelectorAll('button')[1]")
    page.wait(f"galluspa.source().file === 'flags.asm' && {ASSEMBLED}")
    expect("the first step before anything ran", judged(desk), "Run the program first.")
    expect("the first step", run_and_judge(desk).startswith("accepted 1 checkpoints "), True)
    desk.click_on(lesson_button("Next step"))
    wanted = "Not yet: at count 2, after line {}, R1 is 00000000, wanted is 7FFFFFFB; flags is -Z--, wanted is ---V."
    line = (EXAMPLES / "flags.asm").read_text().split("\n").index("        SUB R1, R0, 5") + 1
    expect("the second step without the change", judged(desk), wanted.format(line))
    expect(
        "where the line of the check is",
        page.answer("el('lesson').querySelector('.line').title"),
        "false checkpoint 1 at 2 part R1",
    )
    page.answer("sourceField.goTo(0, 0)")
    page.insert("; ")
    expect("the second step after a change", judged(desk), "The source was changed since it ran: run it first.")
    desk.click_on(lesson_button("Check it"))


def lesson_button(text: str) -> str:
    """Returns the expression for a button of the step of a lesson that is shown."""
    return f"[...el('lesson').querySelectorAll('button')].find((it) => it.textContent === '{text}')"


def judged(desk: Desk) -> str:
    """Returns the line of the step of a lesson that is shown."""
    desk.click_on(lesson_button("Check it"))
    line = "el('lesson').querySelector('.line')"
    desk.page.wait(f"{line} && !{line}.hidden && {line}.textContent !== 'checking ..'")
    return desk.page.answer(f"{line}.textContent")


def test_keep(desk: Desk) -> None:
    """A source and its undo are there again after a reload; one that another takes the place of stays in the list of what is kept; a recording and its source
    that are dropped together are one program."""
    page = desk.page
    desk.press("write")
    page.wait("document.activeElement === sourceField.field")
    desk.type_line("        MOV R7, 123")
    desk.type_line("kept:   B kept")
    text = page.answer("sourceField.text")
    page.wait(ASSEMBLED)
    desk.reload()
    desk.press("write")
    page.wait(f"sourceField.text.includes('MOV R7, 123') && {ASSEMBLED}")
    expect("the text after a reload", page.answer("sourceField.text"), text)
    for _ in range(20):
        page.press("z", modifiers=CTRL)
    expect("the text after undo", page.answer("sourceField.text"), "; A program of your own. Ctrl+Enter runs it.\n\n")
    for _ in range(20):
        page.press("y", modifiers=CTRL)
    expect("the text after redo", page.answer("sourceField.text"), text)
    desk.open_source("draws.asm", DRAWS)
    page.wait("el('kept-list').textContent.includes('Source program.asm')")
    page.answer("el('kept').open = true")
    desk.click_on("[...el('kept-list').querySelectorAll('button')].find((it) => it.textContent === 'Open')")
    page.wait(f"galluspa.source().file === 'program.asm' && {ASSEMBLED}")
    expect("the text that was kept", page.answer("sourceField.text"), text)
    desk.run_source()
    page.wait(f"{WORD} === 'DONE'")
    recording = desk.save("program", "the line of the recording")
    desk.press("source-save")
    source = desk.saved("program.asm").decode()
    expect("the source that is saved", source, text.rstrip("\n") + "\n" if not text.endswith("\n") else text)
    desk.reload()
    files = {"it.orsr": recording, "program.asm": source.encode()}
    desk.drop(files)
    # The names are read once the program is known.
    page.wait("galluspa.source().isRunning && galluspa.file() && galluspa.names().size")


def test_write_beside_storage(desk: Desk) -> None:
    """*Write* has a field at once, though the browser's storage never answers, and what is typed stays."""
    page = desk.page
    page.answer("IDBFactory.prototype.open = () => ({}); indexedDB.deleteDatabase('galluspa'); 0")
    desk.press("write")
    desk.type_line("        MOV R0, 5")
    desk.expect_notice("the storage", ".*the browser's storage does not answer")
    expect(
        "what was typed",
        page.answer("sourceField.lines"),
        ["; A program of your own. Ctrl+Enter runs it.", "", "        MOV R0, 5", "        "],
    )


def test_write_at_once(desk: Desk) -> None:
    """What is typed into the tab before any source was opened is assembled and runs."""
    desk.press("tab-source")
    desk.click_on("el('source').querySelector('.text')")
    desk.type_line("        MOV R0, 5")
    desk.page.wait(f"{ASSEMBLED} && {SOURCE_SAID} === 'program.asm: 1 word, 0 problems'")
    desk.run_source()
    # What comes after its word are zeros, up to the end of memory.
    desk.page.wait(f"{WORD} === 'STOPPED' && galluspa.shownCount() === 262144")
