"""Names from a symbol file: opened with a recording, kept, refused; the listing, breakpoints, searches, answers, lanes and counts that have them."""

import json
import re
import shutil
from itertools import permutations

from tests.page.driver.given import FRAMES, frames, json_of
from tests.page.driver.shows import CARD, EXACT, IS_KEPT, IS_ON, IS_OVER, IS_STORED, NOTICE, button_of, shown
from tests.page.driver.desk import LONGEST_TASK_MS, SHIFT, Desk, expect, fail, program
from tests.tools.samples import STORED, galluspa, record, session

WHERE, CALLS, FOUND = shown("where"), shown("calls"), shown("found")
HERE = "(el('listing').querySelector('.here')?.textContent ?? '')"
# Two procedures that take some 34,000 and 47,000 instructions, in turn.
TWO_LOOPS = """main:   BL one
        BL two
        B main
one:    MOV R0, 17011
o:      SUB R0, R0, 1
        BNE o
        B LNK
two:    MOV R0, 23456
t:      SUB R0, R0, 1
        BNE t
        B LNK
        checkpoints {}
"""
# The number of instructions of it that are followed at once, and one that takes longer than a tenth of a second.
SHORT, LONG = 900000, 300000000
# Whether the calls of the lane are followed up to now.
CALLS_KNOWN = "lane('calls').length && !lane('calls').some((it) => /followed|following/.test(it))"
STACK = "Display.Dot + 0x30 < Shapes.Column + 0x18 < Shapes.Box + 0x40 < Main + 0x14"
NAMES = "galluspa.names().size"


def open_frames(desk: Desk) -> None:
    """Opens the program of three modules with its names, and runs it to its end."""
    desk.drop(frames(desk.folder))
    desk.page.wait(f"{NAMES} && galluspa.frame() && galluspa.file()?.verdict")
    desk.set_speed("fast")
    desk.press("run")
    desk.page.wait(IS_OVER)
    desk.press("tab-code")


def test_open_of_another_build(desk: Desk) -> None:
    """Names of another build, and a source that was edited since, are shown and said to be so, with the tools' words."""
    page, files, folder = desk.page, frames(desk.folder), desk.folder / "edited"
    shutil.copytree(FRAMES, folder)
    source = (folder / "display.asm").read_text().replace("Display.Dot:", "Display.Dot:\n        MOV R9, R9", 1)
    (folder / "display.asm").write_text(source)
    galluspa("assemble", folder / "main.asm", "-o", folder / "it.json")
    desk.drop({"frames.orsr": record((folder / "it.json").read_bytes()), "frames.sym": files["frames.sym"]})
    told = r"10 names from frames\.sym\. frames\.sym does not fit this memory: 3 of 4 procedures begin elsewhere\."
    desk.expect_notice("names of another build", told)
    desk.drop({"display.asm": source.encode()})
    desk.expect_notice(
        "a source", r"The lines of display\.asm are shown in Code\. It was edited since frames\.sym was made: lines may be others\."
    )
    given = echo(desk)
    desk.drop({name: given[name] for name in ("echo.orsr", "echo.sym")})
    desk.expect_notice("the names of one source", r"3 names from echo\.sym\.")
    for content, edited in ((given["echo.asm"], False), (given["echo.asm"] + b"; More.\n", True)):
        desk.open_source("echo.asm", content.decode())
        said = "echo.asm is open. It was edited since echo.sym was made: lines may be others." if edited else ""
        page.wait(f"{NOTICE} === {said!r}")


def test_open_together(desk: Desk) -> None:
    """A symbol file that comes with a recording, or after it by the Open dialog, names what is open; the page says how many names, and from where."""
    page = desk.page
    open_frames(desk)
    expect("what is said of the names", page.answer(shown("names-of")), "10 names from frames.sym Remove")
    desk.drop({"shapes.asm": (FRAMES / "shapes.asm").read_bytes()})
    desk.expect_notice("a source", r"The lines of shapes\.asm are shown in Code\.")
    page.wait("el('listing').querySelector('.quoted')")
    desk.click_on(button_of("el('names-of')", "Remove"))
    expect("the names that are dropped", page.answer(f"[{NAMES}, el('names-of').hidden]"), [0, True])
    desk.clear()
    desk.choose("more.sym", b"00000000 t Start\n")
    desk.expect_notice("one name", r"1 name from more\.sym\.")
    expect("where PC is", page.answer(WHERE), "Start + 0x140")
    desk.write_to("code-at", "·0")
    page.wait("el('listing').querySelector('.label')?.textContent === 'Start:'")
    desk.start("other.orsr", STORED)
    expect("the names in another program", page.answer(NAMES), 0)


def test_open_in_any_order(desk: Desk) -> None:
    """A recording, its symbol file and its source lead to the same state in whichever order they are dropped, together or one by one; also if another
    machine is open."""
    page, files = desk.page, echo(desk)
    ways = {" ".join(order): [[name] for name in order] for order in permutations(files)}
    ways |= {"together": [[*files]], "after another machine": [["echo.sym"], ["echo.orsr"], ["echo.asm"]]}
    wanted = ["echo", "echo.sym", 3, "echo.asm", files["echo.asm"].decode(), True, True, "echo.asm: 2 words, 0 problems"]
    for way, drops in ways.items():
        desk.begin_empty()
        if way == "after another machine":
            desk.press("face")
            page.wait(IS_ON)
            desk.pause()
        for together in drops:
            desk.drop({name: files[name] for name in together})
            page.wait(" && ".join(OPENED[name] for name in together))
        page.wait("galluspa.file()?.verdict && galluspa.source().isAssembled && galluspa.source().isRunning")
        expect(f"the state: {way}", page.answer(STATE_OF_OPEN), wanted)


def echo(desk: Desk) -> dict[str, bytes]:
    """Returns a recording, its symbol file with a name of its own, and its source."""
    path = desk.folder / "echo.asm"
    path.write_text("again:  LDR R1, R0, MOUSE\n        B again\n        checkpoints 1000\n")
    galluspa("assemble", path, "-o", desk.folder / "echo.json", "--symbols", desk.folder / "echo.sym")
    symbols = (desk.folder / "echo.sym").read_text().replace(f"{desk.folder}/", "") + "00001000 d Buffer\n00002000 d Other\n"
    return {
        "echo.orsr": record((desk.folder / "echo.json").read_bytes()),
        "echo.sym": symbols.encode(),
        "echo.asm": path.read_bytes(),
    }


# When a file is open, and what is open.
OPENED = {
    "echo.orsr": "galluspa.file()?.verdict && galluspa.work().name === 'echo'",
    "echo.sym": "galluspa.names().from === 'echo.sym'",
    "echo.asm": "galluspa.source().file === 'echo.asm' && sourceField.rows.length",
}
STATE_OF_OPEN = """[galluspa.work().name, galluspa.names().from, galluspa.names().size, galluspa.source().file, sourceField.text, galluspa.source().isRunning,
  !el('panel-source').hidden, el('source-said').textContent]"""


def test_refuse_mistaken(desk: Desk) -> None:
    """A symbol file with a mistake is refused with its line, and the names before stay; what turns the direction or is long is shown harmlessly."""
    page = desk.page
    open_frames(desk)
    many = "".join(f"00000000 t name{number}\n" for number in range(131000)).encode()
    for text, why in (
        (b"00000000 t A\nxyz\n", "line 2: xyz is not an address of 1 to 16 hexadecimal digits at the beginning of the line"),
        (b"00100000 t A\n", "line 1: the address 100000 is not below 100000 (hexadecimal)"),
        (b"00000000 t " + b"n" * 1000000, "line 1: a line has at most 4,096 characters, and this one has 1,000,011"),
        (b"\n\n\xff", "line 3: not a text in UTF-8"),
        (b"0 t a\n" * 200000, "a symbol file has at most 131,072 lines"),
        (b"#" * 10000001, "a symbol file has at most 10,000,000 bytes"),
    ):
        desk.drop({"bad.sym": text})
        desk.expect_refused("bad.sym", why)
        expect("the names before", page.answer(NAMES), 10)
    desk.drop({"short.orsr": STORED[:-1], "one.sym": b"00000000 t Start\n"})
    page.wait(f"{NAMES} === 1")
    desk.expect_refused("short.orsr", program("check", STORED[:-1])[0])
    desk.drop(
        {
            "hostile.sym": "00000000 t a\u202eb\n00000000 t <b>PAST</b>\n00000038 t \u05d0\u05d1\n0000003C t ".encode()
            + b"n" * 200
            + b"\n"
        }
    )
    page.wait(f"{NAMES} === 4")
    desk.write_to("code-at", "·0")
    labels = ["<b>PAST</b> or a\\u202eb:", "\\u05d0\\u05d1:", f"{'n' * 60}..:"]
    found = "[...el('listing').querySelectorAll('.label')].map((it) => it.textContent)"
    page.wait(f"{found}.length >= 3")
    expect("the labels", sorted(page.answer(found)), sorted(labels))
    expect("the elements that keep them apart", page.answer("el('listing').querySelectorAll('.label > bdi').length"), 3)
    desk.drop({"many.sym": many})
    page.wait(f"{NAMES} === 131000", f"{NAMES}")
    desk.write_to("code-at", "·0")
    page.wait(f"{found}[0] === 'name0 or name1 and 130,998 more:'")


def test_scroll_code(desk: Desk) -> None:
    """The listing has all words of memory: it is scrolled by the wheel, goes to a name or an address, and follows PC again."""
    page = desk.page
    open_frames(desk)
    page.wait(f"{HERE}.includes('00140 · 80')")
    expect("how high the listing is", page.answer("el('listing').scrollHeight"), 18 * (262144 + 9))
    expect("whether PC is followed", page.answer("el('follow').checked"), True)
    x, y = page.answer("(({ left, top }) => [left + 100, top + 50])(el('listing').getBoundingClientRect())")
    page.turn_wheel(x, y, 90000)
    page.wait(
        "!el('follow').checked && [...el('listing').querySelectorAll('.place')].some((it) => / · 50\\d\\d$/.test(it.textContent))"
    )
    desk.write_to("code-at", "Shapes.Column")
    page.wait("[...el('listing').querySelectorAll('.label')].some((it) => it.textContent === 'Shapes.Column:')")
    row = "el('listing').querySelector('[data-pc=\"{}\"]').parentElement.textContent"
    desk.write_to("code-at", "·55")
    page.wait(f"({row.format(55)}).includes('BL -26')")
    expect("the target of a call by name", page.answer(row.format(55)).endswith("; Shapes.Column, shapes.asm:54"), True)
    desk.write_to("code-at", "FFFFC")
    page.wait("el('listing').querySelector('[data-pc=\"262143\"]')")
    desk.write_to("code-at", "Shapes.Colum")
    desk.expect_notice("no name", r"Shapes\.Colum: an address is hexadecimal, ·32 for the word 32, a register, or a name\.")
    desk.click_on("el('follow')")
    page.wait(f"{HERE}.includes('00140 · 80')")
    desk.click_on("el('back')")
    page.wait(f"galluspa.isPast() && {EXACT} && {WHERE}")


def test_set_breaks(desk: Desk) -> None:
    """A name that is written sets a breakpoint, which has a row with its name, its hits and a cross; a run backward comes to it."""
    page = desk.page
    open_frames(desk)
    desk.set_break("Shapes.Box+0x28")
    page.wait(f"{shown('break-list')} === 'Shapes.Box + 0x28 00E0 · 562 hits up to here×'")
    page.wait("lane('hits').length === 2")
    desk.click_on("el('back-run')")
    page.wait(f"galluspa.isPast() && {EXACT} && !galluspa.isSearching()")
    expect("what was found", page.answer(FOUND), f"PC 00E0 · 56, Shapes.Box + 0x28 at {page.answer('galluspa.cursor()'):,}")
    page.wait(f"{shown('break-list')} === 'Shapes.Box + 0x28 00E0 · 561 hit up to here×'")
    page.wait(f"{HERE}.includes('000E0 · 56')")
    desk.click_on(button_of("el('break-list')", "×"))
    expect("the breakpoints", page.answer("[breakpoints().length, el('break-list').hidden]"), [0, True])
    desk.click_on("el('back-now')")


def test_ask_by_name(desk: Desk) -> None:
    """Who drew a dot has the name, the line and who called; Jump puts the instruction in sight; find and go to take names."""
    page = desk.page
    open_frames(desk)
    desk.click_dot(40, 210)
    page.wait(f"{CARD}.includes(': sure') && {CARD}.includes(' < ')")
    said = page.answer(CARD)
    for wanted in ("Instruction 2,123, PC 0030 · 12: sure", "Display.Dot + 0x30, examples/frames/display.asm:15", STACK):
        if wanted not in said:
            fail(f"the card has no {wanted!r}: {said!r}")
    desk.write_to("code-at", "·100000")
    desk.click_on(button_of("el('card')", "Jump"))
    page.wait(f"galluspa.cursor() === 2123 && {EXACT} && {CALLS} === '{STACK}'")
    page.wait(f"{HERE}.includes('00030 · 12')")
    expect("where the cursor is", page.answer(WHERE), "Display.Dot + 0x30, examples/frames/display.asm:15")
    page.answer("el('card').querySelector('.close')?.click()")
    desk.click_on("el('more').querySelector('summary')")
    desk.write_to("goto", "Shapes.Box")
    page.wait(f"{FOUND}.startsWith('PC 00B8 · 46, Shapes.Box at ') && !galluspa.isSearching()")
    desk.click_on("el('more').querySelector('summary')")
    desk.choose_option("search-kind", "a change of")
    desk.click_on("el('search-range')")
    page.answer("el('search-range').select()")
    page.insert("Stack+0xF0")
    desk.click_on("el('find-before')")
    page.wait(f"{FOUND}.startsWith('a change of 010F0, Stack + 0xF0 at ') && !galluspa.isSearching()")
    desk.settle()
    desk.click_on("el('back-now')")


def test_step_by_calls(desk: Desk) -> None:
    """A caller leads to its call, and keys step into, over and out of calls, of a recording without its source."""
    page = desk.page
    open_frames(desk)
    desk.look_at(2123)
    page.wait(f"{CALLS} === '{STACK}'")
    desk.click_on(button_of("el('calls')", "Shapes.Column + 0x18"))
    page.wait(f"galluspa.cursor() < 2123 && {EXACT} && {CALLS} === 'Shapes.Column + 0x14 < Shapes.Box + 0x40 < Main + 0x14'")
    call, pc = page.answer("galluspa.cursor()"), "galluspa.shownPart('PC')"
    expect("the word of the call", page.answer(pc), 35)
    page.answer("el('cursor').focus()")
    for key, word, count in (
        ("o", 36, None),
        ("O", 35, call),
        ("i", 0, call + 1),
        ("u", 36, None),
        ("O", 35, call),
        ("U", 61, None),
    ):
        page.press(key, modifiers=SHIFT if key.isupper() else 0)
        page.wait(f"{pc} === {word} && {EXACT}")
        if count is not None:
            expect(f"the count after {key}", page.answer("galluspa.cursor()"), count)
    page.press("U", modifiers=SHIFT)
    page.wait(f"{EXACT} && {CALLS} === '' && {WHERE}.startsWith('Main + 0x10')")
    page.press("U", modifiers=SHIFT)
    desk.expect_notice("a step out of the program", r"No call is open here\.")
    desk.click_on(button_of("el('names-of')", "Remove"))
    desk.look_at(2123)
    page.wait(f"{CALLS} === '0x30 < 0x90 < 0xF8 < 0x130'")
    desk.click_on("el('back-now')")


def test_read_memory(desk: Desk) -> None:
    """Memory goes to names, to registers and to the display; a name with other capital letters is said to be meant."""
    page = desk.page
    open_frames(desk)
    stack = page.answer("galluspa.shownPart('R', 14)")
    desk.press("tab-memory")
    for text, wanted in (
        ("DISPLAY", "E7F00; the word at E7F00 · 237504"),
        ("Stack+0xF0", "010F0, Stack + 0xF0; the word at 10F0 · 1084"),
        ("SP", f"{stack:05X}, Stack + 0x"),
        ("·56", "000E0, Shapes.Box + 0x28; the word at 00E0 · 56"),
    ):
        desk.write_to("memory-at", text)
        page.wait(f"{shown('selected')}.startsWith('{wanted}')")
    for text, why in (
        ("stack", "There is no name stack; did you mean Stack?"),
        ("KEY", "KEY is FFFFDC, and memory ends at FFFFF."),
        ("zz", "zz: an address is hexadecimal, ·32 for the word 32, a register such as SP, or a name."),
    ):
        page.answer("el('notice').click()")
        desk.write_to("memory-at", text)
        page.wait(f"{NOTICE} === {json.dumps(why)}")
    page.wait("el('variables').rows.length > 0")
    row = page.answer(
        "[...[...el('variables').rows].find((it) => it.cells[0].textContent === 'Stack').cells].map((it) => it.textContent)"
    )
    expect("a variable with its address and its value", row[1], "01000")
    desk.click_on("[...el('variables').querySelectorAll('button')].find((it) => it.textContent === 'Stack')")
    page.wait(f"{shown('selected')}.startsWith('01000, Stack; ')")
    desk.click_on("el('tab-code')")


def test_count_code(desk: Desk) -> None:
    """The column beside the code has how often each word was executed up to the cursor: the numbers that the tools have."""
    page, files = desk.page, frames(desk.folder)
    recording = desk.folder / "counted.orsr"
    recording.write_bytes(files["frames.orsr"])
    traced = [int(line.split()[1]) for line in galluspa("trace", recording, "--to", 7475).output.decode().splitlines()]
    open_frames(desk)
    for at in (len(traced), 3000, 5):
        if at < len(traced):
            desk.look_at(at)
        for word in (12, 46, 71):
            desk.write_to("code-at", f"·{word}")
            row = f"el('listing').querySelector('[data-pc=\"{word}\"]')?.parentElement"
            times = traced[:at].count(word)
            page.wait(
                f"{row}?.querySelector('.times')?.title.startsWith('executed {times:,} time')"
                if times
                else f"{row}?.classList.contains('never')"
            )


def place_in_lane(desk: Desk, count: float, row: int) -> tuple[float, float]:
    """Returns where a count is in a row of the lane of the calls, in the window: its rows are below its name."""
    left, width, top, (begin, end) = desk.page.answer(
        "[el('track').getBoundingClientRect().left, el('track').getBoundingClientRect().width, "
        "el('names').querySelector('.more').getBoundingClientRect().top, galluspa.span()]"
    )
    return left + (count - begin) / (end - begin) * width, top + 16 * row + 8


def under(desk: Desk, count: float, row: int) -> str:
    """Returns what is said of a place of the lane of the calls that the mouse is over."""
    page = desk.page
    page.point("mouseMoved", *place_in_lane(desk, count, -1))
    page.wait("!el('track').title")
    page.point("mouseMoved", *place_in_lane(desk, count, row))
    page.wait("el('track').title")
    return str(page.answer("el('track').title"))


def test_show_lane(desk: Desk) -> None:
    """The lane of the calls is a flame graph: the mouse names a call with its begin, its end and its instructions, a click goes to it, and two zoom to it; c and a
    click on its name open it to more rows. In a long span short calls are in sums, which are said to be so."""
    page = desk.page
    open_frames(desk)
    # The lane has the rows that others leave, and what is drawn on the screen is known later.
    page.wait(f"lanesInSight().includes('screen') && lanesInSight().some((it) => it.startsWith('calls')) && {CALLS_KNOWN}")
    closed = page.answer("el('lanes').offsetHeight")
    page.answer("el('cursor').focus()")
    page.press("c")
    page.wait(f"el('lanes').offsetHeight > {closed}")
    desk.click_on("el('names').querySelector('.more')")
    page.wait(f"el('lanes').offsetHeight === {closed}")
    desk.click_on("el('names').querySelector('.more')")
    page.wait(f"el('lanes').offsetHeight > {closed}")
    begins = []
    for row, name in enumerate(("Main", "Shapes.Box", "Shapes.Column", "Display.Dot")):
        found = re.fullmatch(
            rf"{name} from ([\d,]+) (to [\d,]+, [\d,]+ instructions|on, not over by 7,475)", said := under(desk, 2118.5, row)
        )
        if not found:
            fail(f"row {row} says {said!r}")
        begins.append(int(found[1].replace(",", "")))
    expect("whether each call is in the one before", (begins == sorted(begins), begins[-1] <= 2118), (True, True))
    desk.click_at(*place_in_lane(desk, 2118.5, 3))
    page.wait(f"galluspa.cursor() === {begins[3] - 1} && {EXACT}")
    before = page.answer("galluspa.span()")
    desk.click_at(*place_in_lane(desk, 2118.5, 2), clicks=2)
    page.wait(f"galluspa.span()[1] - galluspa.span()[0] < ({before[1]} - {before[0]}) / 2 && {CALLS_KNOWN}")
    begin, end = page.answer("galluspa.span()")
    expect("whether the call that was zoomed to is in sight", begin <= begins[2] < end, True)
    page.press("c")
    open_loops(desk, LONG)
    watch_quickly(desk)
    page.wait(
        f"!galluspa.frame().on && galluspa.count() === {LONG} && {CALLS_KNOWN}", moving="[galluspa.count(), lane('calls').join()]"
    )
    said = under(desk, LONG / 3, 1)
    if not re.fullmatch(r"(one|two) most of the time, of \d+ parts from [\d,]+ to [\d,]+", said):
        fail(f"in a long span the lane says {said!r}")


def open_loops(desk: Desk, end: int) -> None:
    """Opens a program that takes turns in two procedures, with its names, up to a checkpoint."""
    page, made = desk.page, [desk.folder / f"loops.{ending}" for ending in ("asm", "json", "sym")]
    made[0].write_text(TWO_LOOPS.format(end))
    galluspa("assemble", made[0], "-o", made[1], "--symbols", made[2])
    desk.start("loops.json", made[1].read_bytes())
    desk.drop({"loops.sym": made[2].read_bytes()})
    page.wait(f"{NAMES} === 5")


def test_watch_alike(desk: Desk) -> None:
    """The lane of the calls is the same however a recording was watched: quickly or slowly, with pauses, and with looks at the past. It says at each count in
    which procedure the machine was."""
    page, seen = desk.page, []
    for watch in (watch_quickly, watch_slowly, watch_back_and_forth):
        open_loops(desk, SHORT)
        watch(desk)
        page.wait(f"!galluspa.frame().on && galluspa.count() === {SHORT} && {CALLS_KNOWN}")
        seen.append(page.answer("lane('calls')"))
    expect("whether the lists after three ways to watch are one", [it == seen[0] for it in seen], [True] * 3)
    parts = [re.fullmatch(r"(\w+) from ([\d,]+) to ([\d,]+)", it) for it in seen[0] if not it.startswith("shorter calls in ")]
    bands = [(part[1], int(part[2].replace(",", "")), int(part[3].replace(",", ""))) for part in parts if part]
    expect("how many bands are listed", (len(bands), len(bands) > 20), (len(parts), True))
    # The tools would name the words by a symbol file of the same name.
    recording = desk.folder / "bands.orsr"
    recording.write_bytes(record((desk.folder / "loops.json").read_bytes()))
    for name, begin, end in bands[:: len(bands) // 8]:
        words = [
            4 * int(galluspa("trace", recording, "--from", at, "--to", at + 1).output.decode().split()[1])
            for at in (begin, end - 1)
        ]
        expect(
            f"the procedures from {begin} to {end}",
            ["two" if at >= 0x1C else "one" if at >= 0x0C else "main" for at in words],
            [name] * 2,
        )


def watch_quickly(desk: Desk) -> None:
    """Runs a replay to its end as fast as it goes."""
    desk.set_speed("fast")
    desk.press("run")


def watch_slowly(desk: Desk) -> None:
    """Runs a replay at 25 MHz, in parts with pauses between them."""
    desk.set_speed("clock")
    for count in (70000, 310001, 700000, 899999):
        desk.look_at(count)
        desk.press("run")
        desk.page.wait(f"galluspa.count() === {count} && !galluspa.frame().on")
    desk.press("step")


def watch_back_and_forth(desk: Desk) -> None:
    """Runs a replay by steps and looks at its past, and then to its end."""
    for _ in range(20):
        desk.press("step")
    watch_slowly(desk)
    for share in (0.7, 0.2, 0.5):
        left, top, width = desk.page.answer("(({ left, top, width }) => [left, top, width])(el('track').getBoundingClientRect())")
        desk.click_at(left + share * width, top + 30)
        desk.page.wait(f"galluspa.isPast() && {EXACT}")
    desk.press("back-now")


def test_keep_names(desk: Desk) -> None:
    """Names are kept with the machine: they are there again after a reload."""
    page = desk.page
    desk.start("keys.json", json_of("keys.json", inputs=[], checkpoints=[]))
    desk.drop({"keys.sym": b"00000000 t Main\n00000004 t Main.again\n"})
    page.wait(f"{NAMES} === 2")
    desk.press("run")
    page.wait(IS_ON)
    page.press("k")
    page.wait("galluspa.frame().inputs > 0")
    desk.pause()
    page.wait(f"{IS_STORED} && {IS_KEPT}")
    desk.reload()
    desk.press("continue")
    page.wait(f"galluspa.frame() && {NAMES} === 2")
    desk.press("tab-code")
    expect("what is said of the names", page.answer(shown("names-of")), "2 names from keys.sym Remove")


def test_step_quickly(desk: Desk) -> None:
    """With as many names as a symbol file may have, no task of the page takes long: not while they are read, and not at a step. The processor's time
    counts, and the shortest of some tries, since what else runs on the machine makes some tasks longer."""
    page = desk.page
    desk.start("counting.json", json.dumps(session([0x40080001, 0x41080001, 0xE7FFFFFD], [])).encode())
    desk.press("tab-code")
    spread = "".join(f"{4 * at:08X} t Name{at}\n" for at in range(131071)).encode()
    alike = "".join(f"00000000 t name{at}\n" for at in range(131071)).encode()
    for name, text, label in (("spread.sym", spread, "Name0:"), ("alike.sym", alike, "name0 or name1 and 131,069 more:")):
        longest: dict[str, list[float]] = {"read": [], "stepped": []}
        for _ in range(TRIES):
            with page.measuring() as tasks:
                desk.choose(name, text)
                page.wait(f"galluspa.names().from === '{name}' && el('listing').querySelector('.label')?.textContent === '{label}'")
            longest["read"].append(max(tasks))
            with page.measuring() as tasks:
                for _ in range(2):
                    at = page.answer("galluspa.shownCount()")
                    desk.press("step")
                    page.wait(f"galluspa.shownCount() === {at + 1} && {HERE}")
            longest["stepped"].append(max(tasks))
        for what, took in longest.items():
            if min(took) > page.allowed(LONGEST_TASK_MS):
                fail(f"a task took {min(took):.0f} ms of the processor when {name} was {what}")


TRIES = 3
