"""Sources are not lost: where the browser's storage is full or denied, where there are many of them, and where one forgets them. All that the page gets
are keys and clicks; each task has a profile of its own.

Its tasks share the helpers and the programs at its head, so it is one module of more than 400 lines.
"""

import json
import re
import time
from collections.abc import Mapping
from pathlib import Path
from tests.page.driver.desk import expect, fail
from tests.page.driver.given import DRAWS
from tests.page.driver.person import COUNT, KEPT, NUMBER, TEXT, Person, begun, continue_with, open_kept, write_first, write_line
from tests.page.driver.records import ALL, HOLD_UP, PARTED, WITH_STORE
from tests.page.driver.shows import NOTICE, SENT, WORD


BRANCH = re.compile(r", branch (\d), of ")
# The number of the line with a breakpoint.
BROKEN = "document.querySelector('#g-source [aria-pressed=true]')?.parentElement.textContent"
# A program of two sources: the one draws where the other one says.
DRAW_AT = DRAWS.index("draw:")
PARTS = {"draws.asm": f'{DRAWS[:DRAW_AT]}        include "dots.asm"\n', "dots.asm": f"; Draws a word.\n{DRAWS[DRAW_AT:]}"}
# Writes a recording that is kept forty times more.
PUT_MORE = """
for (let more = 1; more <= 40; more++) {
  const id = `run ${more}`;
  store.put({ ...bodies[head.of], id }), store.put({ ...head, id: `head ${id}`, of: id, at: head.at - more });
}
"""
MANY_ITEMS = f"""
{PARTED.strip()}.then(({{ heads, bodies }}) => {{
  const head = heads.find(({{ of }}) => bodies[of].recording);
  return {(WITH_STORE % PUT_MORE).strip()};
}})
"""
# What is read of the storage takes some milliseconds longer, or only what is read of a source.
SLOW = """
{
  const get = IDBObjectStore.prototype.get, slow = new WeakSet();
  IDBObjectStore.prototype.get = function (id) {
    if (`${id}`.startsWith("source ")) slow.add(this.transaction);
    return get.call(this, id);
  };
  Object.defineProperty(IDBTransaction.prototype, "oncomplete", { set(task) {
    this.addEventListener("complete", () => setTimeout(task, slow.has(this) || %s ? %d : 0));
  } });
  0;
}
"""
# The browser's storage takes nothing.
FULL = """
globalThis.transaction = IDBDatabase.prototype.transaction;
IDBDatabase.prototype.transaction = () => { throw new DOMException("There is no room.", "QuotaExceededError"); };
"""
# What is looked at, as the browser keeps it: how many breakpoints, watches and notes, and the cursor.
LOOKED_AT = (
    "(({ breaks, watches, notes, cursor }) => [breaks.length, watches.length, notes.length, cursor])(galluspa.work().head.desk)"
)


def draw_and_pause(who: Person) -> None:
    """Starts the drawing program, types a key, pauses, and waits until that is kept."""
    who.begin_drawing()
    who.type("a")
    who.run_or_pause()
    who.wait_until_kept()


def begin_program(who: Person) -> None:
    """Begins a program from nothing: by the card of the empty page, or by the menu."""
    if who.page.answer(f"!{TEXT} && document.getElementById('g-write').checkVisibility()"):
        who.press("#g-write")
    else:
        who.press("#g-lessons summary")
        who.page.wait("document.querySelector('#g-lessons-list button')")
        who.press("#g-lessons-list button")
        who.page.wait(f"!document.querySelector('#g-lessons').open && !{TEXT}.includes('MOV')")
        who.press("#g-source .text .chunk > :last-child")
    who.page.wait("document.activeElement.closest('#g-source .text')")


def lose_nothing(who: Person, why: str) -> None:
    """Writes a program that the browser cannot keep: the page says so, keeps it while another one is written, and asks before it is left."""
    begin_program(who)
    write_line(who, "MOV R1, 11")
    wanted = f"This browser cannot keep the source program.asm, so save it to a file: {why}"
    who.page.wait(f"{NOTICE} === {json.dumps(wanted)}")
    expect("whether the browser asks before the page is left", who.page.is_kept_open(), True)
    begin_program(who)
    expect("what is said of the source that was left", who.page.answer(NOTICE), wanted)
    who.page.wait(f"{KEPT}.length")
    texts = [text for text in who.page.answer(KEPT) if text.startswith("Source ")]
    if len(texts) != 1 or "it is in this page only, since this browser cannot keep it" not in texts[0]:
        fail(f"what is kept of a source that was left: {texts}")
    expect("whether the browser asks though another source is open", who.page.is_kept_open(), True)
    open_kept(who, "Open")
    who.page.wait(f"{TEXT}.includes('MOV R1, 11')")


def test_fill_storage(tmp_path: Path) -> None:
    """A source that a full storage does not take stays in the page, and is written once there is room."""
    with begun(tmp_path) as who:
        who.page.limit_storage(1000)
        lose_nothing(who, "the browser's storage is full")
        who.page.limit_storage()
        # Tried again by time.
        who.page.wait("!galluspa.isUnsafe()")
        expect("whether the browser asks once it is written", who.page.is_kept_open(), False)
        who.ready()
        who.press("#g-write")
        who.page.wait(f"{TEXT}.includes('MOV R1, 11')")


def test_note_when_full(tmp_path: Path) -> None:
    """A note that a full storage does not take is said not to be kept, asks before it is left, and is written once there is room, though nothing is done by then."""
    with begun(tmp_path) as who:
        draw_and_pause(who)
        # The browser lets small records pass a limit of its storage.
        who.page.answer(FULL)
        who.press("#g-tab-log")
        who.press("#g-note")
        who.page.insert("here")
        who.page.press("Enter")
        who.page.wait(f"{NOTICE} === 'This browser cannot keep the recording of draw, so save it to a file: There is no room.'")
        expect("whether the browser asks before the page is left", who.page.is_kept_open(), True)
        who.page.answer("IDBDatabase.prototype.transaction = globalThis.transaction")
        who.page.wait("galluspa.work().head.desk.notes.length === 1")
        expect("whether the browser asks once it is written", who.page.is_kept_open(), False)
        who.ready()
        continue_with(who, "draw")
        who.page.wait("notes().length === 1")


def test_leave_before_written(tmp_path: Path) -> None:
    """A line of a source is kept though the page is loaded anew while the database still writes something else."""
    with begun(tmp_path) as who:
        begin_program(who)
        for text in ("MOV R1, 11", "MOV R1, 22"):
            who.page.answer(HOLD_UP)
            write_line(who, text)
            who.reload()
            continue_with(who, "Source program.asm")
            who.page.wait(f"{TEXT}.includes('{text}')")
            who.page.press("End", number=35)


def test_go_back_and_forth(tmp_path: Path) -> None:
    """Two sources that a full storage did not take are each kept with their own text, though one is opened again as soon as there is room."""
    texts = ["MOV R1, 11", "MOV R1, 22"]
    with begun(tmp_path) as who:
        who.page.limit_storage(1000)
        for text in texts:
            begin_program(who)
            write_line(who, text)
        who.page.wait(f"{KEPT}.length")
        who.page.limit_storage()
        open_kept(who, "Open")
        who.page.wait(f"{TEXT}.includes('{texts[0]}')")
        who.page.wait("!galluspa.isUnsafe()")
        found = who.page.answer(
            f"{ALL.strip()}.then((all) => all.flatMap(({{ parts }}) => parts?.[0].text.split('\\n').pop() ?? []))"
        )
        expect("the last lines of what is kept", sorted(found), texts)


def test_deny_storage(tmp_path: Path) -> None:
    """A source stays in the page where the browser denies it any storage."""
    settings = tmp_path / "profile/Default"
    settings.mkdir(parents=True)
    (settings / "Preferences").write_text(json.dumps({"profile": {"default_content_setting_values": {"cookies": 2}}}))
    with begun(tmp_path) as who:
        lose_nothing(who, "The user denied permission to access the database.")


def test_list_sources(tmp_path: Path) -> None:
    """Each source that one leaves is in the list at once, also of more than twenty; those that are forgotten come back, one or all."""
    many = 23
    with begun(tmp_path) as who:
        for number in range(many):
            begin_program(who)
            write_line(who, f"MOV R2, {number}")
            if number:
                who.page.wait(f"{NUMBER} === '{number}'")
        begin_program(who)
        who.page.wait(f"{NUMBER} === '{many}'")
        open_kept(who, "Open", many)
        who.page.wait(f"{TEXT}.includes('MOV R2, 0')")
        who.page.wait(f"{NUMBER} === '{many - 1}'")
        # The second click would be on another one.
        who.press("#g-kept summary")
        double_click(
            who, "[...document.querySelectorAll('#g-kept-list button')].filter((it) => it.textContent === 'Delete')[1]", 0.2
        )
        who.page.wait(f"{NUMBER} === '{many - 2}'")
        expect("what is left after a double click on Delete", who.page.answer(NUMBER), f"{many - 2}")
        open_kept(who, "Undo")
        who.page.wait(f"{NUMBER} === '{many - 1}'")
        # The list still shows the source that is opened, and not yet the one that is left.
        who.page.answer(SLOW % ("true", 500))
        open_kept(who, "Open")
        who.page.wait(f"{TEXT}.includes('MOV R2, {many - 1}')")
        who.press("#g-kept summary")
        who.press("#g-forget-all")
        who.page.wait(f"{NUMBER} === 'none'")
        open_kept(who, "Undo")
        who.page.wait(f"{NUMBER} === '1'")


def test_keep_beside_many(tmp_path: Path) -> None:
    """An input is kept though the page is left right after a machine was opened or branched off beside forty items. A run of a small program takes some kilobytes."""
    with begun(tmp_path) as who:
        draw_and_pause(who)
        who.page.answer(MANY_ITEMS)
        who.reload()
        who.page.wait(f"{NUMBER} === '41'")
        who.begin_drawing()
        who.page.press("b")
        who.reload()
        who.page.wait(f"{NUMBER} === '42'")
        who.resume()
        who.run_or_pause()
        who.page.wait(f"{SENT} === 'b'")
        who.run_or_pause()
        end = who.count()
        who.press("#g-begin-at")
        who.page.wait(f"{WORD}.startsWith('VIEWING ') && {COUNT} === 0")
        who.press("#g-take-here")
        who.page.wait(f"{WORD} === 'PAUSED' && {COUNT} === 0")
        who.run_or_pause()
        who.page.press("c")
        who.reload()
        who.page.wait(f"{NUMBER} === '42'")
        kept = who.page.answer(KEPT)
        expect("the branches that are kept", sorted(it[1] for text in kept if (it := BRANCH.search(text))), ["1", "2"])
        expect(
            "whether the older branch is whole",
            any(", branch 1, of " in text and f": {end:,} instructions, 1 input, " in text for text in kept),
            True,
        )
        sizes = [text.split(", ")[-1] for text in kept if BRANCH.search(text)]
        expect("whether a run of a small program is small", [size.endswith(" kB") for size in sizes], [True, True])
        who.resume()
        who.run_or_pause()
        who.page.wait(f"{SENT} === 'c'")
        who.run_or_pause()
        open_kept(who, "Resume", 20)
        who.page.wait(f"{WORD} === 'PAUSED' && {SENT} === 'a'")
        expect("the keys of another item", who.keys(), "a")


def test_continue_last(tmp_path: Path) -> None:
    """*Continue* resumes what was worked on last: a recording with its source, breakpoints and cursor, or a source with its caret. *Run* over a
    source without instructions leaves the machine."""
    with begun(tmp_path) as who:
        draw_and_pause(who)
        who.choose("draws.asm", DRAWS.encode())
        who.page.wait(f"{TEXT}.includes('Draws what is typed')")
        who.press("#g-source .text .chunk > :first-child")
        write_line(who, "Yes")
        who.press("#g-source-run")
        who.page.wait(f"{WORD} === 'LIVE' && document.activeElement.id === 'g-screen'")
        for key in "kl":
            who.page.press(key)
        who.page.wait("document.getElementById('g-status').textContent.includes(', 2 inputs')")
        who.run_or_pause()
        who.press('#g-source [data-line="4"]')
        for _ in range(3):
            who.press("#g-back")
        who.page.wait(f"{WORD}.startsWith('VIEWING ')")
        at = who.count()
        who.wait_until_kept()
        who.reload()
        continue_with(who, "draws")
        who.page.wait(f"{WORD}.startsWith('VIEWING ') && {COUNT} === {at} && {TEXT}.includes('Yes')")
        who.page.wait(f"{BROKEN} === '5'")
        who.press("#g-step")
        who.page.wait(f"{COUNT} === {at + 1}")
        # The older one is worked on.
        who.reload()
        who.page.wait("document.querySelectorAll('#g-kept-list p').length === 2")
        open_kept(who, "Resume", 2)
        who.page.wait(f"{WORD} === 'PAUSED' && {SENT} === 'a'")
        who.run_or_pause()
        who.type("b")
        who.run_or_pause()
        who.wait_until_kept()
        who.reload()
        continue_with(who, "draw")
        who.page.wait(f"{WORD} === 'PAUSED' && {SENT} === 'ab'")
        expect("the source of a machine that has none", who.page.answer(TEXT), "")
        count = who.count()
        who.press("#g-tab-source")
        begin_program(who)
        who.press("#g-source-run")
        who.page.wait(f"{NOTICE} === 'program.asm has no instructions yet.'")
        expect("the machine after Run without instructions", (who.count(), who.page.answer(SENT)), (count, "ab"))
        who.press("#g-source .text .chunk > :first-child")
        write_line(who, "Mine")
        who.page.press("ArrowLeft", number=37)
        who.page.wait("!galluspa.isUnsafe()")
        who.reload()
        continue_with(who, "Source program.asm")
        who.page.wait(f"{TEXT}.includes('Mine')")
        write_line(who, "x")
        expect("where one writes on", "Minxe" in who.page.answer(TEXT), True)


def test_continue_by_double_clicks(tmp_path: Path) -> None:
    """A double click on what goes on with something, or on *Run*, is one: the second click is not of another page, which would make a copy."""
    with begun(tmp_path) as who:
        who.choose("draws.asm", DRAWS.encode())
        who.page.wait(f"{TEXT}.includes('Draws what is typed')")
        write_first(who, ";One ")
        who.page.wait("!galluspa.isUnsafe()")
        for press, offered in (("#g-continue", "Source draws.asm"), ("#g-write", "Source draws.asm"), ("#g-continue", "draws")):
            who.reload()
            who.page.wait(
                f"!el('continue').disabled && document.getElementById('g-continue-what').textContent.startsWith('{offered},')"
            )
            double_click(who, f"document.querySelector('{press}')")
            who.page.wait(f"{TEXT}.includes(';One')")
            if offered == "draws":
                who.page.wait(f"{WORD} === 'PAUSED' && galluspa.source().isRunning")
            # What the second click does comes within two answers of the browser.
            time.sleep(0.5)
            expect(f"what is said after two clicks on {press}", who.page.answer(NOTICE), "")
            if press == "#g-write":
                double_click(who, "document.querySelector('#g-source-run')")
                who.page.wait(f"{WORD} === 'LIVE' && document.activeElement.id === 'g-screen'")
                who.run_or_pause()
                who.page.wait("galluspa.work().head")
        expect("what is kept of it", who.page.answer(f"{PARTED.strip()}.then(({{ heads }}) => heads.length)"), 2)


def double_click(who: Person, found: str, pause: float = 0) -> None:
    """Clicks twice on the middle of the element that an expression is of, with a pause in seconds between, after it has come to its place."""
    who.page.answer(f"{found}.scrollIntoView({{ block: 'nearest' }})")
    who.page.answer("new Promise((done) => requestAnimationFrame(() => requestAnimationFrame(() => done())))")
    x, y = who.page.answer(
        f"(({{ left, top, width, height }}) => [left + width / 2, top + height / 2])({found}.getBoundingClientRect())"
    )
    who.page.point("mouseMoved", x, y)
    for clicks in (1, 2):
        who.page.point_with("mousePressed", x, y, 1, 0, clicks)
        who.page.point_with("mouseReleased", x, y, 0, 0, clicks)
        time.sleep(pause)


def test_leave_while_resuming(tmp_path: Path) -> None:
    """What was looked at is kept though the page is loaded anew while a run is resumed whose source takes long to be read."""
    with begun(tmp_path) as who:
        who.choose("draws.asm", DRAWS.encode())
        who.page.wait(f"{TEXT}.includes('Draws what is typed')")
        who.press("#g-source-run")
        who.page.wait(f"{WORD} === 'LIVE' && document.activeElement.id === 'g-screen'")
        who.page.press("k")
        who.page.wait("document.getElementById('g-status').textContent.includes(', 1 input')")
        who.run_or_pause()
        who.press('#g-source [data-line="4"]')
        who.press("#g-tab-memory")
        who.press("#g-memory span[data-at]")
        who.press("#g-watch")
        who.press("#g-tab-log")
        who.press("#g-note")
        who.page.insert("here")
        who.page.press("Enter")
        for _ in range(3):
            who.press("#g-back")
        who.page.wait(f"{WORD}.startsWith('VIEWING ')")
        at = who.count()
        who.wait_until_kept()
        who.page.wait(f"({LOOKED_AT}).join() === '1,1,1,{at}'")
        for number in range(3):
            who.reload()
            if number < 2:
                who.page.answer(SLOW % ("false", 2000))
            continue_with(who, "draws")
            who.page.wait(f"{WORD} === 'PAUSED'" if number < 2 else f"{WORD}.startsWith('VIEWING ') && {TEXT}.includes('Draws')")
            # The first time it is left at once, and then after what is looked at would be kept.
            time.sleep(1 if number == 1 else 0)
        expect("the count that is looked at", who.count(), at)
        expect("what else is", who.page.answer("[breakpoints().length, watched().length, ...notes()]"), [1, 1, "here"])
        who.page.wait(f"({LOOKED_AT}).join() === '1,1,1,{at}'")


def show_part(who: Person, file: str) -> None:
    """Chooses a source of the program by an arrow key."""
    who.page.answer("document.getElementById('g-source-part').focus()")
    who.page.press("ArrowDown" if file == "dots.asm" else "ArrowUp", number=40 if file == "dots.asm" else 38)
    who.page.wait(f"galluspa.source().file === '{file}'")


def expect_parts(who: Person, texts: Mapping[str, str], breaks: Mapping[str, str | None]) -> None:
    """Expects all sources of the program, with what was written in each and its breakpoint; the last one is shown at the end."""
    for file, text in texts.items():
        if who.page.answer("galluspa.source().file") != file:
            show_part(who, file)
        expect(f"the text of {file}", who.page.answer(TEXT).startswith(text), True)
        expect(f"the breakpoint of {file}", who.page.answer(BROKEN), breaks[file])


def test_keep_several(tmp_path: Path) -> None:
    """All sources of a program are kept: with their breakpoints, and with a machine that is run from them."""
    texts, breaks = {"draws.asm": ";Yes; Draws what", "dots.asm": ";Dots; Draws a word."}, {"draws.asm": "5", "dots.asm": "2"}
    with begun(tmp_path) as who:
        who.drop({name: text.encode() for name, text in PARTS.items()})
        who.page.wait(f"{TEXT}.includes('Draws what is typed')")
        for file, text in texts.items():
            if file == "dots.asm":
                show_part(who, file)
            write_first(who, text[: text.index("; ")])
            who.press(f'#g-source [data-line="{int(breaks[file]) - 1}"]')
        who.reload()
        continue_with(who, "Source dots.asm and 1 more file")
        who.page.wait(f"{TEXT}.includes('Dots')")
        expect_parts(who, {file: texts[file] for file in ("dots.asm", "draws.asm")}, breaks)
        run_several(who)
        who.reload()
        continue_with(who, "draws")
        who.page.wait(f"{WORD} !== 'LIVE' && document.querySelector('#g-source .here') && galluspa.source().file === 'dots.asm'")
        expect_parts(who, {file: texts[file] for file in ("draws.asm", "dots.asm")}, {"draws.asm": None, "dots.asm": "2"})
        at = who.count()
        who.press("#g-step")
        who.page.wait(f"{COUNT} === {at + 1}")


def run_several(who: Person) -> None:
    """Runs the program of two sources, up to the breakpoint in the one that is not shown."""
    who.press('#g-source [data-line="4"]')
    who.press("#g-source-run")
    who.page.wait(f"{WORD} === 'LIVE' && document.activeElement.id === 'g-screen'")
    who.page.press("k")
    who.page.wait(f"{WORD} !== 'LIVE' && galluspa.source().file === 'dots.asm'")
    who.page.wait("document.querySelector('#g-source .here')")
    who.wait_until_kept()


def test_fill_with_several(tmp_path: Path) -> None:
    """Both sources of a program that a full storage does not take stay in the page, and are written once there is room."""
    texts, breaks = {"dots.asm": ";Less; Draws a word.", "draws.asm": ";More; Draws what"}, {"dots.asm": None, "draws.asm": None}
    with begun(tmp_path) as who:
        who.page.limit_storage(1000)
        who.drop({name: text.encode() for name, text in PARTS.items()})
        who.page.wait(f"{TEXT}.includes('Draws what is typed')")
        write_first(who, ";More")
        wanted = (
            "This browser cannot keep the source draws.asm and 1 more file, so save each to a file: the browser's storage is full"
        )
        who.page.wait(f"{NOTICE} === {json.dumps(wanted)}")
        expect("whether the browser asks before the page is left", who.page.is_kept_open(), True)
        show_part(who, "dots.asm")
        write_first(who, ";Less")
        begin_program(who)
        who.page.wait(f"{TEXT}.includes('A program of your own')")
        open_kept(who, "Open")
        who.page.wait(f"{TEXT}.includes('Less')")
        expect_parts(who, texts, breaks)
        who.page.limit_storage()
        who.page.wait("!galluspa.isUnsafe()")
        who.reload()
        continue_with(who, "Source draws.asm and 1 more file")
        who.page.wait(f"{TEXT}.includes('More')")
        expect_parts(who, dict(reversed(texts.items())), breaks)


def test_end_in_a_project(tmp_path: Path) -> None:
    """A project is there again as one, though the browser's process is ended a moment after something was done in it: its source as it was written last, its
    run, also one without inputs, its breakpoint, its note and its cursor."""
    with begun(tmp_path) as who:
        begin_program(who)
        for text in ("loop: ADD R1, R1, 1", "B loop"):
            write_line(who, text)
            who.page.press("Enter", number=13)
        who.press("#g-source-run")
        who.page.wait(f"{WORD} === 'LIVE'")
        who.run_or_pause()
        who.page.wait("galluspa.work().isStored")
        who.press('#g-source [data-line="2"]')
        for _ in range(3):
            who.press("#g-back")
        who.page.wait(f"{WORD}.startsWith('VIEWING ')")
        at = who.count()
        who.press("#g-tab-log")
        who.press("#g-note")
        for sign in "here":
            who.page.press(sign)
        who.press("#g-note-form button")
        who.press("#g-tab-source")
        who.press("#g-source .text .chunk > :last-child")
        write_line(who, "MOV R2, 77")
        who.page.wait(
            "!galluspa.isUnsafe() && galluspa.work().head.desk.notes.length === 1 && galluspa.work().head.desk.breaks.length === 1"
        )
        who.browser.kill()
    with begun(tmp_path) as who:
        continue_with(who, "program")
        who.page.wait(f"{WORD}.startsWith('VIEWING ') && {COUNT} === {at} && {TEXT}.includes('MOV R2, 77')")
        who.page.wait(f"{BROKEN} === '3'")
        expect("the notes", who.page.answer("notes()"), ["here"])
        expect("what else is kept", who.page.answer(NUMBER), "none")
