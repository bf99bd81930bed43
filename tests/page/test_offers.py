"""What the page offers, and its words: what a false verdict shows, a recording that is opened, what is saved in the past, Snake under any name, what is
kept, numbers in both notations, the first cards, and files that are dropped together."""

import json

import galluspa.formats.recording
from tests.page.driver.desk import Desk, expect, program, program_dots
from tests.page.driver.given import FACE
from tests.page.driver.shows import EXACT, HEADLINE, JUDGED, LINE, NOTICE, OWN_JUDGED, shown
from tests.tools.samples import EXAMPLES, JUMP, claim, encoded, page_of, record


def test_preview(desk: Desk) -> None:
    """A recording that is opened has the screen of its last checkpoint, and a button on it that plays it from the beginning."""
    page = desk.page
    desk.start("face.orsr", FACE)
    page.wait("el('big-run').checkVisibility()")
    expect("the screen of what is opened", desk.dots() == program_dots(FACE, 4), True)
    desk.set_speed("clock")
    desk.press("big-run")
    page.wait("galluspa.frame().on && !el('big-run').checkVisibility()")
    page.answer("el('speed').value = 'fast'; el('speed').dispatchEvent(new Event('change'))")
    page.wait("!galluspa.frame().on && galluspa.count() === 20000000")
    desk.start("face.orsr", FACE)
    page.wait("el('big-run').checkVisibility()")
    desk.press("step")
    page.wait("galluspa.count() === 1 && !el('big-run').checkVisibility()")
    expect("what is on the screen after a step", any(desk.dots()), False)


def test_save_in_past(desk: Desk) -> None:
    """In the past all of a recording is saved, which is said; and what is up to the cursor, with a checkpoint there."""
    page = desk.page
    desk.set_speed("clock")
    desk.draw()
    desk.type("abc")
    page.wait("galluspa.count() > 30000000")
    desk.press("run")
    page.wait("!galluspa.frame().on")
    end = page.answer("galluspa.count()")
    third = page.answer("galluspa.live('inputNear', { at: galluspa.count(), isBefore: true })")
    desk.look_at(third)
    whole = galluspa.formats.recording.read(desk.save("draw", "what is saved in the past"))
    expect(
        "what is said of it",
        page.answer(NOTICE),
        f'This is all of the recording, up to {end:,}. "Save up to the cursor" ends it at {third:,}.',
    )
    expect("its keys and its end", [len(whole.events), whole.checkpoints[-1].count], [3, end])
    desk.press("save-cursor")
    text = desk.saved("draw-live.orsr")
    part = galluspa.formats.recording.read(text)
    expect(
        "the keys and the end of what is up to the cursor",
        [[chr(it.value) for it in part.events], part.checkpoints[-1].count],
        [["a", "b"], third],
    )
    expect("the program's line", program("check", text)[1], 0)
    # The verdict says what is not saved, and is gone once what was saved is in a branch.
    headline, unsaved = shown("own-headline"), r"/^Verified to [\d.]+ s, [\d.]+ s not saved$/"
    page.wait(f"{unsaved}.test({headline})")
    desk.press("take-here")
    page.wait(f"{headline}.startsWith('Verified: ')")
    page.press("d")
    page.wait(f"{unsaved}.test({headline})")
    desk.pause()
    desk.look_at(third - 1)
    desk.press("take-here")
    page.wait(f"!{headline}")
    desk.start("keys.json", (EXAMPLES / "keys.json").read_bytes())
    desk.press("step")
    desk.look_at(4)
    desk.clear()
    desk.press("save-recording")
    desk.saved("keys-live.orsr")
    page.wait(f"{OWN_JUDGED}")
    expect("what is said ahead of a replay, of which nothing up to the cursor can be saved", page.answer(NOTICE), "")


def test_know_snake(desk: Desk) -> None:
    """A game of Snake is known by its program, whatever its file is called, and its name does not grow."""
    page = desk.page
    game = record((EXAMPLES / "snake.json").read_bytes())
    for name in ("game.orsr", "game-live.orsr"):
        desk.start(name, game)
        expect("whether it is the game", page.answer("el('pad').checkVisibility()"), True)
        desk.save("game", f"the game {name}")
    desk.start("snake.json", (EXAMPLES / "keys.json").read_bytes())
    expect("whether another program of its name is", page.answer("el('pad').checkVisibility()"), False)
    desk.press("snake")
    page.wait("galluspa.frame()?.on && galluspa.count() > 3000000")
    expect("what is beside a game", page.answer("[el('game').checkVisibility(), el('state').checkVisibility()]"), [True, False])
    desk.press("run")
    page.wait("!galluspa.frame().on && el('state').checkVisibility() && !el('game').checkVisibility()")


def test_read_numbers(desk: Desk) -> None:
    """Counts, words and addresses are read in both notations, and PC is shown in both."""
    page = desk.page
    desk.run_to_end("face.orsr", FACE)
    for text, count in (
        ("0x7A1200", 8000000),
        ("4,000,000", 4000000),
        ("1e6", 1000000),
        ("1.5e6", 1500000),
        ("+100", 1500100),
        ("−0.1 ms", 1497600),
        ("50%", 10000000),
        ("500 ms", 12500000),
        ("0:00:00.2", 5000000),
        ("8,000,000 · 0.320 s", 8000000),
        ("count 4,000,000", 4000000),
        ("0.5 s", 12500000),
    ):
        desk.go_to(text)
        page.wait(f"galluspa.cursor() === {count} && {EXACT}")
    pc = page.answer("galluspa.shownPart('PC')")
    expect("PC in both notations", page.answer("stateCell('PC').textContent"), f"{4 * pc:04X} · {pc}")
    for kind, text, wanted in (
        ("PC comes to", f"{4 * pc:04X}", f"PC {4 * pc:04X} · {pc}"),
        ("PC comes to", f"·{pc}", f"PC {4 * pc:04X} · {pc}"),
        ("PC comes to", f"{4 * pc:X}-{4 * pc + 8:X}", f"PC {pc} to {pc + 2}"),
        ("PC comes to", f"{4 * pc:04X} · {pc}", f"PC {4 * pc:04X} · {pc}"),
        ("a store to", "EECC8", "a store to EECC8"),
        ("a store to", f"· {0xEECC8 // 4}", "a store to EECC8"),
        ("a store to", "0xEECC8-0xEECCB", "a store to EECC8 to EECCB"),
    ):
        desk.choose_option("search-kind", kind)
        page.answer(f"el('search-range').value = {json.dumps(text)}")
        desk.press("find-before")
        page.wait(f"!galluspa.isSearching() && {shown('found')}.startsWith({json.dumps(wanted)})")
    refuse_numbers(desk)


def refuse_numbers(desk: Desk) -> None:
    """Types what is neither a count, a time nor a place in the code into *go to*, and what is no address of an instruction into a search: the page says
    so, and neither moves nor searches. What it searches for it says."""
    page = desk.page
    at = page.answer("galluspa.cursor()")
    for text, why in (
        ("1,5 s", "1,5 s: commas are between groups of three digits, as in 1,234."),
        ("15,00", "15,00: commas are between groups of three digits, as in 1,234."),
        ("1 500", "1 500 has spaces: write 1500."),
        ("1.5", "1.5 is not a whole count: as a time it is written 1.5 s."),
        ("1.23e1", "1.23e1 is not a whole count."),
        ("1F", "1F is hexadecimal: write 0x1F as a count, PC 1F as an address of the code."),
        ("5 hours", "5 hours: a time is in ms, s or min."),
        ("0:75:00", "0:75:00: minutes and seconds are below 60."),
        ("101%", "101% is more than all of the timeline, 100%."),
        (f"-{at + 1}", f"-{at + 1} from {at:,} is before count 0."),
        ("R0", "R0 is a register, and no place of the code."),
        ("SP", "SP is a register, and no place of the code."),
        ("TIMER", "TIMER is a device, and no place of the code."),
        ("Nowhere + 4", "There is no name Nowhere + 4: the machine has no names."),
        ("line 5", "The machine has no lines of a source."),
        ("other.asm:5", "There is no source other.asm of this machine."),
        ("0048 · 17", "0048 · 17: the address 0048 is in the word 18."),
        ("PC 200000", "PC 200000 is outside memory."),
    ):
        desk.go_to(text)
        page.wait(f"{NOTICE} === {json.dumps(why)}")
        expect(f"what is looked at after {text}", page.answer("galluspa.cursor()"), at)
    desk.go_to("?")
    page.wait(f"{NOTICE}.startsWith('?: write a count (1,500, 1e6, +100), a time (1.5 s), a share (50%)')")
    desk.go_to("1,500 s")
    page.wait(f"{NOTICE} === '37,500,000,000 is after the last count, 20,000,000.'")
    desk.go_to("0044 · 17")
    page.wait(f"{shown('found')}.startsWith('PC 0044 · 17') && !galluspa.isSearching()")
    desk.press("tab-state")
    desk.choose_option("search-kind", "PC comes to")
    for text, said in (
        ("0045", "0045 is 0045, and an instruction begins at a multiple of 4."),
        ("0044 · 18", "0044 · 18: the address 0044 is in the word 17."),
    ):
        page.answer(f"el('search-range').value = {json.dumps(text)}")
        desk.press("find-next")
        page.wait(f"{NOTICE} === {json.dumps(said)}")
    page.answer("el('search-range').value = '7FFF0'")
    desk.press("find-before")
    page.wait(f"{shown('found')} === 'PC 7FFF0 · 131068: none before.'")


def test_say_words(desk: Desk) -> None:
    """The lanes, the buttons and the verdicts have the words of the documents; a recording that claims nothing is not said to be true."""
    page = desk.page
    desk.start("face.orsr", FACE)
    page.wait(JUDGED)
    expect("the headline", page.answer(HEADLINE), "Verified: 4 checkpoints, 0.8 s of machine time")
    expect("what is said of a replay", page.answer(shown("mode-text")), "Run plays the file. Continue from here to type.")
    page.wait("[...el('names').children].map((it) => it.textContent).filter(Boolean).join() === 'checkpoints,keyframes'")
    buttons = "['zoom-all', 'take-over', 'take-here', 'run-on', 'run-again'].map((it) => el(it).textContent)"
    expect(
        "the buttons",
        page.answer(buttons),
        ["Fit", "Continue from here", "Continue from here", "Open as a new recording", "Re-run and compare"],
    )
    nothing = encoded(2, [page_of(JUMP)], [claim(0)])
    desk.start("nothing.orsr", nothing)
    page.wait(JUDGED)
    expect(
        "a recording without checkpoints",
        page.answer(f"[{HEADLINE}, {LINE}, el('line').className]"),
        ["Valid, claims nothing", "accepted 0 checkpoints 0 steps", "line note"],
    )


def test_drop_files(desk: Desk) -> None:
    """Of two files that are dropped together the first one is opened, which is said; an empty file has nothing to open, and one of another program none here."""
    page, texts = desk.page, [(EXAMPLES / f"{name}.json").read_text() for name in ("keys", "lines")]
    desk.drop({f"{name}.json": text.encode() for name, text in zip(("first", "second"), texts)})
    desk.expect_notice("two files", r"Opened the first of 2 files: first\.json\.")
    expect("what is open", page.answer(shown("name")), "first")
    desk.choose("empty.bin", b"")
    desk.expect_refused("empty.bin", "an empty file has nothing to open")
    for begin, other in ((b"PK\3\4", "a ZIP archive"), (b"\x89PNG\r\n", "a PNG picture"), (b"%PDF-1.7", "a PDF document")):
        desk.choose("other.bin", begin + bytes(60))
        page.wait(f"el('refused').textContent.includes('{other}')")
        desk.expect_refused("other.bin", f"it is {other}, and not a recording, a session or an image of memory")
    expect("whether it is offered as an image", page.answer("el('image').checkVisibility()"), False)
