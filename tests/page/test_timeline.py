"""The timeline in use, by the mouse and the keyboard: the cursor looks at the past, one takes over from there, and the past says who wrote what."""

import json
import re
import time

import galluspa.formats.recording
from tests.page.driver.shows import CARD, EXACT, JUDGED, NOTICE, SENT, WORD, button_of, shown
from tests.page.driver.desk import CTRL, SHIFT, Desk, expect, fail, program, program_dots
from tests.page.driver.given import FACE
from tests.tools.samples import EXAMPLES, JUMP, claim, encoded, in_register, page_of, rejoining, session

WORDS, SPAN = "el('cursor').getAttribute('aria-valuetext')", "(([from, to]) => to - from)(galluspa.span())"


def test_drag(desk: Desk) -> None:
    """A real drag of the cursor looks at the past; a picture at a checkpoint is the program's; the words come once it has settled."""
    page = desk.page
    page.resize(1400, 900)
    desk.run_to_end("face.orsr", FACE)
    page.wait(f"{WORDS}.startsWith('count 20,000,000, 0.800 seconds, now')")
    left, top, width = page.answer("(({ left, top, width }) => [left, top, width])(el('track').getBoundingClientRect())")
    at = lambda share: (left + width * share, top + 60, time.time())
    page.answer(
        f"window.said = new Set(); new MutationObserver(() => said.add({WORDS})).observe(el('cursor'), {{ attributes: true }})"
    )
    page.send_mouse("mousePressed", *at(0.95), 1)
    for step in range(60):
        page.send_mouse("mouseMoved", *at(0.95 - step * 0.01), 1)
    page.wait(f"galluspa.cursor() < 8000000 && {WORD}.startsWith('VIEWING ')")
    expect("what is said on the way", page.answer("said.size"), 1)
    page.send_mouse("mouseReleased", *at(0.36))
    page.wait(EXACT)
    found = re.fullmatch(r"count ([\d,]+), (\d\.\d+) seconds, the past, 0\.5 seconds before now", page.answer(WORDS))
    if not found or not 6900000 < int(found[1].replace(",", "")) < 7500000:
        fail(f"the words of the cursor: {page.answer(WORDS)}")
    expect("what is said of the past", page.answer(shown("mode-text")), "0.5 s before now. Keys do nothing.")
    for checkpoint, count in ((2, 8000000), (1, 4000000), (3, 12000000)):
        desk.look_at(count)
        expect(f"the picture at {count}", desk.dots() == program_dots(FACE, checkpoint), True)
    page.wait(f"{WORDS}.endsWith(', a checkpoint, true')")
    desk.click("run-again")
    page.wait(f"{shown('run-again-said')} === 'The same.'")
    lists = page.answer("[...el('lists').children].map((it) => it.getAttribute('aria-label').split(':')[0])")
    expect(
        "the lists of the lanes",
        lists,
        [f"Lane {name}" for name in ("checkpoints", "keys", "mouse", "serial", "screen", "calls", "hits", "keyframes")],
    )
    claims = page.answer("[...el('lists').firstChild.children].map((it) => it.textContent)")
    expect("the list of the checkpoints", claims, [f"true at {count:,}" for count in (4000000, 8000000, 12000000, 20000000)])
    desk.click("back-now")
    page.wait(f"{WORD} === 'DONE'")
    expect("the picture now", desk.dots() == program_dots(FACE, 4), True)
    desk.look_at(8000000)
    desk.start("keys.json", (EXAMPLES / "keys.json").read_bytes())
    expect("the dots of a machine that is opened in the past of another", any(desk.dots()), False)
    expect("what the timeline says of its screen", page.answer("lane('screen').filter((it) => it.includes('changed'))"), [])


def test_disk(desk: Desk) -> None:
    """The answers of a disk have a lane of their own, and a list of what each was. A machine without a disk has no such lane."""
    page = desk.page
    text = (EXAMPLES / "suite/devices/disk-answers.orsr").read_bytes()
    desk.run_to_end("disk-answers.orsr", text)
    recording = galluspa.formats.recording
    answers = [event for event in recording.read(text).events if recording.KINDS[event.kind] == "disk"]
    wanted = [f"disk {answer.value:02X} at {answer.count:,}" for answer in answers]
    page.wait(f"lane('disk').length === {len(wanted)}")
    expect("the answers in the list", page.answer("lane('disk')"), wanted)
    names = "[...el('names').children].map((it) => it.textContent)"
    expect("whether there is a lane", "disk" in page.answer(names), True)
    desk.start("keys.json", (EXAMPLES / "keys.json").read_bytes())
    expect("whether there is one without a disk", "disk" in page.answer(names), False)


def test_press_each(desk: Desk) -> None:
    """Each key of the region does what it is for."""
    page = desk.page
    desk.run_to_end("face.orsr", FACE)
    desk.look_at(8000000)
    for key, modifiers, count in (
        ("ArrowLeft", 0, 7999999),
        ("ArrowRight", 0, 8000000),
        ("[", 0, 4000000),
        ("]", 0, 8000000),
        ("Home", 0, 0),
        ("]", 0, 4000000),
        (",", 0, 0),
        ("End", 0, 20000000),
        ("[", 0, 12000000),
        (".", 0, 20000000),
    ):
        page.press(key, modifiers=modifiers)
        page.wait(f"galluspa.shownCount() === {count} && (!galluspa.isPast() || {EXACT})")
    for key, sign in (("PageUp", "<"), ("PageDown", ">"), ("+", "<"), ("-", ">")):
        before = page.answer(SPAN)
        page.press(key)
        page.wait(f"{SPAN} {sign} {before}")
    before = page.answer(SPAN)
    page.turn_wheel(*desk.middle_of("el('track')"), -300, ctrl=True)
    page.wait(f"{SPAN} < {before} / 1.5")
    # The wheel may take the cursor out of sight, and with it the focus.
    desk.press("zoom-all")
    page.answer("el('cursor').focus()")
    for _ in range(60):
        page.press("+")
    page.wait(f"Math.round({SPAN}) === 16")
    desk.look_at(4000000)
    expect("whether the cursor is in sight", page.answer("(([from, to]) => from < 4000000 && to > 4000000)(galluspa.span())"), True)
    desk.click("zoom-all")
    press_search_keys(desk)
    page.answer("el('cursor').focus()")
    for _ in ("the menu", "the past"):
        page.press("Escape")
    page.wait(f"{WORD} === 'DONE'")
    for isOn in ("galluspa.frame().on", "!galluspa.frame().on"):
        page.press("Enter", modifiers=CTRL | SHIFT)
        page.wait(isOn)


def press_search_keys(desk: Desk) -> None:
    """The keys of breakpoints, watches and searches."""
    page = desk.page
    desk.look_at(8000000)
    pc = page.answer("galluspa.shownPart('PC')")
    page.press("b")
    expect("the breakpoint", page.answer("breakpoints()"), [pc])
    page.press("ArrowLeft", modifiers=SHIFT)
    page.wait(f"galluspa.shownCount() < 8000000 && {EXACT} && !galluspa.isSearching()")
    expect("the program counter of the last hit", page.answer("galluspa.shownPart('PC')"), pc)
    page.press("ArrowRight", modifiers=SHIFT)
    page.wait(f"galluspa.shownCount() === 8000000 && {EXACT} && !galluspa.isSearching()")
    page.press("n")
    page.wait(f"galluspa.shownCount() > 8000000 && {EXACT}")
    page.press("N", modifiers=SHIFT)
    page.wait(f"galluspa.shownCount() === 8000000 && {EXACT}")
    page.press("b")
    expect("no breakpoint", page.answer("breakpoints().length"), 0)
    page.press("w")
    desk.expect_notice("a watch of nothing", "Select the bytes to watch.")
    page.press("/")
    expect("where / goes", page.answer("document.activeElement.id"), "g-search-kind")


def test_ask_who(desk: Desk) -> None:
    """A click on a dot, and on a register, has the instruction that the tools find; a dot that none drew is said to be so."""
    page = desk.page
    desk.run_to_end("face.orsr", FACE)
    page.answer("el('screen').focus()")
    desk.click_dot(600, 219)
    page.wait(f"{CARD}.includes(': sure')")
    found = page.answer("[...el('card').querySelectorAll('h2, p')].map((it) => it.textContent)")
    expect(
        "who drew the dot",
        found,
        ["Who drew the dot 600,219", "Instruction 4,838,732, PC 00A4 · 41: sure", "STR R6, R13, 0  Mem[R13] := R6"],
    )
    desk.click_on(button_of("el('card')", "Jump"))
    page.wait(f"galluspa.cursor() === 4838732 && {EXACT}")
    desk.click("back-now")
    page.wait("!galluspa.isPast()")
    desk.click_dot(8, 760)
    page.wait(f"{CARD}.includes('No instruction changed it.')")
    desk.ask_who_wrote("R13")
    page.wait(f"{CARD}.includes('Who wrote R13') && {CARD}.includes(': sure')")
    desk.ask_who_wrote("LEDs")
    page.wait(f"{CARD}.includes('Never written since the start.')")


def test_ask_devices(desk: Desk) -> None:
    """A click on the LEDs, and on the keys, has the instruction that wrote or took them last; on the mouse, the input. A machine that runs is
    paused first."""
    page = desk.page
    keys = json.dumps(
        {
            **json.loads((EXAMPLES / "draw.json").read_text()),
            "inputs": [[100000, "mouse", 77], [200000, "key", 33]],
            "checkpoints": [300000],
        }
    )
    desk.run_to_end("devices.json", keys.encode())
    for name, said in (
        ("LEDs", r"Who wrote LEDs×Instruction [\d,]+, PC [\dA-F]+ · \d+: sureST.*"),
        ("keys", r"Who wrote keys×Instruction [\d,]+, PC [\dA-F]+ · \d+: sureLD.*"),
        ("mouse", r"Who wrote mouse×The input mouse 4D before instruction 100,000: sureJumpEarlier"),
        ("switches", r"Who wrote switches×Never written since the start\."),
    ):
        desk.ask_who_wrote(name)
        page.wait(f"{CARD}.includes('Who wrote {name}') && !{CARD}.includes('search')")
        if not re.fullmatch(said, page.answer(CARD)):
            fail(f"who wrote {name}: {page.answer(CARD)!r}")
    desk.click("tab-devices")
    desk.click("writer-leds")
    page.wait(f"{CARD}.includes('Who wrote LEDs') && {CARD}.includes(': sure')")
    desk.click("tab-state")
    desk.go_on()
    desk.ask_who_wrote("R1")
    desk.expect_notice("a question of a machine that runs", r"Pause the machine to see what wrote this\.")
    desk.pause()


def test_search(desk: Desk) -> None:
    """A search by the form finds what happens next and before; what is written wrongly is said to be; a watch of bytes is met."""
    page = desk.page
    desk.run_to_end("keys.json", (EXAMPLES / "keys.json").read_bytes())
    desk.choose_option("search-kind", "any byte sent")
    desk.click("find-before")
    page.wait(f"galluspa.isPast() && {EXACT}")
    last = page.answer("galluspa.cursor()")
    expect("how many bytes were sent before the last one", page.answer("galluspa.moment().sent + 1"), len(page.answer(SENT)))
    # Esc closes the menu, and only then leaves what was found.
    page.answer("el('more').open = true; el('search-kind').focus()")
    for is_past in (True, False):
        page.press("Escape")
        expect("what Esc leaves", page.answer("[el('more').open, galluspa.isPast()]"), [False, is_past])
    desk.look_at(last)
    desk.click("find-next")
    page.wait(f"{shown('found')}.endsWith(': none after it, up to now.')")
    expect("where it stays", page.answer("galluspa.cursor()"), last)
    desk.look_at(0)
    desk.choose_option("search-kind", "PC comes to")
    page.answer("el('search-range').value = '0'")
    desk.click("find-next")
    page.wait(f"{shown('found')} === 'PC 0000 · 0 at 0'")
    desk.click("find-next")
    page.wait(f"{shown('found')}.endsWith(': none after it, up to now.')")
    desk.choose_option("search-kind", "a store to")
    page.answer("el('search-range').value = 'xyz'")
    desk.click("find-before")
    desk.expect_notice("no address", "xyz: an address is hexadecimal, ·32 for the word 32, a name, or two as in E8000-E8003.")
    page.answer("el('search-range').value = ''")
    desk.click("find-before")
    desk.expect_notice("an empty field", "An address is hexadecimal, ·32 for the word 32, a name, or two as in E8000-E8003.")
    desk.run_to_end("face.orsr", FACE)
    select_bytes(desk, "EECC8", 2)
    page.answer("el('cursor').focus()")
    page.press("w")
    expect("what is watched", page.answer("watched()"), ["EECC8 to EECC9"])
    desk.click("back-run")
    page.wait(f"galluspa.cursor() === 4838732 && {EXACT}")
    page.press("w")
    expect("no watch", page.answer("watched().length"), 0)
    desk.click("tab-state")
    desk.click("back-now")


def select_bytes(desk: Desk, at: str, number: int) -> None:
    """Selects bytes in *Memory*, by the field and the keyboard."""
    page = desk.page
    desk.press("tab-memory")
    desk.write_to("memory-at", at)
    page.wait(f"{shown('selected')}.startsWith('{at}') && el('memory').querySelector('.selected')")
    page.answer("el('memory').focus()")
    for _ in range(number - 1):
        page.press("ArrowRight", modifiers=SHIFT)


def test_stop_search(desk: Desk) -> None:
    """A long search says how far it is, and ends as soon as it is cancelled."""
    page = desk.page
    desk.set_speed("fast")
    desk.start("counting.json", json.dumps(session([0x40080001, 0xE7FFFFFE], [])).encode())
    desk.click("run")
    page.wait("galluspa.count() > 100000000")
    desk.click("run")
    page.wait("!galluspa.frame().on")
    desk.choose_option("search-kind", "any byte sent")
    desk.click("find-before")
    page.wait(f"/^[\\d,]+ of [\\d,]+ counts, about \\d+ s left$/.test({shown('found')}) && !el('find-stop').hidden")
    page.answer("el('cursor').focus()")
    page.press("Escape")
    page.wait(f"{shown('found')} === 'The search was cancelled.' && el('find-stop').hidden")
    expect("where it stays", page.answer(WORD), "PAUSED")
    desk.ask_who_wrote("LEDs")
    page.wait(f"/of [\\d,]+ counts/.test({CARD}) && el('writer-search')")
    page.answer("el('cursor').focus()")
    page.press("Escape")
    page.wait(f"{CARD}.includes('The search was cancelled.') && !el('writer-search')")
    desk.ask_who_wrote("LEDs")
    page.wait("el('writer-far')?.textContent")
    page.answer("el('card').querySelector('.close').click()")
    page.wait("el('card').hidden")


def test_look_ahead(desk: Desk) -> None:
    """In a replay the cursor goes ahead of the machine, to what the file claims; one may run to there, and not take over."""
    page = desk.page
    desk.start("face.orsr", FACE)
    page.wait(f"{JUDGED} && galluspa.span()[1] === 20000000")
    desk.look_at(8000000)
    expect(
        "what is said of it",
        page.answer(f"[{WORD}, {shown('mode-text')}]"),
        ["REPLAY", "0.3 s ahead of the replay, as the file claims, which was checked. Keys do nothing."],
    )
    expect("the picture that is claimed", desk.dots() == program_dots(FACE, 2), True)
    expect("what one may do", page.answer(f"[el('take-here').hidden, {shown('run')}]"), [True, "Run to here"])
    desk.click("run")
    page.wait("!galluspa.isPast() && galluspa.count() === 8000000 && !galluspa.frame().on")


MET = f"!galluspa.isPast() && !galluspa.frame().on && {shown('found')}"


def meet_breakpoint(desk: Desk) -> None:
    """A breakpoint is set beside the listing, and a run of the live machine is paused there; the picture of it is saved."""
    page = desk.page
    desk.set_speed("fast")
    desk.start("face.json", (EXAMPLES / "face.json").read_bytes())
    desk.click("tab-code")
    gutter = "el('listing').querySelector('button[data-pc=\"6\"]')"
    page.wait(gutter)
    page.wait("el('trace').querySelector('.here')")
    desk.click_on(gutter)
    page.wait("breakpoints().length")
    expect("the breakpoint beside the listing", page.answer("breakpoints()"), [6])
    page.wait(f"{shown('break-list')} === 'no name 0018 · 60 hits up to here×'")
    desk.click("run")
    page.wait(f"{MET} === 'PC 0018 · 6 at 6'")
    expect("where the machine is paused", page.answer("[galluspa.part('PC'), galluspa.count(), galluspa.isPast()]"), [6, 6, False])
    page.wait("el('trace').querySelector('.here')")
    desk.click("save-screen")
    expect("the picture that is saved", desk.saved("face-6.png")[:4], b"\x89PNG")
    desk.click_on(button_of("el('break-list')", "×"))


def meet_each(desk: Desk) -> None:
    """A run is paused each time that it comes to a breakpoint, at either speed, and at a watch."""
    page = desk.page
    desk.set_break("·13")
    counts: list[int] = []
    for speed in ("fast", "clock", "fast"):
        page.answer(f"el('speed').value = '{speed}'")
        desk.click("run")
        page.wait(
            f"galluspa.count() > {counts[-1] if counts else 6} && {MET} === `PC 0034 · 13 at ${{galluspa.count().toLocaleString('en-US')}}`"
        )
        counts.append(page.answer("galluspa.count()"))
    first = "galluspa.past('find', {{ from: {}, to: galluspa.count() + 1, conditions: [{{ kind: 1, from: 13, end: 14 }}] }}).then((it) => it.at)"
    expect(
        "where the machine is paused each time",
        counts,
        [page.answer(first.format(at)) for at in (6, *(it + 1 for it in counts[:-1]))],
    )
    desk.click_on(button_of("el('break-list')", "×"))
    select_bytes(desk, "EECC8", 2)
    desk.press("watch")
    desk.click("run")
    page.wait(f"{MET} === 'a change of EECC8 to EECC9 at 4,838,732'")
    expect("the count before a watched byte changes", page.answer("galluspa.count()"), 4838732)
    desk.click("tab-state")


def test_show_false(desk: Desk) -> None:
    """A false recording shows the machine's part beside the claimed one, and a click leads to the instruction that made it so."""
    page = desk.page
    desk.start("false.orsr", rejoining(9))
    page.wait("!el('false-claim').hidden")
    expect("the headline", page.answer("el('false-claim').querySelector('b').textContent"), "False at checkpoint 1: R5")
    page.answer("el('false-claim').querySelector('button').click()")
    page.wait("galluspa.count() === 2 && el('false-claim').querySelector('.both')")
    expect(
        "both parts",
        page.answer("el('false-claim').querySelector('.both').textContent"),
        "R5: the machine has 00000001, the recording claims 00000009.",
    )
    page.answer("el('false-claim').querySelector('button').click()")
    page.wait(f"{CARD}.includes('Who wrote R5') && {CARD}.includes(': sure')")
    memory = encoded(2, [page_of(JUMP), page_of(0, 7)], [claim(0), claim(10, {0: 1, 3: 2})])
    expect("a false word", program("check", memory)[0], "false checkpoint 1 at 10 part page 3")
    desk.run_to_end("memory.orsr", memory)
    page.wait("el('false-claim').querySelector('.both')")
    both = page.answer("el('false-claim').querySelector('.both').textContent")
    expect("a word and the claimed one", both, "the word at 00C04: the machine has 00000000, the recording claims 00000007.")
    page.answer("el('false-claim').querySelector('button').click()")
    page.wait(f"{CARD}.includes('Never written since the start')")
    show_all_false(desk)


def show_all_false(desk: Desk) -> None:
    """All other parts that differ are in a list; and where the emulator went wrong, with the command that finds the instruction."""
    page, place = desk.page, "el('false-claim')"
    claims = [claim(0), claim(4), claim(10, {0: 1, 3: 2}, registers=in_register(5, 9), leds=0x5A, output=b"no")]
    many = encoded(2, [page_of(JUMP), page_of(0, 7, *[1] * 20)], claims)
    expect("the first part", program("check", many)[0], "false checkpoint 2 at 10 part R5")
    desk.run_to_end("it's many.orsr", many)
    page.wait(f"{place}.querySelector('details')")
    page.answer(f"{place}.querySelector('summary').click()")
    rows = page.answer(f"[...{place}.querySelectorAll('li')].map((row) => row.textContent)")
    expect(
        "the first of the other parts",
        rows[:3],
        [
            "LEDs: the machine has 00, the recording claims 5A",
            "byte 1 sent after checkpoint 1: the machine has no more of 0, the recording claims 6E (n) of 2",
            "the word at 00C04: the machine has 00000000, the recording claims 00000007",
        ],
    )
    expect("how many more", (len(rows), rows[-1]), (17, ".. and 7 more"))
    expect("where", "Yours went wrong between 4 and 10." in page.answer(f"{place}.textContent"), True)
    command = page.answer(f"{place}.querySelector('code').textContent")
    expect("the command", command, "galluspa bisect 'it'\\''s many.orsr' --from 4 --to 10 -- COMMAND {count}")


def refuse_inputs(desk: Desk) -> None:
    """In the past, the page says that switches, serial bytes and keys have no effect."""
    page, why = (
        desk.page,
        r"VIEWING an earlier count: nothing goes to the machine until you continue from here, or go back to live\.",
    )
    send = "el('serial').value = 'x'; el('serial-form').requestSubmit()"
    for what, does in (("a switch", "el('switches').querySelector('input').click()"), ("serial bytes", send)):
        page.answer(f"el('notice').click(); {does}")
        desk.expect_notice(f"{what} in the past", f"{why}.*")
    page.answer("el('notice').click(); el('serial').value = ''; el('screen').focus()")
    page.press("z")
    desk.expect_notice("a key in the past", why)


def test_branch(desk: Desk) -> None:
    """After a take-over the recording goes on from there; the old one stays as a branch; both are accepted by the program."""
    page = desk.page
    page.answer("el('speed').value = 'clock'; el('each').value = 1")
    desk.draw()
    for key in "ab":
        page.press(key)
        page.wait(f"{SENT}.endsWith({key!r})")
    desk.pause()
    end = page.answer("galluspa.count()")
    page.answer("el('cursor').focus()")
    page.press(",")
    page.wait(f"galluspa.isPast() && {EXACT}")
    parent = page.answer("galluspa.cursor()")
    refuse_inputs(desk)
    expect("the inputs of the machine after them", page.answer("galluspa.frame().inputs"), 2)
    # A double click is one.
    page.answer("for (const _ of [1, 2]) el('take-here').click()")
    page.wait(f"!galluspa.isPast() && galluspa.count() === {parent}")
    page.wait(f"{SENT} === 'a'")
    desk.go_on()
    page.press("c")
    page.wait(f"{SENT} === 'ac'")
    desk.pause()
    own = desk.save("draw", "what was taken over")
    page.answer("document.querySelector('#g-branches button').click()")
    page.wait(f"galluspa.work().number === 1 && galluspa.count() === {end} && !galluspa.frame().on")
    other = desk.save("draw", "the branch that was returned to")
    keys = [[event.value for event in galluspa.formats.recording.read(text).events if event.kind == 4] for text in (own, other)]
    expect("the keys of both branches", keys, [[ord("a"), ord("c")], [ord("a"), ord("b")]])
    said = page.answer("el('branches').textContent")
    expect("the branches that are shown", re.sub(r"[\d.]+ s", "S", said), "Other branches: branch 2 from S to S.")
    for text in (own, other):
        expect("the program's line", program("check", text)[0].split()[0], "accepted")
    # Read anew, a branch has to be taken first, which a second press would find taken.
    page.wait("galluspa.work().isStored && !galluspa.work().isNewer")
    desk.reload()
    page.wait("!el('continue').disabled")
    desk.click("continue")
    page.wait("galluspa.work().generation && branchesShown().length === 1 && galluspa.frame() && !galluspa.frame().isReplay")
    page.answer("for (const _ of [1, 2]) document.querySelector('#g-branches button').click()")
    page.wait("branchesShown()[0]?.startsWith('branch 1') && !galluspa.isPast()")
    expect("what is said of a branch that was pressed twice", page.answer(NOTICE), "")


def test_ask_before_dropping(desk: Desk) -> None:
    """A ninth branch is made only if the user lets one be dropped."""
    page = desk.page
    desk.start("keys.json", (EXAMPLES / "keys.json").read_bytes())
    page.answer("window.asked = []; window.confirm = (text) => (asked.push(text), asked.length > 1)")
    for number in range(1, 10):
        desk.click("step")
        page.wait("galluspa.count() === 1")
        desk.press("back")
        page.wait(f"galluspa.isPast() && {EXACT}")
        desk.click("take-here")
        page.wait(f"branchesShown().length === {number} && galluspa.count() === 0" if number < 9 else "asked.length === 1")
    expect("the question", page.answer("asked[0]").startswith('There are 8 branches. Drop "branch 1"'), True)
    expect("the branches while it is asked", page.answer("[branchesShown().length, galluspa.cursor()]"), [8, 0])
    desk.click("take-here")
    page.wait("branchesShown()[0].startsWith('branch 2')")
    expect(
        "the branches", page.answer("branchesShown().map((it) => it.slice(0, 8))"), [f"branch {number}" for number in range(2, 10)]
    )


def test_meet_breakpoints(desk: Desk) -> None:
    """A breakpoint is met, and then met again, at each speed."""
    meet_breakpoint(desk)
    meet_each(desk)
