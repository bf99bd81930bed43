"""The page in use, for all that has no module of its own: recordings are opened, machines are drawn on, recorded and saved, by keys alone, too."""

import json
import random
import re
import struct
from dataclasses import replace

import galluspa.formats.recording
from galluspa.formats import states
from tests.page.driver.desk import CTRL, SHIFT, Desk, expect, fail, program
from tests.page.driver.given import FACE
from tests.page.driver.shows import DRAWN, HOW, JUDGED, LINE, OWN_JUDGED, OWN_LINE, SENT, WORD
from tests.tools.samples import EXAMPLES, PROGRAM, STORED, galluspa as galluspa_tool, group, record, rejoining, run, session

TIMER_AT = 88


def test_open_recordings(desk: Desk) -> None:
    """Recordings that are accepted, false, refused and dropped."""
    face = FACE
    desk.open("face.orsr", face)
    desk.expect_line("an accepted recording", face)
    desk.page.wait("el('claim-number').value === '4'")
    claims = galluspa.formats.recording.read(face).checkpoints
    for number, (now, before) in enumerate(zip(claims, [None, *claims])):
        desk.show_claim(number)
        olds, parts = states.texts(before or now), {**states.texts(now), "disk": f"{now.disk:08X}"}
        found = desk.page.answer(
            "[...document.querySelectorAll('#g-claim dd')].map((it) => [it.previousSibling.textContent, it.textContent, "
            "it.classList.contains('changed')])"
        )
        expect(
            f"the parts at checkpoint {number}", found, [[name, text, text != olds.get(name, text)] for name, text in parts.items()]
        )
    false = rejoining(9)
    desk.drop({"false.orsr": false})
    desk.expect_line("a false recording, dropped", false)
    desk.page.wait("document.querySelector('#g-claim dd.wrong')")
    expect("the false part", desk.page.answer("document.querySelector('#g-claim dd.wrong').textContent"), "00000009")
    desk.choose("short.orsr", STORED[:-1])
    desk.expect_refused("short.orsr", program("check", STORED[:-1])[0])


def test_check_long(desk: Desk) -> None:
    """A long recording has the line of its slices first, and then that of one call; cancelled between, the first stays and is said to be joined."""
    page = desk.page
    counts = [10000000, 20000000, 100000000]
    long = record(json.dumps({**json.loads((EXAMPLES / "face.json").read_text()), "checkpoints": counts}).encode())
    page.answer(
        "new MutationObserver(() => { if (!el('how').textContent.endsWith(\"this page's script.\")) return; window.joined.add(el('line').textContent);"
        " window.onJoined?.(); }).observe(el('how'), { childList: true, characterData: true, subtree: true })"
    )
    read = galluspa.formats.recording.read(long)
    false = [
        galluspa.formats.recording.write(
            replace(read, checkpoints=[replace(it, h=1) if at == wrong else it for at, it in enumerate(read.checkpoints)])
        )
        for wrong in (1, 3)
    ]
    for text in (*false, long):
        page.answer("window.joined = new Set()")
        desk.open("long.orsr", text)
        desk.expect_line("a long recording", text)
        expect("the line of its slices", page.answer("[...window.joined]"), [program("check", text)[0]])
    expect("how the line came", page.answer(HOW), "This line is that of one call of the proved check, over the whole recording.")
    page.answer("window.onJoined = () => el('stop').click()")
    desk.open("stopped.orsr", long)
    page.wait(f"{HOW}.includes('cancelled')")
    expect("the line when cancelled", page.answer(LINE), program("check", long)[0])
    joined = (
        "The proved check of \\d+ slices gave this line, put together by this page's script. The check of the whole was cancelled."
    )
    if not re.fullmatch(joined, page.answer(HOW)):
        fail(f"how it came: {page.answer(HOW)!r}")


def test_open_hostile(desk: Desk) -> None:
    """Hostile files come to a named refusal each."""
    noise = random.Random(3).randbytes(2 << 20)
    huge = struct.pack("<4s5I", b"ORSR", 2, 65536, 1000000, 4097, 0)
    for name, text in (("noise.orsr", noise), ("huge.orsr", huge), ("huger.orsr", huge[:8] + b"\xff" * 16), ("empty.orsr", b"")):
        desk.open(name, text)
        desk.expect_refused(name, program("check", text)[0])
    for name, text in (("shape.json", b'{"format": "oberon-session"}'), ("noise.json", noise), ("deep.json", b"[" * 200000)):
        desk.open(name, text)
        desk.expect_refused(name, program("record", text)[0])
    desk.open("noise.bin", noise)
    desk.expect_refused("noise.bin", "2,097,152 bytes are not a recording, not a session and not an image of memory")
    desk.open("image.bin", STORED[24:1048])
    desk.page.wait("!el('image').hidden")
    desk.page.answer("el('image-registers').value = 'PC=5000000'; el('image').requestSubmit()")
    desk.expect_notice("a wrong register", "PC=5000000: 5000000 is not a whole number from 0 to 4194303")
    desk.page.answer("el('image-registers').value = 'R3=0x10 rate=25000'; el('image').requestSubmit()")
    desk.page.wait("galluspa.frame() && !el('run').disabled")
    desk.click("step")
    desk.page.wait("galluspa.count() === 1")
    expect("R0 and R3 after a step", desk.page.answer("[galluspa.part('R'), galluspa.part('R', 3)]"), [5, 16])
    never = bytearray(record(session([0x40080001, 0xE7FFFFFE], [1])))  # it counts, so no step of it is skipped
    struct.pack_into("<Q", never, len(never) - 144, 1 << 40)
    for text in (bytes(never), STORED, bytes(never)):
        desk.page.answer("el('left').textContent = ''")
        desk.open("chosen-again.orsr", text)
        if text == STORED:
            desk.expect_line("a file chosen again while it is being checked", text)
        else:
            desk.page.wait("el('bar').value > 0 && el('left').textContent.includes(' of 1,099,511,627,776 steps, about ')")
    desk.click("stop")
    expect("a check that was cancelled", desk.page.answer(LINE), "cancelled: no verdict")
    if not re.fullmatch(r"No checkpoint was judged; [\d,]+ of 1,099,511,627,776 steps were checked\.", desk.page.answer(HOW)):
        fail(f"what is known when the check is cancelled: {desk.page.answer(HOW)!r}")


def draw(desk: Desk) -> tuple[bytes, bytes]:
    """Draws, types and sends in the drawing program; returns its session and its recording."""
    page = desk.page
    page.resize(1280, 1100)
    page.answer("el('each').value = 1")
    desk.draw()
    left, top, width = desk.screen()
    page.point("mousePressed", left + 20, top + 20, 1)
    for step in range(60):
        page.point("mouseMoved", left + width * (0.1 + step / 80), top + 100 + 4 * step, 1)
        page.wait(f"galluspa.frame().inputs > {step}")
    page.point("mouseReleased", left + 30, top + 30)
    for key in "Hi!":
        page.press(key)
    page.wait(f"{SENT} === 'Hi!'")
    page.answer("el('serial').value = ' over the line'; el('serial-form').requestSubmit()")
    page.wait(f"{SENT} === 'Hi! over the line\\\\0d'")
    page.answer("el('switches').querySelector('input[value=\"3\"]').click()")
    page.wait("galluspa.part('switches') === 8")
    expect("the LEDs after '!'", page.answer("el('leds').getAttribute('aria-label')"), "LEDs: lit are 5, 0")
    page.answer("el('keys').value = 'ps2'; el('screen').focus()")
    page.press("a", "KeyA")
    page.wait(f"{SENT}.endsWith('\\\\1c\\\\f0\\\\1c')")
    page.answer("el('keys').value = 'characters'")
    page.press("Tab", "Tab", SHIFT, 9)
    expect("whether Shift+Tab leaves the screen", page.answer("document.activeElement.id !== 'g-screen'"), True)
    page.wait("galluspa.frame().marks > 0")
    if page.answer(DRAWN) < 2000:
        fail("nothing was drawn")
    desk.click("make-checkpoint")
    recording = desk.save("draw", "the line of what was drawn")
    page.wait("/^[\\d,]+ bytes, checked in [\\d.]+ s$/.test(el('status').textContent)")
    (desk.folder / "draw.orsr").write_bytes(recording)
    note = galluspa_tool("session", "--of", desk.folder / "draw.orsr").output
    expect("the recording that the program makes of its session", run([PROGRAM, "record"], note).output, recording)
    return note, recording


def replay(desk: Desk, note: bytes, recording: bytes) -> None:
    """A recording's inputs come at their counts, its checkpoints are judged on the way, and one may take over."""
    page = desk.page
    dots = page.answer(DRAWN)
    desk.set_speed("fast")
    desk.open("again.orsr", recording)
    desk.expect_line("the recording opened again", recording)
    desk.click("run")
    page.wait("galluspa.frame() && !galluspa.frame().isReplay && !galluspa.frame().on")
    checkpoints = int(group(r"accepted (\d+)", page.answer(LINE)))
    passed = page.answer("[...document.querySelectorAll('#g-passed li')].map((it) => it.textContent)")
    expect("the checkpoints that were passed as true", [it.endswith(": true") for it in passed], [True] * checkpoints)
    expect(
        "the count at the end of the replay",
        page.answer("galluspa.count()"),
        galluspa.formats.recording.read(recording).checkpoints[-1].count,
    )
    expect("the dots after the replay", page.answer(DRAWN), dots)
    desk.open("false.orsr", rejoining(9))
    page.wait("!el('claims').hidden && galluspa.frame()")
    desk.click("next")
    page.wait("document.querySelector('#g-passed li')")
    expect(
        "a false checkpoint on the way",
        page.answer("document.querySelector('#g-passed li').textContent"),
        "at 2: false, first in R5",
    )
    desk.open("again.json", note)
    page.wait("galluspa.frame()?.isReplay")
    desk.click("take-over")
    page.wait("!galluspa.frame().isReplay")
    desk.set_speed("clock")


def test_step(desk: Desk) -> None:
    """Steps show the registers and the listing, with what changed set off; and one runs on from a checkpoint."""
    page = desk.page
    desk.open("keys.json", (EXAMPLES / "keys.json").read_bytes())
    page.wait("galluspa.frame() && !el('step').disabled")
    for count in (1, 2):
        desk.click("step")
        page.wait(f"galluspa.count() === {count}")
    desk.click("tab-code")
    page.wait("document.querySelector('#g-listing .here')")
    pc = page.answer("galluspa.part('PC')")
    listed = page.answer("document.querySelector('#g-listing .here .place').textContent.trim()")
    if not listed.startswith(f"▸{4 * pc:05X} · {pc}"):
        fail(f"the listing at {pc} shows {listed!r}")
    desk.click("tab-state")
    if "PC" not in page.answer("[...document.querySelectorAll('#g-state dd.changed')].map((it) => it.previousSibling.textContent)"):
        fail("the change of PC is not set off")
    desk.open("face.orsr", FACE)
    page.wait(JUDGED)
    desk.open_at_claim(3, 12000000)
    desk.click("take-over")
    desk.click("run")
    page.wait("galluspa.frame().on && galluspa.count() > 13000000")
    desk.save("face", "what was run on from checkpoint 3")


# Each control that is shown and can be used, and what can be scrolled by keys.
CONTROLS = """[...document.querySelectorAll("#galluspa :is(button, input, select, textarea, summary, [tabindex])")].filter((it) => it.checkVisibility() && !it.disabled && it.tabIndex >= 0)"""
# Whether what has the focus shows it, and is in the window.
FOCUS_IS_SHOWN = """
(() => {
  const it = document.activeElement.closest(".button") ?? document.activeElement, box = it.getBoundingClientRect(), style = getComputedStyle(it);
  return style.outlineStyle !== "none" && parseFloat(style.outlineWidth) >= 2 && box.bottom > 0 && box.top < innerHeight && box.width > 4;
})()
"""


def test_walk(desk: Desk) -> None:
    """Opens, runs, pauses, steps, records, saves and checks by keys alone."""
    page = desk.page
    page.resize(1280, 900)
    desk.reload()
    desk.go("file")
    (desk.folder / "face.orsr").write_bytes(FACE)
    page.choose_by_key(desk.folder / "face.orsr")
    desk.expect_line("a recording opened by keys", FACE)
    page.wait("el('claim-number').value === '4'")
    reach_all(desk)
    look_by_keys(desk)
    run_by_keys(desk)
    save_by_keys(desk)


def look_by_keys(desk: Desk) -> None:
    """Goes to two checkpoints of the recording, chooses the speed, and takes over."""
    page = desk.page
    desk.go("claim-number")
    page.press("ArrowDown")
    page.wait("document.querySelector('#g-claim canvas').getAttribute('aria-label').endsWith(' 3')")
    desk.go("claim-before", back=True)
    page.press("Enter")
    page.wait("document.querySelector('#g-claim canvas').getAttribute('aria-label').endsWith(' 2')")
    desk.go("speed", back=True)
    page.press("ArrowDown")
    expect("the speed chosen by an arrow", page.answer("el('speed').value"), "fast")
    desk.go("take-over", back=True)
    page.press("Enter")
    page.wait("!galluspa.frame().isReplay")


def run_by_keys(desk: Desk) -> None:
    """Runs, also on from where the program ends, makes a checkpoint, pauses, and does an instruction."""
    page = desk.page
    for word in ("DONE", "LIVE"):
        desk.go("run", back=True)
        page.press("Enter")
        page.wait(f"{WORD} === '{word}'")
    page.wait("galluspa.frame().on && document.activeElement === el('screen')")
    page.press("Enter", modifiers=CTRL)
    expect("where Ctrl+Enter goes", page.answer("document.activeElement.id"), "g-make-checkpoint")
    page.press("Enter")
    page.wait("galluspa.frame().marks > 0")
    desk.go("run", back=True)
    page.press("Enter")
    page.wait("!galluspa.frame().on")
    count = page.answer("galluspa.count()")
    desk.go("step")
    page.press("Enter")
    page.wait(f"galluspa.count() === {count + 1}")


def save_by_keys(desk: Desk) -> None:
    """Saves the recording, which is checked."""
    page = desk.page
    desk.go("save-recording", back=True)
    page.press("Enter")
    page.wait(OWN_JUDGED)
    recording = desk.saved("face-live.orsr")
    expect("the line of what was recorded by keys", (page.answer(OWN_LINE), 0), program("check", recording))


def reach_all(desk: Desk) -> int:
    """Tab goes through all controls after the first one, in their order; each has a name, and shows that it has the focus. Returns how many."""
    page = desk.page
    controls = page.answer(f"(window.controls = {CONTROLS}).map((it) => it.id || it.textContent)")
    for number, control in enumerate(controls):
        if number:
            page.press("Tab")
        expect(f"what has the focus after {number} times Tab", page.answer("controls.indexOf(document.activeElement)"), number)
        role, name = page.focused()
        if not name.strip() or role in ("generic", "none"):
            fail(f"{control} has the role {role!r} and the name {name!r}")
        if not page.answer(FOCUS_IS_SHOWN):
            fail(f"{control} does not show that it has the focus")
    return len(controls)


def test_record_devices(desk: Desk) -> None:
    """A machine whose devices aren't all zeros at first is recorded."""
    page, face = desk.page, bytearray(FACE)
    pages, events = struct.unpack_from("<II", face, 8)
    struct.pack_into("<I", face, 24 + 1024 * pages + 16 * events + TIMER_AT, 7)
    desk.open("late.orsr", bytes(face))
    page.wait("galluspa.frame() && !el('step').disabled")
    desk.click("take-over")
    desk.click("run")
    page.wait("galluspa.frame().on && galluspa.count() > 1000000")
    recording = desk.save("late", "the recording that begins with devices")
    expect("its first timer", galluspa.formats.recording.read(recording).checkpoints[0].timer, 7)


def test_run_long(desk: Desk) -> None:
    """A thousand frames take no more memory than the first hundred if nothing is recorded, and else no more than the recording accounts for."""
    page = desk.page
    page.answer("el('speed').value = 'fast'; el('each').value = 0")
    desk.click("draw")
    page.wait("galluspa.frame()?.on && galluspa.frame().frames > 100")
    before = page.answer("galluspa.frame().memory"), page.heap()
    page.wait("galluspa.frame().frames > 500", moving="galluspa.frame().frames")
    # The other frames are at 25 MHz, which leaves the processor to the gate's other checks. The run counts its frames anew.
    page.answer("el('speed').value = 'clock'; el('speed').dispatchEvent(new Event('change'))")
    page.wait("galluspa.frame().frames > 500", moving="galluspa.frame().frames")
    after = page.answer("galluspa.frame().memory"), page.heap()
    desk.click("run")
    expect("the module's memory after a thousand frames", after[0], before[0])
    if after[1] > before[1] + 2e6:
        fail(f"the script's heap grew from {before[1]:,} to {after[1]:,} bytes")
    page.wait("!galluspa.frame().on")
    page.answer("el('speed').value = 'fast'; el('each').value = 1")
    desk.click("run")
    page.wait("galluspa.frame().marks > 20", moving="galluspa.frame().frames")
    desk.click("run")
    page.wait("!galluspa.frame().on")
    page.answer("galluspa.live('recording').then(({ bytes }) => { window.recorded = bytes.length; })")
    memory, marks, length = page.answer("[galluspa.frame().memory, galluspa.frame().marks, window.recorded]")
    if memory > after[0] + (512 << 10) + (64 << 10) * marks + 16 * length:
        fail(
            f"the module's memory grew from {after[0]:,} to {memory:,} bytes with a recording of {marks} checkpoints and {length:,} bytes"
        )


def test_draw_and_replay(desk: Desk) -> None:
    """What was drawn is played back."""
    replay(desk, *draw(desk))
