"""What the page says is so: where a recording ends, what is open, which verdict is whose, and what is known of a check that was cancelled."""

import json
import re
import struct

import galluspa.formats.recording
from galluspa.formats.recording import Event
from tests.page.driver.desk import Desk, expect, fail, program
from tests.page.driver.given import COUNTING, MOST_INPUTS, with_inputs
from tests.page.driver.shows import HOW, LINE, MODE, NOTICE, OWN_LINE
from tests.tools.samples import EXAMPLES, JUMP, STORED, claim, encoded, page_of, record, rejoining, session

# Sends a byte with every other instruction.
SENDER = session([0x5100FFC8, 0xA0100000, 0xE7FFFFFE], [])
# The pages of memory.
PAGES = 1024
# FAD, which stops the machine.
STOP = 0x40080000 | 12 << 16


def test_say_full(desk: Desk) -> None:
    """A recording has a checkpoint before its limit of sent bytes; that it is full is said until something else is opened."""
    page = desk.page
    page.answer("el('speed').value = 'fast'; el('each').value = 5")
    desk.start("sender.json", json.dumps(SENDER).encode())
    desk.click("run")
    page.wait("galluspa.frame().full && !galluspa.frame().on")
    count = page.answer("galluspa.frame().full.count")
    told = (
        f"sender LIMIT REACHED at {count:,}: the recording has reached its limit of sent bytes. What comes after is not recorded."
    )
    expect("what is said of a full recording", page.answer(MODE), told)
    desk.go_on()
    page.wait(f"galluspa.count() > {count + 1000000}")
    expect("what is said of it while it runs on", page.answer(MODE), told)
    desk.pause()
    expect("what is said of it later", page.answer(MODE), told)
    recording = desk.save("sender", "a full recording")
    read = galluspa.formats.recording.read(recording)
    expect("where it ends", page.answer(OWN_LINE), f"accepted 1 checkpoints {count} steps")
    if not 950000 < len(read.checkpoints[-1].output) <= 1 << 20:
        fail(f"a full recording has {len(read.checkpoints[-1].output)} bytes")
    desk.start("keys.json", (EXAMPLES / "keys.json").read_bytes())
    expect("what is said of the next machine", page.answer(MODE).split()[:2], ["keys", "REPLAY"])


def last_input(recording: bytes) -> tuple[int, ...]:
    """Returns the number of inputs, and the last one's count, kind and value."""
    pages, number = struct.unpack_from("<II", recording, 8)
    return number, *struct.unpack_from("<QII", recording, 24 + 1024 * pages + 16 * (number - 1))


def test_fill_inputs(desk: Desk) -> None:
    """A recording with all but one of the inputs that there can be takes one more, and then says that it is full, and what was typed."""
    page = desk.page
    page.answer("el('speed').value = 'fast'; el('each').value = 0")
    desk.start("inputs.orsr", with_inputs(MOST_INPUTS - 1))
    desk.click("run")
    page.wait("!galluspa.frame().isReplay && !galluspa.frame().on")
    desk.click("run")
    page.wait("galluspa.frame().on && document.activeElement === el('screen')")
    page.answer("el('mouse-x').value = 5; el('mouse-x').dispatchEvent(new Event('change', { bubbles: true }))")
    page.wait("galluspa.frame().full && !galluspa.frame().on")
    end = page.answer("galluspa.frame().full.count")
    told = f"inputs LIMIT REACHED at {end:,}: the recording has reached its limit of inputs. The machine takes no more."
    expect("what is said of a machine with all inputs", page.answer(MODE), told)
    desk.go_on()
    page.press("k")
    desk.expect_notice("a key after all inputs", "LIMIT REACHED: the machine takes no more inputs.")
    desk.pause()
    number, count, *last = last_input(desk.save("inputs", "a recording with all inputs"))
    expect("its last input", (number, last), (MOST_INPUTS, [3, 5]))
    expect("whether there is a checkpoint after it", count < end, True)


def test_fill_pages(desk: Desk) -> None:
    """A recording whose pool may have no room for all the pages of another checkpoint is full."""
    pool = [page_of(JUMP, number) for number in range(63 * PAGES + 1)]
    tables = [{at: PAGES * number + at + 1 for at in range(PAGES)} for number in range(63)] + [{0: len(pool)}]
    text = encoded(2, pool, [claim(0), *(claim(10 * number, table) for number, table in enumerate(tables, 1))])
    page = desk.page
    desk.start("pages.orsr", text)
    desk.open_at_claim(64, 640)
    desk.click("run")
    page.wait("galluspa.frame().full && !galluspa.frame().on")
    told = f"pages LIMIT REACHED at {page.answer('galluspa.count()'):,}: the recording has reached its limit of pages. What comes after is not recorded."
    expect("what is said of a pool without room", page.answer(MODE), told)


def test_go_on_full(desk: Desk) -> None:
    """A recording that is full already when it is run on is said to be at once, and the machine runs."""
    page = desk.page
    # As fast as it goes, it is at the last count before it is seen to run.
    desk.set_speed("clock")
    desk.start("sent.orsr", encoded(2, [page_of(JUMP)], [claim(0), claim(10, output=b"x" * (1 << 20))]))
    desk.open_at_claim(1, 10)
    desk.click("run")
    page.wait("galluspa.frame().full && !galluspa.frame().on")
    expect("where a recording is full that was so", page.answer("[galluspa.count(), galluspa.frame().full.count]"), [10, 10])
    desk.go_on()
    page.wait("galluspa.count() > 1000000")
    desk.pause()


def test_keep_last_room(desk: Desk) -> None:
    """At 4,095 checkpoints there are no more by time, nor by hand, and the page says so: the last one is left for the end."""
    page = desk.page
    page.answer("el('speed').value = 'fast'; el('each').value = 1")
    desk.start("many.orsr", encoded(2, [page_of(JUMP)], [claim(10 * number) for number in range(4096)]))
    desk.open_at_claim(4095, 40950)
    desk.go_on()
    page.wait(
        "galluspa.count() > 50000000 && el('status').textContent.includes('4,095 checkpoints, no more by time: the last is left for the end')"
    )
    desk.click("make-checkpoint")
    desk.expect_notice(
        "a checkpoint by hand", "No new checkpoint: the recording has room for one more checkpoint, which is left for its end."
    )
    desk.pause()
    count = page.answer("galluspa.count()")
    desk.save("many", "a recording with all checkpoints")
    expect("where it ends", page.answer(OWN_LINE), f"accepted 4096 checkpoints {count} steps")
    page.answer("el('each').value = 5")


def test_end_at_last_count(desk: Desk) -> None:
    """A replay whose inputs come at 2^40 ends there, whether the machine runs or has stopped, and says so."""
    page, last = desk.page, 1 << 40
    page.answer("el('speed').value = 'fast'; el('each').value = 3600")
    never = "1 input of the file at this count will never come."
    for word, told in (
        (JUMP, f"last LIMIT REACHED at {last:,}: no count comes after this one, so the machine does nothing more. {never}"),
        (STOP, f"last STOPPED at 0: a floating-point instruction. The machine does nothing more. {never}"),
    ):
        desk.start("last.orsr", encoded(2, [page_of(word)], [claim(0)], [Event(last, 4, 65)]))
        desk.click("run")
        page.wait(f"galluspa.count() === {last} && !galluspa.frame().on", moving="galluspa.count()")
        if word == STOP:
            page.wait("galluspa.shownCount() === 0")
            desk.click("back-now")
        expect("what is said of the last count", page.answer(MODE), told)
    page.answer("el('each').value = 5")


def test_leave_what_is_open(desk: Desk) -> None:
    """A file that is refused, and the form of a memory image, leave the machine that is open, with its name, its verdict and its checkpoints."""
    page, face = desk.page, (EXAMPLES / "face.orsr").read_bytes()
    desk.set_speed("clock")
    desk.start("face.orsr", face)
    desk.expect_line("the recording that is open", face)
    for name, text, line in (
        ("short.orsr", STORED[:-1], program("check", STORED[:-1])[0]),
        ("shape.json", b"{}", "session refused 2 shape"),
    ):
        desk.clear()
        desk.choose(name, text)
        desk.expect_refused(name, line)
        expect(
            "what is still open",
            page.answer(f"[{LINE}, galluspa.frame().on, el('refused-how').textContent.slice(-19), el('claims').hidden]"),
            [program("check", face)[0], False, "face is still open.", False],
        )
    desk.click("take-over")
    desk.go_on()
    desk.choose("image.bin", STORED[24:1048])
    page.wait("!el('image').hidden")
    desk.click("make-checkpoint")
    page.wait("galluspa.frame().marks > 0")
    page.answer("el('image-registers').value = 'PC=5000000'; el('image').requestSubmit()")
    desk.expect_notice("a wrong register", "PC=5000000: .*")
    desk.click("image-cancel")
    expect(
        "the form when it is cancelled, and what is open",
        page.answer("[el('image').hidden, galluspa.frame().on, galluspa.work().name]"),
        [True, True, "face"],
    )
    desk.pause()
    desk.save("face", "what was open all the time")


def test_judge_both(desk: Desk) -> None:
    """The verdict of a false file stays where it is when its replay is saved, which is accepted; each has its name."""
    page, false = desk.page, rejoining(9)
    desk.start("false.orsr", false)
    desk.expect_line("a false file", false)
    desk.click("run")
    page.wait("!galluspa.frame().isReplay && !galluspa.frame().on")
    desk.save("false", "the replay of a false file")
    names = page.answer(
        "[el('judged').textContent, el('line').textContent, el('own-judged').textContent, el('own-line').textContent]"
    )
    expect(
        "both verdicts",
        names,
        [
            "The file false.orsr",
            "false checkpoint 1 at 2 part R5",
            "The recording that you saved, false-live.orsr",
            "accepted 2 checkpoints 4 steps",
        ],
    )


def test_end_at_once(desk: Desk) -> None:
    """A machine that stopped is at its end at once, in a check and in a replay; a check that is cancelled says what it has found."""
    page = desk.page
    stopped = record(session([STOP], [1, 1 << 40]))
    desk.start("stopped.orsr", stopped)
    desk.expect_line("a machine that stopped at once", stopped)
    desk.set_speed("clock")
    desk.click("run")
    page.wait("!galluspa.frame().on && galluspa.count() === 2 ** 40")
    expect(
        "the checkpoints that it passed",
        page.answer("[...document.querySelectorAll('#g-passed li')].map((it) => it.textContent)"),
        ["at 1: true", "at 1,099,511,627,776: true"],
    )
    never = bytearray(record(session(COUNTING, [10000000, 20000000, 30000000])))
    struct.pack_into("<Q", never, len(never) - 144, 1 << 40)
    desk.open("never.orsr", bytes(never))
    page.wait("Number(el('left').textContent.split(' ')[0].replaceAll(',', '')) > 25000000")
    desk.click("stop")
    expect("the line of a check that was cancelled", page.answer(LINE), "cancelled: no verdict")
    if not re.fullmatch(
        r"Up to checkpoint 2 of 3 all are true; [\d,]+ of 1,099,511,627,776 steps were checked\.", page.answer(HOW)
    ):
        fail(f"what it says it found: {page.answer(HOW)!r}")


# Each worker that is begun from here on breaks at once.
BREAK_WORKERS = "(() => { const Own = Worker; window.Worker = function () { return new Own(URL.createObjectURL(new Blob(['throw new Error(`broken`)']))); }; })()"


def test_refuse_each(desk: Desk) -> None:
    """A worker that breaks is said to, and the machine goes on. Refused recordings take no memory."""
    page = desk.page
    desk.start("face.orsr", (EXAMPLES / "face.orsr").read_bytes())
    desk.expect_line("a file", (EXAMPLES / "face.orsr").read_bytes())
    odd = bytearray((EXAMPLES / "face.orsr").read_bytes())
    struct.pack_into("<I", odd, 20, 1)
    # The first step takes memory that is taken once.
    desk.click("step")
    page.wait("galluspa.count() === 1")
    before = page.answer("galluspa.frame().memory")
    for _ in range(12):
        desk.clear()
        desk.choose("odd.orsr", bytes(odd))
        desk.expect_refused("odd.orsr", program("check", bytes(odd))[0])
    said = "A number of its header is out of range, at byte 20. face is still open."
    expect("what is said of it", page.answer("el('refused-how').textContent"), said)
    desk.click("step")
    page.wait("galluspa.count() === 2")
    if page.answer("galluspa.frame().memory") > before + (1 << 20):
        fail(f"12 refused recordings grew the memory from {before:,} to {page.answer('galluspa.frame().memory'):,} bytes")
    page.answer(BREAK_WORKERS)
    desk.click("save-recording")
    desk.saved("face-live.orsr")
    desk.expect_notice("a check whose worker is broken", "the worker failed: Uncaught Error: broken")
    desk.click("step")
    page.wait("galluspa.count() === 3")


def test_say_nothing_early(desk: Desk) -> None:
    """The first machine that is opened is shown in the tab that was chosen before, and nothing is said of what was asked too early."""
    for tab, found in (
        ("memory", "el('memory').textContent.includes('00000 ')"),
        ("code", "el('trace').textContent.includes('MOV')"),
    ):
        desk.reload()
        desk.press(f"tab-{tab}")
        desk.choose("face.orsr", STORED)
        desk.page.wait(f"galluspa.frame() && {found}")
        expect("what the page says", desk.page.answer(NOTICE), "")
