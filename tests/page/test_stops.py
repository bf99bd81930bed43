"""What the page says of where it is: where a machine stopped, what is shown after one went back to now, what a search that is over said, and what
is false about bytes that were sent."""

import json
import re
import struct

from tests.page.driver.desk import Desk, expect, fail, program
from tests.page.driver.given import ECHOES
from tests.page.driver.shows import CARD, EXACT, MODE, SENT, WORD, shown
from tests.tools.samples import EXAMPLES, JUMP, record, session

COUNT, TRACE, STATUS = shown("count"), shown("trace"), shown("status")
LAST = 1 << 40


def open_image(desk: Desk, image: bytes) -> None:
    """Starts a memory image at address 0."""
    page, before = desk.page, desk.page.answer("galluspa.work().generation")
    desk.open("image.bin", image)
    page.wait("el('image').checkVisibility()")
    page.answer("el('image-registers').focus()")
    page.press("Enter")
    page.wait(f"galluspa.work().generation !== {before} && galluspa.frame()?.generation === galluspa.work().generation")


def test_find_stop(desk: Desk) -> None:
    """A machine whose PC leaves memory is looked at where it stopped: the count, why, the last instructions, and that there is no code there."""
    page = desk.page
    open_image(desk, bytes(64))
    desk.press("tab-code")
    desk.press("run")
    page.wait(f"{COUNT}.startsWith('262,144 · ')")
    page.wait(f"{TRACE}.includes('262,143')")
    expect(
        "what is said of it",
        page.answer(MODE),
        "image STOPPED at 262,144: PC left memory. The instruction at the cursor is the last one.",
    )
    expect("whether it is said that there is no code", page.answer("el('no-code').checkVisibility()"), True)
    rows = page.answer("[...el('trace').children].map((it) => it.textContent.split(/ +/).slice(0, 5).join(' ').trim())")
    expect("the last instructions", rows[-2:], ["262,143 FFFFC · 262143 MOV", "262,144 100000 · 262144 outside"])
    desk.press("back-now")
    page.wait(f"!{COUNT}.startsWith('262,144 ·')")
    expect("what is said of it now", page.answer(MODE), "image STOPPED at 262,144: PC left memory. The machine does nothing more.")
    expect("what the line of the machine says", page.answer(STATUS).endswith("; stopped at 262,144: PC left memory"), True)
    page.wait(f"{TRACE}.includes('262,143')")
    page.answer("el('cursor').focus()")
    page.press("ArrowLeft")
    page.wait(f"{WORD}.startsWith('VIEWING ')")
    desk.press("tab-state")


def test_find_other_stops(desk: Desk) -> None:
    """A stop is found after a step, of a machine that is at 2^40 at once, and after a reload; a click on it in State has its instruction."""
    page = desk.page
    divide = session([0x41080001, 0x420B0000 | 1 << 20, JUMP], [])
    desk.start("divide.json", json.dumps(divide).encode())
    for _ in range(2):
        desk.press("step")
    page.wait(f"{WORD} === 'STOPPED' && {COUNT}.startsWith('1 · ')")
    expect(
        "why",
        page.answer(MODE),
        "divide STOPPED at 1: a division by a divisor below 1. The instruction at the cursor is the last one.",
    )
    desk.press("back-now")
    page.wait("!galluspa.isPast()")
    page.answer("stateCell('stop').querySelector('button').focus()")
    page.press("Enter")
    page.wait(f"{CARD}.includes('Instruction 1, PC 0004 · 1: sure')")
    desk.start("far.orsr", record(session([JUMP, 0], [1])))
    desk.start("far.orsr", record(session([0x41080001, 0x40080002, 0x400C0000], [LAST])))
    desk.press("run")
    page.wait(f"{WORD} === 'STOPPED' && {COUNT}.startsWith('2 · ') && galluspa.count() === {LAST}")
    expect("what is looked at", page.answer(MODE).split(".")[0], "far STOPPED at 2: a floating-point instruction")


def test_forget_what_was_said(desk: Desk) -> None:
    """What is said of a moment, of a search and of instructions is gone once another moment is shown."""
    page, when, found = desk.page, shown("when"), shown("found")
    desk.run_to_end("keys.json", (EXAMPLES / "keys.json").read_bytes())
    page.answer("el('cursor').focus()")
    page.press("ArrowLeft")
    page.wait(f"{when}.startsWith('Registers, before instruction ') && {EXACT}")
    desk.press("back-now")
    page.wait(f"{WORD} === 'PAUSED'")
    expect("the heading of the registers now", page.answer(when), "Registers")
    for away in ("ArrowLeft", "w"):
        page.answer("el('search-range').value = '77770'")
        desk.press("find-next")
        page.wait(f"{found}.endsWith(': none after it, up to now.')")
        page.answer("el('cursor').focus()")
        page.press(away)
        page.wait(f"{found} === ''")
        page.press("End")
    desk.press("tab-code")
    page.wait(f"{TRACE}.includes((galluspa.count() - 1).toLocaleString('en-US'))")
    desk.press("run")
    page.wait("galluspa.frame().on")
    expect("the instructions while it runs", page.answer(TRACE), "Pause the machine to see what it did.")
    desk.press("run")
    page.wait(f"!galluspa.frame().on && !{TRACE}.startsWith('Pause')")
    page.wait(f"{TRACE}.includes((galluspa.count() - 1).toLocaleString('en-US'))")
    desk.press("tab-state")


def test_compare_output(desk: Desk) -> None:
    """A recording that claims another byte has that compared, as a register is; and where the machine sends more, or less."""
    text = record({**json.loads((EXAMPLES / "keys.json").read_text()), "checkpoints": [51]})
    own = text[-2:]
    for claimed, said in (
        (
            own[:1] + b"Z",
            f"byte 2 sent after checkpoint 0: the machine has {own[1]:02X} ({own[1:].decode()}) of 2, the recording claims 5A (Z) of 2.",
        ),
        (
            own[:1],
            f"byte 2 sent after checkpoint 0: the machine has {own[1]:02X} ({own[1:].decode()}) of 2, the recording claims no more of 1.",
        ),
    ):
        false = bytearray(text[: -len(own)] + claimed)
        changes = next(n for n in range(1025) if struct.unpack_from("<I", text, len(text) - 2 - 144 - 8 * n + 140)[0] == n)
        at = len(text) - 2 - 144 - 8 * changes
        struct.pack_into("<I", false, at + 128, len(claimed))
        expect("the program's line", program("check", bytes(false))[0], "false checkpoint 1 at 51 part out")
        desk.run_to_end("out.orsr", bytes(false))
        desk.page.wait("el('false-claim').querySelector('.both')")
        expect("both outputs", desk.page.answer("el('false-claim').querySelector('.both').textContent"), said)


def test_count_dots_eaten(desk: Desk) -> None:
    """In a game in which no dot is eaten there is no checkpoint, also if its first frame is seen before the program has done anything."""
    page = desk.page
    # The machine is run a moment after it is opened, as on a computer that has much to do.
    page.answer(
        """(() => {
      const { postMessage } = Worker.prototype;
      Worker.prototype.postMessage = function (message, ...more) {
        const post = () => postMessage.call(this, message, ...more);
        message.ask === "setRun" ? setTimeout(post, 200) : post();
      };
    })()"""
    )
    desk.press("play")
    page.wait("galluspa.frame()?.on && galluspa.count() > 8000000 && galluspa.part('LEDs') === 3")
    desk.press("run")
    page.wait("!galluspa.frame().on")
    expect("the checkpoints of a game in which nothing was eaten", page.answer("galluspa.frame().marks"), 0)


# What the lists of the screen and of the serial line say, once all is known.
LISTS = """[4, 3].map((at) => [...el('lists').children[at].children].map((it) => it.textContent))"""
KNOWN = "el('lists').lastChild?.textContent === `kept up to ${galluspa.count().toLocaleString('en-US')}` && !el('lists').textContent.includes('not known')"


def lists(desk: Desk) -> list[list[str]]:
    """Returns what the lanes of the screen and of the serial line have, once all of it is known."""
    desk.page.wait(KNOWN)
    return desk.page.answer(LISTS)


def test_mark_dropped_keys(desk: Desk) -> None:
    """The list of keys marks those that the full queue dropped: of 21 that come while nothing takes one five, and none of two after five were taken."""
    inputs = [*((at // 2, "key", 0x40 + at) for at in range(20)), *((at, "key", 0x70) for at in (20, 26, 26))]
    # Twenty times nothing; then R1 := the next key, five times.
    desk.run_to_end(
        "keys.json", json.dumps(session([0x5000FFC0, *[0x42000000] * 20, *[0x8100001C] * 5, JUMP], [60], inputs)).encode()
    )
    desk.page.wait(KNOWN)
    texts = desk.page.answer("[...el('lists').children[1].children].map((it) => it.textContent)")
    dropped = [
        "key 50 at 8, dropped",
        "key 51 at 8, dropped",
        "key 52 at 9, dropped",
        "key 53 at 9, dropped",
        "key 70 at 20, dropped",
    ]
    expect("the keys that were dropped", [len(texts), *(it for it in texts if it.endswith(", dropped"))], [len(inputs), *dropped])


def test_show_lanes_of_recording(desk: Desk) -> None:
    """The lanes of the screen and of the sent bytes are the same while one draws, after the recording is continued, and in a replay at either speed."""
    page = desk.page
    desk.draw()
    left, top, width = desk.screen()
    for step in range(30):
        page.point("mousePressed" if not step else "mouseMoved", left + width * (0.1 + step / 50), top + 60 + 4 * step, 1)
    page.point("mouseReleased", left + width * 0.7, top + 180)
    for key in "abc":
        page.press(key)
        page.wait(f"{SENT}.endsWith({key!r})")
    page.wait("galluspa.count() > 40000000")
    desk.press("run")
    page.wait("!galluspa.frame().on")
    wanted = lists(desk)
    if not (wanted[0] and all(re.fullmatch(r"[\d,]+ lines? changed from [\d,]+ to [\d,]+", it) for it in wanted[0])):
        fail(f"the lines of the screen that changed: {wanted[0]}")
    expect("the bytes that were sent", sum(int(it.split()[0]) for it in wanted[1]), 3)
    page.wait("galluspa.work().isStored && !galluspa.work().isNewer && galluspa.work().kept.startsWith(`${galluspa.count()} `)")
    recording = desk.save("draw", "what was drawn")
    expect("the lanes after it was saved", lists(desk), wanted)
    page.wait("!galluspa.work().isNewer && galluspa.work().kept.startsWith(`${galluspa.count()} `)")
    desk.reload()
    desk.press("continue")
    page.wait("galluspa.work().generation && !galluspa.frame().on")
    expect("the lanes of what is continued", lists(desk), wanted)
    for speed in ("fast", "clock"):
        desk.start(f"{speed}.orsr", recording)
        page.answer(f"el('speed').value = '{speed}'")
        page.wait("el('lists').textContent.includes('not known yet from 0')")
        desk.press("run")
        page.wait("!galluspa.frame().isReplay && !galluspa.frame().on")
        expect(f"the lanes of a replay, {speed}", lists(desk), wanted)


def test_show_output(desk: Desk) -> None:
    """Below the screen are the LEDs, and the last line that was sent up to the count that is looked at."""
    page = desk.page
    lamps = "[...el('output').querySelectorAll('i')].map((it) => Number(it.className === 'lit')).join('')"
    output = f"`${{el('sent-line').textContent}} ${{{lamps}}}`"
    desk.run_text("echo.asm", ECHOES.format(more=0))
    for number, key in enumerate(("a", "Enter", "b", "c"), 1):
        page.press(key)
        page.wait(f"galluspa.frame().inputs === {number}")
    page.wait(f"{output} === 'bc 01100011'")
    desk.pause()
    page.answer("el('cursor').focus()")
    for said in ("b 01100010", "a 00001101", "a 01100001"):
        page.press(",")
        page.wait(f"{EXACT} && {output} === '{said}'")
    desk.press("now")
    expect("what is below the screen now", page.answer(output), "bc 01100011")
