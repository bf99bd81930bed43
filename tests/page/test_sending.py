"""The serial line with much to send: the bytes of a file as they are, and as fast as a program reads them; programs that read slowly or never; and a text of three
million characters, which holds up nothing, says how far it is, leaves inputs for keys, and is cancelled."""

import json
import random

import galluspa.formats.recording
from tests.page.driver.desk import LONGEST_TASK_MS, Desk, expect, fail
from tests.page.driver.shows import SENT, shown
from tests.tools.samples import tool

KEY, SERIAL, MOST_MS = 4, 5, 100
LEFT, MANY, SECOND = shown("serial-left"), 3000000, 25000000
# The inputs of a recording that serial bytes may be, and the bytes that the page is to send in a second of the machine, at least.
SERIAL_LIMIT, LEAST = 950000, 20000
TRIES = 3
# The least time, of five, that the page needs to say what is to be kept of the recording.
KEEPING = """
Math.min(...Array.from({ length: 5 }, () => {
  const begun = performance.now();
  galluspa.unwritten();
  return performance.now() - begun;
}))
"""
# How many serial bytes the machine has taken.
TAKEN = "galluspa.live('inputs').then(({ inputs }) => inputs.filter(([, kind]) => kind === 'serial').length)"
# Adds up the bytes that come over the serial line, and sends each back; comes to word 9 with one of 255.
SUM = """
        MOV R1, SERIAL
wait:   LDR R2, R1, STATUS - SERIAL
        AND R2, R2, 1           ; bit 0: a byte was received
        BEQ wait
        LDR R0, R1, 0
        ADD R4, R4, R0
        STR R0, R1, 0
        SUB R0, R0, 255
        BNE wait
        B wait
"""
MARK, IS_MARK = 255, {"kind": 1, "from": 9, "end": 10}
# Sends each key back. {line} has what it does besides.
KEYS = """
        MOV R1, SERIAL
wait:   LDR R3, R1, MOUSE - SERIAL
        LSL R3, R3, 3           ; bit 28: a key waits
        BPL line
        LDR R0, R1, KEY - SERIAL
        STR R0, R1, 0
line:
{line}
        B wait
"""
# Reads a byte in each ten thousand instructions.
SLOWLY = """
        SUB R5, R5, 1
        BPL wait
        LDR R2, R1, STATUS - SERIAL
        AND R2, R2, 1
        BEQ wait
        LDR R0, R1, 0
        MOV R5, 2000
"""


def start(desk: Desk, name: str, source: str) -> None:
    """Starts a program that the tools assemble, and shows the devices."""
    path = desk.folder / f"{name}.asm"
    path.write_text(source)
    made = tool("assemble", path)
    expect(f"assembling {name}", made.status, 0)
    desk.start(f"{name}.json", made.output)
    desk.press("run")
    desk.page.wait("galluspa.frame().on")
    desk.press("tab-devices")


def send_file(desk: Desk, content: bytes) -> None:
    """Sends a file over the serial line."""
    path = desk.folder / "sent.bin"
    path.write_bytes(content)
    desk.page.choose("#g-serial-file", path)


def pause(desk: Desk) -> None:
    """Pauses the machine."""
    desk.press("run")
    desk.page.wait("!galluspa.frame().on")


def saved(desk: Desk, name: str, what: str) -> galluspa.formats.recording.Recording:
    """Saves the recording, which the program accepts."""
    return galluspa.formats.recording.read(desk.save(name, what))


def given(read: galluspa.formats.recording.Recording) -> bytes:
    """Returns the serial bytes of a recording."""
    return bytes(it.value for it in read.events if it.kind == SERIAL)


def test_send_bytes(desk: Desk) -> None:
    """A file is sent byte for byte: all 256 of them, without a return."""
    page, content = desk.page, bytes(range(256))
    desk.draw()
    desk.press("tab-devices")
    send_file(desk, content)
    page.wait(f"{SENT}.endsWith('\\\\fe\\\\ff') && !el('serial-progress').checkVisibility()")
    pause(desk)
    expect("the bytes that were sent", given(saved(desk, "draw", "what a file sent")), content)


def test_send_much(desk: Desk) -> None:
    """A hundred thousand bytes come in their order, as fast as a program reads them that adds them up and sends them back; the page is not held up."""
    page, content = desk.page, random.Random(5).randbytes(100000)
    # What else runs on the machine makes some tasks longer, so the shortest of some tries counts.
    for _ in range(TRIES):
        with page.measuring() as tasks:
            start(desk, "sum", SUM)
            send_file(desk, content)
            page.wait(
                f"galluspa.frame().inputs === {len(content)} && galluspa.part('R', 4) === {sum(content)}", moving="galluspa.count()"
            )
        if max(tasks) <= LONGEST_TASK_MS:
            break
    if max(tasks) > page.allowed(LONGEST_TASK_MS):
        fail(f"a task took {max(tasks):.0f} ms of the processor while a file was sent")
    page.wait("!el('serial-progress').checkVisibility()")
    pause(desk)
    read = saved(desk, "sum", "what a large file sent")
    expect("the bytes that were sent", given(read), content)
    expect("the bytes that were sent back", b"".join(it.output for it in read.checkpoints), content)
    speed = len(content) * SECOND / (read.events[-1].count - read.events[0].count)
    if speed < LEAST:
        fail(f"a program that reads in a loop gets {speed:,.0f} bytes in a second of the machine")


def test_pause_between(desk: Desk) -> None:
    """A breakpoint in the middle of what is sent: up to there the machine has taken what it has read, and perhaps one more; the rest waits, and comes then."""
    page, at = desk.page, 3000
    content = bytes(it % MARK for it in random.Random(7).randbytes(10000))
    content = content[:at] + bytes([MARK]) + content[at + 1 :]
    start(desk, "sum", SUM)
    page.answer(f"galluspa.live('setBreaks', {{ conditions: [{json.dumps(IS_MARK)}] }})")
    send_file(desk, content)
    page.wait("!galluspa.frame().on")
    number = page.answer(TAKEN)
    expect("how many bytes were taken", number in (at + 1, at + 2), True)
    expect("what is said to wait", page.answer(LEFT), f"{len(content) - number:,} of 10,000 bytes wait")
    expect("what was read", page.answer("galluspa.part('R', 4)"), sum(content[: at + 1]))
    desk.press("run")
    page.wait(f"galluspa.frame().on && galluspa.part('R', 4) === {sum(content)}")
    page.answer("galluspa.live('setBreaks', { conditions: [] })")
    pause(desk)
    read = saved(desk, "sum", "what was sent around a breakpoint")
    expect("the bytes that were sent", given(read), content)
    expect("the bytes that were sent back", b"".join(it.output for it in read.checkpoints), content)


def test_cancel_in_the_middle(desk: Desk) -> None:
    """While a program reads slowly, the page says how much it has read, keys come between the bytes, and nothing comes after the rest is cancelled."""
    page, content = desk.page, random.Random(6).randbytes(100000)
    start(desk, "slowly", KEYS.format(line=SLOWLY))
    send_file(desk, content)
    page.wait(f"{LEFT}.endsWith(' of 100,000 bytes wait') && galluspa.frame().inputs > 500")
    desk.press("screen")
    page.press("k")
    page.wait(f"{SENT} === 'k'")
    pause(desk)
    number = page.answer(TAKEN)
    expect("what is said to wait", page.answer(LEFT), f"{len(content) - number:,} of 100,000 bytes wait")
    desk.press("run")
    page.wait(f"galluspa.frame().on && galluspa.frame().serial < {len(content) - number}")
    desk.press("serial-cancel")
    page.wait("!el('serial-progress').checkVisibility() && !galluspa.frame().serial")
    number, count = page.answer(TAKEN), page.answer("galluspa.count()")
    page.wait(f"galluspa.count() > {count + SECOND // 5}")
    pause(desk)
    events = saved(desk, "slowly", "what was cancelled in the middle").events
    expect("the bytes that were sent", bytes(it.value for it in events if it.kind == SERIAL), content[:number])
    expect("the keys", [it.value for it in events if it.kind == KEY], [ord("k")])


def test_send_to_none(desk: Desk) -> None:
    """A program that never reads gets one byte, and its keys; the others wait, also after a pause, until they are cancelled."""
    page = desk.page
    start(desk, "keys-only", KEYS.format(line=""))
    send_file(desk, bytes(1000))
    page.wait(f"{LEFT} === '999 of 1,000 bytes wait'")
    desk.press("screen")
    for key in "abc":
        page.press(key)
    page.wait(f"{SENT} === 'abc'")
    pause(desk)
    desk.press("run")
    count = page.answer("galluspa.count()")
    page.wait(f"galluspa.count() > {count + SECOND // 5}")
    expect("what is said to wait", page.answer(LEFT), "999 of 1,000 bytes wait")
    desk.press("serial-cancel")
    page.wait("!el('serial-progress').checkVisibility() && !galluspa.frame().serial")
    pause(desk)
    expect("the bytes that were sent", given(saved(desk, "keys-only", "what a program got that reads nothing")), bytes(1))


def test_cancel(desk: Desk) -> None:
    """A text of three million characters is kept in a moment, says how far it is, leaves inputs for keys, and is cancelled; then nothing of it comes, also after a
    reload."""
    page = desk.page
    desk.draw()
    desk.press("tab-devices")
    page.answer(f"el('serial').value = 'x'.repeat({MANY}); el('serial').focus()")
    page.press("Enter")
    page.wait(f"/^[\\d,]+ of 3,000,001 bytes wait/.test({LEFT}) && {SENT}.length > 100")
    if (ms := page.answer(KEEPING)) > page.allowed(MOST_MS):
        fail(f"with three million bytes that wait the page is held up for {ms:.0f} ms each time that it keeps its inputs")
    page.wait("galluspa.work().isStored")
    page.wait(f"galluspa.frame().inputs === {SERIAL_LIMIT}", moving="galluspa.count()")
    why = "2,050,001 of 3,000,001 bytes wait: the last 50,000 inputs of a recording are for keys and the mouse"
    expect("what is said of those that wait", page.answer(LEFT), why)
    desk.press("screen")
    page.press("j")
    page.wait(f"{SENT}.endsWith('xj')")
    desk.press("serial-cancel")
    page.wait("!el('serial-progress').checkVisibility() && !galluspa.frame().serial")
    desk.press("screen")
    page.press("k")
    page.wait(f"{SENT}.endsWith('jk')")
    pause(desk)
    page.wait("galluspa.work().kept.startsWith(`${galluspa.count()} `) && !galluspa.work().isNewer")
    desk.reload()
    desk.press("continue")
    page.wait("galluspa.work().generation && !galluspa.frame().isReplay")
    expect("what waits after a reload", page.answer("[galluspa.frame().typed, galluspa.frame().serial]"), [0, 0])
    desk.press("run")
    page.wait("galluspa.frame().on && galluspa.count() > 0")
    page.press("m")
    page.wait(f"{SENT}.endsWith('jkm')")
    pause(desk)
    number = len(given(saved(desk, "draw", "what was cancelled")))
    expect("the bytes that were sent before it was cancelled", number, SERIAL_LIMIT)
