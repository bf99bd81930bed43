"""Serial bytes that are given ahead of a run, by the page's modules in node: programs that read them in different ways get each byte, in its order, and no byte
before they have read the one before."""

import base64
import random
from dataclasses import dataclass
from pathlib import Path

import galluspa.formats.recording
from tests.page.driver.desk import expect, fail, program
from tests.page.driver.node import asked, called
from tests.tools.samples import tool

SERIAL, BUFFER, SECOND = 5, 0x20000, 25_000_000
# Stores each byte that it reads, and then does some work.
READER = """
BUFFER = 20000H
        MOV R1, SERIAL
        MOV' R2, BUFFER / 10000H
wait:   LDR R3, R1, STATUS - SERIAL
        AND R3, R3, 1           ; bit 0: a byte was received
        BEQ wait
        {load} R0, R1, 0
        STB R0, R2, 0
        ADD R2, R2, 1
{work}
        B wait
"""
# Works for as many rounds of two instructions as R5 says, and one more.
ROUNDS = """
rounds: SUB R5, R5, 1
        BPL rounds
"""
AT_RANDOM = (
    """
        MOV R7, 1103
        MUL R6, R6, R7
        ADD R6, R6, 12345
        ASR R5, R6, 16
        AND R5, R5, 255
"""
    + ROUNDS
)
AFTER_LINES = (
    """
        SUB R5, R0, 13
        BNE wait
        MOV R5, 25000
"""
    + ROUNDS
)
AFTER_TWO = (
    """
        XOR R6, R6, 1
        BNE wait
        MOV R5, 60000
"""
    + ROUNDS
)
# Loads the byte again, some instructions later, and stores it once more.
TWICE = """
        MOV R5, 30
rounds: SUB R5, R5, 1
        BPL rounds
        LDR R0, R1, 0
        SUB R4, R2, 1
        STB R0, R4, 0
"""
STOPPING = """
        SUB R5, R0, 255
        BNE wait
        DIV R5, R5, 0
"""


@dataclass(frozen=True)
class Reader:
    """A program that reads: what it does after each byte; how many bytes are sent, how many of them it gets and reads, in how many turns of a sixtieth of a
    second; and how many it gets in a second of the machine, and with each piece of a turn, at least."""

    work: str
    sent: int
    given: int
    read: int
    turns: int
    least: int
    with_each: float
    load: str = "LDR"


READERS = {
    "in a loop": Reader("", 100_000, 100_000, 100_000, 75, 100_000, 300),
    "in a loop, by a byte": Reader("", 20_000, 20_000, 20_000, 18, 100_000, 100, load="LDB"),
    "twice": Reader(TWICE, 20_000, 20_000, 20_000, 30, 80_000, 50),
    "each thousand instructions": Reader("        MOV R5, 500" + ROUNDS, 20_000, 20_000, 20_000, 60, 20_000, 50),
    "after times that look random": Reader(AT_RANDOM, 50_000, 50_000, 50_000, 75, 45_000, 100),
    "in lines": Reader(AFTER_LINES, 20_000, 20_000, 20_000, 60, 20_000, 10),
    "two at once": Reader(AFTER_TWO, 200, 200, 200, 60, 340, 0.5),
    "each six and a half thousand instructions": Reader("        MOV R5, 3250" + ROUNDS, 300, 300, 300, 60, 3_700, 0.8),
    "each hundred thousand instructions": Reader("        MOV R5, 50000" + ROUNDS, 200, 200, 200, 60, 200, 0.3),
    "until it stops": Reader(STOPPING, 50_000, 5_001, 5_001, 12, 100_000, 10),
    "once": Reader("stays:  B stays", 5_000, 2, 1, 60, 0, 0),
}


def text_for(reader: Reader) -> bytes:
    """Returns what is sent to a reader: lines of different lengths, and at one place the byte that stops one."""
    chance, text = random.Random(3), bytearray()
    while len(text) < reader.sent:
        text += bytes(chance.randrange(32, 127) for _ in range(chance.randrange(120))) + b"\r"
    text[5000:5001] = b"\xff"
    return bytes(text[: reader.sent])


def test_serial_line(tmp_path: Path) -> None:
    """Programs that read in different ways get all that is sent, as fast as they read it."""
    requests = []
    for name, reader in READERS.items():
        source = tmp_path / f"{name.replace(' ', '-')}.asm"
        source.write_text(READER.format(load=reader.load, work=reader.work))
        made = tool("assemble", source)
        expect(f"assembling a program that reads {name}", made.status, 0)
        requests.append(asked("send", made.output, serial=base64.b64encode(text_for(reader)).decode(), turns=reader.turns))
    for (name, reader), found in zip(READERS.items(), called(tmp_path, requests), strict=True):
        compare(name, reader, **found)


def compare(name: str, reader: Reader, recording: str, pieces: int, left: list[int], ms: float) -> None:
    """Compares what a program got with what was sent, and how fast it came."""
    made, wanted, what = base64.b64decode(recording), text_for(reader), f"a program that reads {name}"
    line, status = program("check", made)
    expect(f"the verdict on {what}: {line}", status, 0)
    read = galluspa.formats.recording.read(made)
    events = [it for it in read.events if it.kind == SERIAL]
    expect(f"what {what} got", bytes(it.value for it in events), wanted[: reader.given])
    stored = read.memory(read.checkpoints[-1], BUFFER, BUFFER + reader.sent)
    expect(f"what {what} has stored", stored, wanted[: reader.read].ljust(reader.sent, b"\0"))
    expect(f"how many bytes wait for {what}", left[-1], reader.sent - reader.given)
    expect(f"whether ever more wait for {what}", left == sorted(left, reverse=True), True)
    seconds = (events[-1].count - events[0].count) / SECOND
    speed, with_each = len(events) / seconds if seconds else 0, len(events) / pieces
    if speed < reader.least or with_each < reader.with_each:
        fail(f"{what} gets {speed:,.0f} bytes in a second, {with_each:.1f} with each piece")
