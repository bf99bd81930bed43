"""Programs, sessions and recordings that several tests open."""

import json
import struct
from pathlib import Path

from galluspa.formats.recording import Event
from tests.tools.samples import EXAMPLES, JUMP, TOP, claim, encoded, galluspa, page_of, record

FACE, DRAW = (EXAMPLES / "face.orsr").read_bytes(), (EXAMPLES / "draw.json").read_bytes()
FRAMES = EXAMPLES / "frames"
# The kinds of inputs as a recording has them.
MOUSE, KEY, SERIAL = 3, 4, 5
PER_SECOND = 25_000_000
# A program that counts, so that no step of it is skipped; and one that stores to another page and sends a byte with each five steps.
COUNTING = [0x40080001, 0xE7FFFFFE]
STORING = [0x5100FFC8, 0x40080001, 0x42280404, 0xA0201000, 0xA0100000, 0xE7FFFFFB]
MOST_INPUTS = 1_000_000
# Draws each key's bits in the lowest line of the screen, one word beside the other.
DRAWS = """; Draws what is typed.
        MOV R1, KEY
        MOV' R2, DISPLAY / 10000H
        IOR R2, R2, DISPLAY % 10000H
        MOV R5, 0
wait:   LDR R3, R1, MOUSE - KEY
        LSL R3, R3, 3
        BPL wait
        LDR R0, R1, 0
        BL draw
        B wait
draw:   ADD R4, R2, R5
        STR R0, R4, 0
        ADD R5, R5, 4
        B R15
"""
# Sends back each key.
ECHOES = """        MOV R1, KEY
wait:   LDR R3, R1, MOUSE - KEY
        LSL R3, R3, 3
        BPL wait
        LDR R0, R1, 0
        ADD R0, R0, {more}
        STR R0, R1, SERIAL - KEY
        STR R0, R1, LEDS - KEY
        B wait
"""
# A procedure that calls itself, with a stack.
RECURSIVE = """        MOV SP, 8000H
        MOV R0, 4
        BL sum
done:   B done
sum:    SUB SP, SP, 8
        STR LNK, SP, 0
        STR R0, SP, 4
        SUB R0, R0, 1
        BEQ last
        BL sum
last:   LDR R2, SP, 4
        ADD R1, R1, R2
        LDR LNK, SP, 0
        ADD SP, SP, 8
        B LNK
"""


def frames(folder: Path) -> dict[str, bytes]:
    """Returns the recording of the program of three modules, and its symbol file."""
    galluspa("assemble", FRAMES / "main.asm", "-o", folder / "frames.json", "--symbols", folder / "frames.sym")
    text = (folder / "frames.sym").read_bytes().replace(f"{TOP}/".encode(), b"")
    return {"frames.orsr": record((folder / "frames.json").read_bytes()), "frames.sym": text}


def with_inputs(number: int) -> bytes:
    """Returns a recording of a loop, with one checkpoint and a number of keys before instruction 10."""
    one = encoded(2, [page_of(JUMP)], [claim(0)], [Event(10, 4, 65)])
    inputs = 24 + 1024
    return one[:12] + struct.pack("<I", number) + one[16:inputs] + number * one[inputs : inputs + 16] + one[inputs + 16 :]


def json_of(name: str, **changes: object) -> bytes:
    """Returns an example's session with some members changed."""
    return json.dumps({**json.loads((EXAMPLES / name).read_text()), **changes}).encode()
