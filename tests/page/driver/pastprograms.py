"""The programs whose past the page's workers are asked about, made in a folder for them."""

import json
import shutil
from pathlib import Path

from tests.page.driver.desk import fail
from tests.page.driver.given import STORING
from tests.tools.samples import EXAMPLES, record, rejoining, session, tool

EXAMPLES_USED = ("draw.json", "face.json", "face.orsr")
# Programs, each with the words of its labels that the tests name.
SOURCES = {
    # Loads, stores, sends, takes keys, and stops by a division by 0.
    "mixed": """
        rate 50
        MOV R1, TIMER
        MOV R2, data
        MOV R4, 0
again:  LDR R3, R1, MOUSE - TIMER
        LSL R3, R3, 3
        BPL none
        LDR R0, R1, KEY - TIMER
        STR R0, R1, SERIAL - TIMER
        STR R0, R1, LEDS - TIMER
none:   LDR R5, R2, 0
        ADD R5, R5, 3
        STR R5, R2, 0
        STR R4, R2, 8
        AND R6, R5, 31
        STB R6, R2, 5
        LDB R7, R2, 6
        SUB R8, R5, 900
        BNE again
        DIV R9, R5, R4
data:   word 0, 0, 0
        input 40, key, "ab"
        input 300, key, 1
        input 300, mouse, 77
        input 1201, serial, 5
        input 2600, key, "bb"
    """,
    # Writes the instruction that it does next, with another number each time.
    "own-code": """
        MOV R1, code
        LDR R2, R1, 0
loop:   ADD R2, R2, 1
        STR R2, R1, 0
code:   MOV R3, 0
        ADD R4, R4, R3
        B loop
    """,
    # Draws a dot, later clears it and draws it again; stores a byte, and later the same byte again.
    "dots": """
        MOV' R1, DISPLAY / 10000H
        IOR R1, R1, DISPLAY % 10000H
        MOV R2, 8
        STB R2, R1, 100
first:  STB R2, R1, 228
        MOV R3, 1000
        BL wait
        MOV R4, 0
clear:  STB R4, R1, 100
        MOV R6, 77
        STB R2, R1, 100
        MOV R3, 1500
        BL wait
second: STB R2, R1, 228
done:   ADD R5, R5, 1
        B done
wait:   SUB R3, R3, 1
        BNE wait
        B R15
    """,
    # Calls itself, and procedures that call nothing.
    "recursive": """
        MOV R14, 800H
main:   MOV R0, 5
        BL sum
        ADD R5, R5, R1
        BL leaf
        B main
sum:    SUB R14, R14, 8
        STR R15, R14, 0
        STR R0, R14, 4
        MOV R1, 0
        SUB R0, R0, 1
        BEQ none
        BL sum
        LDR R0, R14, 4
        ADD R1, R1, R0
        BL leaf
none:   LDR R15, R14, 0
        ADD R14, R14, 8
        B R15
leaf:   ADD R2, R2, 1
        B R15
    """,
    # Sends a byte with each second instruction.
    "sends": """
        MOV R1, SERIAL
loop:   STR R1, R1, 0
        B loop
    """,
    # Counts, so that no step of it is skipped.
    "counts": """
loop:   ADD R0, R0, 1
        ADD R1, R1, R0
        B loop
    """,
}


def labels(symbols: Path) -> dict[str, int]:
    """Returns the words of the labels in a symbol file, whose addresses are of bytes."""
    lines = [line.split("\t")[0].split() for line in symbols.read_text().splitlines()]
    return {it[-1]: int(it[0], 16) // 4 for it in lines if len(it) > 2 and it[-2] in "td"}


def make_programs(folder: Path) -> None:
    """Writes the sessions of the programs, and the words of their labels."""
    for name in EXAMPLES_USED:
        shutil.copy(EXAMPLES / name, folder)
    (folder / "false.orsr").write_bytes(rejoining(9))
    (folder / "many.orsr").write_bytes(record(json.dumps(session(STORING, range(20, 40001, 20))).encode()))
    found = {}
    for name, source in SOURCES.items():
        path = folder / f"{name}.asm"
        path.write_text(source)
        made = tool("assemble", path, "-o", folder / f"{name}.json", "--symbols", folder / f"{name}.sym")
        if made.status:
            fail(f"{name}.asm: {made.errors}")
        found[name] = labels(folder / f"{name}.sym")
    (folder / "labels.json").write_text(json.dumps(found))
