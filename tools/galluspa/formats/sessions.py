"""Writes sessions, from a memory image with registers and inputs, and from the initial state of a recording."""

import csv
import io
import json
from dataclasses import dataclass, field
from pathlib import Path
from typing import Any

from galluspa.formats.recording import FLAGS, KINDS, MEMORY_BYTES, MOUSE, PAGE_BYTES, PLACES, UNANSWERED, Event, Recording
from galluspa.formats.states import REGISTERS, values
from galluspa.process.cli import Refused, number, read_file

# The last count, and how many inputs, without a disk and with one, and checkpoints a session or a recording has at most.
COUNTS, INPUTS, INPUTS_WITH_DISK, CHECKPOINTS = 1 << 40, 1_000_000, 4_000_000, 4096
# Up to this count the end of a run is looked for, if no other one is given.
LONGEST_RUN = 1 << 30
KIND_NUMBERS = {name: kind for kind, name in KINDS.items()}
MOST = {"timer": 0xFFFFFFFF, "switches": 0xFFF, "mouse": MOUSE, "key": 0xFF, "serial": 0xFF, "disk": 0xFFFFFFFF}


@dataclass
class Session:
    """A session: initial state, inputs, and the counts of checkpoints. Version 1 says no rate and phase, and only version 3 a
    disk."""

    registers: list[int] = field(default_factory=lambda: [0] * 16)
    h: int = 0
    pc: int = 0
    flags: int = 0
    rate: int = 0
    phase: int = 0
    disk: int = UNANSWERED
    memory: bytes = b""
    inputs: list[Event] = field(default_factory=list)
    checkpoints: list[int] = field(default_factory=list)

    def text(self) -> str:
        """Returns the session as JSON, a page and a few inputs in each line."""
        is_with_disk = self.disk != UNANSWERED or any(KINDS[it.kind] == "disk" for it in self.inputs)
        counting = {"rate": self.rate, "phase": self.phase} if self.rate or is_with_disk else {}
        disk = {"disk": self.disk} if is_with_disk else {}
        start = {"R": self.registers, "H": self.h, "PC": self.pc, "flags": self.flags, **counting, **disk}
        inputs = [json.dumps([event.count, KINDS[event.kind], event.value]) for event in self.inputs]
        return "\n".join(
            [
                "{",
                '  "format": "oberon-session",',
                f'  "version": {3 if disk else 2 if counting else 1},',
                f'  "start": {json.dumps(start)},',
                f'  "pages": {_rows(_pages(self.memory), 1)},',
                f'  "inputs": {_rows(inputs, 8)},',
                f'  "checkpoints": {_rows([str(count) for count in self.checkpoints], 16)}',
                "}\n",
            ]
        )


def _pages(memory: bytes) -> list[str]:
    """Returns the pages of a memory that have a byte other than 0, without the zeros at their ends."""
    pages = ((at, memory[at * PAGE_BYTES : (at + 1) * PAGE_BYTES].rstrip(b"\0")) for at in range(PLACES))
    return [json.dumps({"at": at, "hex": content.hex()}) for at, content in pages if content]


def _rows(items: list[str], in_row: int) -> str:
    if len(items) <= in_row and in_row > 1:
        return f"[{', '.join(items)}]"
    rows = (", ".join(items[at : at + in_row]) for at in range(0, len(items), in_row))
    return "[\n    " + ",\n    ".join(rows) + "\n  ]" if items else "[]"


def numbers_of(begun: object) -> dict[str, Any]:
    """Returns the numbers with which a session, a state or a trial begins, besides R0 to R15."""
    return {name: getattr(begun, name) for name in ("h", "pc", "flags", "rate", "phase")}


def of_recording(name: str, read: Recording) -> Session:
    """Returns the session of a recording's initial state, inputs and counts. Raises Refused if no session can say that
    state."""
    first, *later = read.checkpoints
    numbers = values(first)
    inexpressible = [name for name in ("stop", "timer", "switches", "LEDs", "mouse", "serial", "keys") if numbers[name]]
    if inexpressible:
        parts = ", ".join(inexpressible)
        raise Refused(f"{name}: its initial state has {parts} other than 0, which a session cannot set")
    return Session(
        registers=list(first.registers),
        **numbers_of(first),
        disk=first.disk,
        memory=read.memory(first, 0, MEMORY_BYTES),
        inputs=read.events,
        checkpoints=[checkpoint.count for checkpoint in later],
    )


def image_at(name: str, image: bytes, address: int) -> bytes:
    """Returns a memory that begins with zeros and has an image from a byte address on."""
    if address + len(image) > MEMORY_BYTES:
        raise Refused(f"{name}: {len(image):,} bytes from {address:X} on go beyond the memory of {MEMORY_BYTES:,} bytes")
    return bytes(address) + image


def set_register(session: Session, assignment: str) -> None:
    """Sets what NAME=VALUE says: R0 to R15, H, PC (in words), flags (letters of NZCV, or a number), rate or phase."""
    name, is_set, written = assignment.partition("=")
    if name == "flags" and written and set(written) <= set(FLAGS):
        session.flags = sum(8 >> FLAGS.index(letter) for letter in set(written))
        return
    value, most = number(written), {"PC": (1 << 22) - 1, "flags": 15}.get(name, 0xFFFFFFFF)
    if not is_set or name not in (*REGISTERS, "H", "PC", "flags", "rate", "phase"):
        raise Refused(f"--set {assignment}: give R0 to R15, H, PC, flags, rate or phase, an equals sign and a value")
    if value is None or value > most:
        raise Refused(f"--set {assignment}: {written!r} is not a whole number from 0 to {most:,}")
    if name in REGISTERS:
        session.registers[REGISTERS.index(name)] = value
    else:
        setattr(session, name.lower(), value)


def check_phase(session: Session) -> None:
    """Refuses a phase that isn't below the rate, or not 0 if the rate is 0."""
    if session.phase >= max(session.rate, 1):
        raise Refused(f"phase {session.phase:,} is not below the rate {session.rate:,}, or 0 if that is 0")


def inputs_of(path: Path) -> list[Event]:
    """Returns the inputs of a CSV file with the columns count, kind, value; a first row of these names is passed
    over."""
    content, inputs = read_file(path), list[Event]()
    try:
        rows = csv.reader(io.StringIO(content.decode("utf-8-sig"), newline=""))
        for cells in rows:
            cells = [cell.strip() for cell in cells]
            if not any(cells) or cells[0].startswith("#") or not inputs and cells == ["count", "kind", "value"]:
                continue
            inputs.append(_input(f"{path} line {rows.line_num}", cells, inputs[-1].count if inputs else 0))
    except (UnicodeDecodeError, csv.Error) as error:
        raise Refused(f"{path}: not a CSV file in UTF-8: {error}") from error
    most = INPUTS_WITH_DISK if any(KINDS[it.kind] == "disk" for it in inputs) else INPUTS
    if len(inputs) > most:
        raise Refused(f"{path}: {len(inputs):,} inputs; a session has at most {most:,}")
    return inputs


def _input(where: str, cells: list[str], least: int) -> Event:
    if len(cells) != 3:
        raise Refused(f"{where}: write three cells: count, kind, value")
    count, kind, value = number(cells[0]), cells[1].lower(), number(cells[2])
    if count is None or not least <= count <= COUNTS:
        raise Refused(f"{where}: {cells[0]!r} is not a count from {least:,}, that of the input before, to {COUNTS:,}")
    if kind not in KIND_NUMBERS:
        raise Refused(f"{where}: {cells[1]!r} is none of {', '.join(MOST)}")
    if value is None or value > MOST[kind] or kind == "mouse" and value & ~MOUSE:
        raise Refused(
            f"{where}: {cells[2]!r} is not a value for {kind}: 0 to {MOST[kind]:X} (hexadecimal)"
            + (", and no bit but of this mask" if kind == "mouse" else "")
        )
    return Event(count, KIND_NUMBERS[kind], value)
