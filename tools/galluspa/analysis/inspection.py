"""Shows a machine at one count: its registers, its devices, its memory and its stack, with the names of a symbol file.

`galluspa state` and `galluspa debug` print the same lines.
"""

import struct
from collections.abc import Iterator, Sequence

from galluspa.formats.screens import HEAD, picture
from galluspa.analysis.calls import Calls
from galluspa.analysis.entries import Entries
from galluspa.analysis.naming import with_remark
from galluspa.engine.following import Call
from galluspa.engine.machine import Machine
from galluspa.engine.program import Program
from galluspa.formats import states
from galluspa.formats.instructions import instruction
from galluspa.formats.recording import MEMORY_BYTES, STOPS, WORDS, Checkpoint
from galluspa.formats.symbols import Symbols
from galluspa.process.cli import Refused
from galluspa.process.timelimit import TimeIsUp

# A register is shown with the name of an address if its value is not less; smaller numbers are mostly no addresses.
LEAST_NAMED = 0x100
STACK_WORDS = 16
# The parts of a state besides the registers and the program counter, in the lines in which they are shown.
DEVICES = (("timer", "rate", "phase"), ("switches", "LEDs", "mouse"), ("serial", "keys", "disk"))
# The screen as text: COARSE dots side by side are one dot of a character, which has two by four.
COARSE, ACROSS, DOWN = 8, 2, 4
BRAILLE = 0x2800
# The bits of a character of Braille, by the column and the row of a dot.
BITS = ((0x01, 0x02, 0x04, 0x40), (0x08, 0x10, 0x20, 0x80))


def named(value: int, symbols: Symbols) -> str:
    """Returns the names of what a register may hold: an address in data, the first address of code, or a constant.
    Nothing if the value is small, or within code."""
    if value < LEAST_NAMED:
        return ""
    is_address = symbols.is_data(value) or symbols.start_of(value) == value
    return symbols.text(value) if is_address else symbols.value(value)


def held_name(register: str, value: int, symbols: Symbols) -> str:
    """Returns the names of what a register holds; R15 may hold any address of code, since it has return addresses."""
    return symbols.text(value) if register == "R15" else named(value, symbols)


def status_line(state: Checkpoint) -> str:
    """Returns the count, and whether the machine runs."""
    return f"count {state.count:,}, " + (f"stopped ({STOPS[state.stop]})" if state.stop else "running")


def register_lines(state: Checkpoint, symbols: Symbols) -> Iterator[str]:
    """R0 to R15, H, PC and the flags: in hexadecimal and as numbers with a sign, with the names of addresses."""
    for name, value in zip(states.REGISTERS, state.registers, strict=True):
        signed = value - (value >> 31 << 32)
        yield with_remark(f"{name:6}{value:08X}  {signed:>11}", held_name(name, value, symbols))
    yield f"{'H':6}{state.h:08X}  {state.h - (state.h >> 31 << 32):>11}"
    yield with_remark(f"{'PC':6}{state.pc:<8}  {4 * state.pc:>10X}H", symbols.text(4 * state.pc))
    yield f"flags {states.flags(state.flags)}"


def device_lines(state: Checkpoint) -> Iterator[str]:
    """Yields the devices."""
    texts = states.texts(state)
    for names in DEVICES:
        yield "  ".join(f"{name} {texts[name]}" for name in names if name in texts)


def memory_lines(machine: Machine, address: int, number: int, symbols: Symbols) -> Iterator[str]:
    """Yields words of memory, from the one that an address is in: each in hexadecimal, as a number with a sign, its
    bytes from the lowest on, and what characters they are."""
    for at in range(address // 4, min(address // 4 + number, WORDS)):
        word = machine.words[at]
        content = struct.pack("<I", word)
        signs = "".join(chr(byte) if 0x20 <= byte < 0x7F else "." for byte in content)
        shown = f"{4 * at:06X}  {word:08X}  {word - (word >> 31 << 32):>11}  {content.hex(' ')}  {signs}"
        yield with_remark(shown, symbols.text(4 * at))


def entries_of(machine: Machine, symbols: Symbols) -> Entries:
    """Returns where procedures begin in a machine's memory."""
    return Entries(memoryview(machine.memory()).cast("I"), symbols)


def stack_line(machine: Machine, symbols: Symbols, calls: Calls) -> str:
    """Returns where a machine is, who called that, who called that one, and so on; or why this is not followed."""
    try:
        return f"stack: {entries_of(machine, symbols).line(machine.state.pc, calls.at(machine.count))}"
    except (Refused, TimeIsUp) as why:
        return f"stack: {why}"


def stack_lines(machine: Machine, number: int, symbols: Symbols, calls: Sequence[Call]) -> Iterator[str]:
    """Yields words of memory from R14 on. A word that is in what an open call has pushed, and is its return address, is said to be
    that."""
    pointer, entries = machine.state.r[14], entries_of(machine, symbols)
    if pointer >= MEMORY_BYTES:
        yield f"R14 is {pointer:08X}, beyond the memory"
        return
    for line, at in zip(memory_lines(machine, pointer, number, symbols), range(pointer // 4, WORDS)):
        call = _returning(4 * at, machine.words[at], calls)
        yield line + (f"  <- returns to {entries.text_after_call(4 * call.back)}, from the call at {call.count:,}" if call else "")


def _returning(address: int, word: int, calls: Sequence[Call]) -> Call | None:
    """Returns the last of the open calls whose R14 is above an address, if a word there is its return address."""
    call = next((it for it in reversed(calls) if it.sp > address), None)
    return call if call and word == 4 * call.back else None


def instruction_lines(machine: Machine, first: int, number: int, symbols: Symbols) -> Iterator[str]:
    """Yields instructions from a word on, with an arrow at the one that the machine does next."""
    for at in range(first, min(first + number, WORDS)):
        word, mark = machine.words[at], "=>" if at == machine.state.pc and not machine.state.stop else "  "
        decoded = instruction(word, at)
        shown = f"{mark}{at:>6}  {word:08X}  {decoded.mnemonic:20}  {decoded.meaning}"
        yield with_remark(shown, symbols.text(4 * at), symbols.source(4 * at))


def screen_of(machine: Machine, program: Program) -> bytes:
    """Returns the machine's screen as the program draws it: a binary PBM."""
    return program.drawn(machine.seen(), machine.memory())


def picture_of(pbm: bytes, name: str) -> bytes:
    """Returns a screen as a file of this name has it: a PBM, or else a PNG."""
    return pbm if name.lower().endswith(".pbm") else picture(pbm)


def screen_lines(pbm: bytes) -> Iterator[str]:
    """Yields a screen as text, with a dot of a character of Braille for each eight by eight dots of which one is set;
    lines at its end that are empty are left out."""
    rows = pbm[HEAD:]
    coarse = [
        [any(rows[128 * (COARSE * y + part) + x] for part in range(COARSE)) for x in range(128)] for y in range(768 // COARSE)
    ]
    lines = []
    for top in range(0, len(coarse), DOWN):
        line = ""
        for left in range(0, 128, ACROSS):
            bits = sum(BITS[x][y] for x in range(ACROSS) for y in range(DOWN) if coarse[top + y][left + x])
            line += chr(BRAILLE + bits) if bits else " "
        lines.append(line.rstrip())
    while lines and not lines[-1]:
        lines.pop()
    yield from lines or ["the screen is empty"]
