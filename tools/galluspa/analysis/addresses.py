"""Reads the numbers and addresses that users of `galluspa state` and `galluspa debug` write, and has their values in a state."""

import re

from galluspa.analysis.expressions import Moment, Node, Unreadable, value_at
from galluspa.analysis.expressiontexts import REGISTER_NAMES, SIX_DIGITS, Parser, literal
from galluspa.engine.machine import Machine
from galluspa.formats.recording import MEMORY_BYTES
from galluspa.formats.symbols import Symbols, shown
from galluspa.process.cli import Refused

# The default number of words of memory.
MEMORY_WORDS = 8


def moment_of(machine: Machine) -> Moment:
    """Returns the moment at which a machine is; it is not to be advanced."""
    return Moment(machine.seen(), machine.words.__getitem__)


def is_register(text: str) -> bool:
    """Returns whether a text begins with a register, perhaps with a dollar sign as gdb writes it."""
    found = re.match(r"\s*\$?([A-Za-z]+[0-9]*)", text)
    return bool(found) and found[1].upper() in REGISTER_NAMES and found[1].upper() != "FLAGS" if found else False


def register_named(text: str) -> str | None:
    """Returns the name that a state has for the register that a text names, or for H or the flags; None if it names none."""
    name = REGISTER_NAMES.get(text.strip().removeprefix("$").upper())
    return None if name == "PC" else name


def address_node(text: str, symbols: Symbols) -> Node:
    """Returns the expression of an address. Raises Refused if the text is not one."""
    return Parser(text, symbols, is_address=True).whole()


def value_of(node: Node, moment: Moment, text: str) -> int:
    """Returns the value of an expression; refused if it reads beyond the memory."""
    try:
        return value_at(node, moment)
    except Unreadable as why:
        raise Refused(f"{shown(text.strip())}: {why}") from why


def address_at(text: str, moment: Moment, symbols: Symbols) -> int:
    """Returns the address that a text stands for, modulo 2^32; refused if it stands for none."""
    return value_of(address_node(text, symbols), moment, text)


def address_in_memory(text: str, moment: Moment, symbols: Symbols) -> int:
    """Returns the address of memory that a text denotes."""
    address = address_at(text, moment, symbols)
    if address >= MEMORY_BYTES:
        raise Refused(f"{shown(text.strip())} is {address:X}, and an address of memory is below {MEMORY_BYTES:X} (hexadecimal)")
    return address


def place_words(text: str, moment: Moment, symbols: Symbols) -> list[str]:
    """Returns the words of a place of a condition. *ADDRESS, or a register, stands for the address that it is at a moment."""
    words = text.split()
    if not words:
        raise Refused("expected a PLACE: an address, FIRST-LAST, a device, page N, dot X,Y or a name")
    if text[:4].lower() == "mem[" and text.endswith("]") and not SIX_DIGITS.fullmatch(text, 4):
        text = f"*{text[4:-1]}"
    if not is_register(text) and not text.startswith("*"):
        is_sum = words[0] not in ("page", "dot") and "mask" not in words
        return ["".join(words)] if is_sum else words
    address = address_at(text.removeprefix("*"), moment, symbols)
    if address >= MEMORY_BYTES:
        raise Refused(
            f"{shown(text)} is {address:X} now, which is beyond the memory; of a register itself, use catch R5=VALUE, or who R5"
        )
    return [f"0x{address:X}"]


def words_asked(text: str) -> tuple[str, int]:
    """Returns the address, as it is written, and the number of words that ADDRESS[,WORDS] says."""
    address, comma, words = text.rpartition(",")
    if not comma:
        return text, MEMORY_WORDS
    wanted = literal(words)
    if wanted is None or not 1 <= wanted <= MEMORY_BYTES // 4:
        raise Refused(f"{shown(text)}: {shown(words)!r} is not a number of words from 1 to {MEMORY_BYTES // 4:,}")
    return address, wanted
