"""Writes instructions in the notation of N. Wirth's The RISC Architecture: mnemonics, and assignments that say what
they do.

A mark (') after a mnemonic is bit u: with the carry, of unsigned words, or the upper half. The manual has no mnemonics
for bytes: here they are LDB and STB. Numbers are decimal, or hexadecimal with an H at the end. The templates of both are
in assembler.json, which the page reads, too.
"""

import re
from collections.abc import Callable, Mapping, Sequence
from dataclasses import dataclass
from functools import lru_cache

from galluspa.formats.language import LANGUAGE

OPERATIONS: list[str] = LANGUAGE["operations"]
SIGNS: list[str] = LANGUAGE["signs"]
CONDITIONS = tuple[str, ...](LANGUAGE["conditions"])
TESTS: list[str] = LANGUAGE["tests"]
# Loads and stores, by bits 29 and 28.
MOVES = [*LANGUAGE["memory"]]
ALWAYS, NEVER = 7, 15
# The operations that write H, and those that may read the carry.
WITH_H, WITH_CARRY = (10, 11), (8, 9)


@dataclass(frozen=True)
class Instruction:
    """An instruction as a mnemonic with its operands, and what it does."""

    mnemonic: str
    meaning: str


@dataclass(frozen=True)
class _Form:
    """A form of instructions: the bits of the upper half that it fixes, and the templates of mnemonic and meaning."""

    mask: int
    bits: int
    mnemonic: "_Template"
    meaning: "_Template"

    @staticmethod
    def of(pattern: str, mnemonic: str, meaning: str) -> "_Form":
        """Returns the form of a pattern of 16 bits, in which a dot is any bit."""
        digits = pattern.replace(" ", "")
        mask, bits = (int(it.replace(".", "0"), 2) for it in (re.sub("[01]", "1", digits), digits))
        return _Form(mask, bits, _Template.of(mnemonic), _Template.of(meaning))


@dataclass(frozen=True)
class _Template:
    """A text with places for fields of a word."""

    text: str
    fields: Sequence[Callable[[int, int], object]]

    @staticmethod
    def of(text: str) -> "_Template":
        """Returns the template of a text in which the fields are named in braces."""
        place = re.compile(r"\{(\w+)\}")
        return _Template(place.sub("%s", text), [_FIELDS[name] for name in place.findall(text)])

    def filled(self, word: int, at: int) -> str:
        """Returns the text of a word that lies at a place, counted in words."""
        return self.text % tuple([field(word, at) for field in self.fields])


def bit(word: int, place: int) -> int:
    """Returns a bit of a word."""
    return word >> place & 1


def signed(word: int, bits: int) -> int:
    """Returns the signed number in the low bits of a word."""
    low = word & (1 << bits) - 1
    return low - (low >> bits - 1 << bits)


def instruction(word: int, at: int) -> Instruction:
    """Returns the instruction of a word that lies at a place, counted in words."""
    form = _form(word >> 16)
    return Instruction(form.mnemonic.filled(word, at), form.meaning.filled(word, at))


@lru_cache(1 << 16)
def _form(upper_half: int) -> _Form:
    return next(it for it in _FORMS if upper_half & it.mask == it.bits)


@lru_cache(1 << 16)
def mnemonic(word: int) -> str:
    """Returns the mnemonic of a word with its operands, which is the same wherever it lies."""
    return instruction(word, 0).mnemonic


@lru_cache(1 << 16)
def written(word: int) -> frozenset[str]:
    """Returns the registers and flags that an instruction writes unless it stops; those of a branch it writes if it is
    taken."""
    if is_branch(word):
        return frozenset(("R15", "flags") if bit(word, 28) else ())
    if is_store(word):
        return frozenset()
    has_h = word >> 31 == 0 and word >> 16 & 15 in WITH_H
    return frozenset((f"R{word >> 24 & 15}", "flags", *(["H"] if has_h else [])))


def operands_of(word: int) -> list[str]:
    """Returns the registers and flags that an instruction reads; a store also reads what it stores."""
    a, b, c = (f"R{word >> place & 15}" for place in (24, 20, 0))
    if is_branch(word):
        return ["flags"] * (word >> 24 & 7 != ALWAYS) + [c] * (not bit(word, 29) and word >> 24 & 15 != NEVER)
    if word >> 31:
        return list(dict.fromkeys([b, *([a] if is_store(word) else [])]))
    op, is_by_register, u = word >> 16 & 15, not bit(word, 30), bit(word, 29)
    if op == 0 and u:
        return [["H"], ["flags"]][bit(word, 28)] if is_by_register else []
    read = [b] * (op != 0) + [c] * is_by_register + ["flags"] * (u and op in WITH_CARRY)
    return list(dict.fromkeys(read))


def is_operation(word: int) -> bool:
    """Returns whether a word is an operation on registers."""
    return word >> 31 == 0


def is_move(word: int) -> bool:
    """Returns whether a word is a load or a store."""
    return word >> 30 == 2


def is_branch(word: int) -> bool:
    """Returns whether a word is a branch."""
    return word >> 30 == 3


def is_taken(word: int, flags: int) -> bool:
    """Returns whether a branch is taken under flags (N is 8, Z 4, C 2, V 1)."""
    n, z, c, v = (bool(flags & bit) for bit in (8, 4, 2, 1))
    holds = (n, z, c, v, c or z, n != v, n != v or z, True)[word >> 24 & 7]
    return holds != bool(bit(word, 27))


def writes(word: int, flags: int) -> frozenset[str]:
    """Returns the registers and flags that an instruction writes under flags, unless it stops the machine."""
    return written(word) if not is_branch(word) or is_taken(word, flags) else frozenset()


def is_store(word: int) -> bool:
    """Returns whether a word is a store."""
    return word >> 29 == 5


def address(word: int, registers: Sequence[int]) -> int | None:
    """Returns the byte address that a load or a store goes to; None of any other word."""
    if not is_move(word):
        return None
    return (registers[word >> 20 & 15] + signed(word, 20)) & 0xFFFFFF


def branches_to(word: int, at: int) -> int | None:
    """Returns the number of the word that a branch by an offset leads to, if it lies at a place; None of any other word."""
    is_by_offset = is_branch(word) and bit(word, 29) and word >> 24 & 15 != NEVER
    return (at + 1 + signed(word, 22)) % (1 << 22) if is_by_offset else None


def _operand(word: int, _at: int) -> str:
    return str((word & 0xFFFF) - (0x10000 if bit(word, 28) else 0)) if bit(word, 30) else f"R{word & 15}"


def _address(word: int, _at: int) -> str:
    offset = signed(word, 20)
    return f"R{word >> 20 & 15}" + (f" {'-' if offset < 0 else '+'} {abs(offset)}" if offset else "")


def _test(word: int, _at: int) -> str:
    test = TESTS[word >> 24 & 15]
    return test and f" where {test}"


# What stands in the places of templates, of a word that lies at a place.
_FIELDS: Mapping[str, Callable[[int, int], object]] = {
    "a": lambda word, _: word >> 24 & 15,
    "b": lambda word, _: word >> 20 & 15,
    "operation": lambda word, _: OPERATIONS[word >> 16 & 15] + "'" * bit(word, 29),
    "sign": lambda word, _: SIGNS[word >> 16 & 15],
    "operand": _operand,
    "half": lambda word, _: word & 0xFFFF,
    "upper": lambda word, _: f"{word & 0xFFFF:04X}",
    "offset": lambda word, _: signed(word, 20),
    "address": _address,
    "condition": lambda word, _: CONDITIONS[word >> 24 & 15],
    "target": lambda word, _: signed(word, 22) if bit(word, 29) else f"R{word & 15}",
    "place": lambda word, at: (at + 1 + signed(word, 22)) % (1 << 22) if bit(word, 29) else f"R{word & 15} div 4",
    "test": _test,
    "back": lambda _, at: 4 * (at + 1),
}
_FORMS = [_Form.of(*row) for row in LANGUAGE["notation"]]
