"""Expressions and conditions drawn at random, each with what it means on a machine that shares no code with the tools."""

import random
from collections.abc import Callable
from dataclasses import dataclass

from tests.tools.independent import RAM, WORD, Independent, signed

Meaning = Callable[[Independent, int], int]
EDGES = (0, 1, 2, 4, 8, 255, 0x7FFFFFFF, 0x80000000, WORD)
# The operators, from those that bind least, with what they do to words.
LEVELS: tuple[dict[str, Callable[[int, int], int]], ...] = (
    {"|": lambda a, b: a | b},
    {"&": lambda a, b: a & b},
    {"<<": lambda a, b: a << b if b < 32 else 0, ">>": lambda a, b: signed(a) >> (b if b < 32 else 31)},
    {"+": lambda a, b: a + b, "-": lambda a, b: a - b},
    {"*": lambda a, b: a * b},
)
COMPARISONS: dict[str, Callable[[int, int], bool]] = {
    "==": lambda a, b: a == b,
    "!=": lambda a, b: a != b,
    "#": lambda a, b: a != b,
    "<": lambda a, b: a < b,
    "<=": lambda a, b: a <= b,
    ">": lambda a, b: a > b,
    ">=": lambda a, b: a >= b,
}


@dataclass(frozen=True)
class Drawn:
    """A text, and its value at a count."""

    text: str
    meaning: Meaning


def constant(rng: random.Random) -> Drawn:
    """A number, as it may be written."""
    value = rng.choice((rng.randrange(64), rng.choice(EDGES), rng.getrandbits(32)))
    text = rng.choice((f"{value}", f"0x{value:X}", f"0{value:x}H", f"0{value:X}h"))
    return Drawn(text, lambda machine, count: value)


def atom(rng: random.Random, depth: int, is_address: bool = False) -> Drawn:
    """An operand; in an address a device is its address."""
    kind = rng.randrange(9 if depth else 7)
    if kind < 2:
        return constant(rng)
    if kind < 5:
        at = rng.randrange(16)
        name = {14: "SP", 15: "LNK"}.get(at, f"R{at}") if rng.random() < 0.5 else rng.choice((f"R{at}", f"$r{at}"))
        return Drawn(name, lambda machine, count: machine.states[count].registers[at])
    if kind == 5:
        return rng.choice(
            (
                Drawn("H", lambda machine, count: machine.states[count].h),
                Drawn("PC", lambda machine, count: 4 * machine.states[count].pc),
                Drawn("LEDs", lambda machine, count: 0xFFFFC4 if is_address else machine.states[count].leds),
                Drawn("flags", flags),
            )
        )
    if kind == 6:
        at = 4 * rng.randrange(RAM // 4)
        text = rng.choice((f"Mem[{at:06X}]", f"Mem[{at:#x}]", f"mem[ {at + rng.randrange(4)} ]"))
        return Drawn(text, lambda machine, count: machine.word_at(at, count))
    if kind == 7:
        inside = expression(rng, depth - 1, is_address=True)
        text = f"Mem[({inside.text}) & 0FFFFFH]"
        return Drawn(text, lambda machine, count: machine.word_at(inside.meaning(machine, count) % RAM, count))
    inner = expression(rng, depth - 1, is_address=is_address)
    if rng.random() < 0.5:
        return Drawn(f"({inner.text})", inner.meaning)
    return Drawn(f"-({inner.text})", lambda machine, count: -inner.meaning(machine, count))


def flags(machine: Independent, count: int) -> int:
    """The flags as a number."""
    return sum(8 >> at for at, is_set in enumerate(machine.states[count].flags) if is_set)


def expression(rng: random.Random, depth: int = 2, level: int = 0, is_address: bool = False) -> Drawn:
    """An expression of operators of a level, and of those that bind more."""
    if level == len(LEVELS):
        return atom(rng, depth, is_address)
    left = expression(rng, depth, level + 1, is_address)
    while rng.random() < 0.12:
        sign = rng.choice(list(LEVELS[level]))
        right = expression(rng, depth, level + 1, is_address)
        blank = rng.choice(("", " ")) if not right.text.startswith(("&", "*")) else " "
        left = Drawn(f"{left.text}{blank}{sign}{blank}{right.text}", joined(LEVELS[level][sign], left.meaning, right.meaning))
    return Drawn(left.text, word_of(left.meaning))


def word_of(meaning: Meaning) -> Meaning:
    """The same, modulo 2^32."""
    return lambda machine, count: meaning(machine, count) & WORD


def joined(does: Callable[[int, int], int], left: Meaning, right: Meaning) -> Meaning:
    """What an operation of two values means."""
    return lambda machine, count: does(left(machine, count) & WORD, right(machine, count) & WORD) & WORD


def comparison(rng: random.Random, depth: int) -> Drawn:
    """A comparison: often of one register or word with a number, as a search has it."""
    left = atom(rng, 0) if rng.random() < 0.6 else expression(rng, depth)
    right = constant(rng) if rng.random() < 0.6 else expression(rng, depth)
    if rng.random() < 0.2:
        left, right = right, left
    sign = rng.choice(list(COMPARISONS))
    does = COMPARISONS[sign]

    def meaning(machine: Independent, count: int) -> int:
        return does(signed(left.meaning(machine, count) & WORD), signed(right.meaning(machine, count) & WORD))

    return Drawn(f"{left.text} {sign} {right.text}", meaning)


def condition(rng: random.Random, depth: int = 2) -> Drawn:
    """A condition on values."""
    kind = rng.random() if depth else 0
    if kind < 0.5:
        return comparison(rng, depth)
    inner = condition(rng, depth - 1)
    if kind < 0.6:
        return Drawn(f"{rng.choice(('not ', '!'))}({inner.text})", lambda machine, count: not inner.meaning(machine, count))
    other = condition(rng, depth - 1)
    if kind < 0.8:
        word = rng.choice(("and", "&&"))
        return Drawn(
            f"({inner.text}) {word} ({other.text})",
            lambda machine, count: inner.meaning(machine, count) and other.meaning(machine, count),
        )
    word = rng.choice(("or", "||"))
    return Drawn(
        f"({inner.text}) {word} ({other.text})",
        lambda machine, count: inner.meaning(machine, count) or other.meaning(machine, count),
    )
