"""Expressions with a value at each moment of a run: a word of 32 bits, which comparisons take as a number with a sign."""

from collections.abc import Callable
from dataclasses import dataclass

from galluspa.formats.recording import MEMORY_BYTES, WORD, Checkpoint
from galluspa.formats.states import WORDS

NEGATED = {"==": "!=", "!=": "==", "<": ">=", ">=": "<", ">": "<=", "<=": ">"}


class Unreadable(Exception):
    """A word is read that is not in memory; its text says which."""


@dataclass(frozen=True)
class Moment:
    """The machine at a count: its state, and its words by their numbers."""

    state: Checkpoint
    word: Callable[[int], int]


@dataclass(frozen=True)
class Number:
    """A number."""

    value: int


@dataclass(frozen=True)
class Part:
    """A register or a device, as a state names it; PC is a byte address."""

    name: str


@dataclass(frozen=True)
class Named:
    """What a name of a symbol file stands for: an address, or a constant."""

    name: str
    value: int
    kind: str


@dataclass(frozen=True)
class Word:
    """The word of memory at an address."""

    address: "Node"


@dataclass(frozen=True)
class Chain:
    """Operations of one precedence, from the left on."""

    first: "Node"
    rest: tuple[tuple[str, "Node"], ...]


@dataclass(frozen=True)
class Comparison:
    """A comparison of numbers with a sign."""

    left: "Node"
    sign: str
    right: "Node"


@dataclass(frozen=True)
class Junction:
    """Conditions of which all have to hold, or one."""

    is_and: bool
    parts: tuple["Node", ...]


Node = Number | Part | Named | Word | Chain | Comparison | Junction


def signed(value: int) -> int:
    """Returns a word as a number with a sign."""
    return value - (value >> 31 << 32)


def value_at(node: Node, moment: Moment) -> int:
    """Returns the value of an expression. Raises Unreadable."""
    match node:
        case Number(value) | Named(value=value):
            return value
        case Part(name):
            return part_at(name, moment.state)
        case Word(address):
            at = value_at(address, moment)
            if at >= MEMORY_BYTES:
                raise Unreadable(f"{at:X} (hexadecimal) is no address of memory, which is below {MEMORY_BYTES:X}")
            return moment.word(at >> 2)
        case Chain(first, rest):
            value = value_at(first, moment)
            for sign, operand in rest:
                value = _operated(sign, value, value_at(operand, moment))
            return value
        case Comparison(left, sign, right):
            return int(is_so(sign, value_at(left, moment), value_at(right, moment)))
        case Junction(is_and, parts):
            return int((all if is_and else any)(value_at(it, moment) for it in parts))


def part_at(name: str, state: Checkpoint) -> int:
    """Returns the value of a register or a device."""
    if name.startswith("R") and name[1:].isdigit():
        return state.registers[int(name[1:])]
    value: int = getattr(state, WORDS[name])
    return 4 * value if name == "PC" else value


def _operated(sign: str, value: int, by: int) -> int:
    """Returns the result of an operation, modulo 2^32. A shift by 32 or more leaves nothing but the sign."""
    match sign:
        case "+":
            return value + by & WORD
        case "-":
            return value - by & WORD
        case "*":
            return value * by & WORD
        case "&":
            return value & by
        case "|":
            return value | by
        case "<<":
            return value << by & WORD if by < 32 else 0
    return signed(value) >> min(by, 31) & WORD


def is_so(sign: str, left: int, right: int) -> bool:
    """Returns whether a comparison of two words holds."""
    one, other = signed(left), signed(right)
    return {"==": one == other, "!=": one != other, "<": one < other, "<=": one <= other, ">": one > other, ">=": one >= other}[
        sign
    ]


def holds(node: Node, moment: Moment) -> bool:
    """Returns whether a condition holds; a comparison that reads beyond the memory does not."""
    match node:
        case Junction(is_and, parts):
            return (all if is_and else any)(holds(it, moment) for it in parts)
    try:
        return value_at(node, moment) != 0
    except Unreadable:
        return False


def negated(node: Node) -> Node:
    """Returns the condition that another one does not hold."""
    match node:
        case Comparison(left, sign, right):
            return Comparison(left, NEGATED[sign], right)
        case Junction(is_and, parts):
            return Junction(not is_and, tuple(map(negated, parts)))
    return Comparison(node, "==", Number(0))


def parts_of(node: Node) -> set[str]:
    """Returns the registers and devices of which an expression has the values; Mem if it has a word of memory."""
    match node:
        case Part(name):
            return {name}
        case Word(address):
            return {"Mem"} | parts_of(address)
        case Chain(first, rest):
            return parts_of(first).union(*(parts_of(it) for _, it in rest))
        case Comparison(left, _, right):
            return parts_of(left) | parts_of(right)
        case Junction(_, parts):
            return set().union(*map(parts_of, parts))
    return set()


def names_in(node: Node) -> bool:
    """Returns whether an expression has a name of a symbol file in it."""
    match node:
        case Named():
            return True
        case Chain(first, rest):
            return names_in(first) or any(names_in(it) for _, it in rest)
    return False


def constant(node: Node) -> int | None:
    """Returns the value of an expression that has the same one at each moment; None of any other."""
    match node:
        case Number(value) | Named(value=value):
            return value
        case Chain(first, rest):
            value_or_none = constant(first)
            for sign, operand in rest:
                by = constant(operand)
                value_or_none = None if value_or_none is None or by is None else _operated(sign, value_or_none, by)
            return value_or_none
    return None
