"""Says of a condition on values what the library can search for: comparisons of the PC, of a register or of a word of memory with a
number, of which some have to hold together."""

from collections.abc import Callable, Iterator, Sequence
from dataclasses import dataclass
from itertools import pairwise, product

from galluspa.analysis.expressions import (
    Chain,
    Comparison,
    Junction,
    Moment,
    Node,
    Number,
    Part,
    Word,
    constant,
    holds,
    is_so,
    parts_of,
    signed,
    value_at,
)
from galluspa.analysis.rawconditions import COUNTER, IS, IS_WORD, REGISTER_NUMBERS, Raw
from galluspa.formats.recording import WORD, Checkpoint

# The most alternatives into which a condition is taken apart; each is searched for.
MOST_ALTERNATIVES = 16
LEAST = -(1 << 31)
FLAGS = 16
Alternatives = tuple[tuple[Raw, ...], ...]
MIRRORED = {"<": ">", ">": "<", "<=": ">=", ">=": "<="}


@dataclass(frozen=True)
class Stated:
    """The conditions of the library of which one holds wherever a condition does, each of some that are joined, and whether the
    condition holds wherever one of them does."""

    alternatives: Alternatives
    is_exact: bool


@dataclass(frozen=True)
class _Base:
    """A register, or bits of a word of memory at an address, and what is added to it."""

    name: str
    address: int
    mask: int
    added: int


def stated(node: Node, room: int) -> Stated:
    """Returns the alternatives of a condition that the library can search for, each with at most `room` joined conditions.
    A condition that never holds has none."""
    terms = _terms(node)
    if terms is None:
        return Stated(((),), False)
    found, is_exact = list[tuple[Raw, ...]](), True
    for term in terms:
        wanted = [_leaf(it) for it in term]
        if any(it == () for it in wanted):
            continue
        known = [it for it in wanted if it is not None and it != ((),)]
        is_exact &= len(known) <= room and None not in wanted
        found += [sum(them, ()) for them in product(*known[:room])]
    if len(found) > MOST_ALTERNATIVES:
        return Stated(((),), False)
    return Stated(tuple(dict.fromkeys(found)), is_exact)


def _terms(node: Node) -> list[list[Node]] | None:
    """Returns the alternatives of a condition, each of comparisons that all have to hold; None if they are too many."""
    if not isinstance(node, Junction):
        return [[node]]
    parts = [_terms(it) for it in node.parts]
    known = [it for it in parts if it is not None]
    number = 1
    for it in known:
        number *= len(it)
    if len(known) < len(parts) or (number if node.is_and else sum(map(len, known))) > MOST_ALTERNATIVES:
        return None
    if not node.is_and:
        return [term for it in known for term in it]
    return [[leaf for term in them for leaf in term] for them in product(*known)]


def _leaf(node: Node) -> Alternatives | None:
    """Returns the conditions of the library that are the same as a comparison, each alone: none if it never holds, an empty
    one if it always does. None if the library has no such condition."""
    comparison = node if isinstance(node, Comparison) else Comparison(node, "!=", Number(0))
    left, sign, right = comparison.left, comparison.sign, comparison.right
    names = parts_of(comparison)
    if names == {"flags"}:
        return _of_flags(comparison)
    one, other = constant(left), constant(right)
    if one is not None and other is not None:
        return ((),) if is_so(sign, one, other) else ()
    if one is not None:
        left, sign, other = right, MIRRORED.get(sign, sign), one
    base = _base(left)
    if other is None or base is None:
        return None
    values = _values(sign, signed(other))
    if values is None:
        return ()
    if values[1] - values[0] == WORD:
        return ((),)
    least, most = (it - base.added & WORD for it in values)
    if base.name == "PC":
        return tuple((it,) for it in _counters(least, most))
    if base.name:
        return ((Raw(IS, REGISTER_NUMBERS[base.name], least=least, most=most),),)
    return ((Raw(IS_WORD, base.address, value=base.mask, least=least, most=most),),)


def _values(sign: str, by: int) -> tuple[int, int] | None:
    """Returns the first and the last number of those that a comparison with a number allows; None if it allows none. They may
    go round 2^32: all but one do."""
    least, most = LEAST, LEAST + WORD
    match sign:
        case "==":
            return by, by
        case "!=":
            return by + 1, by + WORD
        case "<":
            most = by - 1
        case "<=":
            most = by
        case ">":
            least = by + 1
        case ">=":
            least = by
    return (least, most) if least <= most else None


def _base(node: Node) -> _Base | None:
    """Returns the register or the word of memory to which an expression adds a number; None of any other expression."""
    match node:
        case Part(name):
            return _Base(name, 0, WORD, 0) if name in REGISTER_NUMBERS and name != "flags" or name == "PC" else None
        case Word(address):
            at = constant(address)
            return None if at is None else _Base("", at & ~3, WORD, 0)
        case Chain(first, rest):
            signs = {sign for sign, _ in rest}
            return _sum(first, rest) if signs <= {"+", "-"} else _masked(first, rest) if signs == {"&"} else None
    return None


def _sum(first: Node, rest: Sequence[tuple[str, Node]]) -> _Base | None:
    """Returns the base of a sum in which all but one operand, which is added, are numbers."""
    base, added = None, 0
    for sign, operand in (("+", first), *rest):
        value = constant(operand)
        if value is not None:
            added += value if sign == "+" else -value
            continue
        found = _base(operand)
        if base or found is None or sign == "-":
            return None
        base = found
    return base and _Base(base.name, base.address, base.mask, base.added + added & WORD)


def _masked(first: Node, rest: Sequence[tuple[str, Node]]) -> _Base | None:
    """Returns the base of a word of memory of which some bits are taken."""
    base, mask = None, WORD
    for operand in (first, *(it for _, it in rest)):
        value = constant(operand)
        if value is not None:
            mask &= value
            continue
        found = _base(operand)
        if base or found is None or found.name or found.added:
            return None
        base = found
    return _Base("", base.address, base.mask & mask, 0) if base and base.mask & mask else None


def _counters(least: int, most: int) -> Iterator[Raw]:
    """Yields the conditions that the byte address of the PC is in a range, which may go round 2^32."""
    for first, last in ((least, most),) if least <= most else ((0, most), (least, WORD)):
        begin, end = -(-first // 4), min(last, (1 << 24) - 1) // 4 + 1
        if begin < end:
            yield Raw(COUNTER, begin, end)


def _of_flags(node: Comparison) -> Alternatives:
    """Returns the conditions of the library that a comparison of nothing but the flags is."""
    values = [it for it in range(FLAGS) if value_at(node, Moment(Checkpoint(0, flags=it), lambda at: 0))]
    if len(values) == FLAGS:
        return ((),)
    breaks = [0, *(at for at, (one, other) in enumerate(pairwise(values), 1) if other != one + 1), len(values)]
    runs = [values[first:end] for first, end in pairwise(breaks) if first < end]
    return tuple((Raw(IS, REGISTER_NUMBERS["flags"], least=it[0], most=it[-1]),) for it in runs)


def tested(node: Node) -> Callable[[Moment], bool]:
    """Returns the test that a condition holds at a moment."""
    return lambda moment: holds(node, moment)
