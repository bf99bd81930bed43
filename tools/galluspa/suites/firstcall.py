"""Finds where two runs differ first: in what a user sees, and in a call by its arguments, by what it leaves in registers, or by
the next call.

Two versions of a program take different numbers of instructions, so their runs are not compared count by count. What a user sees
comes in the same order up to the first difference, and there the calls that are open in both runs are compared by their names,
from the outermost one inward, and then the calls that were made within the last one that is the same.
"""

from collections.abc import Iterator, Sequence
from dataclasses import dataclass
from itertools import islice, zip_longest

from galluspa.analysis.inspection import named
from galluspa.analysis.rawconditions import CHANGE, SENDS, Condition, Raw
from galluspa.analysis.search import Search
from galluspa.engine.following import NO_CALL, Follower
from galluspa.engine.library import ignore
from galluspa.engine.recorded import PC
from galluspa.engine.past import Past
from galluspa.formats.instructions import operands_of, writes
from galluspa.formats.recording import DISPLAY_END, DISPLAY_START, MEMORY_BYTES, WORD
from galluspa.formats.sessions import COUNTS
from galluspa.formats.states import REGISTERS
from galluspa.formats.symbols import Symbols

SEEN = Condition("what a user sees", (Raw(CHANGE, DISPLAY_START, DISPLAY_END, WORD), Raw(SENDS)))
# Registers that may have arguments: not the base of a module, R14 and R15.
ARGUMENTS = tuple(REGISTERS[:13])
FLAGS, STACK_POINTER = 18, 14
# The number of instructions of a procedure, and after its return, in which registers are sought that are read before written.
LOOKED, LOOKED_AFTER = 400, 20
# The most calls within one that are compared, and how deep.
MOST_CALLS, DEEPEST = 300, 50


@dataclass(frozen=True)
class Made:
    """A call: the count of its branch, that of the branch that returned, or up to which it was followed, the word after the first,
    the procedure's name, and how many calls were open before it."""

    count: int
    end: int
    back: int
    name: str
    depth: int
    has_returned: bool


class Side:
    """The run of a version, up to the count at which it differs first, and its names."""

    def __init__(self, run: Past, symbols: Symbols, stack_limit: int) -> None:
        self.run = run
        self._symbols = symbols
        self._stack_limit = stack_limit
        self.count = run.counts[-1]
        self.start = 0
        self.calls: Sequence[Made] = ()
        self.open: Sequence[Made] = ()

    def seen(self) -> Iterator[tuple[object, int]]:
        """Yields what a user sees, in its order, with the counts."""
        for hit in Search(self.run, [SEEN], 0, self.run.counts[-1], tell=ignore).all(COUNTS):
            yield (hit.raw.change and (hit.raw.change[0], hit.raw.change[2]), hit.raw.sent), hit.count

    def follow(self) -> None:
        """Follows the calls up to the count, and keeps those since the last input, and those that are open there."""
        open_ones, made = list[Made](), list[Made]()
        for turn in Follower(self.run.library, self.run.inputs, self.run.machine(0), self._stack_limit).follow(self.count):
            made += [Made(*_ended(it, turn.count), True) for it in open_ones[turn.stay :] if turn.count >= self.start]
            del open_ones[turn.stay :]
            if turn.at != NO_CALL:
                name = self._symbols.text(4 * turn.to) or f"PC {turn.to}"
                open_ones.append(Made(turn.count, self.count, turn.back, name, turn.stay, False))
        self.calls = sorted([*made, *open_ones], key=lambda it: it.count)
        self.open = open_ones

    def within(self, call: Made | None) -> Sequence[Made]:
        """Returns the calls that a call made itself since the last input; without one, those that no call made."""
        depth, first, end = (0, 0, self.count + 1) if call is None else (call.depth + 1, call.count + 1, call.end)
        inside = (it for it in self.calls if it.depth == depth and max(first, self.start) <= it.count <= end)
        return list(islice(inside, MOST_CALLS))

    def reads(self, call: Made) -> set[str]:
        """Returns the registers that a procedure reads before it writes them."""
        return self._reads(call.count + 1, LOOKED, call.back)

    def reads_after(self, call: Made) -> set[str]:
        """Returns the registers that are read after a call before they are written."""
        return self._reads(call.end + 1, LOOKED_AFTER, None)

    def values(self, count: int, names: set[str]) -> dict[str, str]:
        """Returns the values of registers at a count."""
        registers = self.run.machine(count).seen().registers
        pairs = ((name, registers[at]) for at, name in enumerate(ARGUMENTS) if name in names)
        return {name: self._value(value, registers[STACK_POINTER]) for name, value in pairs}

    def _reads(self, count: int, most: int, back: int | None) -> set[str]:
        """Returns the registers that are read in some instructions, up to a word, before they are written."""
        found, written = set[str](), set[str]()
        for raw in self.run.raw_steps(self.run.machine(count), count + most):
            if raw.word is None or raw.before[PC] == back:
                break
            found |= set(operands_of(raw.word)) - written
            written |= writes(raw.word, raw.before[FLAGS])
        return found

    def _value(self, value: int, stack: int) -> str:
        """Returns a value as it is compared: an address of data by its name, and one of the stack by how far above R14 it is."""
        if name := named(value, self._symbols):
            return name
        return f"SP + {value - stack}" if 0x100 <= stack <= value < MEMORY_BYTES else f"{value:X}H"


def _ended(it: Made, end: int) -> tuple[int, int, int, str, int]:
    return it.count, end, it.back, it.name, it.depth


def first_difference(now: Side, before: Side) -> Iterator[str]:
    """Yields where two runs differ first, in lines: what a user sees, and the call. Nothing if a user sees the same."""
    seen = zip_longest(now.seen(), before.seen())
    found = next(((a, b) for a, b in seen if a is None or b is None or a[0] != b[0]), None)
    if found is None:
        return
    versions = (now, before)
    for version, at in zip(versions, found):
        version.count = at[1] if at else version.run.counts[-1]
    # Inputs are in the same order in both.
    taken = min(sum(it.count <= version.count for it in version.run.read.events) for version in versions)
    for version in versions:
        version.start = version.run.read.events[taken - 1].count if taken else 0
        version.follow()
    yield f"what is seen differs first at {now.count:,} now, and at {before.count:,} before"
    same, told = _outermost(now, before)
    for _ in range(DEEPEST):
        inner = _within(now, before, same)
        if inner is None:
            break
        same, told = inner
        if same is None:
            break
    if told:
        yield f"the first call that differs: {told}"


Pair = tuple[Made, Made]
Registers = dict[str, str]


def _arguments(now: Side, before: Side, pair: Pair) -> tuple[Registers, Registers]:
    """Returns the values of the registers that a procedure reads in one of two runs before it writes them."""
    names = now.reads(pair[0]) | before.reads(pair[1])
    return now.values(pair[0].count, names), before.values(pair[1].count, names)


def _outermost(now: Side, before: Side) -> tuple[Pair | None, str]:
    """Returns the innermost of the open calls that have the same names and arguments in both runs, and what is said of it."""
    same: Pair | None = None
    told = ""
    for pair in zip(now.open, before.open):
        arguments = _arguments(now, before, pair)
        if pair[0].name != pair[1].name or arguments[0] != arguments[1]:
            break
        same, told = pair, f"{_call(pair[0], arguments[0])} is the same, and draws or sends otherwise: {_counts(pair)}"
    return same, told


def _within(now: Side, before: Side, pair: Pair | None) -> tuple[Pair | None, str] | None:
    """Returns the first call within a pair of calls that differs, to be looked into if its arguments are the same, and what is said
    of it; None if none differs."""
    calls = zip_longest(*(it.within(call) for it, call in zip((now, before), pair or (None, None))))
    for one, other in calls:
        if one is None or other is None:
            return None
        mine, theirs = _arguments(now, before, (one, other))
        if one.name != other.name or mine != theirs:
            return None, f"{_call(one, mine)} at {one.count:,} now, and {_call(other, theirs)} at {other.count:,} before"
        if effect := _effect(now, before, (one, other)):
            return (one, other), f"{_call(one, mine)} {effect}: {_counts((one, other))}"
    return None


def _effect(now: Side, before: Side, pair: Pair) -> str:
    """Returns in which effect two calls with the same arguments differ; nothing if they do in none that is compared."""
    one, other = pair
    if one.has_returned != other.has_returned:
        return "has returned now, and not before" if one.has_returned else "has returned before, and not now"
    if not one.has_returned:
        return ""
    names = now.reads_after(one) & before.reads_after(other)
    left = now.values(one.end + 1, names), before.values(other.end + 1, names)
    name = next((it for it in left[0] if left[0][it] != left[1][it]), "")
    return f"leaves {name} = {left[0][name]} now, and {left[1][name]} before" if name else ""


def _call(call: Made, arguments: Registers) -> str:
    return f"{call.name}({', '.join(f'{name} = {value}' for name, value in arguments.items())})"


def _counts(pair: Pair) -> str:
    return f"called at {pair[0].count:,} now, and at {pair[1].count:,} before"
