"""Where a value comes from: the instruction that wrote it, the values from which that made it, who wrote these, and so on.

The tree of these links is worked out from the last writes of parts, for which an object is asked; it follows values, and not the
branches that led to an instruction. What is followed first are copies, and then the operands of what computes.
"""

from collections.abc import Callable, Iterator, Sequence
from dataclasses import dataclass, field
from heapq import heappop, heappush
from typing import Protocol, TypeVar

from galluspa.formats.devicewords import DEVICES_AT, KEY_WAITS, LOADED
from galluspa.engine.tracing import Step
from galluspa.formats.instructions import WITH_CARRY, address, is_branch, is_store, operands_of
from galluspa.formats.recording import DISPLAY_END, DISPLAY_START, FLAGS, MEMORY_BYTES, WORD, Checkpoint, Event

# A base register of loads and stores that is not followed: it says where a frame is.
STACK_POINTER = "R14"
ALL_BYTES, BYTE = 15, 0xFF
MOVE = 0
ALL_FLAGS = "".join(FLAGS)
# The screen before is followed as late as a value that is this many computations away.
SCREEN_COST = 3
ADDRESS, CARRY = "address", "carry"


@dataclass(frozen=True)
class Register:
    """R0 to R15, or H."""

    name: str


@dataclass(frozen=True)
class Flags:
    """Some of the flags, by their letters: NZCV, CV or C. Each write of a register writes N and Z; C and V, only a sum or a
    difference."""

    names: str


@dataclass(frozen=True)
class Bytes:
    """Some of the four bytes of a word, of memory or the LEDs: bit i of the mask is byte i."""

    address: int
    mask: int = ALL_BYTES


@dataclass(frozen=True)
class Dot:
    """A bit of a word of the screen, by its column and row."""

    address: int
    bit: int
    column: int
    row: int


@dataclass(frozen=True)
class Device:
    """A part of a state that inputs set: its name there."""

    name: str


Written = Register | Flags | Bytes | Dot
Part = Written | Device


@dataclass(frozen=True)
class Constant:
    """A number of an instruction."""


@dataclass(frozen=True)
class Initial:
    """The first state or memory of the recording: nothing wrote the part since."""


@dataclass(frozen=True)
class Taken:
    """What inputs or the timer give: the last input that set it; None if it is there from the beginning, or counts instructions."""

    device: str
    event: Event | None


@dataclass(frozen=True)
class Elsewhere:
    """The same write is followed elsewhere in the tree."""


@dataclass(frozen=True)
class Unfollowed:
    """The tree has as many links as it may."""


P = TypeVar("P", Bytes, Flags)
End = Constant | Initial | Taken | Elsewhere | Unfollowed


@dataclass
class Value:
    """A value that a part has before the instruction of a count, and where it comes from: the instruction that wrote it and the
    values that this used, or where the search ends. `role` says what it is to the instruction that uses it, if that is not plain.
    A value of a stack slot has outlived its call if R14 was above the slot since: then it is free memory.
    """

    part: Part | None
    value: int
    count: int
    role: str = ""
    step: Step | None = None
    end: End | None = None
    sources: list["Value"] = field(default_factory=list)
    has_outlived_call: bool = False


class Writes(Protocol):
    """Says who wrote a part last."""

    def last_write(self, part: Written, before: int) -> Step | None:
        """Returns the last instruction before a count that wrote a part; of a dot, that changed it. None if none did."""

    def input_of(self, device: str, step: Step) -> Event | None:
        """Returns the input that set a device last, up to the instruction, or of keys the one whose key comes first; None if
        it is as at the beginning."""

    def was_stack_above(self, address: int, first: int, last: int) -> bool:
        """Returns whether R14 was above an address at one of the counts from `first` to `last`."""


def origins(writes: Writes, part: Written, value: int, count: int, most: int, has_addresses: bool = True) -> list[Value]:
    """Returns where a part's value before a count comes from, by at most `most` links, not counting those to instructions that
    write a constant. A word that several stores wrote has several values. `has_addresses` says whether the addresses of loads and
    stores are followed, too."""
    roots = [Value(part, value, count)]
    # What is to be followed: at what cost, then what was found last first, and of that the first first.
    heap: list[tuple[int, int, int, Value, list[Value]]] = [(0, 0, 0, roots[0], roots)]
    number, links, seen = 0, 0, set[tuple[Part, int]]()
    while heap:
        cost, _, _, it, home = heappop(heap)
        number += 1
        if links >= most:
            it.end = Unfollowed()
            continue
        assert isinstance(it.part, Register | Flags | Bytes | Dot)
        step = writes.last_write(it.part, it.count)
        if step is None:
            it.end = Initial()
            continue
        it.step = step
        more = _split(it, step, home)
        slot = _slot_of(it.part, step)
        it.has_outlived_call = slot is not None and writes.was_stack_above(slot, step.before.count + 1, it.count)
        if (it.part, step.before.count) in seen:
            it.end = Elsewhere()
        else:
            seen.add((it.part, step.before.count))
            it.sources = [source for source in _sources(step, it.part, writes) if has_addresses or source.role != ADDRESS]
            links += bool(it.sources)
            if not it.sources:
                it.end = Constant()
        for at, source in enumerate(more):
            heappush(heap, (cost, -number, at, source, home))
        for at, source in enumerate(it.sources, 1):
            if source.end is None:
                heappush(heap, (cost + _cost(step, source), -number, at, source, it.sources))
    return roots


def _cost(step: Step, source: Value) -> int:
    """Returns by how much later a source is followed than what uses it: copies are followed at once, and last what was on the
    screen before, since most of a word there is of other dots."""
    word = step.word or 0
    is_copy = word >> 30 == 2 or word >> 31 == 0 and word >> 16 & 15 == MOVE
    is_screen = isinstance(source.part, Bytes) and DISPLAY_START <= source.part.address < DISPLAY_END
    return (not is_copy) + bool(source.role) + SCREEN_COST * is_screen


def _slot_of(part: Part, step: Step) -> int | None:
    """Returns the address of the stack slot to which an instruction stores a part; None if it stores elsewhere."""
    is_slot = isinstance(part, Bytes) and part.address < MEMORY_BYTES and f"R{(step.word or 0) >> 20 & 15}" == STACK_POINTER
    return step.stored_at if is_slot else None


def _split(it: Value, step: Step, home: list[Value]) -> list[Value]:
    """Restricts a value to the bytes or flags that an instruction wrote, and returns another one for the rest, if there
    is one."""
    if isinstance(it.part, Flags) and len(it.part.names) == len(ALL_FLAGS) and not is_sum(step.word):
        return [_set_apart(it, home, Flags("NZ"), Flags("CV"), step.before.count, flags_of)]
    if not isinstance(it.part, Bytes) or it.part.address >= DEVICES_AT:
        return []
    written = it.part.mask & written_bytes(step)
    rest = it.part.mask & ~written
    if not rest:
        return []
    at = it.part.address
    return [_set_apart(it, home, Bytes(at, written), Bytes(at, rest), step.before.count, bytes_of)]


def _set_apart(it: Value, home: list[Value], one: P, other: P, count: int, bits_of: Callable[[int, P], int]) -> Value:
    """Restricts a value to one part, and returns that of the other, which comes after it."""
    more = Value(other, bits_of(it.value, other), count, it.role)
    it.part, it.value = one, bits_of(it.value, one)
    home.insert(next(at for at, value in enumerate(home) if value is it) + 1, more)
    return more


def is_sum(word: int | None) -> bool:
    """Returns whether a word is an addition or a subtraction, which write C and V."""
    return word is not None and word >> 31 == 0 and word >> 16 & 15 in WITH_CARRY


def flags_of(flags: int, part: Flags) -> int:
    """Returns flags of which only some are left."""
    return flags & sum(8 >> ALL_FLAGS.index(name) for name in part.names)


def bytes_of(value: int, part: Bytes) -> int:
    """Returns a word in which only some bytes are left, each where it is."""
    return value & sum(BYTE << 8 * at for at in range(4) if part.mask >> at & 1)


def written_bytes(step: Step) -> int:
    """Returns which bytes of its word a store writes, as a mask."""
    at = address(step.word or 0, step.before.registers) or 0
    return 1 << (at & 3) if _is_byte(step) else ALL_BYTES


def _is_byte(step: Step) -> bool:
    return bool((step.word or 0) >> 28 & 1)


def _sources(step: Step, part: Part, writes: Writes) -> Iterator[Value]:
    """Yields the values from which an instruction makes what it writes: none of one that writes a constant."""
    word, before = step.word or 0, step.before
    if is_branch(word):
        return
    if word >> 30 == 2:
        base, register = f"R{word >> 20 & 15}", f"R{word >> 24 & 15}"
        if is_store(word):
            yield _value_before(register, step)
        else:
            yield from _loaded(step, writes)
        if base != STACK_POINTER:
            yield _value_before(base, step, ADDRESS)
        return
    for name in operands_of(word):
        if name == "flags":
            used = Flags("C") if is_sum(word) else Flags(ALL_FLAGS)
            yield Value(used, flags_of(before.flags, used), before.count, CARRY if is_sum(word) else "")
        else:
            yield _value_before(name, step)
    if word >> 16 & 15 != MOVE and word >> 30 & 1:
        number = (word & 0xFFFF) - (0x10000 if word >> 28 & 1 else 0)
        yield Value(None, number & WORD, before.count, end=Constant())


def _value_before(name: str, step: Step, role: str = "") -> Value:
    """Returns the value of a register before an instruction."""
    return Value(Register(name), register_of(step.before, name), step.before.count, role)


def register_of(state: Checkpoint, name: str) -> int:
    """Returns the value of a register, or of H, in a state."""
    return state.h if name == "H" else state.registers[int(name[1:])]


def _loaded(step: Step, writes: Writes) -> Iterator[Value]:
    """Yields the value that a load loads. That of the mouse word has two parts if a key waits: the bit that says so is of the
    keys."""
    word, count = step.word or 0, step.before.count
    at, value = address(word, step.before.registers) or 0, step.after.registers[word >> 24 & 15]
    shift = 8 * (at & 3) if _is_byte(step) else 0
    if at < MEMORY_BYTES:
        yield Value(Bytes(at & ~3, 1 << (at & 3) if _is_byte(step) else ALL_BYTES), value << shift, count)
        return
    name = LOADED.get(at & ~3, "") if at >= DEVICES_AT else ""
    if not name:
        yield Value(None, value, count, end=Constant())
        return
    waits = value & KEY_WAITS >> shift if name == "mouse" else 0
    for device, part in [(name, value - waits), ("keys", waits)][: 1 + bool(waits)]:
        yield Value(Device(device), part, count, end=Taken(device, writes.input_of(device, step)))


def links_in(values: Sequence[Value]) -> Iterator[Value]:
    """Yields the values of a tree that an instruction made of others."""
    for it in values:
        if it.sources:
            yield it
        yield from links_in(it.sources)
