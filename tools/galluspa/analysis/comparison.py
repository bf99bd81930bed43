"""Compares two recordings: their inputs, and what their checkpoints claim, in the order of the parts of a state."""

from collections.abc import Callable, Iterator, Sequence, Set
from dataclasses import dataclass
from itertools import islice, zip_longest

from galluspa.engine.tracing import WordChange, differing
from galluspa.formats import states
from galluspa.formats.recording import DISPLAY_END, DISPLAY_START, PAGE_BYTES, Checkpoint, Event, Recording

# What is shown of a part in each of two recordings: its name, and both values.
Row = tuple[str, ...]
NONE = "none"
# The bytes sent that are shown from the first one on that differs.
BYTES_SHOWN = 8
# How many inputs, and how many page slots of a checkpoint, `--all` shows.
INPUTS_SHOWN, SLOTS_SHOWN = 20, 16
# How many bytes a line of the screen has, and how many dots a word.
LINE_BYTES, DOTS = 128, 32
# What may be compared, and the parts of a state that each has.
PARTS: dict[str, Sequence[str]] = {
    "inputs": (),
    "registers": (*states.REGISTERS, "H", "PC", "flags"),
    "stop": ("stop",),
    "devices": ("timer", "rate", "phase", "switches", "LEDs", "mouse", "serial", "keys", "disk"),
    "out": ("out",),
    "screen": (),
    "memory": (),
}


@dataclass(frozen=True)
class Found:
    """Something that differs, as a row; and of a part of a checkpoint the checkpoint's number, and the part's name or the
    address of a word."""

    row: Row
    checkpoint: int = 0
    part: str | int | None = None


@dataclass(frozen=True)
class _Pair:
    """A checkpoint of each of two recordings, which have the same count, and its number."""

    number: int
    one: Recording
    claim: Checkpoint
    other: Recording
    another: Checkpoint


def found_of(one: Recording, other: Recording, only: Set[str] = PARTS.keys(), is_all: bool = False) -> Iterator[Found]:
    """Yields the first input in which they differ; and the first checkpoint, with the first of its parts. Or all of
    these. Nothing if they differ in nothing of what is compared."""
    if "inputs" in only:
        yield from _inputs(one, other, is_all)
    pages = _SamePages(one, other)
    for at, (a, b) in enumerate(zip_longest(one.checkpoints, other.checkpoints)):
        if a is None or b is None or a.count != b.count:
            yield Found((f"checkpoint {at}", *(f"at {it.count}" if it else NONE for it in (a, b))), at)
            if not is_all:
                return
            continue
        parts = _parts(_Pair(at, one, a, other, b), only, pages, is_all)
        first = next(parts, None)
        if first:
            yield Found((f"checkpoint {at}", *(f"at {it.count}" for it in (a, b))), at)
            yield first
            if not is_all:
                return
            yield from parts


def _inputs(one: Recording, other: Recording, is_all: bool) -> Iterator[Found]:
    pairs = enumerate(zip_longest(one.events, other.events))
    differing_ones = ((at, pair) for at, pair in pairs if pair[0] != pair[1])
    for at, pair in islice(differing_ones, INPUTS_SHOWN if is_all else 1):
        yield Found((f"input {at}", *map(_input, pair)))
    if is_all and (more := sum(1 for _ in differing_ones)):
        yield Found((f"and {more:,} more inputs", "", ""))


def _input(it: Event | None) -> str:
    return f"at {it.count} {states.event(it)}" if it else NONE


class _SamePages:
    """The pages of two recordings by numbers of their contents, so that tables are compared without the pages."""

    def __init__(self, one: Recording, other: Recording) -> None:
        seen: dict[bytes, int] = {}
        self._numbers = [[seen.setdefault(it.page(number), len(seen)) for number in range(it.pages + 1)] for it in (one, other)]

    def differing(self, one: Sequence[int], other: Sequence[int]) -> list[int]:
        """Returns the page slots in which tables of the two recordings name pages of different contents."""
        own, theirs = self._numbers
        return [slot for slot, (a, b) in enumerate(zip(one, other)) if own[a] != theirs[b]]


def _parts(it: _Pair, only: Set[str], pages: _SamePages, is_all: bool) -> Iterator[Found]:
    """Yields the parts in which two checkpoints of the same count differ, of those that are compared."""
    own, theirs = states.values(it.claim), states.values(it.another)
    wanted = {name for group in only for name in PARTS[group]}
    for name, value in own.items():
        if name in wanted and value != theirs[name]:
            texts = (states.value(name, side[name]) for side in (own, theirs))
            yield Found((f"  {name}", *texts), it.number, name)
    if "out" in wanted and it.claim.output != it.another.output:
        yield Found(_output(it.claim.output, it.another.output), it.number, "out")
    if only & {"memory", "screen"}:
        slots = pages.differing(it.claim.table, it.another.table)
        is_whole = not is_all and only >= {"memory", "screen"}
        yield from _memory(it, slots) if is_whole else _separate(it, slots, only)


def _memory(it: _Pair, slots: Sequence[int]) -> Iterator[Found]:
    """Yields the words of memory in which two checkpoints differ first: one of each page slot."""
    for slot in slots:
        word = _first_word(it, slot, lambda _: True)
        if word:
            yield _word(it, slot, word, _is_dots(word.address))


def _separate(it: _Pair, slots: Sequence[int], only: Set[str]) -> Iterator[Found]:
    """Yields the words that differ first outside the display, and those of the display with how many dots differ, and
    where."""
    if "memory" in only:
        found = (_word(it, slot, word) for slot in slots if (word := _first_word(it, slot, lambda at: not _is_dots(at))))
        yield from islice(found, SLOTS_SHOWN)
        if more := sum(1 for _ in found):
            yield Found((f"  and {more:,} more page slots", "", ""), it.number)
    words = [word for slot in slots for word in _words(it, slot) if _is_dots(word.address)] if "screen" in only else []
    if words:
        yield Found((f"  screen, {_dots(words)}", f"{words[0].old:08X}", f"{words[0].new:08X}"), it.number, words[0].address)


def _words(it: _Pair, slot: int) -> Iterator[WordChange]:
    """Yields the words of a page slot that differ, by their addresses in memory."""
    for word in differing(it.one.page(it.claim.table[slot]), it.other.page(it.another.table[slot])):
        yield WordChange(slot * PAGE_BYTES + word.address, word.old, word.new)


def _first_word(it: _Pair, slot: int, is_wanted: Callable[[int], bool]) -> WordChange | None:
    return next((word for word in _words(it, slot) if is_wanted(word.address)), None)


def _is_dots(address: int) -> bool:
    """Returns whether a word has dots of the display."""
    return DISPLAY_START <= address < DISPLAY_END


def _word(it: _Pair, slot: int, word: WordChange, is_of_display: bool = False) -> Found:
    kind = ", of the display" if is_of_display else ""
    return Found((f"  page {slot}, {word.name}{kind}", f"{word.old:08X}", f"{word.new:08X}"), it.number, word.address)


def _dots(words: Sequence[WordChange]) -> str:
    """Returns how many dots differ in words of the display, between which corners, and the first of the words."""
    number, columns, rows = 0, set[int](), set[int]()
    for word in words:
        row, column = divmod(word.address - DISPLAY_START, LINE_BYTES)
        bits = word.old ^ word.new
        number += bits.bit_count()
        columns |= {8 * column + bit for bit in range(DOTS) if bits >> bit & 1}
        rows.add(row)
    dots = f"{number:,} {'dot' if number == 1 else 'dots'}"
    return f"{dots} from {min(columns)},{min(rows)} to {max(columns)},{max(rows)}: {words[0].name}"


def _output(one: bytes, other: bytes) -> Row:
    """Returns from where on what was sent differs."""
    least = min(len(one), len(other))
    at = next((at for at, (sent, told) in enumerate(zip(one, other)) if sent != told), least)
    return f"  out, from byte {at} on", *(_sent(it, at) for it in (one, other))


def _sent(content: bytes, at: int) -> str:
    shown = content[at : at + BYTES_SHOWN]
    dots = " .." * (at + BYTES_SHOWN < len(content))
    return f"{shown.hex(' ').upper()}{dots} of {len(content):,} bytes" if shown else f"none, of {len(content):,} bytes"
