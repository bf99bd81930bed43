"""Says which dots of the screen a run draws while procedures are called, masks dots that do not count, and compares screens.

A bitmap has the dots of the screen as the program draws them: a bit for each, row by row from the top, without a head.
"""

from bisect import bisect_right
from collections.abc import Iterable, Iterator, Sequence
from dataclasses import dataclass

from galluspa.formats.screens import HEAD, HEIGHT, ROW, WIDTH
from galluspa.analysis.rawconditions import CHANGE, Condition, Raw
from galluspa.analysis.search import array_of
from galluspa.engine.following import NO_CALL, Follower
from galluspa.engine.library import Library
from galluspa.engine.machine import Inputs, Machine
from galluspa.engine.recorded import steps_at
from galluspa.formats.recording import DISPLAY_END, DISPLAY_START, WORD

CHANGES_SCREEN = Condition("the screen changes", (Raw(CHANGE, DISPLAY_START, DISPLAY_END, WORD),))
EMPTY = bytes(ROW * HEIGHT)
# The most changes of the screen that a call of the library returns.
ROOM = 1 << 14
# The bits of a byte from the other side: a word has the dots from its lowest bit on, and a bitmap from the highest of a byte.
REVERSED = bytes(int(f"{byte:08b}"[::-1], 2) for byte in range(256))


class Mask:
    """Dots of the screen that do not count."""

    def __init__(self, bitmap: bytes = EMPTY) -> None:
        self._bitmap = bytearray(bitmap)

    def __bool__(self) -> bool:
        return any(self._bitmap)

    @property
    def bitmap(self) -> bytes:
        """Returns the dots."""
        return bytes(self._bitmap)

    def add(self, x: int, y: int, width: int, height: int) -> None:
        """Adds a rectangle, by the dot at its left and lower corner."""
        bits = (1 << width) - 1 << WIDTH - x - width
        for row in range(HEIGHT - y - height, HEIGHT - y):
            at = ROW * row
            self._bitmap[at : at + ROW] = (int.from_bytes(self._bitmap[at : at + ROW]) | bits).to_bytes(ROW)

    def add_word(self, address: int, bits: int) -> None:
        """Adds dots of a word of the display."""
        at = _place(address)
        for place, byte in enumerate(bits.to_bytes(4, "little"), at):
            self._bitmap[place] |= REVERSED[byte]

    def covers(self, address: int, bits: int) -> bool:
        """Returns whether all these dots of a word of the display are masked."""
        masked = int.from_bytes(self._bitmap[(at := _place(address)) : at + 4].translate(REVERSED), "little")
        return not bits & ~masked


@dataclass(frozen=True)
class Dots:
    """Dots in which two screens differ: how many there are, the box around them, from the left and from below, and the first of
    them from the top."""

    number: int
    left: int
    bottom: int
    right: int
    top: int
    first: tuple[int, int]

    def __str__(self) -> str:
        dots = f"{self.number:,} {'dot' if self.number == 1 else 'dots'}"
        return f"{dots} from {self.left},{self.bottom} to {self.right},{self.top}"


def dots_differing(one: bytes, other: bytes, masks: Sequence[bytes] = ()) -> Dots | None:
    """Returns in which dots two screens differ, but for those in bitmaps of what does not count; None if they differ in none."""
    number, rows, columns, first = 0, list[int](), 0, (0, 0)
    for row in range(HEIGHT):
        at = HEAD + ROW * row
        bits = int.from_bytes(one[at : at + ROW]) ^ int.from_bytes(other[at : at + ROW])
        for mask in masks if bits else ():
            bits &= ~int.from_bytes(mask[at - HEAD : at - HEAD + ROW])
        if bits:
            first = first if rows else (WIDTH - bits.bit_length(), HEIGHT - 1 - row)
            number += bits.bit_count()
            rows.append(HEIGHT - 1 - row)
            columns |= bits
    if not number:
        return None
    left, right = WIDTH - columns.bit_length(), WIDTH - 1 - ((columns & -columns).bit_length() - 1)
    return Dots(number, left, min(rows), right, max(rows), first)


def _place(address: int) -> int:
    """Returns where a bitmap has a word of the display, whose lowest row is the last one of a bitmap."""
    row, byte = divmod(address - DISPLAY_START, ROW)
    return ROW * (HEIGHT - 1 - row) + byte


class OpenCounts:
    """The counts at which a call of one of some procedures is open, as far as a run was followed."""

    def __init__(self, library: Library, start: Machine, procedures: Iterable[int]) -> None:
        """`procedures` are the numbers of their first words."""
        self._follower = Follower(library, Inputs(()), start.copy())
        self._procedures = frozenset(procedures)
        # Those that were called.
        self.called: set[int] = set()
        self._begins: list[int] = []
        self._ends: list[int] = []
        # Which of the open calls is the outermost one of a procedure; None if none is.
        self._outermost: int | None = None

    def follow(self, inputs: Inputs, to: int) -> None:
        """Follows the run up to a count, if that was not done. Inputs may be added that come after what was followed."""
        if not self._procedures:
            return
        self._follower.inputs = inputs
        for turn in self._follower.follow(to):
            if self._outermost is not None and turn.stay <= self._outermost:
                self._ends.append(turn.count)
                self._outermost = None
            if turn.at == NO_CALL or turn.to not in self._procedures:
                continue
            self.called.add(turn.to)
            if self._outermost is None:
                self._begins.append(turn.count)
                self._outermost = turn.stay

    def has(self, count: int) -> bool:
        """Returns whether a call is open at a count: after its branch, up to the one that returns."""
        at = bisect_right(self._begins, count - 1) - 1
        return at >= 0 and (at == len(self._ends) or count <= self._ends[at])


def screen_changes(library: Library, machine: Machine, inputs: Inputs, to: int) -> Iterator[int]:
    """Yields the counts up to another one at which an instruction changes the screen. The machine advances."""
    conditions = array_of(CHANGES_SCREEN.raws)
    while machine.count < to and not machine.state.stop:
        yield from (it.count for it in library.hits(machine, inputs, to, conditions, ROOM))


class Drawn:
    """The dots that a run changed while a call of one of some procedures was open, as far as it was followed."""

    def __init__(self, library: Library, start: Machine, procedures: Iterable[int]) -> None:
        self._library = library
        self._machine = start.copy()
        self.open = OpenCounts(library, start, procedures)
        self._mask = Mask()

    def up_to(self, inputs: Inputs, to: int) -> Mask:
        """Returns these dots up to a count."""
        first = self._machine.copy()
        self.open.follow(inputs, to)
        counts: Sequence[int] = [it for it in screen_changes(self._library, self._machine, inputs, to) if self.open.has(it)]
        for raw in steps_at(self._library, first, inputs, counts):
            if raw.change:
                address, old, new = raw.change
                self._mask.add_word(address, old ^ new)
        return Mask(self._mask.bitmap)
