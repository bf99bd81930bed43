"""Reads the traces that other emulators print: a line with the names of columns, and then a line for each state.

A trace may come from a program that still runs. So each line is read when it is there, and nothing is read twice.
"""

import re
from collections.abc import Callable, Iterable, Iterator, Sequence
from dataclasses import dataclass
from operator import itemgetter
from typing import NamedTuple

from galluspa.formats.recording import FLAGS, WORD
from galluspa.formats.sessions import COUNTS
from galluspa.formats.states import REGISTERS, Processor
from galluspa.process.cli import Refused
from galluspa.process.escapes import printable

LONGEST_LINE = 4096
# How many texts of numbers are kept with their values: most lines repeat those of the line before.
KEPT = 1 << 16
COUNT, ADDRESS = "count", "address"
COUNT_TEXT = re.compile("0[xX][0-9A-Fa-f]+|[0-9]+")
# The columns that are compared, and where a processor has them. The flags may also be a column each.
PLACES = {name: at for at, name in enumerate((*REGISTERS, "H", "PC", "flags"))}
BITS = {letter: 8 >> at for at, letter in enumerate(FLAGS)}
NAMES = (COUNT, *PLACES, ADDRESS, *BITS)
# Other names of columns, in small letters.
SYNONYMS = {**{name.lower(): name for name in NAMES}, "sp": "R14", "lnk": "R15"}
SHOWN = 40


class Wrong(Refused):
    """A line of a trace that cannot be read."""


class Numbers(dict[str, int]):
    """What texts of a column mean: numbers in a base, or with 0x, $ or a digit above 9 hexadecimal."""

    def __init__(self, base: int, most: int = WORD) -> None:
        super().__init__()
        self._base, self._most = base, most

    def __missing__(self, text: str) -> int:
        value = self._value(text)
        if not 0 <= value <= self._most:
            raise ValueError(f"is not a number from 0 to {self._most:,}")
        if len(self) >= KEPT:
            self.clear()
        self[text] = value
        return value

    def _value(self, text: str) -> int:
        """Returns the number that a text writes. Raises ValueError if it writes none."""
        digits = text.lower()
        bare = digits.removeprefix("0x").removeprefix("$")
        if bare.endswith("h"):
            bare = bare[:-1]
        if not bare.isascii() or not bare.isalnum() or len(bare) > 20:
            raise ValueError("is not a number")
        is_hexadecimal = bare != digits or not bare.isdigit()
        try:
            return int(bare, 16 if is_hexadecimal else self._base)
        except ValueError:
            raise ValueError("is not a number") from None


class Flags(Numbers):
    """Reads a column of flags, which may also be the letters of those that are set, as in N-C- or NC. In a
    hexadecimal column C alone is the number 12."""

    def __init__(self, base: int) -> None:
        super().__init__(base, 15)

    def _value(self, text: str) -> int:
        letters = text.upper().replace("-", "")
        is_number = text.upper() == "C" and self._base == 16
        if text and not is_number and set(letters) <= set(FLAGS) and len(set(letters)) == len(letters):
            return sum(BITS[letter] for letter in letters)
        return super()._value(text)


class Row(NamedTuple):
    """A line of a trace: its number in the file, the count that it is of, and the numbers of the columns that are
    compared."""

    number: int
    at: int
    values: tuple[int, ...]


class Header:
    """The columns of a trace: their names in their order, of which those that are not known are not compared."""

    def __init__(self, line: str) -> None:
        """The columns that a line names, with commas or blanks between them."""
        self._separator = "," if "," in line else None
        self.columns = [SYNONYMS.get(cell.lower(), "") for cell in self.cells(line)]
        self.unknown = [cell for cell, name in zip(self.cells(line), self.columns, strict=True) if not name]
        known = [name for name in self.columns if name]
        twice = next((name for name in known if known.count(name) > 1), None)
        if twice:
            raise ValueError(f"two columns are {twice}")
        self.compared = [name for name in known if name != COUNT]
        if not self.compared:
            raise ValueError(f"no column is one of {', '.join(NAMES)}")

    def cells(self, line: str) -> list[str]:
        """Returns the cells of a line."""
        cells = line.split(self._separator)
        return [cell.strip() for cell in cells] if self._separator and (" " in line or "\t" in line) else cells

    def expected(self) -> Callable[[Processor], tuple[int, ...]]:
        """Returns the function that takes from a processor what the columns should be."""
        if all(name in PLACES for name in self.compared) and len(self.compared) > 1:
            return itemgetter(*(PLACES[name] for name in self.compared))
        parts = [_part(name) for name in self.compared]
        return lambda processor: tuple(part(processor) for part in parts)


def _part(name: str) -> Callable[[Processor], int]:
    """Returns the function that takes from a processor what a column should be."""
    if name in BITS:
        bit = BITS[name]
        return lambda processor: int(processor[PLACES["flags"]] & bit > 0)
    if name == ADDRESS:
        return lambda processor: 4 * processor[PLACES["PC"]]
    return itemgetter(PLACES[name])


@dataclass(frozen=True)
class Form:
    """How a trace is read: the name to say in messages, whether all its numbers but counts are hexadecimal, and the count
    of its first line, if it has no column of them."""

    name: str
    is_hexadecimal: bool = False
    first: int = 0


class TraceFile:
    """A trace that is read line by line."""

    def __init__(self, lines: Iterable[bytes], form: Form) -> None:
        """The lines of a trace, none of them longer than a byte more than LONGEST_LINE; the header is read at once."""
        self._form = form
        self._lines = enumerate(lines, 1)
        self._last = form.first - 1
        number, line = self._next_line() or self._none()
        try:
            self.header = Header(line)
        except ValueError as wrong:
            raise self._wrong(number, str(wrong)) from wrong
        columns = self.header.columns
        self._places = [at for at, name in enumerate(columns) if name and name != COUNT]
        self._count = columns.index(COUNT) if COUNT in columns else None
        # How each column that is compared is read, and the cells and the numbers of the line before.
        self._readers: list[Numbers] = []
        self._cells: list[str] = []
        self._values: list[int] = []

    def rows(self) -> Iterator[Row]:
        """Yields the lines after the header. Raises Wrong at the first that cannot be read."""
        columns, cells_of = len(self.header.columns), self.header.cells
        places = list(enumerate(self._places))
        while line := self._next_line():
            number, text = line
            cells = cells_of(text)
            if len(cells) != columns:
                raise self._wrong(number, f"{len(cells)} cells, and the header has {columns}")
            if not self._readers:
                self._begin(cells)
            before = self._cells
            self._read(number, cells, [place for place, at in places if cells[at] != before[at]])
            if self._count is None or cells[self._count] == str(self._last + 1):
                self._last += 1
            else:
                self._last = self._counted(number, cells[self._count])
            yield Row(number, self._last, tuple(self._values))

    def _begin(self, cells: Sequence[str]) -> None:
        """Decides by the first line how each column is read: if all registers have eight digits, they and the program counter
        are hexadecimal."""
        named = dict(zip(self.header.columns, cells, strict=True))
        registers = [cell for name, cell in named.items() if name in REGISTERS]
        is_hexadecimal = self._form.is_hexadecimal or bool(registers) and all(len(it) == 8 for it in registers)
        base = 16 if is_hexadecimal else 10
        self._readers = [Flags(base) if name == "flags" else Numbers(base) for name in self.header.compared]
        self._cells, self._values = ["\n"] * len(cells), [0] * len(self._readers)

    def _read(self, number: int, cells: list[str], places: Sequence[int]) -> None:
        """Reads the cells of a line that differ from those of the line before."""
        for place in places:
            text = cells[self._places[place]]
            try:
                self._values[place] = self._readers[place][text]
            except ValueError as wrong:
                raise self._wrong(number, f"{self.header.compared[place]}: {_quoted(text)} {wrong}") from wrong
        self._cells = cells

    def _counted(self, number: int, text: str) -> int:
        """Returns the count that a line has, which is above that of the line before."""
        count = int(text, 16 if text[:2].lower() == "0x" else 10) if COUNT_TEXT.fullmatch(text) and len(text) <= 20 else -1
        if not 0 <= count <= COUNTS:
            raise self._wrong(number, f"count: {_quoted(text)} is not a number from 0 to {COUNTS:,}")
        if count <= self._last:
            raise self._wrong(number, f"count {count} is not above that of the line before, {self._last}")
        return count

    def _next_line(self) -> tuple[int, str] | None:
        """Returns the next line that is neither empty nor a comment, with its number; None after the last one."""
        for number, line in self._lines:
            if len(line) > LONGEST_LINE:
                raise self._wrong(number, f"longer than {LONGEST_LINE:,} bytes")
            text = line.decode("utf-8-sig" if number == 1 else "utf-8", "surrogateescape").strip()
            if text and not text.startswith("#"):
                return number, text
        return None

    def _none(self) -> tuple[int, str]:
        """Refuses an empty trace."""
        raise Wrong(f"{self._form.name}: no line: a trace begins with the names of its columns, such as count,PC,R0,R1")

    def _wrong(self, number: int, why: str) -> Wrong:
        return Wrong(f"{self._form.name}:{number}: {why}")


def _quoted(text: str) -> str:
    """Returns a text as a message shows it."""
    return f"'{printable(text[:SHOWN])}{'..' if len(text) > SHOWN else ''}'"
