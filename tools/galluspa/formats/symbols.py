"""The names and source lines of addresses, as a symbol file gives them (docs/symbols.md): looked up by address and by name.

Names are claims of whoever made the file. They are shown beside numbers, and nothing is decided by them.
"""

import re
import unicodedata
from bisect import bisect_left, bisect_right
from collections.abc import Iterable, Iterator, Sequence
from functools import cached_property
from itertools import accumulate
from typing import NamedTuple

from galluspa.formats.alike import alike_of
from galluspa.formats.recording import MEMORY_BYTES
from galluspa.process.escapes import printable

# How many bytes a name without a size reaches at most.
REACH = 1 << 16
WORDS = 1 << 32
# How many characters of a name or of a file's name are shown, and how many names of one address.
SHOWN, TOGETHER = 60, 2
CODE, DATA, CONSTANT, LINE = "t", "d", "a", "l"
# What each letter of a type means: those of this format, and what else nm writes for the same.
KINDS = {**dict.fromkeys("tT", CODE), **dict.fromkeys("dDbBrR", DATA), **dict.fromkeys("aA", CONSTANT), LINE: LINE}
# The kinds of characters that are written from right to left.
FROM_THE_RIGHT = ("R", "AL", "AN")
# A name's or a line's parts, as they are written.
Row = tuple[str, ...]


class Symbol(NamedTuple):
    """A name of an address or a constant: how many bytes it has, or 0 if that is not known, its kind, and the line of
    the source that defines it, if that is known."""

    address: int
    size: int
    kind: str
    name: str
    file: str = ""
    line: int = 0

    @staticmethod
    def of(row: Row) -> "Symbol":
        """The symbol that a line of a file says."""
        address, size, letter, name, file, line = row[:6]
        return Symbol(int(address, 16), int(size or "0", 16), KINDS[letter], name, file, int(line or "0"))


class Source(NamedTuple):
    """A line of a source, of which the first instruction is at an address."""

    address: int
    file: str
    line: int

    @property
    def text(self) -> str:
        """How the line is shown."""
        name = from_the_left(self.file)
        return f"{name if len(name) <= SHOWN else f'..{name[-SHOWN:]}'}:{self.line}"


class Symbols:
    """The names of a program and the lines of its source, which are looked up by address and by name.

    What is looked up is worked out when it is needed: a file of many names costs little if few are shown.
    """

    def __init__(
        self,
        names: Sequence[tuple[int, Row]] = (),
        constants: Sequence[tuple[int, Row]] = (),
        lines: Sequence[tuple[int, Row]] = (),
    ) -> None:
        """Names of code and data, constants, and lines of sources, each with its address, and as it is written."""
        # The name of the file, as it is shown, its bytes, and whether it was said that they do not fit.
        self.origin = ""
        self.content = b""
        self.is_told = False
        self._placed = sorted(names)
        self._constants = constants
        self._lines = sorted((address, row[7], int(row[8])) for address, row in lines)
        self._line_addresses = [it[0] for it in self._lines]
        self._texts: dict[int, str] = {}
        self._ends: dict[int, int] = {}

    def __bool__(self) -> bool:
        return bool(self._placed or self._constants or self._lines)

    def __len__(self) -> int:
        return len(self._placed) + len(self._constants)

    @property
    def has_lines(self) -> bool:
        """Whether there are lines of sources."""
        return bool(self._lines) or any(row[5] for _, row in self._placed)

    @cached_property
    def _groups(self) -> tuple[Sequence[int], Sequence[int]]:
        """The addresses that have names, and where the names of each begin among all."""
        addresses = [address for address, _ in self._placed]
        firsts = dict(zip(reversed(addresses), range(len(addresses) - 1, -1, -1)))
        if len(firsts) == len(addresses):
            return addresses, range(len(addresses))
        starts = sorted(firsts)
        return starts, [firsts[it] for it in starts]

    def _of_group(self, group: int) -> Sequence[tuple[int, Row]]:
        """The names of an address."""
        _, firsts = self._groups
        return self._placed[firsts[group] : firsts[group + 1] if group + 1 < len(firsts) else None]

    def _end(self, group: int) -> int:
        """Up to where the names of an address reach."""
        if group not in self._ends:
            starts, _ = self._groups
            start, following = starts[group], starts[group + 1] if group + 1 < len(starts) else WORDS
            size = max(int(row[1] or "0", 16) for _, row in self._of_group(group))
            self._ends[group] = start + size if size else min(following, start + REACH)
        return self._ends[group]

    @cached_property
    def _all_ends(self) -> list[int]:
        """Up to where the names of each address reach."""
        starts, firsts = self._groups
        if len(starts) < len(self._placed):
            return list(map(self._end, range(len(starts))))
        following = [*starts[1:], WORDS]
        return [
            start + int(row[1], 16) if row[1].strip("0") else min(after, start + REACH)
            for (start, row), after in zip(self._placed, following)
        ]

    @cached_property
    def _is_nested(self) -> bool:
        """Whether names reach beyond the next address that has names."""
        return any(end > after for end, after in zip(self._all_ends, self._groups[0][1:]))

    @cached_property
    def _furthest(self) -> list[int]:
        """How far the names of each address and of those before it reach."""
        return list(accumulate(self._all_ends, max))

    @cached_property
    def _stretches(self) -> tuple[list[int], list[int]]:
        """Where stretches of memory begin, and which group of names each has: the last one that begins there or before
        it and reaches as far; -1 if none does."""
        bounds, owners, open_ones = list[int](), list[int](), list[tuple[int, int]]()

        def begin(at: int, owner: int) -> None:
            if bounds and bounds[-1] == at:
                owners[-1] = owner
            else:
                bounds.append(at)
                owners.append(owner)

        def close(to: int) -> None:
            while open_ones and open_ones[-1][0] <= to:
                end, _ = open_ones.pop()
                while open_ones and open_ones[-1][0] <= end:
                    open_ones.pop()
                begin(end, open_ones[-1][1] if open_ones else -1)

        for at, start in enumerate(self._groups[0]):
            close(start)
            begin(start, at)
            open_ones.append((self._end(at), at))
        close(2 * WORDS)
        return bounds, owners

    @cached_property
    def _by_name(self) -> dict[str, list[int]]:
        found: dict[str, list[int]] = {}
        for address, row in (*self._placed, *self._constants):
            found.setdefault(row[3], []).append(address)
        return found

    @cached_property
    def _values(self) -> dict[int, list[str]]:
        """The names that the operand of a move may mean: those of constants, and of data."""
        found: dict[int, list[str]] = {}
        for value, row in (*self._constants, *(it for it in self._placed if KINDS[it[1][2]] == DATA)):
            found.setdefault(value, []).append(row[3])
        return found

    @cached_property
    def _spelled(self) -> dict[str, tuple[int, str]]:
        return {name.upper(): (at, name) for at, name in enumerate(self._by_name)}

    def _group(self, address: int) -> int:
        """Which group of names an address is shown with; -1 if none reaches it."""
        at = bisect_right(self._groups[0], address) - 1
        if at < 0 or address < self._end(at):
            return at
        if not self._is_nested or self._furthest[at] <= address:
            return -1
        bounds, owners = self._stretches
        return owners[bisect_right(bounds, address) - 1]

    def _names(self, group: int) -> str:
        """The names of a group, as they are shown."""
        if group not in self._texts:
            self._texts[group] = _together([row[3] for _, row in self._of_group(group)])
        return self._texts[group]

    def start_of(self, address: int) -> int | None:
        """The address of the names that an address is shown with; None if no name reaches it."""
        group = self._group(address)
        return None if group < 0 else self._groups[0][group]

    def text(self, address: int) -> str:
        """An address as a name, perhaps with a number of bytes after it; nothing if no name reaches it."""
        group = self._group(address)
        if group < 0:
            return ""
        offset = address - self._groups[0][group]
        return f"{self._names(group)} + 0x{offset:X}" if offset else self._names(group)

    def value(self, value: int) -> str:
        """The names of constants and of data that are exactly this, or nothing."""
        found = self._values.get(value % WORDS)
        return _together(found) if found else ""

    def exactly(self, address: int) -> list[Symbol]:
        """The names of code and data at an address."""
        first = bisect_left(self._placed, (address,))
        last = bisect_left(self._placed, (address + 1,), first)
        return [Symbol.of(row) for _, row in self._placed[first:last]]

    def size(self, name: str) -> tuple[int, bool] | None:
        """How many bytes a name has, and whether the file gives that: if not, it is up to the next name. None if there is no such
        name of code or data, or if it stands for several addresses."""
        addresses = self._by_name.get(name, [])
        given = [it.size for at in addresses[:1] for it in self.exactly(at) if it.name == name]
        if len(set(addresses)) != 1 or not given:
            return None
        return (max(given), True) if max(given) else (self._end(self._group(addresses[0])) - addresses[0], False)

    def begins(self) -> list[int]:
        """The addresses that have names of code, by rising address."""
        return [address for address, row in self._placed if row[2] in "tT"]

    @cached_property
    def has_data(self) -> bool:
        """Whether there are names of data."""
        return any(row[2] not in "tT" for _, row in self._placed)

    def is_data(self, address: int) -> bool:
        """Whether an address is shown with the name of data."""
        group = self._group(address)
        return group >= 0 and KINDS[self._of_group(group)[0][1][2]] == DATA

    def source(self, address: int) -> str:
        """The line of the source that an instruction is of, as it is shown; nothing if it is not known."""
        found = self.line_at(address)
        return found.text if found else ""

    def line_at(self, address: int) -> Source | None:
        """The line of the source that an instruction is of, up to the next line or the next name; None
        if it is not known."""
        at = self._line_index(address)
        if at >= 0:
            return Source(*self._lines[at])
        return next((Source(address, it.file, it.line) for it in self.exactly(address) if it.file), None)

    def _line_index(self, address: int) -> int:
        """Which of the lines of sources an address is in; -1 if it is in none."""
        at = bisect_right(self._line_addresses, address) - 1
        start = self._line_addresses[at] if at >= 0 else -1
        is_in_it = start == address or start >= 0 and self._group(start) == self._group(address) >= 0
        return at if is_in_it else -1

    def line_range(self, address: int) -> range | None:
        """The addresses around an address that are of the same line of the source; None if the line is not known."""
        at = self._line_index(address)
        if at < 0:
            return range(address, address + 4) if self.line_at(address) else None
        first, end = at, at + 1
        while first and self._lines[first - 1][1:] == self._lines[at][1:]:
            first -= 1
        while end < len(self._lines) and self._lines[end][1:] == self._lines[at][1:]:
            end += 1
        starts, _ = self._groups
        following = bisect_right(starts, address)
        least = max(self._line_addresses[first], starts[following - 1] if following else 0)
        most = [self._line_addresses[end]] if end < len(self._lines) else []
        return range(least, min([*most, *starts[following : following + 1], MEMORY_BYTES]))

    def addresses_of_line(self, file: str, line: int) -> list[int]:
        """Where the instructions of a line of a source begin. The name of the file may be its end, after a slash."""
        return [address for address, name, number in self._lines if number == line and (name == file or name.endswith(f"/{file}"))]

    def line_with_code(self, file: str, line: int) -> int | None:
        """The first line of a source, from a line on, that has an instruction, or None."""
        lines = (number for _, name, number in self._lines if number >= line and (name == file or name.endswith(f"/{file}")))
        return min(lines, default=None)

    def next_line(self, address: int) -> Source | None:
        """The line of a source of the first instruction after an address that has one, or None."""
        at = bisect_right(self._line_addresses, address)
        return Source(*self._lines[at]) if at < len(self._lines) else None

    def of_kind(self, kind: str) -> Iterator[Symbol]:
        """The names of code, or of data, by rising address."""
        return (Symbol.of(row) for _, row in self._placed if KINDS[row[2]] == kind)

    def names(self) -> Iterable[str]:
        """All names."""
        return self._by_name.keys()

    def code(self) -> Iterator[range]:
        """The byte addresses that are shown with a name of code, in ranges, each with the names of one address."""
        bounds, owners = self._stretches
        for start, end, owner in zip(bounds, bounds[1:], owners):
            if owner >= 0 and KINDS[self._of_group(owner)[0][1][2]] == CODE:
                yield range(start, end)

    def places(self, name: str) -> list[int]:
        """The different addresses of a name, or values of a constant."""
        return sorted(set(self._by_name.get(name, ())))

    def meant(self, name: str) -> str:
        """A name that may be meant by one that there is not; nothing if none is like it."""
        return shown(alike_of(name, self._spelled))


NONE = Symbols()


def shown(name: str) -> str:
    """A name as it is shown: what cannot be seen, or is written from right to left, is escaped; a long one is cut."""
    text = from_the_left(name)
    return text if len(text) <= SHOWN else f"{text[:SHOWN]}.."


def from_the_left(name: str) -> str:
    """A text in one line in which nothing is written from right to left."""
    text = printable(name)
    if text.isascii():
        return text
    return "".join(ascii(it)[1:-1] if unicodedata.bidirectional(it) in FROM_THE_RIGHT else it for it in text)


def _together(names: Sequence[str]) -> str:
    """The different names of one address: the first of them, and how many more there are."""
    different = list(dict.fromkeys(names))
    more = len(different) - TOGETHER
    return " or ".join(map(shown, different[:TOGETHER])) + (f" and {more:,} more" if more > 0 else "")


def address_of(symbols: Symbols, text: str) -> int | None:
    """The address that a name stands for, perhaps with a number of bytes added; None if there is no such name. A
    ValueError says that it stands for several."""
    name, offset = text, 0
    if not symbols.places(text) and (added := re.fullmatch(r"(.+)\+(?:0[xX]([0-9A-Fa-f]{1,8})|([0-9]{1,9}))", text)):
        name, offset = added[1], int(added[2], 16) if added[2] else int(added[3])
    found = symbols.places(name)
    if len(found) > 1:
        listed = ", ".join(f"0x{it:X}" for it in found[:3]) + (" .." if len(found) > 3 else "")
        raise ValueError(f"{shown(name)} stands for {len(found):,} addresses, {listed}: write the one that is meant")
    return found[0] + offset if found else None
