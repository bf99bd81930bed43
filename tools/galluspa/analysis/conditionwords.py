"""The words of conditions that are not read yet, and the numbers and places that they say."""

import re
from collections.abc import Sequence
from dataclasses import dataclass

from galluspa.analysis.expressions import Node, constant, names_in
from galluspa.analysis.expressiontexts import NAMED, SIX_DIGITS, Parser, literal
from galluspa.formats.devicewords import DEVICES_AT
from galluspa.formats.recording import DISPLAY_START, MEMORY_BYTES, PAGE_BYTES, PLACES, WORD
from galluspa.formats.symbols import Symbols, address_of, shown
from galluspa.process.cli import Refused

PC_WORDS, ADDRESSES = 1 << 22, 1 << 24
COLUMNS, ROWS, ROW_BYTES = 1024, 768, 128
# The most characters of all words together.
MOST_CHARACTERS = 20_000
WANTED_NUMBER = "expected a number, decimal or hexadecimal with 0x in front or H after it"
WANTED_PLACE = (
    "expected a PLACE: an address or FIRST-LAST, a device such as KEY, page N, or dot X,Y; a number is "
    "decimal, or hexadecimal with 0x in front or H after it"
)
# What joins conditions, in words and signs.
ANDS, ORS = ("and", "&&"), ("or", "||")
# A sign that assigns, and no comparison, with the blanks around it.
ASSIGNS = re.compile(r" ?(?<![=!<>])=(?!=) ?")
COMPARES = re.compile(r"==|!=|<=|>=|(?<!<)<(?!<)|(?<!>)>(?!>)|#")
# A hexadecimal number as it is written elsewhere, and a name.
HEXADECIMAL = re.compile(r"\$([0-9A-Fa-f]+)|(?=.*[0-9])([0-9A-Fa-f]+)[hH]?")
LABEL = re.compile(r"[A-Za-z_][\w.]*(?:\+\w+)?")
NAME = re.compile(r"[^\d\W]\S*")


@dataclass(frozen=True)
class Place:
    """Bytes of memory or of devices, from an address up to another, and the bits of each of their words."""

    first: int
    end: int
    mask: int = WORD


class Words:
    """The words of a command line that are not read yet; several may be in one, as quotation marks make it. NAME=VALUE
    are two of them."""

    def __init__(self, words: Sequence[str], symbols: Symbols, is_if: bool = False) -> None:
        self.symbols = symbols
        # Whether they are what is true at a breakpoint.
        self.is_if = is_if
        if sum(map(len, words)) > MOST_CHARACTERS:
            raise Refused(f"conditions have at most {MOST_CHARACTERS:,} characters")
        alone = [word for given in words for word in ASSIGNS.sub("=", " ".join(_apart(given).split())).split(" ")]
        parted = [_parted(word) for word in alone]
        self._left = [part for parts in parted for part in parts]
        # Of each of these, whether it is a NAME that was written with a sign = after it.
        self._are_names = [at < len(parts) - 1 for parts in parted for at in range(len(parts))]
        self.taken: list[str] = []

    def __bool__(self) -> bool:
        return bool(self._left)

    @property
    def next(self) -> str:
        """The word that comes next; none if all are read."""
        return self._left[0] if self._left else ""

    @property
    def is_name(self) -> bool:
        """Whether the word that comes next was written as the NAME of NAME=VALUE."""
        return bool(self._are_names) and self._are_names[0]

    @property
    def second(self) -> str:
        """The word after the one that comes next."""
        return self._left[1].lower() if len(self._left) > 1 and not self.is_name else ""

    @property
    def value(self) -> int | None:
        """The number that comes after the next word, if that is one; it may be below 0."""
        return literal(self._left[1].removeprefix("-")) if len(self._left) > 1 else None

    def take(self) -> str:
        """Reads the word that comes next."""
        self.taken.append(self._left.pop(0) if self._left else "")
        del self._are_names[:1]
        return self.taken[-1]

    def comparison(self) -> tuple[Node, str] | None:
        """Reads the comparison that comes next, or another condition on values, and gives it with its text. None if there is
        none."""
        signs = ["=" if is_name else " " for is_name in self._are_names]
        text = "".join(f"{word}{sign}" for word, sign in zip(self._left, signs, strict=True)).rstrip()
        parser = Parser(text, self.symbols)
        try:
            node = parser.comparison()
        except Refused:
            if parser.has_compared or text.lower().startswith(("(", "mem[")) or COMPARES.search(f"{self.next} {self.second[:2]}"):
                raise
            return None
        if not parser.has_compared:
            return None
        length = 0
        while length < parser.at:
            length += len(self._left[0]) + 1
            self.take()
        if length > parser.at and parser.at < len(text):
            raise parser.wrong_sign()
        return node, text[:length].strip()


def _apart(text: str) -> str:
    """Returns a text with blanks around the signs that join conditions."""
    return text.replace("&&", " && ").replace("||", " || ")


def _parted(word: str) -> list[str]:
    """Returns the NAME and the VALUE of NAME=VALUE, or a word alone."""
    found = ASSIGNS.search(word)
    return [word[: found.start()], word[found.end() :]] if found and word.strip("=") else [word]


def range_of(words: Words, what: str, end: int, wanted: str = WANTED_NUMBER) -> tuple[int, int]:
    """Returns the numbers that N or N-M, which is the next word, says."""
    return _numbers(words.take(), words.symbols, what, end, wanted)


def _numbers(text: str, symbols: Symbols, what: str, end: int, wanted: str) -> tuple[int, int]:
    """Returns the numbers that N or N-M says, from one up to another that is not one of them. They are below an end. What is
    wanted is said if it says none. An address may be a name, and so may a PC, which counts words."""
    first, last = _ends(text, symbols)
    one, other = (_number(it, symbols, end) for it in (first, last))
    if one is None or other is None:
        unknown = first if one is None else last
        raise ValueError((end in (PC_WORDS, ADDRESSES) and _hint(text, unknown, symbols)) or wanted)
    if max(one, other) >= end:
        raise ValueError(f"{what} is below {end:,} ({end:X} hexadecimal)")
    if other < one:
        raise ValueError(f"nothing is from {first} to {last}")
    return one, other + 1


def _ends(text: str, symbols: Symbols) -> tuple[str, str]:
    """Returns the two texts of N-M, or N twice; a name may have a dash in it."""
    first, dash, last = text.partition("-")
    return (first, last) if dash and not symbols.places(text) else (text, text)


def _number(text: str, symbols: Symbols, end: int) -> int | None:
    """Returns the number that a text is, below an end of which the kind of the number is known; or that its name stands for."""
    named = NAMED.get(text.upper()) if end == ADDRESSES else None
    value = literal(text) if named is None else named
    if value is not None or end not in (ADDRESSES, PC_WORDS):
        return value
    address = address_of(symbols, text)
    if address is None:
        address = _named_sum(text, symbols)
    if address is not None and end == PC_WORDS and address % 4:
        raise ValueError(f"{shown(text)} is at byte {address:X} (hexadecimal), and instructions are at multiples of 4")
    return address // 4 if address is not None and end == PC_WORDS else address


def _named_sum(text: str, symbols: Symbols) -> int | None:
    """Returns the address that an expression with a name in it always is; None of any other text."""
    try:
        node = Parser(text, symbols, is_address=True).whole()
    except Refused:
        return None
    return constant(node) if names_in(node) else None


def _hint(text: str, unknown: str, symbols: Symbols) -> str:
    """Returns what to write in place of a number as it is written elsewhere, or of a name; nothing of other texts."""
    if found := HEXADECIMAL.fullmatch(text):
        return f"write 0x{(found[1] or found[2]).lstrip('0') or '0'}: numbers are decimal, or have 0x in front or H after them"
    if symbols and NAME.fullmatch(unknown):
        meant = symbols.meant(unknown)
        return f"no symbol is called {shown(unknown)}" + (f": did you mean {meant}?" if meant else "")
    if LABEL.fullmatch(text):
        return (
            f"{shown(text)} is not a number, and there is no symbol file: --symbols FILE gives names to addresses, and "
            "galluspa assemble FILE --symbols NAME.sym makes one of a source"
        )
    return ""


def place_of(words: Words, has_devices: bool) -> Place:
    """Returns the place that the next words name."""
    name = words.take()
    if name == "page":
        first, end = range_of(words, "a page", PLACES)
        return Place(PAGE_BYTES * first, PAGE_BYTES * end)
    if name == "dot":
        return _dot(words.take())
    if name.startswith("Mem[") and name.endswith("]"):
        name = f"0x{name[4:-1]}" if SIX_DIGITS.fullmatch(name, 4) else name[4:-1]
    below = literal(name[1:]) if name.startswith("-") else None
    if below and below <= ADDRESSES - DEVICES_AT:
        name = str(ADDRESSES - below)
    first, end = _numbers(name, words.symbols, "an address", ADDRESSES, WANTED_PLACE)
    if "-" not in name or words.symbols.places(name):
        first, end = first & ~3, (first & ~3) + 4
    if not (end <= MEMORY_BYTES or has_devices and first >= DEVICES_AT):
        devices = ", or is that of a device, from FFFFC0 on" if has_devices else ""
        raise ValueError(f"an address is below {MEMORY_BYTES:X}{devices} (hexadecimal)")
    return Place(first, end)


def _dot(text: str) -> Place:
    """Returns the word of a dot of the screen, and its bit."""
    column, row = (literal(part) for part in (text.split(",") if text.count(",") == 1 else ("", "")))
    if column is None or row is None or column >= COLUMNS or row >= ROWS:
        raise ValueError(f"expected dot X,Y, with X below {COLUMNS} and Y below {ROWS}, from the left and from below")
    first = DISPLAY_START + ROW_BYTES * row + 4 * (column // 32)
    return Place(first, first + 4, 1 << column % 32)
