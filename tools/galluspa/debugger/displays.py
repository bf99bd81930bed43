"""The commands of `galluspa debug` that show values: `print`, `display`, and the names of a symbol file."""

import re
from collections.abc import Iterator, Sequence
from dataclasses import dataclass, field

from galluspa.analysis import inspection
from galluspa.analysis.addresses import address_in_memory, moment_of, value_of
from galluspa.analysis.expressions import Chain, Comparison, Junction, Named, Node, Number, Part, Word, signed
from galluspa.analysis.expressiontexts import Parser, literal
from galluspa.analysis.naming import with_remark
from galluspa.debugger.base import Base
from galluspa.formats.recording import MEMORY_BYTES
from galluspa.formats.symbols import CONSTANT, DATA, Symbols, shown
from galluspa.process.cli import Refused

# The formats of values, as gdb has them.
FORMATS = "xductsai"
FORMAT = re.compile(r"/(\w*)(?:\s+|$)(.*)", re.DOTALL)
# The characters of a string that are shown, and how many names and expressions.
STRING, MOST_NAMES, MOST_DISPLAYS, MOST_PATTERN = 200, 1000, 100, 200


@dataclass
class Displays(Base):
    """The commands that show values."""

    # The expressions that are shown at each pause, with their formats, by their numbers.
    expressions: dict[int, tuple[str, str]] = field(default_factory=dict)
    numbers: int = 0

    def print_value(self, text: str) -> Iterator[str]:
        """Prints the value of an expression, in a format."""
        yield from self._value_lines(*_formatted(text))

    def _value_lines(self, kind: str, text: str) -> Iterator[str]:
        debugger = self.debugger
        moment, symbols = moment_of(debugger.machine), debugger.symbols
        if kind == "s":
            yield string_line(debugger.machine.memory(), address_in_memory(text, moment, symbols))
            return
        if kind == "i":
            address = address_in_memory(text, moment, symbols)
            yield from inspection.instruction_lines(debugger.machine, address // 4, 1, symbols)
            return
        node = Parser(text, symbols).whole()
        if isinstance(node, Word) and not kind:
            address = value_of(node.address, moment, text)
            value_of(node, moment, text)
            yield from inspection.memory_lines(debugger.machine, address, 1, symbols)
            return
        value = value_of(node, moment, text)
        if isinstance(node, Comparison | Junction):
            yield f"{value}  {'true' if value else 'false'}"
            return
        name = _name(node, value, symbols)
        if kind:
            yield with_remark(written(value, kind, 4, symbols).strip(), "" if kind == "a" else name)
        else:
            yield with_remark(f"{value:08X}  {signed(value)}", name)

    def display(self, text: str) -> Iterator[str]:
        """Shows an expression at each pause."""
        if not text:
            yield from self.displayed()
            return
        kind, expression = _formatted(text)
        lines = list(self._value_lines(kind, expression))
        if len(self.expressions) >= MOST_DISPLAYS:
            raise Refused(f"at most {MOST_DISPLAYS} expressions are displayed: undisplay N deletes one")
        self.numbers += 1
        self.expressions[self.numbers] = kind, expression
        yield from self._display_lines(self.numbers, lines)

    def displayed(self) -> Iterator[str]:
        for number, (kind, text) in self.expressions.items():
            try:
                lines = list(self._value_lines(kind, text))
            except Refused as why:
                lines = [f"{why}"]
            yield from self._display_lines(number, lines)

    def _display_lines(self, number: int, lines: list[str]) -> Iterator[str]:
        kind, text = self.expressions[number]
        yield from (f"{number}: {f'/{kind} ' if kind else ''}{shown(text)} = {line}" for line in lines)

    def undisplay(self, text: str) -> Iterator[str]:
        """Deletes expressions that are displayed, by their numbers, or all."""
        numbers = [literal(part) or 0 for part in text.split()]
        for number, part in zip(numbers, text.split(), strict=True):
            if number not in self.expressions:
                raise Refused(f"there is no display {shown(part)}")
        for number in numbers or list(self.expressions):
            self.expressions.pop(number, None)
        yield from ()

    def display_list(self) -> Iterator[str]:
        """Yields the expressions that are displayed."""
        for number, (kind, expression) in self.expressions.items():
            yield f"{number:>3}  {f'/{kind} ' if kind else ''}{shown(expression)}"
        if not self.expressions:
            yield "no expressions are displayed"

    def names_of(self, kind: str, pattern: str) -> Iterator[str]:
        """Yields the names of code with their lines, or those of data with their words, in which a pattern is, whatever the case of
        its letters; a star in it stands for any text."""
        if len(pattern) > MOST_PATTERN:
            raise Refused(f"a PATTERN has at most {MOST_PATTERN} characters")
        symbols, machine, wanted = self.debugger.symbols, self.debugger.machine, pattern.lower().split("*")
        number = 0
        for it in symbols.of_kind(kind):
            if not _has(it.name.lower(), wanted):
                continue
            number += 1
            if number <= MOST_NAMES:
                is_word = kind == DATA and it.address % 4 == 0 and it.address < MEMORY_BYTES
                more = f"  {machine.words[it.address // 4]:08X}" if is_word else f"  {symbols.source(it.address)}"
                yield f"{it.address:06X}  {shown(it.name)}{more}".rstrip()
        if number > MOST_NAMES:
            yield f"and {number - MOST_NAMES:,} more: give a PATTERN"
        if not number:
            yield "no name of these" if symbols else "there is no symbol file"


def _has(name: str, wanted: Sequence[str]) -> bool:
    """Returns whether a name has some texts in it, one after the other."""
    at = 0
    for text in wanted:
        found = name.find(text, at)
        if found < 0:
            return False
        at = found + len(text)
    return True


def _formatted(text: str) -> tuple[str, str]:
    """Returns the format of /FORMAT EXPRESSION, and the expression."""
    found = FORMAT.fullmatch(text)
    if found and (len(found[1]) != 1 or found[1] not in FORMATS):
        raise Refused(f"/{shown(found[1])} is no format of a value: expected / and one of {' '.join(FORMATS)}")
    return (found[1], found[2]) if found else ("", text)


def _name(node: Node, value: int, symbols: Symbols) -> str:
    """Returns what the value of an expression is called: of a constant its name, of a sum with an address in it, of PC and of R15
    the name of the address, and of any other what it may be as an address."""
    match node:
        case Number():
            return ""
        case Named(name, _, kind) if kind == CONSTANT:
            return shown(name)
        case Part("flags"):
            return ""
    return symbols.text(value) if _is_address(node) else inspection.named(value, symbols)


def _is_address(node: Node) -> bool:
    """Returns whether an expression is an address by how it is written."""
    match node:
        case Named(kind=kind):
            return kind != CONSTANT
        case Part(name):
            return name in ("PC", "R15")
        case Chain(first, rest):
            return {sign for sign, _ in rest} <= {"+", "-"} and any(map(_is_address, (first, *(it for _, it in rest))))
    return False


def string_line(memory: bytes, address: int) -> str:
    """Returns the string at an address: of other bytes than printable ASCII characters, a backslash and two digits."""
    content = string_at(memory, address)
    shown_bytes = (chr(byte) if 0x20 <= byte < 0x7F and byte not in b'\\"' else f"\\{byte:02x}" for byte in content)
    return f'{address:06X}  "{"".join(shown_bytes)}"'


def string_at(memory: bytes, address: int) -> bytes:
    """Returns the bytes of memory from an address on, before the next one that is 0, but not more than are shown."""
    end = memory.find(b"\0", address)
    return memory[address : min(address + STRING, end if end >= 0 else MEMORY_BYTES)]


def written(value: int, kind: str, size: int, symbols: Symbols) -> str:
    """Returns a number of `size` bytes in a format."""
    if kind == "x":
        return f"{value:0{2 * size}X}"
    if kind == "d":
        return f"{value - (value >> 8 * size - 1 << 8 * size):>11}"
    if kind == "c":
        return f"{value:>3} '{chr(value)}'" if 0x20 <= value < 0x7F else f"{value:>3}"
    if kind == "t":
        return f"{value:0{8 * size}b}"
    if kind == "a":
        return with_remark(f"{value:08X}", symbols.text(value))
    return f"{value:>10}"
