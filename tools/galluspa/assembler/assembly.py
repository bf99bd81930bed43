"""Assembles a source: lays its statements out in memory, gives its names their values, and encodes its words.

Each thing that is wrong is a problem of its own, so that one run finds all of them.
"""

import contextlib
import re
import struct
from collections.abc import Iterator, Sequence
from dataclasses import dataclass, field

from galluspa.assembler.expressions import Value, deeper, evaluate
from galluspa.assembler.mnemonics import REGISTER, SPECIALS, encoded, operand_of, register_of
from galluspa.assembler.sources import SourceLine, lines_of
from galluspa.assembler.statements import (
    BYTE,
    CONSTANT,
    INCLUDE,
    INSTRUCTION,
    OFFSETS,
    ORIGIN,
    SETTINGS,
    STRING,
    WORD,
    Argument,
    Statement,
    content,
    expect_commas,
    is_string,
    statement_of,
)
from galluspa.assembler.tokens import Token, Wrong, wrong
from galluspa.formats.language import LANGUAGE, MOST, advice
from galluspa.formats.alike import alike_of
from galluspa.formats.recording import MEMORY_BYTES

# The addresses of the device words, as the immediate operand of MOV writes them, and that of the display.
BUILT_IN: dict[str, int] = LANGUAGE["addresses"]
# Each in capital letters, and its place among the names: after all those that a source defines.
BUILT_IN_SPELLED = {name: ((1 << 32) + at, name) for at, name in enumerate(BUILT_IN)}

# The names of registers in Project Oberon, unless a source gives them to something else.
REGISTER_NAMES: dict[str, int] = LANGUAGE["registers"]

# A number that another assembler may read.
HEXADECIMAL = re.compile(r"[A-Fa-f][0-9A-Fa-f]*[Hh]")
# For how many undefined names a suggestion is made.
SUGGESTIONS = MOST["suggestions"]
# With how many bits the offsets of branches may be written.
NARROW, WIDE = 22, 24


@dataclass(frozen=True, order=True)
class Problem:
    """What is wrong at a line and a column, both counted from 1; lines are counted through all sources."""

    line: int
    column: int
    text: str


@dataclass
class Region:
    """What is filled from an origin on: the line of the origin, its column, and the bytes from one address to
    another."""

    line: int
    column: int
    start: int
    end: int
    is_beyond: bool = False


@dataclass
class Assembly:
    """Sources that are assembled: their lines, which are counted through all of them, their statements, their names,
    their memory, and what is wrong with them."""

    sources: Sequence[SourceLine] = ()
    statements: list[Statement] = field(default_factory=list)
    problems: list[Problem] = field(default_factory=list)
    regions: list[Region] = field(default_factory=lambda: [Region(1, 1, 0, 0)])
    labels: dict[str, int] = field(default_factory=dict)
    constants: dict[str, Statement] = field(default_factory=dict)
    registers: dict[str, int] = field(default_factory=dict)
    lines: dict[str, int] = field(default_factory=dict)
    spelled: dict[str, tuple[int, str]] = field(default_factory=lambda: dict(BUILT_IN_SPELLED))
    suggestions: int = 0
    memory: bytearray = field(default_factory=bytearray)
    waiting: list[tuple[int, Token]] = field(default_factory=list)
    known: dict[str, Value] = field(default_factory=dict)
    open: list[str] = field(default_factory=list)
    is_narrow: bool = False

    @contextlib.contextmanager
    def keeping(self, line: int) -> Iterator[None]:
        """Keeps what is wrong in a line as a problem."""
        try:
            yield
        except Wrong as wrong:
            self.problems.append(Problem(line, wrong.column, str(wrong)))

    def source(self, line: int) -> SourceLine:
        """Returns the line of a file that a line of all sources is."""
        return self.sources[line - 1]

    def line_text(self, line: int, near: int) -> str:
        """Returns how a line is named in a message at another one: with its file, if that is another one."""
        source = self.source(line)
        return f"line {source.number}" + (f" of {source.file}" if source.file != self.source(near).file else "")

    def register_of(self, name: str) -> int | None:
        """Returns the number of a register by a name for it; None of any other name."""
        number = self.registers.get(name, register_of(name))
        return REGISTER_NAMES.get(name.upper()) if number is None and name not in self.lines else number

    def value(self, argument: Argument, here: int, depth: int = 0) -> Value:
        """Returns the value of an argument of a statement at an address."""
        return evaluate(argument.tokens, argument.end, self.named, here, depth)

    def named(self, token: Token, depth: int = 0) -> Value:
        """Returns what a name stands for, in an expression that is so deep."""
        name = token.text
        if name in self.labels:
            return Value(self.labels[name], True)
        if name in self.constants:
            return self._constant(token, depth)
        if name.upper() in BUILT_IN:
            return Value(BUILT_IN[name.upper()])
        if self.register_of(name) is not None or name.upper() in SPECIALS:
            raise wrong(token.column, "wanted", name=name)
        raise wrong(token.column, "undefined", name=name, advice=advice("above") if name in self.lines else self._advice(name))

    def _advice(self, name: str) -> str:
        """Returns what may be meant by a name that is not defined."""
        if HEXADECIMAL.fullmatch(name):
            return advice("hexadecimal", name=name)
        self.suggestions += 1
        meant = alike_of(name, self.spelled) if self.suggestions <= SUGGESTIONS else ""
        return advice("meant", meant=meant) if meant else ""

    def _constant(self, token: Token, depth: int) -> Value:
        name = token.text
        if name in self.open:
            raise wrong(token.column, "itself", name=name)
        if name in self.known:
            return self.known[name]
        statement, depth = self.constants[name], deeper(depth, token)
        self.open.append(name)
        self.known[name] = Value(0)
        with self.keeping(statement.line):
            self.known[name] = self.value(statement.arguments[0], statement.here, depth)
        self.open.pop()
        return self.known[name]


def assembled(source: str | Sequence[SourceLine]) -> Assembly:
    """Returns a source, assembled, or the lines of several; it has a memory only if there are no problems."""
    it = Assembly(lines_of(source) if isinstance(source, str) else source)
    for number, line in enumerate(it.sources, 1):
        with it.keeping(number):
            if line.mistake:
                raise Wrong(1, line.mistake)
            it.statements.append(statement_of(number, line.text.rstrip("\r")))
    for statement in it.statements:
        with it.keeping(statement.line):
            _lay_out(it, statement)
    _set_labels(it)
    for statement in it.constants.values():
        it.named(statement.name)
    _find_overlaps(it)
    contents = list(_contents(it))
    if not it.problems:
        _fill(it, contents)
    return it


def _lay_out(it: Assembly, statement: Statement) -> None:
    """Gives a statement its address, and its labels theirs."""
    region = it.regions[-1]
    for label in statement.labels:
        with it.keeping(statement.line):
            _define(it, statement.line, label)
            it.waiting.append((statement.line, label))
    if statement.does == ORIGIN:
        _set_labels(it)
        it.regions.append(_region_of(it, statement))
        return
    if statement.is_aligned:
        region.end += -region.end % 4
    statement.here, statement.is_narrow = region.end, it.is_narrow
    if statement.does == OFFSETS:
        it.is_narrow = _offset_bits(it, statement) == NARROW
    elif statement.does == INCLUDE:
        raise wrong(statement.name.column, "include")
    elif statement.does == CONSTANT and (register := _named_register(it, statement)) is not None:
        _define(it, statement.line, statement.name)
        it.registers[statement.name.text] = register
    elif statement.does == CONSTANT:
        _define(it, statement.line, statement.name)
        it.constants[statement.name.text] = statement
    elif statement.does not in ("", *SETTINGS):
        _set_labels(it)
        region.end += statement.size
        if region.end > MEMORY_BYTES and not region.is_beyond:
            region.is_beyond = True
            raise wrong(statement.name.column, "beyond", bytes=MEMORY_BYTES)


def _named_register(it: Assembly, statement: Statement) -> int | None:
    """Returns the register that a statement gives a name to; None if it defines a constant."""
    tokens = statement.arguments[0].tokens
    return it.register_of(tokens[0].text) if len(tokens) == 1 else None


def _define(it: Assembly, line: int, name: Token) -> None:
    text = name.text
    if REGISTER.fullmatch(text) or text.upper() in SPECIALS or text.upper() in BUILT_IN:
        what = "device" if text.upper() in BUILT_IN else "register"
        raise wrong(name.column, "taken", name=text, what=what)
    if text.endswith("'"):
        raise wrong(name.column, "apostrophe", name=text)
    if text in it.lines:
        raise wrong(name.column, "twice", name=text, where=it.line_text(it.lines[text], line))
    it.spelled.setdefault(text.upper(), (len(it.lines), text))
    it.lines[text] = line


def _set_labels(it: Assembly) -> None:
    """Gives the labels that wait for what follows them the address here."""
    for _, label in it.waiting:
        it.labels[label.text] = it.regions[-1].end
    it.waiting.clear()


def _region_of(it: Assembly, statement: Statement) -> Region:
    argument = only(statement)
    start = it.value(argument, it.regions[-1].end).number
    if not 0 <= start < MEMORY_BYTES:
        raise wrong(argument.column, "origin", number=start, most=MEMORY_BYTES - 1)
    return Region(statement.line, statement.name.column, start, start)


def _offset_bits(it: Assembly, statement: Statement) -> int:
    argument = only(statement)
    bits = it.value(argument, statement.here).number
    if bits not in (NARROW, WIDE):
        raise wrong(argument.column, "offsets", narrow=NARROW, wide=WIDE)
    return bits


def only(statement: Statement) -> Argument:
    """Returns the one argument of a statement."""
    if len(statement.arguments) != 1:
        raise wrong(statement.name.column, "oneValue", name=statement.name.text)
    return statement.arguments[0]


def _find_overlaps(it: Assembly) -> None:
    """Finds regions that fill what another fills that begins before them or with them."""
    regions = sorted((one for one in it.regions if one.end > one.start), key=lambda one: (one.start, one.line))
    if not regions:
        return
    furthest = regions[0]
    for region in regions[1:]:
        if region.start < furthest.end:
            first, second = sorted((furthest, region), key=lambda one: one.line)
            last = min(region.end, furthest.end) - 1
            where = it.line_text(first.line, second.line)
            with it.keeping(second.line):
                raise wrong(second.column, "filled", first=region.start, last=last, where=where)
        furthest = max(furthest, region, key=lambda one: one.end)


def _contents(it: Assembly) -> Iterator[tuple[int, bytes]]:
    """Yields the bytes of each statement that fills some, with their address."""
    for statement in it.statements:
        with it.keeping(statement.line):
            if statement.does not in SETTINGS:
                expect_commas(statement)
            if statement.does == INSTRUCTION:
                yield statement.here, struct.pack("<I", _instruction(it, statement))
            elif statement.does in (WORD, BYTE, STRING):
                yield statement.here, _data(it, statement)


def _instruction(it: Assembly, statement: Statement) -> int:
    operands = [operand_of(one.tokens, one.end, it.named, statement.here, it.register_of) for one in statement.arguments]
    return encoded(statement.name, operands, statement.here, statement.is_narrow)


def _data(it: Assembly, statement: Statement) -> bytes:
    if not statement.arguments:
        raise wrong(statement.name.column, "data", name=statement.name.text)
    if statement.does == WORD:
        return b"".join(_packed(it, argument, statement.here, 4) for argument in statement.arguments)
    if statement.does == STRING and not all(map(is_string, statement.arguments)):
        raise wrong(statement.arguments[0].column, "string")
    parts = (content(one) if is_string(one) else _packed(it, one, statement.here, 1) for one in statement.arguments)
    return b"".join(parts) + b"\0" * (statement.does == STRING)


def _packed(it: Assembly, argument: Argument, here: int, size: int) -> bytes:
    """Returns the bytes of a number, the lowest first; a number below 0 is written modulo 2^8 or 2^32."""
    end = 1 << 8 * size
    number = it.value(argument, here).number
    if not -end // 2 <= number < end:
        what = "word" if size == 4 else "byte"
        raise wrong(argument.column, "packed", number=number, what=what, least=-end // 2, most=end - 1)
    return (number % end).to_bytes(size, "little")


def _fill(it: Assembly, contents: Sequence[tuple[int, bytes]]) -> None:
    it.memory = bytearray(max((region.end for region in it.regions if region.end > region.start), default=0))
    for at, filled in contents:
        it.memory[at : at + len(filled)] = filled
