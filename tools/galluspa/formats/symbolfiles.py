"""Reads and writes symbol files, which give names and source lines to addresses (docs/symbols.md)."""

import gc
import os
import re
from collections.abc import Iterable, Iterator
from pathlib import Path

from galluspa.formats.builds import tell_edited
from galluspa.formats.recording import MEMORY_BYTES
from galluspa.formats.symbols import CODE, CONSTANT, DATA, KINDS, LINE, NONE, WORDS, Row, Source, Symbol, Symbols, shown
from galluspa.process.cli import Refused, complain, read_file
from galluspa.process.escapes import printable
from galluspa.process.garbagecollection import without_collection

SUFFIX = ".sym"
MOST_BYTES, MOST_LINES, LONGEST_LINE = 10_000_000, 1 << 17, 4096
LONGEST_NAME, LONGEST_FILE = 200, 255
# What an address of a kind is below, and of which number it is a multiple.
ENDS = {CODE: MEMORY_BYTES, DATA: 1 << 24, CONSTANT: WORDS, LINE: MEMORY_BYTES}
STEPS = {CODE: 4, DATA: 1, CONSTANT: 1, LINE: 4}
HEXADECIMAL, BLANKS, END = "([0-9A-Fa-f]{1,16})", " {1,20}", r"[ \t\r]{0,20}$"
# The lines that say something: the parts of a name, or of a line of a source.
ROWS = re.compile(
    rf"^{HEXADECIMAL}(?:{BLANKS}{HEXADECIMAL})?{BLANKS}(?:([tTdDbBrRaA]){BLANKS}(\S{{1,{LONGEST_NAME}}})"
    rf"(?:\t(.{{1,{LONGEST_FILE}}}):([0-9]{{1,9}}))?|(l){BLANKS}(\S.{{0,{LONGEST_FILE - 1}}}):([0-9]{{1,9}})){END}",
    re.MULTILINE,
)
PASSED_OVER = re.compile(r"^[ \t\r]*(?:#.*)?$", re.MULTILINE)
# A word is cut to this many characters, more than are shown, before it is escaped.
CUT = 100
FORM = "expected ADDRESS TYPE NAME, perhaps with a SIZE after the address, and with a tab and FILE:LINE at the end"


class Mistaken(Exception):
    """What is wrong with a line of a symbol file, counted from 1, or with the file as a whole, which is line 0."""

    def __init__(self, line: int, text: str) -> None:
        super().__init__(text)
        self.line = line


def parsed(content: bytes) -> Symbols:
    """The names in the bytes of a symbol file. Mistaken says what is wrong with it."""
    if len(content) > MOST_BYTES:
        raise Mistaken(0, f"a symbol file has at most {MOST_BYTES:,} bytes")
    if content.count(b"\n") >= MOST_LINES:
        raise Mistaken(0, f"a symbol file has at most {MOST_LINES:,} lines")
    try:
        text = content.decode("utf-8-sig")
    except UnicodeDecodeError as error:
        raise Mistaken(content.count(b"\n", 0, error.start) + 1, "not a text in UTF-8") from error
    with without_collection():
        found = _read(text) if max(map(len, text.split("\n"))) <= LONGEST_LINE else None
    if found is None:
        raise _first_mistake(text)
    return found


def _read(text: str) -> Symbols | None:
    """The names in a text; None if a line of it has a mistake."""
    rows = ROWS.findall(text)
    number = text.count("\n") + (not text.endswith("\n"))
    if len(rows) < number and len(rows) + len(PASSED_OVER.findall(text)) < text.count("\n") + 1:
        return None
    names, constants, lines = list[tuple[int, Row]](), list[tuple[int, Row]](), list[tuple[int, Row]]()
    for row in rows:
        address, letter = int(row[0], 16), row[2]
        if not letter:
            if row[1] or _out_of_range(LINE, address, 0, row[8]):
                return None
            lines.append((address, row))
        elif letter in "tT":
            if address >= MEMORY_BYTES or address % 4 or row[1] and address + int(row[1], 16) > MEMORY_BYTES:
                return None
            names.append((address, row))
        elif _out_of_range(KINDS[letter], address, int(row[1] or "0", 16), ""):
            return None
        else:
            (constants if letter in "aA" else names).append((address, row))
        if row[5] and not int(row[5]):
            return None
    return Symbols(names, constants, lines)


def _out_of_range(kind: str, address: int, size: int, line: str) -> str:
    """What is wrong with the numbers of a line of a file; nothing if they are in their ranges."""
    if address >= ENDS[kind]:
        what = "constant" if kind == CONSTANT else "address"
        return f"the {what} {address:X} is not below {ENDS[kind]:X} (hexadecimal)"
    if address % STEPS[kind]:
        return f"the address {address:X} of code is not a multiple of 4"
    if address + size > ENDS[kind]:
        return f"the size {size:X} leads beyond {ENDS[kind]:X} (hexadecimal)"
    return "lines of a source are counted from 1" if line and not int(line) else ""


def _first_mistake(text: str) -> Mistaken:
    """The first mistake in the text of a symbol file that has one, and how many more lines have some."""
    mistakes = filter(lambda it: it[1], ((at, _mistake(line)) for at, line in enumerate(text.split("\n"), 1)))
    number, mistake = next(mistakes)
    more = sum(1 for _ in mistakes)
    others = f" ({more:,} more {'line has a mistake' if more == 1 else 'lines have mistakes'})" if more else ""
    return Mistaken(number, f"{mistake}{others}")


def _mistake(line: str) -> str:
    """What is wrong with a line; nothing if nothing is."""
    if len(line) > LONGEST_LINE:
        return f"a line has at most {LONGEST_LINE:,} characters, and this one has {len(line):,}"
    found = ROWS.fullmatch(line)
    if found and not (found[2] and found[7]):
        kind = KINDS[found[3] or LINE]
        return _out_of_range(kind, int(found[1], 16), int(found[2] or "0", 16), found[6] or found[9] or "")
    if PASSED_OVER.fullmatch(line):
        return ""
    words = line.split()
    if not re.fullmatch(HEXADECIMAL, words[0]) or line[0].isspace():
        return f"{shown(words[0])} is not an address of 1 to 16 hexadecimal digits at the beginning of the line"
    has_size = len(words) > 3 and re.fullmatch(HEXADECIMAL, words[1]) and len(words[2]) == 1
    letter, name, more = [*words[2 if has_size else 1 :], "", "", ""][:3]
    if letter == LINE:
        return "expected ADDRESS l FILE:LINE"
    if len(letter) == 1 and letter not in KINDS:
        return f"{shown(letter)} is not a type: t is code, d data, a a constant, and l a line of a source"
    if len(name) > LONGEST_NAME:
        return f"a name has at most {LONGEST_NAME} characters, and this one has {len(name):,}"
    if len(letter) > 1:
        return f"{shown(letter[:CUT])} is not a type; {FORM}"
    if not name:
        return f"no {'name' if letter else 'type'} after {shown(words[-1])}; {FORM}"
    return f"{shown(more[:CUT])} comes after the name; {FORM}" if more else FORM


def written(symbols: Iterable[Symbol], sources: Iterable[Source]) -> str:
    """The text of a symbol file."""
    return "".join(f"{line}\n" for line in _written_lines(symbols, sources))


def _written_lines(symbols: Iterable[Symbol], sources: Iterable[Source]) -> Iterator[str]:
    for it in sorted(symbols):
        size = f" {it.size:08X}" if it.size else ""
        at = f"\t{_file(it.file)}:{it.line}" if it.file else ""
        yield f"{it.address:08X}{size} {it.kind} {it.name}{at}"
    for one in sorted(sources):
        yield f"{one.address:08X} {LINE} {_file(one.file)}:{one.line}"


def _file(name: str) -> str:
    """The name of a file as a symbol file has it: in one line, and its end if it is long."""
    return printable(name)[-LONGEST_FILE:].strip() or "-"


def read(path: Path) -> Symbols:
    """The names in a file. Raises Refused, with the line, if it has a mistake."""
    content = read_file(path, MOST_BYTES + 1)
    try:
        found = parsed(content)
    except Mistaken as mistake:
        raise Refused(f"{path}:{mistake.line}: {mistake}" if mistake.line else f"{path}: {mistake}") from mistake
    found.origin, found.content = shown(path.name), content
    return found


def file_beside(*files: Path) -> Path | None:
    """Returns the symbol file that is beside one of some files and has its name, with .sym at the end: the first; None if there
    is none."""
    paths = (file.with_suffix(SUFFIX) for file in files if file.name)
    return next((it for it in paths if os.path.isfile(it)), None)


def symbols_for(asked: Path | None, *beside: Path) -> Symbols:
    """Returns the names in the file that an option names, or else in the first that is beside one of these files and has its
    name, with .sym at the end. A line on standard error says where they are from. A file that no option names and
    has a mistake gives no names, which is said too."""
    path = asked or file_beside(*beside)
    if not path:
        return NONE
    try:
        found = read(path)
    except Refused as refusal:
        if asked or not isinstance(refusal.__cause__, Mistaken):
            raise
        complain(f"{refusal}; its names are not shown")
        return NONE
    # Names stay until the tool ends: they are not looked through for garbage any more.
    gc.freeze()
    complain(f"{len(found):,} {'name' if len(found) == 1 else 'names'} from {path}")
    tell_edited(path, found.content)
    return found
