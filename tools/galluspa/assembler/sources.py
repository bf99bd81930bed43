"""Reads the sources of a program: one file after the other, and what they include, line by line."""

import os
import re
from collections.abc import Iterator, Sequence
from dataclasses import dataclass
from pathlib import Path

from galluspa.process.cli import Refused, read_file

LONGEST = 1 << 22
DEEPEST, MOST_INCLUDED = 16, 1000
INCLUDE = re.compile(r"""[ \t]*include[ \t]+"([^"\\]+)"[ \t]*(?:;.*)?\r?""", re.IGNORECASE)


@dataclass(frozen=True)
class SourceLine:
    """A line of a source: its file, its number there, its text, and what is wrong with it if it includes a file that
    can't be read."""

    file: str
    number: int
    text: str
    mistake: str = ""


def lines_of(text: str, file: str = "") -> list[SourceLine]:
    """Returns the lines of a text, which includes nothing."""
    return [SourceLine(file, number, line) for number, line in enumerate(text.split("\n"), 1)]


def read_sources(paths: Sequence[Path]) -> list[SourceLine]:
    """Returns the lines of files, one file after the other, each with those of the files that it includes in their
    place."""
    return [line for reader in [_Reader()] for path in paths for line in reader.lines(path, [])]


def _place(path: Path) -> str:
    """Returns where a file is, wherever its links lead. Raises Refused if it can have no such name."""
    try:
        return os.path.realpath(path)
    except ValueError as error:
        raise Refused(f"{path}: {error}") from error


class _Reader:
    """Reads files up to a number of bytes, and includes up to a number of them."""

    def __init__(self) -> None:
        self._left = LONGEST
        self._included = 0

    def lines(self, path: Path, outer: Sequence[Path]) -> Iterator[SourceLine]:
        """Yields the lines of a file that is included by others, of which the outermost comes first."""
        for line in lines_of(self._text(path, bool(outer)), str(path)):
            found = INCLUDE.fullmatch(line.text)
            if not found:
                yield line
                continue
            try:
                yield from list(self._included_lines(path.parent / found[1], [*outer, path]))
            except Refused as refusal:
                yield SourceLine(line.file, line.number, line.text, str(refusal))

    def _included_lines(self, path: Path, outer: Sequence[Path]) -> Iterator[SourceLine]:
        self._included += 1
        if _place(path) in map(_place, outer):
            raise Refused(f"{path} includes itself")
        if len(outer) > DEEPEST or self._included > MOST_INCLUDED:
            raise Refused(f"files are included {DEEPEST} deep and {MOST_INCLUDED:,} in all, at most")
        return self.lines(path, outer)

    def _text(self, path: Path, is_included: bool) -> str:
        text = read_file(path, self._left + 1, is_regular=is_included)
        if len(text) > self._left:
            raise Refused(f"{path}: a source has at most {LONGEST:,} bytes, with what it includes")
        self._left -= len(text)
        try:
            return text.decode("utf-8-sig")
        except UnicodeDecodeError as error:
            raise Refused(f"{path}: not a text in UTF-8: byte {error.start}") from error
