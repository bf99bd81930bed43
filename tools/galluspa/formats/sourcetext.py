"""Reads the lines of sources that a symbol file names, to show them. A symbol file of a stranger may name any file, so only
those below some folders are read."""

from argparse import Namespace
from collections.abc import Sequence
from pathlib import Path

from galluspa.formats.builds import source_content
from galluspa.formats.symbols import Source, from_the_left
from galluspa.process.cli import Parser

# The most characters of a line that are shown.
SHOWN = 120


def add_directory_option(options: Parser, shown: str) -> None:
    """Adds the option that names folders of sources, of which a tool shows something."""
    options.add_repeatable(
        "--directory",
        "FOLDER",
        f"also show {shown} that are below this folder (default: those below the folder of the symbol file); repeatable",
        type=Path,
    )


class Sources:
    """The texts of sources, each of which is read once, from the first of some folders below which it is."""

    def __init__(self, folders: Sequence[Path]) -> None:
        self._folders = folders
        self._read: dict[str, list[str]] = {}

    @staticmethod
    def of(asked: Namespace) -> "Sources":
        """Returns the sources that the options of a tool let it show."""
        return Sources([*asked.directory, (asked.symbols or asked.recording).parent])

    def lines(self, name: str) -> Sequence[str]:
        """Returns the lines of a source; none if it is not below a folder, or not a text of a proper size."""
        if name not in self._read:
            self._read[name] = next(filter(None, (_lines(folder, name) for folder in self._folders)), [])
        return self._read[name]

    def line(self, source: Source | None) -> str:
        """Returns a line of a source after its number, as it is shown; nothing if it is not there."""
        found = self.lines(source.file) if source else []
        return _numbered(found, source.line) if source and source.line <= len(found) else ""

    def around(self, source: Source, first: int, number: int) -> Sequence[str]:
        """Returns a number of lines of a source, from one on, with a mark at one of them."""
        found = self.lines(source.file)
        numbers = range(max(first, 1), min(max(first, 1) + number, len(found) + 1))
        return [f"{'=>' if at == source.line else '  '}{_numbered(found, at)}" for at in numbers]


def _numbered(lines: Sequence[str], number: int) -> str:
    return f"{number:>5}  {from_the_left(lines[number - 1])[:SHOWN]}".rstrip()


def _lines(folder: Path, name: str) -> list[str]:
    """Returns the lines of a file that is a text of a proper size, below a folder, wherever its links lead."""
    try:
        path = (folder / name).resolve(strict=True)
        text = source_content(path) if path.is_relative_to(folder.resolve()) else None
    except (OSError, ValueError, RuntimeError):
        return []
    return [line.expandtabs() for line in (text or b"").decode("utf-8", "replace").splitlines()]
