"""The command of `galluspa debug` that shows lines of sources."""

from collections.abc import Iterator
from dataclasses import dataclass

from galluspa.analysis.expressiontexts import literal
from galluspa.debugger.base import LOCATION, Base
from galluspa.formats.symbols import Source, shown
from galluspa.process.cli import Refused

LISTED = 10
NO_LINE = "no source line here: disassemble shows instructions"


@dataclass
class Listings(Base):
    """The command `list`."""

    # What was listed last: the name of the source, its first line and the one after its last, and the count.
    listed: tuple[str, int, int, int] = ("", 0, 0, 0)

    def list_source(self, text: str) -> Iterator[str]:
        """Shows lines of the source: around this one or another, from one to another, or the next ones."""
        name, first, end, count = self.listed
        is_again = bool(name) and count == self.debugger.count
        if text == "-" and is_again:
            file, lines = name, range(max(first - LISTED, 1), first)
            if not lines:
                raise Refused(f"{shown(name)} has no line before 1")
        elif "," in text:
            file, lines = self._between(*(it.strip() for it in text.split(",", 1)))
        elif text and text != "-" or not is_again:
            source = self._source("" if text == "-" else text)
            if source.line > len(self.sources.lines(source.file)) > 0:
                raise Refused(f"{shown(source.file)} has no line {source.line:,}")
            begin = max(source.line - LISTED // 2, 1)
            file, lines = source.file, range(begin, begin + LISTED)
        else:
            file, lines = name, range(end, end + LISTED)
        yield from self._lines(file, lines)

    def _lines(self, file: str, lines: range) -> Iterator[str]:
        """Yields lines of a source, with an arrow at the one where the machine is."""
        if not self.sources.lines(file):
            raise Refused(
                f"the source {shown(file)} is not there, or not below the symbol file: --directory FOLDER says where it is"
            )
        here = self._here()
        shown_lines = self.sources.around(Source(0, file, here.line if here and here.file == file else 0), lines.start, len(lines))
        if not shown_lines:
            raise Refused(f"{shown(file)} has no line {lines.start:,}")
        self.listed = file, lines.start, lines.stop, self.debugger.count
        yield from shown_lines

    def _here(self) -> Source | None:
        """Returns the line of the selected frame."""
        return self.debugger.symbols.line_at(4 * self.selected_word())

    def selected_word(self) -> int:
        """Returns the word of the selected frame: where the machine is, or a call."""
        return self.debugger.machine.state.pc

    def _between(self, first: str, last: str) -> tuple[str, range]:
        """Returns the source and the lines of FIRST,LAST or FIRST,+N; ten lines if one of the two is missing."""
        if not first and not last:
            raise Refused("expected list FIRST,LAST, where one may be missing")
        begin = self._source(first) if first else None
        if begin and last.startswith("+") and (number := literal(last[1:])) is not None:
            return begin.file, range(begin.line, begin.line + number + 1)
        end = self._source(last, begin) if last else None
        if begin and end and (begin.file != end.file or end.line < begin.line):
            raise Refused(f"{shown(last)} is not after {shown(first)} in the same source")
        if begin:
            return begin.file, range(begin.line, end.line + 1 if end else begin.line + LISTED)
        assert end
        return end.file, range(max(end.line - LISTED + 1, 1), end.line + 1)

    def _source(self, text: str, beside: Source | None = None) -> Source:
        """Returns the line that a number of a line, FILE:LINE or a location is; of what has no line, the next one that has."""
        symbols = self.debugger.symbols
        if (number := literal(text)) is not None:
            return Source(0, self._file(beside), max(number, 1))
        line = LOCATION.fullmatch(text)
        if line and not symbols.places(text) and (at := symbols.line_with_code(line[1], 1)) is not None:
            found = symbols.line_at(min(symbols.addresses_of_line(line[1], at)))
            return Source(0, found.file if found else line[1], max(int(line[2]), 1))
        address = 4 * self.location(text).raws[0].first if text else 4 * self.selected_word()
        source = symbols.line_at(address) or symbols.next_line(address)
        if source is None:
            raise Refused(NO_LINE)
        return source

    def _file(self, beside: Source | None) -> str:
        """Returns the source of which a line is meant by its number."""
        here = self._here()
        file = beside.file if beside else self.listed[0] or (here.file if here else "")
        if not file:
            raise Refused(NO_LINE)
        return file
