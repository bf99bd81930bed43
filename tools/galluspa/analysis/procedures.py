"""Says to which procedure, module and source line each word of a program belongs, by its symbol file and its calls.

A procedure begins where a call by an offset goes to, and at a name of code that comes after a branch that is always taken, or
after data, unless that is a label of the procedure before: as `galluspa trace --calls` has it. Without names, its name is its
address.
"""

from collections.abc import Sequence
from dataclasses import dataclass
from functools import cached_property
from pathlib import PurePath

from galluspa.analysis.executioncounts import Executions
from galluspa.analysis.entries import Entries
from galluspa.formats.recording import MEMORY_BYTES, WORDS
from galluspa.formats.symbols import Source, Symbols

NO_NAME, NO_MODULE = "(no name)", "(no module)"
NO_SOURCE = Source(0, "", 0)


@dataclass(frozen=True, order=True)
class Procedure:
    """A procedure: the number of its first word, its name, its module, and the line of the source at which it begins,
    whose file is empty if it is not known."""

    at: int
    name: str
    module: str
    source: Source = NO_SOURCE


class Procedures:
    """The procedures of a program: those of its names, and those that runs executed."""

    def __init__(self, seen: Executions, symbols: Symbols) -> None:
        """`seen` has the words of the program, and which of them are executed."""
        self._seen = seen
        self._symbols = symbols
        self._known: dict[int, Procedure] = {}
        self._named = {at // 4 for it in symbols.code() for at in range(it.start, min(it.stop, MEMORY_BYTES), 4)}

    def word(self, at: int) -> int:
        """Returns the word at a number: the one that was executed, or else the one at the end of the first run."""
        return self._seen.words.get(at, self._seen.memory[at])

    @cached_property
    def _entries(self) -> Entries:
        """Returns where procedures begin. What is neither executed nor has a name of code counts as no call."""
        words = [0] * WORDS
        for at in (*self._named, *self._seen.words):
            words[at] = self.word(at)
        return Entries(words, self._symbols)

    def of(self, at: int) -> Procedure:
        """Returns the procedure that a word is in."""
        if self._symbols and at not in self._named:
            return Procedure(WORDS, NO_NAME, NO_MODULE)
        entry = self._entries.entry_of(4 * at)
        if entry is None:
            entry = self._symbols.start_of(4 * at) or 0
        if entry not in self._known:
            self._known[entry] = self._made(entry)
        return self._known[entry]

    def _made(self, entry: int) -> Procedure:
        """Returns the procedure that begins at an address."""
        source = self.source(entry // 4)
        name = self._symbols.text(entry)
        if not name:
            return Procedure(entry // 4, f"0x{entry:X}", NO_MODULE, source)
        module, dot, _ = name.partition(" ")[0].partition(".")
        return Procedure(entry // 4, name, module if dot else PurePath(source.file).name or NO_MODULE, source)

    def source(self, at: int) -> Source:
        """Returns the line of the source that a word is of; one without a file if it is not known."""
        return self._symbols.line_at(4 * at) or NO_SOURCE

    def place(self, at: int) -> str:
        """Returns a word as its name and bytes from there on, or as its address."""
        return self._symbols.text(4 * at) or f"0x{4 * at:X}"

    def all(self) -> dict[Procedure, Sequence[int]]:
        """Returns the numbers of the words of each procedure, in rising order. After its last word that is executed, a
        procedure ends before the first word that is 0: a name without a size reaches further than its procedure."""
        found: dict[Procedure, list[int]] = {}
        for at in sorted({*self._named, *self._seen.words}):
            found.setdefault(self.of(at), []).append(at)
        return {it: whole for it, words in sorted(found.items()) if (whole := self._up_to_end(words))}

    def _up_to_end(self, words: Sequence[int]) -> Sequence[int]:
        """Returns those of the words of a procedure that come before its end."""
        last = max((place for place, at in enumerate(words) if at in self._seen.visits), default=-1)
        ends = (place for place in range(last + 1, len(words)) if not self.word(words[place]))
        return words[: next(ends, len(words))]
