"""The names and source lines of a program, for programs that import this package."""

import os
from collections.abc import Iterator
from pathlib import Path

from galluspa.formats import symbolfiles
from galluspa.formats.symbols import NONE, Symbols as Names, address_of, shown
from galluspa.process.cli import Refused


class Symbols:
    """The names and the source lines of a program, as a symbol file gives them; without a file there are none."""

    def __init__(self, names: Names = NONE) -> None:
        """What a symbol file says. `Symbols.of` reads one."""
        self._names = names

    @classmethod
    def of(cls, path: str | os.PathLike[str]) -> "Symbols":
        """Reads a symbol file. Raises Refused, with the line, if it has a mistake."""
        return cls(symbolfiles.read(Path(path)))

    def __len__(self) -> int:
        return len(self._names)

    def __iter__(self) -> Iterator[str]:
        return iter(self._names.names())

    def __contains__(self, name: object) -> bool:
        return isinstance(name, str) and bool(self._names.places(name))

    def address(self, name: str) -> int:
        """Returns the byte address of a name, or the value of a constant; `Edit.text+8` is 8 bytes after it. Raises Refused if
        there is no such name, or if it stands for several addresses."""
        try:
            found = address_of(self._names, name)
        except ValueError as why:
            raise Refused(str(why)) from why
        if found is None:
            meant = self._names.meant(name)
            raise Refused(f"no symbol is called {shown(name)}" + (f": did you mean {meant}?" if meant else ""))
        return found

    def size(self, name: str) -> int | None:
        """Returns the number of bytes of a name; None if the file does not give it. Raises Refused as `address` does."""
        self.address(name)
        found = self._names.size(name)
        return found[0] if found and found[1] else None

    def name(self, address: int) -> str:
        """Returns the name of a byte address, perhaps with bytes after it: `Edit.Key + 0x8`. The text is empty if no name reaches
        it."""
        return self._names.text(address)

    def line(self, address: int) -> str:
        """Returns the source line of the instruction at a byte address: `edit.asm:12`. The text is empty if it is not known."""
        return self._names.source(address)
