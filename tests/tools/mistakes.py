"""Mistakes that people make in an emulator, as changes of reference/machine.h: those that a random program has to find and to make
small, and more that the suite has to find. Each is wrong in one thing alone."""

import re
from dataclasses import dataclass
from pathlib import Path

from tests.tools.samples import TOP

MACHINE = TOP / "reference/machine.h"


@dataclass(frozen=True)
class Mistake:
    """A mistake: its name, and what in the machine is replaced by what, text by text."""

    name: str
    changes: tuple[tuple[str, str], ...]

    def machine(self) -> str:
        """Returns the machine with the mistake."""
        text = MACHINE.read_text()
        for old, new in self.changes:
            assert text.count(old) == 1, (self.name, old)
            text = text.replace(old, new)
        return text

    def write(self, folder: Path) -> None:
        """Writes the machine with the mistake, and what reads recordings for it, into a folder."""
        folder.mkdir(parents=True, exist_ok=True)
        (folder / "machine.h").write_text(self.machine())
        for name in ("recording.h", "replay.h"):
            (folder / name).write_bytes((MACHINE.parent / name).read_bytes())


def mistakes() -> list[Mistake]:
    """Returns those of tables/machines.txt: the name, and what is replaced by what; a sign for Enter stands for a line feed."""
    lines = (TOP / "tests/tools/tables/machines.txt").read_text().replace("⏎", "\n")
    rows = (line.partition(": ") for line in re.split(r"\n(?=\S)", lines.strip()) if not line.startswith("# "))
    parted = ((name, [it.partition(" ⇒") for it in changes.split(" ¦ ")]) for name, _, changes in rows)
    return [Mistake(name, tuple((old, new.strip()) for old, _, new in changes)) for name, changes in parted]


RIGHT = Mistake("none", ())
ALL = mistakes()
# Those that a program of at most three instructions shows, and one for which something has to be there before the wrong instruction.
FREQUENT, DECODED = ALL[:10], ALL[10]
