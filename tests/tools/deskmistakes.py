"""Mistakes that people make in a program of six modules, examples/desk, as changes of a line: each shows in what a user sees in one of its
stored sessions. `drawn` takes one of each kind by a seed; docs/debugging.md finds those of SEED with the debugger alone.

    PYTHONPATH=tests:tools python3 tests/tools/deskmistakes.py FOLDER    plants those of SEED, each in a copy of the desk in FOLDER
"""

import random
import shutil
import sys
from collections.abc import Sequence
from dataclasses import dataclass
from pathlib import Path

from tests.tools.samples import EXAMPLES

DESK = EXAMPLES / "desk"
SEED = 2026
REGISTER, CONSTANT, MISSING, ORDER = "wrong register", "wrong constant", "missing instruction", "wrong order or branch"


@dataclass(frozen=True)
class DeskMistake:
    """A mistake: its kind, the module that has it, the procedure, the lines there that are replaced, and by which; and the stored session that
    shows it."""

    kind: str
    module: str
    procedure: str
    old: str
    new: str
    shows: str

    @property
    def name(self) -> str:
        """Returns a name for a folder."""
        return self.kind.split()[1]

    def plant(self, folder: Path) -> Path:
        """Writes the desk with the mistake into a folder, and returns its main module."""
        shutil.copytree(DESK, folder, ignore=shutil.ignore_patterns("tests"))
        path = folder / f"{self.module}.asm"
        path.write_text(self.changed(path.read_text()))
        return folder / "main.asm"

    def changed(self, source: str) -> str:
        """Returns a module with the mistake."""
        head, begin, rest = source.partition(f"{self.procedure}:\n")
        body, end, after = rest.partition("B LNK\n")
        assert begin and end and body.count(self.old) == 1, self
        return head + begin + body.replace(self.old, self.new) + end + after

    @property
    def line(self) -> int:
        """Returns the line of the mistake; of a missing instruction, the one that comes in its place."""
        before, after = ((DESK / f"{self.module}.asm").read_text(), self.changed((DESK / f"{self.module}.asm").read_text()))
        pairs = zip(before.splitlines(), after.splitlines())
        return next(at for at, (one, other) in enumerate(pairs, 1) if one != other)


def instruction(text: str) -> str:
    """Returns an instruction as a line of a source."""
    return f"        {text}\n"


def mistake(kind: str, place: str, shows: str, old: str, new: str) -> DeskMistake:
    """Returns a mistake in a procedure, whose instructions are parted by bars."""
    module, procedure = place.split(" ")
    before, after = ("".join(instruction(it) for it in text.split(" | ") if it) for text in (old, new))
    return DeskMistake(kind, module, procedure, before, after, shows)


MISTAKES = (
    mistake(REGISTER, "texts Texts.Place", "sum", "SUB R2, R4, R2", "SUB R2, R4, R1"),
    mistake(REGISTER, "calc Calc.Apply.add", "sum", "ADD R0, R1, R0", "ADD R0, R0, R0"),
    mistake(REGISTER, "main Oberon.Click", "click", "SUB R1, R1, 20", "SUB R1, R0, 20"),
    mistake(REGISTER, "texts Texts.IntAt", "sum", "STR R1, R3, 0", "STR R0, R3, 0"),
    mistake(REGISTER, "fonts Fonts.Draw.column", "sum", "MUL R1, R1, SCALE", "MUL R1, R0, SCALE"),
    mistake(CONSTANT, "main Oberon.Click", "click", "MOV R2, 41", "MOV R2, 14"),
    mistake(CONSTANT, "calc Calc.Number", "sum", "MUL R0, R0, 10", "MUL R0, R0, 8"),
    mistake(CONSTANT, "display Display.Dot", "sum", "AND R4, R0, 31", "AND R4, R0, 15"),
    mistake(CONSTANT, "fonts Fonts.Draw.known", "sum", "LSL R0, R0, 2", "LSL R0, R0, 3"),
    mistake(CONSTANT, "texts Texts.Line", "long", "ADD R0, R0, 1", "ADD R0, R0, 2"),
    mistake(MISSING, "calc Calc.Value.next", "sum", "LDR R1, SP, 4", ""),
    mistake(MISSING, "texts Texts.Rub", "rub", "STR R0, R3, 0", ""),
    mistake(MISSING, "calc Calc.Type.enter", "rub", "STR R0, R2, 0", ""),
    mistake(MISSING, "texts Texts.Int", "sum", "STR R1, SP, 4           ; the last digit", ""),
    mistake(MISSING, "display Display.Square", "click", "ADD R0, R0, R4", ""),
    mistake(ORDER, "display Display.Block.dot", "click", "BGT Display.Block.row", "BGE Display.Block.row"),
    mistake(ORDER, "main Oberon.Click.held", "click", "BNE Oberon.Click.held", "BEQ Oberon.Click.held"),
    mistake(ORDER, "fonts Fonts.Draw.next", "sum", "ASR R0, R0, 1 | STR R0, SP, 12", "STR R0, SP, 12 | ASR R0, R0, 1"),
    mistake(ORDER, "calc Calc.Type.rub", "rub", "SUB R1, R1, 1 | BMI Calc.Type.done", "SUB R1, R1, 1 | BPL Calc.Type.done"),
    mistake(ORDER, "texts Texts.Int.digits", "sum", "DIV R0, R0, 10 | MOV' R1, H", "MOV' R1, H | DIV R0, R0, 10"),
)


def drawn(seed: int) -> Sequence[DeskMistake]:
    """Returns a mistake of each kind, by a seed."""
    rng = random.Random(seed)
    return [rng.choice([it for it in MISTAKES if it.kind == kind]) for kind in (REGISTER, CONSTANT, MISSING, ORDER)]


if __name__ == "__main__":
    for it in drawn(SEED):
        print(it.kind, it.plant(Path(sys.argv[1]) / it.name), it.line, it.shows)
