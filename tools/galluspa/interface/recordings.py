"""Recordings, for programs that import this package."""

import os
import warnings
from collections.abc import Iterator, Sequence
from functools import cached_property
from pathlib import Path
from typing import Self

from galluspa.analysis.search import Hit
from galluspa.engine.library import Library
from galluspa.engine.past import Past
from galluspa.engine.program import Answer
from galluspa.engine.tracing import Run
from galluspa.formats.builds import misfit
from galluspa.formats.recording import Checkpoint as State
from galluspa.formats.sessions import COUNTS
from galluspa.formats.symbolfiles import file_beside
from galluspa.interface.inputs import Input
from galluspa.interface.machines import Machine
from galluspa.interface.names import Symbols
from galluspa.interface.verdicts import Buffer, Verdict, check, content, number
from galluspa.process.cli import Failed, Refused, read_file


class Recording:
    """A recording: what it claims, its verdict, and the machine at any count of its run."""

    def __init__(self, recording: Buffer, symbols: Symbols | None = None, *, library: Library | None = None) -> None:
        """Returns the recording of bytes. Raises Refused, with the verdict line, for others. A symbol file of another build
        gets a warning."""
        self._library = library or Library.find(None)
        self._content = content("recording", recording)
        self.symbols = symbols or Symbols()
        try:
            self._begun = Past(Run.begun(self._library, self._content))
        except Failed:
            raise
        except Refused as why:
            raise Refused(self._library.check(self._content)[0]) from why
        self._read = self._begun.read
        if self.symbols._names and (told := misfit(self.symbols._names, self._read.first_memory())):
            warnings.warn(told, stacklevel=2)

    @classmethod
    def open(cls, path: str | os.PathLike[str], symbols: Symbols | None = None, *, library: Library | None = None) -> "Recording":
        """Reads the recording in a file. Unless symbols are given, they are those of NAME.sym beside it, if that is there. Raises
        Refused if a file cannot be read, or is none."""
        if symbols is None and (beside := file_beside(Path(path))):
            symbols = Symbols.of(beside)
        try:
            return cls(read_file(Path(path)), symbols, library=library)
        except Failed:
            raise
        except Refused as why:
            raise Refused(str(why) if str(why).startswith(str(path)) else f"{path}: {why}") from why

    def close(self) -> None:
        """Releases the memory. Each later use raises ValueError; machines of the recording are not affected."""
        for name in ("_content", "_begun", "_checked", "_read"):
            self.__dict__.pop(name, None)

    def __enter__(self) -> Self:
        return self

    def __exit__(self, *_: object) -> None:
        self.close()

    def _is_open(self) -> None:
        """Raises ValueError if the recording is closed."""
        if "_read" not in self.__dict__:
            raise ValueError("this recording is closed")

    @property
    def content(self) -> bytes:
        """Returns the bytes of the recording."""
        self._is_open()
        return self._content

    @cached_property
    def verdict(self) -> Verdict:
        """Returns the verdict. The recording is replayed once, by one processor."""
        return check(self.content, library=self._library)

    @property
    def end(self) -> int:
        """Returns the count of the last checkpoint."""
        return self.checkpoints[-1].count

    @property
    def checkpoints(self) -> Sequence[State]:
        """Returns what the checkpoints claim, without their memory; checkpoint 0 is the initial state. The `output` of each has the
        bytes that were sent since the one before."""
        self._is_open()
        return self._read.checkpoints

    @property
    def inputs(self) -> Sequence[Input]:
        """Returns the inputs, in their order."""
        self._is_open()
        return list(map(Input.of, self._read.events))

    @property
    def sent(self) -> bytes:
        """Returns the bytes that the recording claims were sent."""
        return b"".join(it.output for it in self.checkpoints)

    @property
    def _run(self) -> Past:
        """Returns the run, from the checkpoints that are known to be true: the initial state, and others once there is a
        verdict."""
        self._is_open()
        return self._checked if "verdict" in self.__dict__ else self._begun

    @cached_property
    def _checked(self) -> Past:
        """Returns the run from the checkpoints that the verdict finds true."""
        answer = Answer(self.verdict.line.encode(), self.verdict.status)
        return Past(Run.of_answer(self._library, self._read, answer))

    def machine(self, at: int = 0) -> Machine:
        """Returns the machine at a count of the run, whatever the checkpoints claim. The run begins at the initial state, or once
        `verdict` was used, at the last true checkpoint; machines of many counts cost one run. Raises ValueError if the count is
        below 0 or above 2^40."""
        return Machine(self._run, number("count", at, 0, COUNTS), self.symbols)

    def claim(self, checkpoint: int) -> Machine:
        """Returns the machine that a checkpoint claims, true or not. Raises Refused if there is no such checkpoint."""
        return Machine.claim(self.content, checkpoint, symbols=self.symbols, library=self._library)

    def hits(self, condition: str, first: int = 0, to: int | None = None) -> Iterator[Hit]:
        """Returns the instructions in [first, to) at which a condition holds, in their order; `to` is by default the count of the
        last checkpoint."""
        return self.machine(first).hits(condition, to)
