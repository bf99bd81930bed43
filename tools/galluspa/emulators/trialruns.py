"""Runs trials on the proved machine and on another emulator, which is a command for each or a persistent process, and
says in which parts they differ."""

import ctypes
from collections.abc import Sequence, Set
from dataclasses import dataclass
from pathlib import Path
from typing import Protocol

from galluspa.emulators.oneshot import PLACE, Emulator, Shown, has
from galluspa.emulators.persistent import Answer, KeptEmulator
from galluspa.emulators.trials import NO_DISK, Trial
from galluspa.engine.library import Library
from galluspa.engine.machine import Inputs, Machine, Sent
from galluspa.engine.structures import RawState, Words
from galluspa.formats.recording import MEMORY_BYTES, NO_PAGE, PAGE_BYTES, WORDS
from galluspa.process.cli import Refused, write_file

ZEROS = bytes(MEMORY_BYTES)
# A state of the library begins with its count; the rest is that of a kept emulator.
COUNT_BYTES = 8
# What stands for the files of a trial in a command, besides {count}.
SESSION, RECORDING, MEMORY = "{session}", "{recording}", "{memory}"


class Other(Protocol):
    """Another emulator."""

    def answer(self, trial: Trial) -> Answer | Shown:
        """Returns what it has at the end of a trial."""

    def close(self) -> None:
        """Ends what it keeps; it begins again with the next trial."""


class Commanded:
    """Another emulator, as a command for each trial; files of the trial are in a folder."""

    def __init__(self, words: Sequence[str], seconds: float, library: Library, folder: Path) -> None:
        self._words, self._seconds, self._library, self._folder = words, seconds, library, folder

    def answer(self, trial: Trial) -> Shown:
        """Returns what the command prints."""
        words = self._words
        for name, path in files_of(words, trial, self._library, self._folder).items():
            words = [word.replace(name, path) for word in words]
        return Emulator(words, self._seconds).at(trial.count)

    def close(self) -> None:
        """Keeps nothing."""


def files_of(words: Sequence[str], trial: Trial, library: Library, folder: Path) -> dict[str, str]:
    """Returns the names of the files of a trial that a command names, which are written into a folder."""
    text = trial.session().text().encode()
    files = {
        name: str(folder / file)
        for name, file in ((SESSION, "session.json"), (RECORDING, "recording.orsr"), (MEMORY, "memory.bin"))
    }
    for name, content in ((SESSION, lambda: text), (RECORDING, lambda: library.record(text))):
        if has(words, name):
            write_file(files[name], content())
    return files


def other_of(words: Sequence[str], seconds: float, library: Library, folder: Path) -> Other:
    """Returns the other emulator: a command that names a count, or else a persistent process."""
    if has(words, PLACE):
        return Commanded(words, seconds, library, folder)
    return KeptEmulator(words, seconds)


@dataclass(frozen=True)
class Parting:
    """The end of a trial at which two emulators differ: the proved machine with what it sent, what the other one shows,
    and the parts in which they differ."""

    machine: Machine
    sent: Sent
    shown: Shown
    names: list[str]


class TrialRunner:
    """The proved machine, on a memory that is used again for each trial, and another emulator beside it."""

    def __init__(self, library: Library, other: Other, ignored: Set[str] = frozenset()) -> None:
        self.library, self.other, self.ignored = library, other, ignored
        self._memory, self._raw = bytearray(MEMORY_BYTES), bytearray(ctypes.sizeof(RawState))
        self._machine = Machine(RawState.from_buffer(self._raw), Words.from_buffer(self._memory))
        # The word of the instruction that comes after the last trial, if there is one.
        self.next_word: int | None = None

    def answers(self, trials: Sequence[Trial]) -> tuple[Sequence[Answer | None], Refused | None]:
        """Returns what the other emulator has at the ends of trials, if it answers all of them at once. It is None for
        each that runs alone: of an emulator that is not kept, or of one that does not answer all, with the
        reason."""
        nothing = [None] * len(trials)
        if not isinstance(self.other, KeptEmulator):
            return nothing, None
        try:
            return self.other.answers(trials), None
        except Refused as refusal:
            return nothing, refusal

    def parting(self, trial: Trial, answer: Answer | None = None) -> Parting | None:
        """Returns how both differ at the end of a trial, to which there may be an answer already; None if they are the
        same."""
        sent = self.run(trial)
        try:
            shown = answer or self.other.answer(trial)
            if isinstance(shown, Answer):
                if self._is_same(shown, sent):
                    return None
                shown = shown.shown()
            names = [name for name in shown.differing(self._machine, sent) if name not in self.ignored]
            return Parting(self._machine.copy(), sent, shown, names) if names else None
        finally:
            if self._memory != ZEROS:
                self._memory[:] = ZEROS

    def run(self, trial: Trial) -> Sent:
        """Runs the proved machine to the end of a trial."""
        self._raw[:] = bytes(COUNT_BYTES) + trial.state() + NO_DISK
        for slot, page in trial.pages.items():
            self._memory[slot * PAGE_BYTES : (slot + 1) * PAGE_BYTES] = page
        sent = self.library.advance(self._machine, Inputs(trial.inputs), trial.count)
        pc = self._machine.state.pc
        self.next_word = self._machine.words[pc] if pc < WORDS else None
        return sent

    def _is_same(self, answer: Answer, sent: Sent) -> bool:
        """Returns whether all parts are the same; then the memory is that of zeros again."""
        if answer.sent != sent.first or answer.state != self._raw[COUNT_BYTES : -len(NO_DISK)]:
            return False
        memory = self._memory
        if any(memory[slot * PAGE_BYTES : (slot + 1) * PAGE_BYTES] != page for slot, page in answer.pages.items()):
            return False
        for slot in answer.pages:
            memory[slot * PAGE_BYTES : (slot + 1) * PAGE_BYTES] = NO_PAGE
        if memory == ZEROS:
            return True
        for slot, page in answer.pages.items():
            memory[slot * PAGE_BYTES : (slot + 1) * PAGE_BYTES] = page
        return False
