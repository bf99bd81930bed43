"""Compares another emulator with the machine on random trials, in several processes, and makes small what differs."""

import contextlib
import os
import shutil
import signal
from collections.abc import Generator, Iterator, Sequence
from dataclasses import dataclass
from itertools import count as numbers
from multiprocessing import get_context
from multiprocessing.connection import Connection, wait
from multiprocessing.process import BaseProcess
from pathlib import Path

from galluspa.emulators.fuzzreports import Finding, finding_of, name_of
from galluspa.emulators.randomtrials import BATCH, trials
from galluspa.emulators.reduction import Reducer, ended
from galluspa.emulators.trialruns import TrialRunner, Parting, other_of
from galluspa.emulators.trials import Trial
from galluspa.engine.library import Library
from galluspa.process import children
from galluspa.process.cli import SIGNALS, Failed, Refused
from galluspa.process.timelimit import Limit
from galluspa.process.temporary import temporary_folder

# How many trials are written at once to a kept emulator.
AT_ONCE = 16
# Exit timeout of a process, in seconds.
ENDING_SECONDS = 2.0


@dataclass(frozen=True)
class Plan:
    """What is compared: the command of the other emulator, how long it may take for an answer, the parts that are not
    compared, the seed, and the numbers of the trials."""

    library: Library
    words: Sequence[str]
    seconds: float
    ignored: frozenset[str]
    seed: int
    numbers: range
    jobs: int


@dataclass
class Tally:
    """How many trials were made, and how many instructions they have."""

    trials: int = 0
    instructions: int = 0

    def add(self, more: "Tally") -> None:
        """Adds what was done elsewhere."""
        self.trials += more.trials
        self.instructions += more.instructions


@dataclass(frozen=True)
class Broken:
    """A failure of a process: the session at which it failed, if any, and the reason."""

    trial: Trial | None
    origin: str
    reason: str
    is_failure: bool = False


Message = Tally | Finding | Broken


class Comparison:
    """What a process compares: its trials, one after another."""

    def __init__(self, plan: Plan, folder: Path) -> None:
        self.plan = plan
        self.runner = TrialRunner(plan.library, other_of(plan.words, plan.seconds, plan.library, folder), plan.ignored)
        self.known: set[tuple[str, str]] = set()
        self._trial: Trial | None = None
        self._origin = ""

    def messages(self, process: int) -> Iterator[Message]:
        """Yields what is found in the batches of a process, and what was done."""
        plan = self.plan
        try:
            for batch in numbers(plan.numbers.start // BATCH + process, plan.jobs):
                if batch * BATCH >= plan.numbers.stop:
                    return
                yield from self._of_batch(batch)
        except Refused as refusal:
            yield Broken(self._trial, self._origin, str(refusal), isinstance(refusal, Failed))
        finally:
            self.runner.other.close()

    def _of_batch(self, batch: int) -> Iterator[Message]:
        numbered = enumerate(trials(self.plan.seed, batch), batch * BATCH)
        wanted = [(number, trial) for number, trial in numbered if number in self.plan.numbers]
        for first in range(0, len(wanted), AT_ONCE):
            tally, found = Tally(), list[Finding]()
            some = wanted[first : first + AT_ONCE]
            answers, refusal = self.runner.answers([trial for _, trial in some])
            for (number, trial), answer in zip(some, answers, strict=True):
                self._trial, self._origin = trial, f"session {number} of seed {self.plan.seed}"
                parting = self.runner.parting(trial, answer)
                tally.trials += 1
                tally.instructions += trial.count
                if parting and (finding := self._finding(trial)):
                    found.append(finding)
            yield tally
            yield from found
            if refusal:
                raise Refused(f"answers {len(some)} sessions alone, but not one after another: {refusal}")
        self._trial = None

    def _finding(self, trial: Trial) -> Finding | None:
        """Returns the difference of a trial, made small; None if it is one that is known already."""
        self.runner.other.close()
        first = next((count for count in range(trial.count + 1) if self.runner.parting(ended(trial, count))), None)
        if first == 0:
            raise Refused("differs before the first instruction: begin with the state and the pages of the session")
        trial = ended(trial, first or trial.count)
        difference = self._difference(trial, True)
        if difference is None:
            raise Refused("differs only after the sessions before it: keep nothing of one session for the next")
        if difference[0] in self.known:
            return None
        self.known.add(difference[0])
        small = self._smallest(trial, difference[0])
        found = self._difference(small, True)
        return finding_of(self.runner, small, found[1], found[2], self._origin) if found else None

    def _smallest(self, trial: Trial, key: tuple[str, str]) -> Trial:
        """Returns the trial made small. If what is left over from other trials has led astray, the emulator begins again
        for each."""
        for is_fresh in (False, True):

            def is_still(candidate: Trial, is_fresh: bool = is_fresh) -> bool:
                difference = self._difference(candidate, is_fresh)
                return difference is not None and difference[0] == key

            small = Reducer(self.plan.library, is_still).smallest(trial)
            if is_still(small, True):
                return small
        return trial

    def _difference(self, trial: Trial, is_fresh: bool) -> tuple[tuple[str, str], Parting, int | None] | None:
        """Returns the instruction and the part in which a trial differs at its end, and not before its last instruction;
        if it is fresh, with an emulator that begins anew for each of the two."""
        try:
            if self._parting(ended(trial, trial.count - 1), is_fresh):
                return None
            word = self.runner.next_word
            parting = self._parting(trial, is_fresh)
        except Refused:
            return None
        return ((name_of(word), parting.names[0]), parting, word) if parting else None

    def _parting(self, trial: Trial, is_fresh: bool) -> Parting | None:
        if is_fresh:
            self.runner.other.close()
        return self.runner.parting(trial)


def _work(plan: Plan, process: int, pipe: Connection, folder: Path, parent: int) -> None:
    """Does the work of a process, and sends what it finds."""
    # A group of its own, so that what is typed into the terminal goes to the tool alone, which ends it.
    os.setpgid(0, 0)
    with contextlib.suppress(children.Signalled, BrokenPipeError):
        try:
            signal.pthread_sigmask(signal.SIG_UNBLOCK, SIGNALS)
            children.begin_anew(parent)
            for message in Comparison(plan, folder).messages(process):
                pipe.send(message)
        finally:
            # What is left to do is little, and no signal is to break it.
            for number in SIGNALS:
                signal.signal(number, signal.SIG_IGN)
    if children.is_orphan(parent):
        shutil.rmtree(folder.parent, ignore_errors=True)


def compared(plan: Plan, limit: Limit) -> Generator[Message | None, None, None]:
    """Yields what several processes find, until the time limit; None periodically while they find nothing. A caller that takes no
    more has to close it, so that a signal that comes while the processes end is raised."""
    pipes, processes = list[Connection](), list[BaseProcess]()
    with temporary_folder() as folder:
        try:
            for process in range(plan.jobs):
                with children.shielded():
                    _begin(plan, process, folder, pipes, processes)
            while pipes and not limit.is_over:
                ready = wait(pipes, children.WAIT_SECONDS)
                if not ready:
                    yield None
                for pipe in [it for it in pipes if it in ready]:
                    yield from _received(pipe, pipes, processes)
        finally:
            with children.clearing_up():
                _end(processes)


def _begin(plan: Plan, process: int, folder: Path, pipes: list[Connection], processes: list[BaseProcess]) -> None:
    """Begins a process, with a pipe and a folder of its own."""
    context = get_context("fork")
    reader, writer = context.Pipe(duplex=False)
    own = folder / f"{process}"
    own.mkdir()
    begun = context.Process(target=_work, args=(plan, process, writer, own, os.getpid()), daemon=True)
    # No signal comes to the new process before it handles one.
    signal.pthread_sigmask(signal.SIG_BLOCK, SIGNALS)
    try:
        begun.start()
    finally:
        signal.pthread_sigmask(signal.SIG_UNBLOCK, SIGNALS)
    writer.close()
    processes.append(begun)
    pipes.append(reader)


def _received(pipe: Connection, pipes: list[Connection], processes: list[BaseProcess]) -> Iterator[Message]:
    """Yields the next message of a process; one that has ended is taken out."""
    try:
        message: Message = pipe.recv()
    except (EOFError, OSError):
        at = pipes.index(pipe)
        del pipes[at]
        ended_one = processes.pop(at)
        ended_one.join()
        if ended_one.exitcode:
            yield Broken(None, "", f"a process ended with status {ended_one.exitcode}", True)
        return
    yield message


def _end(processes: Sequence[BaseProcess]) -> None:
    """Ends processes, and what they run."""
    for process in processes:
        process.terminate()
    for process in processes:
        process.join(ENDING_SECONDS)
        if process.is_alive():
            process.kill()
            process.join()
