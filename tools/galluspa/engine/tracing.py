"""Traces the run of a recording one instruction at a time, with what each changed, on the library's machine.

A trace begins at the last checkpoint at or before a count that is known to be true, so the end of a run costs one
segment.
"""

from bisect import bisect_right
from collections.abc import Callable, Iterable, Iterator, Sequence
from copy import copy
from dataclasses import dataclass
from pathlib import Path

from galluspa.engine.library import Library, ignore
from galluspa.engine.machine import Inputs, Machine, Sent
from galluspa.engine.program import MOST_WORKERS, REFUSED, WORKERS, Answer, Program
from galluspa.engine.recorded import RawStep, raw_steps
from galluspa.formats import recording, states
from galluspa.formats.devicewords import MOST_KEYS
from galluspa.formats.instructions import address, is_store, mnemonic, writes
from galluspa.formats.recording import Checkpoint, Event, Recording
from galluspa.process.cli import Parser, Refused, progress, read_file, whole_number

COMPARED_AT_ONCE = 4096
OFTEN = 256


@dataclass(frozen=True)
class WordChange:
    """A word of memory, by the address of its first byte, and two values of it."""

    address: int
    old: int
    new: int

    @property
    def name(self) -> str:
        """Returns how the word is named."""
        return f"Mem[{self.address:06X}]"


@dataclass(frozen=True)
class Step:
    """An instruction that was done: its word, the inputs before it, and the machine before and after it.

    The state after it has the byte that it sent as its output. The word is None if the program counter is outside
    memory.
    """

    before: Checkpoint
    after: Checkpoint
    inputs: Sequence[Event]
    word: int | None
    changed: Sequence[WordChange]

    @property
    def stored_at(self) -> int | None:
        """Returns the address of the word that the instruction stores to, whether or not it changes; None if it stores
        nothing."""
        if self.word is None or self.after.stop or not is_store(self.word):
            return None
        at = address(self.word, self.before.registers)
        return None if at is None else at & ~3

    @property
    def written(self) -> frozenset[str]:
        """Returns the registers and flags that the instruction writes, whether or not their values change."""
        if self.word is None or self.after.stop:
            return frozenset()
        return writes(self.word, self.before.flags)


def add_workers_option(options: Parser) -> None:
    """Adds the option that says how many segments of a run are searched at the same time."""
    options.add_argument(
        "-j",
        "--jobs",
        metavar="N",
        type=whole_number(1, MOST_WORKERS),
        default=WORKERS,
        help="search N segments at the same time (default: the number of CPUs)",
    )


def differing(old: bytes, new: bytes) -> Iterator[WordChange]:
    """Yields the words in which two memories differ, by rising address."""
    for block in range(0, len(old), COMPARED_AT_ONCE):
        one, other = old[block : block + COMPARED_AT_ONCE], new[block : block + COMPARED_AT_ONCE]
        if one == other:
            continue
        for at, (was, now) in enumerate(zip(memoryview(one).cast("I"), memoryview(other).cast("I"), strict=True)):
            if was != now:
                yield WordChange(block + 4 * at, was, now)


class Run:
    """The machine of a lawful recording at any count, and its instructions one by one."""

    def __init__(self, library: Library, read: Recording, true: range) -> None:
        """The run of a recording from those of its checkpoints that are known, or are to be taken, to be true."""
        self.library = library
        self.read = read
        self.inputs = Inputs(read.events)
        self.counts = [checkpoint.count for checkpoint in read.checkpoints]
        self.true = true

    @staticmethod
    def begun(library: Library, content: bytes) -> "Run":
        """Returns the machine's run of a recording's initial state and inputs, whatever its checkpoints claim. Raises Refused for
        bytes that are not a recording."""
        library.claim(content, 0)
        return Run(library, recording.read(content), range(1))

    @staticmethod
    def of_answer(library: Library, read: Recording, answer: Answer) -> "Run":
        """Returns the run of a recording whose checkpoints are true, or are so before the one that the program's answer
        names."""
        return Run(library, read, range(answer.false_claim[0] if answer.false_claim else len(read.checkpoints)))

    @staticmethod
    def checked(library: Library, program: Program, path: Path, read: bytes | None = None) -> "Run":
        """Returns the run of the recording in a file, which may be read already, from those of its checkpoints that a check by all
        processors finds true."""
        text = read_file(path) if read is None else read
        progress("checking the recording")
        answer = program.check(text, WORKERS)
        progress("")
        if answer.status == REFUSED:
            raise Refused(f"{path}: {answer.line}")
        return Run.of_answer(library, recording.read(text), answer)

    @property
    def first_count(self) -> int:
        """Returns the count of the first checkpoint that is known, or is to be taken, to be true: the run begins there."""
        return self.counts[self.true.start]

    def with_library(self, library: Library) -> "Run":
        """Returns the same run, on another library."""
        run = copy(self)
        run.library = library
        return run

    def claimed(self, number: int) -> Machine:
        """Returns the machine that a checkpoint claims."""
        return Machine.claimed(self.read, number)

    def true_before(self, count: int) -> int | None:
        """Returns the last checkpoint at or before a count that is known to be true, or None."""
        number = bisect_right(self.counts, count, self.true.start, self.true.stop) - 1
        return number if number >= self.true.start else None

    def machine(self, count: int) -> Machine:
        """Returns the machine at a count."""
        start = self.true_before(count)
        if start is None:
            raise Refused(f"count {count} is before checkpoint {self.true[0]}, at {self.counts[self.true[0]]}")
        machine = self.claimed(start)
        self.advance(machine, count, lambda now: progress(f"at {now:,} of {count:,}"))
        progress("")
        return machine

    def advance(self, machine: Machine, to: int, heard: Callable[[int], None] = ignore) -> Sent:
        """Runs a machine up to a count, and returns what it sends. Reports counts on a long way."""
        return self.library.advance(machine, self.inputs, to, heard)

    def raw_steps(self, machine: Machine, to: int) -> Iterator[RawStep]:
        """Returns the instructions from a machine's count up to another, in numbers. The machine
        runs to the last one that the caller takes, also if the time limit expires first."""
        return raw_steps(self.library, machine, self.inputs, to)

    def steps(self, machine: Machine, to: int) -> Iterator[Step]:
        """Yields the same instructions, each with the states before and after it; one that stops is the last."""
        before = machine.seen()
        for raw in self.raw_steps(machine, to):
            after = _state_after(raw)
            changed = (WordChange(*raw.change),) if raw.change else ()
            yield Step(before, after, raw.inputs, raw.word, changed)
            before = after


class RunFrom(Run):
    """The run from a machine on, which stays as it is, with inputs."""

    def __init__(self, library: Library, start: Machine, inputs: Inputs) -> None:
        self.library, self.inputs = library, inputs
        self.counts, self.true = [start.count], range(1)
        self._start = start

    def machine(self, count: int) -> Machine:
        """Returns the machine at a count."""
        machine = self._start.copy()
        self.advance(machine, count)
        return machine


def _state_after(raw: RawStep) -> Checkpoint:
    """Returns the state after an instruction, with the byte that it sent as its output."""
    *registers, h, pc, flags, stop = raw.after
    sent = b"" if raw.sent is None else bytes([raw.sent])
    return Checkpoint(raw.at + 1, tuple(registers), h, pc, flags, stop, *raw.later, output=sent)


def step_of(raw: RawStep) -> Step:
    """Returns an instruction with the states before and after it. The one before it has no output."""
    *registers, h, pc, flags, stop = raw.before
    before = Checkpoint(raw.at, tuple(registers), h, pc, flags, stop, *raw.devices)
    return Step(before, _state_after(raw), raw.inputs, raw.word, (WordChange(*raw.change),) if raw.change else ())


def with_progress(steps: Iterable[Step], to: int) -> Iterator[Step]:
    """Yields the same instructions, up to a count, with a line of progress while they are looked at."""
    try:
        for step in steps:
            yield step
            if step.after.count % OFTEN == 0:
                progress(f"at {step.after.count:,} of {to:,}")
    finally:
        progress("")


def lines(step: Step) -> Iterator[str]:
    """Yields the lines that show an instruction: one for each input before it, and its own."""
    for event, is_dropped in zip(step.inputs, dropped(step)):
        yield f"{event.count:>10}  input   {states.event(event)}{', dropped' if is_dropped else ''}"
    yield line(step, changes(step))


def dropped(step: Step) -> Iterator[bool]:
    """Yields for each input before an instruction whether it is a key that the full queue drops."""
    room = MOST_KEYS - len(step.before.keys)
    for event in step.inputs:
        is_key = states.kind(event) == "key"
        yield is_key and room <= 0
        room -= is_key


def line(step: Step, changed: Iterable[str]) -> str:
    """Returns the line of an instruction, with what it is said to change."""
    return f"{step.before.count:>10}  {step.before.pc:>6}  {word_text(step.word)}  {'; '.join(changed)}".rstrip()


def word_text(word: int | None) -> str:
    """Returns the columns of a line that show an instruction's word."""
    return f"{'':8}  {'(no word)':22}" if word is None else f"{word:08X}  {mnemonic(word):22}"


def changes(step: Step) -> Iterator[str]:
    """Yields what an instruction and its inputs changed, and the byte that was sent. A program counter that advances by one is
    left out, and so is the phase of the timer."""
    goes_on = step.after.pc == (step.before.pc + 1) % (1 << 22)
    for name, old, new in states.changes(step.before, step.after):
        if name != "phase" and not (goes_on and name == "PC"):
            yield f"{name} {old} → {new}"
    for word in step.changed:
        yield f"{word.name} {word.old:08X} → {word.new:08X}"
    if step.after.output:
        yield f"sends {states.byte(step.after.output[0])}"
