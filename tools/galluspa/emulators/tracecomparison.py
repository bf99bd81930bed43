"""Compares the trace of another emulator with the machine in the run of a recording, up to the first line that differs.

It says who wrote the operands of the instruction that gave that line.
"""

import struct
from collections.abc import Callable, Iterator, Sequence
from dataclasses import dataclass

from galluspa.analysis.lastwrites import LastWrite, last_write
from galluspa.engine.recorded import RECORD_BYTES
from galluspa.engine.past import Past
from galluspa.engine.tracing import Run, Step, line
from galluspa.formats import states
from galluspa.formats.devicewords import LOADED
from galluspa.formats.instructions import address, is_store, operands_of
from galluspa.formats.recording import MEMORY_BYTES
from galluspa.formats.states import Processor
from galluspa.formats.tracefiles import ADDRESS, BITS, Row, TraceFile
from galluspa.process.cli import Failed
from galluspa.process.timelimit import TimeIsUp

# The number of counts of the machine that are recorded at once, and where in a record the processor is.
AT_ONCE = 1 << 14
PROCESSOR, PROCESSOR_AT = struct.Struct("<20I"), 8
# The number of instructions before one that are examined for those that wrote its operands; then a search follows.
NEAR = 1 << 12
OFTEN = 1 << 13
Part = str | int


class Processors:
    """The processors of a run at rising counts."""

    def __init__(self, run: Run) -> None:
        self._run = run
        self._machine = run.machine(0)
        self._window = memoryview(b"")
        self._first = 0

    def at(self, count: int) -> Processor:
        """Returns the processor at a count, which is above the one before."""
        place = RECORD_BYTES * (count - self._first)
        if place >= len(self._window):
            self._run.advance(self._machine, count)
            self._window = memoryview(self._run.library.records(self._machine, self._run.inputs, AT_ONCE)).cast("B")
            self._first, place = count, 0
        return PROCESSOR.unpack_from(self._window, place + PROCESSOR_AT)


@dataclass(frozen=True)
class Difference:
    """A column that differs: its name, what the trace has, and what the machine has."""

    name: str
    trace: int
    machine: int

    @property
    def texts(self) -> tuple[str, str]:
        """Both values as they are shown."""
        return shown(self.name, self.trace), shown(self.name, self.machine)


@dataclass(frozen=True)
class Parted:
    """The first line of a trace that differs from the machine, the line before it if there is one, and the columns that
    differ."""

    row: Row
    before: Row | None
    differences: Sequence[Difference]

    @property
    def instruction(self) -> int | None:
        """The count of the instruction after which they differ; None if the line before is not of that count."""
        return self.before.at if self.before and self.before.at == self.row.at - 1 else None


@dataclass(frozen=True)
class Compared:
    """What was compared: the first and the last line that are the same, how many these are, and where the trace parts from
    the machine, if it does."""

    first: Row | None
    last: Row | None
    lines: int
    parted: Parted | None


def shown(name: str, value: int) -> str:
    """Returns the value of a column as it is shown."""
    if name in BITS:
        return str(value)
    return f"{value:06X}" if name == ADDRESS else states.value(name, value)


def compare(run: Run, trace: TraceFile, heard: Callable[[int], None]) -> Compared:
    """Compares a trace with a run up to the first line that differs. Reports the count periodically."""
    processors, expected = Processors(run), trace.header.expected()
    first, last, lines = None, None, 0
    try:
        for row in trace.rows():
            wanted = expected(processors.at(row.at))
            if row.values != wanted:
                columns = zip(trace.header.compared, row.values, wanted, strict=True)
                differences = [Difference(*column) for column in columns if column[1] != column[2]]
                return Compared(first, last, lines, Parted(row, last, differences))
            first, last, lines = first or row, row, lines + 1
            if lines % OFTEN == 0:
                heard(row.at)
    except TimeIsUp as over:
        raise Failed(f"{over}: the same in {lines:,} lines" + (f", up to count {last.at}" if last else "")) from over
    return Compared(first, last, lines, None)


@dataclass(frozen=True)
class Gave:
    """The instruction after which a trace and the machine differ, as the machine does it; what the trace has before it and
    after it, by the names of its columns; and the last instructions that wrote its operands, in their order."""

    step: Step
    trace_before: dict[str, int]
    trace_after: dict[str, int]
    written: Sequence[tuple[str, LastWrite | None]]

    def trace_line(self) -> str:
        """Returns the line of the instruction as the trace has it: what changed there."""
        changed = self._trace_changes().items()
        return line(
            self.step,
            (f"{name} {shown(name, old)} → {shown(name, new)}" for name, (old, new) in changed if not self._goes_on(name)),
        )

    def _trace_changes(self) -> dict[str, tuple[int, int]]:
        """Returns the columns that the instruction changed in the trace, before and after it."""
        before, after = self.trace_before, self.trace_after
        return {name: (before[name], value) for name, value in after.items() if value != before[name]}

    def _goes_on(self, name: str) -> bool:
        """Returns whether a column is the program counter, which advanced to the next instruction."""
        words = {"PC": 1, ADDRESS: 4}
        return name in words and self.trace_after[name] == self.trace_before[name] + words[name]


def gave(run: Run, trace: TraceFile, parted: Parted) -> Gave | None:
    """Returns the instruction after which a trace and the machine differ, if its lines say which one that is, and the
    machine has not stopped before it."""
    count, before = parted.instruction, parted.before
    if count is None or before is None:
        return None
    run = Past.of(run)
    machine = run.machine(max(0, count - NEAR))
    steps = list(run.steps(machine, count + 1))
    if not steps or steps[-1].before.count != count:
        return None
    *earlier, step = steps
    operands = list(_operands(step))
    written = [(_name(part), _last_write(run, earlier, part, count)) for part in operands]
    before_it, after_it = (dict(zip(trace.header.compared, row.values, strict=True)) for row in (before, parted.row))
    return Gave(step, before_it, after_it, written)


def _operands(step: Step) -> Iterator[Part]:
    """Yields the parts of the state that an instruction reads; a word of memory by its address."""
    if step.word is None:
        return
    yield from operands_of(step.word)
    at = address(step.word, step.before.registers)
    if at is None or is_store(step.word):
        return
    if at < MEMORY_BYTES:
        yield at & ~3
    elif part := LOADED.get(at & ~3):
        yield part


def _last_write(run: Run, steps: Sequence[Step], part: Part, count: int) -> LastWrite | None:
    """Returns the last write of a part before a count: one of some instructions before it, if that changes the part, or one that is
    searched."""
    step = next((step for step in reversed(steps) if part in (*step.written, step.stored_at)), None)
    return LastWrite(0, step, step) if step and _changes(step, part) else last_write(run, part, 0, count)


def _changes(step: Step, part: Part) -> bool:
    """Returns whether an instruction changes a part."""
    if isinstance(part, int):
        return any(word.address == part for word in step.changed)
    return states.values(step.before)[part] != states.values(step.after)[part]


def _name(part: Part) -> str:
    """Returns how a part is called."""
    return f"Mem[{part:06X}]" if isinstance(part, int) else part
