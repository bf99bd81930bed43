"""What a fuzzer leaves of a difference: the session, its recording, its source, and what says which instruction is wrong, what
it should give and what it gave."""

from collections.abc import Iterator, Sequence
from dataclasses import dataclass
from itertools import islice

from galluspa.assembler.mnemonics import source_of
from galluspa.emulators.reduction import machine_of
from galluspa.emulators.trialruns import TrialRunner, Parting
from galluspa.emulators.trials import Trial
from galluspa.engine.machine import Machine
from galluspa.engine.tracing import Run, differing, lines
from galluspa.formats import recording, states
from galluspa.formats.instructions import CONDITIONS, MOVES, OPERATIONS, instruction, is_move, is_operation
from galluspa.formats.recording import Recording

WORDS_SHOWN = 16
FETCH = "fetch"
# The row of a state that is shown before, of the machine and of the other emulator.
Row = tuple[str, str, str, str]


def name_of(word: int | None) -> str:
    """Returns the name of an instruction without its marks; without a word, that of the fetch that stops."""
    if word is None:
        return FETCH
    if is_operation(word):
        return OPERATIONS[word >> 16 & 15]
    return MOVES[word >> 28 & 3] if is_move(word) else f"B{CONDITIONS[word >> 24 & 15]}"


@dataclass(frozen=True)
class Finding:
    """A difference that was made small: where it comes from, the trial, the instruction and the part that differ, the lines
    of its run, how many instructions it has in memory, and the rows of what the machine and the other emulator have."""

    origin: str
    trial: Trial
    word: int | None
    part: str
    run: list[str]
    instructions: int
    rows: list[Row]
    recording: bytes

    @property
    def key(self) -> tuple[str, str]:
        """Returns what tells it from others: the instruction and the part."""
        return name_of(self.word), self.part

    @property
    def headline(self) -> str:
        """Returns the instruction, and what differs after it."""
        mnemonic = "the fetch of no word" if self.word is None else instruction(self.word, 0).mnemonic
        return f"{mnemonic} differs in {self.part}"

    @property
    def size(self) -> str:
        """Returns how small it is."""
        instructions, inputs, steps = self.instructions, len(self.trial.inputs), self.trial.count
        small = f"{instructions} {'instruction' if instructions == 1 else 'instructions'}"
        small += f" in {steps} steps" if steps > instructions else ""
        return f"{small}, {inputs} {'input' if inputs == 1 else 'inputs'}; {self.origin}"

    def shown(self) -> Iterator[str]:
        """Yields the lines that say all of it; rows that neither differ nor change are left out."""
        yield from (self.headline, self.size, "", *self.run, "")
        yield from _columns([("", "before", "the machine", "the other"), *(row for row in self.rows if len(set(row[1:])) > 1)])

    def source(self) -> str:
        """Returns a source of the instructions, with what they begin with as comments."""
        trial, read = self.trial, recording.read(self.recording)
        first = read.checkpoints[0]
        parts = [f"{name} {text}" for name, text in states.texts(first).items()]
        begin = [f"; {', '.join(parts[at : at + 8])}" for at in range(0, len(parts), 8)]
        inputs = [f"; input at {event.count}: {states.event(event)}" for event in trial.inputs]
        return "\n".join([*begin, *inputs, f"        origin 0x{4 * trial.pc:X}", *_source(read, trial)]) + "\n"

    def files(self) -> dict[str, bytes]:
        """Returns the files that are left."""
        return {
            "session.json": self.trial.session().text().encode(),
            "recording.orsr": self.recording,
            "source.asm": self.source().encode(),
            "difference.txt": "".join(f"{line}\n" for line in self.shown()).encode(),
        }


def _source(read: Recording, trial: Trial) -> Iterator[str]:
    """Yields the lines of the words from the first instruction on, up to the first that is 0."""
    for at in range(trial.pc, recording.PLACES * recording.WORDS_IN_PAGE):
        word = read.word(read.checkpoints[0], at)
        if not word and at - trial.pc >= trial.count:
            return
        yield f"        {source_of(word)}"


def _columns(rows: Sequence[Row]) -> Iterator[str]:
    widths = [max(len(row[column]) for row in rows) for column in range(3)]
    for row in rows:
        yield "  ".join([*(f"{cell:{width}}" for cell, width in zip(row, widths)), row[3]]).rstrip()


def finding_of(runner: TrialRunner, trial: Trial, parting: Parting, word: int | None, origin: str) -> Finding:
    """Returns what is found in a trial at whose end both emulators differ, and not before its last instruction."""
    text = runner.library.record(trial.session().text().encode())
    read = recording.read(text)
    run = Run(runner.library, read, range(1))
    steps = list(run.steps(run.machine(0), trial.count))
    shown, places = [line for step in steps for line in lines(step)], {step.before.pc for step in steps}
    before = machine_of(runner.library, trial, trial.count - 1)
    return Finding(origin, trial, word, parting.names[0], shown, len(places), list(_rows(before, parting)), text)


def _rows(before: Machine, parting: Parting) -> Iterator[Row]:
    """Yields all parts of the states, before the last instruction and after it; of memory the words that differ or
    change."""
    old, own, other = states.values(before.seen()), states.values(parting.machine.seen()), parting.shown
    for name, value in own.items():
        shown = states.value(name, other.parts[name]) if name in other.parts else "not shown"
        yield name, states.value(name, old[name]), states.value(name, value), shown
    if other.sent is not None:
        yield "out", _bytes(b""), _bytes(parting.sent.first), _bytes(other.sent)
    if other.memory is None:
        yield from [("memory", "", "another", "")] * ("memory" in parting.names)
        return
    memory, others, olds = parting.machine.memory(), other.memory, before.memory()
    places = {it.address for it in islice(differing(others, memory), WORDS_SHOWN)}
    places |= {it.address for it in islice(differing(olds, memory), WORDS_SHOWN)}
    for place in sorted(places):
        one, two, three = (int.from_bytes(it[place : place + 4], "little") for it in (olds, memory, others))
        yield f"Mem[{place:06X}]", f"{one:08X}", f"{two:08X}", f"{three:08X}"


def _bytes(sent: bytes) -> str:
    return sent.hex(" ").upper() or "none"
