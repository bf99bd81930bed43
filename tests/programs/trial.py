"""Records a program with many checkpoints and with few, and compares all that is said of it.

With a checkpoint at every count the machine starts again at each instruction, so nothing that it decoded or deferred
is left from the one before; and with checkpoints that are close together it skips no idle loop. With few checkpoints it
runs on. All have to reach the same states, and the check and the C replayers, which are independent emulators and do one
instruction after another, have to accept all of them. The library has to count and trace the instructions as a machine in C does.
"""

import re
import subprocess
from collections.abc import Iterator, Mapping, Sequence
from dataclasses import dataclass, field, replace
from pathlib import Path
from tempfile import TemporaryDirectory

from galluspa.engine.library import Library
from galluspa.engine.program import Program
from galluspa.formats import states
from galluspa.formats.recording import PAGE_BYTES, Checkpoint, Recording, read, write
from galluspa.formats.sessions import Session
from tests.programs.counting import differences

DENSE, FEW, ONE = "many checkpoints", "a few checkpoints", "one checkpoint at the end"
MOST_CHECKPOINTS = 4096
WORKERS = (1, 4)
FALSE_LINE = re.compile(r"false checkpoint \d+ at (\d+) part (.*)")


@dataclass(frozen=True)
class Case:
    """A program: its name, its session without checkpoints, for how many counts it runs, a few of these counts, and many, with the few
    among them; or all, if it names none."""

    name: str
    session: Session
    counts: int
    few: list[int]
    many: list[int] = field(default_factory=list)

    @property
    def dense(self) -> Sequence[int]:
        """The counts of the recording with many checkpoints."""
        return self.many or range(1, self.counts + 1)

    @property
    def file_name(self) -> str:
        """The name as that of a file."""
        return re.sub(r"[^\w-]+", "-", self.name)


@dataclass(frozen=True)
class Finding:
    """Something that is not as it has to be: the count and the part where that shows first, and what showed it."""

    count: int
    part: str
    shown_by: str

    def __str__(self) -> str:
        return f"count {self.count}, part {self.part}: {self.shown_by}"


@dataclass(frozen=True)
class Witnesses:
    """The program and the library that are tried, the C replayers by their names, and the counter in C."""

    program: Path
    library: Library
    replayers: Mapping[str, Path]
    counter: Path

    def record(self, case: Case, checkpoints: Sequence[int]) -> bytes:
        """Returns the recording of a program with checkpoints at these counts."""
        session = replace(case.session, checkpoints=list(checkpoints))
        return Program(self.program).recorded(session.text().encode(), f"{case.name}: ")

    def recordings(self, case: Case) -> dict[str, bytes]:
        """Returns the three recordings of a program, by what checkpoints they have."""
        counts = {DENSE: case.dense, FEW: case.few, ONE: [case.counts]}
        return {name: self.record(case, checkpoints) for name, checkpoints in counts.items()}


def findings(witnesses: Witnesses, case: Case, texts: Mapping[str, bytes], folder: Path) -> list[Finding]:
    """Returns all that is wrong with the recordings of a program, the smallest count first."""
    with TemporaryDirectory(dir=folder) as own:
        files = {name: Path(own) / f"{at}.orsr" for at, name in enumerate(texts)}
        for name, text in texts.items():
            files[name].write_bytes(text)
        found = [
            *_states_apart(read(texts[DENSE]), {name: read(text) for name, text in texts.items() if name != DENSE}),
            *_checks(witnesses, case, files),
            *_replays(witnesses, case, files),
            *_counts(witnesses, case, texts, files[ONE]),
        ]
    return sorted(found, key=lambda finding: finding.count)


def _checks(witnesses: Witnesses, case: Case, files: Mapping[str, Path]) -> Iterator[Finding]:
    """Yields what the program's check finds, with one worker and with several."""
    for name, path in files.items():
        for workers in WORKERS:
            line = Program(witnesses.program).check_file(path, workers).line
            yield from _of_line(case, line, f"check --workers {workers} of the recording with {name}")


def _replays(witnesses: Witnesses, case: Case, files: Mapping[str, Path]) -> Iterator[Finding]:
    """Yields what the C replayers find."""
    for replayer, path in witnesses.replayers.items():
        ran = subprocess.run([path, *files.values()], stdout=subprocess.PIPE, check=False)
        lines = ran.stdout.decode("ascii", "replace").splitlines()
        for at, name in enumerate(files):
            line = lines[at].removeprefix(f"{files[name]}: ") if at < len(lines) else f"no line, and status {ran.returncode}"
            yield from _of_line(case, line, f"{replayer} on the recording with {name}")


def _counts(witnesses: Witnesses, case: Case, texts: Mapping[str, bytes], path: Path) -> Iterator[Finding]:
    """Yields what is wrong with the counts of the recording with one checkpoint."""
    states = read(texts[DENSE])
    apart = differences(witnesses.library, witnesses.counter, texts[ONE], path, case.few[0], states)
    yield from (Finding(count, part, shown_by) for count, part, shown_by in apart)


def _of_line(case: Case, line: str, shown_by: str) -> Iterator[Finding]:
    """Yields what a line finds; a line that is neither accepted nor false is one of count 0."""
    if false := FALSE_LINE.fullmatch(line):
        yield Finding(int(false[1]), false[2], shown_by)
    elif not re.fullmatch(rf"accepted \d+ checkpoints {case.counts} steps", line):
        yield Finding(0, "none", f"{shown_by} printed {line!r}")


def _states_apart(dense: Recording, others: Mapping[str, Recording]) -> Iterator[Finding]:
    """Yields the first checkpoint of each recording that differs from the one at the same count of the dense recording."""
    reached, all_sent = {}, b""
    for checkpoint in dense.checkpoints:
        all_sent += checkpoint.output
        reached[checkpoint.count] = checkpoint, len(all_sent)
    for name, other in others.items():
        sent = b""
        for checkpoint in other.checkpoints:
            sent += checkpoint.output
            wanted, length = reached[checkpoint.count]
            part = _first_difference(dense, wanted, other, checkpoint)
            if not part and sent != all_sent[:length]:
                part = "out"
            if part:
                yield Finding(checkpoint.count, part, f"the recording with {name} differs from that with {DENSE}")
                break


def _first_difference(dense: Recording, wanted: Checkpoint, other: Recording, claimed: Checkpoint) -> str:
    """Returns the first part in which two checkpoints differ but for what was sent; empty if there is none."""
    claimed_values = states.values(claimed)
    parts = [name for name, value in states.values(wanted).items() if claimed_values[name] != value]
    if not parts:
        numbers = enumerate(zip(wanted.table, claimed.table, strict=True))
        parts = [f"page {at}" for at, (one, two) in numbers if (one or two) and dense.page(one) != other.page(two)]
    return parts[0] if parts else ""


def smallest_apart(witnesses: Witnesses, case: Case, found: Finding) -> Finding:
    """Returns a finding, or one of a smaller count: the first at which a run without checkpoints on the way is another. Of a run
    that is too long to have a checkpoint at each count, the finding itself."""
    if found.count > MOST_CHECKPOINTS:
        return found
    dense = read(witnesses.record(case, range(1, found.count + 1)))
    for count in range(1, found.count):
        alone = read(witnesses.record(case, [count]))
        for apart in _states_apart(dense, {f"one checkpoint at {count}": alone}):
            return apart
    return found


def altered(text: bytes, checkpoint: int, register: int) -> bytes:
    """Returns a recording with the lowest bit of a register turned at a checkpoint."""
    recording = read(text)
    claimed = recording.checkpoints[checkpoint]
    registers = [value ^ (at == register) for at, value in enumerate(claimed.registers)]
    recording.checkpoints[checkpoint] = replace(claimed, registers=tuple(registers))
    return write(recording)


def memory_of(words: Mapping[int, int] | Sequence[int]) -> bytes:
    """Returns a memory that begins with these words, or has them at these places."""
    placed = words if isinstance(words, Mapping) else dict(enumerate(words))
    memory = bytearray(-(-4 * (max(placed) + 1) // PAGE_BYTES) * PAGE_BYTES)
    for at, word in placed.items():
        memory[4 * at : 4 * at + 4] = word.to_bytes(4, "little")
    return bytes(memory)
