"""The proved machine in the run of a recording, for programs that import this package."""

import io
from collections.abc import Iterator, Mapping, Sequence
from dataclasses import dataclass
from functools import cached_property
from typing import TYPE_CHECKING, Self, TypeVar

from galluspa.analysis.addresses import address_in_memory, moment_of
from galluspa.analysis.conditions import conditions_of
from galluspa.analysis.inspection import screen_of
from galluspa.analysis.lastwrites import last_write_asked
from galluspa.analysis.naming import placed_lines
from galluspa.analysis.rawconditions import Condition
from galluspa.analysis.search import Hit, Search
from galluspa.analysis.writers import LINKS, MOST_LINKS, Writers, origins_asked
from galluspa.engine.library import Library
from galluspa.engine.machine import Machine as RawMachine
from galluspa.engine.following import EACH_RISE, Call as OpenCall, Follower
from galluspa.engine.past import Past
from galluspa.engine.program import Program
from galluspa.engine.tracing import Run, RunFrom, Step
from galluspa.formats import recording as recordings
from galluspa.formats.recording import MEMORY_BYTES, Checkpoint as State
from galluspa.formats.screens import pillow
from galluspa.formats.sessions import COUNTS
from galluspa.interface.names import Symbols
from galluspa.interface.origins import Origin
from galluspa.interface.verdicts import Buffer, content, number
from galluspa.process.cli import Refused

if TYPE_CHECKING:
    from PIL.Image import Image

T = TypeVar("T")
# The library takes the number of a checkpoint as a word of 32 bits.
MOST_CHECKPOINT = 0xFFFFFFFF


@dataclass(frozen=True)
class Call:
    """A call that has not returned: the count of its branch, the byte addresses of the branch and of the procedure that it leads
    to, R14 there, the names of both addresses, and the source line of the branch."""

    count: int
    address: int
    to: int
    sp: int
    name: str
    caller: str
    line: str

    def __str__(self) -> str:
        called, caller = self.name or f"0x{self.to:X}", self.caller or f"0x{self.address:X}"
        return f"{called}, called at {self.count:,} by {caller}{f', {self.line}' if self.line else ''}"


@dataclass(frozen=True)
class Write:
    """The instruction that wrote a part of the machine last, with its name and its source line; and the one that changed the part
    last, which is an earlier one if the last write left the value as it was, and None if nothing changed it."""

    step: Step
    change: Step | None
    name: str
    line: str
    text: str

    @property
    def count(self) -> int:
        """Returns the count of the instruction."""
        return self.step.before.count

    def __str__(self) -> str:
        return self.text


class Machine:
    """The proved machine in the run of a recording, at a count. It takes the inputs of the recording as it runs on."""

    def __init__(self, run: Run, count: int, symbols: Symbols | None = None) -> None:
        """The machine of a run at a count. `Recording.machine` and `Machine.claim` make one of a recording."""
        self._become(run, run.machine(count), symbols or Symbols())

    def _become(self, run: Run, machine: RawMachine, symbols: Symbols) -> None:
        self._run, self._there, self.symbols = run, machine, symbols
        self._is_closed = False
        self._follower: Follower | None = None

    @classmethod
    def _made(cls, run: Run, machine: RawMachine, symbols: Symbols) -> Self:
        """Returns a machine of a run that is where another one is."""
        made = object.__new__(cls)
        made._become(run, machine, symbols)
        return made

    @classmethod
    def claim(
        cls, recording: Buffer, checkpoint: int = 0, *, symbols: Symbols | None = None, library: Library | None = None
    ) -> "Machine":
        """Returns the machine that a checkpoint of a recording claims, true or not; checkpoint 0 is the initial state.
        Raises Refused if the bytes are not a recording, or if it has no such checkpoint."""
        library, text = library or Library.find(None), content("recording", recording)
        at = number("checkpoint", checkpoint, 0, MOST_CHECKPOINT)
        library.claim(text, at)
        read = recordings.read(text)
        return cls(Run(library, read, range(at, at + 1)), read.checkpoints[at].count, symbols)

    @classmethod
    def claims(cls, recording: Buffer, *, library: Library | None = None) -> Iterator["Machine"]:
        """Yields the machines that the checkpoints of a recording claim, true or not, from the initial state's on. The recording is
        not read anew for each. Raises Refused if the bytes are not a recording."""
        library, text = library or Library.find(None), content("recording", recording)
        library.claim(text, 0)
        read = recordings.read(text)
        for at in range(len(read.checkpoints)):
            run = Run(library, read, range(at, at + 1))
            yield cls._made(run, run.claimed(at), Symbols())

    def copy(self) -> "Machine":
        """Returns an independent machine in the same state."""
        return Machine._made(self._run, self._machine.copy(), self.symbols)

    def close(self) -> None:
        """Releases the memory. Each later use raises ValueError."""
        self._is_closed = True
        for name in ("_there", "_past"):
            self.__dict__.pop(name, None)
        self._follower = None

    def __enter__(self) -> Self:
        return self

    def __exit__(self, *_: object) -> None:
        self.close()

    def _check_open(self) -> None:
        """Raises ValueError if the machine is closed."""
        if self._is_closed:
            raise ValueError("this machine is closed")

    def _while_open(self, found: Iterator[T]) -> Iterator[T]:
        """Yields the same until the machine is closed; then raises ValueError."""
        for it in found:
            yield it
            self._check_open()

    @property
    def _machine(self) -> RawMachine:
        """Returns the library's machine. Raises ValueError if this one is closed."""
        self._check_open()
        return self._there

    @cached_property
    def _past(self) -> Past:
        """Returns the past of the run, in which each question about what was before is cheap."""
        return Past.of(self._run)

    @property
    def count(self) -> int:
        """Returns how many instructions were done."""
        return self._machine.count

    @property
    def end(self) -> int:
        """Returns the count of the last checkpoint. From there on the machine runs on without inputs."""
        self._check_open()
        return self._run.counts[-1]

    @property
    def state(self) -> State:
        """Returns the registers, the program counter, the flags and the devices."""
        return self._machine.seen()

    @property
    def has_stopped(self) -> bool:
        """Returns whether the machine has stopped, and does nothing any more."""
        return self._machine.state.stop > 0

    @property
    def registers(self) -> Mapping[str, int]:
        """Returns the values of R0 to R15 and of H by their names; SP is R14, and LNK R15."""
        values = {f"R{at}": value for at, value in enumerate(self.state.registers)}
        return {**values, "SP": values["R14"], "LNK": values["R15"], "H": self.state.h}

    def memory(self) -> bytes:
        """Returns the 1 MiB of memory; the lowest byte of a word comes first."""
        return self._machine.memory()

    def word(self, place: str | int) -> int:
        """Returns the word of memory that a byte address is in. `place` is the address, or what `galluspa state --memory` takes:
        `Edit.len`, `Edit.table+8`, `SP+4`. Raises Refused for what is none."""
        return self._machine.words[self._address(place) // 4]

    def data(self, place: str | int, length: int | None = None) -> bytes:
        """Returns bytes of memory from an address on, as many as a name has if no length is given. Raises Refused if the name's
        size is not known, and ValueError if they go beyond the memory."""
        first = self._address(place)
        if length is None:
            length = self.symbols.size(place) if isinstance(place, str) and place in self.symbols else None
            if length is None:
                raise Refused(f"{place}: no symbol file gives its size: pass a length")
        return self.memory()[first : first + number("length", length, 0, MEMORY_BYTES - first)]

    def _address(self, place: str | int) -> int:
        """Returns a byte address of memory. Raises Refused if a text denotes none, and ValueError if a number is not below 2^20."""
        if isinstance(place, str):
            return address_in_memory(place, moment_of(self._machine), self.symbols._names)
        return number("address", place, 0, MEMORY_BYTES - 1)

    def screen(self) -> "Image":
        """Returns the screen as a picture of Pillow, 1,024 by 768 dots of which 0 is black, drawn by the program. Raises Refused if
        Pillow is not installed, or if the program is not there."""
        image = pillow()
        with image.open(io.BytesIO(screen_of(self._machine, Program.find(None)))) as drawn:
            picture: "Image" = drawn.copy()
        return picture

    def calls(self, stack_limit: int = EACH_RISE) -> Sequence[Call]:
        """Returns the calls that have not returned, the innermost first, by the convention of Project Oberon: exactly, from the
        first count of the run on, which is that of the checkpoint for a machine of `Machine.claim`. With coroutines,
        `stack_limit` is the highest R14 of the main stack."""
        limit = number("stack_limit", stack_limit, 0, EACH_RISE)
        if self._follower is None or self._follower.limit != limit:
            self._follower = Follower(self._run.library, self._run.inputs, self._run.machine(self._run.first_count), limit)
        return [self._call(it) for it in reversed(self._follower.go(self.count))]

    def _call(self, raw: OpenCall) -> Call:
        names, at, to = self.symbols, 4 * raw.at, 4 * raw.to
        return Call(raw.count, at, to, raw.sp, names.name(to), names.name(at), names.line(at))

    def who(self, part: str | int) -> Write | None:
        """Returns the instruction before this count that wrote a part last; None if none did. `part` is a register, `LEDs`, an
        address, a name, `*SP+8`, or `dot X,Y`, which is written where it changes. Raises Refused for what is none."""
        moment, names = moment_of(self._machine), self.symbols
        found = last_write_asked(self._past, self._part(part), moment, names._names)
        if found is None:
            return None
        at = 4 * found.step.before.pc
        return Write(found.step, found.changed, names.name(at), names.line(at), placed_lines(found.step, names._names)[-1])

    def why(self, part: str | int, links: int = LINKS, stack_limit: int = EACH_RISE) -> Sequence[Origin]:
        """Returns where the value of a part comes from: who wrote it last, from which values, who wrote these, and so on, by at
        most `links` instructions, 1 to 200; one that writes a constant counts for none. Each is found by a search, so it is the
        last write indeed. `part` is a register, `flags`, `LEDs`, an address, a name, `*SP+8`, or `dot X,Y`. A word that several
        stores wrote has an Origin for the bytes of each. `stack_limit` is as for `calls`. Raises Refused for what is none."""
        most, limit = number("links", links, 1, MOST_LINKS), number("stack_limit", stack_limit, 0, EACH_RISE)
        writers, names = Writers(self._past, stack_limit=limit), self.symbols._names
        return [Origin.of(it, names) for it in origins_asked(writers, self._machine, self._part(part), names, most)]

    def _part(self, part: str | int) -> str:
        """Returns the text of a part; a number is the byte address of a word."""
        if not isinstance(part, str | int):
            raise TypeError(f"a part is a str or an int, not {type(part).__name__}")
        return part if isinstance(part, str) else f"0x{self._address(part) & ~3:X}"

    def _conditions(self, text: str) -> Sequence[Condition]:
        if not isinstance(text, str):
            raise TypeError(f"a condition is a str, not {type(text).__name__}")
        return conditions_of([text], self.symbols._names)

    def _count(self, to: int | None) -> int:
        """Returns a count to which the machine may run, by default that of the last checkpoint. Raises ValueError for one that has
        passed, or is above 2^40."""
        return number("count", max(self.end, self.count) if to is None else to, self.count, COUNTS)

    def advance(self, to: int) -> bytes:
        """Runs the machine up to a count, and returns the bytes that it sends: the first 4 MiB of them. Raises ValueError if the
        machine has passed that count, or if it is above 2^40."""
        return self._run.advance(self._machine, number("count", to, self.count, COUNTS)).first

    def run(self, until: str | None = None, to: int | None = None) -> Hit | None:
        """Runs the machine up to a count, by default that of the last checkpoint, or until an instruction comes at which a
        condition holds: it stops before that instruction, and returns the hit. Like a debugger's `continue` it does one
        instruction at least, so the next call runs to the next hit. Returns None if none comes; then the machine is at the
        count."""
        end = self._count(to)
        hit = self._search(until, self.count + 1, end).first() if until is not None and self.count + 1 < end else None
        self._run.advance(self._machine, hit.count if hit else end)
        return hit

    def find(self, condition: str, to: int | None = None, last: bool = False) -> Hit | None:
        """Returns the first instruction before a count at which a condition holds, or the last one; None if there is
        none. The machine stays as it is. `galluspa find --help` explains the conditions; of several, one has to hold.
        """
        search = self._search(condition, self.count, self._count(to))
        return search.last() if last else search.first()

    def hits(self, condition: str, to: int | None = None) -> Iterator[Hit]:
        """Returns the instructions before a count, by default that of the last checkpoint, at which a condition holds, in their
        order. The machine stays as it is."""
        return self._while_open(self._search(condition, self.count, self._count(to)).all(COUNTS))

    def _search(self, condition: str, first: int, to: int) -> Search:
        run = RunFrom(self._run.library, self._machine.copy(), self._run.inputs)
        return Search(run, self._conditions(condition), first, to)

    def steps(self, to: int) -> Iterator[Step]:
        """Yields the instructions up to a count, each with the states before and after it; one that stops is the last.
        The machine runs on with them."""
        return self._while_open(self._run.steps(self._machine, number("count", to, self.count, COUNTS)))

    def states(self, to: int, every: int = 1) -> Iterator[State]:
        """Yields the machine's state, those after each instruction, or after each `every` of them, and that of a count. If
        the machine stops, that state is the last. The machine runs on with them."""
        return self._while_open(self._states(number("count", to, self.count, COUNTS), number("every", every, 1, COUNTS)))

    def _states(self, to: int, every: int) -> Iterator[State]:
        yield self.state
        if every == 1:
            yield from (step.after for step in self.steps(to))
        else:
            while self.count < to and not self.has_stopped:
                self.advance(min(self.count + every, to))
                yield self.state
