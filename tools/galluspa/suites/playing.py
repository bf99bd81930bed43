"""Plays the events of a script in the run of an image: the proved library finds the count of each."""

from collections.abc import Sequence
from dataclasses import dataclass, field

from galluspa.analysis.conditions import conditions_of
from galluspa.analysis.drawing import Mask, OpenCounts
from galluspa.analysis.rawconditions import CHANGE, LOAD, SENDS, STOPS, Condition, Raw
from galluspa.analysis.search import Search
from galluspa.engine.library import Library, ignore
from galluspa.engine.machine import Inputs, Machine
from galluspa.engine.recorded import RawStep
from galluspa.engine.tracing import Run, RunFrom
from galluspa.formats.devicewords import MOST_KEYS, RECEIVED
from galluspa.formats.recording import DISPLAY_END, DISPLAY_START, MOST_SENT, STOPS as STOP_NAMES, WORD, Event
from galluspa.formats.scripts import COUNT, POLLS, SENDS as SENDS_TEXT, STILL_FOR, Input, Look, Mask as Part, Script
from galluspa.formats.sessions import CHECKPOINTS, COUNTS, INPUTS, KIND_NUMBERS
from galluspa.formats.symbols import Symbols, address_of, shown
from galluspa.process.cli import Refused

# The bytes of device words by which a program learns of the inputs of a kind, and of those that take a key or a byte.
POLLED = {
    "key": (0xFFFFD8, 0xFFFFE0),
    "serial": (0xFFFFC8, 0xFFFFD0),
    "mouse": (0xFFFFD8, 0xFFFFDC),
    "switches": (0xFFFFC4, 0xFFFFC8),
    "timer": (0xFFFFC0, 0xFFFFC4),
    "disk": (0xFFFFD0, 0xFFFFD4),
}
TAKES_KEY, TAKES_BYTE = (0xFFFFDC, 0xFFFFE0), (0xFFFFC8, 0xFFFFCC)
CHANGES_SCREEN = Condition("the screen changes", (Raw(CHANGE, DISPLAY_START, DISPLAY_END, WORD), Raw(SENDS)))
STOPPING = Condition("stop", (Raw(STOPS),))
# The number of instructions in whose bytes a sent text is sought at first, then twice as many each time.
FIRST_STEPS = 1 << 16


class Never(Exception):
    """An event does not come; its text says why, and `end` is the first count at which the machine is stopped, or up to which it
    was waited for. If the screen changes, or bytes are sent, that should be still, `last` is the last instruction that did so."""

    def __init__(self, why: str, end: int, is_stopped: bool = False, last: RawStep | None = None) -> None:
        super().__init__(why)
        self.end = end
        self.is_stopped = is_stopped
        self.last = last

    def again(self) -> "Never":
        """Returns the same, to be raised in another thread."""
        return Never(str(self), self.end, self.is_stopped, self.last)


@dataclass
class Playing:
    """The run of an image as far as events have come: a machine on the way, the inputs and the looks with their counts, the keys
    that the full queue dropped, and the count of the last event."""

    library: Library
    machine: Machine
    symbols: Symbols
    script: Script
    inputs: list[Event] = field(default_factory=list)
    looks: list[tuple[int, Look]] = field(default_factory=list)
    dropped: list[Input] = field(default_factory=list)
    last: int | None = None

    def __post_init__(self) -> None:
        self.start = self.machine.copy()
        # The machine where the event before began, as a text does with its first byte, and which event of the script that is.
        self._before, self._begun = -1, self.start
        # The count of the last key, and how many keys wait after it.
        self._queue = (-1, 0)
        self._open: dict[tuple[int, ...], OpenCounts] = {}

    def play(self, event: Input | Look) -> None:
        """Finds the count of the next event. Raises Never if it does not come."""
        self.take(event, self.find(event))

    def take(self, event: Input | Look, count: int) -> None:
        """Adds the next event, which comes at a count."""
        if isinstance(event, Look):
            self.looks.append((count, event))
        else:
            if event.kind == "key":
                self._take_key(event, count)
            self.inputs.append(Event(count, KIND_NUMBERS[event.kind], event.value))
        if count > COUNTS or len(self.looks) > CHECKPOINTS or len(self.inputs) > INPUTS:
            raise Refused(f"a session has at most {CHECKPOINTS:,} looks and {INPUTS:,} inputs, up to count {COUNTS:,}")
        self.last = count
        if event.at != self._before:
            self._before, self._begun = event.at, self.at(count)

    def _take_key(self, event: Input, count: int) -> None:
        """Notes whether the queue takes a key that comes at a count."""
        self._advance(count)
        waiting = self._queue[1] if self._queue[0] == count else self.machine.state.key_count
        if waiting == MOST_KEYS:
            self.dropped.append(event)
        self._queue = (count, min(waiting + 1, MOST_KEYS))

    def find(self, event: Input | Look) -> int:
        """Returns the count of the next event, which is not added. Raises Never if it does not come."""
        when, is_look = event.when, isinstance(event, Look)
        begin = max(self.last or 0, when.first)
        after = max(0 if self.last is None else self.last + 1, when.first)
        least = max(after, 1) if is_look else begin
        if isinstance(when.value, int):
            return max(self._of_number(event, begin), least)
        end = begin + self.script.patience
        if when.member == SENDS_TEXT:
            return max(self._sent(when.value.encode("latin-1"), max(self._begun.count, when.first), end), least)
        # Counts are searched up to one that is not among them.
        if when.member == POLLS:
            return max(self._polled(when.value, after, end + 1), least)
        return max(self._found(conditions_of([when.value], self.symbols), after, end + 1), least)

    def _of_number(self, event: Input | Look, begin: int) -> int:
        """Returns the count that a number says, without regard to the event before."""
        number, member = int(event.when.value), event.when.member
        if member == STILL_FOR:
            return self._still(event, number, begin)
        return number if member == COUNT else begin + number

    def at(self, count: int) -> Machine:
        """Returns the machine at a count that has come, or at which the next event comes."""
        self._advance(count)
        return self.machine.copy()

    def _advance(self, to: int) -> None:
        """Takes the machine up to a count, if it is not there yet, with the inputs on the way."""
        if self.machine.count < to:
            self.library.advance(self.machine, self._pending(self.machine), to)

    def _pending(self, machine: Machine) -> Inputs:
        """Returns the inputs that a machine has not taken yet: the last ones."""
        first = len(self.inputs)
        while first and self.inputs[first - 1].count >= machine.count:
            first -= 1
        return Inputs(self.inputs[first:])

    def _ahead(self) -> RunFrom:
        return RunFrom(self.library, self.machine, self._pending(self.machine))

    def _found(self, conditions: Sequence[Condition], first: int, end: int) -> int:
        """Returns the first count from one up to another at which a condition holds; the machine goes there."""
        self._advance(first)
        hit = Search(self._ahead(), conditions, first, end, tell=ignore).first() if first < end else None
        if hit is None:
            raise self._never(end - 1)
        self._advance(hit.count)
        return hit.count

    def _polled(self, kind: str, first: int, end: int) -> int:
        """Returns the first count from one up to another at which the machine polls a kind of input and has none of it."""
        self._advance(first)
        while (kind == "key" and self.machine.state.key_count) or (kind == "serial" and self.machine.state.serial >= RECEIVED):
            taken = self._found([_load(*(TAKES_KEY if kind == "key" else TAKES_BYTE))], first, end)
            first = taken + 1
            self._advance(first)
        return self._found([_load(*POLLED[kind])], first, end)

    def _still(self, event: Input | Look, number: int, first: int) -> int:
        """Returns the first count before which `number` instructions changed nothing that a user sees and that counts."""
        end, parts, last = first + self.script.patience, self.script.mask_of(event), None
        while number and first + number <= end:
            self._advance(first)
            last = self._last_change(event, parts, first, first + number)
            if last is None:
                return first + number
            first = last.at + 1
        if number:
            raise self._never(end, last)
        return first

    def _last_change(self, event: Input | Look, parts: Sequence[Part], first: int, end: int) -> RawStep | None:
        """Returns the last instruction in [first, end) that changes the screen or sends a byte; the machine is at the first one."""
        search = Search(self._ahead(), [CHANGES_SCREEN], first, end, tell=ignore)
        if not parts:
            hit = search.last()
            return hit.raw if hit else None
        mask, procedures = self.mask(event)
        drawing = self._open.setdefault(procedures, OpenCounts(self.library, self.start, procedures))
        drawing.follow(Inputs(self.inputs), end)
        last = None
        for hit in search.all(COUNTS):
            if hit.raw.change is None or not (self._covers(mask, hit.raw.change) or drawing.has(hit.count)):
                last = hit.raw
        return last

    @staticmethod
    def _covers(mask: Mask, change: tuple[int, int, int]) -> bool:
        """Returns whether a change of a word of the screen changes masked dots alone."""
        address, old, new = change
        return mask.covers(address, old ^ new)

    def mask(self, event: Input | Look) -> tuple[Mask, tuple[int, ...]]:
        """Returns the rectangles of the screen that do not count for an event, and the first words of the procedures of which
        nothing that they draw counts. Raises Refused for a name that is none of a procedure."""
        mask = Mask()
        for part in self.script.mask_of(event):
            if not isinstance(part, str):
                mask.add(*part)
        return mask, tuple(self.procedures(event).values())

    def procedures(self, event: Input | Look) -> dict[str, int]:
        """Returns the first words of the procedures of which nothing that they draw counts for an event, by their names. Raises
        Refused for a name that is none of a procedure."""
        return {part: self._procedure(event, part) for part in self.script.mask_of(event) if isinstance(part, str)}

    def _procedure(self, event: Input | Look, name: str) -> int:
        """Returns the first word of a procedure."""
        try:
            address, meant = address_of(self.symbols, name), self.symbols.meant(name)
            why = f"no symbol is called {shown(name)}" + (f": did you mean {meant}?" if meant else "")
        except ValueError as several:
            address, why = None, str(several)
        if address is not None and (address % 4 or self.symbols.is_data(address)):
            address, why = None, f"{shown(name)} is not a name of code"
        if address is None:
            raise Refused(f"{self.script.place(event.at)}: mask: {why}")
        return address // 4

    def _sent(self, text: bytes, first: int, end: int) -> int:
        """Returns the first count up to which the instructions from one on sent a text; the one may be before the machine's."""
        begun = self._begun
        run, sent, steps = RunFrom(self.library, begun, self._pending(begun)), b"", FIRST_STEPS
        machine = run.machine(first)
        while machine.count < end and not machine.state.stop:
            before = machine.copy()
            more = run.advance(machine, min(machine.count + steps, end)).first
            found = (sent + more).find(text, max(len(sent) - len(text) + 1, 0))
            if found >= 0:
                return count_of_sent(run, before, machine.count, found + len(text) - len(sent))
            sent, steps = sent + more, 2 * steps
            if len(sent) > MOST_SENT:
                raise Refused(f"more than {MOST_SENT:,} bytes are sent, and a recording holds no more")
        raise self._never(end)

    def _never(self, end: int, last: RawStep | None = None) -> Never:
        """Returns what says why nothing was found up to a count."""
        machine = self._ahead().machine(max(end, self.machine.count))
        if machine.state.stop:
            stopped = self.stopped(end)
            return Never(f"the machine stopped ({STOP_NAMES[machine.state.stop]}) at count {stopped:,}", stopped, True)
        name = self.symbols.text(4 * machine.state.pc)
        return Never(f"not up to count {end:,}, where PC is {machine.state.pc}{f', {name}' if name else ''}", end, last=last)

    def stopped(self, end: int) -> int:
        """Returns the first count at which the machine is stopped, of one that is so at a count; or that count."""
        if self.machine.state.stop:
            return self.machine.count
        hit = Search(self._ahead(), [STOPPING], self.machine.count, end, tell=ignore).first()
        return hit.count + 1 if hit else end


def _load(first: int, end: int) -> Condition:
    """That an instruction loads one of these bytes."""
    return Condition("load", (Raw(LOAD, first, end),))


def count_of_sent(run: Run, before: Machine, end: int, number: int) -> int:
    """Returns the first count, after a machine's and up to `end`, up to which the machine sends a number of bytes."""
    while end - before.count > 1:
        middle = before.copy()
        sent = run.advance(middle, (before.count + end) // 2).length
        if sent >= number:
            end = middle.count
        else:
            before, number = middle, number - sent
    return end
