"""A machine that the library advances, with its inputs and with what it sends; and how many steps a slice of its run has."""

import ctypes
from array import array
from bisect import bisect_left
from collections.abc import Iterator, Sequence
from dataclasses import dataclass

from galluspa.engine.structures import RawInput, RawState, Words
from galluspa.formats.recording import PAGE_BYTES, STATE_WORDS, WORDS, WORDS_IN_PAGE, Checkpoint, Event, Recording
from galluspa.formats.sessions import COUNTS

# A run goes in slices of about this many seconds, so that a signal and the limit of time are handled between them. A slice
# has more than MOST_STEPS only up to the next input, after one that took little time: the machine waits. Then it runs in a
# thread, since what follows a wait may take long.
SLICE_SECONDS = 0.1
FIRST_STEPS, MOST_STEPS = 1 << 20, 1 << 24
# No slice of a machine that runs has more steps: one that computes in place of waiting is through them within minutes.
LONGEST_WAIT = 1 << 32
# The fewest steps of a slice, a millisecond or two. It has no fewer on a machine that is busy with other things: then
# it takes long, however few they are.
LEAST_STEPS = 1 << 16
# How many of the bytes that a run sends are kept: more than a recording may claim.
SENT_KEPT = 1 << 22


@dataclass(frozen=True)
class Profile:
    """How often a run did the instruction of each word of memory, and how often another word than the next one came
    after it: the target of a branch, or after a stop the same again."""

    visits: "array[int]"
    departures: "array[int]"

    def visited(self) -> Iterator[int]:
        """Yields the numbers of the words whose instruction was done, in rising order."""
        content, none = self.visits.tobytes(), bytes(8 * WORDS_IN_PAGE)
        for first in range(0, WORDS, WORDS_IN_PAGE):
            if content[8 * first : 8 * (first + WORDS_IN_PAGE)] != none:
                yield from (at for at in range(first, first + WORDS_IN_PAGE) if self.visits[at])


@dataclass(frozen=True)
class Sent:
    """What a run sent: its first bytes, and the number of all of them."""

    first: bytes = b""
    length: int = 0

    def __add__(self, more: "Sent") -> "Sent":
        is_whole = len(self.first) == self.length
        kept = (self.first + more.first)[:SENT_KEPT] if is_whole and more.first else self.first
        return Sent(kept, self.length + more.length)


class Machine:
    """A machine: its state and its words, which the library advances where they are."""

    def __init__(self, state: RawState, words: ctypes.Array) -> None:
        self.state = state
        self.words = words
        # How many steps its next slice has.
        self.steps = FIRST_STEPS

    @property
    def count(self) -> int:
        """Returns how many instructions were done."""
        return self.state.count

    @staticmethod
    def claimed(read: Recording, number: int) -> "Machine":
        """Returns the machine that a checkpoint of a lawful recording claims. `Library.claim` reads the whole recording for it."""
        it, words = read.checkpoints[number], Words()
        memory = memoryview(words).cast("B")
        for slot, page in enumerate(it.table):
            if page:
                memory[slot * PAGE_BYTES : (slot + 1) * PAGE_BYTES] = read.page(page)
        state = RawState(it.count, it.registers, key_count=len(it.keys), keys=tuple(it.keys))
        for name in (*STATE_WORDS, "rate", "phase", "disk"):
            setattr(state, name, getattr(it, name))
        return Machine(state, words)

    def copy(self) -> "Machine":
        """Returns another machine in the same state."""
        other = Machine(RawState.from_buffer_copy(self.state), Words.from_buffer_copy(self.words))
        other.steps = self.steps
        return other

    def become(self, other: "Machine") -> None:
        """Takes the state of another machine, where its own is."""
        for mine, its in ((self.state, other.state), (self.words, other.words)):
            ctypes.memmove(ctypes.byref(mine), ctypes.byref(its), ctypes.sizeof(mine))

    def memory(self) -> bytes:
        """Returns the bytes of the memory; wherever the library is built, a word's lowest byte comes first."""
        return bytes(self.words)

    def seen(self, sent: bytes = b"") -> Checkpoint:
        """Returns the state as a checkpoint claims it, without its memory."""
        it = self.state
        return Checkpoint(
            count=it.count,
            registers=tuple(it.r),
            **{name: getattr(it, name) for name in (*STATE_WORDS, "rate", "phase", "disk")},
            keys=bytes(it.keys[: it.key_count]),
            output=sent,
            table=array("I"),
        )


class Inputs:
    """Inputs in the order of their counts, of which a run is given those that are due."""

    def __init__(self, events: Sequence[Event]) -> None:
        self._events = events
        self._counts = [event.count for event in events]
        self._raw = (RawInput * len(events))(*(RawInput(event.count, event.kind, event.value) for event in events))

    def of(self, first: int, end: int) -> Sequence[Event]:
        """Returns the inputs of the counts from one up to another."""
        return self._events[bisect_left(self._counts, first) : bisect_left(self._counts, end)]

    def first_from(self, count: int) -> int | None:
        """Returns the count of the first input at or after a count, or None."""
        at = bisect_left(self._counts, count)
        return self._counts[at] if at < len(self._counts) else None

    def raw(self, first: int, end: int) -> ctypes.Array:
        """Returns the same, as the library takes them."""
        start = bisect_left(self._counts, first)
        number = bisect_left(self._counts, end) - start
        if not number:
            return (RawInput * 0)()
        return (RawInput * number).from_buffer(self._raw, start * ctypes.sizeof(RawInput))


def slice_end(machine: Machine, inputs: Inputs, steps: int, to: int, most: int = MOST_STEPS) -> int:
    """Returns the count up to which the next slice of a run goes, of a number of steps: up to the next input if they are more than
    `most`. A machine that has stopped does nothing, whatever inputs it takes."""
    end = min(to, machine.count + steps)
    if steps <= most or machine.state.stop:
        return end
    due = inputs.first_from(machine.count)
    return end if due is None else min(end, max(due, machine.count + most))


def steps_after(machine: Machine, steps: int, seconds: float, most: int = LONGEST_WAIT) -> int:
    """Returns how many steps the next slice has, at most, by the steps and the time of the last one. Once a machine has
    stopped it does nothing, however many they are."""
    return COUNTS if machine.state.stop else budget_after(steps, seconds, most)


def budget_after(steps: int, seconds: float, most: int = LONGEST_WAIT) -> int:
    """Returns the same of a machine that runs."""
    if seconds > 2 * SLICE_SECONDS:
        return min(max(int(steps * SLICE_SECONDS / seconds), LEAST_STEPS), steps)
    return max(min(2 * steps, most), 1) if seconds < SLICE_SECONDS / 2 else steps
