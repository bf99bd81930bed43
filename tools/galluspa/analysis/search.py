"""Finds when a condition holds in the run of a recording: at which count first, at which last, and at all of them.

A search goes through the segments between checkpoints that are known to be true, several of them at a time, and through
each in slices of a part of a second. The library lists the hits of a slice, and records what the instructions there do. The
last hit is that of the past of a segment.
"""

import ctypes
import threading
from collections import deque
from collections.abc import Callable, Generator, Iterable, Iterator, Sequence
from dataclasses import dataclass, replace
from functools import cached_property, partial
from itertools import chain, islice, pairwise
from typing import TypeVar

from galluspa.analysis.expressions import Moment
from galluspa.analysis.rawconditions import SENDS, SENDS_BYTE, STOPS, TAKES, Condition, Raw
from galluspa.engine.library import AND, ignore
from galluspa.engine.machine import Inputs, Machine, Sent
from galluspa.engine.past import Past
from galluspa.engine.recorded import RawStep, steps_at
from galluspa.engine.structures import RawCondition, RawHit
from galluspa.engine.tracing import Run, Step, step_of
from galluspa.process import children
from galluspa.process.cli import progress
from galluspa.process.timelimit import Limit, TimeIsUp

# The steps of the first slice of a search, of which the library does some tens of millions a second.
FIRST_STEPS = 1 << 19
# The fewest steps of a segment that is searched, but the first and the last: each costs some milliseconds, however short it is.
LEAST_SEGMENT = 1 << 20
# How many steps, forward and backward, are searched before the rest is shared among threads.
FIRST_ALONE, LAST_STEPS = 1 << 20, 1 << 22
# Where hits of pieces are listed backward, each piece has so many times the steps of the one after it.
GROWTH = 4
# How many hits are kept of each segment that is searched beside others; if callers take more, segments come one at a time.
KEPT = 10_000
# The most hits that a call of the library returns.
ROOM = 1 << 10
T = TypeVar("T")


class _Abandoned(Exception):
    """The search was cancelled."""


@dataclass
class Hit:
    """A count at which a condition holds: its instruction, in numbers, and the condition."""

    raw: RawStep
    condition: Condition

    @property
    def count(self) -> int:
        """The count."""
        return self.raw.at

    @cached_property
    def step(self) -> Step:
        """The instruction, with the states before and after it."""
        return step_of(self.raw)


@dataclass(frozen=True)
class _Segment:
    """Counts from one up to another, and which segment of a search they are."""

    number: int
    first: int
    end: int


class _Watch(Limit):
    """The limit of a search in a thread, which also ends when the search is cancelled."""

    def __init__(self, limit: Limit | None, is_over: threading.Event) -> None:
        self._limit = limit
        self._is_over = is_over

    def left(self) -> float:
        if self._is_over.is_set() or children.is_ending():
            raise _Abandoned
        return self._limit.left() if self._limit else float("inf")


def array_of(raws: Sequence[Raw]) -> ctypes.Array[RawCondition]:
    """Conditions as the library takes them."""
    rows = ((it.kind + AND * it.is_joined, it.first, it.end, it.value, it.least, it.most) for it in raws)
    return (RawCondition * len(raws))(*(RawCondition(*row) for row in rows))


class Search:
    """A search for conditions, of which one has to hold, in a run from a count up to another."""

    def __init__(
        self, run: Run, conditions: Sequence[Condition], first: int, to: int, jobs: int = 1, tell: Callable[[str], None] = progress
    ) -> None:
        """A search by a number of threads, which reports its progress."""
        self._run = run
        self._tell_user = tell
        self._conditions = conditions
        self._owners = [condition for condition in conditions for _ in condition.raws]
        self._raws = [raw for condition in conditions for raw in condition.raws]
        self._array = array_of(self._raws)
        self._are_the_librarys = all(it.is_so is it.test is it.after is None for it in conditions)
        self._is_seen_outside = {it.kind for it in self._raws} <= {SENDS, SENDS_BYTE, STOPS, TAKES}
        self._jobs = jobs
        self._done, self._lock = 0, threading.Lock()
        self._is_over = threading.Event()
        self._has_stopped = False
        self.first_count, self.end = first, to
        self._divide(first)

    def _divide(self, near: int) -> None:
        """Divides the range into segments at true checkpoints, and at the end of what one thread searches alone."""
        first, to, run = self.first_count, self.end, self._run
        starts = _apart([run.counts[it] for it in run.true if first < run.counts[it] < to], first)
        ends = sorted({first, *starts, min(max(first, near), to), to})
        self._segments = [_Segment(at, *it) for at, it in enumerate(pairwise(ends))]
        # Of each segment, the count before which all is searched, and the one from which on it is.
        self._reached = [it.first for it in self._segments]
        self._left = [it.end for it in self._segments]

    @property
    def text(self) -> str:
        """What is sought."""
        return " or ".join(it.text for it in self._conditions)

    def reached(self) -> int:
        """The count before which nothing is left to be searched, if the search goes forward."""
        pairs = zip(self._segments, self._reached, strict=True)
        return next((count for segment, count in pairs if count < segment.end), self.end)

    def left_before(self) -> int:
        """The count from which on nothing is left to be searched, if the search goes backward."""
        pairs = zip(reversed(self._segments), reversed(self._left), strict=True)
        return next((count for segment, count in pairs if count > segment.first), self.first_count)

    def why_not_later(self) -> str:
        """What is said if nothing is found, of a machine that does nothing more."""
        return ": the machine has stopped" if self._has_stopped else ""

    def first(self) -> Hit | None:
        """The first hit."""
        return next(self.all(1), None)

    def last(self) -> Hit | None:
        """The last hit."""
        self._run = Past.of(self._run)
        self._divide(self.end - LAST_STEPS)
        found = self._each(self._last_of, reversed(self._segments))
        try:
            return next((hit for hit in found if hit), None)
        finally:
            self._end(found)

    def all(self, most: int) -> Iterator[Hit]:
        """The first hits, at most `most`, in the order of their counts."""
        self._divide(self.first_count + FIRST_ALONE)
        if most > KEPT:
            self._jobs = 1

        def hits_of(segment: _Segment, run: Run) -> Iterable[Hit]:
            hits = islice(self._hits_of(segment, run, most, partial(self._tell, self._reached, segment)), most)
            if self._jobs > 1:
                return _Kept(hits)
            return hits

        found = self._each(hits_of, self._segments)
        try:
            yield from islice(chain.from_iterable(found), most)
        finally:
            self._end(found)

    def _end(self, found: Generator[object, None, None]) -> None:
        """Ends what still searches, and takes the line of progress away."""
        self._is_over.set()
        found.close()
        self._tell_user("")

    def _each(self, function: Callable[[_Segment, Run], T], segments: Iterable[_Segment]) -> Generator[T, None, None]:
        """What a function of a segment and a run gives for each segment, in their order: the first by this thread alone."""
        segments, are_shared = iter(segments), self._jobs > 1 and len(self._segments) > 2
        yield from (function(segment, self._run) for segment in (islice(segments, 1) if are_shared else segments))
        if not are_shared:
            return
        self._is_over = threading.Event()
        library = replace(self._run.library, limit=_Watch(self._run.library.limit, self._is_over))
        run = self._run.with_library(library)
        yield from children.in_parallel(self._jobs, lambda it: function(it, run), segments)

    def _hits_of(self, segment: _Segment, run: Run, most: int, tell: Callable[[int], None]) -> Iterator[Hit]:
        machine, room = run.machine(segment.first), min(most, ROOM)
        machine.steps = FIRST_STEPS
        while machine.count < segment.end and not machine.state.stop:
            if not self._is_seen_outside:
                end = segment.end
            elif (end := self._next_block(run, machine, segment.end)) == machine.count:
                tell(end)
                continue
            while machine.count < end:
                first = machine.copy()
                found = run.library.hits(machine, run.inputs, end, self._array, room)
                yield from self._hits_at(run, first, found)
                tell(machine.count)
        self._has_stopped |= machine.state.stop > 0
        tell(segment.end)

    def _hits_at(self, run: Run, machine: Machine, found: Sequence[RawHit]) -> Iterator[Hit]:
        """What the library found from a machine's count on, but only where the conditions hold that it has no words for."""
        there = machine if self._are_the_librarys else _There(run, machine.copy())
        steps = steps_at(run.library, machine, run.inputs, [it.count for it in found])
        for it, raw in zip(found, steps, strict=True):
            condition: Condition | None = self._owners[it.condition]
            if isinstance(there, _There):
                condition = self._condition_at(there, raw, it.condition)
            if condition:
                yield Hit(raw, condition)

    def _condition_at(self, there: "_There", raw: RawStep, index: int) -> Condition | None:
        """The first condition that holds at an instruction that the library found, since that of an index does; None if none
        does."""
        step = step_of(raw)
        for condition in self._conditions[self._conditions.index(self._owners[index]) :]:
            is_so = condition.is_so is None or condition.is_so(step)
            is_own = condition is self._owners[index]
            if is_so and (is_own or there.meets(raw.at, condition)) and there.passes(step, condition):
                return condition
        return None

    def _last_of(self, segment: _Segment, run: Run) -> Hit | None:
        """The last hit of a segment. What is near its end is searched first."""
        past, tell = Past.of(run), partial(self._tell, self._left, segment)
        if self._are_the_librarys and not self._is_seen_outside:
            return self._last_in(segment, past, tell)
        end, steps = segment.end, LAST_STEPS
        while segment.first < end:
            piece = _Segment(segment.number, max(segment.first, end - steps), end)
            hits = self._hits_of(piece, past, ROOM, ignore)
            if self._are_the_librarys and next(hits, None) is not None:
                return self._last_in(piece, past, tell)
            if last := deque(hits, 1):
                return last[0]
            end, steps = piece.first, GROWTH * steps
            tell(end)
        return None

    def _last_in(self, segment: _Segment, past: Past, tell: Callable[[int], None]) -> Hit | None:
        """The last hit of a segment, of conditions of the library."""
        if found := past.last(segment.first, segment.end, self._array, tell):
            return Hit(next(past.raw_steps(past.machine(found.count), found.count + 1)), self._owners[found.condition])
        self._has_stopped |= past.machine(segment.end).state.stop > 0
        tell(segment.first)
        return None

    def _next_block(self, run: Run, machine: Machine, to: int) -> int:
        """Returns the end of the next counts of a run, if something that is seen from outside may hold at one of them; else leads
        the machine on to it."""
        later = machine.copy()
        sent = next(run.library.slices(later, run.inputs, to))
        if not self._may_hold(run.inputs, machine, later, sent):
            machine.state, machine.words, machine.steps = later.state, later.words, later.steps
        return later.count

    def _tell(self, counts: list[int], segment: _Segment, count: int) -> None:
        """Notes how far a segment is searched, and shows how much of all is."""
        with self._lock:
            self._done += (count - counts[segment.number]) * (-1 if counts is self._left else 1)
            counts[segment.number] = count
        self._tell_user(f"searched {self._done:,} of {self.end - self.first_count:,}")

    def _may_hold(self, inputs: Inputs, before: Machine, after: Machine, sent: Sent) -> bool:
        """Whether something that is seen from outside comes about between two machines of a run, which sends this
        meanwhile."""
        kinds = {it.kind for it in inputs.of(before.count, after.count)}

        def may(raw: Raw) -> bool:
            if raw.kind == SENDS_BYTE:
                return raw.value in sent.first or len(sent.first) < sent.length
            return {SENDS: sent.length > 0, STOPS: after.state.stop > 0, TAKES: raw.value in kinds}[raw.kind]

        return any(may(raw) for raw in self._raws)


class _There:
    """A machine that runs on to the counts at which something is tested; they rise."""

    def __init__(self, run: Run, machine: Machine) -> None:
        self._run = run
        self._machine = machine
        self._later: Machine | None = None

    def passes(self, step: Step, condition: Condition) -> bool:
        """Whether what a condition tests before an instruction and after it holds."""
        if condition.test and not condition.test(Moment(step.before, partial(self._word, step.before.count))):
            return False
        return condition.after is None or condition.after(Moment(step.after, partial(self._later_word, step.after.count)))

    def _word(self, count: int, at: int) -> int:
        """A word of memory before the instruction of a count, to which the machine runs."""
        self._run.advance(self._machine, count)
        return self._machine.words[at]

    def _later_word(self, count: int, at: int) -> int:
        """The same at the count after one to which the machine may have run."""
        if self._later is None:
            self._later = self._machine.copy()
        self._run.advance(self._later, count)
        return self._later.words[at]

    def meets(self, count: int, condition: Condition) -> bool:
        """Whether a condition of the library holds at the instruction of a count."""
        self._run.advance(self._machine, count)
        here = self._machine.copy()
        return bool(self._run.library.hits(here, self._run.inputs, count + 1, array_of(condition.raws), 1))


def _apart(counts: Iterable[int], first: int) -> Iterator[int]:
    """Yields those of rising counts that are far enough from a count, and from one another, to be where segments begin."""
    for count in counts:
        if count - first >= LEAST_SEGMENT:
            first = count
            yield count


class _Kept:
    """Hits that were found in a thread, and are read once they are handed over. If the time was
    over first, that comes after them."""

    def __init__(self, found: Iterable[Hit]) -> None:
        self._hits: list[Hit] = []
        self._over: TimeIsUp | None = None
        try:
            for hit in found:
                self._hits.append(hit)
        except TimeIsUp as over:
            self._over = over

    def __iter__(self) -> Iterator[Hit]:
        yield from self._hits
        if self._over:
            raise self._over
