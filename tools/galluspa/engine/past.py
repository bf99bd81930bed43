"""The past of a run, which the library keeps: the machine at any count, and the last count at which a condition holds.

It is kept in parts. Each begins at a checkpoint that is known to be true, and runs on as far as it is asked about; so a question
about the end of a long recording runs no more than a segment.
"""

import ctypes
import threading
import time
import weakref
from collections.abc import Callable, Iterator
from contextlib import contextmanager

from galluspa.engine.library import LAST, MORE, NO_ROOM, NOT_FOUND, Library, ignore, refusal, sized
from galluspa.engine.machine import FIRST_STEPS, LONGEST_WAIT, MOST_STEPS, SLICE_SECONDS, Inputs, Machine, budget_after
from galluspa.engine.structures import SIZE, Handle, RawExtent, RawHit, RawState, Words
from galluspa.engine.tracing import Run
from galluspa.formats.recording import PAGE_BYTES, PLACES
from galluspa.formats.sessions import COUNTS
from galluspa.process.cli import Refused, progress
from galluspa.process.timelimit import Limit

# The fewest steps between two keyframes of a part, and how many keyframes a recording has at most.
SPACING, MOST_KEYFRAMES = 1 << 18, 1 << 13
# How many bytes a past holds, and how many of them are a keyframe's. A part that holds more begins anew, with fewer keyframes.
MOST_BYTES, KEYFRAME_BYTES, FEWER = 1 << 27, 4400, 4
# The count of a caller that has the memory of none.
NO_COUNT = (1 << 64) - 1
# The room for what a run sends, which nobody reads.
SENT_BYTES = 1 << 16


class _Part:
    """The past of a machine, from its count up to a later one, which rises. It serves one thread at a time."""

    def __init__(self, library: Library, start: Machine, inputs: Inputs, spacing: int) -> None:
        self._library, self._inputs, self._spacing = library, inputs, spacing
        self.first = start.count
        self._begin(start)

    def _begin(self, start: Machine) -> None:
        """Opens the past of a machine, with the inputs that are due from its count on."""
        calls, past = self._library.calls, ctypes.byref(Handle())
        self._past, self._close = past, weakref.finalize(self, calls.galluspa_past_close, past)
        self._check(calls.galluspa_past_begin(past, ctypes.byref(start.state), *sized(start.words), self._spacing))
        self._check(calls.galluspa_past_input(past, *sized(self._inputs.raw(start.count, COUNTS + 1))))
        self._measure()

    def _check(self, code: int) -> None:
        """Raises Refused for a call that was not answered."""
        if code:
            raise refusal(f"cannot keep the run from {self.first} on", code)

    def _measure(self) -> None:
        """Notes how far the past goes, and how many bytes it holds."""
        extent = RawExtent()
        self._check(self._library.calls.galluspa_past_extent(self._past, ctypes.byref(extent)))
        self.end, self.size = extent.end, KEYFRAME_BYTES * extent.keyframes + PAGE_BYTES * extent.pages

    def _asked(self, ask: Callable[[int], int], limit: Limit | None, tell: Callable[[], None]) -> int:
        """Asks by calls with a budget, each of some tenth of a second at most, until there is an answer, and returns that. It
        tells as often how far that is."""
        budget, told = FIRST_STEPS, time.monotonic()
        while True:
            if limit:
                limit.left()
            begun = time.monotonic()
            if (code := ask(budget)) not in (MORE, NO_ROOM):
                return code
            budget = budget_after(budget, (now := time.monotonic()) - begun)
            if now - told > SLICE_SECONDS:
                told = now
                tell()

    def run_to(self, to: int, limit: Limit | None, heard: Callable[[int], None] = ignore) -> None:
        """Runs on, so that all counts up to this one can be asked about. Reports how far it comes."""
        sent, number = ctypes.create_string_buffer(SENT_BYTES), SIZE()

        def ask(_: int) -> int:
            if self.size > MOST_BYTES:
                self._begin_anew()
            # It ends at the next keyframe in any case.
            code: int = self._library.calls.galluspa_past_run(self._past, to, MOST_STEPS, *sized(sent), ctypes.byref(number))
            self._measure()
            return code

        if to > self.end:
            self._check(self._asked(ask, limit, lambda: heard(self.end)))

    def _begin_anew(self) -> None:
        """Frees what is held, and begins again, with fewer keyframes."""
        start = self._at(self.first)
        self._close()
        self._spacing *= FEWER
        self._begin(start)

    def machine(self, count: int, limit: Limit | None, heard: Callable[[int], None] = ignore) -> Machine:
        """Returns the machine at a count."""
        self.run_to(count, limit, heard)
        return self._at(count)

    def _at(self, count: int) -> Machine:
        """Returns the machine at a count to which the part has run: that takes a run from a keyframe."""
        machine, slots, pages, number = Machine(RawState(), Words()), (ctypes.c_uint16 * PLACES)(), Words(), SIZE()
        there, room = (ctypes.byref(machine.state), slots), (pages, PLACES, ctypes.byref(number))
        self._check(self._library.calls.galluspa_past_at(self._past, count, NO_COUNT, LONGEST_WAIT, *there, *room))
        words, page = ctypes.addressof(machine.words), ctypes.addressof(pages)
        for at in range(number.value):
            ctypes.memmove(words + PAGE_BYTES * slots[at], page + PAGE_BYTES * at, PAGE_BYTES)
        return machine

    def last(
        self, first: int, to: int, conditions: ctypes.Array, limit: Limit | None, heard: Callable[[int], None] = ignore
    ) -> RawHit | None:
        """Returns the last count of a range at which one of these conditions holds; None if none holds. Reports from which count on
        the range is searched."""
        self.run_to(to, limit)
        hit, left = RawHit(), ctypes.c_uint64(to)
        found = (ctypes.byref(hit), ctypes.byref(left))

        def ask(budget: int) -> int:
            wanted = (*sized(conditions), LAST, budget)
            code: int = self._library.calls.galluspa_past_find(self._past, first, left.value, *wanted, *found)
            return code

        if (code := self._asked(ask, limit, lambda: heard(left.value))) == NOT_FOUND:
            return None
        self._check(code)
        return hit


class Past(Run):
    """A run whose past the library keeps, so that a question about counts that were asked about before costs little."""

    def __init__(self, run: Run) -> None:
        self.__dict__.update(vars(run))
        self._run = run
        self._spacing = max(SPACING, (self.counts[-1] - self.first_count) // MOST_KEYFRAMES)
        # The parts in which no question is asked at the moment, that of the last one at the end.
        self._parts: list[_Part] = []
        self._lock = threading.Lock()

    @staticmethod
    def of(run: Run) -> "Past":
        """Returns the past of a run, which may be one."""
        return run if isinstance(run, Past) else Past(run)

    @property
    def end(self) -> int:
        """Returns the count of the last checkpoint."""
        return self.counts[-1]

    def machine(self, count: int) -> Machine:
        """Returns the machine at a count."""
        number = self.true_before(count)
        if number is not None and self.counts[number] == count:
            return self._run.machine(count)
        with self._part(count) as part:
            machine = part.machine(count, self.library.limit, lambda now: progress(f"at {now:,} of {count:,}"))
        progress("")
        return machine

    def last(self, first: int, to: int, conditions: ctypes.Array, heard: Callable[[int], None] = ignore) -> RawHit | None:
        """Returns the last count of a range at which one of these conditions holds, with the index of the first that does; None if
        none holds. Reports from which count on the range is searched."""
        with self._part(first) as part:
            return part.last(first, to, conditions, self.library.limit, heard)

    @contextmanager
    def _part(self, count: int) -> Iterator[_Part]:
        """A part that has a count or is near it, for one question: from the last true checkpoint before it or an earlier one."""
        number = self.true_before(count)
        start = count if number is None else self.counts[number]
        with self._lock:
            near = [it for it in self._parts if it.first <= count and it.end + self._spacing >= start]
            part = max(near, key=lambda it: min(it.end, count), default=None)
            if part:
                self._parts.remove(part)
        part = part or _Part(self.library, self._run.machine(start), self.inputs, self._spacing)
        try:
            yield part
        except Refused:
            # It may be closed.
            part = None
            raise
        finally:
            with self._lock:
                self._parts += [part] if part else []
                while len(self._parts) > 1 and sum(it.size for it in self._parts) > MOST_BYTES:
                    del self._parts[0]
