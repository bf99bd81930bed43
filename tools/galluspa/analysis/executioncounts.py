"""Counts how often runs execute each word of memory, by the library's exact counts, and adds the counts of runs."""

import time
from array import array
from collections.abc import Callable, Iterator
from dataclasses import dataclass, field

from galluspa.engine.library import ignore
from galluspa.engine.machine import FIRST_STEPS, Machine, Profile, slice_end, steps_after
from galluspa.engine.tracing import Run
from galluspa.formats.instructions import ALWAYS, NEVER, branches_to, is_branch
from galluspa.process import children

# How many slices of a run are split at most, because a word in them was executed and written.
SPLITS = 500


@dataclass(frozen=True)
class Branch:
    """A conditional branch: its word number, how often it was taken, and how often it was not."""

    at: int
    taken: int
    passed: int


@dataclass
class Executions:
    """How often runs execute each word, by word number: `departures` are those after which another word than the next
    one comes. `words` has what was executed there, and `changed` the numbers at which that differs in a run or between
    runs. `memory` is that of the end of the first run."""

    visits: dict[int, int] = field(default_factory=dict)
    departures: dict[int, int] = field(default_factory=dict)
    words: dict[int, int] = field(default_factory=dict)
    changed: set[int] = field(default_factory=set)
    memory: "array[int]" = field(default_factory=lambda: array("I"))

    @property
    def instructions(self) -> int:
        """Returns how many instructions were executed."""
        return sum(self.visits.values())

    def put(self, at: int, visits: int, departures: int, word: int) -> None:
        """Adds the counts of a word."""
        self.visits[at] = self.visits.get(at, 0) + visits
        self.departures[at] = self.departures.get(at, 0) + departures
        if self.words.setdefault(at, word) != word:
            self.changed.add(at)

    def add(self, more: "Executions") -> None:
        """Adds the counts of another run."""
        for at, visits in more.visits.items():
            self.put(at, visits, more.departures[at], more.words[at])
        self.changed |= more.changed
        self.memory = self.memory or more.memory

    def branches(self) -> Iterator[Branch]:
        """Yields the conditional branches that were executed, by rising word number. One to the next word is none, and
        a word that changed is none either: its counts may be those of another instruction."""
        for at in sorted(self.words):
            if at not in self.changed and is_conditional(self.words[at], at):
                yield Branch(at, self.departures[at], self.visits[at] - self.departures[at])


def is_conditional(word: int, at: int) -> bool:
    """Returns whether a word is a branch with a condition that leads elsewhere than to the next word."""
    return is_branch(word) and word >> 24 & 15 not in (ALWAYS, NEVER) and branches_to(word, at) != at + 1


def executions_of(run: Run, first: int, to: int) -> Executions:
    """Returns what a run executes from a count up to another."""
    return executions_along(run, run.machine(first), to, run.advance, ignore)


def executions_along(
    run: Run, machine: Machine, to: int, advance: Callable[[Machine, int], object], heard: Callable[[int], None]
) -> Executions:
    """Returns what a machine of a run executes up to a count, while a function advances it, slice by slice. Reports the count after
    each slice."""
    found, steps, splits = Executions(), FIRST_STEPS, SPLITS
    while machine.count < to and not machine.state.stop and not children.is_ending():
        if run.library.limit:
            run.library.limit.left()
        before, start, end = machine.copy(), time.monotonic(), slice_end(machine, run.inputs, steps, to)
        profile = run.library.profile(machine, run.inputs, end)
        seconds = time.monotonic() - start
        advance(machine, end)
        splits = _put_slice(found, run, before, machine, profile, splits)
        heard(machine.count)
        steps = steps_after(machine, end - before.count, seconds)
    found.memory = array("I", machine.memory())
    return found


def _put_slice(found: Executions, run: Run, start: Machine, end: Machine, profile: Profile, splits: int) -> int:
    """Adds the counts of a slice between two machines of a run, and returns how many slices may still be split. A slice is split
    if a word that it executes differs at its end: a loader may have written it before. So only a word that is executed both before
    and after it changes is one that is not always the same."""
    visited = list(profile.visited())
    changed = [at for at in visited if start.words[at] != end.words[at]]
    if not changed or end.count - start.count == 1 or not splits:
        for at in visited:
            found.put(at, profile.visits[at], profile.departures[at], start.words[at])
        if end.count - start.count > 1:
            found.changed.update(changed)
        return splits
    middle = start.copy()
    run.advance(middle, (start.count + end.count) // 2)
    for one, other in ((start, middle), (middle, end)):
        splits = _put_slice(found, run, one, other, run.library.profile(one, run.inputs, other.count), splits - (one is start))
    return splits
