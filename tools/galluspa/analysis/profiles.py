"""Profiles: how many instructions each procedure of a recorded program takes, who calls it, and how often.

All numbers are exact. The instructions of a procedure are those at its words. With all that it calls it takes the instructions that
are done while a call of it is open, by the library's definition of a call (calls.py).
"""

from collections import Counter
from collections.abc import Callable
from dataclasses import dataclass
from functools import cache, cached_property

from galluspa.analysis.calls import Calls
from galluspa.analysis.calltree import CallTree, Edge, Totals
from galluspa.analysis.executioncounts import Executions, executions_along
from galluspa.analysis.procedures import NO_MODULE, NO_NAME, Procedure, Procedures
from galluspa.engine.following import EACH_RISE
from galluspa.engine.library import ignore
from galluspa.engine.machine import Machine
from galluspa.engine.tracing import Run
from galluspa.formats.recording import STOPS, WORDS
from galluspa.formats.symbols import Symbols

FETCH = STOPS.index("fetch")


@dataclass(frozen=True)
class Row:
    """A procedure of a profile: its instructions, those that are done while a call of it is open, and its calls."""

    procedure: Procedure
    own: int
    inclusive: int
    calls: int

    @property
    def text(self) -> str:
        """Returns the instructions with callees as they are shown: none of a procedure that nothing called."""
        return f"{self.inclusive:,}" if self.inclusive or self.calls else "-"


@dataclass(frozen=True)
class Profile:
    """What a run takes from a count up to another."""

    first: int
    to: int
    seen: Executions
    procedures: Procedures
    totals: Totals

    @property
    def instructions(self) -> int:
        """Returns how many instructions were executed."""
        return self.seen.instructions

    @cached_property
    def own(self) -> Counter[Procedure]:
        """Returns the instructions of each procedure."""
        found: Counter[Procedure] = Counter()
        for at, visits in self.seen.visits.items():
            found[self.procedures.of(at)] += visits
        return found

    def calls(self) -> dict[tuple[int, Procedure], int]:
        """Returns how often each word called each procedure; not at all where a call was open at the first count alone."""
        calls = self.totals.calls
        return {site: calls[site] for site, steps in sorted(self.totals.of_sites.items()) if steps or calls[site]}

    def edges(self) -> dict[Edge, int]:
        """Returns how often each procedure calls another."""
        found: Counter[Edge] = Counter()
        for (at, procedure), number in self.calls().items():
            found[self.procedures.of(at), procedure] += number
        return dict(found)

    def inclusive(self) -> dict[Procedure, int]:
        """Returns the instructions that are done while a call of each procedure is open."""
        return dict(self.totals.inclusive)

    def inclusive_edges(self) -> dict[Edge, int]:
        """Returns those that are done while a call of one procedure by another is open."""
        return dict(self.totals.of_edges)

    def rows(self) -> list[Row]:
        """Returns the procedures, the one of most instructions first."""
        called, inclusive = Counter[Procedure](), self.inclusive()
        for (_, procedure), number in self.edges().items():
            called[procedure] += number
        rows = [Row(it, self.own[it], inclusive.get(it, 0), called[it]) for it in {*self.own, *inclusive}]
        return sorted(rows, key=lambda it: (-it.own, it.procedure))


def profile_of(
    run: Run, first: int, to: int, symbols: Symbols, limit: int = EACH_RISE, heard: Callable[[int], None] = ignore
) -> Profile:
    """Returns the profile of a run from a count up to another, on a stack that has no R14 above a limit."""
    calls = Calls(run, limit)
    follower = calls.follower(first)
    was_stopped, tree = follower.machine.state.stop, CallTree(follower.calls(), first)

    def advance(machine: Machine, end: int) -> None:
        while machine.count < end and not tree.is_full:
            tree.add(follower.go_on(end))
        run.advance(machine, end)

    machine = follower.machine
    seen = executions_along(run, machine, to, advance, heard)
    procedures = Procedures(seen, symbols)

    @cache
    def procedure_of(at: int) -> Procedure:
        """Returns the procedure of a word, which may be outside memory."""
        return procedures.of(at) if at < WORDS else Procedure(WORDS, NO_NAME, NO_MODULE)

    totals = Totals(procedure_of)
    if tree.is_full:
        # There are many ways of calls: they are added to the totals in parts, once it is known which words are whose.
        follower = calls.follower(first)
        tree = CallTree(follower.calls(), first)
        while follower.machine.count < to:
            tree.add(follower.go_on(to))
            heard(follower.machine.count)
            if tree.is_full:
                tree.move_to(totals)
    has_stopped = machine.state.stop and not was_stopped
    ran = seen.instructions + (1 if has_stopped and machine.state.stop == FETCH else 0)
    tree.end(first + ran if machine.state.stop else to)
    tree.move_to(totals)
    return Profile(first, to, seen, procedures, totals)
