"""Runs stored sessions, and compares what is seen with what was approved, or approves it: for `galluspa rerun` and for pytest."""

from collections.abc import Sequence
from dataclasses import dataclass, replace

from galluspa.engine.following import EACH_RISE
from galluspa.engine.library import Library
from galluspa.formats.builds import tell_misfit
from galluspa.formats.devicewords import MOST_KEYS
from galluspa.formats.recording import MEMORY_BYTES
from galluspa.process.cli import Refused
from galluspa.process.escapes import printable
from galluspa.process.timelimit import Limit, TimeIsUp
from galluspa.suites import approvals
from galluspa.suites.approvals import Approved, Differences
from galluspa.suites.boots import Boots
from galluspa.suites.cases import Case
from galluspa.suites.reasons import Version, hung, reasons
from galluspa.suites.reruns import Rerun, Rerunner
from galluspa.suites.storedsessions import APPROVED, AS_APPROVED, Shelf

# The most differences in an answer, and the most characters of each, and of each reason.
MOST_TOLD, LONGEST = 8, 300
NOT_YET = "not approved yet"


@dataclass(frozen=True)
class Judged:
    """A run, what was approved, if anything was, and in what the two differ; and the reasons."""

    ran: Rerun
    approved: Approved | None
    found: Differences
    why: Sequence[str] = ()

    @property
    def is_as_approved(self) -> bool:
        """Returns whether all is as approved."""
        return self.approved is not None and not self.found.lines


class Judge:
    """Runs the stored sessions of a shelf, each for `seconds` at most. With the image of the version before, it says what
    that one did where this one differs. No R14 of the system's stack is above `stack_limit`."""

    def __init__(
        self, shelf: Shelf, library: Library, seconds: float, before: Shelf | None = None, stack_limit: int = EACH_RISE
    ) -> None:
        self.shelf = shelf
        self._stack_limit = stack_limit
        self._library = library
        self._seconds = seconds
        self._before = before
        self._boots = Boots()

    def run(self, case: Case) -> Rerun:
        """Returns the run of a stored session. Raises Refused if it is invalid, or TimeIsUp."""
        return self._run(self.shelf, case, Limit(self._seconds)).ran

    def _run(self, shelf: Shelf, case: Case, limit: Limit) -> Version:
        program = replace(shelf.program, limit=limit)
        start, script, symbols = shelf.taken(program, case)
        tell_misfit(symbols, lambda: start.memory.ljust(MEMORY_BYTES, b"\0"))
        called = "now" if shelf is self.shelf else "before"
        rerunner = Rerunner(replace(self._library, limit=limit), program, self._boots)
        return Version(called, rerunner.run(start, script, symbols), symbols, self._stack_limit)

    def judged(self, case: Case) -> Judged:
        """Returns how the run of a stored session compares with what was approved, and why it differs."""
        limit = Limit(self._seconds)
        now = self._run(self.shelf, case, limit)
        approved = approvals.read(approvals.folder_of(case.path), self.shelf.top)
        found = approvals.differences(approved, now.ran) if approved else Differences()
        is_ok = approved and not found.lines or not approved and not now.ran.ended
        return Judged(now.ran, approved, found, () if is_ok else self._why(case, now, found, limit))

    def _why(self, case: Case, now: Version, found: Differences, limit: Limit) -> Sequence[str]:
        """Returns why a run is not as approved, as far as there is time."""
        why = [f"{printable(it)}: dropped, since {MOST_KEYS} keys wait"[:LONGEST] for it in now.ran.dropped[:MOST_TOLD]]
        library = replace(self._library, limit=limit)
        try:
            why += self._hung(now, library)
            versions = [now, *([self._run(self._before, case, limit)] if self._before else [])]
            for line in reasons(library, found, versions):
                why.append(line[:LONGEST])
        except (Refused, TimeIsUp) as over:
            why.append(f"not found: {over}"[:LONGEST])
        return why

    def _hung(self, now: Version, library: Library) -> Sequence[str]:
        """Returns why an event does not come: once for all scripts that end alike before their first input."""
        if not now.ran.ended:
            return ()

        def find() -> Sequence[str]:
            return [line[:LONGEST] for line in hung(library, now)]

        key = (now.ran.text, now.ran.ended.event.when.member)
        return find() if now.ran.has_inputs else self._boots.shared(key, find, library.limit)

    def approve(self, case: Case, ran: Rerun) -> str:
        """Writes what is seen as approved, also over invalid golden files, and says what changed."""
        if ran.failure:
            raise Refused(f"not approved: {ran.failure}")
        folder, top = approvals.folder_of(case.path), self.shelf.top
        before: Approved | None = None
        found = Differences()
        try:
            before = approvals.read(folder, top)
            found = approvals.differences(before, ran) if before else found
        except Refused as why:
            found = Differences([f"before, {why}"])
        if before and not found.lines and approvals.has_these_masks(before, ran):
            return f"{APPROVED} before ({size(ran)})"
        approvals.write(folder, top, ran, before)
        return f"{APPROVED} now ({size(ran)})" + (f": {told(found)}" if found.lines else "")


def answered(it: Judged) -> str:
    """Returns how a run compares with what was approved, in a line."""
    if not it.approved:
        return it.ran.failure or f"{NOT_YET}: --approve writes what is seen"
    return told(it.found) if it.found.lines else f"{AS_APPROVED} ({size(it.ran)})"


def told(found: Differences) -> str:
    """Returns differences in a line."""
    lines = [line[:LONGEST] for line in found.lines[:MOST_TOLD]]
    more = len(found.lines) - len(lines)
    return "; ".join([*lines, *([f"and {more} more"] if more else [])])


def size(ran: Rerun) -> str:
    """Returns how much there is to see of a run."""
    looks, sent = len(ran.looks), len(ran.sent)
    nothing = f"; {printable(', '.join(ran.uncalled))} of a mask is never called" if ran.uncalled else ""
    dropped = f"; {len(ran.dropped):,} {'key' if len(ran.dropped) == 1 else 'keys'} dropped" if ran.dropped else ""
    return f"{looks} {'look' if looks == 1 else 'looks'}, {sent:,} {'byte' if sent == 1 else 'bytes'} sent{nothing}{dropped}"
