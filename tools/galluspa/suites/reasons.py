"""Says why a run is not as approved: which instructions drew, sent or stopped, in this version and in the one before, and where a
system that hangs loops."""

from collections.abc import Iterator, Sequence
from dataclasses import dataclass
from itertools import islice

from galluspa.analysis.conditions import conditions_of
from galluspa.analysis.rawconditions import STOPS, WRITTEN, Condition, Raw
from galluspa.analysis.search import Search
from galluspa.engine.following import Follower
from galluspa.engine.library import Library, ignore
from galluspa.engine.recorded import PC
from galluspa.engine.past import Past
from galluspa.engine.tracing import Run
from galluspa.formats import recording
from galluspa.formats.recording import DISPLAY_START
from galluspa.formats.scripts import STILL_FOR
from galluspa.formats.symbols import Symbols
from galluspa.suites.approvals import Differences
from galluspa.suites.firstcall import Side, first_difference
from galluspa.suites.playing import count_of_sent
from galluspa.suites.reruns import Rerun, Seen

# The most screens that are examined, calls that are named, and procedures of a loop.
SCREENS, CALLS, NAMES = 3, 6, 4
# Where a system loops is seen in its last instructions.
LOOKED = 100_000
ROW_BYTES = 128
ABOUT_STILL = "if a caret or a clock blinks there, put it into mask, or wait for sends, after or a condition in place of still"


@dataclass(frozen=True)
class Version:
    """The run of a script in a version of the system: what the version is called, its names, and the highest R14 of its stack."""

    called: str
    ran: Rerun
    symbols: Symbols
    stack_limit: int


class Teller:
    """Says which instructions did something in the run of a version."""

    def __init__(self, library: Library, version: Version) -> None:
        read = recording.read(version.ran.text)
        self.run = Past(Run(library, read, range(len(read.checkpoints))))
        self.symbols = version.symbols
        self.stack_limit = version.stack_limit
        self._looks = {it.name: it for it in version.ran.looks}
        self._sent = version.ran.sent
        self.called = version.called
        self.end = self.run.counts[-1]

    def place(self, count: int, pc: int) -> str:
        """Returns where an instruction is, and which calls are open there, the innermost first."""
        at, symbols = 4 * pc, self.symbols
        name, source = symbols.text(at) or f"PC {pc}", symbols.source(at)
        open_ones = Follower(self.run.library, self.run.inputs, self.run.machine(0), self.stack_limit).go(count)
        callers = [symbols.text(4 * it.at) or f"PC {it.at}" for it in reversed(open_ones)]
        more = f" < .. {len(callers) - CALLS:,} more" if len(callers) > CALLS else ""
        chain = "".join(f" < {it}" for it in callers[:CALLS])
        return f"at {count:,} by {name}{f' ({source})' if source else ''}{chain}{more}"

    def last(self, condition: Condition, to: int) -> str:
        """Returns where the last instruction before a count is at which a condition holds."""
        hit = Search(self.run, [condition], 0, to, tell=ignore).last()
        return self.place(hit.count, hit.step.before.pc) if hit else "by nothing since the beginning"

    def look(self, name: str) -> Seen | None:
        """Returns a look; None if the run has none of this name."""
        return self._looks.get(name)

    def dot(self, look: Seen, x: int, y: int) -> str:
        """Returns which instruction changed a dot last before a look."""
        return self.last(conditions_of([f"change dot {x},{y}"])[0], look.count)

    def leds(self, look: Seen) -> str:
        """Returns which instruction wrote the LEDs last before a look."""
        return self.last(Condition("LEDs", WRITTEN["LEDs"]), look.count)

    def stop(self) -> str:
        """Returns which instruction stopped the machine."""
        return self.last(Condition("stop", (Raw(STOPS),)), self.end)

    def byte(self, number: int) -> str:
        """Returns which instruction sent a byte."""
        if number >= len(self._sent):
            return "never"
        count = count_of_sent(self.run, self.run.machine(0), self.end, number + 1) - 1
        return f"{self._sent[number]:02X} {self.place(count, self.run.machine(count).state.pc)}"

    def loop(self) -> str:
        """Returns in which procedures the last instructions of the run are, and which calls are open there."""
        first = max(self.end - LOOKED, 0)
        machine = self.run.machine(first)
        visited = list(self.run.library.profile(machine, self.run.inputs, self.end).visited())
        starts = dict.fromkeys(self.symbols.start_of(4 * at) for at in visited)
        names = [self.symbols.text(it) for it in starts if it is not None]
        shown = ", ".join(names[:NAMES]) + (f" and {len(names) - NAMES:,} more" if len(names) > NAMES else "")
        words = (
            f"{len(visited):,} {'word' if len(visited) == 1 else 'words'} from PC {visited[0]} to {visited[-1]}"
            if visited
            else "none"
        )
        there = self.place(self.end, self.run.machine(self.end).state.pc)
        return f"the last {self.end - first:,} instructions loop in {words}{f', in {shown}' if shown else ''}; {there}"


def reasons(library: Library, found: Differences, versions: Sequence[Version]) -> Iterator[str]:
    """Yields why the first of some versions is not as approved, in lines, each with what the others did."""
    tellers = [Teller(library, it) for it in versions]
    for name, dots in islice(found.screens.items(), SCREENS):
        x, y = dots.first
        looks = [(it, look) for it in tellers if (look := it.look(name))]
        yield "; ".join([f"dot {x},{y} of {name} was changed", *(f"{it.called} {it.dot(look, x, y)}" for it, look in looks)])
    for name in found.looks:
        look = tellers[0].look(name)
        if look and look.stop != recording.STOPS[0]:
            yield f"the machine was stopped {tellers[0].stop()}"
        elif look:
            yield "; ".join([f"the LEDs of {name} were written", *_leds(tellers, name)])
    if found.byte is not None:
        yield "; ".join([f"byte {found.byte:,} was sent", *(f"{it.called} {it.byte(found.byte)}" for it in tellers)])
    if len(tellers) > 1:
        now, before = (Side(it.run, it.symbols, it.stack_limit) for it in tellers[:2])
        yield from first_difference(now, before)


def _leds(tellers: Sequence[Teller], name: str) -> Iterator[str]:
    for it in tellers:
        if look := it.look(name):
            yield f"{it.called} {it.leds(look)}"


def hung(library: Library, version: Version) -> Iterator[str]:
    """Yields why an event does not come, if one does not: the dot that changed last before a look that waits until nothing does, or
    the loop."""
    ended = version.ran.ended
    if not ended:
        return
    teller, last = Teller(library, version), ended.why.last
    if last and ended.event.when.member == STILL_FOR:
        place = teller.place(last.at, last.before[PC])
        if last.change:
            x, y = dot_of(*last.change)
            yield f"dot {x},{y} was changed last {place}: {ABOUT_STILL}"
        else:
            yield f"a byte was sent last {place}"
    elif not ended.why.is_stopped:
        yield teller.loop()


def dot_of(address: int, old: int, new: int) -> tuple[int, int]:
    """Returns the first dot that a change of a word of the screen changes, from the left and from below."""
    row, byte = divmod(address - DISPLAY_START, ROW_BYTES)
    bits = old ^ new
    return 8 * byte + (bits & -bits).bit_length() - 1, row
