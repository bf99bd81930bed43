"""The calls that are open at the counts of a run, by the library's definition.

A call is a branch with link that is taken. It ends by its return, or where the machine leaves it otherwise. Since the stack of a
count depends on the run before it, a run is followed from its beginning, where no call is open. Some counts are kept on the way.
"""

from collections import deque
from collections.abc import Iterator, Sequence

from galluspa.engine.following import EACH_RISE, NO_CALL, TURN, Call, Follower, Turn
from galluspa.engine.tracing import Run
from galluspa.process.cli import Parser, progress

# The most followers that are kept, of a megabyte each, and the most calls that are open in all of them together.
KEPT, MOST_KEPT_CALLS = 24, 1 << 19
# On the way to a count some are kept, at these distances from it.
DISTANCES = [4**power for power in range(13, 2, -1)]
# The number of steps in which the end of a call is sought first.
FIRST_STEPS = 1 << 12
# The number of counts by which a trace is followed at once.
AHEAD = 1 << 14


def add_stack_limit_option(options: Parser) -> None:
    """Adds the option that says where another stack begins."""
    above = "if R14 rises above it, another stack is used, as by coroutines, and no call ends by that"
    does = f"the highest R14 of the stack: {above} (default: each rise of R14 ends the calls below it)"
    options.add_number("--stack-limit", "ADDRESS", 0, EACH_RISE, does, default=EACH_RISE)


class Calls:
    """The calls that are open at any count of a run."""

    def __init__(self, run: Run, limit: int = EACH_RISE) -> None:
        """The calls of a run whose stack has no R14 above a limit. None is open where the run begins."""
        self._run = run
        self._limit = limit
        self._kept: dict[int, Follower] = {}
        self.first = run.first_count

    def at(self, count: int) -> tuple[Call, ...]:
        """Returns the calls that are open at a count, oldest first."""
        if count not in self._kept:
            self.follower(count)
        return self._kept[count].calls()

    def follower(self, count: int) -> Follower:
        """Returns a follower at a count, which the caller may lead on."""
        it = self._before(count)
        for at in _waypoints(it.machine.count, count):
            while it.machine.count < at:
                it.go_on(at)
                progress(f"following calls: at {it.machine.count:,} of {count:,}")
            self._keep(it.copy())
        progress("")
        return it

    def _before(self, count: int) -> Follower:
        """Returns a follower at or before a count: the last one that is kept, or one at the beginning."""
        kept = max((at for at in self._kept if at <= count), default=None)
        if kept is None:
            return Follower(self._run.library, self._run.inputs, self._run.machine(self.first), self._limit)
        self._kept[kept] = found = self._kept.pop(kept)
        return found.copy()

    def _keep(self, follower: Follower) -> None:
        self._kept.pop(follower.machine.count, None)
        self._kept[follower.machine.count] = follower
        while len(self._kept) > KEPT or len(self._kept) > 1 and sum(it.number for it in self._kept.values()) > MOST_KEPT_CALLS:
            del self._kept[next(iter(self._kept))]

    def end_of(self, depth: int, count: int, to: int) -> int | None:
        """Returns the first count after `count`, up to `to`, at which the call that is open at `count` below `depth` - 1 older ones
        has ended; None if it has not."""
        it = self.follower(count)
        it.machine.steps = FIRST_STEPS
        while it.machine.count < to and not it.machine.state.stop:
            turns = it.go_on(to).cast("Q")
            stays = turns[1::4].tolist()
            if stays and min(stays) < depth:
                place = next(at for at, stay in enumerate(stays) if stay < depth)
                return int(turns[4 * place]) + 1
            progress(f"following calls: at {it.machine.count:,} of {to:,}")
        progress("")
        return None


class RisingCalls:
    """The calls that are open at rising counts of a run."""

    def __init__(self, calls: Calls, first: int) -> None:
        """The first of the counts."""
        self._follower = calls.follower(first)
        self._open = list(self._follower.calls())
        self._turns: deque[Turn] = deque()

    def at(self, count: int) -> Sequence[Call]:
        """Returns the calls that are open at a count, oldest first; those of the next count replace them."""
        while True:
            while self._turns and self._turns[0].count < count:
                turn = self._turns.popleft()
                del self._open[turn.stay :]
                if turn.at != NO_CALL:
                    self._open.append(Call(turn.count, turn.at, turn.to, turn.back, turn.sp))
            machine = self._follower.machine
            if self._turns or machine.count >= count:
                return self._open
            self._turns.extend(map(Turn._make, TURN.iter_unpack(self._follower.go_on(max(count, machine.count + AHEAD)))))


def _waypoints(first: int, to: int) -> Iterator[int]:
    """Counts on the way from one to another, ever nearer to it, and it."""
    yield from (to - distance for distance in DISTANCES if to - distance > first)
    yield to
