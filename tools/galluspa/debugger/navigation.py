"""Where a debugger is in the run of a recording, the points at which it pauses, and its moves forward and backward.

All moves are searches of the library, or runs to a count.
"""

from collections.abc import Sequence
from dataclasses import dataclass, field

from galluspa.analysis.calls import Calls
from galluspa.analysis.conditionwords import PC_WORDS
from galluspa.analysis.entries import is_call
from galluspa.analysis.inspection import entries_of
from galluspa.analysis.rawconditions import COUNTER, STOPS, Condition, Raw
from galluspa.analysis.search import Hit, Search
from galluspa.debugger.breakpoints import Point, conditions_in
from galluspa.engine.following import EACH_RISE, Call
from galluspa.engine.machine import Machine
from galluspa.engine.past import Past
from galluspa.engine.tracing import Step
from galluspa.formats.recording import STOPS as STOP_NAMES, WORDS
from galluspa.formats.symbols import Symbols

THE_BEGINNING, THE_END = "the recording begins here", "the recording ends here"


@dataclass(frozen=True)
class Pause:
    """Why a run pauses, in lines; and the instruction after which a watchpoint paused it."""

    reasons: Sequence[str] = ()
    seen: Step | None = None


def at_word(first: int, end: int | None = None) -> Condition:
    """That the program counter is at a word, or in a range of words."""
    return Condition(f"PC={first}", (Raw(COUNTER, first, first + 1 if end is None else end),))


def outside(words: range) -> Condition:
    """That the program counter is at none of these words."""
    raws = [Raw(COUNTER, 0, words.start)] if words.start else []
    return Condition("leaving the line", (*raws, Raw(COUNTER, words.stop, PC_WORDS)))


STOPPING = Point(0, "stop", Condition("stop", (Raw(STOPS),)), is_after=True)


@dataclass
class Debugger:
    """A machine at a count of a run, the points at which its moves pause, and those moves."""

    run: Past
    symbols: Symbols
    jobs: int
    count: int = 0
    # The highest R14 of the stack.
    stack_limit: int = EACH_RISE
    points: dict[int, Point] = field(default_factory=dict)
    numbered: int = 0
    # The points that paused the machine last.
    paused: list[Point] = field(default_factory=list)

    def __post_init__(self) -> None:
        self._machine = self.run.machine(self.count)
        self._calls = Calls(self.run, self.stack_limit)
        self._stack: tuple[int, Sequence[Call]] | None = None

    @property
    def machine(self) -> Machine:
        """Returns the machine at the count; it is not to be advanced."""
        return self._machine

    def at(self, count: int) -> None:
        """Goes to a count."""
        if count != self.count:
            self._machine = self.run.machine(count)
            self.count = count

    def add(self, text: str, condition: Condition, is_after: bool = False) -> Point:
        """Adds a point."""
        self.numbered += 1
        self.points[self.numbered] = Point(self.numbered, text, condition, is_after)
        return self.points[self.numbered]

    def step(self) -> Step | None:
        """Returns the instruction of the count; None if the machine is stopped."""
        return next(self.run.steps(self.machine.copy(), self.count + 1), None)

    @property
    def stack(self) -> Sequence[Call]:
        """Returns the calls that are open at the count, oldest first."""
        if self._stack is None or self._stack[0] != self.count:
            self._stack = self.count, self._calls.at(self.count)
        return self._stack[1]

    # Searches

    def first(self, conditions: Sequence[Condition], first: int, to: int) -> Hit | None:
        """Returns the first hit from a count up to another."""
        return Search(self.run, conditions, first, to, self.jobs).first() if conditions and first < to else None

    def last(self, conditions: Sequence[Condition], first: int, to: int) -> Hit | None:
        """Returns the last hit from a count up to another."""
        return Search(self.run, conditions, first, to, self.jobs).last() if conditions and first < to else None

    # Moves forward

    def go_on(self, also: Sequence[Point] = (), to: int | None = None) -> Pause:
        """Runs to the next point, to one of some others, or up to a count, which is that of the end."""
        self.paused.clear()
        while (pause := self._next(also, to)) is None:
            pass
        return pause

    def _next(self, also: Sequence[Point], to: int | None) -> Pause | None:
        """Runs in the same way; None if all points there are to be ignored."""
        if self.machine.state.stop:
            return Pause([f"{self.stopped}: it does nothing more"])
        if self.count >= self.run.end:
            return Pause([THE_END])
        end = self.run.end if to is None else min(to, self.run.end)
        points = sorted([*also, *self.enabled, STOPPING], key=lambda it: it.is_after)
        hit = self.first(conditions_in(it for it in points if it.is_after), self.count, self.count + 1)
        if not hit and self.count + 1 < end:
            hit = self.first(conditions_in(points), self.count + 1, end)
        if not hit:
            self.at(end)
            return Pause([*self.breaks(), *([THE_END] if end == self.run.end and to != end else [])])
        point = next(it for it in points if it.is_of(hit.condition))
        self.at(hit.count + point.is_after)
        pause = self._paused(point, hit.step)
        return pause if pause.reasons or not point.number or self.count == to else None

    @property
    def enabled(self) -> Sequence[Point]:
        """Returns the points that are enabled."""
        return [it for it in self.points.values() if it.is_enabled]

    def commands_due(self) -> list[str]:
        """Returns the commands of the points that paused the machine last."""
        due = [line for it in self.paused for line in it.commands]
        self.paused.clear()
        return due

    def _hit(self, met: Sequence[Point]) -> list[str]:
        """Counts the hits of points, and returns a line for each that pauses the machine."""
        lines = []
        for it in met:
            it.hits += 1
            if it.ignored:
                it.ignored -= 1
                continue
            lines.append(f"{it.kind} {it.number}: {it.text}")
            self.paused.append(it)
            if it.is_temporary:
                self.points.pop(it.number, None)
        return lines

    def _paused(self, point: Point, step: Step) -> Pause:
        """Returns the pause at a point; one of number 0 says nothing of itself."""
        if point is STOPPING:
            return Pause([self.stopped], step)
        if not point.is_after:
            return Pause(self.breaks([point] if point.number else []))
        return Pause([*self._watched(point, step.before.count), *self.breaks()], step)

    def _watched(self, known: Point, count: int) -> list[str]:
        """Returns a line for each watchpoint that the instruction of a count meets, of which one is known."""
        return self._hit([it for it in self.enabled if it.is_after and (it is known or self._meets(it, count))])

    def _meets(self, point: Point, count: int) -> bool:
        """Returns whether a point's condition holds at the instruction of a count."""
        return self.first(point.conditions, count, count + 1) is not None

    def breaks(self, known: Sequence[Point] = ()) -> list[str]:
        """Returns a line for each point that pauses before the instruction of the count."""
        return self._hit([it for it in self.enabled if not it.is_after and (it in known or self._is_at(it))])

    def _is_at(self, point: Point) -> bool:
        """Returns whether a point's condition holds at the count."""
        if self.machine.state.stop or self.count >= self.run.end:
            return False
        return self._meets(point, self.count)

    @property
    def stopped(self) -> str:
        """That the machine has stopped."""
        return f"the machine has stopped ({STOP_NAMES[self.machine.state.stop]})"

    def step_over(self) -> Pause:
        """Does an instruction, and what it calls."""
        pc = self.machine.state.pc
        pause = self.go_on(to=self.count + 1)
        if pause.reasons or pc >= WORDS or not is_call(self.machine.words[pc]) or not self._was_called():
            return pause
        return self.leave(len(self.stack))

    def leave(self, depth: int) -> Pause:
        """Runs to where the call has ended that is open below `depth` - 1 older ones."""
        return self.go_on(to=self._calls.end_of(depth, self.count, self.run.end))

    def until_after(self) -> Pause:
        """Does a line of the source, or an instruction, with what it calls; if it goes back in its procedure, as a loop does, runs
        to what comes after it there, or to where the procedure has returned."""
        line, entries = self.line, entries_of(self.machine, self.symbols)
        after, end = line.stop // 4 if line else self.machine.state.pc + 1, entries.end_of(4 * self.machine.state.pc) // 4
        begin = (entries.entry_of(4 * self.machine.state.pc) or 0) // 4
        pause = self.step_line(is_over=True)
        if pause.reasons or not begin <= self.machine.state.pc < after:
            return pause
        stack, there = self.stack, Point(0, "", at_word(after, end))
        ended = self._calls.end_of(len(stack), self.count, self.run.end) if stack else None
        while True:
            pause = self.go_on([there], ended)
            if pause.reasons or self.count == ended or self.stack[-1:] == stack[-1:]:
                return pause

    def step_line(self, is_over: bool) -> Pause:
        """Runs to the beginning of another line of the source; without lines, does an instruction. What is called and
        has no lines is done with it, and so is all that is called, on request."""
        line = self.symbols.line_range(4 * self.machine.state.pc)
        if line is None:
            return self.step_over() if is_over else self.go_on(to=self.count + 1)
        while True:
            pause = self.go_on([Point(0, "", outside(range(line.start // 4, line.stop // 4)))])
            if pause.reasons:
                return pause
            if (is_over or self.line is None) and self._was_called():
                pause = self.leave(len(self.stack))
                if pause.reasons:
                    return pause
            at, here = 4 * self.machine.state.pc, self.line
            if here is None or at == here.start and at not in line:
                return pause
            line = here

    @property
    def line(self) -> range | None:
        """Returns the addresses of the line of the source at which the machine is."""
        return self.symbols.line_range(4 * self.machine.state.pc)

    def _was_called(self) -> bool:
        """Returns whether the instruction before has made a call."""
        return any(call.count == self.count - 1 for call in self.stack[-1:])

    # Moves backward

    def go_back(self) -> Pause:
        """Runs backward to the point before, or to the beginning."""
        self.paused.clear()
        while (pause := self._previous()) is None:
            pass
        return pause

    def _previous(self) -> Pause | None:
        """Runs in the same way; None if all points there are to be ignored."""
        points = sorted(self.enabled, key=lambda it: it.is_after)
        hit = self.last(conditions_in(points), 0, self.count) if points and self.count else None
        if not hit:
            self.at(0)
            return Pause([THE_BEGINNING])
        point = next(it for it in points if it.is_of(hit.condition))
        self.at(hit.count)
        reasons = [*self._watched(point, hit.count), *self.breaks([point])]
        return Pause(reasons) if reasons else None

    def step_back_over(self) -> Pause:
        """Goes an instruction back; if that one came back from a call, to the call."""
        if not self.count:
            return Pause([THE_BEGINNING])
        call = self._call_before()
        self.at(self.count - 1 if call is None else call)
        return Pause()

    def step_back_line(self, is_over: bool) -> Pause:
        """Goes back to the beginning of the line of the source, or of the one before if it is there; without lines, an
        instruction back."""
        if not self.count:
            return Pause([THE_BEGINNING])
        had_lines = self.line is not None
        self._one_back(is_over, had_lines)
        while had_lines and self.count and (line := self.line) is not None:
            hit = self.last([outside(range(line.start // 4, line.stop // 4))], 0, self.count)
            self.at(hit.count + 1 if hit else 0)
            if 4 * self.machine.state.pc == line.start or self._call_before() is None:
                break
            # A call in the middle of the line has returned here.
            self._one_back(is_over, had_lines)
        return Pause()

    def _one_back(self, is_over: bool, has_lines: bool) -> None:
        """Goes an instruction back; to before a call on request, or if what was called has no lines."""
        count = self.count
        if not is_over:
            self.at(count - 1)
            if not has_lines or self.line is not None:
                return
            self.at(count)
        self.step_back_over()

    def _call_before(self) -> int | None:
        """Returns the count of the oldest call that the instruction before has ended, if it made none; None if it ended none."""
        if not self.count or self._was_called():
            return None
        before, depth = self._calls.at(self.count - 1), len(self.stack)
        return before[depth].count if depth < len(before) else None
