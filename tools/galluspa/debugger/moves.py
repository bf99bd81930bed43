"""The commands of `galluspa debug` that go to another count."""

from collections.abc import Callable, Iterator

from galluspa.debugger.base import Base, nothing, times
from galluspa.debugger.navigation import THE_BEGINNING, THE_END, Pause, Point
from galluspa.process.cli import Refused, number


class Moves(Base):
    """The commands that move."""

    def restart(self, text: str) -> Iterator[str]:
        """Goes to the beginning, and runs to the first point."""
        nothing(text)
        debugger = self.debugger
        debugger.at(0)
        reasons = debugger.breaks()
        yield from self.moved(Pause(reasons) if reasons else debugger.go_on())

    def go_on(self, text: str) -> Iterator[str]:
        """Runs to the next point, or to the N-th."""
        yield from self._repeated(text, self.debugger.go_on, is_small=False)

    def go_back(self, text: str) -> Iterator[str]:
        """Yields them in reverse."""
        yield from self._repeated(text, self.debugger.go_back, is_small=False)

    def _repeated(self, text: str, move: Callable[[], Pause], is_small: bool = True) -> Iterator[str]:
        """Makes a move N times: a small one up to a pause, another one up to either end."""
        pause, ends = Pause(), () if is_small else (0, self.debugger.run.end)
        for _ in range(times(text)):
            before, pause = self.debugger.count, move()
            if self.debugger.count in (before, *ends) or is_small and pause.reasons:
                break
        yield from self.moved(pause)

    def step_line(self, text: str) -> Iterator[str]:
        """Runs to another line of the source."""
        yield from self._repeated(text, lambda: self.debugger.step_line(is_over=False))

    def next_line(self, text: str) -> Iterator[str]:
        """Yields the same, with all that is called."""
        yield from self._repeated(text, lambda: self.debugger.step_line(is_over=True))

    def next_instruction(self, text: str) -> Iterator[str]:
        """Does instructions, and what they call."""
        yield from self._repeated(text, self.debugger.step_over)

    def step_line_back(self, text: str) -> Iterator[str]:
        """Goes back to the beginning of a line of the source."""
        yield from self._repeated(text, lambda: self.debugger.step_back_line(is_over=False))

    def next_line_back(self, text: str) -> Iterator[str]:
        """Yields the same, over all that was called."""
        yield from self._repeated(text, lambda: self.debugger.step_back_line(is_over=True))

    def next_instruction_back(self, text: str) -> Iterator[str]:
        """Goes instructions back, and over what they called."""
        yield from self._repeated(text, self.debugger.step_back_over)

    def step_instruction(self, text: str) -> Iterator[str]:
        """Does N instructions."""
        debugger = self.debugger
        pause = debugger.go_on(to=debugger.count + times(text))
        if debugger.count == debugger.run.end and not pause.reasons:
            pause = Pause([THE_END])
        yield from self.moved(pause)

    def step_instruction_back(self, text: str) -> Iterator[str]:
        """Goes N instructions back."""
        debugger = self.debugger
        debugger.at(max(debugger.count - times(text), 0))
        yield from self.moved(Pause([] if debugger.count else [THE_BEGINNING]))

    def finish(self, text: str) -> Iterator[str]:
        """Runs until the procedure of the selected frame returns."""
        nothing(text)
        debugger, frame = self.debugger, self.frame_number()
        call, depth = self.open_call(frame + 1), len(debugger.stack) - frame
        pause = debugger.leave(depth)
        has_ended = call not in debugger.stack[depth - 1 : depth]
        state = debugger.machine.state
        is_return = state.pc == call.back and state.r[14] == call.sp
        said = f"the procedure that was called at {call.count:,} {'has returned' if is_return else 'was left without a return'}"
        yield from self.moved(Pause([*([said] if has_ended else []), *pause.reasons], pause.seen))

    def finish_back(self, text: str) -> Iterator[str]:
        """Goes back to the call of the procedure of the selected frame."""
        nothing(text)
        self.debugger.at(self.open_call(self.frame_number() + 1).count)
        yield from self.here()

    def advance(self, text: str) -> Iterator[str]:
        """Runs to an instruction, as if there were a breakpoint."""
        yield from self.moved(self.debugger.go_on([Point(0, "", self.location(text))]))

    def until(self, text: str) -> Iterator[str]:
        """Runs past a loop to what comes after this line or instruction; or to a place."""
        yield from self.advance(text) if text else self.moved(self.debugger.until_after())

    def at(self, text: str) -> Iterator[str]:
        """Goes to a count."""
        debugger = self.debugger
        named = {"start": 0, "end": debugger.run.end}.get(text)
        sign, digits = (text[0], text[1:]) if text[:1] in ("+", "-") else ("", text)
        count = number(digits.replace(",", "")) if named is None else named
        if count is None:
            raise Refused("expected at COUNT, +COUNT, -COUNT, start or end")
        count = {"+": debugger.count + count, "-": debugger.count - count}.get(sign, count)
        if not 0 <= count <= debugger.run.end:
            raise Refused(f"count {count:,} is not in 0..{debugger.run.end:,}")
        debugger.at(count)
        yield from self.here()
