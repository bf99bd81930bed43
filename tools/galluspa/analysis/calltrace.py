"""Shows instructions one after the other, with a line where the procedure changes: its name, and who called it."""

import json
from collections.abc import Hashable, Iterator

from galluspa.analysis.calls import Calls, RisingCalls
from galluspa.analysis.entries import Entries
from galluspa.analysis.naming import remarks_on, with_remark
from galluspa.engine.machine import Machine
from galluspa.engine.recorded import PC, RawStep
from galluspa.engine.tracing import Step, lines
from galluspa.formats.symbols import Symbols


class Trace:
    """Shows instructions one after the other."""

    def __init__(self, symbols: Symbols) -> None:
        """The names are those of a symbol file."""
        self._symbols = symbols
        self._last: Hashable = None

    def lines(self, step: Step) -> Iterator[str]:
        """Yields the lines that show the next instruction."""
        count, pc = step.before.count, step.before.pc
        if self._is_new(count, pc):
            yield from self._heading(count, pc)
        *inputs, shown = lines(step)
        yield from inputs
        yield with_remark(shown, *remarks_on(step, self._symbols))

    def member(self, step: RawStep) -> str:
        """Returns what the object of the next instruction has besides, in JSON."""
        return ""

    def _heading(self, count: int, pc: int) -> Iterator[str]:
        """Yields the lines that come where the place has another name."""
        if name := self._symbols.text(4 * pc):
            yield f"{name}:"

    def _is_new(self, count: int, pc: int) -> bool:
        """Returns whether an instruction is at another place than the one before it."""
        self._last, last = self._place(count, pc), self._last
        return self._last != last

    def _place(self, count: int, pc: int) -> Hashable:
        return self._symbols.start_of(4 * pc)


class CallTrace(Trace):
    """The same with the stack where it or the procedure changes."""

    def __init__(self, symbols: Symbols, machine: Machine, calls: Calls) -> None:
        """The machine is that before the first instruction."""
        super().__init__(symbols)
        self._entries = Entries(memoryview(machine.memory()).cast("I"), symbols)
        self._calls = RisingCalls(calls, machine.count)
        self._heading_of_calls = f"stack since {calls.first:,}" if calls.first else "stack"

    def member(self, step: RawStep) -> str:
        """Returns the names of the stack, where the place changes."""
        count, pc = step.at, step.before[PC]
        return f', "stack": {json.dumps(self._entries.stack(pc, self._calls.at(count)))}' if self._is_new(count, pc) else ""

    def _heading(self, count: int, pc: int) -> Iterator[str]:
        yield from super()._heading(count, pc)
        yield f"  {self._heading_of_calls}: {self._entries.line(pc, self._calls.at(count))}"

    def _place(self, count: int, pc: int) -> Hashable:
        return super()._place(count, pc), self._entries.entry_of(4 * pc), tuple(it.count for it in self._calls.at(count)[-1:])
