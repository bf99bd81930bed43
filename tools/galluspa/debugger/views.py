"""The commands of `galluspa debug` that show something and stay at their count."""

import re
from collections.abc import Iterable, Iterator
from dataclasses import dataclass
from itertools import islice

from galluspa.analysis import inspection
from galluspa.analysis.addresses import address_at, address_in_memory, moment_of
from galluspa.analysis.entries import Entries
from galluspa.analysis.expressiontexts import literal
from galluspa.analysis.inspection import STACK_WORDS
from galluspa.analysis.lastwrites import last_write_asked
from galluspa.analysis.naming import with_remark
from galluspa.debugger.base import nothing, split, times
from galluspa.debugger.breakpoints import point_lines
from galluspa.debugger.displays import Displays, string_at, string_line, written
from galluspa.debugger.listings import Listings
from galluspa.formats import states
from galluspa.formats.recording import MEMORY_BYTES, WORDS, Event
from galluspa.formats.symbols import CODE, DATA, shown
from galluspa.process.cli import Refused, number, write_file

DISASSEMBLED, INPUTS = 8, 10
MOST_EXAMINED, MOST_CALLS = 4096, 1000
EXAMINE = re.compile(r"(?:/([0-9]{0,4})([xductsai]?)([bhw]?)([xductsai]?)(?=\s|$))?\s*(.*)")
SIZES = {"b": 1, "h": 2, "w": 4}
# How many units of a size are in a line.
IN_LINE = {1: 8, 2: 8, 4: 4}
INFO = ("breakpoints", "devices", "display", "functions", "inputs", "line", "registers", "stack", "symbol", "variables")


@dataclass
class Views(Displays, Listings):
    """The commands that show something."""

    # The selected frame: the count at which it was selected, and how many calls it is up.
    selected: tuple[int, int] = (0, 0)
    # The format and the size of the last `x`.
    examined: tuple[str, int] = ("x", 4)

    def info(self, text: str) -> Iterable[str]:
        """Shows one of several things."""
        what, _, rest = text.partition(" ")
        meant = [it for it in INFO if what and it.startswith(what)]
        if len(meant) != 1:
            raise Refused(f"expected info and one of {', '.join(INFO)}")
        debugger = self.debugger
        machine, symbols = debugger.machine, debugger.symbols
        if meant[0] == "registers":
            return self._registers(rest)
        if meant[0] == "devices":
            return inspection.device_lines(machine.seen())
        if meant[0] == "stack":
            return inspection.stack_lines(machine, STACK_WORDS, symbols, debugger.stack)
        if meant[0] == "breakpoints":
            return point_lines(debugger.points.values())
        if meant[0] == "display":
            return self.display_list()
        if kind := {"functions": CODE, "variables": DATA}.get(meant[0]):
            return self.names_of(kind, rest.strip())
        if meant[0] == "inputs":
            return self._inputs()
        address = address_at(rest or "PC", moment_of(machine), symbols)
        source = symbols.line_at(address)
        line = source.text if source else "no source line here"
        return [line if meant[0] == "line" else symbols.text(address) or "no name reaches it"]

    def _registers(self, wanted: str) -> Iterator[str]:
        lines = list(inspection.register_lines(self.debugger.machine.seen(), self.debugger.symbols))
        names = {name.removeprefix("$").upper().replace("SP", "R14").replace("LNK", "R15") for name in wanted.split()}
        unknown = names - {line.split()[0].upper() for line in lines}
        if unknown:
            raise Refused(f"unknown register {shown(min(unknown))}")
        yield from (line for line in lines if not names or line.split()[0].upper() in names)

    def _inputs(self) -> Iterator[str]:
        """Yields the next inputs."""
        due: Iterable[Event] = self.debugger.run.inputs.of(self.debugger.count, self.debugger.run.end)
        some = [f"{it.count:>10}  input   {states.event(it)}" for it in islice(due, INPUTS)]
        yield from some or ["no more inputs"]

    def examine(self, text: str) -> Iterator[str]:
        """Shows memory in a format."""
        found = EXAMINE.fullmatch(text)
        if not found or not found[5] or found[5].startswith("/"):
            raise Refused("expected x/FMT ADDRESS: a number, one of x d u c t s a i, and one of b h w, as in x/8xw SP")
        kind, size = found[2] or found[4] or self.examined[0], SIZES.get(found[3], self.examined[1])
        units = min(int(found[1] or "1") or 1, MOST_EXAMINED)
        debugger = self.debugger
        symbols = debugger.symbols
        address = address_in_memory(found[5], moment_of(debugger.machine), symbols)
        if kind == "i":
            return inspection.instruction_lines(debugger.machine, address // 4, units, symbols)
        if kind == "s":
            return self._strings(address, units)
        self.examined = kind, 4 if kind == "a" else 1 if kind == "c" and not found[3] else size
        return self._units(address // self.examined[1] * self.examined[1], units)

    def _units(self, address: int, units: int) -> Iterator[str]:
        kind, size = self.examined
        memory = self.debugger.machine.memory()
        end = min(address + size * units, MEMORY_BYTES)
        across = 1 if kind == "a" else IN_LINE[size]
        for first in range(address, end, size * across):
            places = range(first, min(first + size * across, end), size)
            values = (int.from_bytes(memory[at : at + size], "little") for at in places)
            row = "  ".join(written(value, kind, size, self.debugger.symbols) for value in values)
            yield with_remark(f"{first:06X}  {row}", self.debugger.symbols.text(first))

    def _strings(self, address: int, units: int) -> Iterator[str]:
        memory = self.debugger.machine.memory()
        for _ in range(units):
            yield string_line(memory, address)
            address += len(string_at(memory, address)) + 1
            if address >= MEMORY_BYTES:
                return

    def backtrace(self, text: str) -> Iterator[str]:
        """Yields where the machine is, and the calls that have not returned, the last one first."""
        nothing(text)
        debugger = self.debugger
        entries, stack = inspection.entries_of(debugger.machine, debugger.symbols), debugger.stack
        for at in range(min(len(stack) + 1, MOST_CALLS)):
            yield self._frame(at, entries)
        if len(stack) >= MOST_CALLS:
            yield f"and {len(stack) + 1 - MOST_CALLS:,} more"

    def frame(self, text: str) -> Iterator[str]:
        """Selects a frame by its number, which backtrace shows, and shows it; without a number, the one that is selected."""
        number = literal(text) if text else self.frame_number()
        if number is None:
            raise Refused(f"{shown(text)}: expected frame N, with the number of a frame, which backtrace lists")
        if number > len(self.debugger.stack):
            raise Refused(f"there is no frame {number:,}: the last is {len(self.debugger.stack):,}")
        return self._select(number)

    def up(self, text: str) -> Iterator[str]:
        """Selects the frame of a caller."""
        return self._select(self.frame_number() + times(text))

    def down(self, text: str) -> Iterator[str]:
        """Selects the frame of what the selected one calls."""
        return self._select(max(self.frame_number() - times(text), 0))

    def frame_number(self) -> int:
        """Returns the number of the selected frame, which is 0 once the machine has moved."""
        return self.selected[1] if self.selected[0] == self.debugger.count else 0

    def _select(self, number: int) -> Iterator[str]:
        """Selects a frame, and yields its line and that of its source."""
        number = min(number, len(self.debugger.stack))
        self.selected, self.listed = (self.debugger.count, number), ("", 0, 0, 0)
        yield self._frame(number, inspection.entries_of(self.debugger.machine, self.debugger.symbols))
        if line := self.sources.line(self.debugger.symbols.line_at(4 * self._frame_place(number)[0])):
            yield line

    def selected_word(self) -> int:
        """Returns the word of the selected frame: where the machine is, or a call."""
        return self._frame_place(self.frame_number())[0]

    def _frame_place(self, number: int) -> tuple[int, int]:
        """Returns the word of a frame, and its count: where the machine is, or the branch of an open call."""
        call = self.open_call(number) if number else None
        return (call.at, call.count) if call else (self.debugger.machine.state.pc, self.debugger.count)

    def _frame(self, number: int, entries: Entries) -> str:
        """Returns the line of a frame: its procedure, its line of the source, and its count."""
        word, count = self._frame_place(number)
        source = self.debugger.symbols.source(4 * word)
        return f"#{number:<3}{entries.text(4 * word)}{f', {source}' if source else ''}, at {count:,}"

    def disassemble(self, text: str) -> Iterator[str]:
        """Shows instructions: those of the procedure around an address, or a number of them from the address on."""
        debugger = self.debugger
        place, comma, words = text.rpartition(",")
        wanted = number(words.strip().removeprefix("+")) if comma else None
        if comma and (wanted is None or not 1 <= wanted <= WORDS):
            raise Refused(f"{shown(words)} is not a number of instructions")
        first = self.location(place.strip() if comma else text).raws[0].first
        count = wanted or 2 * DISASSEMBLED
        if not text:
            first, count = max(first - DISASSEMBLED, 0), 2 * DISASSEMBLED
        return inspection.instruction_lines(debugger.machine, first, count, debugger.symbols)

    def who(self, text: str) -> Iterator[str]:
        """Yields the last instruction before this count that wrote a place or a register, and the last one that changed it if
        that is another one."""
        debugger = self.debugger
        found = last_write_asked(debugger.run, text, moment_of(debugger.machine), debugger.symbols, debugger.jobs)
        if found is None:
            raise Refused(f"nothing wrote {shown(text)} before count {debugger.count:,}")
        yield from found.lines(debugger.symbols)

    def screen(self, text: str) -> Iterator[str]:
        """Draws the screen: as text, or into a file."""
        pbm = inspection.screen_of(self.debugger.machine, self.program)
        if not text:
            yield from inspection.screen_lines(pbm)
            return
        names = split(text)
        if len(names) != 1:
            raise Refused("expected screen, or screen FILE")
        write_file(names[0], inspection.picture_of(pbm, names[0]))
        yield f"the screen at {self.debugger.count:,} is in {shown(names[0])}"
