"""What the commands of `galluspa debug` share: the debugger, how its place is shown, and how places are read."""

import re
import shlex
from collections.abc import Iterator
from dataclasses import dataclass, field

from galluspa.analysis.addresses import address_at, moment_of, place_words
from galluspa.analysis.expressiontexts import literal
from galluspa.analysis.rawconditions import Condition
from galluspa.analysis.naming import placed_lines
from galluspa.debugger.navigation import Debugger, Pause, at_word
from galluspa.engine.following import Call
from galluspa.engine.program import Program
from galluspa.formats.recording import MEMORY_BYTES
from galluspa.formats.sessions import COUNTS
from galluspa.formats.sourcetext import Sources
from galluspa.formats.symbols import shown
from galluspa.process.cli import Refused, number

MOST_TIMES = COUNTS
LOCATION = re.compile(r"([^:\s]+):([0-9]{1,9})")


@dataclass
class Base:
    """A debugger, the program that draws screens, and the sources that are shown."""

    debugger: Debugger
    program: Program
    sources: Sources
    # The commands that are carried out next, since a point has them.
    pending: list[str] = field(default_factory=list)

    def here(self) -> Iterator[str]:
        """Yields the instruction of the count, what it changes, and its line of the source."""
        debugger = self.debugger
        step = debugger.step()
        if step is None:
            yield f"{debugger.count:>10}  {debugger.stopped}"
            return
        yield from placed_lines(step, debugger.symbols)
        if line := self.sources.line(debugger.symbols.line_at(4 * step.before.pc)):
            yield line
        yield from self.displayed()

    def displayed(self) -> Iterator[str]:
        """Yields what is shown wherever the machine pauses."""
        yield from ()

    def frame_number(self) -> int:
        """Returns the number of the selected frame, which is 0 where the machine is."""
        return 0

    def open_call(self, number: int) -> Call:
        """Returns one of the calls that are open, of which the last one has number 1. Raises Refused if there are fewer."""
        stack = self.debugger.stack
        if number > len(stack):
            none = f"{len(stack):,} calls are open" if stack else "no call is open"
            raise Refused(f"{none} at count {self.debugger.count:,}")
        return stack[-number]

    def moved(self, pause: Pause) -> Iterator[str]:
        """Why the machine pauses, and where."""
        self.pending = self.debugger.commands_due()
        if self.pending[:1] == ["silent"]:
            return
        yield from pause.reasons
        if pause.seen:
            yield from placed_lines(pause.seen, self.debugger.symbols)
        yield from self.here()

    def location(self, text: str) -> Condition:
        """Returns the condition that the machine is at an instruction: a name, a register or *ADDRESS, a word number,
        or FILE:LINE; of no text, at this one."""
        symbols, moment = self.debugger.symbols, moment_of(self.debugger.machine)
        if not text:
            return at_word(moment.state.pc)
        if (word := literal(text)) is not None:
            return at_word(word_at(4 * word, text))
        if text.startswith("*"):
            return at_word(word_at(address_at(text[1:], moment, symbols), text))
        line = LOCATION.fullmatch(text)
        if line and not symbols.places(text):
            at = symbols.line_with_code(line[1], int(line[2]))
            if at is None:
                raise Refused(f"{shown(text)}: no instruction begins there, or after it")
            return at_word(word_at(min(symbols.addresses_of_line(line[1], at)), text))
        return at_word(word_at(address_at(text, moment, symbols), text))

    def place(self, text: str) -> list[str]:
        """Returns the words of a place of a condition. *ADDRESS, or a register, stands for the address that it is now."""
        return place_words(text, moment_of(self.debugger.machine), self.debugger.symbols)


def nothing(text: str) -> None:
    if text:
        raise Refused(f"{shown(text)}: this command takes no arguments")


def times(text: str) -> int:
    """Returns how many times something is to be done."""
    times = number(text) if text else 1
    if times is None or not 1 <= times <= MOST_TIMES:
        raise Refused(f"{shown(text)} is not a number of times")
    return times


def split(text: str) -> list[str]:
    """Returns words, of which several are one in quotation marks."""
    try:
        return shlex.split(text)
    except ValueError as why:
        raise Refused(f"{shown(text)}: {why}") from why


def word_at(address: int, text: str) -> int:
    """Returns the number of the word at a byte address."""
    if address % 4 or address >= MEMORY_BYTES:
        raise Refused(
            f"{shown(text)} is byte {address:X} (hexadecimal), and an instruction is at a multiple of 4 " f"below {MEMORY_BYTES:X}"
        )
    return address // 4
