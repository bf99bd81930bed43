"""Opens the recording that a tool is asked about: its run, as far as a check finds it true, with the names of its symbol file."""

from argparse import Namespace
from dataclasses import dataclass

from galluspa.engine.library import Library
from galluspa.engine.program import Program
from galluspa.engine.tracing import Run
from galluspa.formats.builds import tell_misfit
from galluspa.formats.symbolfiles import symbols_for
from galluspa.formats.symbols import Symbols
from galluspa.process.cli import Refused
from galluspa.process.timelimit import Limit


@dataclass(frozen=True)
class Opened:
    """The run of a recording, its names, and the program that checked it."""

    run: Run
    symbols: Symbols
    program: Program

    def count(self, asked: int | None) -> int:
        """Returns the count of the option --at, or that of the last checkpoint if there is none. Raises Refused for a later one."""
        return count_asked("--at", asked, self.run.counts[-1])


def count_asked(option: str, count: int | None, last: int) -> int:
    """Returns the count of an option, or that of the last checkpoint if there is none. Raises Refused for a later one."""
    if count is not None and count > last:
        raise Refused(f"{option} {count} is after the last checkpoint, which is at {last}")
    return last if count is None else count


def opened(asked: Namespace, limit: Limit) -> Opened:
    """Returns the recording that the arguments of a tool name, with the names of their symbol file, or of the one beside it."""
    symbols, program = symbols_for(asked.symbols, asked.recording), Program.find(asked.program, limit)
    run = Run.checked(Library.find(asked.library, limit), program, asked.recording)
    tell_misfit(symbols, run.read.first_memory)
    return Opened(run, symbols, program)
