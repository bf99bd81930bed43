"""Prints which procedures of the recorded program the instructions of a run go to, and who calls them.

The library counts how often each word is executed, and follows the calls of the run. So all numbers are exact.
"""

import sys
from argparse import Namespace
from pathlib import Path
from textwrap import dedent

from galluspa.analysis.calls import add_stack_limit_option
from galluspa.analysis.profiles import Profile, profile_of
from galluspa.engine.library import Library
from galluspa.engine.opening import count_asked
from galluspa.engine.tracing import Run
from galluspa.formats.builds import tell_misfit
from galluspa.formats.sessions import COUNTS
from galluspa.formats.symbolfiles import symbols_for
from galluspa.formats.symbols import Symbols
from galluspa.output.profileformats import difference, text
from galluspa.process.cli import Parser, Refused, progress, read_file
from galluspa.process.timelimit import Limit


def parser() -> Parser:
    options = Parser(
        dedent(
            """\
            Prints the profile of a run: how many instructions each procedure of the recorded program takes, and
            how often each calls another; and with callees, the instructions that are done while a call of it has
            not returned. All numbers are exact. The run is that of the machine from the initial state, whatever
            the recording claims. A symbol file adds names and source lines (docs/symbols.md); without it,
            procedures are known by their addresses."""
        ),
        "galluspa profile examples/face.orsr --from 8000000 --to 12000000",
    )
    options.add_argument("recording", metavar="RECORDING", type=Path)
    options.add_number("--from", "N", 0, COUNTS, "the count to begin at (default 0)", dest="first", default=0)
    options.add_number("--to", "N", 0, COUNTS, "the count to end at (default: that of the last checkpoint)")
    options.add_file("--against", "OTHER", "print what differs from the same counts of another recording, procedure by procedure")
    add_stack_limit_option(options)
    options.add_symbols_option()
    options.add_limit_option("end after this many seconds")
    options.add_library_option()
    return options


def profiled(library: Library, path: Path, asked: Namespace, symbols: Symbols) -> Profile:
    """Returns the profile of a recording."""
    try:
        run = Run.begun(library, read_file(path))
    except Refused as refusal:
        raise type(refusal)(f"{path}: {str(refusal).removeprefix(f'{path}: ')}") from refusal
    tell_misfit(symbols, run.read.first_memory)
    last = run.counts[-1]
    to = count_asked(f"{path}: --to", asked.to, last)
    if to < count_asked(f"{path}: --from", asked.first, last):
        raise Refused(f"--to {to} is before --from {asked.first}")

    def heard(count: int) -> None:
        progress(f"at {count:,} of {to:,}")

    profile = profile_of(run, asked.first, to, symbols, asked.stack_limit, heard)
    if symbols and profile.seen.visits and not any(symbols.text(4 * at) for at in profile.seen.visits):
        raise Refused(f"{symbols.origin} names nothing that is executed: are these the names of another program?")
    progress("")
    return profile


def main(asked: Namespace) -> int:
    """Prints the profile of a recording."""
    library = Library.find(asked.library, Limit(asked.limit))
    profile = profiled(library, asked.recording, asked, symbols_for(asked.symbols, asked.recording))
    other = asked.against and profiled(library, asked.against, asked, symbols_for(asked.symbols, asked.against))
    sys.stdout.writelines(f"{line}\n" for line in (difference(profile, other) if other else text(profile)))
    return 0
