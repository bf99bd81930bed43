"""Compares a trace that another emulator prints with the machine, line by line, up to the first that differs.

The machine is that of the recording's initial state and inputs, whatever its checkpoints claim. The exit status is 0 if
no line differs, 1 if one does, and 2 for bad input.
"""

import sys
from argparse import Namespace
from collections.abc import Iterable, Iterator
from functools import partial
from pathlib import Path
from textwrap import dedent
from typing import BinaryIO

from galluspa.analysis.explanation import NOT_SOUGHT, table
from galluspa.analysis.naming import named_row, placed_lines
from galluspa.emulators.tracecomparison import Compared, Difference, Gave, Parted, compare, gave
from galluspa.engine.library import Library
from galluspa.engine.tracing import Run
from galluspa.formats.builds import tell_misfit
from galluspa.formats.sessions import COUNTS
from galluspa.formats.symbolfiles import symbols_for
from galluspa.formats.symbols import Symbols
from galluspa.formats.tracefiles import ADDRESS, COUNT, LONGEST_LINE, Form, TraceFile
from galluspa.process.cli import OK, WRONG, Parser, Refused, complain, opened_file, progress, read_file
from galluspa.process.escapes import printable
from galluspa.process.timelimit import Limit

STANDARD_INPUT = "-"


def parser() -> Parser:
    options = Parser(
        dedent(
            f"""\
            Compares a trace that another emulator prints with the machine in the run of a recording, and prints
            the first line that differs: both states, the instruction that gave them, and the last instructions
            that wrote its operands. The first line of TRACE names the columns, in any order, with commas or
            blanks between them: {COUNT}, PC, R0 to R15, H, flags, or N, Z, C and V; {ADDRESS} is four times PC. A
            line has the state before the instruction of its count. Columns that are missing are not compared,
            nor are others. Numbers are decimal; or hexadecimal with 0x or $ in front, with a digit above 9, and
            if the registers of the first line have eight digits each."""
        ),
        "galluspa compare-trace examples/face.orsr face.csv",
        {OK: "no line differs from the machine", WRONG: "a line differs"},
    )
    options.add_argument("recording", metavar="RECORDING", type=Path)
    options.add_argument(
        "trace",
        metavar="TRACE",
        nargs="?",
        default=STANDARD_INPUT,
        help="a file; without one, or as -, standard input, also while the emulator still runs",
    )
    options.add_flag("--hex", "all numbers but those of the column count are hexadecimal")
    options.add_number("--from", "N", 0, COUNTS, f"the count of the first line, without a column {COUNT} (default 0)", dest="first")
    options.add_symbols_option()
    options.add_limit_option("end after this many seconds of the machine, and say how far it came")
    options.add_library_option()
    return options


def lines_of(name: str) -> Iterator[bytes]:
    """Yields the lines of a file or of standard input as they come; of a longer line its beginning."""
    file: BinaryIO = sys.stdin.buffer if name == STANDARD_INPUT else opened_file(name)
    with file:
        yield from iter(partial(file.readline, LONGEST_LINE + 1), b"")


def trace_of(asked: Namespace) -> TraceFile:
    """Returns the trace that was named, of which the header is read."""
    name = "standard input" if asked.trace == STANDARD_INPUT else printable(asked.trace)
    trace = TraceFile(lines_of(asked.trace), Form(name, asked.hex, asked.first or 0))
    if COUNT in trace.header.columns and asked.first is not None:
        raise Refused(f"leave out --from: {name} has a column {COUNT}")
    if unknown := trace.header.unknown:
        complain(f"not compared: {', '.join(printable(it) for it in unknown)}")
    return trace


def report(run: Run, trace: TraceFile, compared: Compared, symbols: Symbols) -> Iterator[str]:
    """Yields the lines that say what was compared, and where the trace parts from the machine."""
    parted = compared.parted
    if parted is None:
        yield _sameness(compared)
        return
    before = f": the same at {parted.before.at}" if parted.before else ": it is the first line"
    yield f"differs in line {parted.row.number}, at {parted.row.at}{before}"
    yield ""
    rows = (named_row((it.name, *it.texts), symbols) for it in parted.differences)
    yield from table([("", "the trace", "the machine"), *rows])
    if meant := _hint(parted.differences):
        yield meant
    yield ""
    found = gave(run, trace, parted)
    yield from _instructions(found, symbols) if found else [_no_instruction(parted)]


def _sameness(compared: Compared) -> str:
    """Returns the line that says that no line differs."""
    if not compared.first or not compared.last:
        return "the same: the trace has no line after its header"
    noun = "line" if compared.lines == 1 else "lines"
    return f"the same in {compared.lines:,} {noun}, from count {compared.first.at} to {compared.last.at}"


def _hint(differences: Iterable[Difference]) -> str:
    """Returns what the trace may mean, if what differs is the same in hexadecimal."""
    is_meant = all(str(it.trace) == f"{it.machine:x}" for it in differences)
    return "(read as hexadecimal they are the same: --hex)" if is_meant else ""


def _no_instruction(parted: Parted) -> str:
    """Returns the line that says why no instruction is shown."""
    if parted.before is None:
        return "no line before it says which instruction that comes from"
    if parted.before.at < parted.row.at - 1:
        return f"a trace with a line for each count from {parted.before.at} on would say after which instruction"
    return "the machine has stopped: it does nothing more"


def _instructions(found: Gave, symbols: Symbols) -> Iterator[str]:
    """Yields the lines with the instruction after which both differ, and with what wrote its operands."""
    yield "the machine:"
    yield from placed_lines(found.step, symbols)
    yield "the trace:"
    yield found.trace_line()
    for name, it in found.written:
        yield ""
        none = " no search finds it" if name in NOT_SOUGHT else " no instruction before"
        yield f"who wrote {name}:{'' if it else none}"
        yield from it.lines(symbols) if it else []


def main(asked: Namespace) -> int:
    """Prints where a trace and the machine differ; the status says whether they do."""
    library = Library.find(asked.library, Limit(asked.limit))
    symbols = symbols_for(asked.symbols, asked.recording)
    run = Run.begun(library, read_file(asked.recording))
    tell_misfit(symbols, run.read.first_memory)
    trace = trace_of(asked)
    compared = compare(run, trace, lambda count: progress(f"the same up to {count:,}"))
    progress("")
    print("\n".join(report(run, trace, compared, symbols)))
    return WRONG if compared.parted else OK
