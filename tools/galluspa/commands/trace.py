"""Prints the instructions that the machine does in the run of a recording, one per line.

A line has the count, the PC, the word, its mnemonic and what changes. The trace shows the machine, whatever the
recording claims. It begins at the last checkpoint at or before the given count that the check finds true. So the last
instructions of a long recording cost the check and one segment.
"""

import sys
from argparse import Namespace
from pathlib import Path
from textwrap import dedent

from galluspa.analysis.calls import Calls, add_stack_limit_option
from galluspa.analysis.calltrace import CallTrace, Trace
from galluspa.analysis.conditions import CONDITIONS, conditions_of
from galluspa.analysis.search import Search
from galluspa.engine.library import Library
from galluspa.engine.machine import Machine
from galluspa.engine.program import WORKERS, Program
from galluspa.engine.tracing import Run
from galluspa.formats.builds import tell_misfit
from galluspa.formats.recording import STOPS
from galluspa.formats.sessions import CHECKPOINTS, COUNTS
from galluspa.formats.symbolfiles import symbols_for
from galluspa.formats.symbols import Symbols
from galluspa.output.traceformats import JsonLines
from galluspa.process.cli import FAILED, OK, WRONG, Failed, Parser, Refused, complain, read_file
from galluspa.process.timelimit import Limit, TimeIsUp

STEPS = 20


def parser() -> Parser:
    options = Parser(
        dedent(
            """\
            Prints the instructions that the machine does from a count on, one per line: the count, the PC, the
            word, its mnemonic, and what it changes. Inputs come before the instruction of their count. The
            trace shows the machine, whatever the recording claims, and begins at the last true checkpoint at
            or before the count. A symbol file adds names and source lines.
        """
        )
        + CONDITIONS,
        "galluspa trace examples/face.orsr --from 19999990 --to 20000000",
        {WRONG: "the condition of --until holds at no count"},
    )
    options.add_argument("recording", metavar="RECORDING", type=Path)
    options.add_number("--from", "N", 0, COUNTS, "the count to begin at (default 0)", dest="first", default=0)
    options.add_number("--to", "N", 0, COUNTS, "the count to end at (default with --until: that of the last checkpoint)")
    options.add_number(
        "--steps", "M", 1, COUNTS, f"print M instructions from there (default without --to: {STEPS}); with --until, the last " "M"
    )
    options.add_argument(
        "--until",
        metavar="CONDITION",
        nargs="+",
        help="search for the first instruction at which a condition holds, as above; `galluspa find` " "finds the last one, too",
    )
    options.add_number("--at", "K", 0, CHECKPOINTS, "begin at what checkpoint K claims, and do not check whether that is true")
    options.add_flag(
        "--calls",
        "where another procedure begins or resumes, print the calls that have not returned; with --at, those since checkpoint K",
    )
    add_stack_limit_option(options)
    options.add_symbols_option()
    options.add_flag("--json", "print one JSON object per line")
    options.add_limit_option("end after this many seconds, and say how far that was")
    options.add_machine_options()
    return options


def run_of(asked: Namespace, limit: Limit) -> Run:
    """Returns the run of the recording that was named: from what is found true, or from one checkpoint whatever it claims."""
    library, program = Library.find(asked.library, limit), Program.find(asked.program, limit)
    if asked.at is None:
        return Run.checked(library, program, asked.recording)
    text = read_file(asked.recording)
    read = program.decoded(str(asked.recording), text)
    if asked.at >= len(read.checkpoints):
        raise Refused(f"{asked.recording}: no checkpoint {asked.at}")
    return Run(library, read, range(asked.at, asked.at + 1))


def end_of(asked: Namespace, run: Run) -> int:
    """Returns the count to end at."""
    last = run.counts[-1]
    if asked.first > last:
        raise Refused(f"--from {asked.first} is after the last checkpoint, which is at {last}")
    if asked.until:
        to = last if asked.to is None else asked.to
    elif asked.to is not None and asked.steps is not None:
        raise Refused("use --steps or --to, and both only with --until")
    else:
        to = min(asked.first + (asked.steps or STEPS), COUNTS) if asked.to is None else asked.to
    if to < asked.first:
        raise Refused(f"--to {to} is before --from {asked.first}")
    return to


def show(run: Run, machine: Machine, to: int, asked: Namespace, symbols: Symbols) -> None:
    """Prints the instructions of a machine up to a count, and whether it has stopped after them."""
    trace = CallTrace(symbols, machine, Calls(run, asked.stack_limit)) if asked.calls else Trace(symbols)
    if not asked.json:
        for step in run.steps(machine, to):
            print("\n".join(trace.lines(step)))
        if machine.state.stop:
            print(f"{machine.count:>10}  stopped ({STOPS[machine.state.stop]}): it does nothing more")
    else:
        line = JsonLines(symbols).line
        sys.stdout.writelines(f"{line(step)[:-1]}{trace.member(step)}}}\n" for step in run.raw_steps(machine, to))


def search(asked: Namespace, run: Run, it: Search, symbols: Symbols) -> int:
    """Prints the instruction at which a condition holds, with those before it; the status says whether there is
    one."""
    try:
        hit = it.first()
        if not hit:
            complain(f"no {it.text} in {it.first_count}..{it.end}{it.why_not_later()}")
            return WRONG
        machine = run.machine(max(it.first_count, hit.count + 1 - (asked.steps or STEPS)))
    except TimeIsUp as over:
        complain(f"{over}: no {it.text} in {it.first_count}..{it.reached()}")
        return FAILED
    show(run, machine, hit.count + 1, asked, symbols)
    return OK


def main(asked: Namespace) -> int:
    """Prints instructions of a run; the status is 1 if the condition of --until holds at none."""
    symbols = symbols_for(asked.symbols, asked.recording)
    conditions = conditions_of(asked.until, symbols) if asked.until else []
    run = run_of(asked, Limit(asked.limit))
    tell_misfit(symbols, run.read.first_memory)
    to = end_of(asked, run)
    if conditions:
        return search(asked, run, Search(run, conditions, asked.first, to, WORKERS), symbols)
    machine = run.machine(asked.first)
    try:
        show(run, machine, to, asked, symbols)
    except TimeIsUp as over:
        raise Failed(f"{over}: the trace ends at {machine.count}") from over
    return OK
