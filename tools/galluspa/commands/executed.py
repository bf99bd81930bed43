"""Reports which words, lines, branches and procedures of the recorded program the recordings of suites execute.

The library counts how often each word is executed, so the counts are exact. Each recording is run from its initial state
with its inputs, whatever its checkpoints claim.
"""

import contextlib
import sys
from argparse import Namespace
from dataclasses import dataclass
from functools import partial
from pathlib import Path
from textwrap import dedent

from galluspa.analysis.codecoverage import CodeCoverage
from galluspa.analysis.executioncounts import Executions, executions_of
from galluspa.engine.library import Library
from galluspa.engine.tracing import Run
from galluspa.formats.builds import tell_misfit
from galluspa.formats.symbolfiles import symbols_for
from galluspa.process.children import in_parallel
from galluspa.process.cli import OK, WRONG, Parser, Refused, progress
from galluspa.process.escapes import printable
from galluspa.process.timelimit import Limit, TimeIsUp
from galluspa.suites.cases import Case, cases_of
from galluspa.suites.outcomes import add_jobs_option


def parser() -> Parser:
    options = Parser(
        dedent(
            """\
            Prints the code coverage of suites: which words, source lines, branches and procedures of the
            recorded program the recordings (*.orsr) under folders execute, how often, and which none
            executes. The counts are exact. Each recording is run from its initial state, whatever it claims;
            `galluspa suite` checks it. A symbol file adds names and source lines (docs/symbols.md); without it,
            procedures are known by their addresses."""
        ),
        "galluspa executed examples/suite/programs",
        {OK: "all recordings are counted", WRONG: "a recording is not counted, and a line says why"},
    )
    options.add_argument("suites", metavar="SUITE", type=Path, nargs="+", help="a folder of recordings, or a recording")
    add_jobs_option(options, "run")
    options.add_symbols_option()
    options.add_limit_option("end after this many seconds, and name the recordings that were not counted by then")
    options.add_library_option()
    return options


@dataclass(frozen=True)
class Counted:
    """What a recording executes, or why it was not counted."""

    case: Case
    seen: Executions
    reason: str = ""


def cases(suites: list[Path]) -> list[Case]:
    """Returns the recordings under folders, and those that are named."""
    return [it for path in suites for it in ([Case(printable(str(path)), path, "")] if path.is_file() else cases_of(path))]


def counted(library: Library, case: Case) -> Counted:
    """Returns the counts of a recording."""
    try:
        run = Run.begun(library, case.content())
        return Counted(case, executions_of(run, 0, run.counts[-1]))
    except (Refused, TimeIsUp) as why:
        return Counted(case, Executions(), printable(f"{case.name}: {str(why).removeprefix(f'{case.name}: ')}"))


def all_counted(library: Library, wanted: list[Case], jobs: int) -> tuple[Executions, list[str]]:
    """Returns what all recordings execute together, and which were not counted, with the reason."""
    together, unread = Executions(), list[str]()
    for done, it in enumerate(in_parallel(jobs, partial(counted, library), wanted), 1):
        together.add(it.seen)
        unread += [it.reason] if it.reason else []
        progress(f"{done} of {len(wanted)} recordings", is_last=done == len(wanted))
    if len(unread) == len(wanted):
        more = f" (and {len(unread) - 1:,} more recordings are not counted)" if len(unread) > 1 else ""
        raise Refused(f"{unread[0]}{more}")
    return together, unread


def first_memory(library: Library, wanted: list[Case]) -> bytes:
    """Returns the memory with which the first of some recordings begins that can be read."""
    for it in wanted:
        with contextlib.suppress(Refused):
            return library.claim(it.content(), 0).memory()
    return b""


def main(asked: Namespace) -> int:
    """Prints what the recordings of suites execute; the status is 1 if one of them was not counted."""
    wanted = cases(asked.suites)
    symbols = symbols_for(asked.symbols, *(it.path for it in wanted))
    library = Library.find(asked.library, Limit(asked.limit))
    seen, unread = all_counted(library, wanted, asked.jobs)
    tell_misfit(symbols, lambda: first_memory(library, wanted))
    found = CodeCoverage.of(seen, symbols)
    if symbols and seen.visits and not any(symbols.text(4 * at) for at in seen.visits):
        raise Refused(f"{symbols.origin} names nothing that is executed: are these the names of another program?")
    summary = f"{len(wanted) - len(unread):,} recordings, {seen.instructions:,} instructions at {len(seen.visits):,} words"
    sys.stdout.writelines(f"{line}\n" for line in [summary, *(f"not counted: {it}" for it in unread), *found.text()])
    return WRONG if unread else OK
