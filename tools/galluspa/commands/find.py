"""Finds when something happens in the run of a recording: the instruction that stores to an address, or sends a byte.

It prints the first instruction at which a condition holds, the last one, or all of them, each with its count and what
it changes, as `galluspa trace` shows it. The search shows the machine, whatever the recording claims.
"""

import json
import sys
from argparse import Namespace
from collections.abc import Callable, Iterator
from pathlib import Path
from textwrap import dedent

from galluspa.analysis.conditions import CONDITIONS, conditions_of
from galluspa.analysis.naming import placed_lines
from galluspa.analysis.search import Hit, Search
from galluspa.engine.library import Library
from galluspa.engine.opening import count_asked
from galluspa.engine.program import Program
from galluspa.engine.tracing import Run, add_workers_option
from galluspa.formats.builds import tell_misfit
from galluspa.formats.sessions import COUNTS
from galluspa.formats.symbolfiles import symbols_for
from galluspa.formats.symbols import Symbols
from galluspa.output.traceformats import JsonLines
from galluspa.process.cli import FAILED, OK, WRONG, Parser, Refused, complain
from galluspa.process.timelimit import Limit, TimeIsUp

MOST = 1000


def parser() -> Parser:
    options = Parser(
        dedent(
            """\
            Finds when something happens in the run of a recording. It prints the first instruction at which a
            condition holds, the last one, or all of them, as `galluspa trace` does: the count, the PC, the word,
            its mnemonic, and what it changes. The search shows the machine, whatever the recording claims, up
            to the last checkpoint.
        """
        )
        + CONDITIONS,
        "galluspa find examples/face.orsr --last store dot 100,200",
        {WRONG: "the condition holds at no count"},
    )
    options.add_argument("recording", metavar="RECORDING", type=Path)
    options.add_argument("condition", metavar="CONDITION", nargs="+", help="a condition, as above")
    options.add_number("--from", "N", 0, COUNTS, "the count to begin at (default 0)", dest="first", default=0)
    options.add_number("--to", "N", 0, COUNTS, "end count, exclusive (default: that of the last checkpoint)")
    which = options.add_mutually_exclusive_group()
    which.add_argument("--last", action="store_true", help="find the last instruction")
    which.add_argument("--all", action="store_true", help="find all instructions, in the order of their counts")
    options.add_number("--most", "N", 1, COUNTS, f"with --all, print at most N (default {MOST:,})")
    options.add_symbols_option()
    options.add_argument("--json", action="store_true", help="print one JSON object per line")
    add_workers_option(options)
    options.add_limit_option("end after this many seconds, and say how far that was")
    options.add_machine_options()
    return options


def search_of(asked: Namespace, symbols: Symbols) -> Search:
    """Returns the search of a command line."""
    conditions = conditions_of(asked.condition, symbols)
    if asked.most is not None and not asked.all:
        raise Refused("use --most with --all")
    limit = Limit(asked.limit)
    it = Run.checked(Library.find(asked.library, limit), Program.find(asked.program, limit), asked.recording)
    tell_misfit(symbols, it.read.first_memory)
    last = it.counts[-1]
    to = count_asked("--to", asked.to, last)
    if count_asked("--from", asked.first, last) == last:
        raise Refused(f"--from {asked.first} is at the last checkpoint: give an earlier count")
    if asked.first >= to:
        raise Refused(f"--to {to} must come after --from {asked.first}")
    return Search(it, conditions, asked.first, to, asked.jobs)


def hits_of(search: Search, asked: Namespace) -> Iterator[Hit]:
    """The hits to print. One more than there are to be is reported, and not printed."""
    if asked.last:
        yield from filter(None, [search.last()])
        return
    most = (asked.most or MOST) if asked.all else 1
    for number, hit in enumerate(search.all(most + asked.all)):
        if number == most:
            complain(f"printed the first {most:,}: use --most N for more, or --from {hit.count} to go on")
            return
        yield hit


def text_of(symbols: Symbols) -> Callable[[Hit], str]:
    """How a hit is shown: the lines of its instruction."""
    return lambda hit: "\n".join(placed_lines(hit.step, symbols))


def json_of(symbols: Symbols) -> Callable[[Hit], str]:
    """How a hit is shown to machines: the object of its instruction, and the condition."""
    line = JsonLines(symbols).line
    return lambda hit: f'{line(hit.raw)[:-1]}, "condition": {json.dumps(hit.condition.text)}}}'


def main(asked: Namespace) -> int:
    """Prints the first hit, the last one or all; the status is 1 if there are none."""
    symbols = symbols_for(asked.symbols, asked.recording)
    search, status = search_of(asked, symbols), WRONG
    shown, write = (json_of if asked.json else text_of)(symbols), sys.stdout.write
    try:
        for hit in hits_of(search, asked):
            status = OK
            write(f"{shown(hit)}\n")
    except TimeIsUp as over:
        first, end = (search.left_before(), search.end) if asked.last else (search.first_count, search.reached())
        none = f"no {search.text} in {first}..{end}" if first < end else "searched nothing yet"
        complain(f"{over}: {f'searched {first}..{end}' if status == OK else none}")
        return FAILED
    if status == WRONG:
        complain(f"no {search.text} in {search.first_count}..{search.end}{search.why_not_later()}")
    return status
