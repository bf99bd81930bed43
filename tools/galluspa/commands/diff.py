"""Prints the first input, the first checkpoint and its first part in which two recordings differ, or all of them.

The exit status is 0 if they differ in none, 1 if they do, and 2 if a file is refused. What they claim is compared, and
not the bytes of the files: a recording and the same one in another version of the format do not differ.
"""

from argparse import ArgumentTypeError, Namespace
from collections.abc import Iterator, Sequence, Set
from functools import lru_cache
from pathlib import Path
from textwrap import dedent

from galluspa.analysis.comparison import PARTS, Found, found_of
from galluspa.analysis.explanation import NOT_SOUGHT, table
from galluspa.analysis.lastwrites import last_write
from galluspa.analysis.naming import named_row
from galluspa.engine.library import Library
from galluspa.engine.past import Past
from galluspa.engine.program import WORKERS, Program
from galluspa.engine.tracing import Run
from galluspa.formats.builds import tell_misfit
from galluspa.formats.recording import Recording
from galluspa.formats.symbolfiles import symbols_for
from galluspa.formats.symbols import Symbols
from galluspa.process.cli import FAILED, OK, WRONG, Parser, complain, read_file
from galluspa.process.escapes import printable
from galluspa.process.timelimit import Limit, TimeIsUp


def parser() -> Parser:
    options = Parser(
        dedent(
            """\
            Prints the first input, the first checkpoint and its first part in which two recordings differ, with
            what each of them has; with --all, each that differs. It compares what the recordings claim, and
            does not test whether that is true: `galluspa check` does."""
        ),
        "galluspa diff examples/face.orsr examples/face-version-1.orsr",
        {OK: "they differ in no input and no checkpoint, or in nothing of --only", WRONG: "they differ"},
    )
    options.add_argument("first", metavar="A", type=Path, help="a recording")
    options.add_argument("second", metavar="B", type=Path, help="the other recording")
    options.add_argument(
        "--only",
        metavar="PARTS",
        type=parts,
        default=PARTS.keys(),
        help=f"compare only these, with commas between them: {', '.join(PARTS)} (default: all)",
    )
    options.add_flag(
        "--all",
        "report every difference in inputs, checkpoints and parts, up to a number of inputs, and of words of each checkpoint",
    )
    options.add_flag(
        "--who",
        "run both machines, and print after each part the last instruction that wrote it in "
        "each: from what the checkpoint before claims, whether or not that is true",
    )
    options.add_symbols_option()
    options.add_limit_option("with --who, end after this many seconds")
    options.add_machine_options()
    return options


def parts(text: str) -> Set[str]:
    """Returns the names of parts that a text has."""
    names = [it.strip() for it in text.split(",")]
    unknown = next((it for it in names if it not in PARTS), None)
    if unknown is not None:
        raise ArgumentTypeError(f"{printable(unknown) or 'nothing'} is none of {', '.join(PARTS)}")
    return set(names)


class Writers:
    """Says of a part that differs which instruction wrote it last in each of two recordings."""

    def __init__(self, library: Library, read: Sequence[Recording], names: Sequence[Symbols]) -> None:
        self._sides = list(zip("AB", names, strict=True))
        # The pasts up to one checkpoint, in which several parts are sought.
        self._past = lru_cache(2)(lambda side, at: Past(Run(library, read["AB".index(side)], range(at - 1, at))))

    def lines(self, it: Found) -> Iterator[str]:
        """Yields the lines that say so."""
        if it.part is None or not it.checkpoint:
            return
        for side, symbols in self._sides:
            run = self._past(side, it.checkpoint)
            first, end = run.counts[it.checkpoint - 1 : it.checkpoint + 1]
            if found := last_write(run, it.part, first, end, WORKERS):
                yield from (f"    {side} {line}" for line in found.lines(symbols))
            elif it.part in NOT_SOUGHT:
                yield f"    {side} {' ':>9} no search finds what wrote it"
            else:
                yield f"    {side} {' ':>9} no instruction from {first} to {end} wrote it"


def main(asked: Namespace) -> int:
    """Prints where two recordings differ; the status says whether they do."""
    limit = Limit(asked.limit)
    program, paths = Program.find(asked.program), (asked.first, asked.second)
    one, other = read = [program.decoded(str(path), read_file(path)) for path in paths]
    symbols = symbols_for(asked.symbols, *paths)
    tell_misfit(symbols, one.first_memory)
    found = list(found_of(one, other, asked.only, asked.all))
    if not found:
        inputs, claims = len(one.events), len(one.checkpoints) - 1
        what = f", in {', '.join(it for it in PARTS if it in asked.only)}" if asked.only != PARTS.keys() else ""
        print(f"the same{what}: {inputs:,} inputs, and {claims:,} checkpoints after the initial state")
        return OK
    rows = [("", *(printable(str(path)) for path in paths)), *(named_row(it.row, symbols) for it in found)]
    first, *lines = table(rows)
    print(first)
    writers = writers_of(asked, limit, read, symbols) if asked.who else None
    try:
        for it, line in zip(found, lines, strict=True):
            print(line)
            for shown in writers.lines(it) if writers else ():
                print(shown)
    except TimeIsUp as over:
        complain(f"{over}: not all writers were found")
        return FAILED
    return WRONG


def writers_of(asked: Namespace, limit: Limit, read: Sequence[Recording], symbols: Symbols) -> Writers:
    """Returns who wrote, with the names of the symbol file of the options, or of that beside each recording."""
    is_other = asked.symbols is None and asked.second.with_suffix(".sym") != asked.first.with_suffix(".sym")
    other = symbols_for(None, asked.second) if is_other and asked.second.name else symbols
    return Writers(Library.find(asked.library, limit), read, (symbols, other or symbols))
