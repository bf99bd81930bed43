"""Checks each recording under a folder, in parallel, and prints the results as TAP.

A recording is a file NAME.orsr. If there is a file NAME.expect beside it, its first line that is neither blank nor
begins with # is the expected beginning of the verdict line, word by word: `false checkpoint 3`, or a whole line.
Without it the recording has to be accepted. The exit status is 0 if all answers are as expected, 1 if one is not, and 2 for
bad input.
"""

from argparse import Namespace
from pathlib import Path
from textwrap import dedent

from galluspa.engine.program import Program
from galluspa.process.cli import OK, WRONG, Parser
from galluspa.suites.cases import cases_of, outcomes_of
from galluspa.suites.outcomes import add_jobs_option, add_output_options, reported


def parser() -> Parser:
    options = Parser(
        dedent(
            """\
            Checks each recording (*.orsr) under a folder and prints TAP. NAME.expect beside NAME.orsr has the
            expected beginning of its verdict line, as `false checkpoint 3`; without it, the recording has to be
            accepted."""
        ),
        "galluspa suite -j 4 examples",
        {OK: "all answers are as expected", WRONG: "an answer is not as expected, or missing"},
    )
    options.add_argument("folder", metavar="FOLDER", type=Path)
    add_jobs_option(options, "check")
    options.add_number("--workers", "W", 1, 64, "check each recording with W workers (default 1)", default=1)
    options.add_limit_option(
        "check each recording for at most this many seconds; after them its answer is `no answer "
        "in SECONDS s`, which is never as expected"
    )
    add_output_options(options)
    options.add_program_option()
    return options


def main(asked: Namespace) -> int:
    """Checks the recordings of a folder; the status is the suite's."""
    program, cases = Program.find(asked.program), cases_of(asked.folder)
    return reported(asked, outcomes_of(program, cases, asked.jobs, asked.workers, asked.limit), len(cases))
