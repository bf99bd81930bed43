"""Explains why a recording is not accepted, or why a session is refused.

For a false recording it prints each part in which the first false checkpoint and the machine differ, the last
instructions that wrote the part that differs first, and when that part had the claimed value. For a refused file it
prints the field or the member, what it has and the rule that it breaks. The exit status is that of the verdict line.
"""

from argparse import Namespace
from collections.abc import Iterator
from pathlib import Path
from textwrap import dedent

from galluspa.analysis.calls import Calls, add_stack_limit_option
from galluspa.analysis.explanation import WORDS_SHOWN, callers_of, explain_false, plain
from galluspa.engine.programcommands import explain_session
from galluspa.engine.library import Library
from galluspa.engine.program import Answer, Program
from galluspa.engine.tracing import Run
from galluspa.formats import recording
from galluspa.formats.builds import tell_misfit
from galluspa.formats.faults import explain_fault
from galluspa.formats.recording import WORDS
from galluspa.formats.sessionfaults import is_session
from galluspa.formats.sessions import COUNTS
from galluspa.formats.symbolfiles import symbols_for
from galluspa.formats.symbols import Symbols
from galluspa.process.cli import OK, REFUSED, WRONG, Parser, read_file
from galluspa.process.timelimit import Limit, TimeIsUp

STEPS = 1000


def parser() -> Parser:
    options = Parser(
        dedent(
            """\
            Explains why a recording is not accepted, or why a session is refused. For a false recording: each
            part in which its first false checkpoint and the machine differ, the last instructions that wrote
            the first of them, and when it had the claimed value. For a refused file: the field or the member,
            and the rule that it breaks."""
        ),
        "galluspa explain false.orsr",
        {
            OK: "the recording is accepted, or the session is recorded",
            WRONG: "the recording is false",
            REFUSED: "the recording, the session or an argument is refused",
        },
    )
    options.add_argument("recording", metavar="FILE", type=Path, help="a recording, or a session")
    after = f"and a tenth of that after it (default {STEPS:,}; some ten thousand take a second)"
    does = f"examine N instructions before the false checkpoint one by one, {after}"
    options.add_number("--steps", "N", 1, COUNTS, does, default=STEPS)
    options.add_number("--words", "N", 0, WORDS, f"print at most N words of memory (default {WORDS_SHOWN})", default=WORDS_SHOWN)
    add_stack_limit_option(options)
    options.add_symbols_option()
    options.add_limit_option("end after this many seconds, with what was found by then")
    options.add_machine_options()
    return options


def explanation(text: bytes, answer: Answer, program: Program, asked: Namespace, symbols: Symbols) -> Iterator[str]:
    """Yields the lines that explain what the program answers to a recording's text."""
    library = Library.find(asked.library, program.limit) if answer.false_claim else None
    yield answer.line
    if answer.fault:
        yield ""
        yield from explain_fault(text, *answer.fault).plain()
    if library and answer.false_claim:
        read = recording.read(text)
        tell_misfit(symbols, read.first_memory)
        looked_at = Run.of_answer(library, read, answer)
        yield ""
        it = explain_false(looked_at, program, read, answer.false_claim, asked.steps)
        try:
            callers = callers_of(looked_at, it, symbols, Calls(looked_at, asked.stack_limit)) if symbols else ""
        except TimeIsUp:
            callers = ""
        yield from plain(it, str(asked.recording), asked.words, symbols, callers)


def main(asked: Namespace) -> int:
    """Prints the explanation of a file; the status is that of the verdict line."""
    text, program = read_file(asked.recording), Program.find(asked.program, Limit(asked.limit))
    if is_session(asked.recording.name, text):
        answer = program.record(text)
        print("\n".join(explain_session(text, answer)))
        return answer.status
    symbols = symbols_for(asked.symbols, asked.recording)
    answer = program.check(text)
    for line in explanation(text, answer, program, asked, symbols):
        print(line)
    return answer.status
