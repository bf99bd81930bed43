"""Runs the program's commands over files, and explains what it refuses.

The program reads standard input alone, and prints one line. That line stays as it is, on standard output; the
explanations go to standard error.
"""

import sys
from argparse import Namespace
from collections.abc import Iterator, Sequence
from pathlib import Path

from galluspa.engine.program import WORDS_REFUSED, Answer, Program
from galluspa.formats.faults import explain_fault
from galluspa.formats.recording import MOST_PAGES, MOST_SENT
from galluspa.formats.sessionfaults import explained, is_session
from galluspa.process.cli import OK, REFUSED, Output, Parser, Refused, complain, read_file, write_output
from galluspa.process.escapes import printable

STANDARD_INPUT = Path("/dev/stdin")
# The rules of recordings that only the recording of a session shows to be broken, by the program's lines.
RECORD_LINES = {
    "record refused 1 output": f"a recording has at most {MOST_SENT:,} bytes sent, and the session sends more",
    "record refused 2 pages": f"a recording has at most {MOST_PAGES:,} pages, and that of the session has more",
}


def parser(description: str, example: str, file: str, statuses: dict[int, str]) -> Parser:
    """Returns the command line for a command of the program that converts one file."""
    options = Parser(description, example, {**statuses, WORDS_REFUSED: "the program refuses its arguments"})
    options.add_argument("file", metavar=file, type=Path, nargs="?", help="the file (default: standard input)")
    options.add_output_option()
    options.add_program_option()
    return options


def main(asked: Namespace, command: str, options: Sequence[str] = ()) -> int:
    """Carries out a command of the program over one file."""
    (file,) = files_of([asked.file] if asked.file else [], command)
    return carry_out(Program.find(asked.program), [command, *options], file, output=asked.output)


def files_of(files: Sequence[Path], command: str) -> Sequence[Path]:
    """Returns the files that are named, or standard input if none is; a terminal holds neither recording nor session."""
    if not files and sys.stdin.isatty():
        raise Refused(f"name a file (see galluspa {command} --help)")
    return files or [STANDARD_INPUT]


def carry_out(program: Program, arguments: Sequence[str], path: Path, name: str = "", output: Output | None = None) -> int:
    """Lets the program carry out a command over a file, writes what it makes or prints its line, after a name if there
    is one, and explains what it refuses. Returns its exit status."""
    text = read_file(path)
    answer = program.answer(arguments, text)
    if answer.status == OK and arguments[0] != "check":
        write_output(output, answer.output)
        return OK
    print(f"{name}{printable(answer.line)}", flush=True)
    if answer.status == WORDS_REFUSED:
        complain(f"the program refuses the arguments {' '.join(arguments)} (see galluspa {arguments[0]} --help)")
    for line in explanation(path, text, arguments[0], answer) if answer.status == REFUSED else ():
        complain(line)
    return answer.status


def explanation(path: Path, text: bytes, command: str, answer: Answer) -> Iterator[str]:
    """Yields the lines that explain what the program refuses."""
    if command == "record":
        yield from list(explain_session(text, answer))[2:]
        if text.startswith(b"ORSR"):
            yield f"a recording already: galluspa {printable(str(path))} checks it"
        elif not is_session(path.name, text) and (hint := kind(path, text)):
            yield hint
    elif answer.fault:
        yield from explain_fault(text, *answer.fault).plain()
        if not text.startswith(b"ORSR") and (hint := kind(path, text)):
            yield hint


def explain_session(text: bytes, answer: Answer) -> Iterator[str]:
    """Yields the lines that explain what the program answers to a session."""
    if answer.status == OK:
        yield f"the session breaks no rule: its recording has {len(answer.output):,} bytes"
        return
    yield answer.line
    yield ""
    if answer.session_fault is None:
        yield f"rule   {RECORD_LINES.get(answer.line, 'the recording of a session keeps the limits of recordings')}"
        return
    yield from explained(text, answer.session_fault).plain()


def kind(path: Path, text: bytes) -> str:
    """Returns what a file that is not a recording may be, and what to do with it; or nothing."""
    name = printable(str(path))
    if path.suffix == ".asm":
        return f"a source: galluspa assemble {name} -o NAME.json makes its session"
    if is_session(path.name, text):
        return f"a session: galluspa record {name} > NAME.orsr makes its recording"
    if b"<html" in text[:4096].lower():
        return f"a page: galluspa recording-of {name} > NAME.orsr takes the recording out of a report"
    if text and len(text) <= 1 << 20:
        return f"if it is a memory image, galluspa session --memory {name} .. makes a session of it"
    return ""
