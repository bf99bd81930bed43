"""Prints the verdict line of each recording, and explains what is refused."""

from argparse import Namespace
from pathlib import Path
from textwrap import dedent

from galluspa.engine.programcommands import carry_out, files_of
from galluspa.engine.program import WORDS_REFUSED, WORKERS, Program
from galluspa.process.cli import OK, REFUSED, WRONG, Parser
from galluspa.process.escapes import printable


def parser() -> Parser:
    options = Parser(
        dedent(
            """\
            Replays each recording and prints its verdict line, with the name of the file before it if there are
            several. Lines on standard error explain a refusal."""
        ),
        "galluspa check --workers 4 examples/face.orsr",
        {
            OK: "all recordings are accepted",
            WRONG: "a recording is false, and none is refused",
            REFUSED: "a recording, a file or an argument is refused",
            WORDS_REFUSED: "the program refuses its arguments",
        },
    )
    options.is_intermixed = True
    options.add_argument("files", metavar="RECORDING", type=Path, nargs="*", help="the recordings (default: standard input)")
    options.add_argument(
        "--workers",
        metavar="N",
        default=str(WORKERS),
        help="replay segments in N threads, from 1 to 64 (default: the number of CPUs)",
    )
    options.add_argument("--cut", metavar="N", help="let a thread take N segments in a row at once, from 1 to 4096 (default 1)")
    options.add_program_option()
    return options


def main(asked: Namespace) -> int:
    """Prints the verdict lines; the status is the worst of theirs."""
    program, files = Program.find(asked.program), files_of(asked.files, "check")
    arguments = ["check", "--workers", asked.workers, *(["--cut", asked.cut] if asked.cut is not None else [])]
    names = [f"{printable(str(path))}: " if len(files) > 1 else "" for path in files]
    return max(carry_out(program, arguments, path, name) for path, name in zip(files, names))
