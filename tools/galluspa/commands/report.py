"""Makes one self-contained page of a recording, to attach to a bug report: the live page with the recording in it.

When it opens, the page checks the recording, and shows the verdict and the first difference. The exit status is that of
the verdict line; the page is made whatever it is.
"""

import sys
from argparse import Namespace
from pathlib import Path
from textwrap import dedent

from galluspa.engine.opening import count_asked
from galluspa.engine.program import WORKERS, Answer, Program
from galluspa.engine.program import REFUSED as IS_REFUSED
from galluspa.formats import recording
from galluspa.formats.builds import tell_misfit
from galluspa.formats.sessions import COUNTS
from galluspa.formats.symbolfiles import symbols_for
from galluspa.output import live
from galluspa.process.cli import OK, REFUSED, WRONG, Parser, Refused, read_file
from galluspa.process.streams import escape_unwritable
from galluspa.process.escapes import printable
from galluspa.process.timelimit import Limit


def parser() -> Parser:
    options = Parser(
        dedent(
            """\
            Prints one self-contained page (HTML) of a recording, which needs no network. When it opens, it checks the
            recording, and shows the verdict and the first difference; it runs the machine from any count, like
            the page of `galluspa live`. `galluspa recording-of` takes the recording out of it."""
        ),
        "galluspa report examples/face.orsr > face.html",
        {OK: "the recording is accepted", WRONG: "the recording is false", REFUSED: "the recording or an argument is refused"},
    )
    options.add_argument("recording", metavar="RECORDING", type=Path)
    options.add_number("--at", "N", 0, COUNTS, "open the page at count N")
    options.add_file(
        "--note",
        "FILE",
        f"pin the text in this file, of at most {live.LONGEST_NOTE:,} bytes, to count N, or else to the first false "
        "checkpoint, or the last one",
    )
    options.add_repeatable(
        "--source",
        "FILE",
        "put this source into the page, which shows its lines beside the instructions; once for each file",
        type=Path,
    )
    options.add_symbols_option()
    options.add_limit_option("end after this many seconds")
    options.add_program_option()
    return options


def project_of(asked: Namespace, text: bytes, answer: Answer) -> dict[str, object]:
    """Returns what the page shows beside the recording."""
    symbols = symbols_for(asked.symbols, asked.recording)
    shown: dict[str, object] = {"symbols": live.names(symbols), "sources": [live.source(path) for path in asked.source]}
    note = live.text_of(asked.note, "a note", live.LONGEST_NOTE).strip() if asked.note else ""
    if answer.status == IS_REFUSED:
        if asked.at is not None:
            raise Refused(f"--at {asked.at}: {answer.line}")
        return shown
    read = recording.read(text)
    tell_misfit(symbols, read.first_memory)
    claimed = read.checkpoints[answer.false_claim[0] if answer.false_claim else -1].count
    pinned = claimed if asked.at is None else count_asked("--at", asked.at, read.checkpoints[-1].count)
    return {**shown, "cursor": asked.at, "notes": [[pinned, note]] if note else []}


def main(asked: Namespace) -> int:
    """Prints the page of a recording; the status is that of the verdict line."""
    program, text = Program.find(asked.program, Limit(asked.limit)), read_file(asked.recording)
    answer = program.check(text, WORKERS)
    project = project_of(asked, text, answer)
    escape_unwritable(sys.stdout, "utf-8")
    sys.stdout.write(live.page(printable(asked.recording.name), answer.line, text, project))
    return answer.status
