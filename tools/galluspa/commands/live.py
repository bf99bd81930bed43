"""Opens the live machine in a browser, perhaps with a recording or a session."""

import shutil
import tempfile
import webbrowser
from argparse import Namespace
from pathlib import Path
from textwrap import dedent

from galluspa.engine.program import REFUSED, Program
from galluspa.output import live
from galluspa.process import paths
from galluspa.process.cli import OK, Output, Parser, Refused, complain, read_file, write_file
from galluspa.process.escapes import printable
from galluspa.process.timelimit import Limit


NO_BROWSER = "no browser found: open this file yourself"


def parser() -> Parser:
    options = Parser(
        dedent(
            """\
            Prints where the page of the live machine is, and opens it in a browser. It needs no network. With a
            recording or a session, it writes a page with the machine and this file, in a new temporary folder,
            and opens that one: the page shows the initial state, and Play plays the file."""
        ),
        "galluspa live examples/snake.json",
        {OK: "a browser has the page, or -o wrote it"},
    )
    options.add_argument("file", metavar="FILE", type=Path, nargs="?", help="a recording or a session")
    options.add_argument("-o", metavar="PAGE", dest="output", type=Output, help="write the page of FILE here, and open it")
    options.add_limit_option("with FILE, end after this many seconds")
    options.add_program_option()
    return options


def page_of(asked: Namespace) -> Path:
    """Writes the page of a file, and returns where it is."""
    program, text = Program.find(asked.program, Limit(asked.limit)), read_file(asked.file)
    if not text.startswith(b"ORSR"):
        text = program.recorded(text, f"{asked.file}: neither a recording nor a session: ")
    answer = program.check(text)
    if answer.status == REFUSED:
        raise Refused(f"{asked.file}: {answer.line}")
    content = live.page(printable(asked.file.name), answer.line, text, {"cursor": 0}).encode()
    if asked.output:
        write_file(asked.output, content)
        return Path(asked.output).resolve()
    folder = Path(tempfile.mkdtemp(prefix="galluspa-"))
    try:
        write_file(folder / f"{asked.file.stem}.html", content)
    except BaseException:
        shutil.rmtree(folder, ignore_errors=True)
        raise
    return folder.resolve() / f"{asked.file.stem}.html"


def main(asked: Namespace) -> int:
    """Opens the page."""
    if asked.output and not asked.file:
        raise Refused("use -o with FILE")
    page = page_of(asked) if asked.file else paths.page()
    if not page.is_file():
        raise Refused(f"{page}: no live page")
    print(printable(str(page)), flush=True)
    if not webbrowser.open(page.as_uri()):
        if not asked.output:
            raise Refused(NO_BROWSER)
        complain(NO_BROWSER)
    return OK
