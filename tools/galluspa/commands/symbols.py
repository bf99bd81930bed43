"""Makes a symbol file of the list of loaded modules that Project Oberon (2013) keeps in memory."""

from argparse import Namespace
from textwrap import dedent

from galluspa.engine.initial import without_checkpoints
from galluspa.engine.library import Library
from galluspa.engine.opening import count_asked
from galluspa.engine.program import Program
from galluspa.engine.tracing import Run
from galluspa.formats import recording
from galluspa.formats.oberonmodules import symbols_of
from galluspa.formats.recording import MEMORY_BYTES
from galluspa.formats.sessions import COUNTS
from galluspa.formats.symbolfiles import written
from galluspa.process.cli import OK, Output, Parser, Refused, read_file, write_output
from galluspa.process.timelimit import Limit


def parser() -> Parser:
    options = Parser(
        dedent(
            """\
            Prints a symbol file of the modules that are loaded in a memory, with their commands. It follows the
            list that Project Oberon (2013) keeps, from the word at byte 20 on. The memory is that of a recording
            at a count, of a session's initial state, or of an image."""
        ),
        "galluspa symbols --oberon system.orsr --at 2000000 -o system.sym",
    )
    options.add_file(
        "--oberon", "FILE", "a recording, a session, or an image of the memory, 1 MB or less, from address 0 on", required=True
    )
    options.add_number("--at", "N", 0, COUNTS, "of a recording: the count (default: that of the last checkpoint)")
    options.add_argument("-o", "--output", metavar="FILE", type=Output, help="write the symbol file, and do not print it")
    options.add_limit_option("end after this many seconds")
    options.add_machine_options()
    return options


def memory_of(asked: Namespace) -> bytes:
    """Returns all bytes of the memory that the options name."""
    text = read_file(asked.oberon)
    if text.startswith(b"ORSR"):
        return _recorded(asked, text)
    if asked.at is not None:
        raise Refused(f"--at {asked.at}: {asked.oberon} is not a recording")
    if text.lstrip().startswith(b"{"):
        program = Program.find(asked.program, Limit(asked.limit))
        return recording.read(program.recorded(without_checkpoints(text)[0], f"{asked.oberon}: ")).first_memory()
    if len(text) > MEMORY_BYTES:
        raise Refused(f"{asked.oberon}: an image has at most {MEMORY_BYTES:,} bytes")
    return text.ljust(MEMORY_BYTES, b"\0")


def _recorded(asked: Namespace, text: bytes) -> bytes:
    """Returns the memory of the machine in a recording's run."""
    limit = Limit(asked.limit)
    run = Run.checked(Library.find(asked.library, limit), Program.find(asked.program, limit), asked.oberon, text)
    return run.machine(count_asked("--at", asked.at, run.counts[-1])).memory()


def main(asked: Namespace) -> int:
    """Prints or writes the symbol file of a memory."""
    try:
        text = written(symbols_of(memory_of(asked)), ())
    except Refused as refusal:
        named = str(refusal) if str(asked.oberon) in str(refusal) else f"{asked.oberon}: {refusal}"
        raise type(refusal)(named) from refusal
    write_output(asked.output, text)
    return OK
