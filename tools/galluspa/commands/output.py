"""Prints the bytes that a recording claims were sent: all of them, or those between two checkpoints."""

import sys
from argparse import Namespace
from pathlib import Path
from textwrap import dedent

from galluspa.engine.program import Program
from galluspa.formats.sessions import CHECKPOINTS
from galluspa.process.cli import Parser, Refused, read_file, write_bytes


def parser() -> Parser:
    options = Parser(
        dedent(
            """\
            Prints the bytes that, as a recording claims, the machine sent over the serial line, and nothing
            else. It does not test whether the claims are true: `galluspa check` does."""
        ),
        "galluspa output examples/face.orsr > sent",
    )
    options.add_argument("recording", metavar="RECORDING", type=Path)
    options.add_number("--at", "K", 1, CHECKPOINTS, "print only the bytes sent from checkpoint K - 1 to checkpoint K")
    options.add_program_option()
    return options


def main(asked: Namespace) -> int:
    """Prints the bytes that a recording claims were sent."""
    read = Program.find(asked.program).decoded(str(asked.recording), read_file(asked.recording))
    if asked.at is None:
        claims = read.checkpoints
    elif asked.at < len(read.checkpoints):
        claims = [read.checkpoints[asked.at]]
    else:
        raise Refused(f"{asked.recording}: no checkpoint {asked.at}")
    sent = b"".join(claim.output for claim in claims)
    if sys.stdout.isatty() and sent.isascii() and sent.decode().replace("\n", "").isprintable():
        sys.stdout.write(sent.decode())
    else:
        write_bytes(sent)
    return 0
