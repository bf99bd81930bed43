"""Cuts the segments between two checkpoints out of a recording, as a recording of its own, to report what happens there."""

from argparse import Namespace
from pathlib import Path
from textwrap import dedent

from galluspa.engine.program import Program
from galluspa.formats import recording
from galluspa.formats.sessions import CHECKPOINTS
from galluspa.formats.slices import slice_of
from galluspa.process.cli import Parser, Refused, read_file, write_output


def parser() -> Parser:
    options = Parser(
        dedent(
            """\
            Prints the segments between two checkpoints of a recording as a recording of its own: what checkpoint
            I claims is its initial state, counts begin at 0 again, and inputs move with them."""
        ),
        "galluspa slice examples/face.orsr --from 2 --to 4 -o 2-4.orsr",
    )
    options.add_argument("recording", metavar="RECORDING", type=Path)
    options.add_number(
        "--from", "I", 0, CHECKPOINTS - 1, "the number of the checkpoint where the slice begins", dest="first", required=True
    )
    options.add_number("--to", "J", 1, CHECKPOINTS, "the number of the last checkpoint of the slice", dest="last", required=True)
    options.add_output_option()
    options.add_program_option()
    return options


def main(asked: Namespace) -> int:
    """Prints the slice."""
    read = Program.find(asked.program).decoded(str(asked.recording), read_file(asked.recording))
    if asked.first >= asked.last:
        raise Refused(f"--to {asked.last} must come after --from {asked.first}")
    if asked.last >= len(read.checkpoints):
        raise Refused(f"{asked.recording}: no checkpoint {asked.last}")
    write_output(asked.output, recording.write(slice_of(read, asked.first, asked.last)))
    return 0
