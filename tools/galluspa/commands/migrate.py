"""Writes a recording in the current version of the format."""

from argparse import Namespace

from galluspa.engine import programcommands
from galluspa.process.cli import OK, REFUSED, Parser


def parser() -> Parser:
    options = programcommands.parser(
        "Prints a recording in the current version of the format, with the same verdict line. It replays nothing.",
        "galluspa migrate examples/face-version-1.orsr -o face.orsr",
        "RECORDING",
        {OK: "the recording is printed, whatever its verdict", REFUSED: "the recording or an argument is refused"},
    )
    options.is_in_place = True
    return options


def main(asked: Namespace) -> int:
    """Prints the recording."""
    return programcommands.main(asked, "migrate")
