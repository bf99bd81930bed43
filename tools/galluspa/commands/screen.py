"""Draws the screen that a checkpoint of a recording claims."""

from argparse import Namespace

from galluspa.engine import programcommands
from galluspa.process.cli import OK, REFUSED, Parser


def parser() -> Parser:
    options = programcommands.parser(
        "Prints the screen that a checkpoint claims, as a binary PBM. It does not test whether the claim is true:\n"
        "`galluspa check` does. `galluspa state --screen` makes a PNG of the screen.",
        "galluspa screen --at 4 examples/face.orsr -o face.pbm",
        "RECORDING",
        {OK: "the screen is drawn", REFUSED: "the recording or an argument is refused, or it has no such checkpoint"},
    )
    options.add_argument("--at", metavar="K", required=True, help="the number of the checkpoint; 0 is the initial state")
    return options


def main(asked: Namespace) -> int:
    """Draws the screen."""
    return programcommands.main(asked, "screen", ["--at", asked.at])
