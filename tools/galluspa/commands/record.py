"""Makes the recording of a session, and explains what is refused."""

from argparse import Namespace

from galluspa.engine import programcommands
from galluspa.process.cli import OK, REFUSED, Parser


def parser() -> Parser:
    return programcommands.parser(
        "Runs a session (JSON) on the machine, and prints its recording. Lines on standard error explain a refusal.",
        "galluspa record examples/hello.json -o hello.orsr",
        "SESSION",
        {OK: "the recording is made", REFUSED: "the session, its recording or an argument is refused"},
    )


def main(asked: Namespace) -> int:
    """Makes the recording."""
    return programcommands.main(asked, "record")
