"""The command `galluspa`: as a script of a clone, as `python3 -m galluspa`, and as pip installs it with the program."""

# An interrupt before the command has begun ends it without a traceback. (The module `signal` takes longer: it imports others.)
import _signal

_signal.signal(_signal.SIGINT, _signal.SIG_DFL)

import os  # noqa: E402
import sys  # noqa: E402
from typing import NoReturn  # noqa: E402

from galluspa.commands import NAME, main  # noqa: E402
from galluspa.process import cli, paths  # noqa: E402


def run() -> NoReturn:
    """Runs the command, and ends with its exit status."""
    cli.name_as(NAME)
    cli.run(main)


def run_program() -> NoReturn:
    """Becomes the program `oberon_replay`."""
    path = paths.program()
    if not path:
        sys.exit("oberon_replay: this wheel was made without the program")
    os.execv(path, [str(path), *sys.argv[1:]])


if __name__ == "__main__":
    run()
