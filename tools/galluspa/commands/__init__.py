"""The command `galluspa` and its subcommands: a module of this folder for each, or of `packaging/` if only a clone has it, which
is imported when it is used.

The module of a subcommand has `parser()`, which returns its command line, and `main(asked)`, which carries out what a
command line asks for and returns the exit status.
"""

import difflib
from argparse import SUPPRESS, Action, ArgumentParser, Namespace
from collections.abc import Sequence
from dataclasses import dataclass
from importlib import import_module
from pathlib import Path
from types import ModuleType
from typing import Any

from galluspa.process.cli import OK, REFUSED, WRONG, Parser, Refused, name_as
from galluspa.process.paths import IS_CLONE

NAME = "galluspa"
ABOUT = "Emulates the workstation of Project Oberon (2013), records sessions of it, and checks recordings."
# The subcommand that is meant if the first word names a file.
CHECK = "check"
# The package of the subcommands that only a clone has.
PACKAGING = "galluspa.packaging"


@dataclass(frozen=True)
class Command:
    """A subcommand: its name, what it does in one line, and whether only a clone has it."""

    name: str
    does: str
    is_of_clone: bool = False

    @property
    def full_name(self) -> str:
        """Its name as it is typed."""
        return f"{NAME} {self.name}"

    def module(self) -> ModuleType:
        """Imports its module."""
        folder = PACKAGING if self.is_of_clone else __name__
        return import_module(f"{folder}.{self.name.replace('-', '_')}")

    def parser(self) -> Parser:
        """Returns its command line."""
        parser: Parser = self.module().parser()
        parser.prog = self.full_name
        return parser


# The one list of the subcommands. tools/README.md says which page shows each.
GROUPS = {
    "Check, record and run": (
        Command(CHECK, "print the verdict lines of recordings; `galluspa FILE ..` does the same"),
        Command("record", "make the recording of a session"),
        Command("screen", "draw the screen that a checkpoint claims"),
        Command("migrate", "write a recording in the current version of the format"),
        Command("live", "open the live machine in a browser"),
    ),
    "Write programs and sessions": (
        Command("assemble", "assemble a source into a session, a memory image or a list of its words"),
        Command("session", "make a session from a memory image, registers and inputs, or from a recording"),
        Command("symbols", "make a symbol file of the modules that are loaded in a memory of Project Oberon"),
    ),
    "Look into a recording": (
        Command("report", "make the live page of a recording, to attach to a bug report"),
        Command("recording-of", "take the recording out of a report or an exported project"),
        Command("explain", "say why a recording is false, or why a recording or a session is refused"),
        Command("find", "find when something happens in a run: the first time, the last or each"),
        Command("why", "say where a value comes from: who wrote it, from which values, who wrote these, and so on"),
        Command("state", "print the machine at any count: registers, devices, memory, stack and screen"),
        Command("debug", "debug the recorded program, forward and backward, with the words of gdb"),
        Command("trace", "print the instructions of a run, and what each changes"),
        Command("profile", "print which procedures the instructions of a run go to, and who calls them"),
        Command("diff", "print the first input, checkpoint and part in which two recordings differ"),
        Command("output", "print the bytes that a recording claims were sent"),
    ),
    "Keep suites and compare emulators": (
        Command("suite", "check each recording under a folder, in parallel, and print TAP"),
        Command("rerun", "run stored sessions on a new image, and compare what a user sees with what was approved"),
        Command("executed", "report which procedures, lines and branches of the program suites execute"),
        Command("bisect", "find the instruction after which another emulator and the machine differ"),
        Command("fuzz", "find a small program on which another emulator and the machine differ"),
        Command("compare-trace", "find the first line of another emulator's trace that differs from the machine"),
        Command("slice", "cut the segments between two checkpoints out of a recording"),
        Command("claim", "change one claim of a recording"),
    ),
    "Build from a clone": (Command("build-library", "prove the library for C and build it", is_of_clone=True),),
}


def commands(is_clone: bool = IS_CLONE) -> list[Command]:
    """Returns the subcommands that there are, here or in a clone."""
    return [it for group in GROUPS.values() for it in group if is_clone or not it.is_of_clone]


class _Unread(Parser):
    """Stands in for the command line of a subcommand, which is made when it has to read arguments."""

    def __init__(self, prog: str) -> None:
        super().__init__("", "")
        self.prog = prog

    def parse_known_args(self, args: Any = None, namespace: Any = None) -> Any:
        name_as(self.prog)
        return next(it for it in commands() if it.full_name == self.prog).parser().read(args), []


class _Version(Action):
    """Prints the version, which takes time to find out, and ends."""

    def __call__(self, parser: ArgumentParser, *_: object) -> None:
        from galluspa.process.version import version

        print(f"{NAME} {version()}")
        parser.exit()


def parser() -> Parser:
    """Returns the command line of `galluspa`, with those of all subcommands."""
    options = Parser(
        f"{ABOUT}\n\n{_listing()}\n\n`{NAME} help COMMAND` prints the usage of a command.",
        f"{NAME} examples/face.orsr",
        {
            OK: "the recording is accepted, or the output is printed",
            WRONG: "a recording is false",
            REFUSED: "a file or an argument is refused",
        },
    )
    options.prog = NAME
    options.usage = f"{NAME} COMMAND ..\n       {NAME} FILE .."
    options.add_argument("--version", action=_Version, nargs=0, help="print the version and exit")
    subcommands = options.add_subparsers(dest="subcommand", metavar="COMMAND", prog=NAME, help=str(SUPPRESS), parser_class=_Unread)
    for it in commands():
        subcommands.add_parser(it.name)
    return options


def _listing() -> str:
    """Returns the subcommands, group by group, a line for each."""
    there = commands()
    groups = ((title, [it for it in group if it in there]) for title, group in GROUPS.items())
    return "\n\n".join("\n".join([f"{title}:", *(f"  {it.name:15}{it.does}" for it in group)]) for title, group in groups if group)


def main(arguments: Sequence[str]) -> int:
    """Carries out the subcommand that the arguments name, and returns the exit status."""
    asked: Namespace = parser().parse_args(_with_command(list(arguments)))
    names = {it.name: it for it in commands()}
    return names[asked.subcommand].module().main(asked)


def _with_command(words: list[str]) -> list[str]:
    """Returns the arguments, with the subcommand that is meant."""
    if words[:1] == ["help"]:
        words = [*words[1:2], "--help"]
    first, names = words[0] if words else "--help", [it.name for it in commands()]
    if first in names or first.startswith("-"):
        return words or [first]
    if Path(first).exists():
        return [CHECK, *words]
    near = difflib.get_close_matches(first, names, 1)
    advice = f"; did you mean {near[0]}?" if near else ""
    raise Refused(f"{first}: neither a file nor a command{advice} (see {NAME} --help)")
