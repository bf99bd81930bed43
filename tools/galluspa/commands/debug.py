"""Debugs the program of a recording in the terminal, forward and backward, with the words of gdb.

It shows the machine's own run, whatever the recording claims, up to its last checkpoint.
"""

import cmd
import contextlib
import signal
import sys
from argparse import Action, ArgumentParser, Namespace
from collections.abc import Iterator
from pathlib import Path
from textwrap import dedent
from types import FrameType

from galluspa.analysis.calls import add_stack_limit_option
from galluspa.debugger.commands import COMMANDS, Commands, Ended
from galluspa.debugger.navigation import Debugger
from galluspa.engine.opening import opened
from galluspa.engine.past import Past
from galluspa.engine.tracing import add_workers_option
from galluspa.formats.sessions import COUNTS
from galluspa.formats.sourcetext import Sources, add_directory_option
from galluspa.process.cli import FAILED, OK, REFUSED, Failed, Parser, Refused, complain, read_file
from galluspa.process.escapes import printable
from galluspa.process.timelimit import Interrupted, Patience, TimeIsUp

# The most bytes of a file of commands.
MOST_BYTES = 1 << 20
# Where words end for the completion: names have dots, signs and dashes in them; &NAME and *NAME are expressions.
BETWEEN = " \t\n&*("


def parser() -> Parser:
    listed = "\n".join(f"  {f'{it.name} {it.arguments}'.rstrip():30}  {it.does}" for it in COMMANDS)
    options = Parser(
        dedent(
            """\
            Debugs the program of a recording, forward and backward, with gdb's words for commands. It goes to
            any count of the recording, and shows there the instruction that comes next and what that changes. It
            shows the machine, whatever the recording claims. Ctrl-C ends a search, and not the debugger. An
            empty line repeats the last move. The commands are:
        """
        )
        + listed,
        "galluspa debug examples/face.orsr -ex 'watch dot 600,219' -ex run",
    )
    options.add_argument("recording", metavar="RECORDING", type=Path)
    for names, metavar, does in (
        (("-x", "--command"), "FILE", "carry out the commands in a file, a line each; repeatable"),
        (("-ex", "--eval-command"), "COMMAND", "carry out a command; repeatable, and with -x, in their order"),
    ):
        options.add_argument(*names, metavar=metavar, action=_Given, dest="given", default=[], help=does)
    options.add_flag("--batch", "end after these commands, or with status 2 at the first error")
    options.add_number("--at", "N", 0, COUNTS, "the count to begin at (default 0)", default=0)
    add_directory_option(options, "sources")
    add_stack_limit_option(options)
    options.add_symbols_option()
    add_workers_option(options)
    options.add_limit_option("end a command after this many seconds")
    options.add_machine_options()
    return options


class _Given(Action):
    """Keeps the options -x and -ex in the order in which they are given."""

    def __call__(self, parser: ArgumentParser, asked: Namespace, value: object, option: str | None = None) -> None:
        asked.given = [*asked.given, (self.metavar, str(value))]


def given_lines(asked: Namespace) -> Iterator[tuple[str, str]]:
    """Yields the commands that the command line gives, each with what is said of where it is."""
    for kind, text in asked.given:
        if kind != "FILE":
            yield f"-ex {text}", text
            continue
        content = read_file(text, MOST_BYTES + 1)
        if len(content) > MOST_BYTES:
            raise Refused(f"{text}: a file of commands has at most {MOST_BYTES:,} bytes")
        for at, line in enumerate(content.decode("utf-8", "replace").splitlines(), 1):
            yield f"{text}:{at}", line


class Shell(cmd.Cmd):
    """Reads commands, and carries them out."""

    identchars = cmd.Cmd.identchars + "-"

    def __init__(self, commands: Commands, patience: Patience) -> None:
        super().__init__()
        self.commands = commands
        self.patience = patience
        self.again = ""
        self.is_busy = False
        self._prompt()

    def _prompt(self) -> None:
        self.prompt = "> " if self.commands.commanded else f"({self.commands.debugger.count}) "

    def carry_out(self, line: str) -> None:
        """Carries out a command, and prints what it says. An empty line and a comment do nothing."""
        if not line.strip() or line.lstrip().startswith("#"):
            return
        try:
            for shown in self.commands.run(line):
                self.patience.left()
                print(shown)
        finally:
            self._prompt()

    def onecmd(self, line: str) -> bool:
        """Carries out a line that a user types, or if it is empty the last move again. A mistake in it is a line, and the
        debugger continues."""
        line = line if line.strip() else self.again
        if line == "EOF":
            print()
            return True
        # In this order: a signal that comes just after it is of this command.
        self.patience.begin()
        self.is_busy = True
        try:
            self.again = self._repeatable(line)
            self.carry_out(line)
        except Ended:
            return True
        except Interrupted:
            print("interrupted")
        except (Refused, TimeIsUp) as refusal:
            complain(str(refusal))
        finally:
            self.is_busy = False
            sys.stdout.flush()
        return False

    def _repeatable(self, line: str) -> str:
        """Returns the line that an empty line after this one stands for: the same for a move, and nothing else."""
        with contextlib.suppress(Refused):
            if self.commands.parted(line)[0].is_repeated:
                return line
        return ""

    def complete(self, text: str, state: int) -> str | None:  # type: ignore[override]
        """Returns the completions of a word, one after the other, as readline takes them."""
        import readline

        if state == 0:
            self.completed = self.commands.completions(readline.get_line_buffer()[: readline.get_endidx()], text)
        return self.completed[state] if state < len(self.completed) else None

    def preloop(self) -> None:
        """Makes blanks the only ends of words."""
        with contextlib.suppress(ImportError):
            import readline

            readline.set_completer_delims(BETWEEN)

    def interrupt(self, number: int, frame: FrameType | None) -> None:
        """Ends what is carried out, or what is typed, when the user types Ctrl-C."""
        if not self.is_busy:
            raise KeyboardInterrupt
        self.patience.is_interrupted = True

    def talk(self) -> None:
        """Reads commands of a user until the end."""
        signal.signal(signal.SIGINT, self.interrupt)
        while True:
            try:
                self.cmdloop()
                return
            except KeyboardInterrupt:
                print("^C")


def carry_out(shell: Shell, lines: Iterator[tuple[str, str]]) -> None:
    """Carries out commands, each printed after the count as if it were typed, up to the first that is refused."""
    for where, line in lines:
        if line.strip():
            print(f"{shell.prompt}{printable(line)}")
        shell.patience.begin()
        try:
            shell.carry_out(line)
        except Failed as failure:
            raise Failed(f"{where}: {failure}") from failure
        except Refused as refusal:
            raise Refused(f"{where}: {refusal}") from refusal
        except TimeIsUp as over:
            raise Failed(f"{where}: {over}") from over


def follow(shell: Shell, lines: Iterator[str]) -> int:
    """Carries out the commands of a standard input that is not a terminal. A refusal is one line, and the
    status says so at the end."""
    status = OK
    for line in lines:
        try:
            carry_out(shell, iter([("standard input", line.rstrip("\n"))]))
        except Ended:
            break
        except Refused as refusal:
            complain(str(refusal))
            status = max(status, FAILED if isinstance(refusal, Failed) else REFUSED)
    return status


def main(asked: Namespace) -> int:
    """Debugs the recording that is named."""
    patience = Patience(asked.limit)
    it = opened(asked, patience)
    run, at = Past(it.run), it.count(asked.at)
    debugger = Debugger(run, it.symbols, asked.jobs, at, asked.stack_limit)
    shell = Shell(Commands(debugger, it.program, Sources.of(asked)), patience)
    try:
        carry_out(shell, given_lines(asked))
        if asked.batch and shell.commands.commanded:
            raise Refused(f"the commands of point {shell.commands.commanded.number} have no end")
        if asked.batch:
            return OK
        if not sys.stdin.isatty():
            return follow(shell, iter(sys.stdin.readline, ""))
        print(f"{printable(asked.recording.name)}: counts 0 to {run.end:,}; help lists the commands")
        shell.talk()
    except Ended:
        pass
    return OK
