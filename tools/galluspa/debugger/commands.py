"""The commands of `galluspa debug`: their names, which are gdb's where gdb has one, and what each does.

Each returns the lines that it prints. What they say of the machine is what the library says.
"""

import re
from collections.abc import Callable, Iterable, Iterator
from dataclasses import dataclass

from galluspa.analysis.conditions import STARTS
from galluspa.analysis.expressiontexts import EXPRESSIONS
from galluspa.debugger.moves import Moves
from galluspa.debugger.points import Points
from galluspa.debugger.views import INFO, Views
from galluspa.debugger.why import Whys
from galluspa.formats.symbols import shown
from galluspa.process.cli import Refused


# The most characters of a command.
MOST_CHARACTERS = 20_000


class Ended(Exception):
    """The user ends the debugger."""


@dataclass
class Commands(Moves, Points, Views, Whys):
    """All commands."""

    @property
    def names(self) -> "dict[str, Command]":
        """Returns the commands by their names."""
        return {name: it for it in COMMANDS for name in (it.name, *it.aliases)}

    def command(self, name: str) -> "Command":
        """Returns the command of a name, or of the beginning of one. Raises Refused if none or several are
        meant."""
        if name in self.names:
            return self.names[name]
        meant = {it.name: it for known, it in self.names.items() if known.startswith(name)}
        if len(meant) == 1:
            return next(iter(meant.values()))
        if meant:
            raise Refused(f"ambiguous command {shown(name)}: {', '.join(sorted(meant))}")
        raise Refused(f"unknown command {shown(name)}: try help")

    def parted(self, line: str) -> "tuple[Command, str]":
        """Returns the command that a line names, and its arguments."""
        line = line.strip()
        if len(line) > MOST_CHARACTERS:
            raise Refused(f"a command has at most {MOST_CHARACTERS:,} characters")
        found = re.match(r"[A-Za-z-]+", line)
        if not found:
            raise Refused(f"unknown command {shown(line)}: try help")
        return self.command(found[0]), line[found.end() :].lstrip()

    def run(self, line: str) -> Iterator[str]:
        """Yields the lines that a command prints, and those of the points that pause the machine."""
        if self.commanded:
            self.collect(line)
            return
        self.pending = [line]
        while self.pending:
            it, arguments = self.parted(self.pending.pop(0))
            yield from it.carry_out(self, arguments)

    def silent(self, text: str) -> Iterator[str]:
        """Does nothing: the first command of a point, with which it shows nothing of its own."""
        yield from ()

    def completions(self, line: str, word: str) -> list[str]:
        """Returns what may be meant by a word that is not finished: a command, or an argument after one."""
        before = line[: len(line) - len(word)].split() if line else []
        if not before:
            return sorted(name for name in self.names if name.startswith(word))
        known: Iterable[str] = self.debugger.symbols.names()
        first = before[0].partition("/")[0]
        name = self.command(first).name if first in self.names else first
        if name == "info" and len(before) == 1:
            known = INFO
        elif name == "help":
            known = self.names
        elif name == "catch":
            known = [*STARTS.values(), *known]
        return sorted({it for it in known if it.startswith(word)})

    def help(self, text: str) -> Iterator[str]:
        """Explains a command, or lists them."""
        if text and "expressions".startswith(text.lower()) and text not in self.names and len(text) > 2:
            yield from EXPRESSIONS.splitlines()
        elif text:
            it = self.command(text)
            also = f" (also {', '.join(it.aliases)})" if it.aliases else ""
            yield f"{it.name} {it.arguments}".rstrip() + also
            yield f"  {it.does}"
        for it in () if text else COMMANDS:
            yield f"{f'{it.name} {it.arguments}'.rstrip():34}  {it.does}"

    def quit(self, text: str) -> Iterator[str]:
        """Ends the debugger."""
        raise Ended


@dataclass(frozen=True)
class Command:
    """A command: its name, other names, its arguments as its help shows them, what it does, and whether an empty line
    repeats it."""

    name: str
    aliases: tuple[str, ...]
    arguments: str
    does: str
    carry_out: Callable[[Commands, str], Iterable[str]]
    is_repeated: bool = False


COMMANDS = (
    Command("run", ("r",), "", "go to the beginning, and run to the first point", Commands.restart),
    Command("continue", ("c",), "[N]", "run to the next point, or to the N-th", Commands.go_on, True),
    Command("reverse-continue", ("rc",), "[N]", "run backward to the point before, or to the N-th", Commands.go_back, True),
    Command("step", ("s",), "[N]", "run to another line of the source; without lines, do an instruction", Commands.step_line, True),
    Command(
        "reverse-step", ("rs",), "[N]", "go back to the beginning of the line, or of the one before", Commands.step_line_back, True
    ),
    Command("next", ("n",), "[N]", "the same as step, but calls are done as a whole", Commands.next_line, True),
    Command("reverse-next", ("rn",), "[N]", "next, but backward", Commands.next_line_back, True),
    Command("stepi", ("si",), "[N]", "do N instructions", Commands.step_instruction, True),
    Command("reverse-stepi", ("rsi",), "[N]", "go N instructions back", Commands.step_instruction_back, True),
    Command("nexti", ("ni",), "[N]", "do N instructions, and what they call", Commands.next_instruction, True),
    Command("reverse-nexti", ("rni",), "[N]", "nexti, but backward", Commands.next_instruction_back, True),
    Command("finish", ("fin",), "", "run until the procedure of the selected frame returns to its caller", Commands.finish),
    Command("reverse-finish", (), "", "go back to the call of the procedure of the selected frame", Commands.finish_back),
    Command("advance", (), "LOCATION", "run to an instruction", Commands.advance),
    Command(
        "until", ("u",), "[LOCATION]", "the same as next, but past a loop; with LOCATION, the same as advance", Commands.until, True
    ),
    Command("at", (), "COUNT", "go to a count: N, +N, -N, start or end", Commands.at),
    Command(
        "break",
        ("b",),
        "[LOCATION] [if CONDITION]",
        "pause before an instruction: NAME, FILE:LINE, *ADDRESS or a word number; a condition on values is searched for if "
        "it compares up to three registers or words with numbers, and tested at each hit if not",
        Commands.break_at,
    ),
    Command(
        "watch",
        (),
        "PLACE [if CONDITION]",
        "pause after each instruction that changes a place: a name, an address, *SP, dot X,Y, a register, LEDs ..; a "
        "condition is tested after it",
        Commands.watch,
    ),
    Command("rwatch", (), "PLACE", "pause after each instruction that loads from a place", Commands.watch_loads),
    Command("awatch", (), "PLACE", "pause after each instruction that stores to a place", Commands.watch_stores),
    Command(
        "catch", (), "CONDITION ..", "pause before an instruction at which a condition of `galluspa find` holds", Commands.catch
    ),
    Command("tbreak", ("tb",), "[LOCATION] [if CONDITION]", "the same as break, but only the first pause", Commands.break_once),
    Command(
        "condition", (), "N [CONDITION]", "pause at a point only if a condition holds; without one, always", Commands.condition
    ),
    Command("ignore", (), "N TIMES", "pass over the next hits of a point", Commands.ignore),
    Command("enable", (), "[N ..]", "enable points by their numbers, or all", Commands.enable),
    Command("disable", (), "[N ..]", "disable points by their numbers, or all: they pause nothing", Commands.disable),
    Command(
        "commands",
        (),
        "[N]",
        "carry out the commands that come next, up to a line end, when point N pauses; silent as the first hides the pause",
        Commands.begin_commands,
    ),
    Command("silent", (), "", "as the first of a point's commands: show nothing of the pause", Commands.silent),
    Command("delete", ("d",), "[N ..]", "delete points by their numbers, or all", Commands.delete),
    Command("info", ("i",), "WHAT [..]", f"show {', '.join(INFO)}", Commands.info),
    Command("x", (), "[/FMT] ADDRESS", "show memory: x/8xw SP, x/4i PC, x/s NAME", Commands.examine),
    Command(
        "print",
        ("p", "inspect"),
        "[/FMT] VALUE",
        "print an expression, in a format: one of x d u c t s a i; help expressions says what there is",
        Commands.print_value,
    ),
    Command(
        "backtrace", ("bt", "where", "calls"), "", "show the calls that have not returned, each with its count", Commands.backtrace
    ),
    Command("frame", ("f",), "[N]", "select frame N of the backtrace, or show the selected one", Commands.frame),
    Command("up", (), "[N]", "select the frame of a caller, of which list shows the source", Commands.up),
    Command("down", (), "[N]", "select the frame of what the selected one calls", Commands.down),
    Command("who", (), "PLACE", "find the last instruction before this count that wrote a place or a register", Commands.who),
    Command(
        "why", (), "[/N] PART", "say where a value comes from, by at most N links: who wrote it, from which values ..", Commands.why
    ),
    Command("display", (), "[/FMT] VALUE", "print an expression now and at each pause", Commands.display),
    Command("undisplay", (), "[N ..]", "display expressions no more, by their numbers, or all", Commands.undisplay),
    Command(
        "list",
        ("l",),
        "[LINE or LOCATION][,LAST]",
        "show lines of the source: around one, FIRST,LAST, FIRST,+N, or - for those before",
        Commands.list_source,
        True,
    ),
    Command("disassemble", ("disas",), "[LOCATION[,N]]", "show instructions", Commands.disassemble),
    Command("screen", (), "[FILE]", "draw the screen: as text, or into a PNG or a PBM", Commands.screen),
    Command("help", ("h",), "[COMMAND]", "explain a command, or list them", Commands.help),
    Command("quit", ("q", "exit"), "", "end", Commands.quit),
)
