"""Finds the instruction after which another emulator and the machine differ, by bisection.

COMMAND prints the other emulator's state at a count. It runs for each count of a short run, and else for the counts 1,
2, 4, 8 .. and those after the inputs, up to the first at which the two differ, and then by bisection, until they are
the same before an instruction and differ after it. The exit status is 0 if they never differ at the counts that were
tried, 1 if they do, and 2 for bad input.
"""

from argparse import Namespace
from collections.abc import Iterator, Sequence
from dataclasses import dataclass
from heapq import merge
from itertools import groupby, islice
from pathlib import Path
from textwrap import dedent

from galluspa.analysis.calltrace import Trace
from galluspa.analysis.explanation import Difference, table
from galluspa.analysis.naming import named_row
from galluspa.emulators.oneshot import PLACE, Emulator, Shown, add_command, add_seconds_option, has
from galluspa.engine.initial import recording_of
from galluspa.engine.library import Library
from galluspa.engine.machine import Machine, Sent
from galluspa.engine.program import Program
from galluspa.engine.tracing import Run, differing
from galluspa.formats import recording, states
from galluspa.formats.builds import tell_misfit
from galluspa.formats.sessions import COUNTS
from galluspa.formats.symbolfiles import symbols_for
from galluspa.formats.symbols import NONE, Symbols
from galluspa.process.cli import Parser, Refused, progress

STEPS = 10
SECONDS = 600
WORDS_SHOWN = 64
# A run of at most this many instructions is compared at each count, and a longer one after at most this many of its inputs.
SHORT = 1000
AFTER_INPUTS = 1000
UNSEEN = "what differs between two of them, and no more at the second, is not seen: --every 1 looks at each"


@dataclass(frozen=True)
class Look:
    """A look at a count: the machine there, what it sent so far, what the other shows, and the parts that differ."""

    machine: Machine
    sent: Sent
    shown: Shown
    names: list[str]


@dataclass
class Search:
    """A search from a count at which two emulators are the same: the machine there, what it sent so far, and the last
    look at a count at which they differ."""

    run: Run
    other: Emulator
    machine: Machine
    sent: Sent = Sent()
    asked: int = 0
    parted: Look | None = None

    def is_same(self, count: int) -> bool:
        """Returns whether both are the same at a later count too; if so, the search continues there."""
        self.asked += 1
        progress(f"run {self.asked}: the same at {self.machine.count:,}, looking at {count:,}")
        machine = self.machine.copy()
        sent = self.sent + self.run.advance(machine, count)
        shown = self.other.at(count)
        if names := shown.differing(machine, sent):
            self.parted = Look(machine, sent, shown, names)
        else:
            self.machine, self.sent = machine, sent
        return not names

    def narrow(self, counts: Iterator[int]) -> Look | None:
        """Finds an instruction before which they are the same and after which they differ: the look after it, if there
        is one."""
        last = next((count for count in counts if not self.is_same(count)), None)
        while last is not None and last - self.machine.count > 1:
            middle = (self.machine.count + last) // 2
            last = last if self.is_same(middle) else middle
        progress("")
        return self.parted if last is not None else None


def parser() -> Parser:
    options = Parser(
        dedent(
            f"""\
            Finds the instruction after which another emulator and the machine differ, and prints both states
            and the trace up to it. COMMAND prints the other emulator's state at a count as JSON; {PLACE} in its
            arguments stands for the count."""
        ),
        f"galluspa bisect examples/keys.json -- ./state keys.orsr {PLACE} memory.bin",
    )
    options.add_argument("session", metavar="SESSION", type=Path, help="a session, or a recording")
    add_command(options)
    does = "a count at which the two are the same, such as that of the last true checkpoint (default 0)"
    options.add_number("--from", "N", 0, COUNTS, does, dest="first", default=0)
    options.add_number("--to", "N", 1, COUNTS, "the last count to try (default: that of the last checkpoint)")
    options.add_number(
        "--every",
        "N",
        1,
        COUNTS,
        "try every N-th count instead of 1, 2, 4, 8 .. and those after the inputs; with 1, which "
        f"is the default up to count {SHORT:,}, the tool finds the very first difference",
    )
    options.add_number("--steps", "M", 1, 1 << 20, f"print the last M instructions up to it (default {STEPS})", default=STEPS)
    add_seconds_option(options, "--seconds", SECONDS)
    options.add_symbols_option()
    options.add_machine_options()
    return options


def is_doubling(first: int, to: int, every: int | None) -> bool:
    """Returns whether counts are tried at doubling distances: in a long run, without --every."""
    return every is None and to - first > SHORT


def counts_of(first: int, to: int, every: int | None, inputs: Sequence[int]) -> Iterator[int]:
    """Yields the counts after a first one to look at before bisecting, the last one among them: each `every`, or if that is not
    said, each of a short run, and else 1, 2, 4, 8 .. later and those after some of the inputs, whose counts are given."""
    if is_doubling(first, to, every):
        length = to - first
        doubled = (first + (1 << power) for power in range(length.bit_length()) if 1 << power < length)
        counts = merge(doubled, (count + 1 for count in inputs if first < count + 1 < to))
    else:
        counts = range(first + (every or 1), to, every or 1)
    yield from (count for count, _ in groupby(counts))
    yield to


def some_of(counts: Sequence[int]) -> Sequence[int]:
    """Returns the different counts among these, or at most AFTER_INPUTS of them, evenly spread."""
    different = [count for count, _ in groupby(counts)]
    return different[:: -(-len(different) // AFTER_INPUTS) or 1]


def sameness(asked: int, to: int, tried: int, inputs: int, is_each: bool) -> str:
    """Returns the line that says that the two never differ at the counts that were looked at; `tried` are those after inputs,
    of which there are `inputs`, and `is_each` says whether they were all counts."""
    line = f"the same at {to}, and at each of the {asked} counts that were looked at"
    line += f"; {tried:,} of {inputs:,} counts after inputs are among them" if tried < inputs else ""
    return line if is_each else f"{line}; {UNSEEN}"


def report(search: Search, parted: Look, steps: int, symbols: Symbols = NONE) -> Iterator[str]:
    """Yields the lines that say where the two part: the states after the instruction, and the trace up to it."""
    same = search.machine.count
    yield f"differs after instruction {same}: the same at {same}, not at {same + 1}, found by {search.asked} runs"
    yield ""
    differences = list(_differences(parted, search.sent.length))
    rows = (named_row((it.name, it.claimed, it.defined), symbols) for it in differences)
    yield from table([("", "the other", "the machine"), *rows])
    yield ""
    machine, trace = search.run.machine(max(0, same + 1 - steps)), Trace(symbols)
    for step in search.run.steps(machine, same + 1):
        yield from trace.lines(step)


def _differences(parted: Look, sent_before: int) -> Iterator[Difference]:
    own, shown = states.values(parted.machine.seen()), parted.shown
    for name in parted.names:
        if name == "out":
            yield Difference(name, *(_last_bytes(it, sent_before) for it in (shown.sent or b"", parted.sent.first)))
        elif name == "memory" and shown.memory is not None:
            words = islice(differing(shown.memory, parted.machine.memory()), WORDS_SHOWN)
            yield from (Difference(it.name, f"{it.old:08X}", f"{it.new:08X}") for it in words)
        elif name == "memory":
            yield Difference("memory", f"SHA-256 {(shown.digest or '')[:16]}..", "another")
        else:
            yield Difference(name, *(states.value(name, it) for it in (shown.parts[name], own[name])))


def _last_bytes(sent: bytes, before: int) -> str:
    return f"{len(sent):,} bytes" + (f", the last {sent[before:].hex(' ')}" if len(sent) > before else "")


def begin(asked: Namespace, run: Run) -> Search:
    """Returns the search from the first count on, at which the two have to be the same."""
    machine = run.machine(0)
    search = Search(run, Emulator(asked.command, asked.seconds), machine, run.advance(machine, asked.first))
    search.is_same(asked.first)
    if search.parted:
        advice = "give a smaller --from" if asked.first else "begin with the session's initial state"
        names = ", ".join(search.parted.names)
        raise Refused(f"the emulator and the machine differ at count {asked.first}, in {names}: {advice}")
    return search


def main(asked: Namespace) -> int:
    """Prints where the two emulators part."""
    if not has(asked.command, PLACE):
        raise Refused(f"put {PLACE} into an argument of COMMAND")
    library, program = Library.find(asked.library), Program.find(asked.program)
    symbols = symbols_for(asked.symbols, asked.session)
    text, to = recording_of(program, asked.session, asked.to)
    if asked.first >= to:
        raise Refused(f"--from {asked.first} is not before {to}, the last count to try")
    read = recording.read(text)
    tell_misfit(symbols, read.first_memory)
    search = begin(asked, Run(library, read, range(1)))
    inputs = [event.count for event in read.events if asked.first <= event.count < to]
    inputs = inputs if is_doubling(asked.first, to, asked.every) else []
    tried = some_of(inputs)
    parted = search.narrow(counts_of(asked.first, to, asked.every, tried))
    if not parted:
        print(sameness(search.asked, to, len(tried), len(set(inputs)), search.asked == to - asked.first + 1))
        return 0
    print("\n".join(report(search, parted, asked.steps, symbols)))
    return 1
