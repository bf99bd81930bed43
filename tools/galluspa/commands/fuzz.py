"""Finds a small program on which another emulator and the machine differ, by random sessions.

COMMAND is the other emulator: a persistent process that answers sessions over its standard input and output; or, if an
argument has {count} in it, a command for each session that prints its state, as for `galluspa bisect`. The exit status is
0 if both are the same in all sessions, 1 if they differ in one, and 2 for bad input.
"""

import os
import sys
import time
from argparse import Namespace
from collections.abc import Iterator
from contextlib import closing
from dataclasses import dataclass, field
from pathlib import Path
from textwrap import dedent

from galluspa.emulators.fuzzing import Broken, Plan, Tally, compared
from galluspa.emulators.fuzzreports import Finding
from galluspa.emulators.oneshot import PLACE, add_command, add_seconds_option
from galluspa.emulators.trialruns import MEMORY, RECORDING, SESSION, TrialRunner, other_of
from galluspa.emulators.trials import Trial
from galluspa.engine.library import Library
from galluspa.formats import states
from galluspa.process.cli import OK, WRONG, Failed, Parser, Refused, progress, write_files
from galluspa.process.escapes import printable
from galluspa.process.temporary import temporary_folder
from galluspa.process.timelimit import Limit

SECONDS, ANSWER_SECONDS, SESSIONS, SEEDS = 60, 10, 1 << 40, 1 << 32
PARTS = [*states.REGISTERS, *states.WORDS, "keys", "out", "memory"]
# What it is kept of a session that the other emulator does not answer.
UNANSWERED = "unanswered.json"


@dataclass
class Result:
    """What a run of the tool found, and in how many seconds: what was done, the differences, and the folder of each."""

    seed: int
    tally: Tally = field(default_factory=Tally)
    found: list[tuple[Finding, Path]] = field(default_factory=list)
    seconds: float = 0.0

    @property
    def summary(self) -> str:
        """Returns what was done, in a line."""
        number = len(self.found)
        found = f"{number} {'difference' if number == 1 else 'differences'}" if number else "no difference"
        tally = self.tally
        return f"seed {self.seed}: {tally.trials:,} sessions, {tally.instructions:,} instructions in {self.seconds:.0f} s, {found}"


def parser() -> Parser:
    options = Parser(
        dedent(
            f"""\
            Compares another emulator with the machine on random sessions, and makes the first one on which they
            differ as small as it can: fewer instructions, inputs, pages and bits. It leaves a folder with the
            session, its recording, its source, and what says which instruction differs, what it should give and
            what it gave. COMMAND is a persistent process that answers sessions over its standard input and output
            (docs/testing-an-emulator.md has the bytes). If {PLACE} is in an argument, it is a command for each
            session, as for `galluspa bisect`; then {SESSION}, {RECORDING} and {MEMORY} stand for the names of files."""
        ),
        "galluspa fuzz --seconds 10 -- ./emulator",
        {OK: "both are the same in all sessions", WRONG: "they differ in a session"},
    )
    add_command(options)
    options.add_number("--seconds", "S", 1, 1 << 30, f"end after S seconds (default {SECONDS})", default=SECONDS)
    options.add_number("--seed", "N", 0, SEEDS - 1, "make the sessions of a seed again")
    options.add_number("--from", "K", 0, SESSIONS, "begin with session K (default 0)", dest="first", default=0)
    options.add_number("--sessions", "N", 1, SESSIONS, "end after N sessions")
    options.add_number(
        "-j", "N", 1, 256, "run N processes in parallel (default: the number of CPUs)", dest="jobs", default=os.cpu_count() or 1
    )
    options.add_number("--most", "N", 1, 1000, "stop after N distinct differences (default 1)", default=1)
    options.add_repeatable("--ignore", "PART", "leave a part out of the comparison, such as timer", choices=PARTS)
    add_seconds_option(options, "--answer-seconds", ANSWER_SECONDS, "for a session")
    options.add_argument(
        "-o", metavar="FOLDER", dest="folder", type=Path, default=Path("fuzz"), help="output folder (default: fuzz)"
    )
    options.add_library_option()
    return options


def plan_of(asked: Namespace) -> Plan:
    """Returns what the arguments ask for."""
    seed = int.from_bytes(os.urandom(4), "little") if asked.seed is None else asked.seed
    end = asked.first + (asked.sessions or SESSIONS)
    return Plan(
        Library.find(asked.library),
        asked.command,
        asked.answer_seconds,
        frozenset(asked.ignore),
        seed,
        range(asked.first, end),
        asked.jobs,
    )


def try_once(plan: Plan, kept: Path) -> None:
    """Checks that the other emulator answers at all. If it does not, the session is kept in a folder."""
    trial = Trial((0,) * 16, {}, 1)
    with temporary_folder() as folder:
        other = other_of(plan.words, plan.seconds, plan.library, folder)
        try:
            TrialRunner(plan.library, other, plan.ignored).parting(trial)
        except Refused as refusal:
            # A command that can't be begun has no session to look at.
            if isinstance(refusal.__cause__, OSError):
                raise
            raise _broken(Broken(trial, "the first session", str(refusal), isinstance(refusal, Failed)), kept) from refusal
        finally:
            other.close()


def compare(plan: Plan, asked: Namespace) -> Result:
    """Compares until the time limit, or until enough differences are found."""
    result, begun = Result(plan.seed), time.monotonic()
    with closing(compared(plan, Limit(asked.seconds))) as messages:
        for message in messages:
            if isinstance(message, Tally):
                result.tally.add(message)
            elif isinstance(message, Broken):
                raise _broken(message, asked.folder)
            elif message and message.key not in {it.key for it, _ in result.found}:
                result.found.append((message, leave(message, asked.folder)))
            result.seconds = time.monotonic() - begun
            progress(f"{result.summary}, {result.tally.trials / max(result.seconds, 0.1):,.0f} sessions a second")
            if len(result.found) >= asked.most:
                break
    progress("")
    return result


def _broken(broken: Broken, folder: Path) -> Refused:
    """Returns why the comparison can't go on; the session is kept."""
    kind = Failed if broken.is_failure else Refused
    if not broken.trial:
        return kind(broken.reason)
    write_files(folder, {UNANSWERED: broken.trial.session().text().encode()})
    return kind(f"{broken.origin}, kept as {folder / UNANSWERED}: {broken.reason}")


def leave(finding: Finding, folder: Path) -> Path:
    """Writes what is found into a folder of its own."""
    own = folder / "-".join(finding.key)
    write_files(own, finding.files())
    return own


def text(result: Result) -> Iterator[str]:
    """Yields what was found."""
    for finding, folder in result.found:
        yield from finding.shown()
        there = ", ".join(sorted(it.name for it in folder.iterdir()))
        yield from ("", printable(f"{folder} has it: {there}"), "")
    yield result.summary


def main(asked: Namespace) -> int:
    """Compares the other emulator with the machine."""
    plan = plan_of(asked)
    try_once(plan, asked.folder)
    result = compare(plan, asked)
    sys.stdout.writelines(f"{line}\n" for line in text(result))
    return WRONG if result.found else OK
