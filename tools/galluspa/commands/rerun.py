"""Runs stored sessions again, mostly on a new image, and compares what a user of the system sees with what was approved.

A stored session is a session, a recording, of which the inputs count, or a script, whose events come when something
happens. The folder NAME.approved beside it has what was approved: bytes sent, LEDs, screens, and whether the machine
stopped. The exit status is 0 if all is as approved, 1 if something is not, and 2 for bad input.
"""

import sys
import time
from argparse import Namespace
from collections.abc import Sequence
from pathlib import Path
from textwrap import dedent

from galluspa.analysis.calls import add_stack_limit_option
from galluspa.engine.library import Library
from galluspa.engine.program import Program
from galluspa.formats.recording import MEMORY_BYTES
from galluspa.formats.scripts import STILL
from galluspa.formats.sessions import COUNTS
from galluspa.formats.symbolfiles import symbols_for
from galluspa.process.children import in_parallel
from galluspa.process.cli import OK, WRONG, Failed, Parser, Refused, make_folder, write_file
from galluspa.process.escapes import printable
from galluspa.process.timelimit import TimeIsUp
from galluspa.suites import approvals, storedsessions
from galluspa.suites.cases import Case, Outcome
from galluspa.suites.judging import LONGEST, Judge, answered
from galluspa.suites.outcomes import add_jobs_option, add_output_options, reported
from galluspa.suites.reruns import Rerun
from galluspa.suites.storedsessions import APPROVED, AS_APPROVED, Shelf, Wanted


def parser() -> Parser:
    options = Parser(
        dedent(
            """\
            Runs the stored sessions under a folder again and prints TAP. A stored session is a session (NAME.json),
            a recording (NAME.orsr), of which the initial state and the inputs count, or a script
            (NAME.rerun.json), whose inputs come when something happens. What a user of the system sees is
            compared with what was approved, in the folder NAME.approved: bytes sent, LEDs, screens, and whether the
            machine stopped; code and memory are not."""
        ),
        "galluspa rerun tests --image system.json",
        {OK: "all is as approved, or is approved now", WRONG: "something is not as approved, or has not been approved yet"},
    )
    options.add_argument("folder", metavar="FOLDER", type=Path, help="a folder of stored sessions, or one of them")
    options.add_file(
        "--image", "FILE", "run all on this image: the initial state of a session or a recording, or a raw image of the memory"
    )
    options.add_number("--at", "ADDRESS", 0, MEMORY_BYTES, "the byte address where a raw image begins (default 0)")
    options.add_repeatable("--set", "NAME=VALUE", "a number of the initial state: R0 to R15, H, PC (in words), flags, rate, phase")
    options.add_flag("--approve", "approve the results of this run, in place of those approved before")
    options.add_file(
        "--before",
        "FILE",
        "the image of the version that was approved, as --image names one: say what that version did where this one differs",
        dest="earlier",
    )
    after = f"after its last checkpoint (default {STILL:,}); with 0, look at its last checkpoint"
    does = f"of a session or a recording, look at the machine once nothing that a user sees changed for N instructions, {after}"
    options.add_number("--still", "N", 0, COUNTS, does, default=STILL)
    options.add_flag(
        "--polled",
        "of a session or a recording, give each input when the machine polls it, from its count on, and not at its count",
    )
    options.add_flag("--checkpoints", "look at each checkpoint of a session or a recording, too")
    options.add_flag("--script", "print the script of one session or recording, to write events into, and run nothing")
    options.add_file("--recordings", "INTO", "write the recording of each run into this folder, with the counts found")
    add_jobs_option(options, "run")
    options.add_limit_option("end the run of a session after this many seconds; it is then not as approved")
    add_output_options(options)
    add_stack_limit_option(options)
    options.add_symbols_option()
    options.add_machine_options()
    return options


class Reruns:
    """Runs stored sessions, and approves or compares them."""

    def __init__(self, asked: Namespace, judge: Judge) -> None:
        self._asked = asked
        self._judge = judge

    def outcome(self, case: Case) -> Outcome:
        """Returns how the run of a stored session compares with what was approved."""
        start = time.monotonic()
        why: Sequence[str] = ()
        has_failed = False
        try:
            (answer, why), is_error = self._answered(case), False
        except (Refused, TimeIsUp) as refusal:
            answer, is_error, has_failed = printable(str(refusal))[:LONGEST], True, isinstance(refusal, Failed)
        return Outcome(case, answer, time.monotonic() - start, is_error, why, has_failed)

    def _answered(self, case: Case) -> tuple[str, Sequence[str]]:
        """Returns what is answered of a run, and why it differs."""
        if self._asked.approve:
            ran = self._judge.run(case)
            self._write(case, ran)
            return self._judge.approve(case, ran), ()
        judged = self._judge.judged(case)
        self._write(case, judged.ran)
        return answered(judged), judged.why

    def _write(self, case: Case, ran: Rerun) -> None:
        """Writes the recording of a run, by the name of its session, with --recordings."""
        if not self._asked.recordings:
            return
        folder = self._judge.shelf.folder
        path = self._asked.recordings / case.path.relative_to(folder).with_name(f"{approvals.stem_of(case.path)}.orsr")
        make_folder(path.parent)
        write_file(path, ran.text)


def shelf_of(asked: Namespace, program: Program, named: Path | None, symbols: Path | None) -> Shelf:
    """Returns the stored sessions of the command line, with the image that they run on, if one is named."""
    if not asked.image and (asked.at is not None or asked.set):
        raise Refused("use --at and --set with --image")
    image = storedsessions.image_of(program, named, asked.at, asked.set) if named else None
    names = symbols_for(symbols, *filter(None, [named]))
    folder = asked.folder if asked.folder.is_dir() else asked.folder.parent
    return Shelf(program, folder, image, names, Wanted(asked.still, asked.polled, asked.checkpoints))


def main(asked: Namespace) -> int:
    """Runs stored sessions; the status says whether all is as approved."""
    program = Program.find(asked.program)
    cases, others = storedsessions.cases_of(asked.folder, APPROVED if asked.approve else AS_APPROVED)
    shelf = shelf_of(asked, program, asked.image, asked.symbols)
    if asked.script:
        return print_script(program, shelf, cases)
    shelf.find_names(cases)
    before = shelf_of(asked, program, asked.earlier, None) if asked.earlier else None
    reruns = Reruns(asked, Judge(shelf, Library.find(asked.library), asked.limit, before, asked.stack_limit))
    for name in others:
        print(f"# {name}: no session")
    return reported(asked, in_parallel(asked.jobs, reruns.outcome, cases), len(cases))


def print_script(program: Program, shelf: Shelf, cases: Sequence[Case]) -> int:
    """Prints the script of a stored session."""
    if len(cases) > 1:
        raise Refused("use --script with one session, and not with a folder of several")
    sys.stdout.write(shelf.taken(program, cases[0])[1].text())
    return OK
