"""Suites: the recordings under a folder, the expected beginnings of their verdict lines, and what the program answers.
"""

import json
import os
import time
from collections.abc import Iterator, Sequence
from dataclasses import dataclass, replace
from pathlib import Path

from galluspa.engine.program import Program
from galluspa.process.children import in_parallel
from galluspa.process.cli import Failed, Refused, read_file
from galluspa.process.escapes import for_tap, printable
from galluspa.process.timelimit import Limit, TimeIsUp

# More bytes than a file of what to expect has.
EXPECTATION_BYTES = 1 << 16


@dataclass(frozen=True)
class Case:
    """A recording, by its name in the suite and its path, and the words that its answer has to begin with; or why it
    is not checked."""

    name: str
    path: Path
    expected: str
    fault: str = ""

    @property
    def file(self) -> Path:
        """Returns the path of an existing file that is not a pipe, which may have no writer."""
        if self.path.exists() and not self.path.is_file():
            raise Refused(f"{self.name}: not a file")
        return self.path

    def content(self) -> bytes:
        """Returns the bytes of the recording."""
        return read_file(self.file)


@dataclass(frozen=True)
class Outcome:
    """What the program answered to a recording, and in how many seconds. If `is_error`, there is no answer that could
    be as expected, and `answered` says why; `has_failed` says whether a write failed or memory ran out. `why` has lines on how an
    unexpected answer came about."""

    case: Case
    answered: str
    seconds: float
    is_error: bool = False
    why: Sequence[str] = ()
    has_failed: bool = False

    @property
    def is_ok(self) -> bool:
        """Returns whether the answer is the one that was expected."""
        expected = self.case.expected.split()
        return not self.is_error and self.answered.split()[: len(expected)] == expected


def cases_of(folder: Path) -> list[Case]:
    """Returns the recordings under a folder, by their names."""
    if not folder.is_dir():
        raise Refused(f"{folder}: not a folder")
    paths = [path for path in sorted(folder.rglob("*.orsr")) if not path.is_dir()]
    if not paths:
        raise Refused(f"{folder}: no recording (*.orsr) in it")
    top = folder.resolve()
    return [case_of(printable(str(path.relative_to(folder))), path, top) for path in paths]


def case_of(name: str, path: Path, top: Path) -> Case:
    """Returns the recording in a file inside a folder, with what is expected of it, or why that is not known."""
    try:
        return Case(name, path, expectation_of(path, top))
    except Refused as refusal:
        return Case(name, path, "what its .expect says", printable(str(refusal)))


def expectation_of(recording: Path, top: Path) -> str:
    """Returns what a recording's answer has to begin with, by the file beside it, which has to be inside a folder."""
    beside = recording.with_suffix(".expect")
    if not os.path.lexists(beside):
        return "accepted"
    if not Path(os.path.realpath(beside)).is_relative_to(top):
        raise Refused(f"{beside.name}: a link that leads out of the suite")
    if not beside.is_file():
        raise Refused(f"{beside.name}: not a file")
    lines = (line.strip() for line in read_file(beside, EXPECTATION_BYTES).decode("utf-8", "replace").splitlines())
    expected = next((line for line in lines if line and not line.startswith("#")), None)
    if expected is None:
        raise Refused(f"{beside.name}: no line says what to expect")
    return expected


def outcomes_of(program: Program, cases: Sequence[Case], jobs: int, workers: int, seconds: float) -> Iterator[Outcome]:
    """Returns the outcomes of cases, in their order, `jobs` of them checked at a time, and each for a number of seconds at
    most."""

    def outcome(case: Case) -> Outcome:
        start = time.monotonic()
        answered, is_error, has_failed = case.fault, bool(case.fault), False
        try:
            if not is_error:
                answered = replace(program, limit=Limit(seconds)).check_file(case.file, workers).line
        except (Refused, TimeIsUp) as why:
            answered, is_error, has_failed = printable(str(why)), True, isinstance(why, Failed)
        return Outcome(case, answered, time.monotonic() - start, is_error, has_failed=has_failed)

    return in_parallel(jobs, outcome, cases)


def tap(number: int, outcome: Outcome) -> str:
    """Returns the lines of TAP that report an outcome."""
    name = for_tap(outcome.case.name)
    if outcome.is_ok:
        return f"ok {number} - {name}: {for_tap(outcome.answered)}"
    details = {"expected": outcome.case.expected, "answered": outcome.answered}
    lines = [f"  {key}: {json.dumps(printable(value))}" for key, value in details.items()]
    if outcome.why:
        lines += ["  why:", *(f"    - {json.dumps(printable(it))}" for it in outcome.why)]
    return "\n".join([f"not ok {number} - {name}", "  ---", *lines, "  ..."])
