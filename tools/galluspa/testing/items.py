"""Scripts and recordings as tests of pytest."""

import difflib
import os
from collections.abc import Iterable, Iterator, Sequence
from itertools import islice
from pathlib import Path
from typing import Any

import pytest

from galluspa.process.cli import Refused
from galluspa.process.escapes import printable
from galluspa.process.timelimit import TimeIsUp
from galluspa.suites import approvals
from galluspa.suites.cases import case_of, outcomes_of
from galluspa.suites.judging import NOT_YET, Judged
from galluspa.testing import APPROVED, SCRIPT
from galluspa.testing.suite import Suite, suite_of

# The most lines that are shown of a text that differs.
MOST_LINES = 40


class Different(Exception):
    """What is seen is not as approved, or a verdict is not as expected; its lines say so."""

    def __init__(self, lines: Sequence[str]) -> None:
        super().__init__("\n".join(lines))
        self.lines = lines


class Checked(pytest.Item):
    """A test of a file. Whatever is wrong with the file, the test fails with lines, and not with a traceback."""

    def setup(self) -> None:
        """Finds the program and the library."""
        self.suite: Suite = suite_of(self.config)

    def repr_failure(self, excinfo: pytest.ExceptionInfo[BaseException], *arguments: Any, **options: Any) -> Any:
        """Returns why the test failed."""
        if isinstance(excinfo.value, Different):
            return "\n".join(f"E   {line}" for line in excinfo.value.lines)
        if isinstance(excinfo.value, Refused | TimeIsUp):
            return f"E   {printable(str(excinfo.value))}"
        return super().repr_failure(excinfo, *arguments, **options)

    def reportinfo(self) -> tuple[Path, None, str]:
        """Returns the file, and what the test is called."""
        return self.path, None, f"{self.path.name}: {self.name}"


class Script(Checked):
    """A script that is run again: what a user sees is as approved."""

    def runtest(self) -> None:
        """Runs the script, and compares what is seen with what was approved, or approves it."""
        judge, case = self.suite.judge(self.path), self.suite.case(self.path)
        if self.suite.is_approving:
            ran = judge.run(case)
            self.suite.keep(self.path, ran.text)
            self.user_properties.append((APPROVED, judge.approve(case, ran)))
            return
        judged = judge.judged(case)
        self.suite.keep(self.path, judged.ran.text)
        if not judged.is_as_approved:
            raise Different(list(_differences(judged)))


class Verdict(Checked):
    """A recording that is checked: its verdict is what the file NAME.expect beside it begins with, or `accepted`."""

    def runtest(self) -> None:
        """Checks the recording."""
        case = case_of(self.path.name, self.path, self.path.parent.resolve())
        outcome = next(outcomes_of(self.suite.program, [case], 1, 1, self.suite.seconds))
        if not outcome.is_ok:
            raise Different([f"expected {printable(case.expected)}", f"answered {outcome.answered}"])


class ScriptFile(pytest.File):
    """A script."""

    def collect(self) -> Iterable[pytest.Item]:
        """Yields its test."""
        yield Script.from_parent(self, name="rerun")


class RecordingFile(pytest.File):
    """A recording."""

    def collect(self) -> Iterable[pytest.Item]:
        """Yields the test of its verdict; and that of what a user sees, if somebody approved that."""
        yield Verdict.from_parent(self, name="verdict")
        is_script = os.path.exists(self.path.with_name(approvals.stem_of(self.path) + SCRIPT))
        if not is_script and os.path.exists(approvals.folder_of(self.path)):
            yield Script.from_parent(self, name="rerun")


def _differences(judged: Judged) -> Iterator[str]:
    """Yields in what a run differs from what was approved, as pytest shows two texts that differ."""
    if not judged.approved:
        yield judged.ran.failure or f"{NOT_YET}: --galluspa-approve writes what is seen"
    for line in judged.found.lines:
        yield line
    if judged.approved and (sent := approvals.text_of(judged.ran.sent)) != judged.approved.sent:
        yield from _text_differences(judged.approved.sent, sent)
    for line in judged.why:
        yield f"because {line}"


def _text_differences(approved: str, now: str) -> Iterator[str]:
    """Yields the lines that differ of what was sent: with - as it was approved, and with + as it is."""
    lines = (line for line in difflib.ndiff(approved.splitlines(), now.splitlines()) if line[:1] != " ")
    for line in islice(lines, MOST_LINES):
        yield f"  {printable(line.rstrip())}"
    if more := sum(1 for _ in lines):
        yield f"  .. {more:,} more lines"
