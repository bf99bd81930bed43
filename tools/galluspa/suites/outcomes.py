"""What `galluspa suite` and `galluspa rerun` share: options that say what is written of outcomes, and TAP as outcomes come."""

import os
from argparse import Namespace
from collections.abc import Callable, Iterable, Iterator, Mapping, Sequence

from galluspa.process.cli import FAILED, OK, WRONG, Output, Parser, Refused, complain, progress, write_file
from galluspa.process.escapes import printable
from galluspa.suites import runs
from galluspa.suites.cases import Outcome, tap
from galluspa.suites.runs import Change

SLOWEST = 5


def add_jobs_option(options: Parser, does: str) -> None:
    """Adds the option that says how many are done at a time."""
    options.add_number(
        "-j", "N", 1, 1024, f"{does} N recordings at a time (default: the number of CPUs)", dest="jobs", default=os.cpu_count() or 1
    )


def add_output_options(options: Parser) -> None:
    """Adds the options that name files to write."""
    options.add_file("--keep", "FILE", "write the answers and times to a file, as JSON", kind=Output)
    options.add_argument(
        "--changed-since",
        metavar="FILE",
        dest="before",
        help="report what changed and what got slower since the run that --keep wrote to FILE",
    )
    options.add_file("--junit", "FILE", "write the results as JUnit XML, which CI systems read", kind=Output)


def reported(asked: Namespace, outcomes: Iterable[Outcome], of: int) -> int:
    """Prints each outcome as it comes, writes the files of the options, and returns the exit status."""
    before = runs.read_run(asked.before) if asked.before else None
    done = _printed(outcomes, of)
    now = runs.run_of(done) if asked.keep or before is not None else {}
    if before is not None:
        print("\n".join(_told(runs.changes(before, now), asked.before)))
    _write(
        {
            asked.keep: lambda: runs.text_of(now).encode(),
            asked.junit: lambda: runs.junit(printable(asked.folder.resolve().name), done),
        }
    )
    if any(it.has_failed for it in done):
        return FAILED
    return OK if all(it.is_ok for it in done) else WRONG


def _printed(outcomes: Iterable[Outcome], of: int) -> list[Outcome]:
    """Returns the outcomes, each printed as it comes."""
    print(f"TAP version 13\n1..{of}", flush=True)
    done: list[Outcome] = []
    wrong = 0
    for outcome in outcomes:
        done.append(outcome)
        wrong += not outcome.is_ok
        print(tap(len(done), outcome), flush=True)
        progress(f"{len(done)} of {of} checked, {wrong} not as expected", is_last=len(done) == of)
    for outcome in sorted(done, key=lambda it: -it.seconds)[:SLOWEST]:
        print(f"# {outcome.seconds:.2f} s {outcome.case.name}")
    return done


def _told(changes: Sequence[Change], before: str) -> Iterator[str]:
    """Yields the lines that say what changed since an earlier run."""
    yield from (f"# {it.kind} {it.name}: {it.detail}" for it in changes)
    if not changes:
        yield f"# nothing changed since {printable(before)}, and nothing got slower"


def _write(contents: Mapping[Output | None, Callable[[], bytes]]) -> None:
    """Writes all files of the options; one that cannot be written does not stop the others."""
    failures: list[Refused] = []
    for path, content in contents.items():
        try:
            if path:
                write_file(path, content())
        except Refused as failure:
            failures.append(failure)
    for other in failures[:-1]:
        complain(str(other))
    if failures:
        raise failures[-1]
