"""Compares what the built program prints with what it has to print, call by call."""

import time
from collections.abc import Iterator
from concurrent.futures import ThreadPoolExecutor
from pathlib import Path

from galluspa.process.cli import Refused
from tests.programs import arguments, checks, combinations, faults, screens, sessions
from tests.programs.answers import Call

MOST_SHOWN = 5
# Programs that lose the exit status, and that print a line feed more.
MISTAKES = ("exit 0", "status=$?; echo; exit $status")


def calls() -> Iterator[Call]:
    """Yields all calls."""
    for module in (arguments, checks, combinations, faults, screens, sessions):
        yield from module.calls()


def expect_to_notice(program: Path, folder: Path) -> None:
    """Sees that a wrong exit status and a wrong output are noticed."""
    mistaken = folder / "mistaken-printer"
    for mistake in MISTAKES:
        mistaken.write_text(f'#!/bin/sh\n{program} "$@"\n{mistake}\n')
        mistaken.chmod(0o755)
        for call in arguments.calls():
            is_wrong = call.wanted.status != 0 or mistake != MISTAKES[0]
            if bool(call.problem(mistaken)) != is_wrong:
                raise Refused(f"a program that ends by {mistake!r} is not noticed by {call.arguments}")


def try_calls(program: Path, jobs: int, folder: Path) -> int:
    """Makes all calls, prints what is wrong, and returns how many failed."""
    start = time.monotonic()
    expect_to_notice(program, folder)
    with ThreadPoolExecutor(jobs) as pool:
        found = list(pool.map(lambda call: call.problem(program), calls()))
    problems = [it for it in found if it]
    print("\n".join(problems[:MOST_SHOWN]), end="\n" if problems else "")
    print(f"answers: {len(found):,} calls in {time.monotonic() - start:.0f} s, {len(problems) or 'none'} failed")
    return len(problems)
