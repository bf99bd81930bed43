"""The library for C: its header against the crate, its calls against the program, what it refuses, and programs over it."""

import re
from collections.abc import Callable, Sequence
from pathlib import Path

import pytest

from tests.library import (
    calls,
    checked,
    counts,
    drafts,
    examples,
    followed,
    header,
    origins,
    pasts,
    ranges,
    refusals,
    searches,
    writes,
)
from tests.library.binding import Library
from tests.library.trial import EXAMPLES, TOP, WARNINGS, expect, run

# What is tried with the library alone.
TRIALS: Sequence[Callable[[Library], None]] = (
    calls.compare_answers,
    calls.run_live,
    calls.read_all_claims,
    searches.find_steps,
    searches.refuse_searches,
    counts.count_instructions,
    counts.skip_idle_loops,
    counts.record_states,
    counts.record_instructions,
    calls.make_live,
    refusals.refuse_live,
    counts.refuse_counts,
    followed.follow_by_hand,
    followed.follow_idle_loops,
    followed.refuse_calls,
    refusals.refuse_making,
    pasts.keep_pasts,
    pasts.begin_pasts,
    pasts.refuse_pasts,
    pasts.run_live_pasts,
    pasts.refuse_live_pasts,
    pasts.search_pasts,
    pasts.refuse_past_searches,
    origins.follow_values,
    origins.spend_budgets,
    origins.change_other_parts,
    origins.refuse_questions,
    writes.ask_writes,
    writes.late_writes,
    writes.refuse_writes,
    drafts.record_pasts,
    drafts.record_live,
    drafts.refuse_recordings,
    ranges.ask_ranges,
    ranges.refuse_ranges,
    checked.check_pasts,
    checked.check_small_steps,
    checked.refuse_checks,
    calls.call_together,
    calls.read_together,
    calls.read_longest,
)


@pytest.mark.parametrize("trial", [pytest.param(trial, id=trial.__name__) for trial in TRIALS])
def test_call(library: Library, trial: Callable[[Library], None]) -> None:
    """The calls of the library, one family after another."""
    trial(library)


def test_header(tmp_path: Path) -> None:
    """The header declares what the crate exports."""
    header.compare_header(tmp_path)


@pytest.mark.parametrize(("file", "kind"), [("libgalluspa.so", "-D"), ("libgalluspa.a", "-g")])
def test_exports(installed: Path, file: str, kind: str) -> None:
    """The libraries export what the header declares, and nothing else."""
    exported = run("nm", kind, "--defined-only", str(installed / "lib" / file))[0].decode()
    expect(
        f"what {file} exports", sorted(re.findall(r" [A-Z] (\w+)$", exported, re.M)), sorted(name for name, *_ in header.exports())
    )


def test_checks(library: Library, check: str, tmp_path: Path) -> None:
    """The library and the checker in C have the program's lines."""
    calls.compare_checks(tmp_path, check, library)


def test_memory_that_is_refused(flags: Sequence[str], tmp_path: Path) -> None:
    """Each memory request of the calls is refused in turn."""
    refusals.refuse_memory(tmp_path, flags)


def test_memory_that_is_refused_to_a_past(flags: Sequence[str], tmp_path: Path) -> None:
    """Each memory request of the calls with a past is refused in turn."""
    pasts.refuse_memory(tmp_path, flags)


def test_find_in_c(flags: Sequence[str], tmp_path: Path) -> None:
    """The example that searches compiles without warnings."""
    expect(
        "find.c", run("cc", *WARNINGS, str(EXAMPLES / "c/find.c"), f"-I{TOP}/reference", *flags, "-o", f"{tmp_path}/find"), (b"", 0)
    )


def test_profile_in_c(flags: Sequence[str], tmp_path: Path) -> None:
    """The example that counts prints the counts of hello."""
    counts.run_profile(tmp_path, [f"-I{TOP}/reference", *flags])


def test_random_calls(flags: Sequence[str], tmp_path: Path) -> None:
    """The calls of random programs are those that a plain machine in C finds naively."""
    followed.follow_random(tmp_path, flags)


def test_lockstep(flags: Sequence[str], tmp_path: Path) -> None:
    """The machine in C and the proved one agree, and a mistake in the one in C is found."""
    examples.lockstep(tmp_path, flags)


def test_cards(flags: Sequence[str], tmp_path: Path, pytestconfig: pytest.Config) -> None:
    """The SD card answers what the one in C does."""
    examples.compare_cards(tmp_path, flags, pytestconfig.getoption("--cards"))


def test_document(installed: Path, tmp_path: Path) -> None:
    """The commands of docs/from-c.md print what it shows."""
    examples.walk(tmp_path, installed)
