"""Tests the built program: what it prints for given arguments and files, and how it runs random programs, small ones whose outcome is
known, and random ones that mostly wait.

First its output and its exit status are compared with what the documents say, for recordings, sessions, lines of shards and arguments.

Each program is recorded with a checkpoint at every count, with a few, and with one at the end. Those that wait run for
100,000 counts and more; they are recorded with checkpoints so close together that no idle loop is skipped, with a few, and
with one at the end. States, memory and sent bytes have to be equal at the counts that these recordings share. `check` has to accept
each with 1 and with 4 workers, and so do the C replayers of bench/, which are independent emulators. The library for C has to count
the instructions of each, in one run and in two, to trace its processor, and to record what each instruction does, as a machine in C
does that does one instruction after another; and the visits of all words have to be as many as the instructions that were done. If
something is wrong, the script exits with status 1 and names the program and the smallest count at which that shows. First it verifies
that it can fail: with a C replayer that is wrong in one operation, with counters in C that are wrong, and with one register changed in
a recording.

Recordings of other random programs, and the examples, are checked in shards: true ones, false ones, and some that are refused, of both
versions and in random divisions. What `combine` prints of their lines, in any order and some twice, has to be the line of `check`;
where lines are missing, that line or which segments are missing; and where one is cut, of another file or a lie, why there is no line.
The script verifies first that a wrong combination is noticed.
"""

import collections
import subprocess
import sys
import tempfile
import time
from collections.abc import Callable, Iterable, Iterator, Sequence
from concurrent.futures import ThreadPoolExecutor
from dataclasses import dataclass, replace
from pathlib import Path
from typing import NoReturn

from galluspa.engine.library import Library
from galluspa.engine.program import Program
from galluspa.formats.recording import read
from galluspa.process.cli import Parser, Refused, name_as, run, whole_number
from tests.programs import conditions, printed, randomly, shards, waiting
from tests.programs.rows import ANN_ROW, ROWS, Row
from tests.programs.trial import DENSE, FEW, Case, Finding, Witnesses, altered, findings, smallest_apart
from tests.support import TOP

PROGRAMS = 250
WAITING = 40
SHARDS = 1000
MOST_FAILURES = 5
ANN = "x = b & ~c;"
WRONG_ANN = "x = b & c;"
COUNTER = TOP / "tests/programs/counts.c"
# Mistakes of the counter in C, and the counts and the parts at which they have to show in a program with ANN.
COUNTED_WRONG: tuple[tuple[str, str, str, list[tuple[int, str]]], ...] = (
    ("machine.h", ANN, WRONG_ANN, [(2, "record")]),
    ("counts.c", "d->has_word = 1", "d->has_word = 0", [(0, "record")]),
    ("counts.c", "m->pc != pc + 1", "m->pc == pc + 1", [(0, "departures of word 0, 0 in place of 1")] * 2),
    ("counts.c", "visits[pc]++", "visits[m->pc]++", [(0, "visits of word 0, 1 in place of 0")] * 2),
)


@dataclass(frozen=True)
class Outcome:
    """What was found wrong with a program, the smallest count first; and how many instructions it did, and how it stood."""

    case: Case
    found: list[Finding]
    done: int
    stop: int


def built(folder: Path) -> dict[str, Path]:
    """Returns the C replayers of bench/, by their names."""
    return {name: compiled(TOP / f"bench/{name}.c", folder / name) for name in ("replay", "decoded")}


def compiled(source: Path, path: Path) -> Path:
    """Returns a program of one C source."""
    subprocess.run(["cc", "-O2", f"-I{source.parent}", f"-I{TOP}/reference", "-o", path, source], check=True)
    return path


def mistaken(source: Path, file: str, old: str, new: str, path: Path) -> Path:
    """Returns a program of one C source over the machine of reference/, with a mistake in one of these files."""
    copies = path.with_suffix(".sources")
    copies.mkdir()
    for each in (*(TOP / "reference" / name for name in ("machine.h", "recording.h", "replay.h")), source):
        text = each.read_text()
        if each.name == file and text.count(old) != 1:
            raise Refused(f"{each} has not one {old!r} to make wrong")
        (copies / each.name).write_text(text.replace(old, new) if each.name == file else text)
    return compiled(copies / source.name, path)


def tried(witnesses: Witnesses, case: Case, folder: Path) -> Outcome:
    """Returns what comes of a random program."""
    texts = witnesses.recordings(case)
    checkpoints = read(texts[DENSE]).checkpoints
    done = next((checkpoint.count - 1 for checkpoint in checkpoints if checkpoint.stop), case.counts)
    return Outcome(case, findings(witnesses, case, texts, folder), done, checkpoints[-1].stop)


def tried_row(witnesses: Witnesses, row: Row, folder: Path) -> Outcome:
    """Returns what comes of a program whose outcome is known."""
    texts = witnesses.recordings(row.case)
    found = findings(witnesses, row.case, texts, folder)
    for name, text in texts.items():
        found += row.unexpected(read(text).checkpoints[-1], f"the recording with {name}")
    return Outcome(row.case, found, row.counts, 0)


def expect_to_notice(witnesses: Witnesses, folder: Path) -> None:
    """Sees that a wrong C machine is named with its count and part, and so is a recording with one wrong register."""
    case = ANN_ROW.case
    texts = witnesses.recordings(case)
    wrong_replayer = mistaken(TOP / "bench/replay.c", "machine.h", ANN, WRONG_ANN, folder / "wrong-replay")
    wrong = replace(witnesses, replayers={"a replayer with a wrong ANN": wrong_replayer})
    found = findings(wrong, case, texts, folder)
    if [(it.count, it.part) for it in found] != [(2, "R2"), (4, "R2"), (4, "R2")]:
        raise Refused(f"a C machine with a wrong ANN is not noticed as it should be: {[str(it) for it in found]}")
    for number, (file, old, new, shown) in enumerate(COUNTED_WRONG):
        counter = mistaken(COUNTER, file, old, new, folder / f"wrong-counter-{number}")
        found = findings(replace(witnesses, counter=counter), case, texts, folder)
        if [(it.count, it.part) for it in found] != shown:
            raise Refused(f"counts with {new!r} are not noticed as they should be: {[str(it) for it in found]}")
    expect_alteration(witnesses, case, {**texts, DENSE: altered(texts[DENSE], 4, 3)}, folder)
    expect_alteration(witnesses, case, {**texts, FEW: altered(texts[FEW], 2, 3)}, folder)


def expect_alteration(witnesses: Witnesses, case: Case, texts: dict[str, bytes], folder: Path) -> None:
    """Sees that R3, changed at the last count, is named by the comparison, by each check and by each replayer."""
    found = findings(witnesses, case, texts, folder)
    shown_by = " ".join(it.shown_by for it in found)
    wanted = ("differs from", "--workers 1", "--workers 4", *(f"{name} on the" for name in witnesses.replayers))
    if not all(it in shown_by for it in wanted) or {(it.count, it.part) for it in found} != {(case.counts, "R3")}:
        raise Refused(f"a changed register is not noticed as it should be: {[str(it) for it in found]}")


def each(jobs: int, function: Callable[..., Outcome], items: Iterable[object]) -> Iterator[Outcome]:
    """Yields the outcomes of a function on items, several of them at once."""
    with ThreadPoolExecutor(jobs) as pool:
        yield from pool.map(function, items)


def report_failure(witnesses: Witnesses, outcome: Outcome, kept: Path) -> None:
    """Prints what is wrong with a program, and how to see it again."""
    first = outcome.found[0]
    case = outcome.case
    if "differs from" in first.shown_by:
        first = smallest_apart(witnesses, case, first)
    kept.mkdir(parents=True, exist_ok=True)
    files = {"dense": case.dense, "few": case.few, "one": [first.count or case.counts]}
    for name, checkpoints in files.items():
        session = replace(case.session, checkpoints=list(checkpoints))
        (kept / f"{case.file_name}.{name}.json").write_text(session.text())
    print(f"{case.name}: {first}")
    for more in outcome.found[1:4]:
        print(f"    also at {more}")
    print(f"  to see it again, with sessions that are kept in {kept}:")
    print(f"    tests/run programs {again(case)}")
    path = kept / case.file_name
    print(f"    {witnesses.program} record < {path}.one.json > one.orsr    # its state at count {first.count}, in one run")
    print(f"    {witnesses.program} record < {path}.dense.json > dense.orsr    # the same, in small steps")
    print(f"    {witnesses.program} check < dense.orsr; ./galluspa report dense.orsr > dense.html")
    print(f"    ./galluspa listing {path}.one.json --from {max(case.session.pc - 4, 0)} --words 64")


def try_shards(program: Path, first: int, many: int, jobs: int, folder: Path) -> int:
    """Tries the held recordings in shards, and random ones of a number of seeds; prints what is wrong, and returns how many failed."""
    start = time.monotonic()
    shards.expect_to_notice(program, folder)
    with ThreadPoolExecutor(jobs) as pool:
        held = pool.map(lambda text: shards.tried_held(program, text), list(shards.held()))
        seeds = pool.map(lambda seed: shards.tried_seed(program, seed), range(first, first + many))
        tried = [*held, *seeds]
    problems = [*(it.problems[0] for it in tried if it.problems), *shards.made_problems(program)]
    for problem in problems[:MOST_FAILURES]:
        print(problem)
        print("  to see it again, if it has a seed: tests/run programs --programs 0 --waiting 0 --shards 1 --seed SEED")
    counted = collections.Counter(it.begins for it in tried)
    print(
        f"shards: {len(tried)} recordings, {', '.join(f'{many} {name}' for name, many in counted.most_common(6))}, "
        f"in {time.monotonic() - start:.0f} s, {len(problems) or 'none'} failed"
    )
    return len(problems)


def again(case: Case) -> str:
    """Returns the options with which this script tries a program again."""
    match case.name.split():
        case ["seed", number]:
            return f"--programs 1 --waiting 0 --shards 0 --seed {number}"
        case ["waiting", "seed", number]:
            return f"--programs 0 --waiting 1 --shards 0 --seed {number}"
        case _:
            return "--programs 0 --waiting 0 --shards 0"


def main(arguments: Sequence[str]) -> int:
    """Tries the small programs and the random ones; 1 if something is wrong."""
    parser = Parser(__doc__.strip(), "tests/run programs --programs 1 --seed 17")
    parser.prog = "tests/run programs"
    parser.add_program_option()
    parser.add_library_option()
    parser.add_argument(
        "--programs",
        type=whole_number(0, 1_000_000),
        default=PROGRAMS,
        metavar="N",
        help=f"how many random programs; {PROGRAMS} if left out",
    )
    parser.add_argument(
        "--waiting",
        type=whole_number(0, 1_000_000),
        default=WAITING,
        metavar="N",
        help=f"how many random programs that wait; {WAITING} if left out",
    )
    parser.add_argument(
        "--shards",
        type=whole_number(0, 1_000_000),
        default=SHARDS,
        metavar="N",
        help=f"how many random recordings are checked in shards; {SHARDS} if left out; with 0 no recording is",
    )
    parser.add_argument(
        "--seed",
        type=whole_number(0, 1 << 32),
        default=1,
        metavar="S",
        help="the seed of the first; the others have those after it",
    )
    parser.add_argument(
        "--jobs", type=whole_number(1, 64), default=2, metavar="N", help="how many are tried at once; 2 if left out"
    )
    parser.add_argument("--keep", metavar="FOLDER", help="where sessions of failed programs go; a new folder if left out")
    given = parser.parse_args(arguments)
    start = time.monotonic()
    with tempfile.TemporaryDirectory() as temporary:
        folder = Path(temporary)
        witnesses = Witnesses(
            Program.find(given.program).path, Library.find(given.library), built(folder), compiled(COUNTER, folder / "counts")
        )
        failed = printed.try_calls(witnesses.program, given.jobs, folder)
        expect_to_notice(witnesses, folder)
        cases = [
            *map(randomly.case, range(given.seed, given.seed + given.programs)),
            *map(waiting.case, range(given.seed, given.seed + given.waiting)),
        ]
        small = [*ROWS, *conditions.rows()]
        rows = each(given.jobs, lambda row: tried_row(witnesses, row, folder), small)
        programs = each(given.jobs, lambda case: tried(witnesses, case, folder), cases)
        wrong, instructions, stopped, kept = 0, 0, 0, None
        for outcome in (*rows, *programs):
            instructions += outcome.done
            stopped += outcome.stop > 0
            if outcome.found:
                wrong += 1
                if wrong <= MOST_FAILURES:
                    kept = kept or Path(given.keep or tempfile.mkdtemp(prefix="random-programs-"))
                    report_failure(witnesses, outcome, kept)
        if given.shards:
            failed += try_shards(witnesses.program, given.seed, given.shards, given.jobs, folder)
    print(
        f"random programs: {len(small)} small ones and {given.programs} random ones, {given.waiting} that wait, {stopped} of these stopped, "
        f"{instructions:,} instructions in {time.monotonic() - start:.0f} s, {wrong or 'none'} failed"
    )
    return 1 if failed or wrong else 0


def begin(arguments: Sequence[str]) -> NoReturn:
    """Runs this part of the tests."""
    name_as("tests/run programs")
    sys.argv[1:] = arguments
    run(main)
