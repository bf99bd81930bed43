"""Counts the instructions of a program, and records what each does, by the library, in one run and in two that follow one
another; and compares them with a machine in C that does one instruction after another and counts each by itself."""

import subprocess
from array import array
from collections.abc import Iterator
from dataclasses import dataclass
from pathlib import Path

from galluspa.engine.library import Library
from galluspa.engine.machine import Inputs, Machine, Profile
from galluspa.formats.recording import STOPS, WORDS, Recording
from galluspa.process.cli import Refused

NUMBERS = 8 * WORDS
# Of a run that is longer, this many records are compared from each of the two counts on at which a run begins.
RECORDED = 1000
FETCH = STOPS.index("fetch")


@dataclass(frozen=True)
class Counted:
    """What was counted of a run: how often each word was visited and left, and the records of some of its counts."""

    profile: Profile
    records: bytes


def counted_in_c(counter: Path, path: Path, ranges: list[range]) -> Counted:
    """Returns what the machine in C counts."""
    words = [str(end) for it in ranges for end in (it.start, it.stop)]
    ran = subprocess.run([counter, path, *words], stdout=subprocess.PIPE, check=False)
    if ran.returncode:
        raise Refused(f"{counter} on {path} ended with status {ran.returncode}")
    visits, departures = (array("Q", ran.stdout[at : at + NUMBERS]) for at in (0, NUMBERS))
    return Counted(Profile(visits, departures), ran.stdout[2 * NUMBERS :])


def added(one: Profile, other: Profile) -> Profile:
    """Returns the profile of a run and of the one that follows it."""
    both = Profile(one.visits[:], one.departures[:])
    for at in other.visited():
        both.visits[at] += other.visits[at]
        both.departures[at] += other.departures[at]
    return both


def counted_by_library(library: Library, machine: Machine, inputs: Inputs, ranges: list[range], to: int) -> Counted:
    """Returns what the library counts and records, in a run up to the begin of the last range, and one from there on. A machine
    that is recorded has to come to where it is advanced."""
    first, last = ranges
    one = library.profile(machine, inputs, last.start)
    records = recorded(library, machine.copy(), inputs, len(first))
    library.advance(machine, inputs, last.start)
    other = library.profile(machine, inputs, to)
    records += recorded(library, machine.copy(), inputs, len(last))
    return Counted(added(one, other), records)


def recorded(library: Library, machine: Machine, inputs: Inputs, number: int) -> bytes:
    """Returns the records of a machine's next counts, in two calls, with the indices of inputs among all of the run."""
    advanced, whole = machine.copy(), b""
    for many in (number // 3, number - number // 3):
        before, pieces = len(inputs.of(0, machine.count)), library.records(machine, inputs, many)
        for it in pieces:
            it.inputs_from += before
        whole += bytes(pieces)
    library.advance(advanced, inputs, machine.count)
    if (bytes(machine.state), machine.memory()) != (bytes(advanced.state), advanced.memory()):
        raise Refused(f"a machine that is recorded comes to another state at {machine.count} than one that is advanced")
    return whole


def differences(
    library: Library, counter: Path, text: bytes, path: Path, split: int, states: Recording
) -> Iterator[tuple[int, str, str]]:
    """Yields the counts, the parts and what shows it, wherever the library counts a run otherwise than the machine in C. The
    recording in a file has these bytes; it is also counted in two runs, which meet at a count. The states are those of its
    checkpoints."""
    start, to = library.claim(text, 0), states.checkpoints[-1].count
    inputs = Inputs(states.events)
    ranges = [range(0, min(split, RECORDED)), range(split, min(split + RECORDED, to))]
    in_c = counted_in_c(counter, path, ranges)
    whole = library.profile(start, inputs, to)
    in_parts = counted_by_library(library, start, inputs, ranges, to)
    for name, found in (("one run", whole), ("two runs", in_parts.profile)):
        yield from ((0, part, f"the profile of {name}") for part in _parts_apart(found, in_c.profile))
    if in_parts.records != in_c.records:
        yield (*_first_apart(in_parts.records, in_c.records, ranges), "the records of the library")
    yield from ((count, part, "the sum of the visits") for count, part in _sum_apart(whole, states))


def _parts_apart(found: Profile, wanted: Profile) -> Iterator[str]:
    """Yields the first word that is not visited, or not left, as often as is wanted."""
    for name, one, other in (("visits", found.visits, wanted.visits), ("departures", found.departures, wanted.departures)):
        if one != other:
            at = next(at for at in range(WORDS) if one[at] != other[at])
            yield f"{name} of word {at}, {one[at]} in place of {other[at]}"


def _first_apart(found: bytes, wanted: bytes, ranges: list[range]) -> tuple[int, str]:
    """Returns the first count at which the records of two differ."""
    counts = [count for it in ranges for count in it]
    size = len(wanted) // len(counts) if counts else 0
    pieces = ((count, found[size * at : size * at + size], wanted[size * at : size * at + size]) for at, count in enumerate(counts))
    return next(((count, "record") for count, one, other in pieces if one != other), (0, "number of records"))


def _sum_apart(whole: Profile, states: Recording) -> Iterator[tuple[int, str]]:
    """That the visits of all words are not as many as the instructions that were done before the machine stopped: of a stop, the one
    that stopped it among them, unless it was outside memory."""
    ran = max(it.count for it in states.checkpoints if not it.stop)
    stopped = next((it for it in states.checkpoints if it.stop), None)
    least, most = (ran + 1, stopped.count) if stopped else (ran, ran)
    done = sum(whole.visits) + (stopped is not None and stopped.stop == FETCH)
    if not least <= done <= most:
        yield ran, f"sum of visits, {done} in place of {least} to {most}"
