"""Cuts slices of a recording: segments in a row, each slice a recording of its own."""

from array import array
from bisect import bisect_left
from dataclasses import replace
from operator import attrgetter

from galluspa.formats.recording import Checkpoint, Event, Recording, version_of


def slice_of(read: Recording, first: int, last: int) -> Recording:
    """Returns the recording from one checkpoint to a later one: what the first claims is its initial state, counts and
    inputs begin at 0 again, and its pool has the pages that it names, in the order in which it names them."""
    begin, end = read.checkpoints[first].count, read.checkpoints[last].count
    from_here, up_to = (bisect_left(read.events, count, key=attrgetter("count")) for count in (begin, end))
    numbers = {0: 0}
    checkpoints = [
        replace(claim, count=claim.count - begin, output=claim.output if at else b"", table=_renumbered(claim, numbers))
        for at, claim in enumerate(read.checkpoints[first : last + 1])
    ]
    pool = b"".join(read.page(number) for number in numbers if number)
    inputs = [Event(event.count - begin, event.kind, event.value) for event in read.events[from_here:up_to]]
    return Recording(version_of(inputs, checkpoints), pool, inputs, checkpoints)


def _renumbered(claim: Checkpoint, numbers: dict[int, int]) -> array:
    return array("I", [numbers.setdefault(number, len(numbers)) for number in claim.table])
