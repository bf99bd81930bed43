"""The instructions of a run, or those at some of its counts, from what the library records of each."""

import struct
from array import array
from collections.abc import Iterable, Iterator, Sequence
from dataclasses import replace
from typing import NamedTuple

from galluspa.engine.library import Library
from galluspa.engine.machine import Inputs, Machine
from galluspa.engine.structures import RawState
from galluspa.formats.recording import MEMORY_BYTES, Event
from galluspa.formats.states import Processor

# A machine runs to a count that is further away than this; what is between is not recorded.
APART = 1 << 13
# The fewest and the most counts that are recorded at once: twice as many each time.
FIRST_BATCH, MOST_RECORDED = 1 << 10, 1 << 15
# The places of the program counter and of the stop in a processor: R0 to R15, H, the program counter, the flags and the stop.
PC, STOP = 17, 19
# A state as include/galluspa.h lays it out: the count, the processor, the devices, how many keys there are, these, and the disk.
STATE = "Q20I8I16sI4x"
# What comes after it in a record: the inputs; the word, the address, the old value, the new one and the byte that is sent;
# whether there is a word, how many bytes are accessed, whether they are stored, and whether a byte is sent.
EFFECT = "2Q5I4B"
# A record, and the state of the next one.
ROW = struct.Struct(f"<{STATE}{EFFECT}{STATE}")
BEFORE, INPUTS, AFTER = 0, 31, 42
RECORD_BYTES = struct.calcsize(f"<{STATE}{EFFECT}")
STORES_AT = RECORD_BYTES - 2
BYTE = 0xFF

# A word of memory that changes: the address of its first byte, and its values before and after.
Change = tuple[int, int, int]


class Devices(NamedTuple):
    """The devices at a count: the fields are those of a checkpoint."""

    timer: int
    rate: int
    phase: int
    switches: int
    leds: int
    mouse: int
    serial: int
    keys: bytes
    disk: int


class RawStep(NamedTuple):
    """An instruction that was done, in numbers: at which count, and its word, which is None if the program counter is outside
    memory; the processor before and after it, the devices before its inputs and after it, which are the same object if nothing
    of them changed; its inputs, the word of memory that it changes, and the byte that it sends."""

    at: int
    word: int | None
    before: Processor
    after: Processor
    devices: Devices
    later: Devices
    inputs: Sequence[Event]
    change: Change | None
    sent: int | None


def raw_steps(library: Library, machine: Machine, inputs: Inputs, to: int) -> Iterator[RawStep]:
    """Yields the instructions from a machine's count up to another; one that stops is the last. The machine runs by batches, and
    in the end to the last instruction that was taken."""
    number = FIRST_BATCH
    while machine.count < to and not machine.state.stop:
        if library.limit:
            library.limit.left()
        later, last = machine.copy(), machine.count
        recorded = _Recorded(library, later, inputs, min(number, to - machine.count))
        try:
            for step in recorded.steps(range(machine.count, recorded.end)):
                last = step.at + 1
                yield step
        finally:
            if last == later.count:
                machine.state, machine.words = later.state, later.words
            else:
                replace(library, limit=None).advance(machine, inputs, last)
        number = min(2 * number, MOST_RECORDED)


def steps_at(library: Library, machine: Machine, inputs: Inputs, counts: Sequence[int]) -> Iterator[RawStep]:
    """Yields the instructions at these counts, which rise, and of which none is before a machine's. It runs on to the count
    after the last of them, or some of them further than those that are taken."""
    place = 0
    while place < len(counts):
        if counts[place] - machine.count > APART:
            library.advance(machine, inputs, counts[place])
        end = place + 1
        while end < len(counts) and counts[end] - counts[end - 1] <= APART and counts[end] - machine.count < MOST_RECORDED:
            end += 1
        yield from _Recorded(library, machine, inputs, counts[end - 1] + 1 - machine.count).steps(counts[place:end])
        place = end


class _Recorded:
    """The records of some counts from a machine's on, which runs on by them. `end` is the count after the last of these
    instructions, or after the one that stopped the machine."""

    def __init__(self, library: Library, machine: Machine, inputs: Inputs, number: int) -> None:
        self._first = machine.count
        self._inputs = inputs.of(machine.count, machine.count + number)
        # The words of memory before the stores of the records from this one on.
        self._words, self._stored = array("I", machine.memory()), 0
        records = library.records(machine, inputs, number)
        self._rows = bytes(memoryview(records).cast("B")) + bytes(RawState.from_buffer_copy(machine.state))
        self._are_stores = self._rows[STORES_AT : RECORD_BYTES * number : RECORD_BYTES]
        self.end = machine.count
        if records[-1].state.stop:
            self.end = self._first + next(at for at in range(number) if records[at].state.stop)

    def steps(self, counts: Iterable[int]) -> Iterator[RawStep]:
        """Yields the instructions of these counts, which rise."""
        rows, first_count, unpack = self._rows, self._first, ROW.unpack_from
        for count in counts:
            place = count - first_count
            row = unpack(rows, RECORD_BYTES * place)
            first, taken, word, address, old, new, sent, has_word, length, stores, sends = row[INPUTS:AFTER]
            devices = _devices(row[BEFORE + 21 : INPUTS])
            is_same = row[BEFORE + 21 : INPUTS] == row[AFTER + 21 : AFTER + INPUTS]
            yield RawStep(
                count,
                word if has_word else None,
                row[BEFORE + 1 : BEFORE + 21],
                row[AFTER + 1 : AFTER + 21],
                devices,
                devices if is_same else _devices(row[AFTER + 21 : AFTER + INPUTS]),
                self._inputs[first : first + taken] if taken else (),
                self._change(place, address, old, new, length) if stores and address < MEMORY_BYTES else None,
                sent if sends else None,
            )

    def _change(self, place: int, address: int, old: int, new: int, length: int) -> Change | None:
        """Returns the word of memory that a store changes."""
        if old == new:
            return None
        if length == 4:
            return address, old, new
        word, shift = self._word_before(place, address >> 2), 8 * (address & 3)
        return address & ~3, word, word & ~(BYTE << shift) | new << shift

    def _word_before(self, place: int, number: int) -> int:
        """Returns a word of memory before the instruction of a record; callers go from record to record in their order."""
        while (at := self._are_stores.find(1, self._stored, place)) >= 0:
            _, _, _, address, _, new, _, _, length, _, _ = ROW.unpack_from(self._rows, RECORD_BYTES * at)[INPUTS:AFTER]
            self._stored = at + 1
            if address < MEMORY_BYTES:
                shift = 8 * (address & 3)
                word = self._words[address >> 2]
                self._words[address >> 2] = new if length == 4 else word & ~(BYTE << shift) | new << shift
        return self._words[number]


def _devices(numbers: Sequence) -> Devices:
    """Returns the devices of a state: parts, how many key codes there are, these, and the disk's answer."""
    *parts, number, keys, disk = numbers
    return Devices._make((*parts, keys[:number], disk))
