"""Recordings by the names of what they show. What their machines do is worked out by hand, from docs/machine.md."""

from collections.abc import Mapping, Sequence
from dataclasses import replace
from typing import Any

from galluspa.formats.recording import Checkpoint, Event, Recording, page_of, table_of, write

JUMP = 0xE7FFFFFF
FIRST_PAGE: Mapping[int, int] = {0: 1}
NOTHING: Mapping[int, int] = {}
N, Z, C, V = 8, 4, 2, 1
TIMER, KEY, DISK = 1, 4, 6


def claim(
    count: int = 0, registers: Mapping[int, int] = NOTHING, table: Mapping[int, int] = FIRST_PAGE, **fields: Any
) -> Checkpoint:
    """Returns the claim of these registers, page ids and fields; all else is 0."""
    return Checkpoint(count, tuple(registers.get(number, 0) for number in range(16)), table=table_of(table), **fields)


def recording(pages: Sequence[Sequence[int]], *claims: Checkpoint, events: Sequence[Event] = ()) -> Recording:
    """Returns the recording of claims, with pages that begin with these words."""
    return Recording(2, b"".join(page_of(*words) for words in pages), list(events), list(claims))


def claiming(it: Recording, at: int, **fields: Any) -> Recording:
    """Returns a recording of which a checkpoint claims other fields."""
    return replace(it, checkpoints=[*it.checkpoints[:at], replace(it.checkpoints[at], **fields), *it.checkpoints[at + 1 :]])


def with_register(it: Recording, at: int, number: int, value: int) -> Recording:
    """Returns a recording of which a checkpoint claims another value of a register."""
    registers = it.checkpoints[at].registers
    return claiming(it, at, registers=(*registers[:number], value, *registers[number + 1 :]))


def first(it: Recording) -> bytes:
    """Returns the file of version 1."""
    return write(replace(it, version=1))


def second(it: Recording) -> bytes:
    """Returns the file of version 2."""
    return write(it)


def third(it: Recording) -> bytes:
    """Returns the file of version 3."""
    return write(replace(it, version=3))


def jumps(segments: int, **fields: Any) -> Recording:
    """Returns the recording of a jump to itself in segments of ten steps, whose claims have these fields."""
    return recording([[JUMP]], *(claim(10 * at, **fields) for at in range(segments + 1)))


EMPTY = recording([], claim(table=NOTHING))
# MOV R0, 5 and then zeros, which are MOV R0, R0.
STORED_RUN = recording([[0x40000005]], claim(), claim(100, {0: 5}, pc=100))
MOVE_FIVE = recording([[0x40000005, JUMP]], claim(), claim(1000, {0: 5}, pc=1))
# Adds R1 and the carry to 5.
ADDENDS = {0: 5, 1: 0xFFFFFFFF}
ADD_WITH_CARRY = recording([[0x20080001]], claim(0, ADDENDS, flags=C), claim(1, ADDENDS, pc=1, flags=C))
# Jumps from word 2 to word 16, and keeps the link in R15.
LINK_AND_JUMP = recording([[0, 0, 0xD700000F]], claim(0, {15: 0x40}, pc=2, flags=Z), claim(1, {15: 0x0C}, pc=16))
# Subtracts 1 from 0, and from the least number.
BORROW = recording([[0x40090001]], claim(), claim(1, {0: 0xFFFFFFFF}, pc=1, flags=N | C))
BORROW_FROM_THE_LEAST = recording([[0x40090001]], claim(0, {0: 0x80000000}), claim(1, {0: 0x7FFFFFFF}, pc=1, flags=V))
# Jumps to the first word after the memory, and stops there.
JUMP_OFF_THE_END = recording(
    [[0xC7000001]],
    claim(0, {1: 0x100000}),
    claim(1, {1: 0x100000}, pc=262_144),
    claim(2, {1: 0x100000}, pc=262_144, stop=3),
)
# A division by zero.
DIVISOR_STOP = recording([[0x400B0000]], claim(), claim(1, stop=2), claim(9, stop=2))
OFF_THE_END = recording([], claim(table=NOTHING), claim(262_145, table=NOTHING, pc=262_144, flags=Z, stop=3))
KEY_AT_A_CHECKPOINT = recording([[JUMP]], claim(), claim(10), claim(20, keys=b"A"), events=[Event(10, KEY, 0x41)])
# Moves 1 to R5 and jumps back: what is claimed of R5 at the first checkpoint has no effect on the second.
REJOINING = recording([[0x45000001, 0xE7FFFFFE]], claim(), claim(2, {5: 1}), claim(4, {5: 1}))
# Stores 41 hexadecimal into the device word that sends.
SENDING = {0: 0x41, 1: 0xFFFFFFC8}
ONE_BYTE_SENT = recording(
    [[0x5100FFC8, 0x40000041, 0xA0100000, JUMP]], claim(), claim(2, SENDING, pc=2), claim(4, SENDING, pc=3, output=b"A")
)
# Two pages of equal content: the second replaces the first.
EQUAL_PAGES = recording([[JUMP], [JUMP]], claim(), claim(10, table={0: 2}))
# Stores 5 into the first word of page slot 1, which begins as page slot 0 does.
PAGE_WRITTEN = recording(
    [[0x40000005, 0xA0100400, JUMP], [5, 0xA0100400, JUMP]],
    claim(table={0: 1, 1: 1}),
    claim(2, {0: 5}, pc=2, table={0: 1, 1: 2}),
)
# Adds 1 to R2, changes that instruction into an addition of 16 and goes back to it: before the new one runs, and after.
ADD_16 = 0x42280010
CODE_WRITTEN = recording(
    [[0x42280001, 0xA0100000, 0xE7FFFFFD], [ADD_16, 0xA0100000, 0xE7FFFFFD]],
    claim(0, {0: ADD_16}),
    claim(2, {0: ADD_16, 2: 1}, {0: 2}, pc=2),
    claim(4, {0: ADD_16, 2: 17}, {0: 2}, pc=1),
)
# Stores the byte 80 hexadecimal, which leaves all flags as they are.
BYTE_STORED = recording(
    [[0xB2000009, JUMP], [0xB2000009, JUMP, 0x8000]],
    claim(0, {2: 0x80}, flags=N | V),
    claim(1, {2: 0x80}, {0: 2}, pc=1, flags=N | V),
)
# The timer counts each ten instructions, and is set to 100 directly after checkpoint 1.
TIMER_COUNTS = recording(
    [[JUMP]],
    claim(rate=10),
    claim(25, timer=2, rate=10, phase=5),
    claim(30, timer=101, rate=10),
    events=[Event(25, TIMER, 100)],
)
# Reads the timer by the tenth instruction, at rate 10: it is still 0 then, and 1 directly after it.
READ_BEFORE_ITS_COUNT = recording(
    [[0x5C00FFC0, *[0] * 8, 0x81C00000]],
    claim(rate=10),
    claim(10, {12: 0xFFFFFFC0}, pc=10, flags=Z, timer=1, rate=10),
)
# Reads the disk's answer, which comes before the second instruction, and jumps to itself.
ANSWER, DISK_AT = 0x12345678, {1: 0xFFFFFFD0}
ANSWERED = recording(
    [[0x5100FFD0, 0x80100000, JUMP]],
    claim(),
    claim(1, DISK_AT, pc=1, flags=N),
    claim(2, {**DISK_AT, 0: ANSWER}, pc=2, disk=ANSWER),
    claim(9, {**DISK_AT, 0: ANSWER}, pc=2, disk=ANSWER),
    events=[Event(1, DISK, ANSWER)],
)
# Each segment is one step, which moves R0 to itself.
MOST_CHECKPOINTS = recording([], claim(table=NOTHING), *(claim(at, table=NOTHING, pc=at, flags=Z) for at in range(1, 4097)))
# A division by zero stops the machine at once.
STOPPED = recording([[0x400B0000]], claim(), claim(1 << 40, stop=2))
