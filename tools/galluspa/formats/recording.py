"""Decodes and encodes recordings in versions 1 to 3, as docs/formats.md specifies them.

Only the program says whether bytes are a valid recording: ask it first (`Program.decoded` does). Bytes that the program would
refuse are refused here too, or decoded in some way, but never with a traceback. The encoded bytes are valid if the
numbers are.
"""

import struct
import sys
from array import array
from collections.abc import Mapping, Sequence
from dataclasses import dataclass, field, replace
from itertools import accumulate
from typing import Any

from galluspa.process.cli import Refused

PLACES = 1024
PAGE_BYTES = 1024
WORDS_IN_PAGE = 256
WORDS, MEMORY_BYTES = PLACES * WORDS_IN_PAGE, PLACES * PAGE_BYTES
# All bits of a word, and those that a mouse word may have.
WORD, MOUSE = 0xFFFFFFFF, 0x073FF3FF
NO_PAGE = bytes(PAGE_BYTES)
NO_TABLE = array("I", [0] * PLACES)
# How many pages a recording has at most, and how many bytes its machine sends: sessions.py has the limits that sessions share.
MOST_PAGES, MOST_SENT = 65_536, 1 << 20
DISPLAY_START = 0xE7F00
DISPLAY_END = 0xFFF00
# Where the first page begins that has a part of the display.
DISPLAY_PAGES = DISPLAY_START // PAGE_BYTES * PAGE_BYTES

KINDS = {1: "timer", 2: "switches", 3: "mouse", 4: "key", 5: "serial", 6: "disk"}
STOPS = ("running", "float", "divisor", "fetch", "address")
FLAGS = "NZCV"

_HEADER = struct.Struct("<4s5I")
_EVENT = struct.Struct("<QII")

# The fields of a checkpoint in the order in which they are encoded: those of all versions, among them a word for
# each of STATE_WORDS, and those of versions 2 and 3 alone. The table follows the first of these in version 1, and its
# changes follow both later; in version 3 the disk's answer follows the changes.
STATE_WORDS = ("h", "pc", "flags", "stop", "timer", "switches", "leds", "mouse", "serial")
_FIXED_FIELDS = {
    "count": "Q",
    "registers": "16I",
    **dict.fromkeys(STATE_WORDS, "I"),
    "key_count": "I",
    "keys": "16s",
    "output_length": "I",
}
_TIMER_FIELDS = {"rate": "I", "phase": "I", "change_count": "I"}
_FIXED, _TIMER = (struct.Struct("<" + "".join(fields.values())) for fields in (_FIXED_FIELDS, _TIMER_FIELDS))

HEADER_BYTES, EVENT_BYTES, CHANGE_BYTES, TABLE_BYTES = _HEADER.size, _EVENT.size, 8, 4 * PLACES
# What device word 4 reads before the disk's first answer, and the field of its last one.
UNANSWERED, _DISK = 255, struct.Struct("<I")
FIXED_BYTES = _FIXED.size
CHANGES_AT = FIXED_BYTES + _TIMER.size
_FORMATS = {**_FIXED_FIELDS, **_TIMER_FIELDS}
OFFSETS = dict(zip(_FORMATS, accumulate((struct.calcsize(f"<{it}") for it in _FORMATS.values()), initial=0)))


@dataclass(frozen=True)
class Event:
    """An input: the count of the instruction before which it is taken, its kind (1 to 6) and its value."""

    count: int
    kind: int
    value: int


@dataclass(frozen=True)
class Checkpoint:
    """What is claimed of the machine at a count, with the bytes sent since the checkpoint before.

    A recording of version 1 has rate and phase 0, and only one of version 3 answers of a disk. `start` is the offset of its
    first byte in the text that it was read from.
    """

    count: int
    registers: tuple[int, ...] = (0,) * 16
    h: int = 0
    pc: int = 0
    flags: int = 0
    stop: int = 0
    timer: int = 0
    rate: int = 0
    phase: int = 0
    switches: int = 0
    leds: int = 0
    mouse: int = 0
    serial: int = 0
    keys: bytes = b""
    disk: int = UNANSWERED
    output: bytes = b""
    table: array = field(default_factory=lambda: NO_TABLE)
    start: int = 0


@dataclass(frozen=True)
class Recording:
    """A recording: its version, its pool of pages, its inputs and its checkpoints, the initial state among them."""

    version: int
    pool: memoryview | bytes
    events: list[Event]
    checkpoints: list[Checkpoint]

    @property
    def pages(self) -> int:
        """Returns how many pages the pool has."""
        return len(self.pool) // PAGE_BYTES

    def page(self, number: int) -> bytes:
        """Returns the content of a page by its number; number 0 is the page of zeros."""
        return bytes(self.pool[(number - 1) * PAGE_BYTES : number * PAGE_BYTES]) if number else NO_PAGE

    def memory(self, checkpoint: Checkpoint, start: int, end: int) -> bytes:
        """Returns the claimed bytes of memory from one byte address up to another."""
        first = start // PAGE_BYTES
        numbers = checkpoint.table[first : -(-end // PAGE_BYTES)]
        content = b"".join(map(self.page, numbers))
        return content[start - first * PAGE_BYTES : end - first * PAGE_BYTES]

    def first_memory(self) -> bytes:
        """Returns the memory of the initial state."""
        return self.memory(self.checkpoints[0], 0, MEMORY_BYTES)

    def display(self, checkpoint: Checkpoint) -> bytes:
        """Returns the claimed bytes of memory from DISPLAY_PAGES on."""
        return self.memory(checkpoint, DISPLAY_PAGES, MEMORY_BYTES)

    def word(self, checkpoint: Checkpoint, number: int) -> int:
        """Returns a claimed word of memory, by its number below 262,144."""
        page = self.page(checkpoint.table[number // WORDS_IN_PAGE])
        return struct.unpack_from("<I", page, number % WORDS_IN_PAGE * 4)[0]


def read(text: bytes) -> Recording:
    """Returns the recording of a lawful text."""
    try:
        return _read(text)
    except (struct.error, IndexError, ValueError) as error:
        raise Refused("the bytes are not a valid recording") from error


def _read(text: bytes) -> Recording:
    magic, version, pages, events, checkpoints, _ = _HEADER.unpack_from(text)
    if magic != b"ORSR" or version not in (1, 2, 3):
        raise ValueError
    pool_end = _HEADER.size + pages * PAGE_BYTES
    events_end = pool_end + events * _EVENT.size
    return Recording(
        version=version,
        pool=memoryview(text)[_HEADER.size : pool_end],
        events=[Event(*fields) for fields in _EVENT.iter_unpack(text[pool_end:events_end])],
        checkpoints=_checkpoints(text, version, events_end, checkpoints),
    )


def _checkpoints(text: bytes, version: int, start: int, number: int) -> list[Checkpoint]:
    """Returns the checkpoints from an offset on, with what they say was sent, which comes after the last of them."""
    claims, lengths, table = list[Checkpoint](), list[int](), NO_TABLE
    for _ in range(number):
        count, *numbers, key_count, keys, length = _FIXED.unpack_from(text, start)
        rate, phase, disk, end = 0, 0, UNANSWERED, start + FIXED_BYTES + TABLE_BYTES
        if version == 1:
            table = _words(text[start + FIXED_BYTES : end])
        else:
            rate, phase, changes = _TIMER.unpack_from(text, start + FIXED_BYTES)
            end = start + CHANGES_AT + CHANGE_BYTES * changes
            table = _changed(table, _words(text[start + CHANGES_AT : end]))
        if version == 3:
            (disk,), end = _DISK.unpack_from(text, end), end + _DISK.size
        if end > len(text):
            raise ValueError
        words: dict[str, Any] = {**dict(zip(STATE_WORDS, numbers[16:])), "rate": rate, "phase": phase, "disk": disk}
        claims.append(Checkpoint(count, tuple(numbers[:16]), keys=keys[:key_count], table=table, start=start, **words))
        lengths.append(length)
        start = end
    ends = [*accumulate(lengths, initial=start)]
    return [replace(claim, output=text[sent:end]) for claim, sent, end in zip(claims, ends, ends[1:])]


def _words(text: bytes) -> array:
    words = array("I", text)
    if sys.byteorder == "big":
        words.byteswap()
    return words


def _changed(table: array, changes: array) -> array:
    """Returns a table with changes applied: pairs of a page slot and its new page id."""
    if not changes:
        return table
    after = table[:]
    for slot, page in zip(changes[::2], changes[1::2]):
        after[slot] = page
    return after


def write(recording: Recording) -> bytes:
    """Encodes a recording in its version; version 1 has no fields for rate and phase, and only version 3 one for the disk."""
    header = _HEADER.pack(b"ORSR", recording.version, recording.pages, len(recording.events), len(recording.checkpoints), 0)
    events = [_EVENT.pack(event.count, event.kind, event.value) for event in recording.events]
    claims, before = [], NO_TABLE
    for checkpoint in recording.checkpoints:
        claims += [_fixed_fields(checkpoint), _memory_fields(recording.version, checkpoint, before)]
        before = checkpoint.table
    output = [checkpoint.output for checkpoint in recording.checkpoints]
    return b"".join([header, recording.pool, *events, *claims, *output])


def version_of(events: Sequence[Event], checkpoints: Sequence[Checkpoint]) -> int:
    """Returns the version of the recording of these: 3 if a disk answers, else 2."""
    return 3 if any(it.disk != UNANSWERED for it in checkpoints) or any(KINDS[it.kind] == "disk" for it in events) else 2


def page_of(*words: int) -> bytes:
    """Returns the content of a page that begins with these words, and is 0 after them."""
    return _bytes(words).ljust(PAGE_BYTES, b"\0")


def table_of(pages: Mapping[int, int]) -> array:
    """Returns the table that has these page ids in these slots, and 0 in all others."""
    return array("I", [pages.get(slot, 0) for slot in range(PLACES)])


def of_display(checkpoint: Checkpoint, memory: bytes) -> bytes:
    """Returns the text of a recording of one state, that of a checkpoint, whose memory is 0 but for the end of a memory, from
    DISPLAY_PAGES on."""
    pages = memory[DISPLAY_PAGES - MEMORY_BYTES :]
    number = len(pages) // PAGE_BYTES
    table = table_of({PLACES - number + at: at + 1 for at in range(number)})
    alone = replace(checkpoint, count=0, output=b"", table=table)
    return write(Recording(2, pages, [], [alone]))


def _fixed_fields(checkpoint: Checkpoint) -> bytes:
    """Returns the fields of both versions."""
    it = checkpoint
    words = (getattr(it, name) for name in STATE_WORDS)
    return _FIXED.pack(it.count, *it.registers, *words, len(it.keys), it.keys, len(it.output))


def _memory_fields(version: int, checkpoint: Checkpoint, before: array) -> bytes:
    """Returns the whole table; or rate, phase, the changes of the table before, and in version 3 the disk's answer."""
    after = checkpoint.table
    if version == 1:
        return _bytes(after)
    slots = [] if after == before else [at for at in range(PLACES) if after[at] != before[at]]
    changes = [number for at in slots for number in (at, after[at])]
    answer = _DISK.pack(checkpoint.disk) if version == 3 else b""
    return _TIMER.pack(checkpoint.rate, checkpoint.phase, len(slots)) + _bytes(changes) + answer


def _bytes(words: Sequence[int]) -> bytes:
    return struct.pack(f"<{len(words)}I", *words)
