"""Files that are refused, each with the line of its first fault."""

import struct
from collections.abc import Iterator, Mapping
from dataclasses import replace

from galluspa.formats.recording import Event
from tests.programs import named
from tests.programs.answers import Call, prints
from tests.programs.checks import CREWS
from tests.programs.named import ONE_BYTE_SENT, STORED_RUN, claiming, first, second, third

# The commands that read a recording.
READING = ("check", "migrate", "screen --at=0")
# A byte of the stored run's file, its new value, and the line of the changed file: in version 1, and in version 2.
CHANGED_FIRST: Mapping[tuple[int, int], str] = {
    (0, 0x00): "refused 2 magic at byte 0",
    (4, 0x09): "refused 3 version at byte 4",
    # read as version 2, in which the second checkpoint is directly after the first
    (4, 0x02): "refused 6 checkpoint at byte 1192",
    (20, 0x01): "refused 4 limit at byte 20",
    (16, 0x00): "refused 4 limit at byte 16",
    (1048, 0x01): "refused 6 checkpoint at byte 1048",
    (5388, 0x01): "refused 6 checkpoint at byte 5276",
    (5408, 0x02): "refused 7 page at byte 5408",
    (5404, 0x01): "refused 1 short at byte 9504",
}
CHANGED_SECOND: Mapping[tuple[int, int], str] = {
    (0, 0x00): "refused 2 magic at byte 0",
    (4, 0x03): "refused 3 version at byte 4",
    (20, 0x01): "refused 4 limit at byte 20",
    (1048, 0x01): "refused 6 checkpoint at byte 1048",
    (1184, 0x01): "refused 6 checkpoint at byte 1048",
    (1196, 0x00): "refused 7 page at byte 1192",
    (1196, 0x02): "refused 7 page at byte 1192",
    (1193, 0x04): "refused 7 page at byte 1192",
    (1336, 0x01): "refused 6 checkpoint at byte 1200",
    (1340, 0x01): "refused 1 short at byte 1344",
    (1328, 0x01): "refused 1 short at byte 1344",
}
# The same of version 3, in which four bytes end each checkpoint.
CHANGED_THIRD: Mapping[tuple[int, int], str] = {
    (4, 0x04): "refused 3 version at byte 4",
    (1048, 0x01): "refused 6 checkpoint at byte 1048",
    (1196, 0x02): "refused 7 page at byte 1192",
    (1340, 0x01): "refused 6 checkpoint at byte 1204",
    (1344, 0x01): "refused 1 short at byte 1352",
}
# The numbers of pages, events and checkpoints in a header, and the line of a file that has only this header.
HEADERS: Mapping[tuple[int, int, int], str] = {
    (65_537, 0, 1): "refused 4 limit at byte 8",
    (0, 1_000_001, 1): "refused 4 limit at byte 12",
    (0, 0, 4_098): "refused 4 limit at byte 16",
    (65_536, 1_000_000, 4_097): "refused 1 short at byte 24",
}
MANY_EVENTS: Mapping[tuple[int, int, int], str] = {
    (0, 4_000_001, 1): "refused 4 limit at byte 12",
    (65_536, 4_000_000, 4_097): "refused 1 short at byte 24",
}
UNKNOWN_KIND = replace(named.recording([[0x40000005]], named.claim(table={})), events=[Event(0, 6, 0)])
TOO_LATE = claiming(named.STOPPED, 1, count=(1 << 40) + 1)


def _files() -> Iterator[tuple[bytes, str]]:
    """Yields files, each with its line."""
    for text, changes in ((first(STORED_RUN), CHANGED_FIRST), (second(STORED_RUN), CHANGED_SECOND)):
        for (at, byte), line in changes.items():
            yield text[:at] + bytes([byte]) + text[at + 1 :], line
        yield text + b"\0", f"refused 8 trailing at byte {len(text)}"
        yield text[:-1], f"refused 1 short at byte {len(text) - 1}"
    yield b"", "refused 1 short at byte 0"
    text = first(ONE_BYTE_SENT)
    yield text + b"\0", "refused 8 trailing at byte 13733"
    yield text[:-1], "refused 1 short at byte 13732"
    for version in (1, 2):
        yield from ((struct.pack("<4s5I", b"ORSR", version, *numbers, 0), line) for numbers, line in HEADERS.items())
    yield from ((text, "refused 5 event at byte 1048") for text in (first(UNKNOWN_KIND), second(UNKNOWN_KIND)))
    yield first(TOO_LATE), "refused 6 checkpoint at byte 5276"
    yield second(TOO_LATE), "refused 6 checkpoint at byte 1200"


def _files_with_disk() -> Iterator[tuple[bytes, str]]:
    """Yields files of version 3, and of no version, each with its line."""
    text = third(STORED_RUN)
    for (at, byte), line in CHANGED_THIRD.items():
        yield text[:at] + bytes([byte]) + text[at + 1 :], line
    yield text + b"\0", "refused 8 trailing at byte 1352"
    yield from ((text[:-length], f"refused 1 short at byte {1352 - length}") for length in (1, 4, 5))
    yield from ((struct.pack("<4s5I", b"ORSR", 3, *numbers, 0), line) for numbers, line in MANY_EVENTS.items())
    yield third(replace(UNKNOWN_KIND, events=[Event(0, 7, 0)])), "refused 5 event at byte 1048"
    yield third(TOO_LATE), "refused 6 checkpoint at byte 1204"


def calls() -> Iterator[Call]:
    """Yields what each command that reads a recording prints of each file, and its checks by few workers and many."""
    for text, line in _files():
        yield from (prints(arguments, text, line) for arguments in (*READING, *CREWS))
        if text[4:5] != b"\3":
            yield from (prints(f"{arguments} --disk", text, line) for arguments in READING)
    for text, line in _files_with_disk():
        yield from (prints(f"{arguments} --disk", text, line) for arguments in (*READING, *CREWS))
        yield from (prints(arguments, text, "refused 3 version at byte 4") for arguments in READING)
