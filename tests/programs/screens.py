"""The screens of recordings."""

from collections.abc import Iterator

from tests.programs import named
from tests.programs.answers import Call, prints, writes
from tests.programs.named import STORED_RUN, claim, first, recording, second, third

# The page slot and the word in it of one dot, and the byte of the picture that has it: at the bottom left, and at the top right.
DOTS = ((927, 192, 1, 98_188, 0x80), (1023, 191, 0x80000000, 139, 0x01))


def picture(dots: dict[int, int]) -> bytes:
    """Returns the picture with these bytes at their offsets, and zeros elsewhere."""
    written = bytearray(b"P4\n1024 768\n" + bytes(98_304))
    for at, byte in dots.items():
        written[at] = byte
    return bytes(written)


def calls() -> Iterator[Call]:
    """Yields the screens of files of both versions; the number of the checkpoint may have a sign."""
    for slot, word, bits, at, byte in DOTS:
        it = recording([[*[0] * word, bits]], claim(table={slot: 1}))
        for text in (first(it), second(it)):
            yield from (writes(f"screen {number}", text, picture({at: byte})) for number in ("--at=-0", "--at 0"))
    for text in (first(STORED_RUN), second(STORED_RUN)):
        yield writes("screen --at=1", text, picture({}))
        yield prints("screen --at 2", text, "no checkpoint 2")
    yield writes("screen --disk --at 1", third(STORED_RUN), picture({}))
    yield prints("screen --at 1", third(STORED_RUN), "refused 3 version at byte 4")
    # a fault of the file is reported before a missing checkpoint
    yield prints("screen --at 2", b"", "refused 1 short at byte 0")
    yield writes("screen --at 4096", second(named.MOST_CHECKPOINTS), picture({}))
