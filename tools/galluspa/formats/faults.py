"""What a recording's first fault is about: the field with its bytes and the rule that it breaks, by docs/formats.md.

The program says that there is a fault, and at which byte. This module looks up its field.
"""

import struct
from collections.abc import Callable, Iterator, Sequence
from dataclasses import dataclass
from itertools import takewhile

from galluspa.formats.recording import (
    CHANGES_AT,
    CHANGE_BYTES,
    EVENT_BYTES,
    FIXED_BYTES,
    HEADER_BYTES,
    KINDS,
    MOST_PAGES,
    MOST_SENT,
    MOUSE,
    OFFSETS,
    PAGE_BYTES,
    PLACES,
    TABLE_BYTES,
    WORD,
)
from galluspa.formats.sessions import CHECKPOINTS, COUNTS, INPUTS, INPUTS_WITH_DISK, MOST

WHOLE_BYTES = FIXED_BYTES + TABLE_BYTES
# The values of some kinds of events, by the most that they may be.
RANGES = {WORD: "any word", MOUSE: "inside the mask 073FF3FF"}


@dataclass(frozen=True)
class Fault:
    """The field that breaks a rule: what it is, where, its bytes (none if the text ends before it), and the rule."""

    field: str
    at: int
    content: bytes
    rule: str

    def plain(self) -> Iterator[str]:
        """Yields the lines that say it."""
        yield f"{self.field}, at byte {self.at}"
        if self.content:
            shown = self.content[:32].hex(" ") + (" .." if len(self.content) > 32 else "")
            yield f"bytes  {shown}" + (f"  = {self.value}" if len(self.content) in (4, 8) else "")
        yield f"rule   {self.rule}"

    @property
    def value(self) -> int:
        """Returns the number that the bytes say."""
        return int.from_bytes(self.content, "little")


@dataclass(frozen=True)
class Field:
    """A field of the text: its name, where it is and how long, its rule in words, and whether a number keeps it."""

    name: str
    at: int
    size: int
    rule: str
    keeps: Callable[[int], bool]


def explain_fault(text: bytes, number: int, at: int) -> Fault:
    """Returns what the first fault of a text is about, given its number and its byte."""
    explain = {1: _short, 2: _magic, 3: _version, 4: _limit, 5: _event, 6: _checkpoint, 7: _page, 8: _trailing}
    return explain[number](text, at)


def _fault(text: bytes, field: Field, where: str = "") -> Fault:
    return Fault(field.name + where, field.at, text[field.at : field.at + field.size], field.rule)


def _first_broken(text: bytes, fields: Sequence[Field]) -> Field:
    """Returns the first field whose number breaks its rule; the first of all if none does."""
    broken = (it for it in fields if not it.keeps(_number(text, it.at, it.size)))
    return next(broken, fields[0])


def _number(text: bytes, at: int, size: int = 4) -> int:
    return int.from_bytes(text[at : at + size], "little")


def _up_to(most: int) -> Callable[[int], bool]:
    return lambda value: value <= most


def _magic(text: bytes, at: int) -> Fault:
    return Fault("the first four bytes", at, text[:4], "bytes 0 to 3 are 4f 52 53 52, which is ORSR")


def _version(text: bytes, at: int) -> Fault:
    return Fault("the version", at, text[4:8], "the version is 1, 2 or 3")


def _limit(text: bytes, at: int) -> Fault:
    rules = {
        8: ("P, the number of pages", f"P is at most {MOST_PAGES:,}"),
        12: ("E, the number of events", f"E is at most {INPUTS_WITH_DISK if _number(text, 4) == 3 else INPUTS:,}"),
        16: ("K + 1, the number of checkpoints with the initial state", f"K + 1 is from 1 to {CHECKPOINTS + 1:,}"),
        20: ("the last field of the header", "the last field of the header is 0"),
    }
    name, rule = rules[at]
    return Fault(name, at, text[at : at + 4], rule)


def _event(text: bytes, at: int) -> Fault:
    number = (at - HEADER_BYTES - PAGE_BYTES * _number(text, 8)) // EVENT_BYTES
    least = _number(text, at - EVENT_BYTES, 8) if number else 0
    name = KINDS.get(_number(text, at + 8), "")
    most = MOST.get(name, 0)
    last, kinds = (6, "5 serial or 6 disk") if _number(text, 4) == 3 else (5, "or 5 serial")
    field = _first_broken(
        text,
        [
            Field(
                "the count",
                at,
                8,
                f"a count is at most 2^40, and not below that of the event before, {least}",
                lambda count: least <= count <= COUNTS,
            ),
            Field("the kind", at + 8, 4, f"a kind is 1 timer, 2 switches, 3 mouse, 4 key, {kinds}", lambda kind: 1 <= kind <= last),
            Field(
                "the value",
                at + 12,
                4,
                f"the value of a {name} event is {RANGES.get(most, f'below {most + 1:,}')}",
                lambda value: value <= most and not value & ~most,
            ),
        ],
    )
    return _fault(text, field, f" of event {number}")


@dataclass(frozen=True)
class _Claim:
    """A checkpoint of the text: its number, where it begins and ends by what it says, the count of the one before it,
    and how many bytes were sent up to that."""

    number: int
    start: int
    end: int
    before: int
    sent: int


def _claims(text: bytes) -> Iterator[_Claim]:
    """Yields the checkpoints of a text, as far as it has their first bytes."""
    version, pages, events, number, _ = struct.unpack_from("<5I", text, 4)
    start, before, sent = HEADER_BYTES + PAGE_BYTES * pages + EVENT_BYTES * events, -1, 0
    for at in range(number):
        length = WHOLE_BYTES if version == 1 else _changed_bytes(text, start)
        yield _Claim(at, start, start + length, before, sent)
        before, sent = _number(text, start, 8), sent + _number(text, start + OFFSETS["output_length"])
        start += length


def _changed_bytes(text: bytes, start: int) -> int:
    """Returns how many bytes a checkpoint of version 2 or 3 has."""
    disk = 4 if _number(text, 4) == 3 else 0
    return CHANGES_AT + CHANGE_BYTES * _number(text, start + OFFSETS["change_count"]) + disk


def _checkpoint(text: bytes, at: int) -> Fault:
    claim = next(claim for claim in _claims(text) if claim.start == at)
    return _fault(text, _first_broken(text, list(_fields(text, claim))), f" of checkpoint {claim.number}")


def _fields(text: bytes, claim: _Claim) -> Iterator[Field]:
    """Yields the fields of a checkpoint that have a range, in their order."""
    is_first = claim.number == 0

    def field(name: str, member: str, size: int, rule: str, keeps: Callable[[int], bool]) -> Field:
        return Field(name, claim.start + OFFSETS[member], size, rule, keeps)

    rule = (
        "the count of checkpoint 0 is 0"
        if is_first
        else f"a count is above that of the checkpoint before, {claim.before}, and at most 2^40"
    )
    yield field("the count", "count", 8, rule, lambda count: count == 0 if is_first else claim.before < count <= COUNTS)
    for name, most, rule in (
        ("PC", (1 << 22) - 1, "below 4,194,304"),
        ("flags", 15, "below 16"),
        ("stop", 4, "at most 4"),
        ("switches", 4095, "below 4,096"),
        ("LEDs", 255, "below 256"),
    ):
        yield field(name, name.lower(), 4, f"{name} {'are' if name[-1] in 'sS' else 'is'} {rule}", _up_to(most))
    yield field("mouse", "mouse", 4, "mouse is inside the mask 073FF3FF", lambda mouse: not mouse & ~MOUSE)
    yield field("serial", "serial", 4, "serial is below 512", _up_to(511))
    keys = _number(text, claim.start + OFFSETS["key_count"])
    yield field("the number of keys", "key_count", 4, "there are at most 16 keys", _up_to(16))
    yield field(
        "the keys",
        "keys",
        16,
        f"the bytes at or after the number of keys, {keys}, are 0",
        lambda bits: keys > 15 or not bits >> 8 * keys,
    )
    yield field(
        "the output length",
        "output_length",
        4,
        "the output length of checkpoint 0 is 0"
        if is_first
        else f"the output lengths up to here are at most {MOST_SENT:,} in all; before it they are {claim.sent}",
        _up_to(0 if is_first else MOST_SENT - claim.sent),
    )
    if _number(text, 4) > 1:
        rate = _number(text, claim.start + OFFSETS["rate"])
        yield field("phase", "phase", 4, f"phase is below the rate, {rate}, or 0 if that is 0", _up_to(max(rate, 1) - 1))
        yield field("the number of changes", "change_count", 4, "there are at most 1,024 changes", _up_to(PLACES))


def _page(text: bytes, at: int) -> Fault:
    pages = _number(text, 8)
    claim = next(claim for claim in _claims(text) if claim.start < at < claim.end)
    where = f" of checkpoint {claim.number}"
    if _number(text, 4) == 1:
        slot = (at - claim.start - FIXED_BYTES) // 4
        return Fault(
            f"the page id of slot {slot}{where}", at, text[at : at + 4], f"a page id is at most P, the number of pages, {pages}"
        )
    number = (at - claim.start - CHANGES_AT) // CHANGE_BYTES
    slot, page = struct.unpack_from("<2I", text, at)
    rule = (
        f"a page slot is below 1,024 and above that of the change before; a page id is at most P, {pages}, "
        "and not the one that the slot had"
    )
    return Fault(f"change {number}{where}, page id {page} at slot {slot}", at, text[at : at + 8], rule)


def _short(text: bytes, at: int) -> Fault:
    if at < HEADER_BYTES:
        return Fault("the file ends in the header", at, b"", f"a recording has at least {HEADER_BYTES} bytes")
    pages, events, number = struct.unpack_from("<3I", text, 8)
    tables = HEADER_BYTES + PAGE_BYTES * pages + EVENT_BYTES * events
    if _number(text, 4) == 1 and at < tables + WHOLE_BYTES * number or at < tables:
        least = tables + (WHOLE_BYTES * number if _number(text, 4) == 1 else 0)
        what = "its pages, events and checkpoints" if _number(text, 4) == 1 else "its pages and events"
        rule = f"by its header, a text with {what} has at least {least:,} bytes"
        return Fault(f"the file ends in {what}", at, b"", rule)
    claims = list(takewhile(lambda it: it.end <= len(text), _claims(text)))
    if len(claims) < number:
        start = claims[-1].end if claims else tables
        needs = start + (CHANGES_AT if at < start + CHANGES_AT else _changed_bytes(text, start))
        return Fault(
            f"the file ends in checkpoint {len(claims)}, which begins at byte {start}",
            at,
            b"",
            f"with that checkpoint the recording has at least {needs:,} bytes",
        )
    rule = f"with all bytes that its checkpoints say were sent the recording has {_end(text):,} bytes"
    return Fault("the file ends in the bytes sent", at, b"", rule)


def _end(text: bytes) -> int:
    """Returns where a text ends by what its checkpoints say."""
    last = list(_claims(text))[-1]
    return last.end + last.sent + _number(text, last.start + OFFSETS["output_length"])


def _trailing(text: bytes, at: int) -> Fault:
    more = len(text) - at
    return Fault(
        f"{more:,} {'byte' if more == 1 else 'bytes'} after the end",
        at,
        text[at : at + 32],
        f"by its header and checkpoints the recording ends before byte {at}",
    )
