"""The library for C, called by ctypes: each call is tested for what it leaves unchanged when it is refused."""

import ctypes
from array import array
from collections.abc import Sequence
from pathlib import Path
from typing import Any

from tests.library.header import SIZES, fields_of, laid_out
from tests.library.trial import expect, fail

WORDS = 262144
# The count `from` of a caller that has no memory.
NO_COUNT = 2**64 - 1
TYPES: dict[str, Any] = {"u8": ctypes.c_uint8, "u32": ctypes.c_uint32, "u64": ctypes.c_uint64}
Words = ctypes.Array[ctypes.c_uint32]
# A condition of a search: its kind, the first and the end of its range, and its value.
# The fields of a condition; the last two may be missing.
Sought = tuple[int, ...]


class State(ctypes.Structure):
    _fields_ = [
        (it.name, TYPES[it.unit] if it.size == SIZES[it.unit] else TYPES[it.unit] * (it.size // SIZES[it.unit]))
        for it in laid_out(fields_of("RawState"))[0]
    ]


class Input(ctypes.Structure):
    _fields_ = [("count", ctypes.c_uint64), ("kind", ctypes.c_uint32), ("value", ctypes.c_uint32)]


class Condition(ctypes.Structure):
    _fields_ = [(name, ctypes.c_uint32) for name in ("kind", "from_", "end", "value", "least", "most")]


class Hit(ctypes.Structure):
    _fields_ = [("count", ctypes.c_uint64), ("condition", ctypes.c_uint64)]


class Part(ctypes.Structure):
    """A part of a machine: its kind, the register, the address or the kind of input, and the mask."""

    _fields_ = [(name, ctypes.c_uint32) for name in ("kind", "first", "mask")]


class Write(ctypes.Structure):
    _fields_ = [(name, ctypes.c_uint64) for name in ("count", "by", "input")]


class Record(ctypes.Structure):
    _fields_ = [
        ("state", State),
        *((name, ctypes.c_uint64) for name in ("inputs_from", "inputs_count")),
        *((name, ctypes.c_uint32) for name in ("word", "address", "old_value", "new_value", "sent")),
        *((name, ctypes.c_uint8) for name in ("has_word", "access_bytes", "stores", "sends")),
    ]


class Call(ctypes.Structure):
    _fields_ = [("count", ctypes.c_uint64), *((name, ctypes.c_uint32) for name in ("at", "to", "back", "sp"))]


class Turn(ctypes.Structure):
    _fields_ = [
        *((name, ctypes.c_uint64) for name in ("count", "stay")),
        *((name, ctypes.c_uint32) for name in ("at", "to", "back", "sp")),
    ]


class Page(ctypes.Structure):
    _fields_ = [("words", ctypes.c_uint32 * 256)]


class Claimed(ctypes.Structure):
    """A checkpoint, with its memory by pages."""

    _fields_ = [("state", State), ("sent_count", ctypes.c_uint64), ("pages", ctypes.c_uint32 * 1024)]


class Past(ctypes.Structure):
    """The handle of a past."""

    _fields_ = [("past", ctypes.c_void_p), ("is_open", ctypes.c_uint64)]


class Link(ctypes.Structure):
    """Where the value of a part comes from."""

    _fields_ = [
        *((name, ctypes.c_uint64) for name in ("count", "input")),
        *((name, ctypes.c_uint32) for name in ("how", "value", "pc", "has_word", "word", "bits", "origins_count")),
        ("origins", Part * 3),
    ]


class Extent(ctypes.Structure):
    _fields_ = [(name, ctypes.c_uint64) for name in ("first", "end", "reached", "keyframes", "pages", "inputs")]


class Progress(ctypes.Structure):
    """How far a check by a past is."""

    _fields_ = [
        *((name, ctypes.c_uint64) for name in ("count", "sent")),
        *((name, ctypes.c_uint32) for name in ("checkpoint", "differs")),
    ]


Inputs = Sequence[Input] | ctypes.Array[Input]


class Library:
    """The shared library."""

    def __init__(self, path: Path) -> None:
        self.c = ctypes.CDLL(str(path))
        # The memory for what is written, which grows as a call needs.
        self.buffer = ctypes.create_string_buffer(0)
        for name in ("check", "record", "migrate"):
            getattr(self.c, f"galluspa_{name}").restype = ctypes.c_size_t
        for name in ("claim", "claims", "advance", "find", "hits", "profile", "records", "calls", "begin", "extend"):
            getattr(self.c, f"galluspa_{name}").restype = ctypes.c_uint8
        pasts = (
            "open",
            "begin",
            "extent",
            "at",
            "near",
            "input",
            "run",
            "cut",
            "branch",
            "find",
            "hits",
            "write",
            "record",
            "records",
            "profile",
            "check",
            "calls",
            "why",
        )
        for name in pasts:
            getattr(self.c, f"galluspa_past_{name}").restype = ctypes.c_uint8
        self.c.galluspa_past_close.restype = None

    def answer(self, name: str, given: bytes, room: int) -> tuple[int, bytes, int]:
        """Returns the result, what was written at the front of `room` bytes, whether anything was written, and the status."""
        out, status = ctypes.create_string_buffer(b"\xaa" * room, room + 1), ctypes.c_uint8(77)
        size = ctypes.c_size_t
        result = getattr(self.c, f"galluspa_{name}")(given, size(len(given)), out, size(room), ctypes.byref(status))
        unchanged = out.raw[:room] == b"\xaa" * room and status.value == 77
        if not result <= room:
            expect(f"{name} without room", unchanged, True)
        return result, out.raw[:result], status.value

    def claim(self, text: bytes, at: int, length: int = WORDS) -> tuple[int, State, Words]:
        """Returns the result, and the state and the words that a checkpoint claims. Nothing is to be written if it is refused."""
        state, words = State(count=7), (ctypes.c_uint32 * length)()
        code = self.c.galluspa_claim(
            text, ctypes.c_size_t(len(text)), ctypes.c_uint32(at), ctypes.byref(state), words, ctypes.c_size_t(length)
        )
        if code and (bytes(state) != bytes(State(count=7)) or any(words)):
            fail("a claim that was refused is written")
        return code, state, words

    def claims(self, text: bytes, rooms: tuple[int, int]) -> tuple[int, tuple[int, int], ctypes.Array[Claimed], ctypes.Array[Page]]:
        """Returns the result, the numbers of checkpoints and of pages, and what all checkpoints claim. Nothing is to be written after
        these, and no checkpoint and no page if it is refused."""
        checkpoints, pages = (Claimed * rooms[0])(), (Page * rooms[1])()
        ctypes.memset(checkpoints, 0xAA, ctypes.sizeof(checkpoints))
        ctypes.memset(pages, 0xAA, ctypes.sizeof(pages))
        counts = ctypes.c_size_t(77), ctypes.c_size_t(77)
        code = self.c.galluspa_claims(
            text,
            ctypes.c_size_t(len(text)),
            checkpoints,
            ctypes.c_size_t(rooms[0]),
            ctypes.byref(counts[0]),
            pages,
            ctypes.c_size_t(rooms[1]),
            ctypes.byref(counts[1]),
        )
        written = (counts[0].value, counts[1].value) if not code else (0, 0)
        rests = bytes(checkpoints)[written[0] * ctypes.sizeof(Claimed) :] + bytes(pages)[written[1] * ctypes.sizeof(Page) :]
        if rests.strip(b"\xaa"):
            fail("a reading of all claims writes more than there is")
        return code, (counts[0].value, counts[1].value), checkpoints, pages

    def advance(self, state: State, words: Words, inputs: Sequence[Input], to: int, room: int = 1 << 20) -> tuple[int, bytes]:
        """Returns the result and the bytes sent. Nothing is to be changed where it is refused."""
        before = bytes(state), bytes(words)
        given = (Input * len(inputs))(*inputs)
        sent, count, size = ctypes.create_string_buffer(room + 1), ctypes.c_size_t(77), ctypes.c_size_t
        code = self.c.galluspa_advance(
            ctypes.byref(state),
            words,
            size(len(words)),
            given,
            size(len(inputs)),
            ctypes.c_uint64(to),
            sent,
            size(room),
            ctypes.byref(count),
        )
        if code and (before != (bytes(state), bytes(words)) or any(sent.raw) or count.value != 77):
            fail("an advance that was refused changes something")
        return code, sent.raw[: count.value] if not code else b""

    def find(
        self, state: State, words: Words, inputs: Sequence[Input], to: int, conditions: Sequence[Sought], wanted: int
    ) -> tuple[int, tuple[int, int] | None]:
        """Returns the result of a search, and the count and the index of the hit. Nothing is to be changed unless there is one."""
        before = bytes(state), bytes(words)
        given, asked = (Input * len(inputs))(*inputs), (Condition * len(conditions))(*(Condition(*it) for it in conditions))
        hit, size = Hit(77, 78), ctypes.c_size_t
        code = self.c.galluspa_find(
            ctypes.byref(state),
            words,
            size(len(words)),
            given,
            size(len(inputs)),
            ctypes.c_uint64(to),
            asked,
            size(len(conditions)),
            ctypes.c_uint32(wanted),
            ctypes.byref(hit),
        )
        if before != (bytes(state), bytes(words)) or (code and (hit.count, hit.condition) != (77, 78)):
            fail("a search changes something")
        return code, None if code else (hit.count, hit.condition)

    def hits(
        self, state: State, words: Words, inputs: Sequence[Input], to: int, conditions: Sequence[Sought], room: int
    ) -> tuple[int, list[tuple[int, int]]]:
        """Returns the result of a search for all hits, and their counts and indices. The machine is advanced, unless the search is
        refused; then nothing is to be changed, and never what is after the hits."""
        before = bytes(state), bytes(words)
        given, asked = (Input * len(inputs))(*inputs), (Condition * len(conditions))(*(Condition(*it) for it in conditions))
        hits, count, size = (Hit * (room + 1))(*(Hit(77, 78) for _ in range(room + 1))), ctypes.c_size_t(77), ctypes.c_size_t
        code = self.c.galluspa_hits(
            ctypes.byref(state),
            words,
            size(len(words)),
            given,
            size(len(inputs)),
            ctypes.c_uint64(to),
            asked,
            size(len(conditions)),
            hits,
            size(room),
            ctypes.byref(count),
        )
        if code and (before != (bytes(state), bytes(words)) or count.value != 77):
            fail("a search for all hits that was refused changes something")
        found = [(it.count, it.condition) for it in hits]
        number = 0 if code else count.value
        if any(it != (77, 78) for it in found[number:]):
            fail("a search for all hits writes past them")
        return code, found[:number]

    def profile(
        self, state: State, words: Words, inputs: Sequence[Input], to: int, lengths: tuple[int, int] = (WORDS, WORDS)
    ) -> tuple[int, "array[int]", "array[int]"]:
        """Returns the result of counting, the visits and the departures, in arrays of these lengths. Nothing else is to be changed,
        and nothing is to be written if it is refused."""
        before, size = (bytes(state), bytes(words)), ctypes.c_size_t
        given, counts = (Input * len(inputs))(*inputs), [(ctypes.c_uint64 * length)() for length in lengths]
        for it in counts:
            ctypes.memset(it, 0xAA, ctypes.sizeof(it))
        code = self.c.galluspa_profile(
            ctypes.byref(state),
            words,
            size(len(words)),
            given,
            size(len(inputs)),
            ctypes.c_uint64(to),
            counts[0],
            size(lengths[0]),
            counts[1],
            size(lengths[1]),
        )
        if before != (bytes(state), bytes(words)) or (code and any(bytes(it).strip(b"\xaa") for it in counts)):
            fail("a profile changes something")
        return code, array("Q", bytes(counts[0])), array("Q", bytes(counts[1]))

    def records(self, state: State, words: Words, inputs: Sequence[Input], number: int) -> tuple[int, list[Record]]:
        """Returns the result of recording a number of instructions, and their records. Nothing is to be changed if it is refused, and nothing
        is to be written after the records."""
        before, size = (bytes(state), bytes(words)), ctypes.c_size_t
        given, records = (Input * len(inputs))(*inputs), (Record * (number + 1))()
        ctypes.memset(records, 0xAA, ctypes.sizeof(records))
        code = self.c.galluspa_records(
            ctypes.byref(state), words, size(len(words)), given, size(len(inputs)), records, size(number)
        )
        kept = bytes(records) if code == 1 else bytes(records[number])
        if (code and before != (bytes(state), bytes(words))) or kept.strip(b"\xaa"):
            fail("what is recorded changes something")
        return code, list(records[:number])

    def follow(
        self,
        state: State,
        words: Words,
        inputs: Sequence[Input],
        to: int,
        limit: int,
        present: Sequence[Call],
        rooms: tuple[int, int],
    ) -> tuple[int, list[Call], list[tuple[int, int, tuple[int, int, int, int]]]]:
        """Returns the result of following calls, those that are open then, and the turns, in arrays of these lengths. Nothing is to be
        changed if it is refused, and nothing is to be written after what is counted."""
        before, size = (bytes(state), bytes(words)), ctypes.c_size_t
        given = (Input * len(inputs))(*inputs)
        calls, turns = (Call * (max(rooms[0], len(present)) + 1))(), (Turn * (rooms[1] + 1))()
        ctypes.memset(calls, 0xAA, ctypes.sizeof(calls))
        ctypes.memset(turns, 0xAA, ctypes.sizeof(turns))
        calls[: len(present)] = list(present)
        kept, counts = (bytes(calls), bytes(turns)), (size(len(present)), size(77))
        code = self.c.galluspa_calls(
            ctypes.byref(state),
            words,
            size(len(words)),
            given,
            size(len(inputs)),
            ctypes.c_uint64(to),
            ctypes.c_uint32(limit),
            calls,
            size(rooms[0]),
            ctypes.byref(counts[0]),
            turns,
            size(rooms[1]),
            ctypes.byref(counts[1]),
        )
        if code and (before != (bytes(state), bytes(words)) or (counts[0].value, counts[1].value) != (len(present), 77)):
            fail("calls that were refused change something")
        lengths = (0, 0) if code else (counts[0].value, counts[1].value)
        ends = ctypes.sizeof(Call) * lengths[0], ctypes.sizeof(Turn) * lengths[1]
        if (bytes(calls)[ends[0] :], bytes(turns)[ends[1] :]) != (kept[0][ends[0] :], kept[1][ends[1] :]):
            fail("what is after calls and turns changes")
        noted = [(it.count, it.stay, (it.at, it.to, it.back, it.sp)) for it in turns[: lengths[1]]]
        return code, list(calls[: lengths[0]]), noted

    def written(self, name: str, given: Sequence[object], room: int) -> tuple[int, bytes, int]:
        """Returns the result of a call, what it wrote, and the count. Nothing but the count is to be changed where it is
        refused."""
        if room > len(self.buffer):
            self.buffer = ctypes.create_string_buffer(room)
        out, count, size = self.buffer, ctypes.c_size_t(77), ctypes.c_size_t
        ctypes.memset(out, 0xAA, room)
        code = getattr(self.c, f"galluspa_{name}")(*given, out, size(room), ctypes.byref(count))
        if code and (ctypes.string_at(out, room) != b"\xaa" * room or (code != 2 and count.value != 77)):
            fail(f"{name} that was refused writes something")
        return code, ctypes.string_at(out, count.value) if not code else b"", count.value

    def begin(self, state: State, words: Words, room: int = 1 << 21) -> tuple[int, bytes, int]:
        """Returns the result of beginning a recording, and the recording with its length."""
        return self.written("begin", (ctypes.byref(state), words, ctypes.c_size_t(len(words))), room)

    def extend(
        self, text: bytes, inputs: Inputs, state: State, words: Words, sent: bytes, room: int = 1 << 21
    ) -> tuple[int, bytes, int]:
        """Returns the result of extending a recording, and the longer recording with its length."""
        size = ctypes.c_size_t
        given = inputs if isinstance(inputs, ctypes.Array) else (Input * len(inputs))(*inputs)
        return self.written(
            "extend",
            (text, size(len(text)), given, size(len(inputs)), ctypes.byref(state), words, size(len(words)), sent, size(len(sent))),
            room,
        )

    def open_past(self, past: Past, text: bytes, spacing: int = 0) -> int:
        """Returns the result of opening the past of a recording. The handle is to be zeros if it is refused."""
        code: int = self.c.galluspa_past_open(ctypes.byref(past), text, ctypes.c_size_t(len(text)), ctypes.c_uint64(spacing))
        expect("whether a past is open", past.is_open, int(not code))
        expect("whether a past has memory", bool(past.past), not code)
        return code

    def begin_past(self, past: Past, state: State, words: Words, spacing: int = 0) -> int:
        """Returns the result of beginning the past of a machine. The handle is to be zeros if it is refused."""
        size = ctypes.c_size_t(len(words))
        code: int = self.c.galluspa_past_begin(ctypes.byref(past), ctypes.byref(state), words, size, ctypes.c_uint64(spacing))
        expect("whether a past is begun", past.is_open, int(not code))
        expect("whether a past that is begun has memory", bool(past.past), not code)
        return code

    def close_past(self, past: Past) -> None:
        """Closes a past: the handle is then zeros."""
        self.c.galluspa_past_close(ctypes.byref(past))
        expect("a past that is closed", bytes(past), bytes(16))

    def extent(self, past: Past) -> tuple[int, Extent]:
        """Returns the result, and where a past is. Nothing is to be written if it is refused."""
        extent = Extent(77)
        code = self.c.galluspa_past_extent(ctypes.byref(past), ctypes.byref(extent))
        if code and bytes(extent) != bytes(Extent(77)):
            fail("an extent that was refused is written")
        return code, extent

    def look(
        self, past: Past, at: int, since: int = NO_COUNT, budget: int | None = 1 << 40, room: int = 1024
    ) -> tuple[int, State, list[tuple[int, bytes]], int]:
        """Returns the result of a question about a count, the state, the pages with their slots, and how many differ. Without a budget it is
        that about the keyframe before the count. Nothing but the count is to be written if it is refused, and nothing after the pages.
        """
        state, slots, pages, count = State(count=77), (ctypes.c_uint16 * 1024)(), (Page * room)(), ctypes.c_size_t(77)
        ctypes.memset(slots, 0xAA, ctypes.sizeof(slots))
        ctypes.memset(pages, 0xAA, ctypes.sizeof(pages))
        asked = [ctypes.byref(past), *(ctypes.c_uint64(it) for it in (at, since, budget) if it is not None)]
        written = ctypes.byref(state), slots, pages, ctypes.c_size_t(room), ctypes.byref(count)
        code = getattr(self.c, f"galluspa_past_{'near' if budget is None else 'at'}")(*asked, *written)
        if code and (bytes(state) != bytes(State(count=77)) or (code != 2 and count.value != 77)):
            fail("a question that was refused writes something")
        number = 0 if code else count.value
        if (bytes(slots)[2 * number :] + bytes(pages)[1024 * number :]).strip(b"\xaa"):
            fail("a question writes after its pages")
        return code, state, [(slots[i], bytes(pages[i])) for i in range(number)], count.value

    def input_past(self, past: Past, inputs: Sequence[Input]) -> int:
        """Returns the result of adding inputs to a past."""
        given = (Input * len(inputs))(*inputs)
        code: int = self.c.galluspa_past_input(ctypes.byref(past), given, ctypes.c_size_t(len(inputs)))
        return code

    def run_past(self, past: Past, to: int, budget: int = 1 << 40, room: int = 4096) -> tuple[int, bytes]:
        """Returns the result of running a past on, and the bytes that it sends. Nothing is to be written if it is refused, and nothing after
        the bytes.
        """
        sent, count = ctypes.create_string_buffer(b"\xaa" * (room + 1), room + 1), ctypes.c_size_t(77)
        asked = ctypes.byref(past), ctypes.c_uint64(to), ctypes.c_uint64(budget)
        code = self.c.galluspa_past_run(*asked, sent, ctypes.c_size_t(room), ctypes.byref(count))
        runs = code in (0, 2, 12)
        number = count.value if runs else 0
        if sent.raw[number:].strip(b"\xaa") or (not runs and count.value != 77):
            fail("a run of a past writes something else than its bytes")
        return code, sent.raw[:number]

    def run_past_through(self, past: Past, to: int) -> int:
        """Returns the result of running a past on to a count, in as many calls as that takes."""
        while (code := self.run_past(past, to)[0]) == 12:
            pass
        return code

    def cut_past(self, past: Past, at: int) -> int:
        """Returns the result of dropping what comes after a count of a past."""
        code: int = self.c.galluspa_past_cut(ctypes.byref(past), ctypes.c_uint64(at))
        return code

    def branch_past(self, past: Past, at: int, branch: Past) -> int:
        """Returns the result of making a branch of a past. Its handle is to be zeros if it is refused."""
        code: int = self.c.galluspa_past_branch(ctypes.byref(past), ctypes.c_uint64(at), ctypes.byref(branch))
        expect("whether a branch is open", (branch.is_open, bool(branch.past)), (int(not code), not code))
        return code

    def find_in_past(
        self, past: Past, start: int, end: int, conditions: Sequence[Sought], wanted: int, budget: int = 1 << 40
    ) -> tuple[int, tuple[int, int] | None, int]:
        """Returns the result of a search of a past, the count and the index of the hit, and how far it came. Only these are to be written."""
        asked = (Condition * len(conditions))(*(Condition(*it) for it in conditions))
        hit, progress = Hit(77, 78), ctypes.c_uint64(79)
        range_of = ctypes.byref(past), ctypes.c_uint64(start), ctypes.c_uint64(end)
        rest = ctypes.c_uint32(wanted), ctypes.c_uint64(budget), ctypes.byref(hit), ctypes.byref(progress)
        code = self.c.galluspa_past_find(*range_of, asked, ctypes.c_size_t(len(conditions)), *rest)
        if (code and (hit.count, hit.condition) != (77, 78)) or (code != 12 and progress.value != 79):
            fail("a search of a past writes something else than its answer")
        return code, None if code else (hit.count, hit.condition), progress.value

    def hits_in_past(
        self, past: Past, start: int, end: int, conditions: Sequence[Sought], room: int, budget: int = 1 << 40
    ) -> tuple[int, list[tuple[int, int]], int]:
        """Returns the result of a search of a past for all hits, these, and where to go on. Nothing else is to be written."""
        asked = (Condition * len(conditions))(*(Condition(*it) for it in conditions))
        hits, count = (Hit * (room + 1))(*(Hit(77, 78) for _ in range(room + 1))), ctypes.c_size_t(77)
        at = ctypes.c_uint64(start)
        range_of = ctypes.byref(past), ctypes.byref(at), ctypes.c_uint64(end)
        rest = ctypes.c_uint64(budget), hits, ctypes.c_size_t(room), ctypes.byref(count)
        code = self.c.galluspa_past_hits(*range_of, asked, ctypes.c_size_t(len(conditions)), *rest)
        number = count.value if code in (0, 12) else 0
        found = [(it.count, it.condition) for it in hits]
        if any(it != (77, 78) for it in found[number:]) or (code not in (0, 12) and (at.value, count.value) != (start, 77)):
            fail("a search of a past for all hits writes something else than its answer")
        return code, found[:number], at.value

    def why_in_past(
        self, past: Past, part: tuple[int, int, int], before: int, budget: int = 1 << 40
    ) -> tuple[int, Link | None, int]:
        """Returns the result of a question about where a value comes from, the link, and how far the search came. Only these are to be
        written."""
        link, progress = Link(), ctypes.c_uint64(79)
        ctypes.memset(ctypes.byref(link), 0xAA, ctypes.sizeof(link))
        kept = bytes(link)
        asked = ctypes.byref(past), ctypes.byref(Part(*part)), ctypes.c_uint64(before), ctypes.c_uint64(budget)
        code = self.c.galluspa_past_why(*asked, ctypes.byref(link), ctypes.byref(progress))
        if (code and bytes(link) != kept) or (code != 12 and progress.value != 79):
            fail("a question about where a value comes from writes something else than its answer")
        return code, None if code else link, progress.value

    def write_in_past(
        self, past: Past, part: tuple[int, int, int], changing: int, before: int, budget: int = 1 << 40
    ) -> tuple[int, tuple[int, int, int] | None, int]:
        """Returns the result of a question about the last write of a part, the write, and how far it came. Only these are to be written."""
        write, progress = Write(77, 78, 79), ctypes.c_uint64(80)
        asked = ctypes.byref(past), ctypes.byref(Part(*part)), ctypes.c_uint32(changing), ctypes.c_uint64(before)
        code = self.c.galluspa_past_write(*asked, ctypes.c_uint64(budget), ctypes.byref(write), ctypes.byref(progress))
        found = write.count, write.by, write.input
        if (code and found != (77, 78, 79)) or (code != 12 and progress.value != 80):
            fail("a question about a write writes something else than its answer")
        return code, None if code else found, progress.value

    def record_past(
        self, past: Past, text: bytes, counts: Sequence[int], recorded: int = 0, budget: int = 1 << 40, room: int = 1 << 21
    ) -> tuple[int, bytes, int, int]:
        """Returns the result of recording a past, the recording, how many of the counts are recorded, and the number of bytes. Nothing
        else is to be written, and only that number if there is too little room."""
        if room > len(self.buffer):
            self.buffer = ctypes.create_string_buffer(room)
        out, size = self.buffer, ctypes.c_size_t
        number, made = size(77), size(recorded)
        ctypes.memset(out, 0xAA, room)
        given = ctypes.byref(past), text, size(len(text)), (ctypes.c_uint64 * len(counts))(*counts), size(len(counts))
        rest = ctypes.byref(made), ctypes.c_uint64(budget), out, size(room), ctypes.byref(number)
        code = self.c.galluspa_past_record(*given, *rest)
        length = number.value if code in (0, 12) else 0
        if ctypes.string_at(ctypes.byref(out, length), room - length) != b"\xaa" * (room - length):
            fail("a past that is recorded writes something else than its recording")
        if code not in (0, 12) and (made.value != recorded or (code != 2 and number.value != 77)):
            fail("a past whose recording is refused writes something")
        return code, ctypes.string_at(out, length), made.value, number.value

    def records_in_past(self, past: Past, start: int, end: int, room: int, budget: int = 1 << 40) -> tuple[int, list[Record], int]:
        """Returns the result of recording a range of a past, the records, and where to go on. Nothing else is to be written."""
        records, count, at = (Record * (room + 1))(), ctypes.c_size_t(77), ctypes.c_uint64(start)
        ctypes.memset(records, 0xAA, ctypes.sizeof(records))
        asked = ctypes.byref(past), ctypes.byref(at), ctypes.c_uint64(end), ctypes.c_uint64(budget)
        code = self.c.galluspa_past_records(*asked, records, ctypes.c_size_t(room), ctypes.byref(count))
        number = count.value if code in (0, 12) else 0
        if bytes(records)[ctypes.sizeof(Record) * number :].strip(b"\xaa"):
            fail("records of a past write something after them")
        if code not in (0, 12) and (at.value, count.value) != (start, 77):
            fail("records of a past that were refused write something")
        return code, list(records[:number]), at.value

    def profile_past(
        self, past: Past, start: int, end: int, counts: "Sequence[ctypes.Array[ctypes.c_uint64]]", budget: int = 1 << 40
    ) -> tuple[int, int]:
        """Returns the result of adding the visits and the departures of a range of a past to two arrays, and where to go on. Nothing is to be
        written if it is refused."""
        before, at = [bytes(it) for it in counts], ctypes.c_uint64(start)
        asked = ctypes.byref(past), ctypes.byref(at), ctypes.c_uint64(end), ctypes.c_uint64(budget)
        arrays = (part for it in counts for part in (it, ctypes.c_size_t(len(it))))
        code = self.c.galluspa_past_profile(*asked, *arrays)
        if code not in (0, 12) and (at.value, [bytes(it) for it in counts]) != (start, before):
            fail("a profile of a past that was refused writes something")
        return code, at.value

    def check_past(
        self, past: Past, text: bytes, progress: Progress, budget: int = 1 << 40, room: int = 255
    ) -> tuple[int, tuple[bytes, int], int]:
        """Returns the result of a check by a past, the line with its status, and the number of bytes of the line. Nothing else is to be
        written, and nothing but the number if there is no room."""
        before, line, count, status = bytes(progress), (ctypes.c_uint8 * 256)(), ctypes.c_size_t(77), ctypes.c_uint8(0xAA)
        ctypes.memset(line, 0xAA, 256)
        given = ctypes.byref(past), text, ctypes.c_size_t(len(text)), ctypes.c_uint64(budget), ctypes.byref(progress)
        code = self.c.galluspa_past_check(*given, line, ctypes.c_size_t(room), ctypes.byref(count), ctypes.byref(status))
        if code != 12 and bytes(progress) != before:
            fail("a check by a past moves its progress")
        number = 0 if code else count.value
        if bytes(line[number:]).strip(b"\xaa") or (code and status.value != 0xAA) or (code not in (0, 2) and count.value != 77):
            fail("a check by a past writes something else")
        return code, (bytes(line[:number]), status.value), count.value

    def follow_past(
        self, past: Past, start: int, end: int, limit: int, present: Sequence[Call], rooms: tuple[int, int], budget: int = 1 << 40
    ) -> tuple[int, list[Call], list[tuple[int, int, tuple[int, int, int, int]]], int]:
        """Returns the result of following the calls of a range of a past, those that are open then, the turns, in arrays of these lengths,
        and where to go on. Nothing else is to be written."""
        size, at = ctypes.c_size_t, ctypes.c_uint64(start)
        calls, turns = (Call * (max(rooms[0], len(present)) + 1))(), (Turn * (rooms[1] + 1))()
        ctypes.memset(calls, 0xAA, ctypes.sizeof(calls))
        ctypes.memset(turns, 0xAA, ctypes.sizeof(turns))
        calls[: len(present)] = list(present)
        kept, counts = (bytes(calls), bytes(turns)), (size(len(present)), size(77))
        asked = ctypes.byref(past), ctypes.byref(at), ctypes.c_uint64(end), ctypes.c_uint32(limit), ctypes.c_uint64(budget)
        lists = calls, size(rooms[0]), ctypes.byref(counts[0]), turns, size(rooms[1]), ctypes.byref(counts[1])
        code = self.c.galluspa_past_calls(*asked, *lists)
        done = code in (0, 12)
        if not done and (at.value, counts[0].value, counts[1].value) != (start, len(present), 77):
            fail("calls of a past that were refused write something")
        lengths = (counts[0].value, counts[1].value) if done else (0, 0)
        ends = ctypes.sizeof(Call) * lengths[0], ctypes.sizeof(Turn) * lengths[1]
        if (bytes(calls)[ends[0] :], bytes(turns)[ends[1] :]) != (kept[0][ends[0] :], kept[1][ends[1] :]):
            fail("what is after the calls and turns of a past changes")
        noted = [(it.count, it.stay, (it.at, it.to, it.back, it.sp)) for it in turns[: lengths[1]]]
        return code, list(calls[: lengths[0]]), noted, at.value
