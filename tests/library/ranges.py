"""Ranges of a past: traces, profiles and calls, against those of the machine at its first count; each refusal."""

import ctypes
import random
from collections.abc import Callable
from typing import Any

from tests.library.binding import WORDS, Call, Library, Past
from tests.library.followed import TRAP, started
from tests.library.pasts import SPACING, Run, recordings
from tests.library.trial import FACE, expect, fail

ALL = 0xFFFFFFFF
Turn = tuple[int, int, tuple[int, int, int, int]]


def through(
    library: Library, past: Past, start: int, end: int, ask: Callable[[int], tuple[int, int]], is_full: Callable[[], bool]
) -> int:
    """Asks about a range until it is answered, from where each answer ended. Returns how often the budget was spent."""
    spent = 0
    while True:
        keyframes = library.extent(past)[1].keyframes
        code, at = ask(start)
        moved = at > start or library.extent(past)[1].keyframes > keyframes
        expect("how far an answer about a range comes", (code in (0, 12), start <= at <= end), (True, True))
        if code == 12:
            spent += 1
            expect("progress in a range", (at < end, moved), (True, True))
        elif at == end:
            return spent
        else:
            expect("why an answer about a range ends early", is_full(), True)
        start = at


def compare_records(library: Library, past: Past, own: Run, range_of: tuple[int, int], room: int, budget: int) -> int:
    """Compares the records of a range with those of the machine at its first count. Returns how often the budget was spent."""
    start, end = range_of
    found: list[bytes] = []
    last = 0

    def ask(at: int) -> tuple[int, int]:
        nonlocal last
        code, records, next_count = library.records_in_past(past, at, end, room, budget)
        expect("where records end", next_count, at + len(records))
        found.extend(bytes(it) for it in records)
        last = len(records)
        return code, next_count

    spent = through(library, past, start, end, ask, lambda: last == room)
    # The old call gives the indices of its own inputs: it gets those of the whole run, as the past has them.
    code, records = library.records(*own.machine(start), own.inputs, end - start)
    expect(f"the records from {start} to {end}", (0, found), (code, [bytes(it) for it in records]))
    return spent


def compare_profile(library: Library, past: Past, own: Run, range_of: tuple[int, int], budget: int) -> int:
    """Compares the profile of a range with that of the machine at its first count. Returns how often the budget was spent."""
    start, end = range_of
    counts = [(ctypes.c_uint64 * WORDS)() for _ in range(2)]
    # A number that begins again at 0.
    counts[0][0] = counts[1][WORDS - 1] = (1 << 64) - 1
    spent = through(library, past, start, end, lambda at: library.profile_past(past, at, end, counts, budget), lambda: False)
    code, *wanted = library.profile(*own.machine(start), own.inputs, end)
    for numbers, index in zip(wanted, (0, WORDS - 1), strict=True):
        numbers[index] = (numbers[index] - 1) % (1 << 64)
    expect(f"the profile from {start} to {end}", (0, [bytes(it) for it in counts]), (code, [it.tobytes() for it in wanted]))
    return spent


def compare_calls(
    library: Library, past: Past, own: Run, range_of: tuple[int, int], limit: int, rooms: tuple[int, int], budget: int
) -> tuple[int, int]:
    """Compares the calls of a range with those of the machine at its first count. Returns the number of turns, and how often the
    budget was spent."""
    start, end = range_of
    calls: list[Call] = []
    turns: list[Turn] = []
    last = 0

    def ask(at: int) -> tuple[int, int]:
        nonlocal calls, last
        code, calls, more, next_count = library.follow_past(past, at, end, limit, calls, (len(calls) + rooms[0], rooms[1]), budget)
        turns.extend(more)
        last = len(more)
        return code, next_count

    spent = through(library, past, start, end, ask, lambda: last == rooms[1] or rooms[0] < 1000)
    code, wanted, noted = library.follow(*own.machine(start), own.inputs, end, limit, [], (1 << 14, 1 << 18))
    expect(f"the turns from {start} to {end}", (0, turns), (code, noted))
    expect(f"the calls that are open at {end}", [bytes(it) for it in calls], [bytes(it) for it in wanted])
    return len(turns), spent


def trapping(library: Library) -> Run:
    """Returns the run of a program that calls, and gives up its calls, over and over."""
    own = Run(library, FACE).until(0, [])
    state, memory = started(TRAP)
    own.known, own.end = {0: (bytes(state), bytes(memory))}, 300_000
    return own


def ask_ranges(library: Library) -> None:
    """Traces, profiles and calls of a past are those of the machine at the first count of the range, with any budget and room."""
    past, chance, turns, spent = Past(), random.Random(13), 0, 0
    for text in (*recordings(), None):
        own = Run(library, text) if text else trapping(library)
        if text:
            expect("a past that is opened", library.open_past(past, text, SPACING), 0)
        else:
            expect("a past that is begun", library.begin_past(past, *own.machine(0), SPACING), 0)
            expect("a run", library.run_past_through(past, own.end), 0)
        for _ in range(4):
            start = chance.choice((0, chance.randint(0, own.end)))
            short = start, min(own.end, start + chance.choice((0, 1, 100)))
            long = start, min(own.end, start + chance.choice((5_000, 300_000)))
            near = start, min(own.end, start + 5_000)
            spent += compare_records(library, past, own, short, chance.choice((1, 7, 200)), chance.choice((1, 2, 1 << 40)))
            spent += compare_records(library, past, own, near, chance.choice((999, 6_000)), chance.choice((800, 1 << 40)))
            for at, budgets, rooms in ((short, (1, 2, 1 << 40), (1, 1)), (long, (40_000, SPACING, 1 << 40), (2000, 2000))):
                budget = chance.choice(budgets)
                spent += compare_profile(library, past, own, at, budget)
                more, times = compare_calls(library, past, own, at, chance.choice((ALL, 0)), rooms, budget)
                turns, spent = turns + more, spent + times
    library.close_past(past)
    if turns < 1000 or spent < 100:
        fail(f"ranges of pasts have {turns} turns, and {spent} times a budget was spent")
    print(f"past: traces, profiles and calls of seven pasts are those of the machine; {turns} turns, {spent} budgets were spent")


def refuse_ranges(library: Library) -> None:
    """Each refusal of a question about a range of a past, and that it leaves the past as it is."""
    own, past = Run(library, FACE), Past()
    counts = [(ctypes.c_uint64 * WORDS)() for _ in range(2)]

    def codes(start: int, end: int, budget: int = 1) -> list[int]:
        return [
            library.records_in_past(past, start, end, 1, budget)[0], library.profile_past(past, start, end, counts, budget)[0],
            library.follow_past(past, start, end, ALL, [], (1, 1), budget)[0],
        ]  # fmt: skip

    expect("questions about a past that is closed", [codes(0, 0), codes(1, 0, 0)], [[13] * 3, [13] * 3])
    expect("a past", library.begin_past(past, *own.machine(1_000_000), SPACING), 0)
    expect("a run", library.run_past_through(past, 1_100_000), 0)
    before = bytes(library.extent(past)[1])
    bad = (
        (999_999, 1_000_001, 1), (1_000_005, 1_000_004, 1), (1_000_000, 1_100_001, 14), (1_100_001, 1_100_001, 14),
        (1_100_002, 1_100_001, 1), (999_999, 1_100_001, 1),
    )  # fmt: skip
    for start, end, code in bad:
        expect(f"questions from {start} to {end}", codes(start, end), [code] * 3)
    expect("a budget of 0", codes(1_000_000, 1_000_001, 0), [1] * 3)
    expect("a budget of 0, after the end", codes(1_000_000, 1_100_001, 0), [1] * 3)
    here, there = 1_000_000, 1_100_001
    expect("no room for a record", library.records_in_past(past, here, there, 0)[0], 1)
    for lengths in ((WORDS - 1, WORDS), (WORDS, WORDS - 1), (WORDS + 1, WORDS), (0, 0)):
        arrays: Any = [(ctypes.c_uint64 * it)() for it in lengths]
        expect(f"a profile in arrays of {lengths}", library.profile_past(past, here, there, arrays)[0], 1)
    call = Call(here - 1, 5, 9, 6, 0x1000)
    wrong = (
        Call(here, 5, 9, 6, 0x1000), Call(here - 1, WORDS, 9, WORDS + 1, 0x1000), Call(here - 1, 5, 9, 7, 0x1000),
    )  # fmt: skip
    for it in wrong:
        expect(f"a call at {it.count} of {it.at}", library.follow_past(past, here, there, ALL, [it], (2, 1))[0], 1)
    later = Call(here - 1, 5, 9, 6, 0x1001), Call(here - 2, 5, 9, 6, 0x1000)
    expect("calls whose counts fall", library.follow_past(past, here, there, ALL, later, (3, 1))[0], 1)
    expect("no room for a call", library.follow_past(past, here, there, ALL, [call], (1, 1))[0], 1)
    expect("no room for a turn", library.follow_past(past, here, there, ALL, [call], (2, 0))[0], 1)
    expect("a past that is refused questions", bytes(library.extent(past)[1]), before)
    expect("an open call", library.follow_past(past, here, here, ALL, [call], (2, 1))[::3], (0, here))
    for at in (1_000_000, 1_100_000):
        expect("the records of an empty range", library.records_in_past(past, at, at, 1), (0, [], at))
        expect("the profile of an empty range", library.profile_past(past, at, at, counts), (0, at))
        expect("the calls of an empty range", library.follow_past(past, at, at, ALL, [], (1, 1)), (0, [], [], at))
    expect("numbers of refused profiles", any(map(any, counts)), False)
    library.close_past(past)
    print("past: each refusal of a question about a range")
