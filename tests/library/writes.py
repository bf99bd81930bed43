"""The last write of each part of a past, against a loop over single steps; and each refusal of the question."""

import random
from collections.abc import Iterator, Sequence

from tests.library.binding import Library, Past
from tests.library.pasts import SPACING
from tests.library.pasts import Run as WholeRun
from tests.library.searches import FLAGS, H, MASK, Run, accessed
from tests.library.trial import EXAMPLES, FACE, PROGRAM, expect, fail, run
from tests.programs import randomly

# A part: its kind, the register, the address or the kind of input, and the mask.
Part = tuple[int, int, int]
REGISTER, WORD, LEDS, INPUTS, STOP = range(1, 6)
LEDS_AT = (1 << 24) - 64 + 4
SEEDS, STEPS, QUESTIONS = range(6), 120, 60


def is_written(ran: Run, part: Part, changing: int, n: int) -> bool:
    """Returns whether the step of a count writes a part, or changes it, by the conditions of searches."""
    kind, first, mask = part
    if kind == REGISTER and changing:
        return n in ran.counts((13, first, 0, mask))
    if kind == REGISTER:
        return n in ran.counts((14, 0, 0, mask) if first == FLAGS else (10, first, 0, 0))
    if kind == WORD and changing:
        return n in ran.counts((3, first, first + 4, mask))
    if kind == WORD:
        return any(n in ran.counts((2, first + i, first + i + 1, 0)) for i in range(4) if mask >> 8 * i & 255)
    return n in ran.counts({LEDS: (2, LEDS_AT, LEDS_AT + 4, 0), INPUTS: (8, 0, 0, first), STOP: (9, 0, 0, 0)}[kind])


def last_write(ran: Run, part: Part, changing: int, before: int) -> tuple[int, tuple[int, int, int] | None]:
    """Returns the answer to a question about a last write."""
    for n in reversed(range(before)):
        if is_written(ran, part, changing, n):
            taken = [i for i, it in enumerate(ran.events) if (it.count, it.kind) == (n, part[1])]
            return 0, (n, 1, taken[-1]) if part[0] == INPUTS else (n, 0, 0)
    return 11, None


def some_parts(ran: Run) -> Iterator[Part]:
    """Yields parts that a run writes, and some that it does not."""
    yield from ((REGISTER, number, mask) for number in (*range(16), H) for mask in (MASK, 1, 0x80000000))
    yield from ((REGISTER, FLAGS, mask) for mask in (1, 2, 3, 4, 8, 12, 15))
    steps = ((ran.states[n], ran.words(n)) for n in range(ran.steps))
    touched = {byte & ~3 for it in steps for access in [accessed(*it)] if access for byte in access[1] if byte < 1 << 20}
    yield from ((WORD, at, mask) for at in sorted(touched) for mask in (MASK, 0xFF, 0x00FF0000, 0x80000001))
    yield from ((WORD, 0xFFFFC, MASK), (LEDS, 77, 78), (STOP, 77, 0))
    yield from ((INPUTS, kind, 0) for kind in range(1, 7))


def ask(library: Library, past: Past, part: Part, changing: int, before: int, budget: int) -> tuple[int, object, int]:
    """Asks about a last write until there is an answer: its result, the write, and how often the budget was spent."""
    spent = 0
    while True:
        keyframes = library.extent(past)[1].keyframes
        code, write, progress = library.write_in_past(past, part, changing, before, budget)
        if code != 12:
            return code, write, spent
        moved = progress < before or library.extent(past)[1].keyframes > keyframes
        expect("progress of a question about a write", (progress <= before, moved), (True, True))
        before, spent = progress, spent + 1


def runs(library: Library) -> Iterator[tuple[bytes, Run]]:
    """Yields recordings, and their first steps."""
    for name, steps in (("hello", 100), ("keys", 300), ("flags", 60), ("clock", 400)):
        text = run(PROGRAM, "record", given=(EXAMPLES / f"{name}.json").read_bytes())[0]
        yield text, Run.recorded(library, text, min(steps, WholeRun(library, text).end))
    for seed in SEEDS:
        made = randomly.case(seed)
        text = run(PROGRAM, "record", "--disk", given=made.session.text().encode())[0]
        yield text, Run.recorded(library, text, min(made.counts, STEPS, WholeRun(library, text).end))


def ask_writes(library: Library) -> None:
    """The last write of each part is that of a loop over single steps."""
    past, chance, found, none, spent = Past(), random.Random(5), 0, 0, 0
    for text, ran in runs(library):
        expect("a past that is opened", library.open_past(past, text, SPACING), 0)
        parts = list(some_parts(ran))
        for part in [*parts, *chance.choices(parts, k=QUESTIONS)]:
            changing, before = chance.randint(0, 1), chance.choice((ran.steps, chance.randint(0, ran.steps)))
            code, write, more = ask(library, past, part, changing, before, chance.choice((1, 9, 1 << 40)))
            expect(f"the last write of {part} before {before}, {changing}", (code, write), last_write(ran, part, changing, before))
            found, none, spent = found + (not code), none + (code == 11), spent + more
    library.close_past(past)
    if min(found, none) < 100:
        fail(f"{found} questions find a write, {none} none")
    print(f"past: {found} questions find the last write of a part, {none} none; {spent} budgets were spent")


def late_writes(library: Library) -> None:
    """A late write is found through keyframes, with any budget, and it is the last hit of the conditions."""
    own, past, spent = WholeRun(library, FACE), Past(), 0
    expect("a past that is opened", library.open_past(past, FACE, SPACING), 0)
    for part, condition in (
        ((REGISTER, 3, MASK), (10, 3, 0, 0)),
        ((REGISTER, H, MASK), (10, H, 0, 0)),
        ((REGISTER, FLAGS, 2), (14, 0, 0, 2)),
    ):
        for budget in (SPACING, 1 << 40):
            code, write, more = ask(library, past, part, 0, own.end, budget)
            wanted, hit = library.find(*own.machine(0), own.inputs, own.end, [condition], 1)
            expect(f"the last write of {part}", (code, write), (wanted, (hit[0], 0, 0) if hit else None))
            spent += more
    library.close_past(past)
    print(f"past: late writes; {spent} budgets were spent")


def refuse_writes(library: Library) -> None:
    """Each refusal of a question about a write, and that it leaves the past as it is."""
    own, past, stop = WholeRun(library, FACE), Past(), (STOP, 0, 0)
    expect("a closed past", library.write_in_past(past, (0, 0, 0), 2, 0, 0)[0], 13)
    expect("a past", library.begin_past(past, *own.machine(1_000_000), SPACING), 0)
    expect("a run", library.run_past_through(past, 1_100_000), 0)
    before = bytes(library.extent(past)[1])
    bad: Sequence[Part] = (
        (0, 0, 1), (6, 0, 1), (REGISTER, 18, 1), (REGISTER, 3, 0), (REGISTER, FLAGS, 0), (REGISTER, FLAGS, 16), (REGISTER, FLAGS, 1 << 31),
        (WORD, 2, 1), (WORD, 1 << 20, 1), (WORD, 4, 0), (INPUTS, 0, 0), (INPUTS, 7, 0),
    )  # fmt: skip
    for part in bad:
        expect(f"the part {part}", library.write_in_past(past, part, 0, 1_000_001)[0], 1)
        expect(f"the part {part}, after the end", library.write_in_past(past, part, 1, 1_100_001)[0], 1)
    expect("the count before the first", library.write_in_past(past, stop, 0, 999_999)[0], 1)
    expect("a count after the end", [library.write_in_past(past, stop, it, 1_100_001)[0] for it in (0, 1)], [14, 14])
    expect("a budget of 0", library.write_in_past(past, stop, 0, 1_000_001, 0)[0], 1)
    expect("another kind of write", library.write_in_past(past, stop, 2, 1_000_001)[0], 1)
    expect("a past that is refused questions", bytes(library.extent(past)[1]), before)
    for part in (stop, (LEDS, 0, 0), (REGISTER, 0, 1)):
        expect("a write before the first count", library.write_in_past(past, part, 0, 1_000_000)[0], 11)
    library.close_past(past)
    print("past: each refusal of a question about a write")
