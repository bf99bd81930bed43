"""Recordings of a past: against those that `galluspa_extend` makes of the same run, and the program's check; each refusal."""

import random
from collections.abc import Sequence

from galluspa.assembler.encoding import ADD, ALWAYS, AND, branch, imm, reg, store
from tests.library.binding import Input, Library, Past
from tests.library.counts import machine
from tests.library.pasts import SPACING, Run, recordings
from tests.library.trial import FACE, PROGRAM, changed, expect, fail, run

ROOM = 1 << 22


def extended(library: Library, own: Run, counts: Sequence[int]) -> bytes:
    """Returns the recording of a run with checkpoints at these counts, by `galluspa_advance` and `galluspa_extend`."""
    state, words = own.machine(0)
    code, text, _ = library.begin(state, words, ROOM)
    for count in counts:
        start = state.count
        due = [it for it in own.inputs if start <= it.count < count]
        code, sent = library.advance(state, words, due, count, 1 << 16)
        expect(f"an advance to {count}", code, 0)
        code, text, _ = library.extend(text, due, state, words, sent, ROOM)
        expect(f"an extension to {count}", code, 0)
    return text


def record(library: Library, past: Past, text: bytes, counts: Sequence[int], budget: int) -> tuple[bytes, int]:
    """Records a past until all counts are recorded: the recording, and how often the budget was spent."""
    recorded = spent = 0
    while True:
        keyframes = library.extent(past)[1].keyframes
        code, more, now, _ = library.record_past(past, text, counts, recorded, budget, ROOM)
        if not code:
            expect("how many counts are recorded", now, len(counts))
            return more, spent
        moved = now > recorded or library.extent(past)[1].keyframes > keyframes
        expect("progress of a recording", (code, recorded <= now < len(counts), moved), (12, True, True))
        expect("the check of a part of a recording", run(PROGRAM, "check", "--disk", given=more)[1], 0)
        text, recorded, spent = more, now, spent + 1


def record_pasts(library: Library) -> None:
    """A past is recorded as its run is by other calls, with any budget, in one call and in parts, and the program accepts each recording."""
    past, chance, spent = Past(), random.Random(3), 0
    for text in recordings():
        own = Run(library, text)
        top = min(own.end, 1_000_000)
        counts = sorted({top, *(chance.randint(1, top) for _ in range(6))})
        wanted = extended(library, own, counts)
        line, status = run(PROGRAM, "check", "--disk", given=wanted)
        expect("the verdict", (line.split()[0], status), (b"accepted", 0))
        for budget in (1 if top < SPACING else 3 * SPACING, top // 3 + 1, 1 << 40):
            expect("a past that is opened", library.open_past(past, text, SPACING), 0)
            found, more = record(library, past, b"", counts, budget)
            expect(f"the recording with a budget of {budget}", found, wanted)
            spent += more
        half = len(counts) // 2
        first, _ = record(library, past, b"", counts[:half], 1 << 40)
        expect("a recording that is gone on with", record(library, past, first, counts[half:], 1 << 40)[0], wanted)
        expect("a recording of no count", library.record_past(past, b"", [])[1], library.begin(*own.machine(0))[1])
        expect(
            "the same recording", library.record_past(past, wanted, counts, len(counts), room=ROOM)[:3], (0, wanted, len(counts))
        )
        expect("too little room", library.record_past(past, b"", counts, room=99)[::3], (2, len(wanted)))
    library.close_past(past)
    if spent < 20:
        fail(f"{spent} budgets were spent")
    print(f"past: recordings of six pasts are those of galluspa_extend, and accepted; {spent} budgets were spent")


def record_live(library: Library) -> None:
    """A live machine is recorded while it runs on, and after a cut."""
    own, past = Run(library, FACE), Past()
    expect("a past that is begun", library.begin_past(past, *own.machine(0), SPACING), 0)
    text, counts = b"", list[int]()
    for end in (50_000, 150_000, 400_000):
        expect("inputs", library.input_past(past, [it for it in own.inputs if (counts or [0])[-1] <= it.count < end]), 0)
        expect("a run", library.run_past_through(past, end), 0)
        counts.append(end)
        text = record(library, past, text, [end], 1 << 40)[0]
        expect(f"the recording up to {end}", text, extended(library, own, counts))
    expect("a cut", library.cut_past(past, 200_000), 0)
    expect("a recording of what was cut", library.record_past(past, text, [200_000])[0], 1)
    expect("a recording after what was cut", library.record_past(past, text, [400_001])[0], 14)
    library.close_past(past)
    print("past: a live machine is recorded")


def refuse_recordings(library: Library) -> None:
    """Each refusal of a recording, and that it leaves a past of the same run."""
    own, past = Run(library, FACE), Past()
    expect("a closed past", library.record_past(past, b"", [1])[0], 13)
    expect("a past that begins later", library.begin_past(past, *own.machine(1_000_000), SPACING), 0)
    expect("its recording", library.record_past(past, b"", [])[0], 1)
    expect("a past", library.open_past(past, FACE, SPACING), 0)
    before = bytes(library.extent(past)[1])
    text = library.record_past(past, b"", [100, 200])[1]
    bad: Sequence[tuple[bytes, Sequence[int], int, int, int]] = (
        (b"", [1], 0, 0, 1), (b"", [1], 2, 1, 1), (b"", [0], 0, 1, 1), (b"", [5, 5], 0, 1 << 40, 1), (b"", [5, 4], 0, 1 << 40, 1),
        (text, [200], 0, 1, 1), (text, [100], 0, 1, 1), (text[:-1], [300], 0, 1, 4), (changed(text, 0), [300], 0, 1, 4),
        (b"a", [300], 0, 1, 4), (text, [own.end + 1], 0, 1, 14), (b"", [1, own.end + 1], 2, 1, 14), (b"a", [own.end + 1], 0, 1, 14),
        (b"a", [1], 0, 0, 1), (b"", [own.end + 1], 2, 1, 1),
    )  # fmt: skip
    for given, counts, recorded, budget, code in bad:
        expect(f"a recording of {counts} from {recorded}", library.record_past(past, given, counts, recorded, budget)[0], code)
    for room in range(0, len(text), len(text) // 5):
        expect("too little room", library.record_past(past, b"", [100, 200], room=room)[::3], (2, len(text)))
    expect("a past that is refused recordings", bytes(library.extent(past)[1]), before)
    refuse_too_much(library, past)
    library.close_past(past)
    print(f"past: {len(bad) + 9} refusals of a recording")


def refuse_too_much(library: Library, past: Past) -> None:
    """What a recording may not have more of: inputs, checkpoints, bytes sent, pages."""
    wait = machine({0: branch(ALWAYS, -1)})
    for count, code in ((1_000_000, 0), (1_000_001, 6)):
        expect("a past with inputs", library.begin_past(past, *wait, SPACING), 0)
        expect("many inputs", library.input_past(past, [Input(7, 4, 65)] * count), 0)
        expect("a run", library.run_past_through(past, 9), 0)
        expect(f"{count:,} inputs, where there may be 1,000,000", library.record_past(past, b"", [8], room=1 << 25)[0], code)
    expect("a past", library.begin_past(past, *wait, SPACING), 0)
    expect("a run", library.run_past_through(past, 5000), 0)
    for count, code in ((4097, 0), (4098, 7)):
        expect(f"{count} checkpoints", library.record_past(past, b"", range(1, count), room=1 << 25)[0], code)
    sends = machine({0: store(0, 5, 8), 1: branch(ALWAYS, -2)})
    sends[0].r[5] = 0xFFFFFFC0
    expect("a past that sends", library.begin_past(past, *sends, SPACING), 0)
    for end, code in (((1 << 21), 0), ((1 << 21) + 1, 8)):
        run_on(library, past, end)
        expect(f"the bytes sent up to {end}", library.record_past(past, b"", [end], room=1 << 22)[0], code)
    # It stores to each page in turn, 5 instructions each.
    fills = machine(
        {0: store(0, 1, 0), 1: imm(ADD, 1, 1, 0x400), 2: reg(AND, 1, 1, 3), 3: imm(ADD, 0, 0, 1), 4: branch(ALWAYS, -5)}
    )
    fills[0].r[0], fills[0].r[1], fills[0].r[3] = 1, 0x200, 0xFFE00
    expect("a past that fills its memory", library.begin_past(past, *fills, SPACING), 0)
    expect("a run", library.run_past_through(past, 66 * 5120), 0)
    for passes, code in ((63, 0), (65, 9)):
        counts = [5120 * it for it in range(1, passes + 1)]
        expect(f"1,024 pages in each of {passes} checkpoints", library.record_past(past, b"", counts, room=1 << 27)[0], code)


def run_on(library: Library, past: Past, to: int) -> None:
    """Runs a past on that sends much."""
    while (code := library.run_past(past, to, room=1 << 20)[0]) in (2, 12):
        pass
    expect(f"a run to {to}", code, 0)
