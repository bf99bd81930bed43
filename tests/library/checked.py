"""The check of a recording by a past: the line of `galluspa_check`, with any budget; each refusal."""

import random

from tests.library.binding import Library, Past, Progress
from tests.library.calls import inputs_and_last
from tests.library.pasts import SPACING, Run, recordings
from tests.library.trial import FACE, changed, expect, fail

# What a call for recordings with one byte changed may say: its line, or that they are of another run, or end after the past.
LINE, OTHER_RUN, LATER = 0, 1, 14


def wanted_of(library: Library, own: Run, text: bytes) -> tuple[int, tuple[bytes, int]]:
    """Returns what a check by the past of a run is to say of a recording."""
    _, line, status = library.answer("check", text, 255)
    if status == 2:
        return 4, (b"", 0xAA)
    inputs, last = inputs_and_last(text)
    end: int = library.claim(text, last)[1].count
    if end > own.end:
        return LATER, (b"", 0xAA)
    _, state, words = library.claim(text, 0)
    before = [[bytes(it) for it in given if it.count < end] for given in (inputs, own.inputs)]
    if (bytes(state), bytes(words)) != own.at(0) or before[0] != before[1]:
        return OTHER_RUN, (b"", 0xAA)
    return LINE, (line, status)


def check_through(library: Library, past: Past, text: bytes, budget: int) -> tuple[tuple[int, tuple[bytes, int]], int]:
    """Checks a recording until there is an answer. Returns it, and how often the budget was spent."""
    progress, spent = Progress(), 0
    while True:
        keyframes, before = library.extent(past)[1].keyframes, bytes(progress)
        code, answer, _ = library.check_past(past, text, progress, budget)
        if code != 12:
            return (code, answer), spent
        spent += 1
        moved = bytes(progress) != before or library.extent(past)[1].keyframes > keyframes
        expect("progress of a check", moved, True)


def check_pasts(library: Library) -> None:
    """The answer of a check by a past is that of `galluspa_check`, in any order, for recordings with a byte changed too."""
    past, chance, spent = Past(), random.Random(19), 0
    found: dict[int, int] = {}
    for text in recordings():
        own = Run(library, text)
        expect("a past that is opened", library.open_past(past, text, SPACING), 0)
        texts = [text, *(changed(text, chance.randrange(12, len(text))) for _ in range(30))]
        texts += [changed(text, len(text) - 1 - it) for it in range(0, 400, 13)]
        for it in texts:
            wanted = wanted_of(library, own, it)
            budget = chance.choice((30_000, 1_000_000, 1 << 40))
            answer, times = check_through(library, past, it, max(budget, own.end // 200))
            expect("a check by a past", answer, wanted)
            found[wanted[0]] = found.get(wanted[0], 0) + 1
            found[-wanted[1][1]] = found.get(-wanted[1][1], 0) + 1
            spent += times
    library.close_past(past)
    if spent < 100 or any(found.get(it, 0) < 5 for it in (LINE, OTHER_RUN, 4, -1)):
        fail(f"checks by pasts have {found}, and {spent} times a budget was spent")
    print(f"past: checks by six pasts have the lines of the check; {spent} budgets were spent")


def check_small_steps(library: Library) -> None:
    """Budgets from 1 on, of a short recording that sends bytes, and of those with a byte changed."""
    text = recordings()[0]
    own, past = Run(library, text), Past()
    expect("a past that is opened", library.open_past(past, text, SPACING), 0)
    texts = [text, *(changed(text, len(text) - 1 - it) for it in range(0, 200, 3))]
    for it in texts:
        wanted = wanted_of(library, own, it)
        for budget in (1, 2, 3, 1000) if own.end < 20_000 else (500, 1_001):
            expect(f"a check in steps of {budget}", check_through(library, past, it, budget)[0], wanted)
    library.close_past(past)
    print("past: checks by a past in small steps have the lines of the check")


def refuse_checks(library: Library) -> None:
    """Each refusal of a check by a past, and that it leaves the past as it is."""
    own, past, progress = Run(library, FACE), Past(), Progress()
    expect("a check by a past that is closed", library.check_past(past, FACE, progress)[0], 13)
    expect("a past that is opened", library.open_past(past, FACE, SPACING), 0)
    before = bytes(library.extent(past)[1])
    _, last = inputs_and_last(FACE)
    first: int = library.claim(FACE, 1)[1].count
    expect("a check without budget", library.check_past(past, FACE, progress, 0)[0], 1)
    expect("no recording, without budget", library.check_past(past, b"", progress, 0)[0], 1)
    expect("no recording", library.check_past(past, FACE[:-1], progress)[0], 4)
    for wrong in (Progress(0, 0, last + 1), Progress(first + 1, 0, 1), Progress(0, 1 << 21, 1)):
        expect(f"a progress of checkpoint {wrong.checkpoint}", library.check_past(past, FACE, wrong)[0], 1)
    expect("a past that is refused checks", bytes(library.extent(past)[1]), before)
    code, line, status = library.answer("check", FACE, 255)
    expect("too little room", library.check_past(past, FACE, progress, room=code - 1)[::2], (2, code))
    expect("just enough room", library.check_past(past, FACE, progress, room=code), (0, (line, status), code))
    expect("a progress that says that other bytes were sent", library.check_past(past, FACE, Progress(0, 0, 1, 1))[1][1], 1)
    expect("a cut", library.cut_past(past, own.end - 1), 0)
    expect("a recording that ends later", library.check_past(past, FACE, progress)[0], 14)
    library.close_past(past)
    print("past: each refusal of a check")
