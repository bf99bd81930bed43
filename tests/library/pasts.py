"""The past of a run, against `galluspa_advance`: counts in any order, with any budget; live machines; searches; each refusal."""

import copy
import ctypes
import json
import random
from collections.abc import Sequence
from pathlib import Path

from tests.library.binding import NO_COUNT, WORDS, Input, Library, Past, Sought, State, Words
from tests.library.calls import inputs_and_last
from tests.library.trial import EXAMPLES, FACE, PROGRAM, WARNINGS, expect, fail, run
from tests.programs import randomly

SPACING = 65_536
# What a machine is at a count: its state and its words.
Machine = tuple[bytes, bytes]


class Run:
    """The run of a recording, by `galluspa_advance` from its initial state."""

    def __init__(self, library: Library, text: bytes) -> None:
        self.library, self.text = library, text
        self.inputs, last = inputs_and_last(text)
        self.end: int = library.claim(text, last)[1].count
        _, state, words = library.claim(text, 0)
        self.known: dict[int, Machine] = {0: (bytes(state), bytes(words))}

    def at(self, count: int) -> Machine:
        """Returns the machine at a count."""
        if count not in self.known:
            before = max(it for it in self.known if it < count)
            state, words = (
                State.from_buffer_copy(self.known[before][0]),
                (ctypes.c_uint32 * WORDS).from_buffer_copy(self.known[before][1]),
            )
            expect(f"an advance to {count}", self.library.advance(state, words, self.inputs, count)[0], 0)
            self.known[count] = bytes(state), bytes(words)
        return self.known[count]

    def machine(self, count: int) -> tuple[State, Words]:
        """Returns a machine of its own at a count."""
        state, words = self.at(count)
        return State.from_buffer_copy(state), (ctypes.c_uint32 * WORDS).from_buffer_copy(words)

    def sent(self, start: int, end: int) -> bytes:
        """Returns the bytes that the machine sends from one count up to another."""
        code, sent = self.library.advance(*self.machine(start), self.inputs, end, 1 << 16)
        expect(f"an advance from {start} to {end}", code, 0)
        return sent

    def until(self, count: int, inputs: Sequence[Input]) -> "Run":
        """Returns the run that takes other inputs from a count on."""
        other = copy.copy(self)
        other.inputs = [*(it for it in self.inputs if it.count < count), *inputs]
        other.known = {at: it for at, it in self.known.items() if at <= count}
        return other


def recordings() -> Sequence[bytes]:
    """Returns recordings of all versions; one has answers of a disk."""
    session = json.loads((EXAMPLES / "clock.json").read_text())
    session |= {"version": 3, "inputs": [[3, "disk", 0xFFFFFFFF], *session["inputs"]]}
    session["start"] |= {"rate": 0, "phase": 0, "disk": 0x12345678}
    texts = [(EXAMPLES / f"{name}.json").read_bytes() for name in ("hello", "keys", "snake")]
    recorded = [run(PROGRAM, "record", given=it)[0] for it in texts]
    with_disk = run(PROGRAM, "record", "--disk", given=json.dumps(session).encode())[0]
    expect("the version of a recording with a disk", with_disk[4:8], b"\3\0\0\0")
    return [*recorded, with_disk, FACE, (EXAMPLES / "face-version-1.orsr").read_bytes()]


def compare_moment(own: Run, state: State, pages: Sequence[tuple[int, bytes]], at: int, since: int) -> None:
    """A state and pages are those of the run: the pages are those that differ, in the order of their slots."""
    wanted, words = own.at(at)
    base = bytes(4 * WORDS) if since == NO_COUNT else own.at(since)[1]
    expect(f"the state at {at}", bytes(state), wanted)
    differ = [it for it in range(1024) if base[1024 * it : 1024 * it + 1024] != words[1024 * it : 1024 * it + 1024]]
    expect(f"the pages at {at} from {since}", pages, [(it, words[1024 * it : 1024 * it + 1024]) for it in differ])


def ask(library: Library, past: Past, own: Run, at: int, since: int, budget: int) -> int:
    """Asks about a count until there is an answer, and compares it. Returns how often the budget was spent."""
    spent = 0
    keyframes = library.extent(past)[1].keyframes
    while (found := library.look(past, at, since, budget))[0] == 12:
        spent += 1
        expect("a keyframe more", (now := library.extent(past)[1].keyframes) > keyframes, True)
        keyframes = now
    code, state, pages, number = found
    expect(f"a question about {at} from {since}", (code, number), (0, len(pages)))
    compare_moment(own, state, pages, at, since)
    if pages:
        expect("too little room", library.look(past, at, since, budget, len(pages) - 1)[::3], (2, len(pages)))
    expect("just enough room", library.look(past, at, since, budget, len(pages))[0], 0)
    return spent


def look_near(library: Library, past: Past, own: Run, at: int, since: int, spacing: int) -> None:
    """The keyframe at or before a count, and no other."""
    extent = library.extent(past)[1]
    code, state, pages, _ = library.look(past, at, since, None)
    far = since != NO_COUNT and since > extent.reached + spacing and not State.from_buffer_copy(own.at(extent.reached)[0]).stop
    expect(f"near {at} from {since}", code, 12 if far else 0)
    if not far:
        keyframe = spacing * min(at // spacing, extent.keyframes - 1)
        expect("the keyframe", state.count, keyframe)
        compare_moment(own, state, pages, keyframe, since)


def keep_pasts(library: Library) -> None:
    """What a past answers is of the one run, in any order, from any count and with any budget."""
    past, chance, questions, spent = Past(), random.Random(5), 0, 0
    for text in recordings():
        own = Run(library, text)
        counts = sorted(
            {0, min(1, own.end), own.end, own.end // SPACING * SPACING, *(chance.randint(0, own.end) for _ in range(9))}
        )
        for spacing in (SPACING, 0):
            expect("a past that is opened", library.open_past(past, text, spacing), 0)
            code, extent = library.extent(past)
            found = (code, extent.first, extent.end, extent.reached, extent.keyframes, extent.inputs)
            expect("its extent", found, (0, 0, own.end, 0, 1, len(own.inputs)))
            for _ in range(16):
                at, since = chance.choice(counts), chance.choice([NO_COUNT, *counts])
                spent += ask(library, past, own, at, since, chance.choice([1, SPACING, 1_000_000, 1 << 40]))
                look_near(library, past, own, chance.choice(counts), chance.choice([NO_COUNT, *counts]), spacing or 1 << 20)
                questions += 2
            expect("a count after the end", library.look(past, own.end + 1)[0], 14)
            expect("from a count after the end", library.look(past, 0, own.end + 1)[0], 14)
            expect("near a count after the end", library.look(past, own.end + 1, budget=None)[0], 14)
            expect("a budget of 0", library.look(past, own.end, budget=0)[0], 1)
    if not spent:
        fail("no budget was spent")
    library.close_past(past)
    print(f"past: {questions} questions about six recordings are answered as by galluspa_advance; {spent} times a budget was spent")


def run_on(library: Library, past: Past, own: Run, to: int, budget: int, room: int) -> int:
    """Runs a past on to a count, and compares where calls end and what the machine sends. Returns how many calls end early."""
    early, start, sent = 0, library.extent(past)[1].end, b""
    while True:
        before = library.extent(past)[1]
        code, more = library.run_past(past, to, budget, room)
        now = library.extent(past)[1]
        sent += more
        if code == 0:
            expect("the end of a past that ran on", now.end, to)
            expect(f"what is sent from {start} to {to}", sent, own.sent(start, to))
            return early
        expect("how a run ends early", (code in (2, 12), now.end < to), (True, True))
        if code == 2:
            expect("no room", (len(more), len(own.sent(start, now.end + 1))), (room, len(sent) + 1))
        else:
            expect("progress", now.end > before.end or now.keyframes > before.keyframes, True)
        early += 1


def other_inputs(chance: random.Random, count: int) -> list[Input]:
    """Returns some inputs from a count on."""
    counts = sorted(count + chance.choice((0, 1, 50, 5_000)) for _ in range(chance.randint(0, 4)))
    return [Input(it, 4, chance.randint(0, 255)) for it in counts]


def compare_counts(library: Library, past: Past, own: Run, chance: random.Random) -> None:
    """Compares some states of a past with those of a run, among them the first one and the last one."""
    extent = library.extent(past)[1]
    for at in (extent.first, extent.end, chance.randint(extent.first, extent.end)):
        ask(library, past, own, at, chance.choice([NO_COUNT, extent.first, extent.end]), chance.choice([SPACING, 1 << 40]))
    expect("the inputs", extent.inputs, len(own.inputs))


def run_live_pasts(library: Library) -> None:
    """Pasts that take inputs, run on, branch and are cut have the states and the bytes of the run with these inputs."""
    past, branch, chance, early, cuts = Past(), Past(), random.Random(7), 0, 0
    for text in recordings():
        whole = Run(library, text)
        _, state, words = library.claim(text, 0)
        expect("a live machine", library.begin_past(past, state, words, SPACING), 0)
        own, end = whole.until(0, []), 0
        while end < whole.end:
            to = min(end + chance.choice((1, 100, whole.end // 5 + 1)), whole.end)
            due = [it for it in whole.inputs if end <= it.count < to]
            own.inputs = [*own.inputs, *due]
            expect("inputs of a past", library.input_past(past, due), 0)
            budget = chance.choice((1, 7) if to - end <= 100 else ((to - end) // 9, SPACING, 1 << 40))
            early += run_on(library, past, own, to, budget, chance.choice((1, 3, 4096)))
            end = to
            if chance.random() < 0.3:
                compare_counts(library, past, own, chance)
        compare_counts(library, past, own, chance)
        for _ in range(4):
            at, now = chance.choice((0, end, chance.randint(0, end))), bytes(library.extent(past)[1])
            expect("a branch", library.branch_past(past, at, branch), 0)
            expect("a past that has a branch", bytes(library.extent(past)[1]), now)
            expect("the end of a branch", library.extent(branch)[1].end, at)
            shorter = own.until(at, [])
            compare_counts(library, branch, shorter, chance)
            cut = chance.randint(0, at)
            expect("a cut", library.cut_past(branch, cut), 0)
            expect("the end of a past that is cut", library.extent(branch)[1].end, cut)
            inputs = other_inputs(chance, cut)
            expect("other inputs", library.input_past(branch, inputs), 0)
            other = own.until(cut, inputs)
            early += run_on(library, branch, other, cut + chance.choice((0, 1, 300_000)), 1 << 40, 4096)
            compare_counts(library, branch, other, chance)
            compare_counts(library, past, own, chance)
            cuts += 1
    library.close_past(past)
    library.close_past(branch)
    if early < 20:
        fail(f"only {early} runs end early")
    print(f"past: six live machines run as by galluspa_advance; {early} calls end early, {cuts} branches are cut and run on")


def refuse_live_pasts(library: Library) -> None:
    """Each refusal of the calls with a live machine, and that it leaves the past as it is."""
    own, past, branch = Run(library, FACE), Past(), Past()
    first, end = 1_000_000, 1_100_000
    state, words = State.from_buffer_copy(own.at(first)[0]), (ctypes.c_uint32 * WORDS).from_buffer_copy(own.at(first)[1])

    def results() -> list[int]:
        return [
            library.input_past(past, []), library.input_past(past, [Input(0, 9, 0)]), library.run_past(past, end)[0],
            library.run_past(past, 0, 0)[0], library.cut_past(past, end), library.branch_past(past, end, branch),
        ]  # fmt: skip

    expect("calls with a past that is closed", results(), [13] * 6)
    expect("a past", library.begin_past(past, state, words, SPACING), 0)
    expect("inputs", library.input_past(past, [Input(first, 4, 28), Input(end + 5, 4, 240)]), 0)
    expect("a run", library.run_past_through(past, end), 0)
    before = bytes(library.extent(past)[1])
    bad = [
        [(end - 1, 4, 1)], [(end + 4, 4, 1)], [(end + 9, 4, 1), (end + 8, 4, 1)], [((1 << 40) + 1, 4, 1)], [(end + 9, 0, 1)],
        [(end + 9, 7, 1)], [(end + 9, 4, 256)], [(end + 9, 4, 1), (end + 9, 260, 1)],
    ]  # fmt: skip
    for inputs in bad:
        expect(f"inputs {inputs}", library.input_past(past, [Input(*it) for it in inputs]), 1)
    for to, budget in ((end - 1, 1), (0, 1), (end, 0), (end + 1, 0)):
        expect(f"a run to {to} with the budget {budget}", library.run_past(past, to, budget)[0], 1)
    for at, code in ((first - 1, 1), (0, 1), (end + 1, 14), (NO_COUNT, 14)):
        expect(f"a cut at {at}", library.cut_past(past, at), code)
        expect("a past", library.begin_past(branch, state, words), 0)
        expect(f"a branch at {at}", library.branch_past(past, at, branch), code)
    expect("a past that is refused things", bytes(library.extent(past)[1]), before)
    expect("inputs as late as can be", library.input_past(past, [Input(end + 5, 4, 1), Input(1 << 40, 4, 1)]), 0)
    expect("a run to the end", library.run_past(past, end, 1, 0), (0, b""))
    expect("a cut at the end", (library.cut_past(past, end), library.extent(past)[1].inputs), (0, 1))
    expect("a cut at the first count", (library.cut_past(past, first), library.extent(past)[1].inputs), (0, 0))
    expect("a branch", library.branch_past(past, first, branch), 0)
    library.close_past(past)
    expect("a branch of a past that is closed", library.branch_past(past, first, branch), 13)
    print("past: each refusal of a live machine leaves its past as it is")


# Conditions of searches: some hold often, some rarely, some never; the last are joined.
CONDITIONS: Sequence[Sequence[Sought]] = (
    [(6, 0, 0, 0)], [(7, 0, 0, 10)], [(8, 0, 0, 4)], [(9, 0, 0, 0)], [(10, 3, 0, 0)], [(2, 0xE7F00, 0xFFFFF, 0)], [(1, 0, 1, 0)],
    [(5, 0, 0, 0)], [(3, 0, 1 << 20, 0x01010101)], [], [(1, 0, 1 << 22, 0)], [(10, 0, 0, 0)], [(9, 0, 0, 0), (6, 0, 0, 0), (8, 0, 0, 6)],
    [(1 | 1 << 31, 0, 1 << 22, 0), (11, 1, 0, 0, 1, 300)],
)  # fmt: skip


def find_in(
    library: Library, past: Past, start: int, end: int, conditions: Sequence[Sought], wanted: int, budget: int
) -> tuple[int, object, int]:
    """Searches a past until there is an answer: its result, the hit, and how often the budget was spent."""
    spent = 0
    while True:
        keyframes = library.extent(past)[1].keyframes
        code, hit, progress = library.find_in_past(past, start, end, conditions, wanted, budget)
        if code != 12:
            return code, hit, spent
        expect("how far a search came", start <= progress <= end and progress != (start if wanted else end), True)
        moved = progress != (end if wanted else start)
        expect("progress of a search", moved or library.extent(past)[1].keyframes > keyframes, True)
        start, end, spent = (start, progress, spent + 1) if wanted else (progress, end, spent + 1)


def hits_in(
    library: Library, past: Past, start: int, end: int, conditions: Sequence[Sought], room: int, budget: int
) -> tuple[list[tuple[int, int]], int]:
    """Searches a past for all hits until they are all there: these, and how often the budget was spent."""
    found: list[tuple[int, int]] = []
    spent = 0
    while True:
        keyframes = library.extent(past)[1].keyframes
        code, more, at = library.hits_in_past(past, start, end, conditions, room, budget)
        found += more
        if code == 12:
            spent += 1
            moved = at > start or library.extent(past)[1].keyframes > keyframes
            expect("progress of a search", start <= at < end and moved, True)
        else:
            expect("a search for all hits", code, 0)
            expect("where it goes on", at, more[-1][0] + 1 if len(more) == room else end)
            if at == end:
                return found, spent
        start = at


def compare_search(library: Library, past: Past, own: Run, chance: random.Random, start: int, end: int) -> tuple[int, int]:
    """Compares searches of a range with those of the machine at its first count. Returns how many hits there are, and how often the
    budget was spent."""
    conditions = chance.choice(CONDITIONS)
    budgets = (1, 5, 1 << 40) if end - start <= 100 else ((end - start) // 5, SPACING, 1 << 40)
    listed = spent = 0
    for wanted in (0, 1):
        code, hit, more = find_in(library, past, start, end, conditions, wanted, chance.choice(budgets))
        here = library.find(*own.machine(start), own.inputs, end, conditions, wanted)
        expect(f"{conditions} from {start} to {end}", (code, hit), here)
        spent += more
    near = min(end, start + 20_000)
    found, more = hits_in(
        library, past, start, near, conditions, chance.choice((1 if near - start <= 100 else 999, 5_000)), chance.choice(budgets)
    )
    expect(
        f"all of {conditions} from {start} to {near}",
        (0, found),
        library.hits(*own.machine(start), own.inputs, near, conditions, 1 << 15),
    )
    listed += len(found)
    return listed, spent + more


def search_pasts(library: Library) -> None:
    """What searches of a past find is what galluspa_find and galluspa_hits find, in any order, with any budget."""
    past, chance, listed, spent = Past(), random.Random(11), 0, 0
    programs = (run(PROGRAM, "record", "--disk", given=randomly.case(seed).session.text().encode())[0] for seed in range(6))
    for text in (*recordings(), *programs):
        own = Run(library, text)
        expect("a past that is opened", library.open_past(past, text, SPACING), 0)
        for _ in range(8):
            start = chance.choice((0, chance.randint(0, own.end)))
            end = min(own.end, start + chance.choice((0, 1, 100, 3_000_000)))
            hits, more = compare_search(library, past, own, chance, start, end)
            listed, spent = listed + hits, spent + more
    library.close_past(past)
    if listed < 1000 or spent < 100:
        fail(f"searches of pasts list {listed} hits, and {spent} times a budget was spent")
    print(
        f"past: searches of twelve pasts find what galluspa_find and galluspa_hits find, {listed} hits; {spent} budgets were spent"
    )


def refuse_past_searches(library: Library) -> None:
    """Each refusal of a search of a past."""
    own, past = Run(library, FACE), Past()
    sends: list[Sought] = [(6, 0, 0, 0)]
    expect(
        "a closed past", [library.find_in_past(past, 0, 0, [], 2, 0)[0], library.hits_in_past(past, 0, 0, [], 0, 0)[0]], [13, 13]
    )
    expect("a past", library.begin_past(past, *own.machine(1_000_000), SPACING), 0)
    expect("a run", library.run_past_through(past, 1_100_000), 0)
    before = bytes(library.extent(past)[1])
    bad: list[tuple[int, int, Sequence[Sought], int]] = [
        (999_999, 1_000_001, sends, 1), (1_000_005, 1_000_004, sends, 1), (1_000_000, 1_100_001, sends, 14),
        (1_100_001, 1_100_001, sends, 14), (1_100_002, 1_100_001, sends, 1), (999_999, 1_100_001, sends, 1),
        (1_000_000, 1_000_001, sends * 65, 1),
        (1_000_000, 1_100_001, [(0, 0, 1, 0)], 1), (1_000_000, 1_000_001, [(6 + (1 << 31), 0, 0, 0)], 1),
        (1_000_000, 1_000_001, [(5, 18, 0, 0)], 1),
    ]  # fmt: skip
    for start, end, conditions, code in bad:
        codes = [library.find_in_past(past, start, end, conditions, wanted)[0] for wanted in (0, 1)]
        codes.append(library.hits_in_past(past, start, end, conditions, 1)[0])
        expect(f"a search of {conditions} from {start} to {end}", codes, [code] * 3)
    here, there = 1_000_000, 1_000_001
    expect("a budget of 0", [library.find_in_past(past, here, there, sends, it, 0)[0] for it in (0, 1)], [1, 1])
    expect("a budget of 0 for all hits", library.hits_in_past(past, here, there, sends, 1, 0)[0], 1)
    expect("another hit than the first or the last", library.find_in_past(past, here, there, sends, 2)[0], 1)
    expect("room for no hit", library.hits_in_past(past, here, there, sends, 0)[0], 1)
    expect("a past that is refused searches", bytes(library.extent(past)[1]), before)
    for at in (1_000_000, 1_100_000):
        expect("an empty range", [library.find_in_past(past, at, at, sends, it)[0] for it in (0, 1)], [11, 11])
        expect("all hits of an empty range", library.hits_in_past(past, at, at, sends, 1), (0, [], at))
    library.close_past(past)
    print("past: each refusal of a search")


def begin_pasts(library: Library) -> None:
    """The past of a machine at a count has this count alone."""
    own, past = Run(library, FACE), Past()
    state, words = State.from_buffer_copy(own.at(1_000_000)[0]), (ctypes.c_uint32 * WORDS).from_buffer_copy(own.at(1_000_000)[1])
    for spacing in (0, SPACING, (1 << 64) - 1):
        expect("a past that is begun", library.begin_past(past, state, words, spacing), 0)
        code, it = library.extent(past)
        expect(
            "its extent", (code, it.first, it.end, it.reached, it.keyframes, it.inputs), (0, 1_000_000, 1_000_000, 1_000_000, 1, 0)
        )
        for since in (NO_COUNT, 1_000_000):
            for budget in (1, None):
                code, now, pages, _ = library.look(past, 1_000_000, since, budget)
                expect("its first count", code, 0)
                compare_moment(own, now, pages, 1_000_000, since)
        for budget in (1, None):
            expect("the count before", library.look(past, 999_999, budget=budget)[0], 1)
            expect("from the count before", library.look(past, 1_000_000, 999_999, budget)[0], 1)
            expect("the count after", library.look(past, 1_000_001, budget=budget)[0], 14)
            expect("the count after, from the count before", library.look(past, 1_000_001, 999_999, budget)[0], 1)
    library.close_past(past)
    print("past: a machine's has its count alone")


def refuse_pasts(library: Library) -> None:
    """Each refusal, and that a handle is zeros after it and after closing."""
    past, text = Past(), FACE
    _, state, words = library.claim(text, 0)

    def opened() -> None:
        expect("a past that is open", library.open_past(past, text), 0)

    def is_closed() -> None:
        expect("the extent of none", library.extent(past)[0], 13)
        expect("a count of none", [library.look(past, 0, budget=it)[0] for it in (1, 0, None)], [13] * 3)

    is_closed()
    library.close_past(past)
    opened()
    opened()
    library.close_past(past)
    library.close_past(past)
    is_closed()
    for spacing in (1, SPACING - 1):
        opened()
        expect(f"a spacing of {spacing}", library.open_past(past, text, spacing), 1)
        is_closed()
        opened()
        expect(f"a beginning with a spacing of {spacing}", library.begin_past(past, state, words, spacing), 1)
        is_closed()
    for wrong in (b"", text[:-1], text + b"\0"):
        opened()
        expect("no recording", library.open_past(past, wrong), 4)
        is_closed()
    half: Words = (ctypes.c_uint32 * (WORDS // 2))()
    bad_machines: list[tuple[dict[str, int], Words]] = [
        ({}, half), (dict(pc=4194304), words), (dict(key_count=17), words), (dict(stop=5), words),
    ]  # fmt: skip
    for fields, memory in bad_machines:
        opened()
        bad = State.from_buffer_copy(bytes(state))
        for name, value in fields.items():
            setattr(bad, name, value)
        expect(f"a beginning with {fields}", library.begin_past(past, bad, memory), 1)
        is_closed()
    other = Past()
    hello = run(PROGRAM, "record", given=(EXAMPLES / "hello.json").read_bytes())[0]
    opened()
    expect("a second past", library.open_past(other, hello), 0)
    own = Run(library, hello)
    ask(library, other, own, own.end, NO_COUNT, 1 << 40)
    library.close_past(past)
    ask(library, other, own, 0, own.end, 1 << 40)
    library.close_past(other)
    print("past: each refusal leaves a handle of zeros, and two pasts live beside one another")


def refuse_memory(folder: Path, flags: Sequence[str]) -> None:
    """Each request for memory of the calls with a past refused in turn: its run stays, and nothing is left of it."""
    program = f"{folder}/past"
    wrapped = ["-Wl,--wrap=malloc,--wrap=realloc,--wrap=free"]
    expect("past.c", run("cc", *WARNINGS, str(Path(__file__).with_name("past.c")), *flags, *wrapped, "-o", program), (b"", 0))
    output, status = run(program, str(EXAMPLES / "face.orsr"))
    if status:
        fail(f"past: {output.decode()}")
    print(f"past: refused in turn, each request of {output.decode()}", end="")
