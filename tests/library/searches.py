"""Searches of the library, against a loop over single steps that tests each condition at each count."""

import ctypes
from collections.abc import Iterator, Sequence
from dataclasses import dataclass, field
from itertools import chain
from random import Random

from tests.library.binding import WORDS, Input, Library, Sought, State, Words
from tests.library.calls import inputs_and_last
from tests.library.trial import EXAMPLES, PROGRAM, expect, fail, run
from tests.programs import randomly

Memory = Words | memoryview
MASK = 0xFFFFFFFF
H, FLAGS = 16, 17
ADD, SUB, MUL, DIV = 8, 9, 10, 11
# What is added to the kind of a condition that is joined to the next one.
AND = 1 << 31
# How many lists of joined conditions are sought in each run; and the random programs, and how many of their steps are examined.
JOINED_LISTS = 30
RANDOM_SEEDS, RANDOM_STEPS = range(6), 120


def accessed(state: State, words: Memory) -> tuple[bool, range] | None:
    """Returns whether the next instruction stores, and the addresses of the bytes that it accesses; None if it accesses none."""
    if state.stop or state.pc >= WORDS or words[state.pc] >> 30 != 2:
        return None
    word = words[state.pc]
    address = (state.r[word >> 20 & 15] + ((word & 0xFFFFF) ^ 0x80000) - 0x80000) % (1 << 24)
    if 1 << 20 <= address < (1 << 24) - 64:
        return None
    first, count = (address, 1) if word >> 28 & 1 else (address & ~3, 4)
    return bool(word >> 29 & 1), range(first, first + count)


def register(state: State, number: int) -> int:
    """Returns a register, H or the flags, by the number that a condition has for it."""
    return state.r[number] if number < 16 else (state.h, state.flags)[number - 16]


def is_taken(number: int, flags: int) -> bool:
    """Returns whether a branch with this condition is taken."""
    n, z, c, v = (bool(flags & bit) for bit in (8, 4, 2, 1))
    return (n, z, c, v, c or z, n != v, n != v or z, True)[number & 7] != (number >= 8)


def written(state: State, words: Memory) -> set[int]:
    """Returns the registers that the next instruction writes if it does not stop the machine, by their numbers."""
    if state.stop or state.pc >= WORDS:
        return set()
    word = words[state.pc]
    if word >> 30 == 3:
        links = word >> 28 & 1 and is_taken(word >> 24 & 15, state.flags)
        return {15, FLAGS} if links else set()
    if word >> 30 == 2:
        return set() if word >> 29 & 1 else {word >> 24 & 15, FLAGS}
    return {word >> 24 & 15, FLAGS} | ({H} if word >> 16 & 15 in (MUL, DIV) else set())


def written_flags(state: State, words: Memory) -> int:
    """Returns the flags that the next instruction writes if it does not stop the machine: N is 8, Z 4, C 2 and V 1."""
    if FLAGS not in written(state, words):
        return 0
    word = words[state.pc]
    return 15 if word >> 31 == 0 and word >> 16 & 15 in (ADD, SUB) else 12


def is_from_to(value: int, least: int, most: int) -> bool:
    """Returns whether a value is one of a range that goes round."""
    return value - least & MASK <= most - least & MASK


def holds(
    condition: Sought, before: State, after: State, memory: Memory, later: Memory, inputs: Sequence[Input], sent: bytes
) -> bool:
    """Returns whether a condition holds at a step: by the machine and its memory before and after it, the inputs of its count, and
    what it sent."""
    kind, first, end, value, least, most = (*condition, 0, 0)[:6]
    stores, reached = accessed(before, memory) or (False, range(0))
    within = any(first <= byte < end for byte in reached)
    return bool({
        1: lambda: not before.stop and first <= before.pc < end,
        2: lambda: within and stores,
        3: lambda: any((memory[byte >> 2] ^ later[byte >> 2]) & value & 255 << 8 * (byte & 3) for byte in range(first, end)),
        4: lambda: within and not stores,
        5: lambda: register(before, first) != value == register(after, first),
        6: lambda: sent,
        7: lambda: sent == bytes([value]),
        8: lambda: not before.stop and any(it.kind == value for it in inputs),
        9: lambda: not before.stop and after.stop,
        10: lambda: not after.stop and first in written(before, memory),
        11: lambda: not before.stop and is_from_to(register(before, first), least, most),
        12: lambda: not before.stop and is_from_to(memory[first >> 2] & value, least, most),
        13: lambda: (register(before, first) ^ register(after, first)) & value,
        14: lambda: not after.stop and written_flags(before, memory) & value,
    }[kind]())  # fmt: skip


def some_conditions(states: Sequence[State], memories: Sequence[Memory]) -> Iterator[Sequence[Sought]]:
    """Conditions that hold at some counts of a run, and some that hold at none."""
    pcs = sorted({it.pc for it in states})
    touched = sorted(
        {byte for it, memory in zip(states, memories) for access in [accessed(it, memory)] if access for byte in access[1]}
    )
    yield from ([(1, pc, pc + 1, 0)] for pc in (pcs[0], pcs[len(pcs) // 2], pcs[-1]))
    yield from ([it] for it in ((1, pcs[-1] + 1, 1 << 22, 0), (6, 0, 0, 0), (9, 0, 0, 0), (8, 0, 0, 4), (8, 0, 0, 5), (8, 0, 0, 6)))
    yield []
    for byte in touched[:: 1 + len(touched) // 5]:
        ram = [[(3, byte, byte + 1, mask)] for mask in (0xFFFFFFFF, 0x01010101, 0x80808080)] if byte < 1 << 20 else []
        yield from ([(2, byte, byte + 1, 0)], [(4, byte, byte + 1, 0)], [(2, max(byte - 3, 0), byte, 0)], *ram)
        if byte < 1 << 20:
            word = memories[-1][byte >> 2]
            yield from ([(12, byte & ~3, 0, mask, word & mask, word & mask)] for mask in (MASK, 0xFF00, 1))
            yield [(12, byte & ~3, 0, MASK, word + 1 & MASK, word - 1 & MASK)]
    for number in range(18):
        values = [register(it, number) for it in states]
        yield [(5, number, 0, values[len(values) // 2])]
        yield [(5, number, 0, values[-1])]
        yield [(10, number, 0, 0)]
        yield [(11, number, 0, 0, values[-1], values[-1])]
        bits = 15 if number == FLAGS else MASK
        yield [(11, number, 0, 0, values[0] + 1 & bits, values[0] - 1 & bits)]
        yield from ([(13, number, 0, mask)] for mask in (bits, 1, 0x80000008 & bits))
    yield from ([(14, 0, 0, mask)] for mask in (1, 2, 4, 8, 15))
    yield from ([(7, 0, 0, byte)] for byte in b"Hl")
    yield [(9, 0, 0, 0), (6, 0, 0, 0), (1, pcs[-1], pcs[-1] + 1, 0), (1, pcs[0], 1 << 22, 0)]


def some_joined(rng: Random, conditions: Sequence[Sought]) -> Iterator[Sequence[Sought]]:
    """Lists of some of these conditions, of which up to four are joined with one another."""
    for _ in range(JOINED_LISTS):
        yield [
            (condition[0] + AND * (rest > 0), *condition[1:])
            for clauses in (rng.randint(1, 4) for _ in range(rng.randint(1, 3)))
            for rest, condition in zip(range(clauses - 1, -1, -1), rng.sample(conditions, clauses))
        ]


@dataclass(frozen=True)
class Run:
    """A run step by step: its inputs, the machine at each count, and what each step sent."""

    events: Sequence[Input]
    states: Sequence[State]
    memories: Sequence[bytes]
    outputs: Sequence[bytes]
    # The counts at which the conditions of a search hold.
    known: dict[Sought, frozenset[int]] = field(default_factory=dict)

    @staticmethod
    def recorded(library: Library, text: bytes, steps: int) -> "Run":
        """Returns the first steps of a recording."""
        events, _ = inputs_and_last(text)
        _, state, words = library.claim(text, 0)
        states, memories, outputs = [State.from_buffer_copy(bytes(state))], [bytes(words)], []
        for count in range(steps):
            outputs.append(library.advance(state, words, [it for it in events if it.count == count], count + 1)[1])
            states.append(State.from_buffer_copy(bytes(state)))
            memories.append(bytes(words) if bytes(words) != memories[-1] else memories[-1])
        return Run(events, states, memories, outputs)

    @property
    def steps(self) -> int:
        """How many steps there are."""
        return len(self.outputs)

    def words(self, count: int) -> memoryview:
        """Returns the memory at a count."""
        return memoryview(self.memories[count]).cast("I")

    def machine(self, count: int) -> tuple[State, Words]:
        """Returns a machine of its own at a count."""
        memory = (ctypes.c_uint32 * WORDS).from_buffer_copy(self.memories[count])
        return State.from_buffer_copy(bytes(self.states[count])), memory

    def counts(self, condition: Sought) -> frozenset[int]:
        """Returns the counts at which a condition holds, be it joined or not."""
        plain = (condition[0] & ~AND, *condition[1:])
        if plain not in self.known:
            self.known[plain] = frozenset(n for n in range(self.steps) if self._is_at(plain, n))
        return self.known[plain]

    def _is_at(self, condition: Sought, n: int) -> bool:
        taken = [it for it in self.events if it.count == n]
        return holds(condition, self.states[n], self.states[n + 1], self.words(n), self.words(n + 1), taken, self.outputs[n])

    def hits(self, conditions: Sequence[Sought]) -> list[tuple[int, int]]:
        """Returns the counts at which a condition holds, each with the index of the first one."""
        ends = [index + 1 for index, condition in enumerate(conditions) if not condition[0] & AND]
        found = dict[int, int]()
        for low, end in reversed(list(zip([0, *ends], ends))):
            found |= dict.fromkeys(frozenset.intersection(*map(self.counts, conditions[low:end])), low)
        return sorted(found.items())


def random_runs(library: Library) -> Iterator[tuple[str, Run]]:
    """The runs of random programs."""
    for seed in RANDOM_SEEDS:
        made = randomly.case(seed)
        text = run(PROGRAM, "record", "--disk", given=made.session.text().encode())[0]
        yield made.name, Run.recorded(library, text, min(made.counts, RANDOM_STEPS))


def compare_finds(library: Library, name: str, ran: Run, conditions: Sequence[Sought], hits: Sequence[tuple[int, int]]) -> int:
    """Compares the first and the last hit of some ranges, and returns in how many there is one."""
    found = 0
    for low, high in ((0, ran.steps), (0, ran.steps // 2), (ran.steps // 3, ran.steps), (0, 0)):
        there = [it for it in hits if low <= it[0] < high]
        wanted: list[tuple[int, tuple[int, int] | None]] = [(0, there[0]), (0, there[-1])] if there else [(11, None)] * 2
        given = ran.machine(low)
        answers = [library.find(*given, ran.events, high, conditions, which) for which in (0, 1)]
        expect(f"{name}: {conditions} from {low} to {high}", answers, wanted)
        found += bool(there)
    return found


def compare_hits(
    library: Library, name: str, ran: Run, conditions: Sequence[Sought], hits: Sequence[tuple[int, int]], room: int, cut: int
) -> None:
    """Compares all hits of a run that is searched in calls with some room, and in two parts."""
    state, words = ran.machine(0)
    found: list[tuple[int, int]] = []
    for end in (cut, ran.steps):
        while state.count < end:
            code, more = library.hits(state, words, ran.events, end, conditions, room)
            found += more
            at = end if len(more) < room else more[-1][0] + 1
            there = bytes(ran.states[at]), ran.memories[at]
            expect(f"{name}: {conditions} with room for {room}, up to {at}", (code, bytes(state), bytes(words)), (0, *there))
    expect(f"{name}: all hits of {conditions} with room for {room}", found, hits)


def find_steps(library: Library) -> None:
    """The first and the last count of each condition, alone and joined to others, are those of a loop over single steps, and so are all
    its counts."""
    found = none = listed = 0
    rng = Random(83)
    recorded = (
        (name, Run.recorded(library, run(PROGRAM, "record", given=(EXAMPLES / f"{name}.json").read_bytes())[0], steps))
        for name, steps in (("hello", 100), ("keys", 300), ("flags", 60), ("clock", 400))
    )
    for name, ran in chain(recorded, random_runs(library)):
        alone = list(some_conditions(ran.states, [ran.words(n) for n in range(ran.steps + 1)]))
        single = [it[0] for it in alone if len(it) == 1]
        for conditions in chain(alone, some_joined(rng, [it for it in single if ran.counts(it)])):
            hits = ran.hits(conditions)
            there = compare_finds(library, name, ran, conditions, hits)
            found, none = found + there, none + 4 - there
            for room in (1, 2, len(hits) + 1) if len(hits) < 5 else (len(hits) // 3, 1000):
                compare_hits(library, name, ran, conditions, hits, room, rng.randint(0, ran.steps))
            listed += len(hits)
    if min(found, none) < 50 or listed < 1000:
        fail(f"find: {found} searches find something, {none} nothing, and {listed} hits are listed")
    print(f"find: {found} searches find the count of a loop over single steps, {none} nothing; {listed} hits are listed")


def refuse_searches(library: Library) -> None:
    """Searches that are given a number out of its range, or conditions that cannot be joined, are refused and change nothing."""
    ran = Run.recorded(library, run(PROGRAM, "record", given=(EXAMPLES / "keys.json").read_bytes())[0], 12)
    sends = (6, 0, 0, 0)
    also = (6 + AND, 0, 0, 0)
    bad: list[tuple[list[Sought], int]] = [
        ([(0, 0, 1, 0)], 0), ([(15, 0, 1, 1)], 0), ([(1, 5, 5, 0)], 0), ([(1, 0, (1 << 22) + 1, 0)], 0), ([(2, 0, (1 << 24) + 1, 0)], 0),
        ([(3, 0, (1 << 20) + 1, 0)], 0), ([(5, 18, 0, 0)], 0), ([(5, 17, 0, 16)], 0), ([(7, 0, 0, 256)], 0), ([(8, 0, 0, 0)], 0),
        ([(8, 0, 0, 7)], 0), ([sends, (0, 0, 0, 0)], 0), ([], 2), ([sends] * 65, 0), ([(9, 0, 0, 0)] * 65, 1),
        ([(3, 0, 4, 0)], 0), ([(10, 18, 0, 0)], 0), ([(11, 18, 0, 0)], 0), ([(11, 17, 0, 0, 16, 3)], 0), ([(11, 17, 0, 0, 3, 16)], 0),
        ([(12, 2, 0, 1)], 0), ([(12, 1 << 20, 0, 1)], 0), ([(12, 4, 0, 0)], 0), ([also], 0), ([sends, also], 1),
        ([also, also, also, also, sends], 0), ([sends, also, also, also, also, sends], 0), ([(AND, 0, 0, 0), sends], 0),
        ([(15 + AND, 0, 0, 1), sends], 0), ([(13, 0, 1, 0)], 0), ([(13, 18, 0, 1)], 0), ([(13, 17, 0, 16)], 0),
        ([(14, 0, 0, 0)], 0), ([(14, 0, 0, 16)], 0), ([(14, 0, 0, 1 << 31)], 0),
    ]  # fmt: skip
    for conditions, which in bad:
        expect(f"a search for {conditions}, {which}", library.find(*ran.machine(0), ran.events, 10, conditions, which)[0], 1)
        if which < 2:
            expect(f"all hits of {conditions}", library.hits(*ran.machine(0), ran.events, 10, conditions, 3)[0], 1)
    four = [also, also, also, sends] * 16
    expect("a search for 64 joined conditions", library.find(*ran.machine(0), ran.events, 1, four, 0)[0], 11)
    expect("a search for 64 conditions", library.find(*ran.machine(0), ran.events, 10, [(1, 0, 1 << 22, 0)] * 64, 1), (0, (9, 0)))
    half = (ctypes.c_uint32 * (WORDS // 2))()
    late, start = ran.machine(10), ran.machine(0)
    expect("a search backwards", library.find(*late, ran.events, 9, [], 0)[0], 1)
    expect("all hits backwards", library.hits(*late, ran.events, 9, [], 1)[0], 1)
    expect("a search of half the words", library.find(start[0], half, ran.events, 9, [], 0)[0], 1)
    expect("all hits in half the words", library.hits(start[0], half, ran.events, 9, [], 1)[0], 1)
    expect("all hits without room", library.hits(*start, ran.events, 9, [], 0)[0], 1)
    print(f"find: {len(bad) + 6} searches are refused")
