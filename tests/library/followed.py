"""The calls of a run: of programs whose calls are worked out by hand, and of random programs, which a plain machine in C follows naively."""

import time
from collections.abc import Mapping, Sequence
from pathlib import Path
from typing import Any

from galluspa.assembler.encoding import ADD, ALWAYS, MOV, SUB, branch, branch_register, imm, load, reg, store
from tests.library.binding import WORDS, Call, Input, Library, State
from tests.library.counts import IDLE, IDLE_COUNTS, LAST, MOST_SECONDS, TRIES, machine
from tests.library.trial import TOP, WARNINGS, expect, fail, run
from tests.support.slowness import is_within

NAIVE = Path(__file__).with_name("followed.c")
SEEDS, PROGRAMS = (1, 2, 3), 2000
# A branch with link, and what a turn says where no call is made.
LINK, NO_CALL = 1 << 28, (0xFFFFFFFF, 0, 0, 0)
ALL, NONE = 0xFFFFFFFF, 0
RETURN = branch_register(ALWAYS, 15)
ENTER = (imm(SUB, 14, 14, 8), store(15, 14, 0))
LEAVE = (load(15, 14, 0), imm(ADD, 14, 14, 8), RETURN)
TOP_OF_STACK = 0x1000
# The words of a line of memory. In the last one, each instruction is done by itself.
LINE = 256
Turn = tuple[int, int, tuple[int, int, int, int]]


def jump(at: int, to: int) -> int:
    """Returns a branch at one word to another."""
    return branch(ALWAYS, to - at - 1)


def call(at: int, to: int) -> int:
    """Returns a branch with link at one word to another."""
    return jump(at, to) | LINK


def code(*parts: tuple[int, Sequence[int]]) -> Mapping[int, int]:
    """Returns the words of a program, from the word at which each part begins."""
    return {at + index: word for at, words in parts for index, word in enumerate(words)}


# A procedure at 4 that calls a leaf at 12 twice.
NESTED = code((0, [call(0, 4), jump(1, 1)]), (4, [*ENTER, call(6, 12), call(7, 12), *LEAVE]), (12, [imm(ADD, 0, 0, 1), RETURN]))
# The loop at 1 calls 4, that 10, that 16, which puts R14 back and jumps to the loop.
TRAP = code(
    (0, [reg(MOV, 12, 0, 14), call(1, 4), jump(2, 1)]),
    (4, [*ENTER, call(6, 10), *LEAVE]),
    (10, [*ENTER, call(12, 16), *LEAVE]),
    (16, [reg(MOV, 14, 0, 12), jump(17, 1)]),
)
# A return that is itself a branch with link; a branch with link to the next word; and a call by one that has been written.
BACK = code((0, [call(0, 4), jump(1, 1)]), (4, [RETURN | LINK]))
NEXT = code((0, [call(0, 1), jump(1, 1)]))
WRITTEN = code((0, [load(1, 2, 12), store(1, 2, 8), jump(2, 2), call(2, 0)]))
HIGH = TOP_OF_STACK - 8
ROWS: Sequence[tuple[str, Mapping[int, int], int, int, Sequence[Turn]]] = (
    (
        "a procedure and a leaf",
        NESTED,
        ALL,
        20,
        [
            (0, 0, (0, 4, 1, TOP_OF_STACK)),
            (3, 1, (6, 12, 7, HIGH)),
            (5, 1, NO_CALL),
            (6, 1, (7, 12, 8, HIGH)),
            (8, 1, NO_CALL),
            (11, 0, NO_CALL),
        ],
    ),
    (
        "a trap",
        TRAP,
        ALL,
        11,
        [
            (1, 0, (1, 4, 2, TOP_OF_STACK)),
            (4, 1, (6, 10, 7, HIGH)),
            (7, 2, (12, 16, 13, HIGH - 8)),
            (9, 1, NO_CALL),
            (10, 0, (1, 4, 2, TOP_OF_STACK)),
        ],
    ),
    (
        "a trap, where no rise of R14 ends a call",
        TRAP,
        NONE,
        11,
        [
            (1, 0, (1, 4, 2, TOP_OF_STACK)),
            (4, 1, (6, 10, 7, HIGH)),
            (7, 2, (12, 16, 13, HIGH - 8)),
            (10, 0, (1, 4, 2, TOP_OF_STACK)),
        ],
    ),
    ("a return with link", BACK, ALL, 2, [(0, 0, (0, 4, 1, TOP_OF_STACK)), (1, 0, NO_CALL)]),
    ("a branch with link to the next word", NEXT, ALL, 9, []),
    ("a call in a word that was written", WRITTEN, ALL, 3, [(2, 0, (2, 0, 3, TOP_OF_STACK))]),
)


def started(words: Mapping[int, int], **fields: Any) -> tuple[State, Any]:
    """Returns a machine with these words, at the top of its stack."""
    state, memory = machine(words, **fields)
    state.r[14] = TOP_OF_STACK
    return state, memory


def follow_by_hand(library: Library) -> None:
    """The turns of programs are those that were worked out by hand, in one run and in one of a turn for each call."""
    for name, words, limit, to, wanted in ROWS:
        state, memory = started(words)
        expect(name, library.follow(state, memory, [], to, limit, [], (9, 9))[::2], (0, wanted))
        state, memory = started(words)
        calls: list[Call] = []
        found: list[Turn] = []
        while state.count < to:
            refused, calls, turns = library.follow(state, memory, [], to, limit, calls, (9, 1))
            expect(f"{name}, turn by turn", (refused, len(turns) == 1 or state.count == to), (0, True))
            found += turns
        expect(f"{name}, turn by turn", found, wanted)
    print(f"calls: those of {len(ROWS)} programs are those worked out by hand")


def follow_idle_loops(library: Library) -> None:
    """An idle loop without calls takes next to no time, whatever the loop does, outside the last line of memory; and one with calls ends where
    there is no room."""
    for name, at, loop, registers in IDLE:
        if at // LINE == LAST // LINE and len(loop) > 1:
            continue
        seconds = MOST_SECONDS + 1
        for _ in range(TRIES):
            state, memory = started(dict(enumerate(loop, at)), pc=at)
            state.r[:2] = registers
            since = time.process_time()
            refused, calls, turns = library.follow(state, memory, [], IDLE_COUNTS, ALL, [], (9, 9))
            seconds = min(seconds, time.process_time() - since)
            if seconds <= MOST_SECONDS:
                break
        expect(name, (refused, state.count, len(calls), len(turns)), (0, IDLE_COUNTS, 0, 0))
        if not is_within(seconds, MOST_SECONDS):
            fail(f"to follow {name} takes {seconds:.1f} s of a processor for {IDLE_COUNTS} counts")
    state, memory = started(code((0, [call(0, 4), jump(1, 1)]), (4, [jump(4, 4)])))
    refused, calls, turns = library.follow(state, memory, [], 1 << 40, ALL, [], (9, 9))
    expect("a loop without end", (refused, state.count, len(calls), len(turns)), (0, 1 << 40, 1, 1))
    state, memory = started(code((0, [call(0, 4), jump(1, 0)]), (4, [RETURN])))
    refused, calls, turns = library.follow(state, memory, [], 1 << 40, ALL, [], (9, 99))
    expect("a loop that calls without end", (refused, state.count, len(calls), len(turns)), (0, 148, 1, 99))


def follow_random(folder: Path, flags: Sequence[str]) -> None:
    """The calls of random programs are those that are found naively, however their runs are cut."""
    program = f"{folder}/followed"
    expect("followed.c", run("cc", *WARNINGS, str(NAIVE), f"-I{TOP}/reference", *flags, "-o", program), (b"", 0))
    for seed in SEEDS:
        said, status = run(program, str(seed), str(PROGRAMS))
        expect(f"random programs from the seed {seed}: {said.decode()}", status, 0)
        print(f"calls: {said.decode().strip()}")


def refuse_calls(library: Library) -> None:
    """Each refusal of calls, and that nothing is changed or written by it."""
    first = Call(3, 5, 9, 6, 0x100)
    bad: list[tuple[str, Sequence[Call]]] = [
        ("a branch outside memory", [Call(3, WORDS, 9, WORDS + 1, 0x100)]),
        ("a return to another word", [Call(3, 5, 9, 7, 0x100)]),
        ("a call at the state's count", [Call(10, 5, 9, 6, 0x100)]),
        ("two calls at a count", [first, Call(3, 7, 9, 8, 0x100)]),
        ("a call before one that is older", [first, Call(2, 7, 9, 8, 0x100)]),
        ("a pointer above that of an older call", [first, Call(4, 7, 9, 8, 0x104)]),
        ("such a pointer after one of another stack", [first, Call(4, 7, 9, 8, 0x8000), Call(5, 7, 9, 8, 0x104)]),
    ]
    for name, calls in bad:
        expect(name, library.follow(*started({0: jump(0, 0)}, count=10), [], 20, 0x1000, calls, (9, 9))[0], 1)
    for name, calls in (
        ("one call", [first]),
        ("one of another stack", [first, Call(4, 7, 9, 8, 0x8000), Call(5, 7, 9, 8, 0x100)]),
    ):
        expect(name, library.follow(*started({0: jump(0, 0)}, count=10), [], 20, 0x1000, calls, (9, 9))[0], 0)
    for rooms in ((1, 9), (0, 9), (9, 0)):
        expect(f"room for {rooms}", library.follow(*started({0: jump(0, 0)}, count=10), [], 20, ALL, [first], rooms)[0], 1)
    expect("a run backwards", library.follow(*started({0: jump(0, 0)}, count=10), [], 9, ALL, [], (9, 9))[0], 1)
    late = [Input(5, 4, 1), Input(4, 4, 1)]
    expect("inputs out of order", library.follow(*started({0: jump(0, 0)}), late, 9, ALL, [], (9, 9))[0], 1)
    expect("a state out of range", library.follow(*started({0: jump(0, 0)}, flags=16), [], 9, ALL, [], (9, 9))[0], 1)
    print(f"calls: {len(bad) + 6} refusals leave everything as it was")
