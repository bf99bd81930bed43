"""Small programs whose outcome is known: what may come between an operation and the branch after it, and stores into
code.

Each begins with R10 at the device words, and with a timer that counts every instruction unless it says otherwise. The rows are one table, so this is one
module of more than 400 lines.
"""

from collections.abc import Mapping, Sequence
from dataclasses import dataclass

from galluspa.assembler.encoding import (
    ADD,
    ALWAYS,
    AND,
    ANN,
    BYTE,
    CC,
    DEVICES,
    DIV,
    EQ,
    FAD,
    JUMP_HERE,
    LINK,
    MOV,
    NE,
    SERIAL,
    SUB,
    SWITCHES,
    TIMER,
    branch,
    branch_register,
    imm,
    load,
    reg,
    store,
)
from galluspa.formats import states
from galluspa.formats.recording import Checkpoint, Event
from galluspa.formats.sessions import KIND_NUMBERS, Session
from tests.programs.trial import Case, Finding, memory_of

END = 1 << 18
RUNNING, FLOAT, DIVISOR, FETCH, ADDRESS = range(5)
DEVICE_REGISTER = 10


@dataclass(frozen=True)
class Row:
    """A program with its registers, its inputs and a few counts, and what is to hold at the last count."""

    name: str
    words: Mapping[int, int] | Sequence[int]
    counts: int
    few: Sequence[int]
    expected: Mapping[str, int]
    registers: Mapping[int, int]
    inputs: Sequence[tuple[int, str, int]] = ()
    pc: int = 0
    rate: int = 1
    phase: int = 0

    @property
    def case(self) -> Case:
        """The program as one to try."""
        registers = [DEVICES if at == DEVICE_REGISTER else self.registers.get(at, 0) for at in range(16)]
        session = Session(
            registers=registers,
            pc=self.pc,
            rate=self.rate,
            phase=self.phase,
            memory=memory_of(self.words),
            inputs=[Event(count, KIND_NUMBERS[kind], value) for count, kind, value in self.inputs],
        )
        return Case(self.name, session, self.counts, sorted({*self.few, self.counts}))

    def unexpected(self, last: Checkpoint, shown_by: str) -> list[Finding]:
        """Returns what is not as expected at the last checkpoint."""
        values = states.values(last)
        return [
            Finding(last.count, part, f"{shown_by} has {values[part]}, and {wanted} is expected")
            for part, wanted in self.expected.items()
            if values[part] != wanted
        ]


def _loop(*words: int) -> list[int]:
    """These words again and again, as often as R0 says; then a branch to itself."""
    return [*words, imm(SUB, 0, 0, 1), branch(NE, -len(words) - 2), JUMP_HERE]


COUNT_DOWN = _loop()
LOAD_TIMER = load(2, 10, TIMER)

BETWEEN = [
    Row(
        "an input between SUB and its branch",
        [*COUNT_DOWN[:2], LOAD_TIMER, JUMP_HERE],
        8,
        [4],
        {"R0": 0, "R2": 2003, "PC": 3, "timer": 2005},
        {0: 3},
        [(1, "timer", 1000), (3, "timer", 2000)],
    ),
    Row(
        "a switch that moves between SUB and its branch",
        [*COUNT_DOWN[:2], load(2, 10, SWITCHES), JUMP_HERE],
        8,
        [2, 3, 4],
        {"R0": 0, "R2": 0x34, "PC": 3, "switches": 0x34},
        {0: 3},
        [(3, "switches", 0x12), (5, "switches", 0x34)],
    ),
    Row(
        "inputs at each count of SUB and its branch",
        [*COUNT_DOWN[:2], LOAD_TIMER, JUMP_HERE],
        8,
        [1, 2],
        {"R2": 16, "timer": 18},
        {0: 3},
        [(count, "timer", 10 + count) for count in range(7)],
    ),
    Row("a checkpoint between SUB and its branch", COUNT_DOWN, 9, [1, 3, 5], {"R0": 0, "PC": 2, "timer": 9}, {0: 3}),
    Row("a checkpoint before and after SUB and its branch", COUNT_DOWN, 9, [2, 4, 6, 8], {"R0": 0, "PC": 2}, {0: 3}),
    Row(
        "a checkpoint between AND and its branch",
        [imm(AND, 1, 0, 1), branch(NE, 1), imm(ADD, 2, 2, 1), *_loop()[:1], branch(NE, -5), JUMP_HERE],
        20,
        [1, 2, 5, 6, 7],
        {"R0": 0, "R2": 2, "PC": 5},
        {0: 4},
    ),
    Row(
        "a timer read between SUB and its branch",
        [imm(SUB, 0, 0, 1), LOAD_TIMER, branch(CC, -3), JUMP_HERE],
        10,
        [1, 2, 4, 5],
        {"R0": 0xFFFFFFFF, "R2": 4, "PC": 3, "timer": 5, "phase": 1},
        {0: 2},
        rate=2,
        phase=1,
    ),
    Row(
        "a timer that reads 0 between SUB and its branch",
        [imm(SUB, 0, 0, 1), LOAD_TIMER, branch(EQ, 1), imm(MOV, 1, 0, 99), JUMP_HERE],
        6,
        [1, 2],
        {"R0": 4, "R1": 0, "R2": 0, "PC": 4, "timer": 2, "phase": 0},
        {0: 5},
        rate=3,
    ),
    Row(
        "a timer that rises at SUB and at its branch",
        [*COUNT_DOWN[:2], LOAD_TIMER, JUMP_HERE],
        8,
        [3],
        {"R2": 3, "timer": 4, "phase": 1},
        {0: 3},
        rate=2,
        phase=1,
    ),
    Row(
        "a byte sent between SUB and its branch",
        [imm(SUB, 0, 0, 1), store(0, 10, SERIAL), branch(NE, -3), JUMP_HERE],
        12,
        [1, 2, 4],
        {"R0": 0, "PC": 3},
        {0: 3},
    ),
]

OUT = branch(EQ, END + 5 - 2)
STOPS = [
    Row(
        "a load that stops before its branch",
        [load(1, 2, 0), branch(EQ, 2), reg(ADD, 2, 2, 5), branch(ALWAYS, -4), *[0] * 12, 7],
        8,
        [3, 4, 5],
        {"R1": 7, "PC": 0, "stop": ADDRESS, "timer": 4},
        {2: 0x40, 5: 0x100000},
    ),
    Row(
        "a division that stops before its branch",
        [reg(DIV, 1, 4, 3), branch(NE, 0), imm(SUB, 3, 3, 1), branch(ALWAYS, -4)],
        12,
        [8, 9],
        {"R1": 100, "R3": 0, "PC": 0, "stop": DIVISOR, "timer": 8},
        {3: 2, 4: 100},
    ),
    Row(
        "a division that stops after SUB",
        [imm(SUB, 3, 3, 1), reg(DIV, 1, 4, 3), branch(ALWAYS, -3)],
        12,
        [7, 8],
        {"R1": 100, "R3": 0, "PC": 1, "flags": 4, "stop": DIVISOR, "timer": 7},
        {3: 3, 4: 100},
    ),
    Row(
        "a floating-point operation after SUB",
        [imm(SUB, 0, 0, 1), reg(FAD, 1, 0, 0)],
        5,
        [1, 2],
        {"R0": 1, "PC": 1, "stop": FLOAT, "timer": 1},
        {0: 2},
    ),
    Row(
        "a store that stops after ADD",
        [reg(ADD, 2, 2, 5), store(2, 2, 0), branch(ALWAYS, -3)],
        9,
        [4, 5],
        {"R2": 0x180000, "PC": 1, "stop": ADDRESS, "timer": 4},
        {2: 0, 5: 0xC0000},
    ),
    Row(
        "SUB and a branch out of memory",
        [imm(SUB, 0, 0, 1), OUT, branch(ALWAYS, -3)],
        9,
        [4, 5, 6],
        {"R0": 0, "PC": END + 5, "stop": FETCH, "timer": 5},
        {0: 2},
    ),
    Row(
        "SUB at the last word",
        {END - 1: imm(SUB, 0, 0, 1)},
        4,
        [1],
        {"R0": 1, "PC": END, "stop": FETCH, "timer": 1},
        {0: 2},
        pc=END - 1,
    ),
    Row(
        "SUB and its branch at the last words",
        {END - 2: imm(SUB, 0, 0, 1), END - 1: branch(NE, -2)},
        8,
        [3, 4],
        {"R0": 0, "PC": END, "stop": FETCH, "timer": 4},
        {0: 2},
        pc=END - 2,
    ),
    Row(
        "inputs at a machine that stops after SUB",
        [imm(SUB, 0, 0, 1), reg(FAD, 1, 0, 0)],
        5,
        [1, 2],
        {"stop": FLOAT, "switches": 5, "timer": 1},
        {0: 2},
        [(1, "switches", 5), (2, "switches", 6), (3, "timer", 9)],
    ),
]

PLUS_1, PLUS_16 = imm(ADD, 1, 1, 1), imm(ADD, 1, 1, 16)
SKIP_EQ, SKIP_NE = branch(EQ, 1), branch(NE, 1)
NEW_PATCH = reg(MOV, 11, 0, 12)


def _patched_next(name: str, patch: int, first: int, second: int, result: int, base: int = 0) -> Row:
    """Returns a store into the next word: of what was there at the first pass, and of something else at two more."""
    loop = _loop(patch, PLUS_1, NEW_PATCH)
    words = {base + at: word for at, word in enumerate(loop)}
    registers = {0: 3, 8: 4 * base, 11: first, 12: second}
    return Row(name, words, 17, [5, 6, 7], {"R1": result, "PC": base + 5}, registers, pc=base)


def _patched_branch(name: str, patch: int, first: int, second: int, base: int = 0) -> Row:
    """Returns a store into the branch after SUB, which follows: at the first pass it stays, at two more it is taken."""
    loop = _loop(patch, imm(SUB, 2, 2, 1), SKIP_EQ, PLUS_1, NEW_PATCH)
    words = {base + at: word for at, word in enumerate(loop)}
    registers = {0: 3, 2: 100, 8: 4 * base, 11: first, 12: second}
    return Row(name, words, 21, [7, 8, 9], {"R1": 1, "R2": 97, "PC": base + 7}, registers, pc=base)


def _patched_back(name: str, patch: int, first: int, second: int, base: int = 0) -> Row:
    """Returns a store into the branch after SUB, which came before: at the second pass it changes, and it is taken at two more."""
    loop = _loop(imm(SUB, 2, 2, 1), SKIP_EQ, PLUS_1, patch, NEW_PATCH)
    words = {base + at: word for at, word in enumerate(loop)}
    registers = {0: 4, 2: 100, 8: 4 * base, 11: first, 12: second}
    return Row(name, words, 28, [11, 12, 14, 15, 16], {"R1": 2, "R2": 96, "PC": base + 7}, registers, pc=base)


def _patched_before(name: str, patch: int, first: int, second: int) -> Row:
    """Returns a store into the SUB whose branch follows: at the first pass it stays, at two more it is an ADD of another number."""
    loop = _loop(patch, imm(SUB, 2, 2, 1), SKIP_EQ, PLUS_1, NEW_PATCH)
    return Row(name, loop, 21, [7, 8, 9], {"R1": 2, "R2": 2, "PC": 7}, {0: 3, 2: 1, 11: first, 12: second})


def _other_half(name: str, patch: int, first: int, second: int, start: int, expected: Mapping[str, int], counts: int) -> Row:
    """Returns a store into SUB or the branch after it, which stay at the first pass, and are of another kind at two more."""
    loop = _loop(patch, imm(SUB, 2, 2, 1), SKIP_EQ, PLUS_1, NEW_PATCH)
    return Row(name, loop, counts, [6, 7, 8, 9], {**expected, "PC": 7}, {0: 3, 2: start, 11: first, 12: second})


STORES = [
    _patched_next("a word stored into the next", store(11, 8, 4), PLUS_1, PLUS_16, 33),
    _patched_next("a byte stored into the next word's operand", store(11, 8, 4) | BYTE, 1, 16, 33),
    _patched_next("a byte stored into the next word's operation", store(11, 8, 6) | BYTE, 0x18, 0x19, 0xFFFFFFFF),
    _patched_next("a byte stored into the next word's register", store(11, 8, 7) | BYTE, 0x41, 0x43, 1),
    _patched_next("a word stored into the next, in another page", store(11, 8, 4), PLUS_1, PLUS_16, 33, 255),
    _patched_next("a byte stored into the next word, in another page", store(11, 8, 4) | BYTE, 1, 16, 33, 255),
    _patched_branch("a word stored into the branch after SUB", store(11, 8, 8), SKIP_EQ, SKIP_NE),
    _patched_branch("a byte stored into the branch after SUB", store(11, 8, 11) | BYTE, 0xE1, 0xE9),
    _patched_branch("a word stored into the branch after SUB, in another page", store(11, 8, 8), SKIP_EQ, SKIP_NE, 254),
    _patched_branch("a byte stored into the branch after SUB, in another page", store(11, 8, 11) | BYTE, 0xE1, 0xE9, 254),
    _patched_back("a word stored back into the branch after SUB", store(11, 8, 4), SKIP_EQ, SKIP_NE),
    _patched_back("a byte stored back into the branch after SUB", store(11, 8, 7) | BYTE, 0xE1, 0xE9),
    _patched_back("a word stored back into the branch after SUB, in another page", store(11, 8, 4), SKIP_EQ, SKIP_NE, 255),
    _patched_back("a byte stored back into the branch after SUB, in another page", store(11, 8, 7) | BYTE, 0xE1, 0xE9, 255),
    _patched_before("a word stored into the SUB before a branch", store(11, 8, 4), imm(SUB, 2, 2, 1), imm(ADD, 2, 2, 1)),
    _patched_before("a byte stored into the SUB before a branch", store(11, 8, 6) | BYTE, 0x29, 0x28),
    _other_half(
        "a word stored into the branch after SUB, which becomes an ADD",
        store(11, 8, 8),
        SKIP_EQ,
        PLUS_16,
        100,
        {"R1": 35, "R2": 97},
        23,
    ),
    _other_half(
        "a byte stored into the branch after SUB, which becomes a MOV",
        store(11, 8, 11) | BYTE,
        0xE1,
        0x41,
        100,
        {"R1": 2, "R2": 97},
        23,
    ),
    _other_half(
        "a word stored into the branch after SUB, which becomes a load",
        store(11, 8, 8),
        SKIP_EQ,
        load(1, 8, 0),
        100,
        {"R1": store(11, 8, 8) + 1, "R2": 97},
        23,
    ),
    _other_half(
        "a word stored into SUB, which becomes a branch",
        store(11, 8, 4),
        imm(SUB, 2, 2, 1),
        branch(ALWAYS, 1),
        1,
        {"R1": 2, "R2": 0},
        20,
    ),
    _other_half("a byte stored into SUB, which becomes a branch", store(11, 8, 7) | BYTE, 0x42, 0xEF, 1, {"R1": 2, "R2": 0}, 21),
    Row(
        "a byte stored into the offset of the branch after SUB",
        _loop(store(11, 8, 8) | BYTE, imm(SUB, 2, 2, 1), SKIP_NE, PLUS_1, NEW_PATCH),
        21,
        [6, 7, 8],
        {"R1": 2, "R2": 97, "PC": 7},
        {0: 3, 2: 100, 11: 1, 12: 0},
    ),
    _other_half("a byte stored into the operand of SUB", store(11, 8, 4) | BYTE, 1, 3, 100, {"R1": 3, "R2": 93}, 23),
    Row(
        "a word stored into the one before",
        _loop(PLUS_1, store(11, 8, 0)),
        14,
        [1, 2, 4, 5],
        {"R1": 33, "PC": 4},
        {0: 3, 11: PLUS_16},
    ),
    Row(
        "a byte stored into the word before",
        _loop(PLUS_1, store(11, 8, 0) | BYTE),
        14,
        [1, 2, 4, 5],
        {"R1": 33, "PC": 4},
        {0: 3, 11: 16},
    ),
    Row("a word stored over its own store", _loop(store(11, 8, 0)), 11, [1, 3], {"R1": 2, "PC": 3}, {0: 3, 11: PLUS_1}),
    Row("a byte stored over its own store", _loop(store(11, 8, 3) | BYTE), 11, [1, 3], {"R1": 3, "PC": 3}, {0: 3, 11: 0x41}),
    Row(
        "a word stored into its own row, further on",
        _loop(store(11, 8, 20), 0, 0, 0, 0, PLUS_1, NEW_PATCH),
        29,
        [9, 10, 12, 14],
        {"R1": 33, "PC": 9},
        {0: 3, 11: PLUS_1, 12: PLUS_16},
    ),
    Row(
        "a byte stored into its own row, further on",
        _loop(store(11, 8, 20) | BYTE, 0, 0, 0, 0, PLUS_1, NEW_PATCH),
        29,
        [9, 10, 12, 14],
        {"R1": 33, "PC": 9},
        {0: 3, 11: 1, 12: 16},
    ),
    Row(
        "a word stored into its own row, further back",
        _loop(PLUS_1, 0, 0, 0, 0, store(11, 8, 0)),
        26,
        [5, 6, 8, 9],
        {"R1": 33, "PC": 8},
        {0: 3, 11: PLUS_16},
    ),
    Row("the same word stored as it is", _loop(store(11, 8, 4), PLUS_1), 14, [4, 5], {"R1": 3, "PC": 4}, {0: 3, 11: PLUS_1}),
    Row(
        "a word stored into a procedure 1,024 words away",
        {
            **dict(enumerate(_loop(store(11, 8, 4 * 1026), branch(ALWAYS, 1023) | LINK, NEW_PATCH))),
            1025: PLUS_1,
            1026: PLUS_1,
            1027: branch_register(ALWAYS, 15),
        },
        26,
        [8, 9, 10, 11],
        {"R1": 3 + 1 + 16 + 16, "PC": 5},
        {0: 3, 11: PLUS_1, 12: PLUS_16},
    ),
    Row(
        "a word stored into a procedure 2,048 words away",
        {
            **dict(enumerate(_loop(store(11, 8, 4 * 2050), branch(ALWAYS, 2047) | LINK, NEW_PATCH))),
            2049: PLUS_1,
            2050: PLUS_1,
            2051: branch_register(ALWAYS, 15),
        },
        26,
        [8, 9, 10, 11],
        {"R1": 3 + 1 + 16 + 16, "PC": 5},
        {0: 3, 11: PLUS_1, 12: PLUS_16},
    ),
    Row(
        "a word stored beside the code that stores it",
        _loop(PLUS_1, store(1, 8, 160), load(2, 8, 160)),
        18,
        [2, 3, 7, 8],
        {"R1": 3, "R2": 3, "PC": 5},
        {0: 3},
    ),
    Row(
        "procedures 1,024 words apart",
        {
            **dict(enumerate(_loop(branch(ALWAYS, 1024) | LINK, branch(ALWAYS, 2047) | LINK))),
            1025: PLUS_1,
            1026: branch_register(ALWAYS, 15),
            2049: PLUS_16,
            2050: branch_register(ALWAYS, 15),
        },
        26,
        [4, 12],
        {"R1": 51, "PC": 4},
        {0: 3},
    ),
]


def _at(base: int, words: Sequence[int]) -> dict[int, int]:
    """Returns the words from a word of memory on."""
    return {base + at: word for at, word in enumerate(words)}


ROWS_OF_CODE = [
    Row(
        "a loop over the end of 64 words",
        _at(60, _loop(*[PLUS_1] * 5)),
        23,
        [3, 4, 5, 10, 11, 12],
        {"R0": 0, "R1": 15, "PC": 67},
        {0: 3},
        pc=60,
    ),
    Row(
        "checkpoints at each of 70 words in turn", _loop(*[PLUS_1] * 70), 146, range(1, 74), {"R0": 0, "R1": 140, "PC": 72}, {0: 2}
    ),
    Row(
        "inputs at the last of 64 words and the next",
        _loop(*[PLUS_1] * 70),
        146,
        [63, 64, 65],
        {"R1": 140, "switches": 7, "timer": 146},
        {0: 2},
        [(62, "switches", 4), (63, "switches", 5), (64, "switches", 6), (135, "switches", 7)],
    ),
    Row(
        "a loop in the last 64 words of memory",
        _at(END - 40, _loop(*[PLUS_1] * 5)),
        23,
        [3, 10],
        {"R1": 15, "PC": END - 33},
        {0: 3},
        pc=END - 40,
    ),
    Row(
        "a loop into the last 64 words of memory",
        _at(END - 67, _loop(*[PLUS_1] * 5)),
        23,
        [2, 3, 4],
        {"R1": 15, "PC": END - 60},
        {0: 3},
        pc=END - 67,
    ),
    Row(
        "SUB at the last of 64 words, and its branch in the next 64",
        {63 + at: word for at, word in enumerate(COUNT_DOWN)},
        9,
        [1, 3, 5],
        {"R0": 0, "PC": 65, "timer": 9},
        {0: 3},
        pc=63,
    ),
    Row(
        "from the first of 64 words to the last, and back from the next 64",
        {64: branch(ALWAYS, 62), 127: imm(SUB, 0, 0, 1), 128: branch(NE, -65), 129: JUMP_HERE},
        12,
        [1, 2, 3, 4, 7],
        {"R0": 0, "PC": 129, "timer": 12},
        {0: 3},
        pc=64,
    ),
    Row(
        "procedures 2,048 words apart",
        {
            **dict(enumerate(_loop(branch(ALWAYS, 2048) | LINK, branch(ALWAYS, 4095) | LINK))),
            2049: PLUS_1,
            2050: branch_register(ALWAYS, 15),
            4097: PLUS_16,
            4098: branch_register(ALWAYS, 15),
        },
        26,
        [4, 12],
        {"R1": 51, "PC": 4},
        {0: 3},
    ),
]

# The machine of the C replayer is made wrong in ANN to see that this trial notices: then state 2 of this row has another R2.
ANN_ROW = Row("ANN", [imm(MOV, 1, 0, 0xFF), imm(ANN, 2, 1, 0x0F), JUMP_HERE], 4, [1], {"R2": 0xF0}, {})

ROWS = [*BETWEEN, *STOPS, *STORES, *ROWS_OF_CODE, ANN_ROW]
