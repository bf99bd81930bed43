"""Makes a random program that mostly waits, with its initial state and inputs, from a seed.

Its loop reads devices, keeps what it saw, changes memory and puts it back, calls procedures with frames, and does tasks that come due.
So it comes back to the same state again and again, until an input or the timer changes something; or rarely, it never does.
"""

import struct
from collections.abc import Iterable, Iterator
from random import Random

from galluspa.assembler.encoding import (
    ADD,
    ALWAYS,
    AND,
    BYTE,
    DEVICES,
    EQ,
    GT,
    IOR,
    KEY,
    LINK,
    LT,
    MOUSE,
    MOV,
    MUL,
    NE,
    ROR,
    SERIAL,
    STATUS,
    SUB,
    SWITCHES,
    TIMER,
    U,
    XOR,
    branch,
    branch_register,
    imm,
    load,
    reg,
    store,
)
from galluspa.formats.recording import MOUSE as MOUSE_BITS, Event
from galluspa.formats.sessions import KIND_NUMBERS, MOST, Session
from tests.programs import randomly
from tests.programs.trial import Case

RATES = (0, 0, 1, 2, 7, 100, 1000, 25000, 25000, 25000, 0xFFFFFFFF)
COUNTS = (100_000, 100_000, 300_000, 1_000_000, 2_000_000)
LENGTHS = (1, 2, 4, 10, 30, 100, 300, 600)
CLOSE = 500  # a number of checkpoints that leaves no room between two for a search for an idle loop

# R0 to R5 hold numbers; R6 and R7 may count. The variables are 64 kB from the begin, and the stack is below the middle of memory.
COUNTER, SLOW_COUNTER, BOARD, DATA, STACK, RETURN = 6, 7, 12, 13, 14, 15
CELLS = tuple(4 * at for at in (0, 1, 2, 3, 4, 5, 6, 7, 60, 255, 300))


def cases(seeds: Iterable[int]) -> Iterator[Case]:
    """Yields for each seed a random program that ends soon, and one that mostly waits."""
    for seed in seeds:
        yield from (randomly.case(seed), case(seed))


def case(seed: int) -> Case:
    """Returns the program of a seed, how many counts it runs for, and a few of these counts; the dense ones are close together."""
    rng = Random(seed)
    counts = rng.choice(COUNTS) + rng.randrange(1000)
    few = sorted({*rng.sample(range(1, counts), rng.randint(2, 6)), counts})
    dense = sorted({*few, *range(counts // CLOSE, counts, counts // CLOSE)})
    return Case(f"waiting seed {seed}", _Writer(rng).session(counts), counts, few, dense)


class _Writer:
    """Writes the instructions of one program."""

    def __init__(self, rng: Random) -> None:
        self.rng = rng
        self.words: list[int] = []
        self.kinds, self.weights = zip(
            (self._poll, 4),
            (self._read_time, 2),
            (self._keep_time, 1),
            (self._store, 2),
            (self._load, 3),
            (self._flip, 2),
            (self._count_around, 2),
            (self._set, 2),
            (self._operate, 3),
            (self._light, 1),
            (self._take_key, 2),
            (self._take_byte, 1),
            (self._call_frame, 2),
            (self._inner_loop, 1),
            (self._rarely_count, 0.2),
            (self._send_now_and_then, 0.2),
            (self._copy_byte, 1),
            (self._store_own_code, 0.3),
            (self._task, 2),
        )

    def session(self, counts: int) -> Session:
        """Returns a session without checkpoints."""
        rng = self.rng
        self._add(U | imm(MOV, STACK, 0, 8), U | imm(MOV, DATA, 0, 1))
        begin, length = len(self.words), rng.choice(LENGTHS)
        while len(self.words) < begin + length - 1:
            self.rng.choices(self.kinds, self.weights)[0]()
        self._branch_to(begin)
        rate = rng.choice(RATES)
        registers = [rng.choice((0, 1, rng.getrandbits(32))) for _ in range(16)]
        registers[BOARD] = DEVICES
        return Session(
            registers=registers,
            flags=rng.randrange(16),
            rate=rate,
            phase=rng.randrange(rate) if rate else 0,
            memory=struct.pack(f"<{len(self.words)}I", *self.words).ljust(-(-len(self.words) // 256) * 1024, b"\0"),
            inputs=self._inputs(counts),
        )

    def _inputs(self, counts: int) -> list[Event]:
        at = sorted(self.rng.randrange(counts + 3) for _ in range(self.rng.choice((0, 1, 5, 30))))
        return [self._input(count) for count in at]

    def _input(self, count: int) -> Event:
        name = self.rng.choice(list(MOST))
        value = self.rng.randrange(MOST[name] + 1)
        return Event(count, KIND_NUMBERS[name], value & MOUSE_BITS if name == "mouse" else value)

    # What a turn of the loop does. Each adds a few words.

    def _add(self, *words: int) -> None:
        self.words += words

    def _number(self) -> int:
        """Returns a register that holds a number."""
        return self.rng.randrange(6)

    def _cell(self) -> int:
        """Returns a variable."""
        return self.rng.choice(CELLS)

    def _branch_to(self, word: int) -> None:
        self._add(branch(ALWAYS, word - len(self.words) - 1))

    def _poll(self) -> None:
        self._add(load(self._number(), BOARD, self.rng.choice((SWITCHES, STATUS, MOUSE))))

    def _read_time(self) -> None:
        self._add(load(self._number(), BOARD, TIMER))

    def _keep_time(self) -> None:
        register = self._number()
        self._add(load(register, BOARD, TIMER), store(register, DATA, self._cell()))

    def _store(self) -> None:
        self._add(store(self._number(), DATA, self._cell()))

    def _load(self) -> None:
        self._add(load(self._number(), DATA, self._cell()))

    def _flip(self) -> None:
        """Changes a variable, so that it has its value again after two turns."""
        cell = self._cell()
        self._add(load(0, DATA, cell), imm(XOR, 0, 0, self.rng.choice((1, 3, 0x55))), store(0, DATA, cell))

    def _count_around(self) -> None:
        """Counts in a variable, which has its value again after 2 to 32 turns."""
        cell = self._cell()
        self._add(load(0, DATA, cell), imm(ADD, 0, 0, 1), imm(AND, 0, 0, self.rng.choice((1, 3, 7, 15, 31))), store(0, DATA, cell))

    def _set(self) -> None:
        self._add(imm(MOV, self._number(), 0, self.rng.randrange(-9, 99)))

    def _operate(self) -> None:
        op = self.rng.choice((ADD, SUB, AND, IOR, XOR, MUL))
        self._add(reg(op, self._number(), self._number(), self._number()))

    def _light(self) -> None:
        self._add(store(self._number(), BOARD, SWITCHES))

    def _take_key(self) -> None:
        self._add(load(1, BOARD, MOUSE), imm(ROR, 1, 1, 28), imm(AND, 1, 1, 1), branch(EQ, 1), load(2, BOARD, KEY))

    def _take_byte(self) -> None:
        self._add(load(1, BOARD, STATUS), imm(AND, 1, 1, 1), branch(EQ, 1), load(2, BOARD, SERIAL))

    def _call_frame(self) -> None:
        """Calls a procedure that writes a frame, which lies right after the call."""
        self._add(branch(ALWAYS, 1) | LINK, branch(ALWAYS, 6))
        self._add(imm(SUB, STACK, STACK, 8), store(1, STACK, 0), store(2, STACK, 4), load(1, STACK, 4), imm(ADD, STACK, STACK, 8))
        self._add(branch_register(ALWAYS, RETURN))

    def _inner_loop(self) -> None:
        self._add(imm(MOV, 3, 0, self.rng.randrange(1, 20)), imm(SUB, 3, 3, 1), branch(NE, -2))

    def _rarely_count(self) -> None:
        """Counts at each turn: a program with this never comes back."""
        self._add(imm(ADD, COUNTER, COUNTER, 1))

    def _send_now_and_then(self) -> None:
        self._add(imm(ADD, SLOW_COUNTER, SLOW_COUNTER, 1), imm(SUB, 4, SLOW_COUNTER, 1 << self.rng.randrange(9, 14)), branch(NE, 2))
        self._add(imm(MOV, SLOW_COUNTER, 0, 0), store(1, BOARD, SERIAL))

    def _copy_byte(self) -> None:
        self._add(load(4, DATA, self._cell() | 1) | BYTE, store(4, DATA, self._cell() + self.rng.randrange(4)) | BYTE)

    def _store_own_code(self) -> None:
        """Stores a word of the program to where it is."""
        at = 4 * len(self.words)
        self._add(imm(MOV, 5, 0, at), load(0, 5, 0), store(0, 5, 0))

    def _task(self) -> None:
        """Does a task if the time is past a variable, which it then sets to a later time."""
        cell, period = self._cell(), self.rng.choice((1, 3, 20, 500))
        self._add(load(0, BOARD, TIMER), load(1, DATA, cell), reg(SUB, 2, 0, 1), branch(self.rng.choice((LT, EQ)), 6))
        self._add(imm(ADD, 0, 0, period), store(0, DATA, cell), imm(MOV, 3, 0, self.rng.randrange(1, 200)))
        self._add(imm(SUB, 3, 3, 1), branch(GT, -2), imm(MOV, 3, 0, 0))
