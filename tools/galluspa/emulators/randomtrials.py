"""Makes random trials from a seed: short programs whose operands, addresses and inputs are at borders and corners.

The trials of a batch share a pool of instructions and of numbers, so that a trial costs some draws from the two. R0 to R8
hold numbers, and R9 an instruction; R10 is an address in the data, R11 one of a device, R12 that of the program, R13 one at
a border, and R14 one from which far offsets stay in memory; R15 is what links leave.
"""

import struct
from collections.abc import Iterator
from random import Random

from galluspa.assembler.encoding import (
    ADD,
    ALWAYS,
    BYTE,
    DEVICES,
    DIV,
    FAD,
    KEY,
    LINK,
    MOV,
    MUL,
    SUB,
    U,
    V,
    branch,
    branch_register,
    imm,
    load,
    reg,
    store,
)
from galluspa.emulators.trials import Trial
from galluspa.formats.recording import MOUSE, PAGE_BYTES, WORDS, WORDS_IN_PAGE, Event
from galluspa.formats.sessions import KIND_NUMBERS, MOST

BATCH = 256
POOL, DEVICE_POOL, SUM_POOL, NUMBERS, STOPS = 1024, 256, 128, 96, 48
PATCH, DATA, DEVICE, CODE, BORDER, FAR, LINKED = range(9, 16)
# The settings of the flags that instructions leave.
SETTINGS = range(12)
CORNERS = (
    *(0, 0, 0, 1, 2, 7, 31, 32, 33, 36, 63, 64, 255, 256, 0x7FFF, 0x8000, 0xFFFF, 0x10000),
    *(0x7FFFFFFF, 0x7FFFFFFF, 0x80000000, 0x80000000, 0x80000001, 0xFFFF8000, 0xFFFFFFFE, 0xFFFFFFFF, 0xFFFFFFFF),
)
IMMEDIATES = (0, 1, 2, 7, 31, 32, 33, 63, 64, 0x7FFF, 0x8000, 0xFFFF)
# Of two of these, a carry alone often decides whether their sum or their difference carries or overflows.
SUMMANDS = (0, 0x7FFFFFFF, 0x80000000, 0xFFFFFFFF, 0xFFFFFFFF)
# How many instructions a program may have; and one that reads keys.
LENGTHS, ROUND = (1, 1, 2, 2, 3, 4, 6, 8, 12, 16, 24, 32), 24
ORIGIN, DATA_PAGE, MIDDLE = 0x1000, 40, 0x80000
BORDERS = (0, 0, 2, 0xFFFFC, 0xFFFFF, 0x100000, 0xFFFFBC, 0xFFFFBF, 0xFFFFC0, 0xFFFFFC, 0xFFFFFFFC, 0xFFFFFF, 0x1000000)
RATES = (0, 0, 0, 1, 2, 3, 5, 7)
TIMES = (0, 1, 0xFFFFFFFE, 0xFFFFFFFF)


def trials(seed: int, batch: int) -> Iterator[Trial]:
    """Yields the trials of a batch."""
    return _Batch(Random(f"{seed}/{batch}")).trials()


class _Batch:
    """What the trials of a batch share."""

    def __init__(self, rng: Random) -> None:
        self.rng = rng
        kinds, weights = zip(
            (self._operation, 30),
            (self._sum, 16),
            (self._special, 6),
            (self._move, 14),
            (self._far_move, 5),
            (self._border_move, 4),
            (self._branch, 12),
            (self._division, 4),
            (self._return, 1),
            (self._wild, 0.4),
        )
        self.pool = [kind() for kind in rng.choices(kinds, weights, k=POOL)]
        self.device_pool = [self._device_move() for _ in range(DEVICE_POOL)]
        self.sum_pool = [self._sum() for _ in range(SUM_POOL)]
        self.stops = [self._stop() for _ in range(STOPS)]
        self.numbers = [*CORNERS, *CORNERS, *(rng.getrandbits(32) for _ in range(NUMBERS))]
        self.data = rng.randbytes(PAGE_BYTES)

    def trials(self) -> Iterator[Trial]:
        """Yields all of them."""
        for _ in range(BATCH):
            yield self._trial()

    def _trial(self) -> Trial:
        rng, draw = self.rng, self.rng.random
        kind = draw()
        is_of_devices, is_of_sums, is_of_keys = kind < 0.3, kind > 0.85, kind < 0.02
        words = self._reads_of_keys() if is_of_keys else self._words(is_of_devices, is_of_sums)
        length = len(words)
        start = self._start(length) if draw() < 0.3 else ORIGIN
        registers = rng.choices(SUMMANDS if is_of_sums else self.numbers, k=16)
        registers[DATA:LINKED] = self._addresses(start, is_of_devices)
        registers[PATCH] = rng.choice(self.pool)
        count = length + (rng.choice((0, 0, 0, 1, 3)) if length > 1 else 0)
        has_inputs = draw() < (0.7 if is_of_devices else 0.1)
        rate = rng.choice(RATES)
        return Trial(
            registers=tuple(registers),
            pages={**_pages(start, words), DATA_PAGE: self.data},
            count=count,
            h=rng.choice(self.numbers),
            pc=start,
            flags=rng.choice(SETTINGS),
            rate=rate,
            phase=rng.randrange(rate) if rate else 0,
            inputs=self._keys(count) if is_of_keys else self._inputs(count) if has_inputs else (),
        )

    def _words(self, is_of_devices: bool, is_of_sums: bool) -> list[int]:
        """Returns the instructions of a program, drawn from the pools."""
        rng, draw = self.rng, self.rng.random
        length = rng.choice(LENGTHS)
        words = rng.choices(self.device_pool if is_of_devices else self.sum_pool if is_of_sums else self.pool, k=length)
        if is_of_devices:
            words[::2] = rng.choices(self.pool, k=len(words[::2]))
        if draw() < 0.15:
            words[-1] = rng.choice(self.stops)
        if length > 1 and draw() < 0.2:
            self._write_own_code(words)
        return words

    def _reads_of_keys(self) -> list[int]:
        """Returns a program that reads keys, as words and as bytes."""
        rng = self.rng
        return [load(rng.randrange(9), DEVICE, KEY) | rng.choice((0, 0, BYTE)) for _ in range(ROUND)]

    def _start(self, length: int) -> int:
        """Returns where the program begins: at word 0, across two pages, or where memory ends behind it."""
        rng = self.rng
        page = WORDS_IN_PAGE * rng.randrange(DATA_PAGE + 1, 900)
        return rng.choice((0, 0, page, page - length // 2, page - 1, WORDS - length))

    def _addresses(self, start: int, is_of_devices: bool) -> list[int]:
        rng = self.rng
        data = PAGE_BYTES * DATA_PAGE + rng.choice((256, 257, 258, 259, 512)) + rng.choice((0, 0, 0, 1 << 24, 0xFF000000))
        device = DEVICES if is_of_devices else rng.choice((DEVICES, DEVICES + 32, DEVICES + 1, DEVICES & 0xFFFFFF))
        code = 4 * start + rng.choice((0, 0, 0, 1, 3, 0xA5000000))
        return [data, device, code, rng.choice(BORDERS), MIDDLE + rng.randrange(8)]

    def _inputs(self, count: int) -> list[Event]:
        rng = self.rng
        if rng.random() < 0.1:
            return self._keys(count)
        at = sorted(rng.randrange(count) for _ in range(rng.choice((1, 1, 2, 3, 5))))
        return [self._input(each) for each in at]

    def _keys(self, count: int) -> list[Event]:
        """Returns keys that fill the queue, and go round it if they are read meanwhile."""
        rng = self.rng
        at = sorted(rng.randrange(count) for _ in range(rng.randint(15, 22)))
        return [Event(each, KIND_NUMBERS["key"], rng.randrange(256)) for each in at]

    def _input(self, count: int) -> Event:
        name = self.rng.choice([kind for kind in MOST if kind != "disk"])
        value = self.rng.randrange(MOST[name] + 1)
        if name == "timer" and self.rng.random() < 0.5:
            value = self.rng.choice(TIMES)
        return Event(count, KIND_NUMBERS[name], value & MOUSE if name == "mouse" else value)

    def _write_own_code(self, words: list[int]) -> None:
        """Stores an instruction, which a register holds, into the program: into what comes next, or into what was done, which is
        then done again."""
        rng, at = self.rng, self.rng.randrange(len(words) - 1)
        into = rng.choice((at + 1, rng.randrange(len(words)), rng.randrange(at + 1)))
        words[at] = store(PATCH, CODE, 4 * into + rng.choice((0, 1, 3))) | rng.choice((0, 0, BYTE))
        if into <= at:
            words[at + 1] = branch(ALWAYS, into - at - 2)

    # Instructions of the pools.

    def _result(self) -> int:
        """Returns the register of a result: mostly one that holds a number."""
        return self.rng.randrange(10) if self.rng.random() < 0.95 else self.rng.randrange(16)

    def _operation(self) -> int:
        """Returns an operation with any modifiers, and in bits that have no effect at times anything."""
        rng = self.rng
        op, modifiers = rng.randrange(MUL + 1), rng.choice((0, 0, U, V, U | V))
        a, b = self._result(), rng.randrange(16) if op or rng.random() < 0.1 else 0
        if rng.random() < 0.5:
            return modifiers | imm(op, a, b, self._immediate())
        return modifiers | reg(op, a, b, rng.randrange(16)) | (rng.getrandbits(12) << 4 if rng.random() < 0.1 else 0)

    def _immediate(self) -> int:
        return self.rng.choice(IMMEDIATES) if self.rng.random() < 0.8 else self.rng.getrandbits(16)

    def _sum(self) -> int:
        """Returns a sum or a difference, mostly with the carry."""
        rng = self.rng
        op, modifier, a, b = rng.choice((ADD, SUB)), rng.choice((0, U, U)), rng.randrange(10), rng.randrange(10)
        return modifier | (reg(op, a, b, rng.randrange(10)) if rng.random() < 0.7 else imm(op, a, b, self._immediate()))

    def _special(self) -> int:
        """Returns a move of the flags or of H."""
        return reg(MOV, self._result(), 0, 0) | U | self.rng.choice((0, V))

    def _division(self) -> int:
        rng = self.rng
        modifier, a, b = rng.choice((0, U)), self._result(), rng.randrange(10)
        if rng.random() < 0.3:
            return modifier | reg(DIV, a, b, rng.randrange(10))
        return modifier | imm(DIV, a, b, rng.choice((1, 2, 7, 10, 0x7FFF, 0xFFFF)))

    def _access(self, base: int, offset: int) -> int:
        """Returns a load or a store of a word or a byte."""
        form, byte = self.rng.choice(((load, 0), (load, BYTE), (store, 0), (store, BYTE)))
        target = self.rng.randrange(16) if form is store else self._result()
        return form(target if self.rng.random() < 0.95 else base, base, offset) | byte

    def _move(self) -> int:
        return self._access(DATA, self.rng.choice((0, 1, 2, 3, 4, -1, -2, -3, -4, self.rng.randint(-128, 255))))

    def _far_move(self) -> int:
        """Returns a load or a store by an offset of 17 to 20 bits."""
        size = self.rng.randint(16, 19)
        offset = self.rng.randrange(1 << size - 1, 1 << size) & 0x7FFF8 | self.rng.randrange(4)
        return self._access(FAR, self.rng.choice((offset, -offset)) if offset else 8)

    def _border_move(self) -> int:
        return self._access(BORDER, self.rng.randint(-4, 4))

    def _device_move(self) -> int:
        return self._access(
            DEVICE, 4 * self.rng.choice((0, 1, 2, 3, 6, 7, 7, self.rng.randrange(16))) + self.rng.choice((0, 0, 1, 2, 3))
        )

    def _branch(self) -> int:
        """Returns a short branch forward, rarely by a register."""
        rng = self.rng
        link, condition = rng.choice((0, 0, 0, LINK)), rng.randrange(16)
        if rng.random() < 0.15:
            return (
                link
                | branch_register(condition, rng.choice((CODE, LINKED)))
                | (rng.getrandbits(20) << 4 if rng.random() < 0.2 else 0)
            )
        offset = rng.choice((1, 1, 1, 2, 3, -1, -2, rng.choice((1 << 17, -(1 << 17)))))
        return link | branch(condition, offset) | (rng.getrandbits(2) << 22 if rng.random() < 0.2 else 0)

    def _return(self) -> int:
        """Returns a branch to R15 that leaves a link, or an operation on R15."""
        rng = self.rng
        return rng.choice((branch_register(ALWAYS, LINKED) | LINK, reg(ADD, LINKED, rng.randrange(10), LINKED)))

    def _wild(self) -> int:
        return self.rng.getrandbits(32)

    def _stop(self) -> int:
        """Returns an instruction that mostly stops the machine."""
        rng = self.rng
        return rng.choice(
            (
                rng.choice((reg(FAD, 1, 2, 3), imm(FAD, 1, 2, 3))) | rng.randrange(4) << 16 | rng.choice((0, U, V, U | V)),
                reg(DIV, 1, 2, rng.randrange(10)) | rng.choice((0, U)),
                imm(DIV, 1, 2, 9) | V | rng.choice((0, U)),
                branch(ALWAYS, rng.choice((-(1 << 18), 1 << 18, 1 << 20))),
                branch_register(ALWAYS, rng.randrange(10)) | rng.choice((0, LINK)),
                self._access(BORDER, rng.choice((0, 4))),
                self._access(rng.randrange(10), rng.getrandbits(20)),
            )
        )


def _pages(start: int, words: list[int]) -> dict[int, bytes]:
    """Returns the pages of words from one on."""
    first, at = divmod(start, WORDS_IN_PAGE)
    content = bytes(4 * at) + struct.pack(f"<{len(words)}I", *words)
    ends = range(0, len(content), PAGE_BYTES)
    return {first + number: content[end : end + PAGE_BYTES].ljust(PAGE_BYTES, b"\0") for number, end in enumerate(ends)}
