"""Makes a random program, with its initial state and inputs, from a seed."""

import struct
from random import Random

from galluspa.assembler.encoding import (
    ADD,
    ALWAYS,
    AND,
    BYTE,
    DEVICES,
    DIV,
    FAD,
    LINK,
    MOV,
    MUL,
    SUB,
    U,
    V,
    XOR,
    branch,
    branch_register,
    imm,
    load,
    reg,
    store,
)
from galluspa.formats.recording import MOUSE, UNANSWERED, Event
from galluspa.formats.sessions import KIND_NUMBERS, MOST, Session
from tests.programs.trial import Case

WORDS = 1 << 18
EDGES = (0, 1, 2, 0x7FFFFFFF, 0x80000000, 0x80000001, 0xFFFFFFFE, 0xFFFFFFFF)
RATES = (0, 0, 1, 2, 3, 5, 10, 100, 0xFFFFFFFF)
LONGEST = 900
PAIR_AT_END = 244

# A byte of an instruction and the bits of it to turn: a condition, an offset, and a branch that becomes an operation and is one
# again; a target, an operand, SUB and ADD, and the second register.
TURNS_OF_BRANCH = ((3, 1), (3, 2), (3, 8), (0, 1), (0, 3), (3, 0xA0), (3, 0xA0), (3, 0xA0))
TURNS_OF_OPERATION = ((3, 1), (3, 4), (0, 1), (0, 7), (2, 1), (2, 0x10))

# What the registers are for, unless a wild instruction changes them: R0 to R7 hold numbers.
CODE, DATA, BOARD, BRANCH_PATCH, OPERATION_PATCH, LAST_PATCH, ISLAND, RETURN = range(8, 16)
CONDITIONS = (0, 1, 2, 3, 4, 5, 6, 8, 9, 10, 11, 12, 13, 14)


def case(seed: int) -> Case:
    """Returns the program of a seed, how many counts it runs for, and a few of these counts."""
    rng = Random(seed)
    counts = rng.randint(60, LONGEST)
    few = rng.sample(range(1, counts), rng.randint(2, 6))
    return Case(f"seed {seed}", _Writer(rng).session(counts), counts, sorted({*few, min(few[0] + 1, counts), counts}))


def _number(rng: Random) -> int:
    """Returns a word: a small number, one at an edge, or any."""
    return rng.choice((rng.randrange(64), rng.choice(EDGES), rng.getrandbits(32)))


class _Writer:
    """Writes the instructions of one program, each of which knows at which word it is."""

    def __init__(self, rng: Random) -> None:
        self.rng = rng
        self.length = rng.choice((12, 24, 48, 96, 160))
        self.island_length = rng.randint(3, 12)
        self.start, self.island = self._places()
        self.risk = rng.choice((0, 0, 0, 0.002, 0.01, 0.05))
        self.is_paired_at_end = rng.random() < 0.7  # where the program crosses the end of a page
        # The kinds of its inputs: programs of some lengths have a disk.
        self.taken = [kind for kind in MOST if kind != "disk" or self.length in (24, 96)]
        self.words: list[int] = []
        self.kinds, self.weights = zip(
            (self._operation, 26),
            (self._pair, 20),
            (self._short_branch, 6),
            (self._data, 8),
            (self._own_code, 10),
            (self._patched_pair, 18),
            (self._copied_code, 3),
            (self._turned_code, 10),
            (self._swapped_patches, 4),
            (self._device, 8),
            (self._division, 2),
            (self._call, 3),
            (self._branch_by_register, 0.5),
        )

    def session(self, counts: int) -> Session:
        """Returns a session without checkpoints."""
        rng = self.rng
        code, island = self._code(), self._island()
        memory = bytearray(4 * max(self.start + len(code), self.island + len(island)))
        data = 4 * rng.choice((self.start + self.length, self.start, self.island, rng.randrange(WORDS)))
        for at, words in ((self.start, code), (self.island, island)):
            struct.pack_into(f"<{len(words)}I", memory, 4 * at, *words)
        registers = [_number(rng) for _ in range(16)]
        registers[CODE], registers[DATA], registers[BOARD] = 4 * self.start, data, DEVICES
        registers[ISLAND], registers[RETURN] = 4 * self.island, 4 * (self.start + rng.randrange(self.length))
        registers[BRANCH_PATCH] = branch(rng.choice(CONDITIONS), rng.randrange(4))
        registers[OPERATION_PATCH], registers[LAST_PATCH] = self._plain_operation(), self._harmless()
        rate = rng.choice((*RATES, rng.randint(1, 60)))
        return Session(
            registers=registers,
            h=_number(rng),
            pc=self._first(),
            flags=rng.randrange(16),
            rate=rate,
            phase=rng.randrange(rate) if rate else 0,
            disk=_number(rng) if "disk" in self.taken else UNANSWERED,
            memory=bytes(memory),
            inputs=self._inputs(counts),
        )

    def _places(self) -> tuple[int, int]:
        """Returns where the program begins, at times across two pages or up to the end of memory; and a small part far away.

        Some of these are whole multiples of 1,024 words apart, as a small table of decoded instructions may confuse them.
        """
        rng = self.rng
        page = 256 * rng.randrange(1, 1023)
        start = rng.choice((0, page, page - self.length // 2, page - 9, WORDS - self.length, rng.randrange(WORDS - self.length)))
        apart = (start + 1024 * rng.randint(-8, 8)) % (WORDS - 64)
        far = [at for at in (16, WORDS - 4096, apart, rng.randrange(WORDS - 64)) if abs(at - start) > self.length + 64]
        return start, rng.choice(far)

    def _first(self) -> int:
        """Returns the first program counter: the program's first word, another one, or rarely one outside memory."""
        rng = self.rng
        if rng.random() < 0.01:
            return rng.randrange(WORDS, 1 << 22)
        return self.start + (rng.randrange(self.length) if rng.random() < 0.2 else 0)

    def _inputs(self, counts: int) -> list[Event]:
        rng = self.rng
        at = sorted(rng.randrange(counts + 20) for _ in range(rng.choice((0, 3, 20, 60))))
        return [self._input(count) for count in at]

    def _input(self, count: int) -> Event:
        name = self.rng.choice(self.taken)
        value = self.rng.randrange(MOST[name] + 1)
        return Event(count, KIND_NUMBERS[name], value & MOUSE if name == "mouse" else value)

    def _code(self) -> list[int]:
        """Returns the program: at its end a branch to its begin, but for a few that leave memory there."""
        while len(self.words) < self.length:
            in_page = (self.start + len(self.words)) % 256
            if self.rng.random() < self.risk:
                self._wild()
            elif self.is_paired_at_end and in_page >= PAIR_AT_END and len(self.words) + 16 < self.length:
                self._pair_at_end(in_page)
            else:
                self.rng.choices(self.kinds, self.weights)[0]()
        del self.words[self.length :]
        if self.rng.random() > 0.05:
            self.words[-1] = branch(ALWAYS, -self.length)
        return self.words

    def _island(self) -> list[int]:
        """Returns the part far away: a few operations, and a return by register or by a far branch."""
        words = [self._harmless_operation() for _ in range(self.island_length)]
        back = self.start + self.rng.randrange(self.length) - (self.island + self.island_length) - 1
        return [*words, self.rng.choice((branch_register(ALWAYS, RETURN), branch(ALWAYS, back)))]

    def _pair_at_end(self, in_page: int) -> None:
        """Goes on so that a pair that is changed at each pass has its second half in the next page."""
        if in_page == 255:
            self._plain_pair()
        elif in_page in (251, 252):
            at = 4 * (len(self.words) + 256 - in_page)
            if in_page == 251:
                self._swap(self.rng.randrange(8), BRANCH_PATCH, OPERATION_PATCH)
                self._add(store(BRANCH_PATCH, CODE, at))
            else:
                self._turn(self.rng.randrange(8), at + 3, self.rng.choice((1, 8)), BYTE)
        else:
            self._operation()

    # Instructions. Each adds one to three words.

    def _add(self, word: int) -> None:
        self.words.append(word)

    def _target(self) -> int:
        """Returns the register of a result: mostly one that holds numbers."""
        return self.rng.randrange(16) if self.rng.random() < self.risk else self.rng.randrange(8)

    def _operation_word(self, op: int) -> int:
        """Returns an operation with any modifiers and, in bits that have no effect, anything."""
        rng = self.rng
        modifiers = rng.choice((0, 0, U, V, U | V))
        a, b = self._target(), rng.randrange(16)
        if rng.random() < 0.5:
            return modifiers | reg(op, a, b, rng.getrandbits(16))
        return modifiers | imm(op, a, b, rng.choice((0, 1, 2, 31, rng.getrandbits(16))))

    def _operation(self) -> None:
        self._add(self._operation_word(self.rng.randrange(MUL + 1)))

    def _harmless_operation(self) -> int:
        rng = self.rng
        return rng.choice((imm, reg))(rng.randrange(MUL + 1), rng.randrange(8), rng.randrange(8), rng.randrange(8))

    def _branch_word(self, condition: int) -> int:
        """Returns a short branch within the program; few go back, since many a program would go no further."""
        at, rng = len(self.words), self.rng
        to = at + (rng.randint(-20, 0) if rng.random() < 0.07 else rng.choice((1, 1, 2, 3, 5, rng.randint(1, 30))))
        return branch(condition, min(max(to, -1), self.length - 2) - at) | rng.getrandbits(2) << 22

    def _harmless(self) -> int:
        """Returns an instruction to store into the program's own code."""
        rng = self.rng
        pair = imm(rng.choice((SUB, AND, ADD)), rng.randrange(8), rng.randrange(8), rng.randrange(16))
        return rng.choice((self._harmless_operation(), pair, branch(rng.randrange(16), rng.randrange(4))))

    def _pair(self) -> None:
        """An operation with the conditional branch that follows it; rarely something between them."""
        rng = self.rng
        if rng.random() < 0.5:
            self._plain_pair()
            return
        self._add(self._operation_word(rng.choice((SUB, AND, ADD, rng.randrange(MUL + 1)))))
        if rng.random() < 0.2:
            self._device()
        self._add(self._branch_word(rng.randrange(16)) | (LINK if rng.random() < 0.1 else 0))

    def _plain_pair(self) -> None:
        """SUB, AND or ADD without the carry, and a branch that depends on it."""
        self._add(self._plain_operation())
        self._add(self._branch_word(self.rng.choice(CONDITIONS)))

    def _plain_operation(self) -> int:
        rng = self.rng
        op, a, b = rng.choice((SUB, SUB, SUB, AND, ADD)), rng.randrange(8), rng.randrange(8)
        return rng.choice((reg(op, a, b, rng.randrange(8)), imm(op, a, b, rng.randint(-3, 3))))

    def _short_branch(self) -> None:
        self._add(self._branch_word(self.rng.randrange(16)))

    def _data(self) -> None:
        """A load or store of a word or a byte around the data."""
        rng = self.rng
        at = rng.choice((rng.randrange(64), rng.randrange(-64, 1024)))
        self._add(rng.choice((load, store))(rng.randrange(8), DATA, at) | rng.choice((0, 0, BYTE)))

    def _near(self, ahead: int = 0) -> int:
        """Returns the byte offset, from the program's start, of a word near the one that is written `ahead` words later, or of
        any."""
        rng = self.rng
        there = rng.choice((-2, -1, 0, 1, 1, 1, 2, 2, 3, rng.randint(-16, 16), None))
        near = rng.randrange(self.length) if there is None else len(self.words) + ahead + there
        return 4 * min(max(near, 0), self.length - 2)

    def _own_code(self) -> None:
        """A store into the program: an instruction, or into one byte of a word, mostly one that keeps it an instruction."""
        rng = self.rng
        at = self._near()
        if rng.random() < 0.5:
            self._add(store(rng.randint(BRANCH_PATCH, LAST_PATCH), CODE, at))
        else:
            self._add(store(rng.randrange(8), CODE, at + rng.choice((0, 0, 1, rng.randrange(4)))) | BYTE)

    def _patched_pair(self) -> None:
        """Changes one of two words, an operation and the branch after it, so that it is another at each pass.

        The pair comes next, or it comes first and is changed after it.
        """
        rng = self.rng
        half, is_back = rng.choice((0, 1, 1)), rng.random() < 0.3
        pair = len(self.words)
        if is_back:
            self._plain_pair()
        into = rng.randrange(8)
        if rng.random() < 0.5:
            self._swap(into, BRANCH_PATCH if half else LAST_PATCH, OPERATION_PATCH)
            at = pair if is_back else len(self.words) + 1
            self._add(store(rng.choice((into, OPERATION_PATCH)), CODE, 4 * (at + half)))
        else:
            lane, bits = rng.choice(TURNS_OF_BRANCH if half else TURNS_OF_OPERATION)
            at = pair if is_back else len(self.words) + 3
            self._turn(into, 4 * (at + half) + lane, bits, BYTE)
        if not is_back:
            self._plain_pair()

    def _swap(self, into: int, one: int, two: int) -> None:
        """Swaps two registers, the first of which is also kept in a third."""
        for a, c in ((into, one), (one, two), (two, into)):
            self._add(reg(MOV, a, 0, c))

    def _turn(self, into: int, at: int, bits: int, width: int) -> None:
        """Turns bits of a word or byte of the program."""
        self._add(load(into, CODE, at) | width)
        self._add(imm(XOR, into, into, bits))
        self._add(store(into, CODE, at) | width)

    def _copied_code(self) -> None:
        """Copies a word of the program to another place of it."""
        into = self.rng.randrange(8)
        self._add(load(into, CODE, self._near()))
        self._add(store(into, CODE, self._near()))

    def _turned_code(self) -> None:
        """Turns bits of the program, so that a word is another at each pass: by word in its operand or offset; by byte
        also in its operation or second register, or in its modifiers, its condition or its target.
        """
        rng = self.rng
        lane, width = rng.choice(((0, 0), (0, 0), (0, BYTE), (2, BYTE), (3, BYTE), (3, BYTE)))
        bits = {0: (1, 2, 3, rng.randrange(16)), 2: (1, 0x10, 0x71), 3: (1, 2, 8, 0x10, 0x20)}[lane]
        self._turn(rng.randrange(8), self._near(2) + lane, rng.choice(bits), width)

    def _swapped_patches(self) -> None:
        """Swaps two of the words that are stored into the program, so that other ones are stored at the next pass."""
        rng = self.rng
        self._swap(rng.randrange(8), rng.randint(BRANCH_PATCH, LAST_PATCH), rng.randint(BRANCH_PATCH, LAST_PATCH))

    def _device(self) -> None:
        """A load from a device word, more often than others the timer, or a store to one, by word or by byte."""
        rng = self.rng
        word = rng.choice((0, 0, 4 * rng.randrange(16)))
        lane = rng.choice((0, 0, BYTE))
        self._add(rng.choice((load, load, store))(rng.randrange(8), BOARD, word + (rng.randrange(4) if lane else 0)) | lane)

    def _division(self) -> None:
        """A division, mostly by a positive number."""
        rng = self.rng
        if rng.random() < self.risk:
            self._add(self._operation_word(DIV))
        else:
            self._add(imm(DIV, rng.randrange(8), rng.randrange(16), rng.choice((1, 2, 7, 0xFFFF))) | rng.choice((0, U)))

    def _call(self) -> None:
        """A call of the part far away, by offset or by register."""
        rng = self.rng
        offset = self.island + rng.randrange(self.island_length) - (self.start + len(self.words)) - 1
        condition = rng.choice((ALWAYS, rng.randrange(16)))
        self._add(rng.choice((branch(condition, offset), branch_register(condition, ISLAND))) | LINK)

    def _branch_by_register(self) -> None:
        rng = self.rng
        target = rng.choice((CODE, RETURN))
        self._add(branch_register(rng.randrange(16), target) | rng.choice((0, LINK)) | rng.getrandbits(4) << 20)

    def _wild(self) -> None:
        """Any word, an operation that stops, or a load or store that has any address."""
        rng = self.rng
        self._add(
            rng.choice(
                (
                    rng.getrandbits(32),
                    self._operation_word(rng.randrange(FAD, FAD + 4)),
                    self._operation_word(DIV),
                    rng.choice((load, store))(rng.randrange(16), rng.randrange(8), rng.getrandbits(20)) | rng.choice((0, BYTE)),
                    branch(rng.randrange(16), rng.getrandbits(22)),
                    branch_register(rng.randrange(16), rng.randrange(16)),
                )
            )
        )
