"""Rows in which each condition follows an operation on operands at the edges, with the flags of docs/machine.md."""

from collections.abc import Iterator, Sequence
from dataclasses import dataclass

from galluspa.assembler.encoding import ADD, AND, JUMP_HERE, NE, ROR, SUB, U, XOR, branch, imm, load, reg
from tests.programs.rows import Row

MASK = 0xFFFFFFFF
OPERANDS = (
    (0, 0),
    (0, 1),
    (1, 0),
    (5, 5),
    (0x80000000, 1),
    (0x7FFFFFFF, MASK),
    (0x7FFFFFFF, 1),
    (0x80000000, 0x80000000),
    (MASK, MASK),
)
NAMES = {SUB: "SUB", ADD: "ADD", AND: "AND", XOR: "XOR"}
TABLE = 1024


@dataclass(frozen=True)
class _Operation:
    """An operation on R3, and on R4 or an immediate operand, into R2."""

    op: int
    with_carry: bool = False
    immediate: int | None = None

    @property
    def word(self) -> int:
        """The instruction."""
        word = reg(self.op, 2, 3, 4) if self.immediate is None else imm(self.op, 2, 3, self.immediate)
        return word | (U if self.with_carry else 0)

    def __str__(self) -> str:
        number = "" if self.immediate is None else f" {self.immediate}"
        return NAMES[self.op] + number + " with the carry" * self.with_carry


@dataclass
class _Flags:
    n: bool = False
    z: bool = False
    c: bool = False
    v: bool = False

    def do(self, operation: _Operation, b: int, y: int) -> None:
        """Sets the flags as an operation does."""
        op, carry = operation.op, int(operation.with_carry and self.c)
        y = y if operation.immediate is None else operation.immediate & MASK
        if op in (ADD, SUB):
            sign = 1 if op == ADD else -1
            exact, whole = b + sign * (y + carry), _signed(b) + sign * (_signed(y) + carry)
            self.c, self.v = not 0 <= exact <= MASK, whole != _signed(whole & MASK)
        else:
            exact = b & y if op == AND else b ^ y
        self.n, self.z = bool(exact >> 31 & 1), not exact & MASK

    def holds(self, condition: int) -> bool:
        """Returns whether a condition holds."""
        less = self.n != self.v
        held = (self.n, self.z, self.c, self.v, self.c or self.z, less, less or self.z, True)[condition & 7]
        return held != bool(condition >> 3)


def _signed(word: int) -> int:
    return word - (word >> 31 << 32)


def _row(*operations: _Operation) -> Row:
    """Does these operations before each condition, for each pair of operands; R5 gathers which branches were taken."""
    words = [load(3, 7, 0), load(4, 7, 4), imm(ADD, 7, 7, 8)]
    for condition in range(16):
        words += [operation.word for operation in operations]
        words += [branch(condition, 1), imm(XOR, 5, 5, 1), imm(ROR, 5, 5, 1)]
    words += [imm(SUB, 0, 0, 1), branch(NE, -len(words) - 2), JUMP_HERE]
    gathered, counts = _gathered(operations)
    table = {TABLE // 4 + at: word for at, word in enumerate(word for pair in OPERANDS for word in pair)}
    name = "conditions after " + ", ".join(str(operation) for operation in operations)
    return Row(
        name,
        {**dict(enumerate(words)), **table},
        counts + 2,
        [counts // 3, counts // 3 + 1, counts // 2],
        {"R0": 0, "R5": gathered, "PC": len(words) - 1},
        {0: len(OPERANDS), 7: TABLE},
    )


def _gathered(operations: Sequence[_Operation]) -> tuple[int, int]:
    """Returns what R5 gathers, and how many instructions that takes."""
    flags, gathered, counts = _Flags(), 0, 0
    for left, (b, y) in zip(reversed(range(len(OPERANDS))), OPERANDS):
        flags.do(_Operation(ADD), TABLE, 8)
        for condition in range(16):
            for operation in operations:
                flags.do(operation, b, y)
            is_taken = flags.holds(condition)
            gathered ^= not is_taken
            gathered = gathered >> 1 | (gathered & 1) << 31
            counts += len(operations) + (2 if is_taken else 3)
        flags.do(_Operation(SUB), left + 1, 1)
        counts += 5
    return gathered, counts


def rows() -> Iterator[Row]:
    """Yields a row for each operation, with and without the carry; those that leave C and V come after one that sets them."""
    for op in (SUB, ADD):
        for operand in (None, 1, -1):
            yield _row(_Operation(op, False, operand))
        yield _row(_Operation(op, True))
        yield _row(_Operation(op), _Operation(AND))
        yield _row(_Operation(op), _Operation(AND, False, 1))
    yield _row(_Operation(SUB), _Operation(XOR))
