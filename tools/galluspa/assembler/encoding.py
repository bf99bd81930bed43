"""Instruction words, as docs/machine.md encodes them: for programs that are written by hand or at random."""

MOV, LSL, ASR, ROR, AND, ANN, IOR, XOR, ADD, SUB, MUL, DIV, FAD = range(13)
MI, EQ, CS, VS, LS, LT, LE, ALWAYS, PL, NE, CC, VC, HI, GE, GT, NEVER = range(16)
U = 1 << 29
V = 1 << 28
BYTE = V
LINK = V
JUMP_HERE = 0xE7FFFFFF

DEVICES = 0xFFFFFFC0
TIMER, SWITCHES, SERIAL, STATUS, MOUSE, KEY = 0, 4, 8, 12, 24, 28


def reg(op: int, a: int, b: int, c: int) -> int:
    """Returns an operation with a register operand."""
    return a << 24 | b << 20 | op << 16 | c


def imm(op: int, a: int, b: int, value: int) -> int:
    """Returns an operation with an immediate operand from -65,536 to 65,535."""
    return 1 << 30 | (value < 0) << 28 | a << 24 | b << 20 | op << 16 | value & 0xFFFF


def load(a: int, b: int, offset: int) -> int:
    """Returns a load of a word from R.b + offset."""
    return 2 << 30 | a << 24 | b << 20 | offset & 0xFFFFF


def store(a: int, b: int, offset: int) -> int:
    """Returns a store of a word to R.b + offset."""
    return U | load(a, b, offset)


def branch(condition: int, offset: int) -> int:
    """Returns a branch to the word that many words after the next one."""
    return 3 << 30 | U | condition << 24 | offset & 0x3FFFFF


def branch_register(condition: int, c: int) -> int:
    """Returns a branch to the byte address in a register."""
    return 3 << 30 | condition << 24 | c
