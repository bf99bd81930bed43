"""Encodes an instruction from its mnemonic and its operands, in the notation that instructions.py writes."""

import re
from collections.abc import Callable, Sequence
from dataclasses import dataclass

from galluspa.assembler.encoding import LINK, MOV, U, V, branch, branch_register, imm, load, reg
from galluspa.assembler.expressions import Names, Value, evaluate
from galluspa.assembler.tokens import Kind, Token, tokens_of, wrong
from galluspa.formats.instructions import CONDITIONS, OPERATIONS, instruction
from galluspa.formats.language import LANGUAGE, advice, cut

REGISTER = re.compile(r"R(1[0-5]|[0-9])", re.IGNORECASE)
SPECIALS = {name: number * V for number, name in enumerate(LANGUAGE["specials"])}
# The highest four bits of each load and store.
MEMORY: dict[str, int] = LANGUAGE["memory"]
BRANCHES = {f"B{link}{name}": (number, LINK if link else 0) for link in ("", "L") for number, name in enumerate(CONDITIONS)}
# The machine takes 22 bits of an offset. An offset below 0 is written with 24, as Project Oberon's compiler writes it.
WIDENED = 3 << 22
MNEMONICS = frozenset((*OPERATIONS, *(f"{name}'" for name in OPERATIONS), *MEMORY, *BRANCHES))


@dataclass(frozen=True)
class Operand:
    """An operand with its text and its column: a register, H or NZCV, or a value."""

    text: str
    column: int
    register: int | None = None
    special: str = ""
    value: Value | None = None


def register_of(name: str) -> int | None:
    """Returns the number of a register by its name; None of any other name."""
    found = REGISTER.fullmatch(name)
    return int(found[1]) if found else None


def operand_of(
    tokens: Sequence[Token], column: int, names: Names, here: int, registers: Callable[[str], int | None] = register_of
) -> Operand:
    """Returns the operand that tokens write; `column` is that of its end."""
    text = " ".join(token.text for token in tokens)
    if len(tokens) == 1 and tokens[0].kind is Kind.NAME:
        if (register := registers(text)) is not None:
            return Operand(text, tokens[0].column, register=register)
        if text.upper() in SPECIALS:
            return Operand(text, tokens[0].column, special=text.upper())
    begin = tokens[0].column if tokens else column
    return Operand(text, begin, value=evaluate(tokens, column, names, here))


def encoded(name: Token, operands: Sequence[Operand], here: int, is_narrow: bool = False) -> int:
    """Returns the word of an instruction that lies at a byte address; if it is narrow, its offset is written with 22 bits."""
    mnemonic = name.text.upper()
    if mnemonic in BRANCHES:
        return _branch(name, operands, here, 0 if is_narrow else WIDENED)
    return _memory(name, operands) if mnemonic in MEMORY else _operation(name, operands)


def _expect(name: Token, operands: Sequence[Operand], form: str) -> None:
    """Checks the number of operands against a form, which the message shows."""
    number = form.count(",") + 1
    if len(operands) != number:
        noun = "operand" if number == 1 else "operands"
        raise wrong(name.column, "operands", name=name.text, number=number, noun=noun, has=len(operands) or "none", form=form)


def _register(operand: Operand) -> int:
    if operand.register is None:
        raise wrong(operand.column, "register", text=operand.text)
    return operand.register


def _number(operand: Operand, least: int, most: int, what: str, said: str = "") -> int:
    if operand.value is None:
        raise wrong(operand.column, "noNumber", text=operand.text)
    number = operand.value.number
    if not least <= number <= most:
        raise wrong(operand.column, "range", what=what, number=number, least=least, most=most, advice=said)
    return number


def _operation(name: Token, operands: Sequence[Operand]) -> int:
    mnemonic = name.text.upper()
    op, u = OPERATIONS.index(mnemonic.rstrip("'")), U if mnemonic.endswith("'") else 0
    _expect(name, operands, "R0, 5" if op == MOV else "R0, R1, 2")
    a, b = _register(operands[0]), 0 if op == MOV else _register(operands[1])
    last = operands[-1]
    if last.register is not None:
        if op == MOV and u:
            raise wrong(last.column, "moveRegister")
        return u | reg(op, a, b, last.register)
    if last.special:
        if op != MOV or not u:
            raise wrong(last.column, "special", text=last.text)
        return u | SPECIALS[last.special] | reg(op, a, b, 0)
    if op == MOV and u:
        return u | imm(op, a, b, _number(last, 0, 0xFFFF, "the upper half"))
    return u | imm(op, a, b, _number(last, -0x10000, 0xFFFF, "the immediate operand", _halves(op, a, last)))


def _halves(op: int, a: int, operand: Operand) -> str:
    """Returns how a number that is not an immediate operand comes into a register, if it has 32 bits."""
    number = operand.value.number if operand.value else 0
    if not -1 << 31 <= number < 1 << 32:
        return ""
    if op != MOV:
        return advice("intoRegister")
    is_name = operand.text.replace(".", "_").isidentifier() and number >= 0
    halves = (f"{cut(operand.text)} {sign} 10000H" for sign in "/%") if is_name else divmod(number & 0xFFFFFFFF, 0x10000)
    upper, lower = halves
    return advice("halves", a=a, upper=upper, lower=lower)


def _memory(name: Token, operands: Sequence[Operand]) -> int:
    _expect(name, operands, "R1, R2, 4")
    last = operands[2]
    if last.register is not None:
        raise wrong(last.column, "offsetRegister", text=last.text)
    a, b = (_register(operand) for operand in operands[:2])
    return MEMORY[name.text.upper()] << 28 | load(a, b, _number(last, -0x80000, 0x7FFFF, "the offset"))


def _branch(name: Token, operands: Sequence[Operand], here: int, widened: int) -> int:
    """Returns a branch to a register's address, by a number of words, or to a place."""
    _expect(name, operands, "LABEL")
    (condition, link), target = BRANCHES[name.text.upper()], operands[0]
    if target.register is not None:
        return link | branch_register(condition, target.register)
    if target.value and target.value.is_place:
        if target.value.number % 4:
            raise wrong(target.column, "target", number=target.value.number)
        offset = Value(target.value.number // 4 - here // 4 - 1)
        target = Operand(target.text, target.column, value=offset)
    number = _number(target, -0x200000, 0x1FFFFF, "the offset")
    return link | branch(condition, number) | (widened if number < 0 else 0)


def _no_names(token: Token, depth: int) -> Value:
    raise wrong(token.column, "undefined", name=token.text, advice="")


def word_of(text: str) -> int:
    """Returns the word of an instruction without labels, as a listing writes it."""
    name, *rest = tokens_of(text)
    ends = [at for at, token in enumerate(rest) if token.is_mark(",")] + [len(rest)]
    begins = [0, *(end + 1 for end in ends)]
    operands = [operand_of(rest[begin:end], 0, _no_names, 0) for begin, end in zip(begins, ends)]
    return encoded(name, operands, 0)


def source_of(word: int) -> str:
    """Returns what assembles to a word: its instruction; or its number, with the instruction as a comment, if it has bits
    without effect that are other than those that an instruction gets."""
    mnemonic = instruction(word, 0).mnemonic
    return mnemonic if word_of(mnemonic) == word else f"word 0x{word:08X}  ; {mnemonic}"
