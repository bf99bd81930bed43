"""Evaluates the expressions of an assembler source: numbers, labels and constants with + - * / % and parentheses."""

from collections.abc import Callable, Sequence
from dataclasses import dataclass

from galluspa.assembler.tokens import Kind, Token, wrong
from galluspa.formats.language import MOST, advice

DEEPEST = MOST["depth"]
LARGEST = 1 << 64


@dataclass(frozen=True)
class Value:
    """A number; a place, if it is the byte address of a label, or at a distance from one."""

    number: int
    is_place: bool = False


# What a name stands for, given how deep the expression is that it is in; it raises Wrong if it stands for nothing.
Names = Callable[[Token, int], Value]


class _Reader:
    """Reads an expression from left to right; `column` is that of its end."""

    def __init__(self, tokens: Sequence[Token], column: int, names: Names, here: int, depth: int) -> None:
        self.tokens = tokens
        self.column = column
        self.names = names
        self.here = here
        self.at = 0
        self.depth = depth

    def mark(self, marks: str) -> Token | None:
        """Returns the next token, if it is one of these marks."""
        token = self.tokens[self.at] if self.at < len(self.tokens) else None
        if token and token.kind is Kind.MARK and token.text in marks:
            self.at += 1
            return token
        return None

    def sum(self) -> Value:
        """Products that are added or subtracted."""
        value = self.product()
        while mark := self.mark("+-"):
            value = _bounded(_sum(value, self.product(), mark.text), mark)
        return value

    def product(self) -> Value:
        """Atoms that are multiplied or divided."""
        value = self.atom()
        while mark := self.mark("*/%"):
            value = _bounded(_product(value, self.atom(), mark), mark)
        return value

    def atom(self) -> Value:
        """Returns a number, a name, the address here, or an expression with a sign or in parentheses."""
        if self.at == len(self.tokens):
            raise wrong(self.column, "missing")
        token = self.tokens[self.at]
        self.at += 1
        if token.kind is Kind.NUMBER:
            return Value(token.number)
        if token.kind is Kind.NAME:
            return self.names(token, self.depth)
        if token.is_mark("$"):
            return Value(self.here, True)
        if token.kind is Kind.MARK and token.text in "-+(":
            return self.nested(token)
        raise wrong(token.column, "value", text=token.text, advice=self.advice(token))

    def advice(self, token: Token) -> str:
        """Returns what to write in place of a token that begins no number, if it begins one in another assembler."""
        after = self.tokens[self.at].text if self.at < len(self.tokens) else ""
        if token.is_mark("%") and after and set(after) <= {"0", "1"}:
            return advice("binary", number=int(after, 2))
        if token.kind is Kind.STRING and len(token.content) == 1:
            return advice("character", text=token.text[1:-1])
        if token.is_mark("="):
            return advice("equals", text=after or "a name")
        return ""

    def nested(self, token: Token) -> Value:
        """Returns what follows a sign or an opening parenthesis."""
        self.depth = deeper(self.depth, token)
        if token.is_mark("("):
            value = self.sum()
            if not self.mark(")"):
                raise wrong(token.column, "parenthesis")
        else:
            value = self.atom()
            value = Value(-value.number) if token.is_mark("-") else value
        self.depth -= 1
        return value


def deeper(depth: int, token: Token) -> int:
    """One level deeper than a depth, for what is behind a token."""
    if depth >= DEEPEST:
        raise wrong(token.column, "deep", most=DEEPEST)
    return depth + 1


def evaluate(tokens: Sequence[Token], column: int, names: Names, here: int, depth: int = 0) -> Value:
    """Returns the value of an expression: `column` is that of its end, and `here` the byte address that $ stands for."""
    reader = _Reader(tokens, column, names, here, depth)
    value = reader.sum()
    if reader.at < len(tokens):
        extra = tokens[reader.at]
        raise wrong(extra.column, "extra", text=extra.text)
    return value


def _sum(left: Value, right: Value, mark: str) -> Value:
    if mark == "+":
        return Value(left.number + right.number, left.is_place != right.is_place)
    return Value(left.number - right.number, left.is_place and not right.is_place)


def _product(left: Value, right: Value, mark: Token) -> Value:
    if mark.text == "*":
        return Value(left.number * right.number)
    if not right.number:
        raise wrong(mark.column, "zero")
    return Value(left.number // right.number if mark.text == "/" else left.number % right.number)


def _bounded(value: Value, mark: Token) -> Value:
    if abs(value.number) >= LARGEST:
        raise wrong(mark.column, "large")
    return value
