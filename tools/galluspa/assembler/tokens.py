"""Takes a line of an assembler source apart: names, numbers, strings and marks, each with its column."""

import re
from dataclasses import dataclass
from enum import Enum, auto

from galluspa.formats.language import LANGUAGE, MOST, mistake

DIGITS = MOST["digits"]
ESCAPES: dict[str, int] = LANGUAGE["escapes"]
# A repetition that gives nothing back (`*+`) keeps nothing of what it passed, however long a name or a string is.
PATTERN = re.compile(
    r"""(?P<space>[ \t\r\f]+)|(?P<comment>;.*)|(?P<name>[A-Za-z_][A-Za-z0-9_]*(?:\.[A-Za-z_][A-Za-z0-9_]*+)*+'?)"""
    r"""|(?P<number>[0-9][0-9A-Za-z_]*)"""
    r"""|(?P<character>'(?:\\.[0-9A-Fa-f]{0,2}|[^'\\])')|(?P<string>"[^"\\]*+(?:\\.[^"\\]*+)*+")|(?P<mark>[:,=+\-*/%()$])"""
)
# A hexadecimal number as other assemblers write it: no expression has $, the address here, and digits after it.
DOLLAR = re.compile(r"\$(?P<digits>[0-9A-Fa-f]+)(?![0-9A-Za-z_])")
NUMBER = re.compile(r"0[xX](?P<prefixed>[0-9A-Fa-f]+)|(?P<suffixed>[0-9][0-9A-Fa-f]*)[hH]|(?P<decimal>[0-9]+)")
SIGN = re.compile(r"\\x([0-9A-Fa-f]{2})|\\(.)|(.)", re.DOTALL)


class Wrong(Exception):
    """What is wrong at a column of a line, counted from 1."""

    def __init__(self, column: int, text: str) -> None:
        super().__init__(text)
        self.column = column


def wrong(column: int, name: str, /, **given: object) -> Wrong:
    """Returns a mistake by its name, with what is given in the places of its text."""
    return Wrong(column, mistake(name, **given))


class Kind(Enum):
    """What a token is."""

    NAME = auto()
    NUMBER = auto()
    STRING = auto()
    MARK = auto()


@dataclass(frozen=True)
class Token:
    """A token: its text as it is written, its column, and its number or its bytes."""

    kind: Kind
    text: str
    column: int
    number: int = 0
    content: bytes = b""

    def is_mark(self, mark: str) -> bool:
        """Returns whether it is this mark."""
        return self.kind is Kind.MARK and self.text == mark


def tokens_of(line: str) -> list[Token]:
    """Returns the tokens of a line, without its comment."""
    tokens, at = list[Token](), 0
    while at < len(line):
        found = PATTERN.match(line, at)
        if line.startswith(("//", "/*"), at):
            raise wrong(at + 1, "comment")
        if dollar := DOLLAR.match(line, at):
            raise wrong(at + 1, "dollar", text=dollar[0][:DIGITS], digits=dollar["digits"][:DIGITS])
        if not found:
            raise Wrong(at + 1, _unknown(line[at]))
        if found.lastgroup not in ("space", "comment"):
            tokens.append(_token(found.lastgroup or "", found[0], at + 1))
        at = found.end()
    return tokens


def _unknown(sign: str) -> str:
    if sign == '"':
        return mistake("stringEnd")
    if sign == "'":
        return mistake("character")
    return mistake("sign", sign=repr(sign))


def _token(group: str, text: str, column: int) -> Token:
    if group == "number":
        return Token(Kind.NUMBER, text, column, _number(text, column))
    if group == "character":
        content = _content(text[1:-1], column + 1)
        if len(content) != 1:
            raise wrong(column, "oneCharacter", text=text)
        return Token(Kind.NUMBER, text, column, content[0])
    if group == "string":
        return Token(Kind.STRING, text, column, content=_content(text[1:-1], column + 1))
    return Token(Kind.NAME if group == "name" else Kind.MARK, text, column)


def _number(text: str, column: int) -> int:
    found = NUMBER.fullmatch(text)
    if not found or len(text) > DIGITS:
        binary = re.fullmatch(r"0[bB]([01]+)", text[:DIGITS])
        if binary:
            raise wrong(column, "binary", text=text[:DIGITS], number=int(binary[1], 2))
        raise wrong(column, "number", text=text[:DIGITS])
    return int(found["decimal"]) if found["decimal"] else int(found["prefixed"] or found["suffixed"], 16)


def _content(text: str, column: int) -> bytes:
    """Returns the bytes of a string; what is not ASCII is written by its number."""
    content = bytearray()
    for found in SIGN.finditer(text):
        hexadecimal, escaped, plain = found.groups()
        where = column + found.start()
        if plain and not plain.isascii():
            raise wrong(where, "ascii", sign=repr(plain))
        if escaped and escaped not in ESCAPES:
            raise wrong(where, "escape", sign=escaped)
        content.append(int(hexadecimal, 16) if hexadecimal else ESCAPES[escaped] if escaped else ord(plain))
    return bytes(content)
