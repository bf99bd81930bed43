"""Takes an assembler source apart: the statement of each line, with its labels and its arguments."""

from collections.abc import Sequence
from dataclasses import dataclass
from itertools import pairwise

from galluspa.assembler.mnemonics import BRANCHES, MNEMONICS
from galluspa.assembler.tokens import Kind, Token, tokens_of, wrong
from galluspa.formats.alike import are_alike
from galluspa.formats.language import LANGUAGE, advice

CONSTANT, INSTRUCTION = "=", "instruction"
ORIGIN, OFFSETS, WORD, BYTE, STRING, INCLUDE = LAYING = tuple[str, ...](LANGUAGE["directives"])
START, SET, RATE, PHASE, INPUT, CHECKPOINTS, EVERY, UNTIL = SETTINGS = tuple[str, ...](LANGUAGE["settings"])
DIRECTIVES = frozenset((*LAYING, *SETTINGS))
# What has one operand at most.
_SINGLE = frozenset((*BRANCHES, *(name.upper() for name in LANGUAGE["single"])))
# What a statement may be meant to begin with, in the order in which it is suggested.
_FIRST_WORDS = (*sorted(MNEMONICS), *sorted(DIRECTIVES))


@dataclass(frozen=True)
class Argument:
    """The tokens between two commas, and the column of their end."""

    tokens: Sequence[Token]
    end: int

    @property
    def column(self) -> int:
        """The column where it begins."""
        return self.tokens[0].column if self.tokens else self.end

    @property
    def text(self) -> str:
        """What is written."""
        return " ".join(token.text for token in self.tokens)


@dataclass
class Statement:
    """What a line says: its number, its labels, what is done with which arguments, the byte address where it lies, and
    whether offsets are written with 22 bits there. A line of labels alone has an empty name. A constant's name is that
    of the constant."""

    line: int
    source: str
    labels: list[Token]
    name: Token = Token(Kind.NAME, "", 1)
    does: str = ""
    arguments: Sequence[Argument] = ()
    here: int = 0
    is_narrow: bool = False

    @property
    def is_aligned(self) -> bool:
        """Whether it lies at a multiple of four bytes."""
        return self.does in (INSTRUCTION, WORD)

    @property
    def size(self) -> int:
        """How many bytes it fills."""
        if self.does in (BYTE, STRING):
            lengths = (len(content(it)) if is_string(it) else 1 for it in self.arguments)
            return sum(lengths) + (self.does == STRING)
        return {INSTRUCTION: 4, WORD: 4 * len(self.arguments)}.get(self.does, 0)


def is_string(argument: Argument) -> bool:
    """Returns whether an argument is one string."""
    return len(argument.tokens) == 1 and argument.tokens[0].kind is Kind.STRING


def content(argument: Argument) -> bytes:
    """Returns the bytes of an argument that is a string."""
    return argument.tokens[0].content


def expect_commas(statement: Statement) -> None:
    """Refuses two operands side by side where a statement may have several: there is a comma between them."""
    if statement.does == CONSTANT or statement.name.text.upper() in _SINGLE:
        return
    for argument in statement.arguments:
        for before, after in pairwise(argument.tokens):
            if _is_operand(before, ")") and _is_operand(after, "("):
                raise wrong(after.column, "comma", text=after.text)


def _is_operand(token: Token, parenthesis: str) -> bool:
    """Returns whether an operand may end or begin with a token; `parenthesis` is the mark that does, too."""
    return token.kind is not Kind.MARK or token.text in ("$", parenthesis)


def statement_of(line: int, source: str) -> Statement:
    """Returns the statement of a line."""
    tokens, labels = tokens_of(source), list[Token]()
    at = 0
    while at + 1 < len(tokens) and tokens[at].kind is Kind.NAME and tokens[at + 1].is_mark(":"):
        labels.append(tokens[at])
        at += 2
    tokens = tokens[at:]
    if not tokens:
        return Statement(line, source, labels)
    name, rest, end = tokens[0], tokens[1:], tokens[-1].column + len(tokens[-1].text)
    if name.kind is not Kind.NAME:
        raise wrong(name.column, "begins", text=name.text)
    if rest and rest[0].is_mark("="):
        if labels:
            raise wrong(labels[0].column, "constantLabel")
        return Statement(line, source, [], name, CONSTANT, [Argument(rest[1:], end)])
    return Statement(line, source, labels, name, _what(name, rest), _arguments(rest, end))


def _what(name: Token, rest: Sequence[Token]) -> str:
    if name.text.upper() in MNEMONICS:
        return INSTRUCTION
    if name.text.lower() in DIRECTIVES:
        return name.text.lower()
    meant = next((other for other in _FIRST_WORDS if rest and are_alike(name.text, other)), "")
    said = advice("meant", meant=meant) if meant else advice("label")
    raise wrong(name.column, "statement", name=name.text, advice=said)


def _arguments(tokens: Sequence[Token], end: int) -> list[Argument]:
    """Returns what is between commas; nothing, if nothing is written."""
    if not tokens:
        return []
    arguments, begin = [], 0
    for at, token in enumerate(tokens):
        if token.is_mark(","):
            arguments.append(Argument(tokens[begin:at], token.column))
            begin = at + 1
    return [*arguments, Argument(tokens[begin:], end)]
