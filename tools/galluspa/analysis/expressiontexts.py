"""The one grammar of expressions, which `print`, `x`, `display`, conditions, `galluspa find` and scripts of events read.

An expression is parsed with the names of a symbol file. A mistake is refused in one line, in which a caret is before its place.
"""

import re
from collections.abc import Callable, Sequence

from galluspa.analysis.expressions import Chain, Comparison, Junction, Named, Node, Number, Part, Word, constant, negated
from galluspa.assembler.assembly import BUILT_IN
from galluspa.formats.recording import MEMORY_BYTES, WORD
from galluspa.formats.states import REGISTERS
from galluspa.formats.symbols import CONSTANT, DATA, NONE, Symbol, Symbols, shown
from galluspa.process.cli import Refused

# What devices are called as addresses: the names that the assembler knows.
NAMED = {name: value & 0xFFFFFF for name, value in BUILT_IN.items()}
# Registers by all their names, in capital letters, and the devices whose value a state has.
REGISTER_NAMES = {**{name: name for name in REGISTERS}, "SP": "R14", "LNK": "R15", "H": "H", "PC": "PC", "FLAGS": "flags"}
DEVICES = {it.upper(): it for it in ("timer", "switches", "LEDs", "mouse", "serial", "disk")}
# The most characters of an expression, and the most brackets within one another.
MOST_CHARACTERS, MOST_NESTED = 1000, 32
# The number of characters that are shown before and after a mistake.
EXCERPT = 30
NUMBER = re.compile(r"0[xX]([0-9A-Fa-f]+)(?!\w)|([0-9][0-9A-Fa-f]*)[hH](?!\w)|([0-9]+)(?!\w)")
# A word as `galluspa trace` names it, in hexadecimal.
SIX_DIGITS = re.compile(r"\s*(0[0-9A-Fa-f]{5})\s*\]")
MEMORY = re.compile(r"mem\s*\[", re.IGNORECASE)
NAME = re.compile(r"\$?[^\W\d][\w.]*")
# A number as it is written elsewhere.
ELSEWHERE = re.compile(r"\$?([0-9A-Fa-f]+)")
COMPARISONS = ("==", "!=", "<=", ">=", "<", ">", "#")
# The operators of words, from those that bind least.
LEVELS = (("|",), ("&",), ("<<", ">>"), ("+", "-"), ("*",))
SUMS = 3
SIGNS = re.compile(r"[=!<>]=|&&|\|\||<<|>>|[-=<>#+*&|!()\[\]]")
WANTED = "expected a number (16, 0x10 or 10H), a register, a name, &NAME, Mem[ADDRESS] or ( .. )"
WANTED_ADDRESS = (
    "expected an address: a number (16, 0x10 or 10H), R0 to R15, SP, LNK, PC, a name of a symbol file or Mem[ADDRESS], and "
    "sums of them"
)
WANTED_SIGN = "expected + - * & | << >>, a comparison (== != < <= > >=), and, or"
EXPRESSIONS = """\
An EXPRESSION has registers (R0 to R15, SP, LNK, PC, H, flags), devices (timer, switches, LEDs, mouse, serial, disk), numbers (16,
0x10 or 10H), names, Mem[ADDRESS], a word of memory, and + - * & | << >>, from * to |, with brackets. The name of a variable
is the word there, and &NAME its address; other names are addresses and constants. *ADDRESS is Mem[ADDRESS], of the whole sum
after it. PC is a byte address. A CONDITION compares (== != < <= > >=) numbers with a sign, and has and, or, not; one that
reads beyond the memory does not hold. Mem[0EECC8], with six digits of which the first is 0, is the word that trace calls so."""


def literal(text: str) -> int | None:
    """Returns the number that a text is, decimal, with 0x before it or H after it, or None."""
    found = NUMBER.fullmatch(text.strip())
    return _number(found) if found and len(found[0]) <= 20 else None


def _number(found: re.Match[str]) -> int:
    hexadecimal = found[1] or found[2]
    return int(hexadecimal, 16) if hexadecimal else int(found[3])


class Parser:
    """Reads an expression from the beginning of a text on. In an address a name stands for its own address."""

    def __init__(self, text: str, symbols: Symbols = NONE, is_address: bool = False) -> None:
        self.text, self.at = text, 0
        # Whether a comparison was read, or something else that only conditions have.
        self.has_compared = False
        self._symbols = symbols
        self._is_address = is_address
        self._nested = 0
        self._blank()

    def whole(self) -> Node:
        """Returns the expression that the whole text is."""
        if len(self.text) > MOST_CHARACTERS:
            raise Refused(f"an {'address' if self._is_address else 'expression'} has at most {MOST_CHARACTERS:,} characters")
        if not self.text.strip():
            raise Refused(f"nothing: {self._wanted}")
        node = self._value() if self._is_address else self.condition()
        if self.at < len(self.text):
            raise self.wrong_sign()
        return node

    def condition(self) -> Node:
        """Returns the expression that comes next, with and, or and not."""
        parts = [self._conjunction()]
        while self._take_word("or", "||"):
            parts.append(self._conjunction())
        return parts[0] if len(parts) == 1 else Junction(False, tuple(parts))

    def _conjunction(self) -> Node:
        parts = [self.comparison()]
        while self._take_word("and", "&&"):
            parts.append(self.comparison())
        return parts[0] if len(parts) == 1 else Junction(True, tuple(parts))

    def comparison(self) -> Node:
        """Returns the comparison that comes next, without an and or an or after it."""
        if self._take_word("not", "!"):
            return self._within(lambda: negated(self.comparison()))
        left = self._value()
        sign = self._taken(COMPARISONS)
        if not sign:
            return left
        self.has_compared = True
        return Comparison(left, "!=" if sign == "#" else sign, self._value())

    def _value(self, level: int = 0) -> Node:
        """Returns what operators of a level join, and of those that bind more."""
        if level == len(LEVELS):
            return self._operand()
        first, rest = self._value(level + 1), []
        while sign := self._taken(LEVELS[level]):
            rest.append((sign, self._value(level + 1)))
        return Chain(first, tuple(rest)) if rest else first

    def _operand(self) -> Node:
        """Returns an operand with what is before it."""
        if self._taken(("-",)):
            return Chain(Number(0), (("-", self._within(self._operand)),))
        if self._taken(("*",)):
            return self._word(self._within(lambda: self._address(SUMS)))
        if self._taken(("&",)):
            return self._name(is_address=True, is_register=False)
        if self._taken(("(",)):
            return self._closed(self._within(self._bracketed), ")")
        if found := MEMORY.match(self.text, self.at):
            return self._memory(found.end())
        if found := NUMBER.match(self.text, self.at):
            return self._literal(found)
        return self._name(self._is_address)

    def _bracketed(self) -> Node:
        """Returns what may be in brackets: of an address no comparison."""
        return self._value() if self._is_address else self.condition()

    def _memory(self, end: int) -> Node:
        """Returns the word of memory whose address comes next."""
        if found := SIX_DIGITS.match(self.text, end):
            node = self._word(Number(int(found[1], 16)))
            self.at = found.end()
            self._blank()
            return node
        self.at = end
        self._blank()
        return self._closed(self._word(self._within(lambda: self._address(0))), "]")

    def _address(self, level: int) -> Node:
        """Returns an address: in it, a name stands for its own address."""
        was, self._is_address = self._is_address, True
        try:
            return self._value(level)
        finally:
            self._is_address = was

    def _word(self, address: Node) -> Node:
        """Returns the word at an address, which is below the end of memory if it is always the same."""
        at = constant(address)
        if at is not None and at >= MEMORY_BYTES:
            raise self._wrong(f"{at:X} is no address of memory, which is below {MEMORY_BYTES:X} (hexadecimal)")
        return Word(address)

    def _literal(self, found: re.Match[str]) -> Node:
        """Returns a number."""
        value = _number(found) if len(found[0]) <= 20 else WORD + 1
        if value > WORD:
            raise self._wrong("a number is below 2^32")
        self._go(found.end())
        return Number(value)

    def _name(self, is_address: bool, is_register: bool = True) -> Node:
        """Returns a register, a device, or what a name of a symbol file stands for."""
        name = self._name_here()
        key = name.removeprefix("$").upper()
        if not name or key in ("AND", "OR", "NOT"):
            raise self._wrong(self._wanted)
        if key in REGISTER_NAMES and is_register:
            self._go(self.at + len(name))
            return Part(REGISTER_NAMES[key])
        found = self._symbols.places(name)
        if len(found) > 1:
            listed = ", ".join(f"0x{it:X}" for it in found[:3]) + (" .." if len(found) > 3 else "")
            raise self._wrong(f"{shown(name)} stands for {len(found):,} addresses, {listed}: write the one that is meant")
        if not found and key in DEVICES and not is_address:
            self._go(self.at + len(name))
            return Part(DEVICES[key])
        if not found and key in NAMED:
            self._go(self.at + len(name))
            return Number(NAMED[key])
        if not found:
            raise self._wrong(self._why_unknown(name))
        symbol = next((it for it in self._symbols.exactly(found[0]) if it.name == name), None)
        node = Named(name, found[0], symbol.kind if symbol else CONSTANT)
        if symbol and symbol.kind == DATA and not is_address:
            return self._variable(symbol, node)
        self._go(self.at + len(name))
        return node

    def _variable(self, symbol: Symbol, node: Named) -> Node:
        """Returns the word of a variable. One of a byte, or within a word, would stand for its neighbours, too."""
        if symbol.address % 4 or symbol.size in (1, 2):
            shift = f" >> {8 * (symbol.address % 4)}" if symbol.address % 4 else ""
            raise self._wrong(f"{shown(symbol.name)} is no whole word: write Mem[{shown(symbol.name)}]{shift} & 0xFF for its byte")
        word = self._word(node)
        self._go(self.at + len(symbol.name))
        return word

    def _name_here(self) -> str:
        """Returns the name that comes next: of the symbols, the longest that is there and ends where a name may end."""
        found = NAME.match(self.text, self.at)
        run = re.compile(r"\S{0,200}").match(self.text, self.at)
        text = run[0] if run else ""
        if self._symbols and not text[:1].isdigit():
            for end in range(len(text), len(found[0]) if found else 0, -1):
                is_end = end == len(text) or not (text[end].isalnum() or text[end] in "_.")
                if is_end and self._symbols.places(text[:end]):
                    return text[:end]
        return found[0] if found else ""

    def _within(self, read: Callable[[], Node]) -> Node:
        """Returns what is within brackets or after a sign, of which there are not too many."""
        self._nested += 1
        if self._nested > MOST_NESTED:
            raise self._wrong(f"at most {MOST_NESTED} brackets and signs may be within one another")
        node = read()
        self._nested -= 1
        return node

    def _closed(self, node: Node, bracket: str) -> Node:
        if not self._taken((bracket,)):
            raise self._wrong(f"expected {bracket}" if self.at == len(self.text) else f"{self._why_no_sign()}, or {bracket}")
        return node

    def _taken(self, signs: Sequence[str]) -> str:
        """Takes the sign that comes next if it is one of some; nothing if not."""
        found = SIGNS.match(self.text, self.at)
        if not found or found[0] not in signs:
            return ""
        self._go(found.end())
        return found[0]

    def _take_word(self, word: str, sign: str) -> bool:
        """Takes a word, or the sign that stands for it, if it comes next."""
        found = NAME.match(self.text, self.at)
        is_there = bool(found and found[0].lower() == word and not self._symbols.places(found[0]))
        if is_there:
            self._go(self.at + len(word))
        is_there = is_there or bool(self._taken((sign,)))
        self.has_compared |= is_there
        return is_there

    def _go(self, at: int) -> None:
        self.at = at
        self._blank()

    def _blank(self) -> None:
        while self.at < len(self.text) and self.text[self.at].isspace():
            self.at += 1

    @property
    def _wanted(self) -> str:
        return WANTED_ADDRESS if self._is_address else WANTED

    def _why_no_sign(self) -> str:
        if self.text.startswith("=", self.at) and not self.text.startswith("==", self.at):
            return "== compares; NAME=VALUE, which find and catch take, is the instruction that makes it so"
        return "expected + - * & | << >>" if self._is_address else WANTED_SIGN

    def _why_unknown(self, name: str) -> str:
        """Returns what is said of a name that nothing has."""
        if found := ELSEWHERE.fullmatch(name):
            return f"write 0x{found[1].lstrip('0') or '0'}: numbers are decimal, or have 0x before them or H after them"
        if not self._symbols:
            return f"there is no symbol file, which would have the name {shown(name)}: {self._wanted}"
        meant = self._symbols.meant(name)
        return f"no symbol is called {shown(name)}" + (f": did you mean {meant}?" if meant else f": {self._wanted}")

    def wrong_sign(self) -> Refused:
        """Returns what is raised if nothing may come next, and something does."""
        return self._wrong(self._why_no_sign())

    def _wrong(self, why: str) -> Refused:
        """Returns what is raised for a mistake at the place."""
        before, after = self.text[max(self.at - EXCERPT, 0) : self.at], self.text[self.at : self.at + EXCERPT]
        cut = (".." * (self.at > EXCERPT), ".." * (len(self.text) > self.at + EXCERPT))
        return Refused(f"{cut[0]}{before}^{after}{cut[1]}: {why}")
