"""The page's assembler against that of the tools: of each source both make the same memory, session, symbols and mistakes, byte for byte."""

import ast
import base64
import json
import random
from collections.abc import Iterator, Sequence
from dataclasses import dataclass
from itertools import permutations
from pathlib import Path

from galluspa.assembler.assembly import Problem, assembled
from galluspa.assembler.mnemonics import MNEMONICS
from galluspa.assembler.settings import settings_of
from galluspa.assembler.sources import lines_of, read_sources
from galluspa.assembler.statements import DIRECTIVES, SETTINGS
from galluspa.commands.assemble import symbol_file
from galluspa.formats.language import LANGUAGE
from tests.page.driver.desk import PAGE, expect, fail
from tests.page.driver.node import answers
from tests.tools.samples import EXAMPLES, TOP

FILE = "it.asm"
# How many problems the page posts at most, beside their number.
MOST_PROBLEMS = 1000
RANDOM_SOURCES = 4000
NAMES = "a b Loop loop next Display.Char x_1 R1 r15 SP LNK LR PC H NZCV key FFH x' _ LED".split()
VALUES = (
    "0", "1", "-1", "5", "0x1F", "1FH", "0FFH", "65535", "65536", "-65537", "4294967295", "4294967296", "0b101", "12G", "'A'", "'\\n'", "'\\x41'",
    "'ab'", "'é'", "$", "$ + 4", "$FF", "$FFé", "DISPLAY", "SERIAL", "LEDS - SERIAL", "18446744073709551615", "99999999999999999999",
    "0xFFFFFFFFFFFFFFFFFF", "1048575", "524287", "-524289", "2097151", "1099511627776", "1099511627777", '"a"', '"Hi\\n"', '"\\q"', '"é"', "%101", "=x",
    "#5", "@x", "\t", "\f", "2/0", "7 % -2", "-7 / 2", "😀", "'😀'", "\x07", "\u200f", "\u00a0", "\u201c", "\u2019", "\u2212", "\ufeff", "\\", "//", "/*", "[", ".w", "&1", "]", "\u2028", "stops", "loops",
    "timer", "mouse", "serial", "pen", "flags = NZ", "flags = Q", "R3 = x_1", "h = 5"
)  # fmt: skip
OPERANDS = (
    "", "R1", "R1, 5", "R1, R2", "R1, R2, 5", "R1, R2, R3", "5, R2, R3", "R1, R2, -70000", "R1, H", "LABEL", "R1, R2, 600000", "R1, R2, R3, R4", "R1 5", "R1, R2 5", "R1, R2 (5)", "5 6"
)  # fmt: skip
LAWFUL = ("0", "1", "-1", "31", "1FH", "'A'", "K0", "K1 + 2", "2 * (K2 - 1)", "LEDS - SERIAL", "7 % 3", "-7 / 2")
APOSTROPHE, WRITTEN = "'", '"a;b\\n\\x41"'
OPERATORS = (" + ", " - ", "*", " / ", " % ", ", ", " ", "(", ")", "-(", " = ", ":", "")


@dataclass(frozen=True)
class Made:
    """What comes of a source: its problems and how many they are, or its memory, its symbols, and its session without checkpoints."""

    problems: list[list[object]]
    number: int
    memory: bytes = b""
    symbols: bytes = b""
    session: dict | None = None


def plain(problems: Sequence[Problem]) -> list[list[object]]:
    """Problems in the order of their places, each once."""
    return [[one.line, one.column, one.text] for one in sorted(set(problems))]


def made_by_tools(source: str) -> Made:
    """Returns what the tools make of a source."""
    it = assembled(lines_of(source, FILE))
    made = settings_of(it)
    if it.problems:
        problems = plain(it.problems)
        return Made(problems[:MOST_PROBLEMS], len(problems))
    memory, symbols = bytes(it.memory), without_sums(symbol_file(it))
    return Made([], 0, memory, symbols, session_of(made.session.text()))


def session_of(text: str) -> dict:
    """Returns a session as version 2 has it, without checkpoints: those are for the tools."""
    session = json.loads(text)
    return {**session, "version": 2, "start": {"rate": 0, "phase": 0, **session["start"]}, "checkpoints": []}


def made_by_page(sources: Sequence[str]) -> list[Made]:
    """Returns what the page makes of sources."""
    return [made_of(answer_of(it)) for it in answers(PAGE, [("assemble", {"source": source, "file": FILE}) for source in sources])]


def answer_of(said: dict) -> dict:
    """Returns the answer of the page's worker, which has not failed."""
    if "answer" not in said:
        fail(f"the worker says {said}")
    return said["answer"]


def rows(problems: list[dict]) -> list[list[object]]:
    """Problems as the page posts them."""
    return [[one["line"], one["column"], one["text"]] for one in problems]


def made_of(found: dict) -> Made:
    """Returns what the page's worker says of a source."""
    program = found["program"]
    if not program:
        return Made(rows(found["problems"]), found["number"])
    return Made([], 0, base64.b64decode(program["memory"]), program["symbols"].encode(), json.loads(program["session"]))


def sources_of_documents() -> Iterator[str]:
    """Yields the examples, and each block of the documents that may be a source."""
    for path in sorted(EXAMPLES.glob("*.asm")):
        yield path.read_text()
    for path in sorted((TOP / "docs").rglob("*.md")):
        yield from (block.split("```")[0] for block in path.read_text().split("```text\n")[1:])


def mistakes() -> Iterator[str]:
    """Yields the sources of the assembler's own tests, each instruction with operands of all kinds, and sources that are at a limit."""
    for path in sorted((TOP / "tests/tools").glob("test_assemble*.py")):
        tests = ast.walk(ast.parse(path.read_text()))
        yield from (node.value for node in tests if isinstance(node, ast.Constant) and isinstance(node.value, str))
    yield f"{'a' * 90}\nword {'b' * 90}\n{'c' * 90} EQU 1\n{'d' * 90} = 70000\nMOV R0, {'d' * 90}"
    for mnemonic in sorted(MNEMONICS):
        yield from (f"{mnemonic} {operands}" for operands in OPERANDS)
    yield "\n".join(f"a{at} = a{at + 1}" for at in range(60)) + "\na60 = 1"
    yield "word " + "(" * 51 + "1" + ")" * 51
    yield "word " + "-" * 60 + "1"
    yield "\n".join(f"origin {(at * 37) % 100}\nword {at}" for at in range(40))
    yield "first: word 1\n" + "word firts\n" * 1200
    yield "input 5, key, 'a'\n" * 5 + "x: B x\ncheckpoints 5, 3\nevery 2, 9"
    yield "every 1, 5000\nB -1"
    yield "\n".join(f"checkpoints {at}" for at in range(1, 4099)) + "\nB -1"


def lawful_source(chance: random.Random) -> str:
    """Returns a source of lawful lines, with labels, constants, data and settings."""
    number = chance.randint(1, 30)
    return "\n".join(
        [*(f"K{at} = {chance.choice(LAWFUL)}" for at in range(5)), *(lawful_line(chance, at, number) for at in range(number))]
    )


def lawful_line(chance: random.Random, at: int, number: int) -> str:
    """Returns a line of such a source, with a label that the others may name."""
    register = f"R{chance.randrange(16)}, R{chance.randrange(16)}"
    kinds = (
        f"{chance.choice(LANGUAGE['operations'][1:])}{chance.choice(('', APOSTROPHE))} {register}, {chance.choice((*LAWFUL, 'R7', 'SP'))}",
        f"{chance.choice(tuple(LANGUAGE['memory']))} {register}, {chance.choice(LAWFUL)}",
        f"B{chance.choice(('', 'L'))}{chance.choice(LANGUAGE['conditions'])} {chance.choice((f'L{chance.randrange(number)}', 'R15', '-1', '$'))}",
        f"MOV {register}" if chance.random() < 0.5 else f"mov' R1, {chance.choice(('H', 'nzcv', '65535', 'DISPLAY / 10000H'))}",
        f"word {', '.join(chance.choice((*LAWFUL, f'L{chance.randrange(number)} + 4')) for _ in range(chance.randint(1, 3)))}",
        f"byte {chance.choice(('1, -1, 255', WRITTEN))}, 'x'",
        f"string {WRITTEN}",
        f"origin $ + {4 * chance.randrange(9)}",
        f"offsets {chance.choice((22, 24))}",
        chance.choice(
            ("set R3 = K1", "set h = -1", "set flags = nV", "rate 1000", f"checkpoints {1 + chance.randrange(99)}, 7", "; alone")
        ),
    )
    setting = chance.randrange(len(kinds))
    label = "" if kinds[setting].startswith((";", "offsets")) and chance.random() < 0.1 else f"L{at}: "
    return f"{label}{kinds[setting]}{chance.choice(('', '', ' ; a comment'))}"


def random_source(chance: random.Random) -> str:
    """Returns a source of a few lines: of lawful parts mostly, and of broken ones."""
    return "\n".join(random_line(chance) for _ in range(chance.randint(1, 12)))


def random_line(chance: random.Random) -> str:
    """Returns a line, which may be changed by a character or two."""
    first = [*sorted(MNEMONICS), *sorted(DIRECTIVES - {"include"}), *sorted(SETTINGS)]
    label = f"{chance.choice(NAMES)}: " if chance.random() < 0.25 else ""
    if chance.random() < 0.15:
        line = f"{chance.choice(NAMES)} = {expression(chance)}"
    else:
        line = (
            f"{label}{chance.choice(first)} {', '.join(operand(chance) for _ in range(chance.choice((0, 1, 1, 2, 2, 3, 3, 3, 4))))}"
        )
    line += chance.choice(("", "", "", " ; a comment", "\r", ";"))
    for _ in range(chance.choice((0, 0, 0, 1, 2))):
        at = chance.randrange(len(line) + 1)
        line = (
            line[:at] + chance.choice(("", "'", '"', ",", "é", "(", "x", " ", "\\", "$", "0")) + line[at + chance.randint(0, 1) :]
        )
    return line


def operand(chance: random.Random) -> str:
    """Returns a register, or an expression."""
    return chance.choice((f"R{chance.randrange(17)}", expression(chance), chance.choice(NAMES)))


def expression(chance: random.Random) -> str:
    """Values with operators between them."""
    parts = [chance.choice((*VALUES, *NAMES, *map(str, range(20))))]
    while chance.random() < 0.3:
        parts += [chance.choice(OPERATORS), chance.choice((*VALUES, *NAMES))]
    return "".join(parts)


def without_sums(symbols: bytes) -> bytes:
    """Returns a symbol file without the sums of its code and its sources, which the page does not write."""
    return b"".join(line for line in symbols.splitlines(keepends=True) if not line.startswith(b"# "))


def test_assembler() -> None:
    """Both assemblers give the same result for each source."""
    chance = random.Random(75)
    known = [*sources_of_documents(), *mistakes()]
    makers = (random_source, lawful_source)
    sources = [*known, *(makers[at % 2](chance) for at in range(RANDOM_SOURCES))]
    lawful = 0
    for source, found in zip(sources, made_by_page(sources), strict=True):
        wanted = made_by_tools(source)
        expect(f"what comes of {source!r:.300}", found, wanted)
        lawful += not wanted.problems
    if not 1000 < lawful < len(sources) - 2000:
        fail(f"{lawful} of {len(sources)} sources are lawful")


def test_sources_of_several_files(tmp_path: Path) -> None:
    """Several sources are one program, as the tools have them, in whichever order of the files that others include; mistakes have the file of their line."""
    frames = {path.name: path.read_text() for path in sorted((EXAMPLES / "frames").glob("*.asm"))}
    twice = {"a.asm": "x: B x\ny = 5\n", "b.asm": "x: B y\n", "c.asm": "Q R1\n"}
    inside = {"a.asm": 'include "b.asm"\nMOV R0, n', "b.asm": 'n = 3\ninclude "a.asm"\n'}
    cases = [(dict(order), ["main.asm"]) for order in permutations(frames.items())]
    cases += [(twice, [*twice]), ({"b.asm": "B x", "a.asm": "x: B x\n"}, ["b.asm", "a.asm"]), (inside, ["a.asm"])]
    given = [("assemble", {"source": "", "file": "", "parts": [*files.items()]}) for files, _ in cases]
    for (files, roots), said in zip(cases, answers(PAGE, given), strict=True):
        for name, text in files.items():
            (tmp_path / name).write_text(text)
        it, found = assembled(read_sources([tmp_path / root for root in roots])), answer_of(said)
        settings_of(it)
        places = [(it.source(one.line), one.column, one.text) for one in sorted(set(it.problems))]
        wanted = [[line.file, line.number, column, text] for line, column, text in places]
        expect(
            f"the mistakes of {files!r:.200}",
            [[one["file"], one["line"], one["column"], one["text"]] for one in found["problems"]],
            json.loads(json.dumps(wanted).replace(f"{tmp_path}/", "")),
        )
        if not wanted:
            made = made_of(found)
            expect(f"the memory of {files!r:.200}", made.memory, bytes(it.memory))
            expect(
                f"the symbols of {files!r:.200}", made.symbols, without_sums(symbol_file(it)).replace(f"{tmp_path}/".encode(), b"")
            )
