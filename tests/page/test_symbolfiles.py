"""Symbol files as the page reads them, in node, against the tools: names, lines of sources, and mistakes."""

import base64
import random
from collections.abc import Iterator
from pathlib import Path

from galluspa.formats import symbolfiles
from tests.page.driver.node import bundled, replies
from tests.page.driver.desk import expect

PLACES = [*range(0, 0x400, 4), 0x1000, 0x10F3, 0xE7F00, 0xE7F04, 0xFFFFC0, 0xFFFFFC]
VALUES = [0, 0x100, 0xE7F00, 0xFFFFFFC0, 0x12345678, 0x20, 0x40]
# Lines of a symbol file that say something, or that are mistaken, and what may be wrong about whole files.
LINES = (
    *(
        "00000000 t Start",
        "0 T Start",
        "00000010 00000020 t Texts.Write\tTexts.Mod:214",
        "00000014 t Texts.Write.loop",
        "00000040 d buf",
    ),
    *(
        "41 b byte",
        "00000044 00000008 r two",
        "000E7F00 a DISPLAY",
        "FFFFFFC0 A TIMER",
        "00000010 l Texts.Mod:215",
        "14 l a b:c.Mod:216",
    ),
    *(
        "# a comment",
        "",
        "  \t\r",
        "00000030 t x\r",
        "00000030  t   y  ",
        "0000000000000030 t z",
        "100 a HUNDRED",
        "20 a small",
        "10 t a\u202eb",
    ),
    *(
        "00000200 00000100 t Outer",
        "00000210 00000010 t Inner",
        "00000210 00000018 t Twin",
        "00000300 t \u05d0\u05d1",
        "304 t " + "n" * 200,
    ),
    *("308 t n\u00e9", "30C t \U0001f600", "00000010 t Texts.Put", "00000010 t Texts.Third"),
)
MISTAKES = (
    *(
        "xyz",
        "00000000",
        "00000000 t",
        "00000000 q x",
        "3 t odd",
        "100000 t far",
        "FFFFC 8 t long",
        "1000000 d far",
        "100000000 a far",
    ),
    *(
        "00000000 t " + "n" * 201,
        "00000000 l file",
        "00000000 l file:0",
        "0 t x\tfile:0",
        "0 t a b",
        " 0 t x",
        "0 t x\tf",
        "00000000000000001 t x",
    ),
    *("0 4 l f:1", "0" * 5000, "0 t \xa0", "0 t x\tf:1234567890", "0\tt x", "0 tt x", "é t x", "0 t \x1c", "10 10 10 t x"),
)


def files(number: int) -> Iterator[bytes]:
    """Symbol files made at random, of which some have mistakes."""
    chance = random.Random(7)
    for _ in range(number):
        lines = chance.choices(LINES, k=chance.randrange(12)) + chance.choices(MISTAKES, k=chance.choice((0, 0, 0, 1, 2)))
        chance.shuffle(lines)
        yield ("\n".join(lines) + chance.choice(("", "\n"))).encode()
    yield from (line.encode() for line in (*LINES, *MISTAKES))
    yield from (
        b"\xef\xbb\xbf0 t x\n",
        b"0 t x\n\xff",
        b"0 t x\n\n\xe2\x82\n1",
        b"\xed\xa0\x80",
        b"0 t x\n" * (1 << 17),
        b"#" * 10_000_001,
        b"",
    )


def coded(file: bytes) -> str:
    """Bytes as JSON has them."""
    return base64.b64encode(file).decode()


def wanted(file: bytes) -> dict:
    """Returns what the tools make of a symbol file."""
    try:
        found = symbolfiles.parsed(file)
    except symbolfiles.Mistaken as mistake:
        return {"line": mistake.line, "mistake": str(mistake)}
    texts, lines = [found.text(at) for at in PLACES], [found.source(at) for at in PLACES]
    return {"names": len(found), "texts": texts, "values": [found.value(it) for it in VALUES], "lines": lines}


def test_symbol_files(tmp_path: Path) -> None:
    """The page reads symbol files as the tools do, and refuses the same ones with the same words."""
    given = list(files(600))
    found = replies(
        bundled("symbols.mjs", tmp_path), requests=[{"file": coded(file), "addresses": PLACES, "values": VALUES} for file in given]
    )
    for file, answer in zip(given, found, strict=True):
        expect(f"what the page makes of {file[:300]!r}", answer, wanted(file))
