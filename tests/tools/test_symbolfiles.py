"""Symbol files: their lines and mistakes, what addresses are called, what they cost, and their document."""

import random
import sys

from galluspa.analysis.entries import Entries
from galluspa.formats import symbolfiles, symbols
from galluspa.formats.symbolfiles import Mistaken, parsed, written
from galluspa.formats.symbols import Symbols, address_of
from tests.tools.samples import TOOLS, TOP, ToolTest, calls_of, group, run

DOCUMENT = TOP / "docs/symbols.md"
MISTAKES = (
    ("zz t x", "zz is not an address of 1 to 16 hexadecimal digits"),
    ("         U printf", "U is not an address"),
    (" 0 t x", "0 is not an address"),
    ("00000000000000000 t x", "is not an address"),
    ("-4 t x", "-4 is not an address"),
    ("0 q x", "q is not a type"),
    ("0 U x", "U is not a type"),
    ("0", "no type after 0; expected ADDRESS TYPE NAME"),
    ("0 t", "no name after t; expected ADDRESS TYPE NAME"),
    ("0 text x", "text is not a type; expected ADDRESS TYPE NAME"),
    ("0 t x y", "y comes after the name; expected ADDRESS TYPE NAME"),
    ("0 t x\ty", "y comes after the name; expected ADDRESS TYPE NAME"),
    ("0 t x\tfile:", "expected ADDRESS TYPE NAME"),
    ("0 t x\tfile:0", "lines of a source are counted from 1"),
    ("0 l file", "expected ADDRESS l FILE:LINE"),
    ("0 l file:0", "lines of a source are counted from 1"),
    ("2 l file:1", "the address 2 of code is not a multiple of 4"),
    ("2 t x", "the address 2 of code is not a multiple of 4"),
    ("100000 t x", "the address 100000 is not below 100000 (hexadecimal)"),
    ("1000000 d x", "the address 1000000 is not below 1000000"),
    ("100000000 a x", "the constant 100000000 is not below 100000000"),
    ("ffffffffffffffff t x", "the address FFFFFFFFFFFFFFFF is not below 100000"),
    ("0 100001 t x", "the size 100001 leads beyond 100000"),
    ("10 fffffff d x", "the size FFFFFFF leads beyond 1000000"),
    ("100000 l file:1", "the address 100000 is not below 100000"),
    (f"0 t {'x' * 201}", "a name has at most 200 characters, and this one has 201"),
    (f"0 t {'x' * 1_000_000}", "a line has at most 4,096 characters, and this one has 1,000,004"),
    (f"0 t x\t{'f' * 256}:1", "expected ADDRESS TYPE NAME"),
    ("0 t x\x0by", "expected ADDRESS TYPE NAME"),
)


def called(text: str, *addresses: int) -> list[str]:
    """Returns what addresses are called by a symbol file."""
    names = parsed(text.encode())
    return [names.text(it) for it in addresses]


class FormatTest(ToolTest):
    def assert_mistaken(self, content: bytes, line: int, told: str) -> None:
        with self.assertRaises(Mistaken) as caught:
            parsed(content)
        self.assertEqual(caught.exception.line, line)
        self.assertIn(told, str(caught.exception))

    def test_each_mistake_is_named_with_its_line(self) -> None:
        for line, told in MISTAKES:
            self.assert_mistaken(f"# one\n0 t good\n{line}\n".encode(), 3, told)

    def test_a_file_may_say_nothing(self) -> None:
        for text in ("", "\n", "# 0 t a", " \n\t\r\n#\n\n"):
            self.assertEqual((called(text, 0), len(parsed(text.encode()))), ([""], 0), text)
        self.assertEqual(called("\n# one\n0 t a\n \n4 t b", 0, 4), ["a", "b"])
        self.assert_mistaken(b"0 4 l x:1\n", 1, "expected ADDRESS l FILE:LINE")

    def test_says_how_many_lines_have_mistakes(self) -> None:
        self.assert_mistaken(b"0 t a\n0 t b c\n0 q d\n", 2, "at the end (1 more line has a mistake)")
        self.assert_mistaken(b"x\n" * 3, 1, "(2 more lines have mistakes)")

    def test_refuses_what_is_no_text_or_too_large(self) -> None:
        self.assert_mistaken(b"0 t a\n0 t \xff\n", 2, "not a text in UTF-8")
        self.assert_mistaken(b"#" * 10_000_001, 0, "at most 10,000,000 bytes")
        self.assert_mistaken(b"0 t a\n" * 1_000_000, 0, "at most 131,072 lines")

    def test_reads_what_nm_prints(self) -> None:
        text = "0000000000000040 0000000000000008 T main\t/src/a b:c.c:12\n0000000000000100 B buf\r\n0000000000000008 A eight\n\n"
        self.assertEqual(called(text, 0x40, 0x47, 0x48, 0x100, 0x103), ["main", "main + 0x7", "", "buf", "buf + 0x3"])
        names = parsed(text.encode())
        self.assertEqual((len(names), names.source(0x40), names.value(8)), (3, "/src/a b:c.c:12", "eight"))

    def test_reads_what_it_writes(self) -> None:
        source = symbols.Symbol(0x10, 8, "t", "A.b", "A.asm", 3)
        kept = [source, symbols.Symbol(0x20, 0, "d", "c"), symbols.Symbol(0xE7F00, 0, "a", "D")]
        text = written(kept, [symbols.Source(0x10, "A.asm", 4)])
        lines = ["00000010 00000008 t A.b\tA.asm:3", "00000020 d c", "000E7F00 a D", "00000010 l A.asm:4"]
        self.assertEqual(text.splitlines(), lines)
        names = parsed(text.encode())
        self.assertEqual([names.exactly(it.address)[0] for it in kept[:2]], kept[:2])
        self.assertEqual(names.source(0x14), "A.asm:4")


class LookUpTest(ToolTest):
    def test_a_name_reaches_as_far_as_it_says(self) -> None:
        found = called("10 8 t a\n20 t b\n30 d c\n", 0xF, 0x10, 0x17, 0x18, 0x20, 0x2F, 0x30, 0x1002F, 0x10030)
        self.assertEqual(found, ["", "a", "a + 0x7", "", "b", "b + 0xF", "c", "c + 0xFFFF", ""])

    def test_names_within_a_name(self) -> None:
        text = "100 100 t outer\n120 10 t inner\n140 40 t second\n150 8 t third\n"
        places = (0x11C, 0x120, 0x130, 0x148, 0x154, 0x158, 0x180, 0x1FC, 0x200)
        names = ["outer + 0x1C", "inner", "outer + 0x30", "second + 0x8", "third + 0x4", "second + 0x18"]
        self.assertEqual(called(text, *places), [*names, "outer + 0x80", "outer + 0xFC", ""])

    def test_each_address_has_the_last_name_that_reaches_it(self) -> None:
        rng = random.Random(5)
        for _ in range(200):
            them = [(4 * rng.randrange(40), 4 * rng.randrange(1, 20), f"n{at}") for at in range(rng.randrange(1, 12))]
            them = list({at: (at, size, name) for at, size, name in them}.values())
            names = parsed("\n".join(f"{at:X} {size:X} t {name}" for at, size, name in them).encode())
            for address in range(0, 260, 2):
                start = max((at for at, size, _ in them if at <= address < at + size), default=None)
                self.assertEqual(names.start_of(address), start, (them, address))

    def test_two_names_of_one_address_are_both_shown(self) -> None:
        self.assertEqual(called("10 t a\n10 t b\n", 0x10, 0x14), ["a or b", "a or b + 0x4"])
        self.assertEqual(called("".join(f"10 t n{at:04}\n" for at in range(1500)), 0x18), ["n0000 or n0001 and 1,498 more + 0x8"])

    def test_control_characters_are_escaped_and_long_names_cut(self) -> None:
        self.assertEqual(called("10 t \x1b[31mred\u202e\n", 0x10), [r"\x1b[31mred\u202e"])
        self.assertEqual(called("10 t a\u05d0\u0661é\n", 0x10), [r"a\u05d0\u0661é"])
        self.assertEqual(called(f"10 t {'x' * 200}\n", 0x10), ["x" * 60 + ".."])
        self.assertEqual(parsed(f"10 l \x1b{'f' * 99}:3\n".encode()).source(0x10), f"..{'f' * 60}:3")

    def test_lines_go_on_to_the_next_line_or_name(self) -> None:
        names = parsed(b"10 t a\n20 t b\tB.asm:9\n10 l A.asm:1\n18 l A.asm:2\n40 l C.asm:5\n")
        found = [names.source(it) for it in (0x10, 0x14, 0x18, 0x1C, 0x20, 0x24, 0x40, 0x44)]
        self.assertEqual(found, ["A.asm:1", "A.asm:1", "A.asm:2", "A.asm:2", "B.asm:9", "", "C.asm:5", "C.asm:5"])

    def test_names_have_addresses(self) -> None:
        names = parsed(b"10 t A.b\n20 d c+1\n30 t twice\n40 t twice\n")
        found = [address_of(names, it) for it in ("A.b", "A.b+4", "A.b+0x10", "c+1", "c+1+1", "A", "A.b+z", "+4")]
        self.assertEqual(found, [0x10, 0x14, 0x20, 0x20, 0x21, None, None, None])
        with self.assertRaisesRegex(ValueError, "twice stands for 2 addresses, 0x30, 0x40"):
            address_of(names, "twice")
        self.assertEqual((names.meant("A.d"), names.meant("a.b"), bool(Symbols())), ("A.b", "A.b", False))


NAMES = 20_000
LARGE = "".join(
    f"{4 * at:08X} 00000004 t Mod{at // 100}.Procedure{at}\tMod{at // 100}.Mod:{at + 1}\n" for at in range(NAMES)
).encode()


class CostTest(ToolTest):
    def test_the_work_for_each_name_is_small(self) -> None:
        """A tool reads all names and looks up some, and where procedures begin. The measure is the number of calls of functions, of
        Python and of C, which does not depend on the machine: some four for each name are sixty thousandths of a second."""
        words = [0] * (1 << 18)

        def looked_up(content: bytes) -> None:
            names = parsed(content)
            for at in (0x100, 4 * NAMES + 4, 0xFFFF0):
                names.text(at)
                names.source(at)
                names.value(at)
            self.assertEqual(Entries(words, names).entry_of(0), 0)

        self.assertLess(calls_of(looked_up, LARGE), 6 * NAMES)

    def test_what_is_not_looked_up_is_not_worked_out(self) -> None:
        names = parsed(LARGE)
        self.assertFalse(vars(names).keys() & {"_groups", "_all_ends", "_by_name", "_values", "_stretches", "_furthest"})
        self.assertEqual(names.text(4 * NAMES + 4), "")
        self.assertNotIn("_furthest", vars(names))
        nested = parsed(LARGE + b"0 100000 t All\n")
        self.assertEqual(nested.text(4 * NAMES + 4), f"All or Mod0.Procedure0 + 0x{4 * NAMES + 4:X}")

    def test_procedures_begin_after_returns_and_after_data(self) -> None:
        words = [0] * (1 << 18)
        words[4] = 0xC700000F
        names = parsed(b"0 t First\n8 t inner\n14 t Second\n18 4 d data\n1c t Third\n20 4 d other\n28 t Fourth\n")
        self.assertEqual(Entries(words, names).all, [0, 0x14, 0x1C])

    def test_procedures_begin_after_jumps_and_not_at_their_labels(self) -> None:
        words = [0] * (1 << 18)
        words[1] = 0xC700000F
        words[3] = words[5] = words[7] = words[9] = 0xE7FFFFFC
        names = parsed(b"0 t A.Task\n8 t A.Task.loop\n10 t B.Task\n18 t Main\n1c t Main.Loop\n20 t Main.Loop.key\n28 t next\n")
        self.assertEqual(Entries(words, names).all, [0, 0x10, 0x18, 0x28])

    def test_the_worst_files_cost_little(self) -> None:
        """The largest files, each in a process: the memory above an empty one, and the least of three times, against a loop."""
        most = symbolfiles.MOST_LINES - 1
        files = {
            "one address": b"".join(b"0 t %X\n" % at for at in range(most)),
            "long": b"".join(b"%X t %s%X\n" % (4 * (at % 200_000), b"n" * 23, at) for at in range(most)),
            "nested": b"".join(
                b"%X %X t n\n" % (2 * at & ~3, 0xFFFF0 - 3 * at) for at in range(most) if 2 * at + 0xFFFF0 - 3 * at < 0x100000
            ),
            "mistakes": b"0 t x y\n" * most,
            "colons": (b"0 t a\t" + b"1:" * 1000 + b"x\n") * 4900,
            "blanks": (b"0" + b" " * 4000 + b"q\n") * 2400,
            "lines": b"".join(b"%X l f:1\n" % (4 * at) for at in range(most)),
        }
        script = (
            "import resource,sys,time; from galluspa.formats import symbolfiles as s\n"
            "content = open(sys.argv[1], 'rb').read() if sys.argv[1] else b''\n"
            "start = time.process_time()\n"
            "try: it = s.parsed(content); it.text(0x1000); it.source(0x1000); it.places('n')\n"
            "except s.Mistaken: pass\n"
            "took = time.process_time() - start; start = time.process_time()\n"
            "sum(at for at in range(4_000_000))\n"
            "print(resource.getrusage(resource.RUSAGE_SELF).ru_maxrss, took / (time.process_time() - start))\n"
        )

        def cost(path: object) -> tuple[int, float]:
            ran = run([sys.executable, "-c", script, path], env={"PYTHONPATH": str(TOOLS)})
            kilobytes, ratio = ran.output.split()
            return int(kilobytes), float(ratio)

        empty, _ = cost("")
        for name, content in files.items():
            self.assertLessEqual(len(content), symbolfiles.MOST_BYTES, name)
            costs = (cost(self.file(f"{name}.sym", content)) for _ in range(3))
            self.assertTrue(any(kilobytes - empty < 120_000 and ratio < 5 for kilobytes, ratio in costs), name)


class DocumentTest(ToolTest):
    """docs/symbols.md: its example, and its script."""

    def test_the_example_is_a_symbol_file(self) -> None:
        names = parsed(group(r"^```text\n(# The procedures.*?)^```$", DOCUMENT.read_text()).encode())
        self.assertEqual((len(names), names.text(0x103C), names.source(0x1010)), (4, "Texts.WriteLn + 0x4", "Texts.Mod:216"))

    def test_the_script_makes_a_symbol_file_of_a_list_of_modules(self) -> None:
        text = DOCUMENT.read_text()
        script = self.file("modules.py", group(r"^```python\n(.*?)^```$", text))
        ran = run([sys.executable, script], group(r"^```json\n(.*?)^```$", text).encode())
        self.assertEqual((ran.errors, ran.output.decode()), ("", group(r"^Its output:\n\n```text\n(.*?)^```$", text)))
        names = parsed(ran.output)
        found = [names.text(it) for it in (0x1000, 0x1008, 0x1038, 0x1104, 0x11FC, 0x1200)]
        self.assertEqual(
            found, ["Texts", "Texts.Write + 0x4", "Texts.WriteLn", "Texts.buf + 0x4", "Texts.buf + 0xFC", "Texts.buf + 0x100"]
        )
