"""galluspa compare-trace: the first line of another emulator's trace that differs, in all the forms that a trace may have."""

import os
import subprocess
from collections.abc import Sequence

from tests.tools.samples import EXAMPLES, GALLUSPA, PATIENCE, TOP, Ran, ToolTest, run, tool

FACE = EXAMPLES / "face.orsr"
LINES = 500_000
# R1 := 200; R2 := 5; R3 := R1 + R2; stored at 400, and loaded into R4; R5 := R4 + R3; a jump to itself.
WORDS = (0x410000C8, 0x42000005, 0x03180002, 0xA3000190, 0x84000190, 0x05480003, 0xE7FFFFFF)
# The processor at each count: the program counter and R0 to R5.
ROWS = (
    (0, 0, 0, 0, 0, 0, 0),
    (1, 0, 200, 0, 0, 0, 0),
    (2, 0, 200, 5, 0, 0, 0),
    (3, 0, 200, 5, 205, 0, 0),
    (4, 0, 200, 5, 205, 0, 0),
    (5, 0, 200, 5, 205, 205, 0),
    (6, 0, 200, 5, 205, 205, 410),
    (6, 0, 200, 5, 205, 205, 410),
)
NAMES = ("PC", "R0", "R1", "R2", "R3", "R4", "R5")
# What is said of a trace in which R4 is 77 at count 5.
DIFFERS = """differs in line 7, at 5: the same at 4

    the trace  the machine
R4  0000004D   000000CD

the machine:
         4       4  84000190  LDR R4, R0, 400         R4 00000000 → 000000CD
the trace:
         4       4  84000190  LDR R4, R0, 400         R4 00000000 → 0000004D

who wrote R0: no instruction before

who wrote Mem[000190]:
         3       3  A3000190  STR R3, R0, 400         Mem[000190] 00000000 → 000000CD
"""


def csv(names: Sequence[str], rows: Sequence[Sequence[object]], between: str = ",") -> str:
    """Returns a trace with these columns."""
    return "".join(f"{between.join(map(str, row))}\n" for row in (names, *rows))


class CompareTraceTest(ToolTest):
    def setUp(self) -> None:
        super().setUp()
        self.orsr = self.recorded(WORDS, [20])

    def compared(self, text: str | bytes, *words: object) -> Ran:
        """Returns what the tool says of a trace."""
        return tool("compare-trace", self.orsr, self.file("it.csv", text), *words)

    def assert_same(self, text: str, *words: object, first: int = 0, lines: int = 8) -> None:
        ran = self.compared(text, *words)
        told = f"the same in {lines} lines, from count {first} to {first + lines - 1}\n"
        self.assertEqual((ran.output.decode(), ran.errors, ran.status), (told, "", 0))

    def test_columns_may_be_in_any_order_and_some_may_be_missing(self) -> None:
        self.assert_same(csv(NAMES, ROWS))
        self.assert_same(csv(("R5", "Count", "pc"), [(row[6], count, row[0]) for count, row in enumerate(ROWS)]))
        self.assert_same(csv(("address",), [(4 * row[0],) for row in ROWS]))
        self.assert_same(csv(("lnk", "sp", "H"), [(0, 0, 0)] * 8))
        self.assert_same("# of my emulator\n\n" + csv(("R1", "R2"), [row[2:4] for row in ROWS], " \t ").replace("\n", "\r\n"))
        self.assert_same(csv(NAMES, ROWS, ", "))
        self.assert_same(csv(("R3",), [(row[4],) for row in ROWS[3:]]), "--from", 3, first=3, lines=5)

    def test_numbers_may_be_hexadecimal(self) -> None:
        for form in ("0x{:x}", "0X{:04X}", "${:X}", "{:04X}H"):
            self.assert_same(csv(NAMES, [[form.format(it) for it in row] for row in ROWS]))
        self.assert_same(csv(NAMES, [[f"{it:08X}" for it in row] for row in ROWS]))
        self.assert_same(csv(NAMES, [[f"{row[0]:06x}", *(f"{it:08x}" for it in row[1:])] for row in ROWS]))
        self.assert_same(csv(NAMES, [[f"{it:x}" for it in row] for row in ROWS]), "--hex")

    def test_a_number_that_may_be_meant_to_be_hexadecimal_is_told(self) -> None:
        sixteen = self.recorded((0x41000010, 0xE7FFFFFF), [9], name="sixteen.orsr")
        trace = self.file("it.csv", "R1\n0\n10\n")
        ran = tool("compare-trace", sixteen, trace)
        self.assertIn("(read as hexadecimal they are the same: --hex)", ran.output.decode())
        self.assertEqual(tool("compare-trace", sixteen, trace, "--hex").status, 0)

    def test_flags_may_be_a_number_letters_or_a_column_each(self) -> None:
        orsr = self.recorded((0x4100FFFF, 0x51000001, 0x40100000, 0xE7FFFFFF), [9], name="flags.orsr")
        for names, rows in (
            (("flags",), (("0",), ("0",), ("8",), ("4",))),
            (("flags",), (("----",), ("----",), ("N---",), ("-Z--",))),
            (("flags",), (("-",), ("-",), ("n",), ("z",))),
            (("C", "N", "V", "Z"), ((0, 0, 0, 0), (0, 0, 0, 0), (0, 1, 0, 0), (0, 0, 0, 1))),
        ):
            ran = tool("compare-trace", orsr, self.file("it.csv", csv(names, rows)))
            self.assertEqual((ran.output, ran.errors), (b"the same in 4 lines, from count 0 to 3\n", ""), rows)
        ran = tool("compare-trace", orsr, self.file("it.csv", csv(("Z", "N"), ((0, 0), (0, 0), (0, 0)))))
        self.assertIn("N  0          1", ran.output.decode())

    def test_a_byte_order_mark_is_no_part_of_a_name(self) -> None:
        self.assert_same("\ufeff" + csv(NAMES, ROWS))
        self.assert_same("\ufeff# a comment\n" + csv(NAMES, ROWS))
        later = csv(NAMES, ROWS).replace("\n", "\n\ufeff", 1)
        self.assert_refused(self.compared(later), "PC: '\\ufeff0' is not a number")

    def test_a_number_has_digits_alone(self) -> None:
        for text in ("0_0", "+0", "-0", "\u0660", "0x_0", "0x"):
            for column, row in (("count", f"{text},0"), ("R1", f"0,{text}")):
                self.assert_refused(self.compared(f"count,R1\n{row}\n"), f"{column}: '", "is not a number")

    def test_the_first_line_that_differs_is_shown_with_who_wrote_the_operands_and_names(self) -> None:
        wrong = [list(row) for row in ROWS]
        wrong[5][5] = 77
        ran = self.compared(csv(NAMES, wrong))
        self.assertEqual((ran.output.decode(), ran.errors, ran.status), (DIFFERS, "", 1))
        self.file("it.sym", "00000000 t Main\n00000190 d Sum\n")
        ran = self.compared(csv(NAMES, wrong))
        self.assertIn("; Main + 0xC, stores to Sum", ran.output.decode())
        self.assertIn("2 names from", ran.errors)

    def test_what_cannot_be_told_is_said(self) -> None:
        """A first line that differs, lines that are far apart, and a machine that has stopped."""
        for text, told in (
            (csv(("count", "R1"), [(5, 201)]), "differs in line 2, at 5: it is the first line"),
            (csv(("count", "R1"), [(1, 200), (5, 201)]), "a trace with a line for each count from 1 on"),
            (csv(("R1",), [(0,), (200,), (200,), (20,)]), "ADD R3, R1, R2          R1 000000C8 → 00000014"),
            (csv(("R1",), [(0,), (12,)]), "the same at 0"),
        ):
            ran = self.compared(text)
            self.assertEqual(ran.status, 1)
            self.assertIn(told, ran.output.decode())
        stopped = self.recorded([0x600B0000], [9], name="stopped.orsr")
        ran = tool("compare-trace", stopped, self.file("it.csv", csv(("PC",), [(0,), (0,), (1,)])))
        self.assertIn("the machine has stopped", ran.output.decode())

    def test_a_running_emulator_is_compared_as_it_prints(self) -> None:
        """The tool ends at the first line that differs, though the emulator has not ended."""
        reader, writer = os.pipe()
        with subprocess.Popen([GALLUSPA, "compare-trace", self.orsr], stdin=reader, stdout=subprocess.PIPE) as running:
            os.close(reader)
            os.write(writer, b"R1\n0\n200\n201\n")
            output, _ = running.communicate(timeout=PATIENCE)
            os.close(writer)
        self.assertEqual(output.decode().splitlines()[0], "differs in line 4, at 2: the same at 1")
        self.assertEqual(running.returncode, 1)

    def test_bad_lines_are_named(self) -> None:
        rows: Sequence[tuple[str | bytes, str]] = (
            ("", "it.csv: no line"),
            ("#\n\n", "it.csv: no line"),
            ("1,2,3\n", "it.csv:1: no column is one of count, R0"),
            ("count\n1\n", "it.csv:1: no column is one of"),
            ("R1,r1\n", "it.csv:1: two columns are R1"),
            ("R14,SP\n", "it.csv:1: two columns are R14"),
            ("R1,R2\n0,0\n\n1\n", "it.csv:4: 1 cells, and the header has 2"),
            ("R1\n0\nx\n", "it.csv:3: R1: 'x' is not a number"),
            ("R1,R2\n0,\n", "it.csv:2: R2: '' is not a number"),
            ("R1\n-1\n", "it.csv:2: R1: '-1' is not a number"),
            ("R1\n4294967296\n", "it.csv:2: R1: '4294967296' is not a number from 0 to 4,294,967,295"),
            ("flags\n16\n", "it.csv:2: flags: '16' is not a number from 0 to 15"),
            ("flags\nNN\n", "it.csv:2: flags: 'NN' is not a number"),
            ("count,R1\n0,0\n0,0\n", "it.csv:3: count 0 is not above that of the line before, 0"),
            ("count,R1\nx,0\n", "it.csv:2: count: 'x' is not a number from 0 to 1,099,511,627,776"),
            (b"R1\n\xff\x1b[31m\n", r"it.csv:2: R1: '\xff\x1b[31m' is not a number"),
            ("R1\n" + "9" * 5000, "it.csv:2: longer than 4,096 bytes"),
            (b"\0" * 10_000, "it.csv:1: longer than 4,096 bytes"),
        )
        for text, told in rows:
            self.assert_refused(self.compared(text), told)

    def test_what_there_is_no_time_for_is_told(self) -> None:
        counting = self.recorded((0x40080001, 0xE7FFFFFE), [9], name="counting.orsr")
        ran = tool("compare-trace", counting, self.file("it.csv", f"count,R1\n1,0\n{1 << 40},0\n"), "--limit", 1)
        told = "galluspa compare-trace: no answer in 1 s: the same in 1 lines, up to count 1\n"
        self.assertEqual((ran.output, ran.errors, ran.status), (b"", told, 3))

    def test_half_a_million_lines_take_at_most_ten_seconds(self) -> None:
        """Alone on a processor a million do; the other tests share it."""
        printer = self.folder / "trace"
        self.assertEqual(run(["cc", "-O2", "-Ireference", "-o", printer, "examples/c/trace.c"], cwd=TOP).errors, "")
        trace = self.file("face.csv", run([printer, FACE, LINES - 1]).output)
        with self.takes_at_most(10):
            ran = tool("compare-trace", FACE, trace)
        self.assertEqual((ran.output.decode(), ran.errors), (f"the same in {LINES:,} lines, from count 0 to {LINES - 1}\n", ""))
