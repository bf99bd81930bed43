"""galluspa debug: points with conditions and commands, expressions that are displayed, names, and lists of sources."""

from tests.tools.frames import FramesTest
from tests.tools.samples import EXAMPLES, tool


class PointsTest(FramesTest):
    """The commands over --batch."""

    def counts(self, *words: str) -> list[str]:
        """Returns the counts at which a condition of `galluspa find` holds."""
        ran = tool("find", self.recording, "--all", *words)
        return [line.split()[0] for line in ran.output.decode().splitlines()]

    def test_conditions_pause_where_find_says(self) -> None:
        """Those that are searched for, and those that are tested at each hit."""
        for when in (
            "R0 == 40 and R1 > 205",
            "R0 < R1 and R1 == 239",
            "Mem[SP + 12] == 0AH",
            "not (R1 < 239) && *SP + 0 != 0",
            "R1 is 201",
        ):
            lines = self.printed(f"break Display.Dot if {when}; run; c; rc; info breakpoints")
            wanted = self.counts(f"PC=Display.Dot and {when}" if " is " in when else f"PC=Display.Dot and ({when})")
            self.assertGreater(len(wanted), 2, when)
            self.assertEqual(lines[0], [f"breakpoint 1: Display.Dot at word 0, if {when}"])
            self.assertEqual([it[1].split()[0] for it in lines[1:4]], [wanted[0], wanted[1], wanted[0]], when)
            self.assertEqual(lines[4], [f"  1  breakpoint  Display.Dot  3 hits  if {when}"])

    def test_a_watchpoint_has_a_condition_on_the_values_after_it(self) -> None:
        lines = self.printed("watch SP if SP == 10E4H; run; watch Stack+0xF0 if Mem[Stack+0xF0] < 3; c")
        self.assertEqual(lines[0], ["watchpoint 1: change R14, if SP == 10E4H"])
        self.assertIn("R14 000010F0 → 000010E4", lines[1][1])
        self.assertEqual(lines[3][0], "watchpoint 2: change Stack+0xF0, if Mem[Stack+0xF0] < 3".partition(", if")[0])
        self.assertIn("→ 00000002", lines[3][1])

    def test_conditions_come_and_go(self) -> None:
        lines = self.printed(
            "break Display.Dot; condition 1 R1 == 210; run; condition 1; c; catch store Stack+0xF0; condition 2 R2 == 5; c"
        )
        told = "breakpoint 1: Display.Dot, "
        self.assertEqual((lines[1], lines[3]), ([f"{told}if R1 == 210"], [f"{told}without a condition"]))
        self.assertEqual(lines[2][1].split()[0], self.counts("PC=Display.Dot and R1 == 210")[0])
        after = [it for it in self.counts("PC=Display.Dot") if int(it) > int(lines[2][1].split()[0])]
        self.assertEqual(lines[4][1].split()[0], after[0])
        ends = self.printed("catch store Stack+0xF0; condition 1 R2 == 5; run")
        self.assertEqual(ends[2][1].split()[0], self.counts("store Stack+0xF0 and R2 == 5")[0])

    def test_temporary_ignored_and_disabled_points(self) -> None:
        wanted = self.counts("PC=Shapes.Row")
        lines = self.printed(
            "tbreak Shapes.Row; run; info b; break Shapes.Row; ignore 2 1; c; info b; disable 2; c; enable 2; rc; rc"
        )
        self.assertEqual((lines[1][1].split()[0], lines[2]), (wanted[0], ["no breakpoints or watchpoints"]))
        self.assertEqual(lines[4], ["the next 1 hits of breakpoint 2 pause nothing"])
        self.assertEqual(lines[5][1].split()[0], wanted[2])
        self.assertEqual(lines[6], ["  2  breakpoint  Shapes.Row  2 hits"])
        self.assertEqual(lines[8][0], "the recording ends here")
        self.assertEqual([it[1].split()[0] for it in lines[10:]], [wanted[3], wanted[2]])

    def test_commands_of_a_point(self) -> None:
        """A point that prints and goes on says what happens at each hit."""
        lines = self.printed("break Shapes.Row; commands; silent; print/d R1; continue; end; run; info b")
        rows = ["200", "239", "200", "239"]
        self.assertEqual(lines[6][:4], rows)
        self.assertEqual(lines[6][4], "the recording ends here")
        self.assertEqual(lines[7], ["  1  breakpoint  Shapes.Row  4 hits", "       silent", "       print/d R1", "       continue"])
        lines = self.printed("break Shapes.Row; commands 1; display R0; end; run")
        self.assertEqual(lines[4][0], "breakpoint 1: Shapes.Row")
        self.assertEqual(lines[4][-1], "1: R0 = 00000064  100")

    def test_what_is_displayed(self) -> None:
        lines = self.printed(
            "display/x R0 + 1; display Stack; display/i PC; undisplay 3; break Shapes.Row; run; info display; undisplay 1; stepi",
            "undisplay; stepi; info display",
        )
        self.assertEqual(lines[0], ["1: /x R0 + 1 = 00000001"])
        self.assertEqual(lines[1], ["2: Stack = 001000  00000000            0  00 00 00 00  ....  ; Stack"])
        self.assertTrue(lines[2][0].startswith("3: /i PC = =>    71  4E001100  MOV R14, 4352"), lines[2])
        self.assertEqual(lines[5][-2:], ["1: /x R0 + 1 = 00000065", lines[1][0]])
        self.assertEqual(lines[6], ["  1  /x R0 + 1", "  2  Stack"])
        self.assertEqual((lines[8][-1], lines[11]), (lines[1][0], ["no expressions are displayed"]))
        self.assertFalse(any("Stack = " in it for it in lines[10]))

    def test_values_in_formats(self) -> None:
        lines = self.printed(
            "at 2123; print R0; print -R0; print/x R0; print/d -R0; print/u -R0; print/t 5; print/c 41H; print/a LNK",
            "print/s Shapes.Row; print Stack; print &Stack + 4; print flags & 8; print R0 == 40 and R1 != 3; print 8; print PC",
            "x/2i Shapes.Row + 4 * 2",
        )
        self.assertEqual(
            [it[0] for it in lines[1:16]],
            [
                *("00000028  40", "FFFFFFD8  -40", "00000028", "-40", "4294967256", f"{5:032b}", "65 'A'"),
                "00000090  ; Shapes.Column.next + 0x8",
                '000038  "\\10"',
                "001000  00000000            0  00 00 00 00  ....  ; Stack",
                *("00001004  4100  ; Stack + 0x4", "00000000  0", "1  true", "00000008  8"),
                "00000030  48  ; Display.Dot + 0x30",
            ],
        )
        self.assertEqual([it[:8] for it in lines[16]], ["      16", "      17"])

    def test_names_and_sources(self) -> None:
        source = (EXAMPLES / "frames/shapes.asm").read_text().splitlines()
        numbered = [f"  {at:>5}  {line}".rstrip() for at, line in enumerate(source, 1)]
        lines = self.printed(
            "info functions shapes.*next; info variables; info functions none; list shapes.asm:20; list 3,6; list; list -",
            "list Shapes.Row,+2; list ,8; list shapes.asm:2; break shapes.asm:1; break shapes.asm:7",
        )
        self.assertEqual([it.split()[:2] for it in lines[0]], [["000048", "Shapes.Row.next"], ["000088", "Shapes.Column.next"]])
        self.assertEqual(lines[1:3], [["001000  Stack  00000000"], ["no name of these"]])
        self.assertEqual(lines[3:7], [numbered[14:24], numbered[2:6], numbered[6:16], numbered[0:6]])
        self.assertEqual(lines[7:10], [numbered[4:7], numbered[0:8], numbered[0:10]])
        self.assertEqual(lines[10], ["breakpoint 1: Shapes.Row at word 14, in line 5, the next one with code"])
        self.assertEqual(lines[11], ["breakpoint 2: Shapes.Row + 0x8 at word 16"])

    def test_help_of_expressions(self) -> None:
        lines = self.printed("help expressions; help tbreak; help why")
        self.assertIn("An EXPRESSION has registers", lines[0][0])
        self.assertEqual([it[0] for it in lines[1:]], ["tbreak [LOCATION] [if CONDITION] (also tb)", "why [/N] PART"])
