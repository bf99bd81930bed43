"""galluspa debug: its commands over --batch, and what it refuses."""

import os

from galluspa.debugger.navigation import THE_BEGINNING, THE_END
from tests.tools.frames import FramesTest
from tests.tools.samples import EXAMPLES, GALLUSPA, JUMP, rejoining, run, tool

# A procedure that calls itself as often as R0 says, and a label at the word to which each call comes back.
REC = """
Rec:    SUB SP, SP, 4
        STR LNK, SP, 0
        SUB R0, R0, 1
        BMI Leave
        BL Rec
Back:   ADD R1, R1, 1
Leave:  LDR LNK, SP, 0
        ADD SP, SP, 4
        B LNK
Main:   MOV SP, 2000H
        MOV R0, 3
        BL Rec
done:   B done
        start Main
        checkpoints 60
"""
# Commands that are refused, and what is said of each.
REFUSED = (
    ("frob", "unknown command frob"),
    ("re", "ambiguous command re: reverse-"),
    ("\x1b[2J", "unknown command \\x1b[2J"),
    ("at", "expected at COUNT"),
    ("at 7476", "count 7,476 is not in 0..7,475"),
    ("at -1", "count -1 is not in 0..7,475"),
    ("step 0", "0 is not a number of times"),
    ("step x", "x is not a number of times"),
    ("break Shapes.Rov", "no symbol is called Shapes.Rov: did you mean Shapes.Row?"),
    ("break *2", "*2 is byte 2 (hexadecimal)"),
    ("break 262144", "262144 is byte 100000"),
    ("break none.asm:3", "none.asm:3: no instruction begins there"),
    ("break Shapes.Row if", "expected a condition after if"),
    ("break Shapes.Row if R0 = 3", "R0=.. is the instruction that makes it so: write == to compare"),
    ("break Shapes.Row if R0 ==", "R0 ==^: expected a number"),
    ("break Shapes.Row if R0 == R1 /", "/: expected"),
    ("break Shapes.Row if 3 == 4", "it never holds"),
    ("break Shapes.Row if " + "(" * 15_000, "at most 32 brackets"),
    ("watch", "expected a PLACE"),
    ("watch 0x100000", "an address is below"),
    ("watch PC", "PC changes at each instruction"),
    ("rwatch SP", "is a register, which has no loads and stores: watch "),
    ("awatch $r14", "is a register, which has no loads and stores: watch "),
    ("watch SP if R0 +", "R0 +^: expected a number"),
    ("catch rubbish", "rubbish: expected PC=N"),
    ('catch "', "No closing quotation"),
    ("condition 3 R0 == 3", "there is no point 3"),
    ("condition", "expected the number of a point"),
    ("ignore 1", "there is no point 1"),
    ("enable 7", "there is no point 7"),
    ("delete 9", "there is no point 9"),
    ("commands", "there is no point 0"),
    ("info", "expected info and one of"),
    ("info registers R99", "unknown register R99"),
    (f"info functions {'a*' * 200}", "a PATTERN has at most 200 characters"),
    ("x/8xq SP", "expected x/FMT ADDRESS"),
    ("x 0xffffffff", "is FFFFFFFF, and an address of memory"),
    ("x", "expected x/FMT ADDRESS"),
    (f"x {'1+' * 600}1", "an address has at most 1,000 characters"),
    ("print", "nothing: expected a number"),
    ("print 99999999999", "a number is below 2^32"),
    ("print *Stack*", "*Stack*^: expected an address"),
    ("print/q 3", "/q is no format of a value: expected / and one of x d u c t s a"),
    ("print R0 <> 3", "R0 <^> 3: expected a number"),
    ("print Mem[R15 - 1000000]", "is no address of memory"),
    (f"print {'1+' * 600}1", "an expression has at most 1,000 characters"),
    ("print " + "1" * 30_000, "a command has at most 20,000 characters"),
    ("display R0 +", "R0 +^: expected a number"),
    ("undisplay 3", "there is no display 3"),
    ("who dot 1,1", "nothing wrote dot 1,1 before count 0"),
    ("finish", "no call is open at count 0"),
    ("reverse-finish", "no call is open at count 0"),
    ("finish 3", "3: this command takes no arguments"),
    ("frame 1", "there is no frame 1: the last is 0"),
    ("frame 99999999999999999999", "there is no frame 99,999,999,999,999,999,999: the last is 0"),
    ("frame -1", "-1: expected frame N, with the number of a frame, which backtrace lists"),
    ("frame 1 2", "1 2: expected frame N"),
    ("frame Main", "Main: expected frame N"),
    (f"frame {'9' * 3000}", "99..: expected frame N"),
    ("frame \x1b[2J", "\\x1b[2J: expected frame N"),
    ("disassemble Main,0", "0 is not a number of instructions"),
    ("list 200000", "main.asm has no line 200,000"),
    ("list 5,3", "3 is not after 5"),
    ("list ,", "expected list FIRST,LAST"),
    ("help frob", "unknown command frob"),
    ("screen a b", "expected screen, or screen FILE"),
    ("screen /none/it.png", "/none/it.png: No such file"),
    ("why/0 R0", "expected why PART, or why/N PART"),
    ("why R77", "R77"),
)


class CommandsTest(FramesTest):
    """The commands, over --batch."""

    def test_it_follows_a_wrong_dot_to_its_line(self) -> None:
        lines = self.printed("watch dot 40,210; run; finish; finish; who SP+0; at 1843; list")
        self.assertIn("watchpoint 1: change dot 40,210", lines[1][0])
        found = tool("find", self.recording, "change dot 40,210").output.decode().splitlines()
        self.assertEqual(lines[1][1], found[0])
        self.assertEqual(lines[2][0], "the procedure that was called at 2,110 has returned")
        self.assertIn("Shapes.Column.next, ", lines[4][0])
        self.assertEqual(lines[5][0].split()[0], "1843")
        self.assertIn("=>   30          STR R2, SP, 12", lines[6])

    def test_run_continue_and_back(self) -> None:
        lines = self.printed("break Shapes.Row; run; continue; c; continue; rc 2; info breakpoints; delete 1; continue; rc")
        hits = tool("find", self.recording, "--all", "PC=Shapes.Row").output.decode().splitlines()
        self.assertEqual(lines[0], ["breakpoint 1: Shapes.Row at word 14"])
        self.assertEqual([it[1] for it in lines[1:5]], hits[:4])
        self.assertEqual((lines[5][0], lines[5][1]), ("breakpoint 1: Shapes.Row", hits[1]))
        self.assertEqual(lines[6], ["  1  breakpoint  Shapes.Row  6 hits"])
        self.assertEqual([it[0] for it in lines[8:]], [THE_END, THE_BEGINNING])

    def test_small_moves(self) -> None:
        lines = self.printed(
            "at 4; next; rn; stepi; stepi 3; rsi 4; ni; rni; step; reverse-step; at +2; at -1; at end; stepi; at start; rsi",
            "advance Display.Dot; finish; reverse-finish",
        )
        counts = [next(int(it[:10]) for it in them if it[:10].strip().isdigit()) for them in lines]
        after = counts[1]
        self.assertEqual(counts[:13], [4, after, 4, 5, 8, 4, after, 4, 5, 4, 6, 5, 7475])
        self.assertEqual(lines[1][0][:18], f"{after:>10}      76")
        self.assertEqual((lines[13][0], lines[15][0]), (THE_END, THE_BEGINNING))
        self.assertIn("the procedure that was called at ", lines[17][0])
        self.assertTrue(lines[18][0].endswith("to Shapes.Row"), lines[18])

    def test_locations(self) -> None:
        places = "*0x38", "14", "Shapes.Row", "shapes.asm:5", "*PC", "Shapes.Row+4", "", "*$pc+4"
        lines = self.printed(*(f"break {it}".strip() for it in places))
        wanted = [*["Shapes.Row at word 14"] * 4, "Main at word 71", "Shapes.Row + 0x4 at word 15", "Main at word 71"]
        self.assertEqual([it[0].partition(": ")[2] for it in lines], [*wanted, "Main + 0x4 at word 72"])

    def test_watchpoints_and_catchpoints(self) -> None:
        lines = self.printed("at 2123; awatch SP+4; rwatch Stack+0xF0; watch 0x10F0-0x10FB; catch R5=0x100 stop; info b; rc; rc; c")
        self.assertEqual(
            lines[5],
            [
                "  1  watchpoint  store 0x10E8  0 hits",
                "  2  watchpoint  load Stack+0xF0  0 hits",
                "  3  watchpoint  change 0x10F0-0x10FB  0 hits",
                "  4  catchpoint  R5=0x100  0 hits",
                "  5  catchpoint  stop  0 hits",
            ],
        )
        conditions = ("store 0x10E8", "load 0x10F0", "change 0x10F0-0x10FB", "R5=0x100")
        found = tool("find", self.recording, "--to", 2123, "--last", *conditions).output.decode()
        self.assertEqual(lines[6][1], found.splitlines()[0])
        self.assertNotEqual(lines[6][1], lines[7][1])

    def test_memory_is_shown_in_formats(self) -> None:
        asked = "x/2xw SP; x/2dw SP; x SP; x/4xb SP; x/2xh SP; x/a SP; x/tb SP; x/s SP; x/3uw 0xffff8; print SP; print *SP+4"
        lines = self.printed(f"at 2123; {asked}; p/x Shapes.Row+4; info symbol 0x40; info registers SP PC; x/2i PC; info line 0x40")
        self.assertEqual(
            [it[0] for it in lines[1:14]],
            [
                "0010E4  000000F8  00000028  ; Stack + 0xE4",
                "0010E4          248           40  ; Stack + 0xE4",
                "0010E4          248  ; Stack + 0xE4",
                "0010E4  F8  00  00  00  ; Stack + 0xE4",
                "0010E4  00F8  0000  ; Stack + 0xE4",
                "0010E4  000000F8  ; Shapes.Box + 0x40  ; Stack + 0xE4",
                "0010E4  11111000  ; Stack + 0xE4",
                '0010E4  "\\f8"',
                "0FFFF8           0           0",
                "000010E4  4324  ; Stack + 0xE4",
                "0010E8  00000028           40  28 00 00 00  (...  ; Stack + 0xE8",
                "0000003C  ; Shapes.Row + 0x4",
                "Shapes.Row + 0x8",
            ],
        )
        registers = ["R14   000010E4         4324  ; Stack + 0xE4", "PC    12                30H  ; Display.Dot + 0x30"]
        self.assertEqual((lines[14], [it[:10] for it in lines[15]]), (registers, ["=>    12  ", "      13  "]))
        self.assertTrue(lines[16][0].endswith("/shapes.asm:7"))

    def test_callers_and_who(self) -> None:
        lines = self.printed("at 2124; bt; calls; who R3; who SP; who dot 40,210; who Stack+0xF0; info stack")
        self.assertEqual(lines[1], lines[2])
        self.assertEqual([it.split()[1] for it in lines[2]], ["Display.Dot", "Shapes.Column", "Shapes.Box", "Main"])
        self.assertEqual([it.rpartition("at ")[2] for it in lines[2]], ["2,124", "2,110", "1,874", "4"])
        for at, condition in ((3, "R3=976900"), (4, "R14=0x10E4"), (5, "change dot 40,210"), (6, "store Stack+0xF0")):
            self.assertEqual(lines[at], self.lines_of("find", self.recording, "--to", 2124, "--last", condition, errors=None))
        self.assertIn("<- returns to Shapes.Box + 0x40, from the call at 1,874", lines[7][0])

    def test_frames_are_selected(self) -> None:
        lines = self.printed("at 2124; bt; up; list; up 2; down; list; down 9; list; up 9; stepi; list")
        self.assertEqual([lines[at][0] for at in (2, 4, 5, 7, 9)], [lines[1][at] for at in (1, 3, 2, 0, 3)])
        self.assertEqual(lines[2][1], "   31          BL Display.Dot")
        marked = [next(it for it in lines[at] if it.startswith("=>")) for at in (3, 6, 8, 11)]
        self.assertEqual([it[2:].split()[0] for it in marked], ["31", "60", "16", "32"])

    def test_a_frame_is_selected_by_its_number(self) -> None:
        lines = self.printed("at 2124; bt; frame 2; list; f; f 0; frame 0x1; up; frame 3; stepi; frame")
        frames = lines[1]
        self.assertEqual([lines[at][0] for at in (2, 4, 5, 6, 7, 8)], [frames[at] for at in (2, 2, 0, 1, 2, 3)])
        self.assertEqual(lines[2][1], "   60          BL Shapes.Column        ; the right side")
        self.assertEqual(next(it for it in lines[3] if it.startswith("=>")).split()[1], "60")
        self.assertTrue(lines[10][0].startswith("#0  "), lines[10])

    def test_the_procedure_of_the_selected_frame_is_finished(self) -> None:
        lines = self.printed("at 2124; frame 1; finish; at 2124; frame 2; reverse-finish")
        self.assertIn(" called at 1,874 has returned", lines[2][0])
        self.assertEqual(lines[5][0].split()[:2], ["4", "75"])
        self.assertIn("3 calls are open at count 2,124", self.ran("at 2124", "frame 3", "finish", status=2).errors)

    def test_a_pause_in_an_inner_call_is_no_return(self) -> None:
        """Rec calls itself three times; each inner call comes back to Back, too."""
        path = self.assembled(REC, "rec")
        ran = tool("debug", path, "--batch", *(it for line in ("at 9", "break Back", *["finish"] * 4) for it in ("-ex", line)))
        self.assertEqual(ran.status, 0, ran.errors)
        told = [it for it in ran.output.decode().splitlines() if "has returned" in it or it.startswith("breakpoint 1: Back")]
        pause, returned = "breakpoint 1: Back", "the procedure that was called at {} has returned"
        wanted = [f"{pause} at word 5", pause, returned.format(12), pause, returned.format(7), pause, returned.format(2)]
        self.assertEqual(told, wanted)

    def test_lists_and_screens(self) -> None:
        picture = self.folder / "it.png"
        lines = self.printed(
            "list Shapes.Row; list; at 5; list; disassemble Shapes.Row,2; screen; at 2000; screen",
            f"screen {picture}; info devices; info inputs; help who; help",
        )
        first = (EXAMPLES / "frames/shapes.asm").read_text().split("\n")[0]
        self.assertEqual((lines[0][0], lines[1][0]), (f"      1  {first}", "     11          BL Display.Dot"))
        self.assertEqual([it for it in lines[3] if it.startswith("=>")], ["=>   45          SUB SP, SP, 16"])
        self.assertEqual([it.split()[:2] for it in lines[4]], [["14", "4EE90010"], ["15", "AFE00000"]])
        self.assertEqual(lines[5], ["the screen is empty"])
        self.assertTrue(any(0x2800 < ord(it) < 0x2900 for line in lines[7] for it in line))
        self.assertEqual(picture.read_bytes()[:4], b"\x89PNG")
        told = ["who PLACE", "  find the last instruction before this count that wrote a place or a register"]
        self.assertEqual(lines[10:12], [["no more inputs"], told])
        self.assertGreater(len(lines[12]), 30)

    def test_a_list_without_its_source(self) -> None:
        (self.folder / "it.sym").write_text("11c t Main\tnone.asm:3\n")
        told = "the source none.asm is not there, or not below the symbol file: --directory FOLDER says where it is"
        self.assertIn(told, self.ran("list", status=2).errors)
        self.file("there/none.asm", "one\ntwo\nthr\x1b[2Jee\n")
        ran = tool("debug", self.recording, "--batch", "--directory", self.folder / "there", "-ex", "list")
        self.assertTrue(ran.output.decode().endswith("=>    3  thr\\x1b[2Jee\n"), ran.output)
        for name in ("/dev/zero", "\\0", "..", "there"):
            (self.folder / "it.sym").write_text(f"11c t Main\t{name}:3\n")
            self.assertIn("is not there", self.ran("list", status=2).errors)

    def test_a_list_shows_no_file_elsewhere(self) -> None:
        """A symbol file names a file by its whole path, by one that leads up, and by a link; a user may show it all the same."""
        secret = self.file("secret/it.asm", "one\ntwo\nthree\n")
        recording = self.file("its/it.orsr", self.recording.read_bytes())
        (self.folder / "its/link.asm").symlink_to(secret)
        (self.folder / "its/round.asm").symlink_to("round.asm")
        for name in (secret, "../secret/it.asm", "link.asm", "round.asm"):
            self.file("its/it.sym", f"11c t Main\t{name}:3\n")
            for words in (["-ex", "list"], ["-ex", "step"]):
                ran = run([GALLUSPA, "debug", recording, "--batch", *words], cwd=self.folder)
                self.assertNotIn(b"three", ran.output)
                self.assertEqual((ran.status, "is not there" in ran.errors), (2, True) if words[1] == "list" else (0, False))
            shown = tool("debug", recording, "--batch", "--directory", secret.parent, "-ex", "list").output.decode()
            self.assertEqual(shown.endswith("=>    3  three\n"), name in (secret, "../secret/it.asm"), name)
        self.file("its/below/it.asm", "one\ntwo\nthree\n")
        for name in ("below/it.asm", self.folder / "its/below/it.asm"):
            self.file("its/it.sym", f"11c t Main\t{name}:3\n")
            shown = tool("debug", recording, "--batch", "-ex", "list").output.decode()
            self.assertTrue(shown.endswith("=>    3  three\n"), shown)

    def test_files_of_commands(self) -> None:
        script = self.file("it.debug", "# the first dot\nbreak Display.Dot\n\nrun\n")
        ran = tool("debug", self.recording, "--batch", "-ex", "at 3", "-x", script, "-ex", "print PC")
        given = [it.split(") ")[1] for it in ran.output.decode().splitlines() if it.startswith("(")]
        self.assertEqual(given, ["at 3", "# the first dot", "break Display.Dot", "run", "print PC"])
        self.assertTrue(ran.output.decode().endswith("00000000  0  ; Display.Dot\n"))
        script.write_text("at 3\nfrob\nat 4\n")
        ran = tool("debug", self.recording, "--batch", "-x", script)
        told = f"galluspa debug: {script}:2: unknown command frob: try help"
        self.assertEqual((ran.status, ran.errors.splitlines()[-1]), (2, told))
        self.assertNotIn("at 4", ran.output.decode())
        self.assertIn("quit", tool("debug", self.recording, "-x", self.file("q", "quit\nfrob\n")).output.decode())

    def test_commands_come_from_a_pipe(self) -> None:
        ran = run([GALLUSPA, "debug", self.recording], b"frob\nprint 7\nbreak No.Where\nq\nprint 8\n")
        self.assertEqual(ran.status, 2)
        self.assertEqual(len(ran.errors.splitlines()), 3)
        self.assertIn(b"00000007  7\n", ran.output)
        self.assertNotIn(b"print 8", ran.output)
        # A write that failed is not forgotten at a later mistake.
        self.assertEqual(run([GALLUSPA, "debug", self.recording], b"screen /dev/full\nfrob\n").status, 3)

    def test_commands_that_are_not_utf_8_are_refused(self) -> None:
        """Also where Python would not read them, as in most languages' settings."""
        environment = {**os.environ, "PYTHONIOENCODING": "utf-8:strict"}
        ran = run([GALLUSPA, "debug", self.recording], b"print \xff\nprint 7\n", env=environment)
        self.assertEqual(ran.status, 2)
        self.assertIn("standard input: ^\\xff: expected a number", ran.errors)
        self.assertEqual(len(ran.errors.splitlines()), 2, ran.errors)
        self.assertIn(b"00000007  7\n", ran.output)

    def test_bad_commands_are_one_line(self) -> None:
        for command, told in REFUSED:
            with self.subTest(command[:60]):
                ran = self.ran(command, status=2)
                self.assertEqual(len(ran.errors.splitlines()), 2)
                self.assertIn(told, ran.errors.splitlines()[1])
                self.assertTrue(ran.errors.splitlines()[1].isprintable())
        for commands, told in (
            ("break; commands; print 3", "the commands of point 1 have no end"),
            ("break; commands; commands", "of which none is commands"),
            ("; ".join(["break"] * 61), "too many breakpoints and watchpoints: delete some"),
        ):
            self.assertIn(told, self.ran(commands, status=2).errors)

    def test_a_false_recording_is_debugged_as_the_machine_runs(self) -> None:
        ran = tool("debug", self.file("false.orsr", rejoining(9)), "--batch", "-ex", "at 2", "-ex", "print R5")
        self.assertTrue(ran.output.endswith(b"00000001  1\n"), ran.output)

    def test_a_command_ends_when_its_time_is_over(self) -> None:
        long = self.recorded([0x40080001, 0x41080001, JUMP - 2], [1, 1 << 32], name="long.orsr")
        claimed = tool("claim", long, "--at", 1, "--set", "R1=7").output
        words = ("debug", self.file("false.orsr", claimed), "--batch", "-ex", "at 0", "-ex", "watch 0x2000", "-ex", "continue")
        # On a machine that is busy with other things it takes longer to begin.
        for limit in (4, 20, 100):
            ran = tool(*words, "--limit", limit)
            if "-ex continue" in ran.errors:
                break
        self.assertEqual((ran.status, ran.errors), (3, f"galluspa debug: -ex continue: no answer in {limit} s\n"))
