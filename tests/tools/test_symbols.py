"""The tools that show the names of symbol files, and the symbol files that assemble makes."""

import dataclasses
import json
import os
import struct
import sys

from galluspa.assembler.mnemonics import word_of
from galluspa.formats import recording
from galluspa.formats.symbolfiles import parsed
from tests.tools.samples import GALLUSPA, PATIENCE, ToolTest, run, tool

# A program that calls a procedure twice, which calls another one, with its stack at 1000 (hexadecimal).
PROGRAM = """
MOV R14, 4096
BL 2
BL 1
B -1
SUB R14, R14, 4
STR R15, R14, 0
MOV R0, 512
BL 3
LDR R15, R14, 0
ADD R14, R14, 4
B R15
STR R0, R0, 4
B R15
"""
NAMES = """
00000000 t Main
00000010 0000001C t Dots.Row\tDots.Mod:7
0000002C 00000008 t Dots.Put\tDots.Mod:3
00000200 00000010 d Dots.buf
0000002C l Dots.Mod:4
"""


class ShownTest(ToolTest):
    """The tools on a recording of the program above, with its symbol file beside it."""

    def setUp(self) -> None:
        super().setUp()
        self.recording = self.recorded([word_of(line) for line in PROGRAM.split("\n") if line], [40])
        self.symbols = self.file("it.sym", NAMES)

    def printed(self, name: str, *arguments: object) -> list[str]:
        """Returns the lines of a tool that says where its names are from."""
        return self.lines_of(name, self.recording, *arguments, errors=f"galluspa {name}: 4 names from {self.symbols}\n")

    def test_trace(self) -> None:
        lines = self.printed("trace", "--steps", 7)
        self.assertEqual([it for it in lines if it.endswith(":")], ["Main:", "Dots.Row:", "Dots.Put:"])
        self.assertTrue(lines[2].endswith("  ; to Dots.Row"), lines[2])
        self.assertTrue(lines[-1].endswith("Mem[000204] 00000000 → 00000200  ; Dots.Mod:4, stores to Dots.buf + 0x4"), lines[-1])

    def test_trace_says_who_called(self) -> None:
        lines = self.printed("trace", "--steps", 14, "--calls")
        told = [it.removeprefix("  stack: ") for it in lines if it.startswith("  stack")]
        row, put = "Dots.Row + 0x10 < Main + 0x8", "Dots.Put < Dots.Row + 0x10 < Main + 0x8"
        self.assertEqual(told, ["Main", "Dots.Row < Main + 0x8", put, row, "Main + 0x8", "Dots.Row < Main + 0xC"])

    def test_find(self) -> None:
        for condition, shown in (
            ("PC=Dots.Put", "Dots.Put, Dots.Mod:4, stores to Dots.buf + 0x4"),
            ("store Dots.buf+4", "Dots.Put, Dots.Mod:4, stores to Dots.buf + 0x4"),
            ("Dots.Row", "Dots.Row"),
            ("PC=Dots.Row+8-Dots.Put", "Dots.Row + 0x8"),
            ("change Dots.buf-Dots.buf+0xF", "Dots.Put, Dots.Mod:4, stores"),
            ("PC=Main+0xC", "Main + 0xC, to Main + 0xC"),
        ):
            line, *more = self.printed("find", *condition.split())
            self.assertEqual(more, [], condition)
            self.assertIn(f"  ; {shown}", line)
        self.assertEqual([it.split()[0] for it in self.printed("find", "--all", "Dots.Put", "PC=3")][:3], ["6", "16", "21"])

    def test_explain(self) -> None:
        false = self.file("false.orsr", tool("claim", self.recording, "--at", 1, "--set", "R15=0").output)
        told = f"galluspa explain: 4 names from {self.symbols}\n"
        lines = self.lines_of("explain", false, "--symbols", self.symbols, status=1, errors=told)
        at = lines.index("The last instructions before count 40 that wrote R15:")
        row = ["Dots.Row + 0xC, to Dots.Put", "Dots.Row + 0x10"]
        self.assertEqual([it.partition("  ; ")[2] for it in lines[at + 1 : at + 6]], [*row, "Main + 0x8, to Dots.Row", *row])
        self.assertIn("stack: Dots.Row + 0x10 < Main + 0xC", lines)

    def test_explain_names_what_differs(self) -> None:
        read = recording.read(self.recording.read_bytes())
        claim = dataclasses.replace(read.checkpoints[1], pc=11)
        false = self.file("false.orsr", recording.write(dataclasses.replace(read, checkpoints=[read.checkpoints[0], claim])))
        ran = tool("explain", false, "--symbols", self.symbols)
        self.assertIn("PC  11       3  ; Dots.Put and Main + 0xC", ran.output.decode().splitlines())

    def test_diff(self) -> None:
        read = recording.read(self.recording.read_bytes())
        pool = bytearray(read.pool)
        at = pool.rindex(struct.pack("<I", 0x200))
        pool[at : at + 4] = b"\1\2\3\4"
        other = self.file("other.orsr", recording.write(dataclasses.replace(read, pool=bytes(pool))))
        lines = [it.rstrip() for it in tool("diff", self.recording, other).output.decode().splitlines()]
        self.assertTrue(lines[-1].startswith("  page 0, Mem[000204]") and lines[-1].endswith("04030201  ; Dots.buf + 0x4"), lines)

    def test_bisect(self) -> None:
        counters = "json.dumps({'PC': [0, 1, 4, 5, 6, 7, 11, 12, 9][int(sys.argv[1])]})"
        script = self.file("other.py", f"import json, sys\nprint({counters})\n")
        ran = tool("bisect", self.recording, "--to", 8, "--steps", 2, "--", sys.executable, script, "{count}")
        lines = ran.output.decode().splitlines()
        self.assertIn("PC  9          8  ; Dots.Row + 0x14 and Dots.Row + 0x10", lines)
        self.assertEqual([it for it in lines if it.endswith(":")], ["Dots.Put:"])

    def test_session(self) -> None:
        image = self.file("it.bin", b"".join(struct.pack("<I", word_of(line)) for line in PROGRAM.split("\n") if line))
        ran = tool("session", "--memory", image, "--set", "PC=Dots.Row", "--every", 1, "--until", 1)
        self.assertEqual((ran.status, json.loads(ran.output)["start"]["PC"]), (0, 4))
        self.symbols.write_text("2 d Odd\n4 t Two\n8 t Two\n")
        for name, told in (
            ("Odd", "--set PC: Odd is at byte 2 (hexadecimal), which is not a multiple of 4"),
            ("Two", "Two stands for 2 addresses"),
            ("Three", "Three"),
        ):
            ran = tool("session", "--memory", image, "--set", f"PC={name}", "--every", 1, "--until", 1)
            self.assertEqual(ran.status, 2)
            self.assertIn(told, ran.errors)

    def test_names_are_beside_the_numbers_of_objects(self) -> None:
        (one,) = map(json.loads, self.printed("find", "--json", "PC=Dots.Put"))
        self.assertEqual((one["PC"], one["word"], one["memory"]), (11, word_of("STR R0, R0, 4"), [[0x204, 0, 0x200]]))
        self.assertEqual(one["names"], {"PC": "Dots.Put", "source": "Dots.Mod:4", "address": "Dots.buf + 0x4"})
        objects = list(map(json.loads, self.printed("trace", "--json", "--calls", "--steps", 3)))
        self.assertEqual([it.get("stack") for it in objects], [["Main"], None, ["Dots.Row", "Main + 0x8"]])
        self.assertEqual(objects[1]["names"], {"PC": "Main + 0x4", "target": "Dots.Row"})

    def test_refuses_conditions_with_other_names(self) -> None:
        self.symbols.write_text(f"{NAMES}40 t Twice\n44 t Twice\n201 d Odd\nE7F00 a Screen\n1000000 a Large\n")
        for condition, told in (
            ("PC=Dots.Row2", "no symbol is called Dots.Row2: did you mean Dots.Row?"),
            ("store buf", "no symbol is called buf"),
            ("PC=Twice", "Twice stands for 2 addresses, 0x40, 0x44"),
            ("PC=Odd", "Odd is at byte 201 (hexadecimal), and instructions"),
            ("store Large", "an address is below"),
            ("change Dots.buf-Main", "nothing is from Dots.buf to Main"),
        ):
            ran = tool("find", self.recording, *condition.split())
            self.assertEqual((ran.status, ran.output), (2, b""))
            self.assertIn(told, ran.errors.splitlines()[-1])
        self.assertEqual(tool("find", self.recording, "store", "Screen").status, 1)

    def test_an_option_names_the_file(self) -> None:
        other = self.file("other.sym", "0 t Begin\n")
        ran = tool("trace", self.recording, "--steps", 1, "--symbols", other)
        self.assertEqual(ran.errors, f"galluspa trace: 1 name from {other}\n")
        self.assertEqual(ran.output.decode().splitlines()[0], "Begin:")

    def test_a_file_with_a_mistake(self) -> None:
        self.symbols.write_text("0 t Begin\n0 t x y\n")
        ran = tool("trace", self.recording, "--steps", 1)
        self.assertEqual((ran.status, len(ran.output.splitlines())), (0, 1))
        self.assertIn(f"{self.symbols}:2: y comes after the name; expected ADDRESS TYPE NAME", ran.errors)
        self.assertTrue(ran.errors.endswith("; its names are not shown\n"), ran.errors)
        told = f"{self.symbols}:2: y comes after the name; expected ADDRESS TYPE NAME"
        self.assert_refused(tool("trace", self.recording, "--symbols", self.symbols), told)

    def test_hostile_names_are_shown_harmlessly(self) -> None:
        self.symbols.write_text("0 t \x1b[2J\u202e;accepted\t\x1b[31m/../x:3\n200 d \x07\n" + "10 t a\n" * 1000)
        other = self.file("other.orsr", tool("claim", self.recording, "--at", 1, "--set", "R5=9").output)
        given = "at 5; bt; calls; info b; x/4i PC; x/4xw SP; print SP; info symbol PC; info line PC; break *PC; catch stop"
        for name, *words in (
            ("trace", "--steps", 9, "--calls"),
            ("find", "PC=0-12", "--all"),
            ("state", "--at", 0, "--stack", "--memory", "PC,4"),
            ("diff", other, "--who"),
            ("debug", "--batch", *(word for it in given.split("; ") for word in ("-ex", it))),
            ("debug", "--batch", "-ex", "list"),
        ):
            ran = tool(str(name), self.recording, *words)
            self.assertEqual(ran.status, 1 if name == "diff" else 2 if "list" in words else 0, ran.errors)
            self.assertTrue((ran.output.decode() + ran.errors).replace("\n", "").isprintable(), name)
            self.assertTrue(name in ("diff", "debug") or r"\x1b[2J\u202e;accepted" in ran.output.decode(), name)


MAIN = """; Calls a procedure of another source three times.
Stack = 4096
Count = R5
        MOV SP, Stack
        include "parts/dots.asm"
Main:
        MOV count, 3
"""
MAIN_GOES_ON = """next:   BL Dots.Row
        SUB Count, Count, 1
        BNE next
done:   B done
        until loops
"""
DOTS = """        B Main
Dots.Row:
        SUB SP, SP, 4
        STR LNK, SP, 0
        MOV R0, Dots.buf
        STR R0, R0, 0
        LDR LNK, SP, 0
        ADD sp, SP, 4
        B lnk
Dots.buf: word 0, 0
"""


class AssembleTest(ToolTest):
    """A program of several sources, and the symbol file that is made of it."""

    def setUp(self) -> None:
        super().setUp()
        self.main = self.file("main.asm", MAIN.replace("count", "Count"))
        self.rest = self.file("rest.asm", MAIN_GOES_ON)
        self.dots = self.file("parts/dots.asm", DOTS)

    def test_writes_beside_images_and_words_and_nothing_of_mistakes(self) -> None:
        path, image = self.folder / "it.sym", self.folder / "it.bin"
        self.assertEqual(tool("assemble", self.main, self.rest, "--image", image, "--symbols", path).errors, "")
        self.assertEqual(parsed(path.read_bytes()).text(0x34), "next + 0x4")
        path.unlink()
        self.rest.write_text(MAIN_GOES_ON.replace("BNE", "BNQ"))
        self.assertEqual(tool("assemble", self.main, self.rest, "--words", "--symbols", path).status, 2)
        self.assertFalse(path.exists())

    def test_mistakes_have_their_file_and_line(self) -> None:
        self.dots.write_text(DOTS.replace("MOV R0", "MOV R0,") + "Stack: word 1\n")
        self.rest.write_text(MAIN_GOES_ON + 'include "none.asm"\ninclude\nCount = R6\nSub = 3\nuntil loops\norigin 8\nword Count\n')
        self.main.write_text(MAIN)
        ran = tool("assemble", self.main, self.rest)
        self.assertEqual(ran.status, 2)
        lines = ran.errors.splitlines()
        for told in (
            f"{self.dots}:5:16: a number or a name is missing here",
            f"{self.dots}:11:1: Stack is defined in line 2 of {self.main} already",
            f"{self.main}:7:13: count is not defined: did you mean Count?",
            f"{self.rest}:6:1: {self.folder}/none.asm: No such file or directory",
            f"{self.rest}:7:1: include needs a line of its own",
            f"{self.rest}:8:1: Count is defined in line 3 of {self.main} already",
            f"{self.rest}:10:1: until is in line 5 already",
            f"{self.rest}:12:6: Count is a register, where a number is wanted",
            f"{self.rest}:11:1: the bytes from 8H to BH are filled from line 1 of {self.main} on, too",
        ):
            self.assertTrue(any(it.startswith(told) for it in lines), (told, ran.errors))
        self.assertEqual(lines[-1], f"galluspa assemble: {self.main} and 1 more: {len(lines) - 1} mistakes: wrote nothing")

    def test_includes_end(self) -> None:
        self.dots.write_text('include "dots.asm"\n')
        self.assertIn(f"{self.dots}:1:1: {self.dots} includes itself", tool("assemble", self.main, self.rest).errors)
        for at in range(20):
            self.file(f"deep{at}.asm", f'include "deep{at + 1}.asm"\n')
        self.assertIn("deep16.asm:1:1: files are included 16 deep", tool("assemble", self.folder / "deep0.asm").errors)
        self.file("empty.asm", "")
        many = self.file("many.asm", 'include "empty.asm"\n' * 1001)
        self.assertIn(f"{many}:1001:1: files are included 16 deep and 1,000 in all", tool("assemble", many).errors)
        large = self.file("large.asm", ";" * (1 << 21))
        self.assert_refused(tool("assemble", large, large, large), "at most 4,194,304 bytes, with what it includes")

    def test_files_that_cannot_be_included(self) -> None:
        """A link to itself, a name that no file can have, and a pipe that nobody writes to."""
        (self.folder / "round.asm").symlink_to("round.asm")
        os.mkfifo(self.folder / "pipe")
        for name, told in (
            ("round.asm", "round.asm: Too many levels of symbolic links"),
            ("a\0b", "a\\x00b: embedded null byte"),
            ("pipe", "pipe: not a regular file"),
            ("/dev/zero", "/dev/zero: not a regular file"),
        ):
            source = self.file("it.asm", f'include "{name}"\n        until loops\n')
            ran = run([GALLUSPA, "assemble", source], timeout=PATIENCE)
            self.assertEqual((ran.status, len(ran.errors.splitlines())), (2, 2), ran.errors)
            self.assertTrue(ran.errors.startswith(f"{source}:1:1: "), ran.errors)
            self.assertIn(told, ran.errors.splitlines()[0])

    def test_own_names_come_before_those_of_registers(self) -> None:
        source = self.file("own.asm", "LNK = 5\nMOV R1, LNK\nSP: MOV R2, SP\nset lnk = 3\nuntil stops\n")
        words = tool("assemble", source, "--words").output.decode().splitlines()
        self.assertEqual([it.split()[1] for it in words], ["41000005", "42000004"])
        ran = tool("assemble", self.file("names.asm", "Top = SP\nset Top = 80H\nset lnk = 3\nMOV Top, LNK\nevery 1, 1\n"))
        made = json.loads(ran.output)
        self.assertEqual(made["start"]["R"][14:], [0x80, 3])
