"""galluspa diff --only, --all and --who: what a user sees, each difference, and the instructions that wrote it."""

import dataclasses

from galluspa.analysis.comparison import INPUTS_SHOWN, PARTS, SLOTS_SHOWN, found_of
from galluspa.formats import recording
from galluspa.formats.recording import Event, page_of
from tests.tools.samples import EXAMPLES, JUMP, ToolTest, claim, encoded, in_register, record, session, tool

WORDS = page_of(0x45000001, 0xE7FFFFFE)


class OnlyTest(ToolTest):
    def found(self, one: bytes, other: bytes, only: str = ",".join(PARTS), is_all: bool = True) -> list[str]:
        """Returns the names of what differs."""
        return [it.row[0].strip() for it in found_of(recording.read(one), recording.read(other), set(only.split(",")), is_all)]

    def test_each_group_has_its_parts(self) -> None:
        pool = [WORDS, page_of(0, 0x81), page_of(7), page_of(*[0] * 255, 5)]
        same = claim(0)
        for group, other, row in (
            ("registers", claim(9, registers=in_register(3, 9)), "R3"),
            ("registers", claim(9, pc=7), "PC"),
            ("registers", claim(9, flags=1), "flags"),
            ("stop", claim(9, stop=2), "stop"),
            ("devices", claim(9, leds=3), "LEDs"),
            ("devices", claim(9, keys=b"a"), "keys"),
            ("devices", claim(9, timer=1), "timer"),
            ("out", claim(9, output=b"x"), "out, from byte 0 on"),
            ("memory", claim(9, {0: 1, 3: 3}), "page 3, Mem[000C00]"),
            ("screen", claim(9, {0: 1, 928: 2}), "screen, 2 dots from 32,2 to 39,2: Mem[0E8004]"),
        ):
            one, another = (encoded(2, pool, [same, it]) for it in (claim(9), other))
            for it in PARTS:
                self.assertEqual(self.found(one, another, it), ["checkpoint 1", row] if it == group else [], (group, it))

    def test_a_page_that_is_of_the_display_in_part(self) -> None:
        """Page 927 has 768 bytes of memory before those of the display's first dots."""
        pool = [WORDS, page_of(*[0] * 191, 1, 0x8000_0000), page_of(*[0] * 192, 0x8000_0000), page_of(*[0] * 191, 1)]
        none = encoded(2, pool, [claim(0), claim(9)])
        for number, memory, screen in ((2, True, True), (3, False, True), (4, True, False)):
            other = encoded(2, pool, [claim(0), claim(9, {0: 1, 927: number})])
            shown = self.found(none, other, "memory"), self.found(none, other, "screen")
            drawn = "screen, 1 dot from 31,0 to 31,0: Mem[0E7F00]"
            self.assertEqual(shown[0], ["checkpoint 1", "page 927, Mem[0E7EFC]"] if memory else [])
            self.assertEqual(shown[1], ["checkpoint 1", drawn] if screen else [])

    def test_all_of_them_and_the_first_alone(self) -> None:
        def of(leds: int, pc: int, at: int, stop: int, key: int) -> bytes:
            claims = [claim(0), claim(5, leds=leds, pc=pc), claim(at), claim(30, stop=stop)]
            return encoded(1, [WORDS, page_of(5)], claims, [Event(1, 4, key)])

        one, other = of(1, 2, 20, 0, 65), of(2, 3, 21, 1, 66)
        self.assertEqual(self.found(one, other), ["input 0", "checkpoint 1", "PC", "LEDs", "checkpoint 2", "checkpoint 3", "stop"])
        self.assertEqual(self.found(one, other, is_all=False), ["input 0", "checkpoint 1", "PC"])
        self.assertEqual(self.found(one, other, "devices,out,screen"), ["checkpoint 1", "LEDs", "checkpoint 2"])

    def test_what_is_printed_of_many_is_bounded(self) -> None:
        pages = {slot: 2 for slot in range(1, 900)}
        one, other = (
            encoded(2, [WORDS, page_of(5)], [claim(0), claim(9, it)], [Event(at, 4, key) for at in range(100)])
            for it, key in (({0: 1}, 1), ({0: 1} | pages, 2))
        )
        rows = self.found(one, other)
        self.assertEqual(rows[INPUTS_SHOWN : INPUTS_SHOWN + 2], [f"and {100 - INPUTS_SHOWN} more inputs", "checkpoint 1"])
        self.assertEqual(rows[-1], f"and {899 - SLOTS_SHOWN} more page slots")
        self.assertEqual(len(rows), INPUTS_SHOWN + SLOTS_SHOWN + 3)


class WhoTest(ToolTest):
    """Two versions of the program that docs/debugging.md mends, with checkpoints at the same counts."""

    def setUp(self) -> None:
        super().setUp()
        self.paths = []
        for name, frame in (("one", "12"), ("two", "16")):
            for it in (EXAMPLES / "frames").glob("*.asm"):
                self.file(f"{name}/{it.name}", it.read_text().replace("SP, SP, 12", f"SP, SP, {frame}"))
            self.paths.append(self.assembled(self.folder / name / "main.asm", name, checkpoints=[1000, 3000]))

    def test_what_a_user_sees_and_who_drew_it(self) -> None:
        told = "".join(f"galluspa diff: 10 names from {self.folder}/{it}.sym\n" for it in ("one", "two"))
        _, checkpoint, screen, own, theirs = self.lines_of(
            "diff", *self.paths, "--only", "screen,out,devices", "--who", status=1, errors=told
        )
        self.assertEqual(checkpoint.split(), ["checkpoint", "2", "at", "3000", "at", "3000"])
        self.assertTrue(screen.startswith("  screen, 94 dots from 1,200 to 139,239: Mem[0EE304]"), screen)
        found = self.lines_of("find", self.paths[0], "--from", 1000, "--to", 3000, "--last", "store", "0xEE304", errors=None)
        self.assertEqual(own, f"    A {found[0]}")
        self.assertEqual(theirs.split(), "B no instruction from 1000 to 3000 wrote it".split())
        self.assertIn("Display.Dot + 0x30", own)

    def test_who_wrote_registers_and_words(self) -> None:
        lines = self.lines_of("diff", *self.paths, "--only", "registers,memory", "--all", "--who", status=1, errors=None)
        at = next(at for at, line in enumerate(lines) if line.startswith("  R14 "))
        self.assertTrue(lines[at + 1].startswith("    A ") and "R14 000010F0 → 000010E4" in lines[at + 1], lines[at + 1])
        self.assertTrue(lines[at + 2].startswith("    B ") and "R14 000010F0 → 000010E0" in lines[at + 2], lines[at + 2])
        self.assertTrue(any("Mem[0010E4]" in it and it.startswith("    A ") for it in lines))

    def test_the_same_in_what_is_compared(self) -> None:
        told = ["the same, in devices, out: 0 inputs, and 2 checkpoints after the initial state"]
        self.assertEqual(self.lines_of("diff", *self.paths, "--only", "out, devices", errors=None), told)

    def test_it_ends_when_the_time_is_over(self) -> None:
        read = recording.read(record(session([0x40080001, JUMP - 1], [1])))
        lasts = [dataclasses.replace(read.checkpoints[1], count=1 << 40, registers=in_register(3, it)) for it in (1, 2)]
        texts = [recording.write(dataclasses.replace(read, checkpoints=[read.checkpoints[0], it])) for it in lasts]
        ran = tool("diff", *(self.file(f"{at}.orsr", text) for at, text in enumerate(texts)), "--who", "--limit", 1)
        self.assertEqual((ran.status, ran.errors), (3, "galluspa diff: no answer in 1 s: not all writers were found\n"))
        self.assertEqual(len(ran.output.splitlines()), 3)
