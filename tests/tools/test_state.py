"""galluspa state: the machine at any count, its memory and stack, its screen, and what it refuses."""

import re
import struct

import galluspa
from galluspa.formats.screens import picture
from tests.tools.samples import EXAMPLES, JUMP, PROGRAM, ToolTest, record, rejoining, run, session, tool

FACE = EXAMPLES / "face.orsr"


class StateTest(ToolTest):
    def setUp(self) -> None:
        super().setUp()
        self.recording = self.assembled(EXAMPLES / "frames/main.asm")
        self.symbols = self.folder / "it.sym"

    def test_shows_what_the_library_says_at_any_count(self) -> None:
        machine = galluspa.Machine.claim(FACE.read_bytes())
        for count in (0, 1, 4_999_999, 5_000_000, 12_345_678):
            machine.advance(count)
            state = machine.state
            ran = tool("state", FACE, "--at", count, "--memory", "0xE7F00,256", "--memory", "0", "--code", f"{4 * state.pc},1")
            lines = ran.output.decode().splitlines()
            self.assertEqual(lines[0], f"count {count:,}, running")
            registers = [int(line.split()[1], 16) for line in lines if re.match("(?:R[0-9]+|H) ", line)]
            self.assertEqual(registers, [*state.registers, state.h])
            self.assertEqual(next(line.split()[1] for line in lines if line.startswith("PC ")), f"{state.pc}")
            words = [int(line.split()[1], 16) for line in lines if re.match("[0-9A-F]{6}  ", line)]
            self.assertEqual(
                words, [*struct.unpack("<256I", machine.memory()[0xE7F00:0xE8300]), *struct.unpack("<8I", machine.memory()[:32])]
            )
            self.assertEqual(int(lines[-1].split()[2], 16), struct.unpack_from("<I", machine.memory(), 4 * state.pc)[0])

    def test_the_stack_and_its_calls(self) -> None:
        told = self.of_words([0x5E00FFFF, 0x4EE80000 | 0xFFFF, JUMP], "--stack", "--at", 9, r14=0xFFFFFF)
        self.assertIn("R14 is 00FFFFFF, beyond the memory", told)

    def of_words(self, words: list[int], *arguments: object, r14: int = 0) -> str:
        made = session(words, [9])
        made["start"]["R"][14] = r14
        made["pages"] = session([JUMP], [1])["pages"]
        return tool("state", self.file("other.orsr", record(made)), *arguments).output.decode()

    def test_draws_the_screen(self) -> None:
        for name in ("it.png", "it.pbm"):
            self.assertEqual(tool("state", FACE, "--at", 4_000_000, "--screen", self.folder / name).status, 0)
        pbm = run([PROGRAM, "screen", "--at", 1], FACE.read_bytes()).output
        self.assertEqual(((self.folder / "it.pbm").read_bytes(), (self.folder / "it.png").read_bytes()), (pbm, picture(pbm)))

    def test_the_machine_of_a_false_recording(self) -> None:
        self.assertIn(b"R5    00000001 ", tool("state", self.file("false.orsr", rejoining(9)), "--at", 2).output)

    def test_costs_little_for_a_hundred_million_steps(self) -> None:
        path = self.recorded([0x40080001, 0x41090003, JUMP - 2], [100_000_000], name="long.orsr")
        with self.takes_at_most(5):
            self.assertIn(b"R0    01FCA055     33333333\n", tool("state", path, "--at", 99_999_999).output)
