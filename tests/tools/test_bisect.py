"""galluspa bisect, with the C machine of bench/ as the other emulator: with none and each of twelve mistakes."""

import json
import shutil
import subprocess
import tempfile
from concurrent.futures import ThreadPoolExecutor
from dataclasses import dataclass
from pathlib import Path

from tests.tools.samples import EXAMPLES, JUMP, TOP, Ran, ToolTest, on_terminal, record, session, tool

# A loop of 1,000 rounds; after it each instruction is done once, and what it leaves is never overwritten.
ROUNDS = 1000
LOOP = (0x40000000 | ROUNDS, 0x40090001, 0xE93FFFFE)
FIRST = 1 + 2 * ROUNDS
STRAIGHT = (
    0x5100FFC0,  # 0  MOV R1, -64
    0x5200F00F,  # 1  MOV R2, -4081
    0x43250FFF,  # 2  ANN R3, R2, 4095
    0x04280002,  # 3  ADD R4, R2, R2: it carries
    0x35000000,  # 4  MOV' R5, NZCV
    0x462A7FFF,  # 5  MUL R6, R2, 32767: H is negative
    0x27000000,  # 6  MOV' R7, H
    0x482B0009,  # 7  DIV R8, R2, 9: of a negative number
    0xB2000803,  # 8  STB R2, R0, 2051
    0x99000800,  # 9  LDB R9, R0, 2048
    0x99000803,  # 10 LDB R9, R0, 2051
    0x8A100018,  # 11 LDR R10, R1, 24: the mouse word, and whether a key waits
    0x8B10001C,  # 12 LDR R11, R1, 28: a key
    0x8C100008,  # 13 LDR R12, R1, 8: the serial byte, which is no longer new
    0x5D000000,  # 14 MOV R13, 0: Z
    0xF7000000,  # 15 BL 0: a link clears Z
    0x3E000000,  # 16 MOV' R14, NZCV
    0x8F100000,  # 17 LDR R15, R1, 0: the timer
    JUMP,
)
KEYS_AT = FIRST + 11
INPUTS = [(KEYS_AT, "serial", 0x41), (KEYS_AT, "key", 0x48)]


@dataclass(frozen=True)
class Mistake:
    """A mistake in the C machine: the file, a text in it and another in its place, and the count at which it shows."""

    name: str
    file: str
    old: str
    new: str
    count: int


MISTAKES = (
    Mistake("an operation", "machine.h", "x = b & ~c;", "x = b & c;", FIRST + 2),
    Mistake("a flag", "machine.h", "m->c = sum >> 32;", "m->c = 0;", FIRST + 3),
    Mistake("the flags as a word", "machine.h", "(uint32_t)m->c << 29", "(uint32_t)m->v << 29", FIRST + 4),
    Mistake(
        "the high word of a product", "machine.h", "(uint64_t)((int64_t)(int32_t)b * (int32_t)c)", "(uint64_t)b * c", FIRST + 5
    ),
    Mistake("a division of a negative number", "machine.h", "if (rest < 0) { rest += c; quotient--; }", "", FIRST + 7),
    Mistake("the lane of a byte stored", "machine.h", "(m->r[a] & 255) << shift;", "(m->r[a] & 255) << (24 - shift);", FIRST + 8),
    Mistake("the lane of a byte loaded", "machine.h", "byte ? *word >> shift & 255", "byte ? *word & 255", FIRST + 10),
    Mistake("a device", "machine.h", "(m->waiting != 0) << 28", "(m->waiting > 1) << 28", FIRST + 11),
    Mistake("a key that stays", "machine.h", "m->waiting--;", "", FIRST + 12),
    Mistake("a link that leaves the flags", "machine.h", "put(m, 15, 4 * next);", "m->r[15] = 4 * next;", FIRST + 15),
    Mistake("an input late by one", "recording.h", "(Event){number(at, 8),", "(Event){number(at, 8) + 1,", KEYS_AT),
    Mistake("a millisecond late by one", "machine.h", "++m->phase == m->rate", "++m->phase > m->rate", 6),
)
SOURCES = ("reference/machine.h", "reference/recording.h", "reference/replay.h", "examples/c/state.c")


def compile_state(folder: Path, mistake: Mistake | None) -> None:
    """The command in a folder of its own, with a mistake."""
    folder.mkdir()
    for source in SOURCES:
        shutil.copy(TOP / source, folder)
    if mistake:
        text = (folder / mistake.file).read_text()
        assert text.count(mistake.old) >= 1, mistake
        (folder / mistake.file).write_text(text.replace(mistake.old, mistake.new))
    subprocess.run(["cc", "-O1", "-w", f"-I{folder}", folder / "state.c", "-o", folder / "state"], check=True)


class BisectTest(ToolTest):
    built: Path

    @classmethod
    def setUpClass(cls) -> None:
        cls.built = Path(cls.enterClassContext(tempfile.TemporaryDirectory()))
        with ThreadPoolExecutor(4) as pool:
            list(pool.map(compile_state, (cls.built / f"{at}" for at in range(-1, len(MISTAKES))), (None, *MISTAKES)))
        session_of = session((*LOOP, *STRAIGHT), [FIRST + 100], INPUTS)
        session_of |= {"version": 2, "start": {**session_of["start"], "rate": 7, "phase": 0}}
        (cls.built / "it.json").write_text(json.dumps(session_of))
        (cls.built / "it.orsr").write_bytes(record(session_of))

    def bisect(self, built: int, *words: object, file: str = "it.json") -> Ran:
        """Returns what the tool says of the command with a mistake, or of the one without."""
        folder = self.built / f"{built}"
        command = [folder / "state", self.built / "it.orsr", "{count}", self.folder / f"{built}.bin"]
        return tool("bisect", self.built / file, *words, "--", *command)

    def test_the_same_emulator_is_the_same(self) -> None:
        for file in ("it.json", "it.orsr"):
            ran = self.bisect(-1, file=file)
            self.assertEqual((ran.errors, ran.status), ("", 0))
            self.assertTrue(ran.output.startswith(f"the same at {FIRST + 100}, and at each of the 15 counts".encode()))

    def test_each_mistake_is_found_to_the_instruction(self) -> None:
        with ThreadPoolExecutor(4) as pool:
            found = list(pool.map(self.bisect, range(len(MISTAKES))))
        for mistake, ran in zip(MISTAKES, found, strict=True):
            self.assertEqual((ran.errors, ran.status), ("", 1), mistake.name)
            lines = ran.output.decode().splitlines()
            self.assertTrue(lines[0].startswith(f"differs after instruction {mistake.count}: "), (mistake.name, lines))
            self.assertEqual(int(lines[-1].split()[0]), mistake.count)
            self.assertLess(int(lines[0].split()[-2]), 40)

    def test_shows_progress_on_a_terminal(self) -> None:
        command = [self.built / "-1/state", self.built / "it.orsr", "{count}", self.folder / "memory.bin"]
        told = on_terminal("bisect", self.built / "it.json", "--to", 8, "--", *command)
        self.assertIn(b"run 9: the same at 7, looking at 8\r\x1b[K\r", told)

    def test_what_differs_is_told(self) -> None:
        lines = self.bisect(5, "--steps", 1).output.decode().splitlines()
        self.assertEqual(lines[2:5], ["             the other  the machine", "Mem[000800]  0000000F   0F000000", ""])
        self.assertEqual(lines[5:], [f"{FIRST + 8:>10}      11  B2000803  STB R2, R0, 2051        Mem[000800] 00000000 → 0F000000"])

    def test_it_begins_where_the_two_are_said_to_be_the_same(self) -> None:
        lines = self.bisect(5, "--from", FIRST).output.decode().splitlines()
        found = f"the same at {FIRST + 8}, not at {FIRST + 9}, found by 10 runs"
        self.assertEqual(lines[0], f"differs after instruction {FIRST + 8}: {found}")
        told = f"the emulator and the machine differ at count {FIRST + 9}, in memory: give a smaller --from"
        self.assert_refused(self.bisect(5, "--from", FIRST + 9), told)
        same = self.bisect(-1, "--from", FIRST).output.decode().splitlines()
        self.assertEqual(same, [f"the same at {FIRST + 100}, and at each of the 101 counts that were looked at"])

    def test_a_digest_serves_as_well_as_a_file(self) -> None:
        memory = self.folder / "memory.bin"
        shown = f"shown=$({self.built}/5/state {self.built}/it.orsr $1 {memory})\ndigest=$(sha256sum < {memory} | head -c 64)\n"
        told = 'echo "${shown%, \\"memory\\"*}, \\"memory_sha256\\": \\"$digest\\"}"'
        script = self.executable("digest", shown + told)
        ran = tool("bisect", self.built / "it.json", "--", script, "{count}")
        self.assertEqual((ran.errors, ran.status), ("", 1))
        self.assertIn(f"differs after instruction {FIRST + 8}: ", ran.output.decode())
        self.assertIn("memory  SHA-256 ", ran.output.decode())

    def wrong_at(self, count: int) -> Path:
        """Returns a command that shows a wrong R5 at one count alone, of a program that sets it to 1."""
        registers = f"r=1; [ $1 -eq 0 ] && r=0; [ $1 -eq {count} ] && r=9"
        return self.executable("other", registers + '\necho "{\\"R\\": [0,0,0,0,0,$r,0,0,0,0,0,0,0,0,0,0]}"')

    def test_each_count_of_a_short_run_is_looked_at(self) -> None:
        """A difference that is gone again an instruction later is found in a short run, and in a longer one with
        --every or after an input."""
        program = [0x45000001, 0x45000001, JUMP]
        short, long = (self.file(f"{last}.json", json.dumps(session(program, [last]))) for last in (8, 1001))
        ran = tool("bisect", short, "--", self.wrong_at(3), "{count}")
        self.assertTrue(ran.output.startswith(b"differs after instruction 2: the same at 2, not at 3, found by 4 runs"), ran)
        self.assertEqual(tool("bisect", long, "--", self.wrong_at(3), "{count}").status, 0)
        ran = tool("bisect", long, "--every", 3, "--", self.wrong_at(3), "{count}")
        self.assertTrue(ran.output.startswith(b"differs after instruction 2: the same at 2, not at 3"), ran)

    def test_the_count_after_each_input_is_looked_at(self) -> None:
        program, inputs = [0x45000001, 0x45000001, JUMP], [(at, "mouse", at) for at in (7, 600, 600, 700)]
        long = self.file("long.json", json.dumps(session(program, [5000], inputs)))
        ran = tool("bisect", long, "--", self.wrong_at(601), "{count}")
        self.assertTrue(ran.output.startswith(b"differs after instruction 600: the same at 600, not at 601"), ran)
        ran = tool("bisect", long, "--", self.wrong_at(602), "{count}")
        self.assertTrue(
            ran.output.startswith(b"the same at 5000, and at each of the 17 counts that were looked at; what differs "), ran
        )

    def test_of_many_inputs_some_are_looked_at(self) -> None:
        inputs = [(at, "mouse", at & 1) for at in range(1, 3002)]
        many = self.file("many.json", json.dumps(session([0x45000001, JUMP], [5000], inputs)))
        ran = tool("bisect", many, "--", self.wrong_at(0), "{count}")
        self.assert_refused(ran, "the emulator and the machine differ at count 0, in R5")
        ran = tool("bisect", many, "--", self.wrong_at(5001), "{count}")
        self.assertIn(b"; 751 of 3,001 counts after inputs are among them; what differs ", ran.output)
        self.assertEqual(ran.status, 0)

    def test_the_examples_have_the_same_states(self) -> None:
        recorded = self.file("keys.orsr", record((EXAMPLES / "keys.json").read_bytes()))
        command = [self.built / "-1/state", recorded, "{count}", self.folder / "memory.bin"]
        ran = tool("bisect", EXAMPLES / "keys.json", "--every", 10, "--", *command)
        self.assertTrue(
            ran.output.startswith(b"the same at 100, and at each of the 11 counts that were looked at; what differs "), ran
        )
