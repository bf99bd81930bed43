"""galluspa assemble: the language, its mistakes, and what it refuses."""

import json
import struct

from galluspa.assembler.assembly import assembled
from galluspa.assembler.mnemonics import word_of
from galluspa.assembler.settings import set_checkpoints, settings_of
from galluspa.assembler.tokens import Wrong
from galluspa.formats import recording
from tests.tools.samples import EXAMPLES, TOP, Ran, ToolTest, record, tool

HELLO = """; Sends a text.
        MOV R1, SERIAL
        MOV R2, text
next:   LDB R0, R2, 0
        BEQ done        ; a byte of 0 ends it
        STR R0, R1, 0
        ADD R2, R2, 1
        B next
done:   B done
text:   byte "Hello, world\\n"
        checkpoints 30, 100
"""
# Signs that no editor shows as they are.
MISTAKES = (
    ["\u00a0word 1", r"1:1: '\xa0' begins no name, number, string or sign"],
    ["byte \u201ca\u201d", "1:6: '\u201c' begins no name, number, string or sign"],
)


def words_in(source: str) -> list[int]:
    """Returns the words of a source without mistakes."""
    it = assembled(source)
    assert not it.problems, it.problems
    return list(struct.unpack(f"<{len(it.memory) // 4}I", it.memory))


class AssembleTest(ToolTest):
    def assemble(self, source: str, *words: object) -> Ran:
        """Returns what the tool answers to a source."""
        return tool("assemble", self.file("it.asm", source), *words)

    def assert_wrong(self, source: str, *told: str) -> None:
        """A source has exactly these mistakes, each told with its line and its column."""
        ran = self.assemble(source)
        path, number = self.folder / "it.asm", f"{len(told)} {'mistake' if len(told) == 1 else 'mistakes'}"
        lines = [f"{path}:{one}" for one in told] + [f"galluspa assemble: {path}: {number}: wrote nothing"]
        self.assertEqual((ran.errors.splitlines(), ran.output, ran.status), (lines, b"", 2))

    def test_makes_the_session_of_an_example(self) -> None:
        made, hello = self.assemble(HELLO), (EXAMPLES / "hello.json").read_bytes()
        self.assertEqual((made.output, made.errors, made.status), (hello, "", 0))
        path = self.folder / "it.json"
        self.assertEqual(self.assemble(HELLO, "-o", path).output, b"")
        self.assertEqual(path.read_bytes(), hello)

    def test_makes_images_and_lists_words(self) -> None:
        image = self.folder / "it.bin"
        self.assemble(HELLO, "--image", image)
        self.assertEqual(json.loads((EXAMPLES / "hello.json").read_bytes())["pages"][0]["hex"], image.read_bytes().hex())
        lines = self.assemble(HELLO, "--words").output.decode().splitlines()
        last = [
            "     7  E7FFFFFF      9  done: B done",
            '     8  6C6C6548     10  text: byte "Hello, world\\n"',
            "     9  77202C6F",
        ]
        self.assertEqual((lines[0], lines[7:10]), ("     0  5100FFC8      2  MOV R1, SERIAL", last))

    def test_labels_constants_and_expressions(self) -> None:
        for source, words in (
            ("a: B a\nB a\nBL a + 8\nBNE b\nb:", [0xE7FFFFFF, 0xE7FFFFFE, 0xF7FFFFFF, 0xE9000000]),
            ("B 2\nB -1\nB R3\nBLEQ R15", [0xE7000002, 0xE7FFFFFF, 0xC7000003, 0xD100000F]),
            ("b $\nword $, $ + 4", [0xE7FFFFFF, 4, 8]),
            ("word x\nx = y * 2 + 1\ny = 3\nword end - here\nhere: word here\nend:", [7, 4, 8]),
            ("word 31, 0x1F, 1fh, 'A', '\\n', '\\x41', -1, 4294967295", [31, 31, 31, 65, 10, 65, 0xFFFFFFFF, 0xFFFFFFFF]),
            ("word 7 / 2, -7 / 2, -7 % 2, 2 + 3 * 4, (2 + 3) * 4, -(1 - 3), +1", [3, 0xFFFFFFFC, 1, 14, 20, 2, 1]),
            ("mov' r13, DISPLAY / 10000H\nior R13, R13, display % 10000H", [0x6D00000E, 0x4DD67F00]),
            ("STR R0, R1, LEDS - SERIAL\nMOV R1, KEY\nMOV R2, Timer", [0xA01FFFFC, 0x5100FFDC, 0x5200FFC0]),
            ('byte "ab", 0, -1\nstring "c;"\nx: word x', [0xFF006261, 0x00003B63, 8]),
            ("offsets 22\na: B a\nB 1\noffsets 24\nB a", [0xE73FFFFF, 0xE7000001, 0xE7FFFFFD]),
            ("origin 8\nword 1\norigin 0\nword 2\norigin $ + 12\nx: y: word x", [2, 0, 1, 0, 16]),
        ):
            self.assertEqual(words_in(source), words, source)

    def test_says_what_a_session_needs(self) -> None:
        made = json.loads(
            self.assemble(
                "set R2 = -1\nset R3 = x + 1\nset h = 5\nset flags = NV\nrate 1000\nphase 999\nstart x\norigin 400H\nword 0\n"
                'x: B x\ninput 5, key, "Hi"\ninput 5 + 1, mouse, 1 \ninput 7, TIMER, 0\ncheckpoints 9, 3\nevery 100, 250'
            ).output
        )
        registers = [0, 0, 0xFFFFFFFF, 0x405, *[0] * 12]
        self.assertEqual(made["start"], {"R": registers, "H": 5, "PC": 0x101, "flags": 9, "rate": 1000, "phase": 999})
        self.assertEqual(made["inputs"], [[5, "key", 72], [5, "key", 105], [6, "mouse", 1], [7, "timer", 0]])
        self.assertEqual(made["checkpoints"], [3, 9, 100, 200])
        self.assertEqual(made["pages"], [{"at": 1, "hex": "00000000ffffffe7"}])

    def test_the_program_begins_at_the_first_instruction(self) -> None:
        made = json.loads(self.assemble('string "abcd"\nMOV R0, 1\nB -1').output)
        self.assertEqual((made["start"]["PC"], made["checkpoints"]), (2, []))
        record(json.dumps(made).encode())

    def test_runs_until_it_stops_or_loops(self) -> None:
        count_down = "MOV R0, 20\nMUL R0, R0, R0\nw: SUB R0, R0, 1\nBNE w\n"
        wait = "rate 10\nMOV R1, TIMER\nLDR R2, R1, 0\nw: LDR R0, R1, 0\nSUB R0, R0, R2\nSUB R0, R0, 5\nBMI w\n"
        keys = "MOV R1, KEY\nw: LDR R0, R1, 0\nBEQ w\nd: B d\ninput 1000, key, 5\n"
        for source, counts in (
            (f"{count_down}DIV R0, R0, 0\nuntil stops", [803]),
            (f"{count_down}d: B d\nuntil loops", [802]),
            (f"{count_down}d: B d\nuntil loops\nevery 300\ncheckpoints 5", [5, 300, 600, 802]),
            (f"{wait}d: B d\nuntil loops", [54]),
            (f"{keys}until loops", [1003]),
            ("B -1\nuntil loops", [1]),
            ("FAD R0, R0, R0\nuntil stops, 1", [1]),
        ):
            self.assertEqual(json.loads(self.assemble(source).output)["checkpoints"], counts, source)
        ran = self.assemble("ADD R0, R0, 1\nB -2\nuntil loops", "--limit", 1)
        self.assertEqual((ran.errors, ran.output, ran.status), ("galluspa assemble: no answer in 1 s\n", b"", 3))

    def test_notes_what_is_lawful_and_may_surprise(self) -> None:
        last, key = "the last checkpoint is at 5, and ends the run", "input 5, key, 1\n"
        none = "note: no checkpoint, so a recording runs no instruction: add every, until or checkpoints"
        never = f"a: B a\n input 4, key, 1\n{key} {key} input 6, key, 'a'\ncheckpoints 1, 5"
        rows: list[tuple[str, list[str]]] = [
            ("a: B a", [f"1:1: {none}"]),
            ("a: B a\ninput 5, key, 1", [f"1:1: {none}"]),
            (f"a: B a\n{key}checkpoints 5", [f"2:1: note: this input never comes: {last}"]),
            (never, [f"3:1: note: this input and 2 after it never come: {last}"]),
            (f"a: B a\n{key}checkpoints 6", []),
            ("a: B a\nuntil loops", []),
        ]
        for source, told in rows:
            ran = self.assemble(source)
            self.assertEqual(ran.errors.splitlines(), [f"{self.folder / 'it.asm'}:{one}" for one in told], source)
            self.assertEqual(ran.status, 0)
            record(ran.output)
            self.assertEqual(self.assemble(source, "--words").errors, "")
        read = recording.read(record(self.assemble(f"a: B a\n{key}checkpoints 5").output))
        self.assertEqual(read.checkpoints[-1].keys, b"", "an input at the last count has not come")

    def test_the_session_tool_finds_the_same_ends(self) -> None:
        image = self.folder / "it.bin"
        self.assemble(HELLO, "--image", image)
        for words, counts in (
            ("--until-loops", [69]),
            ("--until-loops --every 30", [30, 60, 69]),
            ("--until-loops --every 69", [69]),
            ("--until-loops --most 69", [69]),
        ):
            ran = tool("session", "--memory", image, *words.split())
            self.assertEqual(json.loads(ran.output)["checkpoints"], counts)
        stops = self.file("stops.bin", struct.pack("<2I", 0x40000005, 0x000C0000))
        self.assertEqual(json.loads(tool("session", "--memory", stops, "--until-stops").output)["checkpoints"], [2])

    def test_each_mistake_is_told_at_its_place(self) -> None:
        """Those of tables/assembler.txt: an arrow leads from a source to what is said of it, and a sign for Enter stands for a line feed."""
        lines = (TOP / "tests/tools/tables/assembler.txt").read_text().splitlines()
        listed = [line.replace("⏎", "\n").split(" => ") for line in lines]
        for source, told in [*listed, *MISTAKES]:
            it = assembled(source)
            made = settings_of(it)
            set_checkpoints(it, made, None)
            found = [f"{one.line}:{one.column}: {one.text}" for one in sorted(set(it.problems))]
            if found:
                self.assertEqual(found, told.splitlines(), source)
            else:
                # The machine has to run for it.
                self.assert_wrong(source, *told.splitlines())

    def test_all_mistakes_are_told_in_one_run(self) -> None:
        self.assert_wrong(
            "a: LDR R1, R2, 524288\na: B b\nword 1 2\n@\n",
            "1:16: the offset 524,288 is not from -524,288 to 524,287",
            "2:1: a is defined in line 1 already",
            "2:6: b is not defined",
            "3:8: a comma is missing before 2",
            "4:1: '@' begins no name, number, string or sign",
        )
        deep = "signs, parentheses and constants are nested deeper than 50"
        self.assert_wrong("\n".join(f"a{at} = a{at + 1}" for at in range(60)) + "\na60 = 1", f"50:7: {deep}")
        self.assert_wrong("word a0\n" + "\n".join(f"a{at} = -((a{at + 1}))" for at in range(14)) + "\na14 = 1", f"14:8: {deep}")

    def test_the_last_word_of_memory(self) -> None:
        self.assertEqual(words_in("origin 0FFFFCH\nword 9")[-1], 9)

    def test_control_characters_are_escaped(self) -> None:
        ran = self.assemble("\x1b[31m\x07")
        self.assertEqual(len(ran.errors.splitlines()), 2)
        self.assertNotIn("\x1b", ran.errors)

    def test_a_word_that_is_no_instruction_is_no_notation(self) -> None:
        with self.assertRaises(Wrong):
            word_of("MOV R0, x")
