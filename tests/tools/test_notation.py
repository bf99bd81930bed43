"""The notation of instructions, written and read; the sources of the examples; the page of the language."""

import io
import os
import random
import re
import struct
from collections.abc import Iterator

from PIL import Image

from galluspa.assembler.assembly import assembled
from galluspa.assembler.mnemonics import BRANCHES, MNEMONICS, source_of, word_of
from galluspa.formats import recording
from galluspa.formats.instructions import instruction
from galluspa.formats.language import LANGUAGE
from tests.tools.samples import EXAMPLES, GALLUSPA, PROGRAM, TOP, ToolTest, group, record, run, tool
from tests.tools.test_assemble import words_in

HEADS = [top << 16 for top in range(0, 1 << 16, 17)]


def words_of_suite() -> Iterator[int]:
    """Yields the words of all pages of the suite's recordings."""
    for path in sorted((EXAMPLES / "suite").rglob("*.orsr")):
        pool = bytes(recording.read(path.read_bytes()).pool)
        yield from struct.unpack(f"<{len(pool) // 4}I", pool)


class NotationTest(ToolTest):
    def assert_comes_back(self, words: list[int]) -> None:
        """What is printed as the source of words assembles to the same words."""
        self.assertEqual(words_in("\n".join(map(source_of, words))), words)

    def test_each_form_comes_back(self) -> None:
        rng = random.Random(7)
        self.assert_comes_back([head | low for head in HEADS for low in (rng.getrandbits(16), rng.getrandbits(4))])

    def test_words_of_the_suite_come_back(self) -> None:
        words = sorted(set(words_of_suite()))
        self.assertGreater(len(words), 800)
        self.assert_comes_back(words)

    def test_random_words_come_back(self) -> None:
        rng = random.Random(8)
        self.assert_comes_back([rng.getrandbits(32) for _ in range(20_000)])

    def test_a_notation_is_of_one_word(self) -> None:
        for word in (*HEADS, 0x7D00800E, 0x0000FFF0, 0xE73FFFFF, 0xE7C00001, 0xC7000010):
            mnemonic = instruction(word, 0).mnemonic
            self.assertEqual(instruction(word_of(mnemonic), 0).mnemonic, mnemonic)
            self.assertEqual(source_of(word), mnemonic if word_of(mnemonic) == word else f"word 0x{word:08X}  ; {mnemonic}")
        self.assertEqual([word_of(text) for text in ("B -1", "BL 5", "BNE -2")], [0xE7FFFFFF, 0xF7000005, 0xE9FFFFFE])


class ExamplesTest(ToolTest):
    def test_their_sessions_are_those_of_their_sources(self) -> None:
        sources = sorted(EXAMPLES.glob("*.asm"))
        self.assertEqual([it.with_suffix(".json") for it in sources], sorted(EXAMPLES.glob("*.json")))
        for source in sources:
            made = tool("assemble", source)
            self.assertEqual(made.output, source.with_suffix(".json").read_bytes(), source.name)
            # The one without checkpoints is for the live page.
            told = r".*: note: no checkpoint, .*\n" if source.name == "draw.asm" else ""
            self.assertRegex(made.errors, rf"^{told}$")


class PageTest(ToolTest):
    def test_the_page_is_the_one_that_is_printed(self) -> None:
        page = (TOP / "docs/assembler.md").read_text()
        self.assertEqual(tool("assemble", "--reference").output.decode(), page)
        for name in {one.rstrip("'") for one in MNEMONICS} | set(BRANCHES):
            self.assertRegex(page, rf"\| `{name}'? ")
        self.assertLessEqual(max(len(line) for line in page.splitlines() if not line.startswith("|")), 132)

    def test_the_help_has_the_words_and_the_names_of_the_language(self) -> None:
        told = LANGUAGE["help"]
        for example, word in told["examples"]:
            self.assertEqual(f"{word_of(example):08X}", word, example)
        self.assertEqual(set(told["devices"]), set(LANGUAGE["addresses"]))
        named = {form.split()[0] for forms, _ in told["directives"] for form in forms.split("; ")}
        self.assertEqual(named, {*LANGUAGE["directives"], *LANGUAGE["settings"]})
        registers = [name for names, _ in told["registers"] for name in names.split()]
        wanted = [*(f"R{number}" for number in range(16)), *LANGUAGE["registers"], *LANGUAGE["specials"]]
        self.assertEqual(sorted(registers), sorted(wanted))
        self.assertEqual([group for group, _ in told["rules"]], ["operations", "memory", "branches"])

    def program(self, number: int) -> str:
        """Returns the source of a program that the page has."""
        return (TOP / "docs/assembler.md").read_text().split("```text\n")[number].split("```")[0]

    def made(self, source: str) -> bytes:
        """Returns the recording of a source, which has no mistake."""
        ran = tool("assemble", self.file("it.asm", source))
        self.assertEqual((ran.errors, ran.status), ("", 0))
        return record(ran.output)

    def test_its_program_is_recorded(self) -> None:
        made = self.made(self.program(1))
        self.assertTrue(made.endswith(b"Hello, world\n"))
        self.assertEqual(run([GALLUSPA, "session", "--of", self.file("it.orsr", made)]).status, 0)

    def test_its_commands_lead_to_the_verdict(self) -> None:
        self.file("hello.asm", self.program(1))
        script = (TOP / "docs/assembler.md").read_text().split("```sh\n")[1].split("```")[0]
        path = f"{TOP}:{os.environ['PATH']}"
        ran = run(["bash", "-ec", script], cwd=self.folder, env={**os.environ, "PATH": path, "PYTHONDONTWRITEBYTECODE": "1"})
        self.assertEqual((ran.errors, ran.status), ("", 0))
        said = group(r"the verdict line: ([^\n]*)", script)
        self.assertEqual(ran.output.decode().splitlines()[:2], [said, "Hello, world"])
        drawn = Image.open(self.folder / "hello.png").convert("1")
        screen = run([PROGRAM, "screen", "--at", 3], (self.folder / "hello.orsr").read_bytes()).output
        self.assertEqual(drawn.tobytes(), Image.open(io.BytesIO(screen)).tobytes())

    def test_its_program_takes_a_key_and_sets_a_dot(self) -> None:
        source = self.program(2)
        for at in (0, 2, 100):
            made = self.made(source.replace("input 100", f"input {at}"))
            self.assertTrue(made.endswith(b"k"), f"a key at {at} is sent")
            screen = Image.open(io.BytesIO(run([PROGRAM, "screen", "--at", 1], made).output)).convert("1")
            dots = [at for at, dot in enumerate(screen.getdata()) if not dot]
            self.assertEqual(dots, [1024 * (767 - 100) + 330])
        waits = recording.read(self.made(re.sub(r"^ *input .*\n", "", source, flags=re.MULTILINE)))
        said = group(r"the last checkpoint of the session, (\d+), is", (TOP / "docs/assembler.md").read_text())
        self.assertEqual(waits.checkpoints[-1].count, int(said))

    def test_a_borrow_is_c_as_it_says(self) -> None:
        for mnemonic, one, other, is_taken in (
            ("BCS", 3, 5, True),
            ("BCC", 3, 5, False),
            ("BCS", 5, 3, False),
            ("BCC", 5, 3, True),
            ("BCC", 4, 4, True),
            ("BCS", 4, -1, True),
            ("BCS", -1, 4, False),
        ):
            made = self.made(
                f"MOV R1, {one}\nMOV R3, {other}\nSUB R2, R1, R3\n{mnemonic} yes\nno: B no\n" "yes: MOV R0, 1\nB no\nuntil loops"
            )
            taken = recording.read(made).checkpoints[-1].registers[0]
            self.assertEqual(taken, int(is_taken), f"{mnemonic} after {one} - {other}")

        for flags, left in (("C", 6), ("NZV", 7)):
            made = self.made(f"set flags = {flags}\nset R1 = 9\nSUB' R0, R1, 2\ncheckpoints 1")
            self.assertEqual(recording.read(made).checkpoints[-1].registers[0], left, "SUB' subtracts C itself")

    def test_what_is_advised_for_32_bits_is_the_number(self) -> None:
        for number in (70000, -70000, 1 << 31, -(1 << 31), (1 << 32) - 1):
            it = assembled(f"MOV R4, {number}")
            upper = group(r"write (MOV' R4, \d+) and then", it.problems[0].text)
            lower = group(r"and then (IOR R4, R4, \d+)", it.problems[0].text)
            made = self.made(f"{upper}\n{lower}\ncheckpoints 2")
            self.assertEqual(recording.read(made).checkpoints[-1].registers[4], number & 0xFFFFFFFF)
