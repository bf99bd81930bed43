"""Symbol files of another build: by their sums, and by where calls lead; and sources that were edited since."""

import shutil
from pathlib import Path

from galluspa.formats.builds import CODE_SUM, SOURCE_SUM
from tests.tools.samples import EXAMPLES, Ran, ToolTest, galluspa, record, tool

ELSEWHERE = "of 4 procedures begin elsewhere"


class BuildsTest(ToolTest):
    def setUp(self) -> None:
        super().setUp()
        self.source = self.folder / "frames"
        shutil.copytree(EXAMPLES / "frames", self.source)
        self.symbols, self.recording = self.folder / "it.sym", self.built("it.orsr", "--symbols", self.folder / "it.sym")

    def built(self, name: str, *words: object) -> Path:
        ran = tool("assemble", self.source / "main.asm", *words)
        self.assertEqual(ran.status, 0, ran.errors)
        return self.file(name, record(ran.output))

    def edit(self, file: str, old: str, new: str) -> None:
        path = self.source / file
        text = path.read_text()
        self.assertIn(old, text)
        path.write_text(text.replace(old, new, 1))

    def told(self, ran: Ran) -> list[str]:
        """Returns what a tool says on standard error besides how many names there are."""
        return [it for it in ran.errors.splitlines() if " names from " not in it]

    def test_a_file_has_sums_of_its_code_and_of_its_sources(self) -> None:
        content = self.symbols.read_bytes()
        self.assertEqual(len(CODE_SUM.findall(content)), 1)
        names = [it.decode() for _, it in SOURCE_SUM.findall(content)]
        self.assertEqual(names, sorted(map(str, self.source.glob("*.asm")), key=names.index))
        self.assertEqual(self.told(tool("state", self.recording)), [])

    def test_each_tool_says_once_that_the_names_are_of_another_build(self) -> None:
        self.edit("display.asm", "Display.Dot:", "Display.Dot:\n        MOV R9, R9")
        other = self.built("other.orsr")
        shutil.copy(self.symbols, self.folder / "other.sym")
        # The edited source is not what this is about.
        for path in self.source.glob("*.asm"):
            path.unlink()
        false = self.file("false.orsr", tool("claim", other, "--at", 1, "--set", "R0=77").output)
        shutil.copy(self.symbols, self.folder / "false.sym")
        for words in (
            ("state", other),
            ("find", other, "stop"),
            ("trace", other, "--from", 0, "--to", 2),
            ("debug", other, "--batch", "-ex", "bt"),
            ("profile", other),
            ("executed", other),
            ("report", other),
            ("diff", other, self.recording),
            ("explain", false),
        ):
            told = [it for it in self.told(galluspa(*words)) if "does not fit" in it]
            name = "false.sym" if words[0] == "explain" else "other.sym"
            self.assertEqual(told, [f"galluspa {words[0]}: {name} does not fit this memory: 3 {ELSEWHERE}"])

    def test_a_file_without_sums_is_compared_if_it_has_lines(self) -> None:
        self.edit("display.asm", "Display.Dot:", "Display.Dot:\n        MOV R9, R9")
        other = self.built("other.orsr")
        bare = b"".join(it for it in self.symbols.read_bytes().splitlines(keepends=True) if not it.startswith(b"#"))
        path = self.file("bare.sym", bare)
        self.assertEqual(self.told(tool("state", self.recording, "--symbols", path)), [])
        self.assertIn(f": 3 {ELSEWHERE}", "".join(self.told(tool("state", other, "--symbols", path))))
        # A list of modules has no lines, and may leave procedures out.
        names = b"".join(it.partition(b"\t")[0] + b"\n" for it in bare.splitlines() if b" t " in it)
        self.assertEqual(self.told(tool("state", other, "--symbols", self.file("names.sym", names))), [])

    def test_code_that_is_another_one_is_said(self) -> None:
        self.edit("main.asm", "MOV R2, 40", "MOV R2, 41")
        other = self.built("other.orsr")
        ran = tool("state", other, "--symbols", self.symbols)
        self.assertIn("it.sym does not fit this memory: its code is another one", ran.errors)

    def test_a_source_that_was_edited_since_is_said(self) -> None:
        self.edit("shapes.asm", "Shapes.Row:", "; A row.\nShapes.Row:")
        told = self.told(tool("state", self.recording))
        self.assertEqual(told, [f"galluspa state: {self.symbols}: {self.source}/shapes.asm edited since: lines may be others"])
        (self.source / "shapes.asm").unlink()
        self.assertEqual(self.told(tool("state", self.recording)), [])
