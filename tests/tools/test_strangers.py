"""What strangers choose: names of files and what is in them, which no tool shows raw; outputs that fail."""

import json
import os
from xml.etree import ElementTree

from tests.tools.samples import GALLUSPA, PROGRAM, STORED, Ran, ToolTest, galluspa, run, tool

# A name that is not UTF-8, has a line feed that begins a line of TAP, a directive, and a sequence that clears a terminal.
HOSTILE = os.fsdecode(b"\xff\nok 2 - b # SKIP \x1b[2J\\.orsr")
SHOWN = r"\xff\nok 2 - b # SKIP \x1b[2J\.orsr"
IN_TAP = r"\\xff\\nok 2 - b \# SKIP \\x1b[2J\\.orsr"


class OutputTest(ToolTest):
    def test_no_output_overwrites_an_input_or_another_output(self) -> None:
        source = self.file("it.asm", 'include "other.asm"\n')
        included = self.file("other.asm", "loop:   B loop\n        checkpoints 1\n")
        stored, link, new = self.file("stored.orsr", STORED), self.folder / "link", self.folder / "new"
        link.symlink_to(source)
        before = {path: path.read_bytes() for path in (source, included, stored)}
        for option, output in (("-o", source), ("-o", link), ("--image", included), ("--symbols", self.folder / "." / "other.asm")):
            words = (option, output, *["--words"] * (option == "--symbols"))
            self.assert_refused(tool("assemble", source, *words), "the output would overwrite this input: name another file")
        for twice in (["assemble", source, "-o", new, "--symbols", new], ["suite", self.folder, "--junit", new, "--keep", new]):
            self.assert_refused(galluspa(*twice), "new: two outputs have this name: name two files")
        self.assertFalse(new.exists())
        self.assertEqual({path: path.read_bytes() for path in before}, before)
        # What a device drops is not lost twice, and a recording means the same once it is migrated.
        self.assertEqual(tool("assemble", source, "-o", "/dev/null", "--symbols", "/dev/null").status, 0)
        self.assertEqual(tool("migrate", stored, "-o", stored).status, 0)
        self.assertEqual(stored.read_bytes(), run([PROGRAM, "migrate"], STORED).output)

    def test_a_file_that_cannot_be_written_costs_the_others_nothing(self) -> None:
        self.file("a.orsr", STORED)
        kept = self.folder / "kept.json"
        ran = tool("suite", self.folder, "--junit", "/dev/full", "--keep", kept)
        self.assertEqual((ran.status, ran.errors), (3, "galluspa suite: /dev/full: No space left on device\n"))
        self.assertEqual(list(json.loads(kept.read_bytes())["recordings"]), ["a.orsr"])

    def test_a_page_that_cannot_be_written_leaves_no_folder(self) -> None:
        path, temporary = self.file("it.orsr", STORED), self.folder / "temporary"
        temporary.mkdir()
        ran = run(["prlimit", "--fsize=8", GALLUSPA, "live", path], env={**os.environ, "TMPDIR": str(temporary)})
        self.assertEqual((ran.status, ran.errors[-17:]), (3, ": File too large\n"), ran.errors)
        self.assertEqual(list(temporary.iterdir()), [])


class NamesTest(ToolTest):
    def test_a_name_may_be_as_long_as_names_are(self) -> None:
        """The name of a file that may be beside it, with another end, is too long then."""
        path = self.file(f"suite/{'a' * 250}.orsr", STORED)
        ran = tool("suite", path.parent)
        self.assertEqual((ran.status, ran.errors), (0, ""))
        self.assertIn(f"ok 1 - {path.name}: accepted 1 checkpoints 100 steps\n", ran.output.decode())
        ran = tool("rerun", path.parent)
        self.assertEqual((ran.status, ran.errors), (1, ""))
        self.assertIn("not approved yet", ran.output.decode())
        ran = tool("trace", self.file("b" * 253, STORED), "--steps", 1)
        self.assertEqual((ran.status, ran.errors), (0, ""))
        self.assert_refused(galluspa("c" * 5000), "c" * 5000)

    def test_no_line_of_tap_is_forged(self) -> None:
        self.file(HOSTILE, STORED[:-1])
        self.file(HOSTILE.replace(".orsr", ".expect"), "refused 1\n")
        junit, kept = self.folder / "it.xml", self.folder / "kept.json"
        ran = tool("suite", self.folder, "--junit", junit, "--keep", kept)
        lines = ran.output.decode().splitlines()
        self.assertEqual((ran.status, ran.errors, len(lines)), (0, "", 4))
        self.assertEqual(lines[2], f"ok 1 - {IN_TAP}: refused 1 short at byte 9503")
        self.assertTrue(lines[3].endswith(SHOWN))
        self.assertEqual(ElementTree.parse(junit).getroot()[0][0].get("name"), SHOWN)

    def test_runs_that_no_tool_kept_are_refused_or_escaped(self) -> None:
        self.file("a.orsr", STORED)

        def since(seconds: str, answered: str = "x", name: str = "a.orsr") -> Ran:
            kept = f'{{"sha256": "", "expected": "", "answered": "{answered}", "seconds": {seconds}}}'
            text = f'{{"format": "galluspa-suite-run", "version": 1, "recordings": {{"{name}": {kept}}}}}'
            return tool("suite", self.folder, "--changed-since", self.file("before.json", text))

        for seconds in ("1" * 401, "1e400", "NaN", "-1", "true", '"1"'):
            self.assert_refused(since(seconds), "before.json: not a run of a suite")
        for answered in (r"\ud800", r"\u001b[2J\nok 1 - a.orsr"):
            ran = since("1", answered, answered)
            self.assertEqual((ran.errors, ran.status), ("", 0))
            self.assertEqual((b"\x1b" in ran.output, len(ran.output.splitlines())), (False, 6), ran.output)


class SuiteTest(ToolTest):
    def test_what_cannot_be_read_costs_its_own_line_alone(self) -> None:
        for name in "abefgh":
            self.file(f"suite/{name}.orsr", STORED)
        self.file("secret", "root's own line\n")
        self.file("suite/f.expect", "# nothing\n")
        self.file("suite/accepted", "accepted 1\n")
        for name, to in (("b.expect", "../secret"), ("c.orsr", "none"), ("h.expect", "h.expect"), ("g.expect", "accepted")):
            (self.folder / "suite" / name).symlink_to(to)
        for name in ("d.orsr", "e.expect"):
            os.mkfifo(self.folder / "suite" / name)
        junit, kept = self.folder / "it.xml", self.folder / "kept.json"
        before = self.file("before.json", '{"format": "galluspa-suite-run", "version": 1, "recordings": {}}')
        written = ("--junit", junit, "--keep", kept)
        ran = tool("suite", self.folder / "suite", *written, "--changed-since", before)
        self.assertEqual((ran.status, ran.errors), (1, ""))
        told = ran.output.decode()
        self.assertEqual([line[:6] for line in told.splitlines() if " - " in line], ["ok 1 -", *["not ok"] * 5, "ok 7 -", "not ok"])
        for why in (
            "b.expect: a link that leads out of the suite",
            "c.orsr: No such file or directory",
            "d.orsr: not a file",
            "e.expect: not a file",
            "h.expect: not a file",
            "f.expect: no line says what to expect",
        ):
            self.assertIn(why, told)
        self.assertEqual(len(json.loads(kept.read_bytes())["recordings"]), 8)
        suite = ElementTree.parse(junit).getroot()[0]
        self.assertEqual((suite.get("tests"), suite.get("failures"), suite.get("errors")), ("8", "0", "6"))
        self.assertNotIn("root's own line", told + junit.read_text() + kept.read_text())
