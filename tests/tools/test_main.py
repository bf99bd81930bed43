"""The command galluspa: its subcommands and their help, files without one, and the program's commands over files."""

import json
import os
import pty
import subprocess
import sys
from pathlib import Path

from galluspa.commands import commands
from tests.tools import browser
from tests.tools.samples import EXAMPLES, GALLUSPA, PROGRAM, STORED, TOOLS, ToolTest, galluspa, rejoining, run, session, tool

FACE = EXAMPLES / "face.orsr"


class MainTest(ToolTest):
    def test_helps(self) -> None:
        ran = galluspa("--help")
        self.assertEqual((ran.errors, ran.status), ("", 0))
        shown = ran.output.decode()
        self.assertEqual(shown.splitlines()[-2:], ["example:", "  galluspa examples/face.orsr"])
        for it in commands():
            self.assertEqual(shown.count(f"\n  {it.name:15}{it.does}\n"), 1)
        for other in (galluspa("-h"), galluspa("help"), galluspa()):
            self.assertEqual(other, ran)
        self.assertEqual(galluspa("help", "find"), galluspa("find", "--help"))

    def test_each_subcommand_helps(self) -> None:
        """Its help ends with an example of itself."""
        for it in commands():
            first, *_, before, example = self.lines_of(it.name, "--help")
            self.assertTrue(first.startswith(f"usage: galluspa {it.name} [-h]"), first)
            self.assertEqual((before, example.startswith(f"  galluspa {it.name}")), ("example:", True))

    def test_a_subcommand_imports_no_other(self) -> None:
        script = (
            "import sys; from galluspa.commands import main\n"
            "try: main(['output', '--help'])\nexcept SystemExit: pass\n"
            "print([it for it in sys.modules if it.startswith('galluspa.commands.')], 'ctypes' in sys.modules)"
        )
        ran = run([sys.executable, "-B", "-c", script], env={**os.environ, "PYTHONPATH": str(TOOLS)})
        self.assertEqual(ran.output.decode().splitlines()[-1], "['galluspa.commands.output'] False")

    def test_a_link_to_it_works(self) -> None:
        link = self.folder / "link"
        link.symlink_to(GALLUSPA)
        self.assertEqual(run([link, FACE]), galluspa(FACE))

    def test_prints_the_lines_of_files(self) -> None:
        false, short = self.file("false.orsr", rejoining(9)), self.file("short.orsr", STORED[:-1])
        for path in (FACE, false, short):
            alone, ran = run([PROGRAM], path.read_bytes()), galluspa(path)
            self.assertEqual((ran.output, ran.status), (alone.output, alone.status))
            self.assertEqual(tool("check", "--workers", 1, path).output, alone.output)
        for ran in (galluspa(FACE, false, short), tool("check", FACE, "--cut", 2, false, "--workers", 2, short)):
            lines = f"{FACE}: accepted 4 checkpoints 20000000 steps\n{false}: false checkpoint 1 at 2 part R5\n"
            self.assertEqual((ran.output.decode(), ran.status), (f"{lines}{short}: refused 1 short at byte 9503\n", 2))

    def test_explains_what_is_refused(self) -> None:
        """Of each kind of file that is taken for another one."""
        for command, name, text, told in (
            ("check", "short.orsr", STORED[:-1], "the file ends in its pages, events and checkpoints, at byte 9503"),
            ("check", "it.json", (EXAMPLES / "keys.json").read_bytes(), "a session: galluspa record "),
            ("check", "it.asm", (EXAMPLES / "keys.asm").read_bytes(), "a source: galluspa assemble "),
            ("check", "it.html", b"<!doctype html><html>", "a page: galluspa recording-of "),
            ("check", "memory.bin", bytes(40), "if it is a memory image, galluspa session --memory "),
            ("record", "it.json", b'{"format": 1}', "the session lacks version\ngalluspa record: rule   the session has exactly "),
            ("record", "it.asm", (EXAMPLES / "keys.asm").read_bytes(), "a source: galluspa assemble "),
            ("record", "it.orsr", STORED, f"a recording already: galluspa {self.folder / 'it.orsr'} checks it"),
            ("record", "it.bin", bytes(40), "if it is a memory image, galluspa session --memory "),
            (
                "record",
                "it.json",
                json.dumps(session([0x5100FFC8, 0xA0100000, 0xE7FFFFFE], [1 << 30])).encode(),
                "rule   a recording has at most",
            ),
        ):
            ran = tool(command, self.file(name, text))
            self.assertEqual((ran.output, ran.status), (run([PROGRAM, command], text).output, 2))
            self.assertIn(f"galluspa {command}: {told}", ran.errors)
        ran = tool("check", "--workers", 99, FACE)
        told = "galluspa check: the program refuses the arguments check --workers 99 (see galluspa check --help)\n"
        self.assertEqual((ran.output, ran.status, ran.errors), (b"words refused\n", 4, told))

    def test_the_commands_are_those_of_the_program(self) -> None:
        keys, stored = EXAMPLES / "keys.json", self.file("stored.orsr", STORED)
        for words, path in (
            (["record"], keys),
            (["screen", "--at", "1"], stored),
            (["screen", "--at", "9"], stored),
            (["migrate"], stored),
        ):
            alone = run([PROGRAM, *words], path.read_bytes())
            for ran in (galluspa(*words, path), run([GALLUSPA, *words], path.read_bytes())):
                self.assertEqual((ran.output, ran.status, ran.errors), (alone.output, alone.status, ""))
            made = self.folder / "made"
            ran = galluspa(*words, path, "-o", made)
            self.assertEqual((ran.output, ran.status), (b"" if alone.status == 0 else alone.output, alone.status))
            self.assertEqual(made.read_bytes() if made.exists() else None, alone.output if alone.status == 0 else None)
            made.unlink(missing_ok=True)

    def test_says_its_version(self) -> None:
        self.assertRegex(galluspa("--version").output, rb"^galluspa 0\.\d{8}, as it is in the repository\n$")

    def test_opens_the_live_page(self) -> None:
        page = TOOLS.parent / "web/galluspa.html"
        ran = run([GALLUSPA, "live"], env={**os.environ, "BROWSER": "echo opened %s"})
        self.assertEqual((ran.output.decode(), ran.status), (f"{page}\nopened {page.as_uri()}\n", 0))
        ran = run([GALLUSPA, "live"], env={**os.environ, "BROWSER": "/bin/none"})
        self.assertIn(str(page), ran.output.decode())

    def test_opens_the_live_page_with_a_file(self) -> None:
        page_file = self.folder / "keys.html"
        environment = {**os.environ, "BROWSER": "echo opened %s", "TMPDIR": str(self.folder)}
        for words in ((EXAMPLES / "keys.json", "-o", page_file), (FACE,)):
            ran = run([GALLUSPA, "live", *words], env=environment)
            made = Path(ran.output.decode().splitlines()[0])
            self.assertEqual((ran.output.decode(), ran.status), (f"{made}\nopened {made.as_uri()}\n", 0))
        self.assertEqual((made.name, made.parent.parent), ("face.html", self.folder))
        with browser.browser() as running, running.page(page_file) as page:
            page.wait("document.getElementById('g-name').innerText === 'keys'")
            self.assertEqual(page.errors, [])
            self.assertEqual(page.answer("document.getElementById('g-line').textContent"), "accepted 3 checkpoints 100 steps")
            page.answer("document.getElementById('g-run').click()")
            page.wait("document.getElementById('g-count').innerText.startsWith('100')")

    def test_a_missing_file_costs_the_others_nothing(self) -> None:
        ran = galluspa(FACE, self.folder / "none")
        self.assertEqual((ran.status, ran.output.decode()), (2, f"{FACE}: accepted 4 checkpoints 20000000 steps\n"))
        self.assertIn("none: No such file", ran.errors)
        reader, terminal = pty.openpty()
        self.addCleanup(os.close, reader)
        self.addCleanup(os.close, terminal)
        alone = subprocess.run([GALLUSPA, "check"], stdin=terminal, capture_output=True, check=False)
        self.assertEqual((alone.returncode, alone.stderr), (2, b"galluspa check: name a file (see galluspa check --help)\n"))
