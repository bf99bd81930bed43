"""Mistakes in a program of six modules: each shows in a stored session, and `galluspa debug` alone finds those that are drawn in a few
commands, as docs/debugging.md shows."""

import json
import re
import shutil
from pathlib import Path

from tests.tools.deskmistakes import DESK, MISTAKES, SEED, DeskMistake, drawn
from tests.tools.samples import TOP, ToolTest, tool

# The commands that find each of the drawn mistakes, at most so many, and how many of the sessions ask `why`.
MOST_COMMANDS, LEAST_WHYS = 6, 2
SECTION = "### Four mistakes in a program of six modules"


class DeskMistakesTest(ToolTest):
    def planted(self, it: DeskMistake, name: str) -> Path:
        """Returns a folder of the stored session that shows a mistake, over the image that has it."""
        folder = self.folder / name
        folder.mkdir()
        main = it.plant(folder / "desk")
        ran = tool("assemble", main, "-o", folder / "it.json", "--symbols", folder / "it.sym")
        self.assertEqual(ran.status, 0, ran.errors)
        # A file of another name is no stored session.
        (folder / "it.json").rename(folder / "it.image")
        script = json.loads((DESK / f"tests/{it.shows}.rerun.json").read_text())
        (folder / f"{it.shows}.rerun.json").write_text(json.dumps({**script, "image": "it.image"}))
        shutil.copytree(DESK / f"tests/{it.shows}.approved", folder / f"{it.shows}.approved")
        return folder

    def test_each_shows_in_a_stored_session(self) -> None:
        for number, it in enumerate(MISTAKES):
            self.planted(it, f"{number:02}")
        ran = tool("rerun", self.folder)
        lines = [line for line in ran.output.decode().splitlines() if re.match("(not )?ok ", line)]
        self.assertEqual(len(lines), len(MISTAKES), ran.errors)
        for it, line in zip(MISTAKES, lines, strict=True):
            self.assertTrue(line.startswith("not ok "), f"{it}: {line}")

    def sessions(self) -> list[tuple[str, list[str], str]]:
        """Returns the sessions that the document shows: the module that is wrong, the commands, and what the debugger prints."""
        section = (TOP / "docs/debugging.md").read_text().partition(SECTION)[2].partition("\n## ")[0]
        changed = re.findall(r"^\$ sed -i .* wrong\d/(\w+)\.asm", section, re.MULTILINE)
        shown = re.findall(r"^\$ galluspa debug seen\d/(.*)\n((?:.*\n)*?)```", section, re.MULTILINE)
        commands = [[one or other for one, other in re.findall(r"-ex (?:'([^']*)'|(\S+))", line)] for line, _ in shown]
        return list(zip(changed, commands, (printed for _, printed in shown), strict=True))

    def test_the_document_finds_those_that_are_drawn(self) -> None:
        """Its commands are run by another test: here, that they are few, and that they come to the line of each mistake."""
        sessions = self.sessions()
        self.assertEqual(len(sessions), 4)
        for it, (module, commands, shown) in zip(drawn(SEED), sessions, strict=True):
            self.assertEqual(module, it.module)
            self.assertLessEqual(len(commands), MOST_COMMANDS, commands)
            self.assertRegex(shown, rf"(?m){it.module}\.asm:{it.line}\b|^(?:=>)? *{it.line}  ")
        whys = sum(any(command.startswith("why") for command in commands) for _, commands, _ in sessions)
        self.assertGreaterEqual(whys, LEAST_WHYS)
