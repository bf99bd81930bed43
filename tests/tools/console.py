"""Console blocks of Markdown, as the documents and the files of runs/ have them: commands, what they print, and the status of those that fail."""

import os
import re
import shutil
from collections.abc import Iterator
from dataclasses import dataclass
from pathlib import Path

from tests.tools.samples import EXAMPLES, PROGRAM, TOOLS, TOP, run

CONSOLE = re.compile(r"^( *)```console\n(.*?)^\1```$", re.DOTALL | re.MULTILINE)
PARTS = ("tools", "examples", "crates", "docs", "bench", "reference", "include")
# The commands are found as in an installation, and so is the package.
ENVIRONMENT = {
    **os.environ,
    "PATH": f"{PROGRAM.parent}:{TOP}:{os.environ['PATH']}",
    "PYTHONPATH": str(TOOLS),
    "PYTHONDONTWRITEBYTECODE": "1",
}


@dataclass(frozen=True)
class Command:
    """A command, and the lines that it prints, on standard error after those on standard output; a line of two dots stands for any lines, and
    a last line in brackets for a status other than 0."""

    line: str
    output: str

    def prints(self, printed: str) -> bool:
        """Returns whether what was printed is what is shown."""
        shown = re.escape(self.output).replace(re.escape("\n..\n"), r"\n(?:.*\n)*")
        return re.fullmatch(shown, "\n" + printed) is not None

    def fault(self, folder: Path, has_status: bool = False) -> str:
        """Runs the command in a folder. Returns the first line that differs from what is shown, with all that was printed; nothing if none does."""
        ran = run(["bash", "-c", self.line], cwd=folder, env=ENVIRONMENT)
        told = ran.output.decode() + ran.errors
        told += "\n" * bool(told and not told.endswith("\n"))
        told += f"[{ran.status}]\n" * (has_status and ran.status != 0)
        if self.prints(told):
            return ""
        lines = self.output.splitlines(True)
        parts = (Command("", "".join(lines[: at + 1]) + "..\n") for at in range(1, len(lines)))
        wrong = next((it.output.splitlines()[-2] for it in parts if not it.prints(told)), "more lines")
        return f"$ {self.line}\ndiffers at: {wrong}\n{told}"


def commands_of(document: str) -> Iterator[Command]:
    """Yields the commands that a document shows, in their order; a command goes on in lines that begin with a greater sign."""
    for indent, block in CONSOLE.findall(document):
        for part in re.split(r"^\$ ", re.sub(f"^{indent}", "", block, flags=re.MULTILINE), flags=re.MULTILINE)[1:]:
            [(line, output)] = re.findall(r"^([^\n]*(?:\n> [^\n]*)*)\n?(.*)$", part, re.DOTALL)
            yield Command(line.replace("\n> ", "\n"), "\n" + output.rstrip("\n") + "\n" * bool(output.strip()))


def laid_out(folder: Path) -> Path:
    """Returns a new folder that has what a clone has at its top. A debugger shows no source to which a link leads, so the examples are copied."""
    folder.mkdir()
    for part in PARTS:
        if part != "examples":
            (folder / part).symlink_to(TOP / part)
    shutil.copytree(EXAMPLES, folder / "examples")
    return folder
