"""The Python package: a wheel and a source distribution are built, installed with no clone around, and used there."""

import subprocess
import tempfile
import unittest
import zipfile
from pathlib import Path

from galluspa.commands import commands
from galluspa.process.paths import libraries
from tests.tools.samples import EXAMPLES, GALLUSPA, PROGRAM, STORED, TOOLS, TOP, Ran, ToolTest, record, run

PYTHON = "/usr/bin/python3"
SCRIPT = """
import galluspa, sys
recording = open(sys.argv[1], "rb").read()
machine = galluspa.Machine.claim(recording)
machine.advance(100)
print(galluspa.check(recording).line, machine.state.registers[0], galluspa.__file__)
"""


def files_of_all() -> set[str]:
    """Returns the modules and their data that a wheel has, by their paths in tools/: all but those that build a clone."""
    paths = {it.relative_to(TOOLS) for it in (TOOLS / "galluspa").rglob("*") if it.is_file()}
    return {str(it) for it in paths if not {"packaging", "__pycache__"} & set(it.parts)}


@unittest.skipUnless(libraries(), "the library is not built: run examples/c/install out first")
class WheelTest(ToolTest):
    folder_of_all: Path
    wheel: Path

    @classmethod
    def setUpClass(cls) -> None:
        cls.folder_of_all = Path(cls.enterClassContext(tempfile.TemporaryDirectory()))
        before = run(["git", "-C", TOP, "status", "--porcelain", "--ignored"]).output
        ran = run([PYTHON, "-m", "build", "--no-isolation", "--outdir", cls.folder_of_all, TOP])
        assert ran.status == 0, ran.output.decode() + ran.errors
        assert run(["git", "-C", TOP, "status", "--porcelain", "--ignored"]).output == before, "it leaves something in the clone"
        (cls.wheel,) = cls.folder_of_all.glob("*.whl")
        assert run([PYTHON, "-m", "venv", "--system-site-packages", cls.folder_of_all / "venv"]).status == 0
        ran = run([cls.folder_of_all / "venv/bin/pip", "install", "--no-index", "--no-deps", cls.wheel])
        assert ran.status == 0, ran.errors

    def used(self, *words: object) -> Ran:
        """Returns the installed command, in a folder where nothing else is."""
        return run([self.folder_of_all / "venv/bin/galluspa", *words], cwd=self.folder)

    def test_it_has_what_the_command_needs_and_nothing_of_a_clone(self) -> None:
        names = zipfile.ZipFile(self.wheel).namelist()
        for name in ("oberon_replay", "libgalluspa.so", "galluspa.h", "galluspa.html", "VERSION"):
            self.assertIn(f"galluspa/installed/{name}", names)
        self.assertEqual({it for it in names if it.startswith("galluspa/") and "/installed/" not in it}, files_of_all())
        self.assertRegex(self.wheel.name, r"^galluspa-0\.\d{8}-py3-none-linux_\w+\.whl$")

    def test_the_command_works_with_no_clone_around(self) -> None:
        self.assertRegex(self.used("--version").output, rb"^galluspa 0\.\d{8}\n$")
        source, made = self.file("hello.asm", (EXAMPLES / "hello.asm").read_bytes()), self.folder / "hello.orsr"
        self.assertEqual(self.used("assemble", source, "-o", self.folder / "hello.json").status, 0)
        self.assertEqual(self.used("record", "hello.json", "-o", made), Ran(b"", "", 0))
        self.assertEqual(self.used(made), Ran(b"accepted 2 checkpoints 100 steps\n", "", 0))
        self.assertEqual(self.used("output", made).output, b"Hello, world\n")
        self.assertEqual(self.used("find", made, "sent").output, run([GALLUSPA, "find", made, "sent"]).output)
        ran = self.used("report", made)
        self.assertEqual((ran.output, ran.errors, ran.status), (run([GALLUSPA, "report", made]).output, "", 0))
        program = self.folder_of_all / "venv/bin/oberon_replay"
        self.assertEqual(run([program, "check", "--workers", 1], STORED), Ran(b"accepted 1 checkpoints 100 steps\n", "", 0))
        self.assertEqual(run([program, "check", "it"]).status, 4)
        self.assertTrue((self.folder_of_all / "venv/share/man/man1/oberon_replay.1").is_file())
        for it in commands(False):
            ran = self.used(it.name, "--help")
            self.assertEqual((ran.errors, ran.status), ("", 0), it.name)
        self.assert_refused(self.used("build-library"), "galluspa: build-library: neither a file nor a command")

    def test_it_is_imported(self) -> None:
        ran = run([self.folder_of_all / "venv/bin/python", "-c", SCRIPT, self.file("it.orsr", STORED)], cwd=self.folder)
        line, file = ran.output.decode().strip().rsplit(" ", 1)
        self.assertEqual((line, ran.errors), ("accepted 1 checkpoints 100 steps 5", ""))
        self.assertTrue(file.startswith(str(self.folder_of_all)))
        ran = run([self.folder_of_all / "venv/bin/python", "-m", "galluspa", "it.orsr"], cwd=self.folder)
        self.assertEqual(ran, Ran(b"accepted 1 checkpoints 100 steps\n", "", 0))

    def test_pytest_finds_its_plugin(self) -> None:
        self.file("it.orsr", STORED)
        self.file("keys.json", (EXAMPLES / "keys.json").read_bytes())
        self.file("test_it.py", "def test_it(oberon):\n    assert oberon('keys.json').type('A').sends('A').sent == b'A'\n")
        ran = run([self.folder_of_all / "venv/bin/python", "-B", "-m", "pytest", "-q", "-p", "no:cacheprovider"], cwd=self.folder)
        self.assertIn(b"2 passed", ran.output)

    def test_it_is_built_without_what_is_not_built(self) -> None:
        bare = self.folder / "bare"
        for name in ("setup.py", "pyproject.toml", "MANIFEST.in", "README.md", "LICENSE", "tools", "include", "web", "docs"):
            (bare / name).parent.mkdir(exist_ok=True)
            subprocess.run(["cp", "-r", TOP / name, bare / name], check=True)
        self.file("bare/VERSION", "7.8\n")
        ran = run([PYTHON, "-m", "pip", "wheel", "--no-build-isolation", "--no-deps", "--wheel-dir", self.folder, bare])
        self.assertEqual(ran.status, 0, ran.errors)
        wheel = self.folder / "galluspa-7.8-py3-none-any.whl"
        root = self.folder / "root"
        zipfile.ZipFile(wheel).extractall(root)
        self.assertEqual(
            {path.name for path in (root / "galluspa/installed").iterdir()}, {"galluspa.h", "galluspa.html", "VERSION"}
        )
        made = self.file("hello.orsr", record((EXAMPLES / "hello.json").read_bytes()))
        bare_command = [PYTHON, "-B", "-m", "galluspa"]
        self.assert_refused(run([*bare_command, made], cwd=root), "there is no program oberon_replay: build it")
        self.assertEqual(
            run([*bare_command, "check", "--program", PROGRAM, made], cwd=root).output, b"accepted 2 checkpoints 100 steps\n"
        )
