"""The Python of this repository, with and without a suffix: pyflakes and mypy find nothing in it, no line and no module of tools/ is too
long, and black changes nothing."""

import os
import re
from collections.abc import Iterable, Iterator
from pathlib import Path

from galluspa import interface
from tests.tools.samples import GALLUSPA, TOOLS, TOP, Ran, ToolTest, run

COLUMNS = 132
LINES = 400
NOT_SOURCES = {"out", "__pycache__"}
# What mypy looks at.
TYPED = ("tools", "tests", "bench", "docs")
# What pyflakes says of the one import of all names: the package offers what its interface lists, which only types read there.
OF_ALL_NAMES = (
    "'from galluspa.interface import *' used; unable to detect undefined names",
    "'galluspa.interface.*' imported but unused",
)


def sources(top: Path) -> Iterator[Path]:
    """Yields the Python files below a folder, but for what was built."""
    for folder, names, files in os.walk(top):
        names[:] = [name for name in names if name not in NOT_SOURCES and not name.startswith(".")]
        paths = (Path(folder, name) for name in files)
        yield from (path for path in paths if is_python(path))


def is_python(path: Path) -> bool:
    """Returns whether a file is Python, by its suffix or, if it has none, by its first line."""
    if path.suffix:
        return path.suffix == ".py"
    if not path.is_file():
        return False
    with path.open("rb") as file:
        first = file.readline(100)
    return first.startswith(b"#!") and b"python" in first


class SourcesTest(ToolTest):
    def test_pyflakes_finds_nothing(self) -> None:
        found = sorted(sources(TOP))
        self.assertLess({GALLUSPA, TOP / "tests/run", TOOLS / "galluspa/formats/recording.py"}, set(found))
        ran = run(["pyflakes3", *found])
        package = TOOLS / "galluspa/__init__.py"
        number = package.read_text().splitlines().index("    from galluspa.interface import *") + 1
        told = [f"{package}:{number}:5: {it}" for it in OF_ALL_NAMES]
        self.assertEqual((ran.output.decode().splitlines(), ran.errors), (told, ""))

    def test_pyflakes_finds_what_is_wrong(self) -> None:
        self.file("script", "#!/usr/bin/python3\nimport os\n")
        self.file("module.py", 'print(f"no name in it")\nprint(missing)\n')
        self.file("text", "import sys\n")
        ran = run(["pyflakes3", *sources(self.folder)])
        self.assertEqual((len(ran.output.splitlines()), ran.status), (3, 1))

    def typed(self, paths: Iterable[Path], cache: Path) -> Ran:
        """Returns what mypy finds in these files. It takes a script, which has no suffix, for a module by a link that has one."""
        links, modules = self.folder / "links", []
        links.mkdir()
        for path in paths:
            if not path.suffix:
                link = links / f"{'_'.join(path.parts[-2:]).replace('-', '_')}.py"
                link.symlink_to(path)
                path = link
            modules.append(path)
        return run(["mypy", "--config-file", TOP / "pyproject.toml", "--cache-dir", cache, *modules], cwd=TOP)

    def test_mypy_finds_nothing(self) -> None:
        found = [GALLUSPA, TOP / "setup.py", *(path for name in TYPED for path in sources(TOP / name))]
        ran = self.typed(found, TOP / "out/mypy")
        self.assertEqual((ran.output.decode().splitlines()[:-1], ran.errors, ran.status), ([], "", 0))

    def test_mypy_finds_what_is_wrong(self) -> None:
        script = self.file("tools/script", "#!/usr/bin/python3\ndef one() -> int:\n    return 'one'\n")
        ran = self.typed([script, self.file("tools/module.py", "def two():\n    return 2\n")], self.folder / "cache")
        self.assertIn(b"Found 2 errors in 2 files", ran.output)

    def test_programs_that_import_the_package_are_typed_strictly(self) -> None:
        blocks = re.findall(r"^```python\n(.*?)^```$", (TOP / "docs/from-python.md").read_text(), re.DOTALL | re.MULTILINE)
        self.assertEqual(len(blocks), 2)
        paths = [self.file(f"shown{at}.py", block) for at, block in enumerate(blocks)]
        paths.append(self.file("named.py", f"from galluspa import {', '.join([*interface.__all__, '__version__'])}\n"))
        wrong = self.file("wrong.py", "import galluspa\n\ncount: str = galluspa.Machine.claim(b'').calls()[0].count\n")
        command = ["mypy", "--strict", "--follow-imports", "silent", "--config-file", TOP / "pyproject.toml"]
        command += ["--cache-dir", self.folder / "cache"]
        ran = run([*command, *paths], cwd=TOP)
        self.assertEqual((ran.output.decode().splitlines()[:-1], ran.errors, ran.status), ([], "", 0))
        self.assertIn(b"wrong.py:3: error: Incompatible types", run([*command, wrong], cwd=TOP).output)

    def test_no_line_of_tools_is_too_long(self) -> None:
        for path in sources(TOOLS):
            lines = path.read_text().splitlines()
            long = [f"{path}:{number}" for number, line in enumerate(lines, 1) if len(line) > COLUMNS]
            self.assertEqual(long, [])

    def test_no_module_of_tools_or_of_their_tests_is_too_long(self) -> None:
        paths = (*sources(TOOLS), *(TOP / "tests/tools").glob("test_*.py"))
        lengths = {str(path.relative_to(TOP)): len(path.read_text().splitlines()) for path in paths}
        self.assertGreater(len(lengths), 100)
        self.assertEqual({path: length for path, length in lengths.items() if length > LINES}, {})

    def formatted(self, *paths: Path) -> Ran:
        """Returns what black would change in these files."""
        return run(["black", "--check", "--quiet", "--config", TOP / "pyproject.toml", *paths])

    def test_black_changes_nothing(self) -> None:
        found = sorted(sources(TOP))
        changed = (
            [str(path.relative_to(TOP)) for path in found if self.formatted(path).status] if self.formatted(*found).status else []
        )
        self.assertEqual(changed, [])

    def test_black_finds_what_is_not_formatted(self) -> None:
        path = self.file("module.py", "x = { 'a':1 }\n")
        self.assertEqual(self.formatted(path).status, 1)
        path.write_text('x = {"a": 1}\n')
        self.assertEqual(self.formatted(path).status, 0)
