"""Runs a suite of tests by pytest, as tests/run does: installs what is missing, and passes arguments on."""

import os
import shutil
import sys
from collections.abc import Mapping, Sequence
from pathlib import Path
from typing import NoReturn

from tests.support import TOP
from tests.tools.debian import install

PACKAGES = Path("/usr/lib/python3/dist-packages")
# Debian's packages that each suite needs, by a command or a file that each has.
PYTEST: Mapping[str, str | Path] = {"python3-pytest": PACKAGES / "pytest", "python3-pytest-xdist": PACKAGES / "xdist"}
# The options of pytest by which tests run in this process alone, so that their output is seen or a debugger has the terminal.
ALONE = {"-s", "--pdb", "--trace", "--collect-only", "--co", "--fixtures", "--markers", "-h", "--help"}
# The options whose value is the next word.
WITH_VALUE = {"-k", "-m", "-n", "-p", "-c", "-o", "-W", "-r", "--maxfail"}


def get_ready(suite: str, needed: Mapping[str, str | Path]) -> None:
    """Installs the packages that a suite needs and that are missing. Ends with one line if that fails."""
    wanted = [package for package, sign in {**PYTEST, **needed}.items() if not _is_there(sign)]
    if wanted and not install(wanted):
        sys.exit(f"{suite}: {', '.join(wanted)} can't be installed")


def _is_there(sign: str | Path) -> bool:
    return sign.exists() if isinstance(sign, Path) else shutil.which(sign) is not None


def is_value(before: str) -> bool:
    """Returns whether an argument is the value of the option before it."""
    return before in WITH_VALUE


def run_suite(
    folder: Path, arguments: Sequence[str], jobs: int, needed: Mapping[str, str | Path], dist: str = "loadfile"
) -> NoReturn:
    """Runs the tests of a folder in a number of processes, by default each file of tests in one of them. Arguments are those of pytest; besides,
    a file of the folder goes by its name, as in `diff` or `test_diff`, and so do its tests: `diff.DiffTest.test_helps`."""
    get_ready(folder.name, needed)
    words = chosen(folder, arguments)
    # Suites that run side by side each note in a place of their own which tests failed last.
    options = ["-c", str(TOP / "pyproject.toml"), "--rootdir", str(TOP), "-o", f"cache_dir=out/pytest/{folder.name}"]
    options += processes(arguments, jobs, dist)
    os.environ["PYTHONDONTWRITEBYTECODE"] = "1"
    command = [sys.executable, "-m", "pytest", *options, *words]
    sys.stdout.flush()
    os.execv(sys.executable, command)


def chosen(folder: Path, arguments: Sequence[str]) -> list[str]:
    """Returns the arguments as pytest has them: with the paths of tests, which are all of the folder if none is named."""
    words = [_as_test(folder, word, before) for word, before in zip(arguments, ["", *arguments])]
    return words if any(word.startswith(str(folder)) for word in words) else [*words, str(folder)]


def processes(arguments: Sequence[str], jobs: int, dist: str) -> list[str]:
    """Returns the options of pytest that say in how many processes the tests run."""
    if jobs == 1 or ALONE & set(arguments) or any(word.startswith(("-n", "--numprocesses", "--dist")) for word in arguments):
        return []
    return ["-n", str(jobs), "--dist", dist]


def _as_test(folder: Path, word: str, before: str) -> str:
    """Returns an argument as pytest has it: the path of a file of tests for its name, and the tests in it after two colons."""
    name, *inside = word.split(".")
    path = next((it for it in (folder / f"{name}.py", folder / f"test_{name}.py") if it.is_file()), None)
    if is_value(before) or word.startswith("-") or path is None or inside == ["py"]:
        return word
    return "::".join([str(path), *inside])
