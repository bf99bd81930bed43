"""The library for C, built and installed, for all tests of it."""

import fcntl
import os
import shutil
from collections.abc import Sequence
from pathlib import Path

import pytest

from galluspa.engine.library import VARIABLE
from tests.library.binding import Library
from tests.support import TOP
from tests.library.trial import EXAMPLES, WARNINGS, expect, run


@pytest.fixture(autouse=True, scope="session")
def built(program: object) -> None:
    """The program is there, with which the library is compared."""


@pytest.fixture(scope="session")
def installed(built: None, tmp_path_factory: pytest.TempPathFactory) -> Path:
    """The folder into which examples/c/install puts the library and its header, or where a library that is named already is copied.
    Only one process builds at a time."""
    folder = tmp_path_factory.mktemp("installed")
    if named := os.environ.get(VARIABLE):
        shutil.copytree(TOP / "include", folder / "include")
        (folder / "lib").mkdir()
        for name in ("libgalluspa.so", "libgalluspa.so.0", "libgalluspa.a"):
            shutil.copy(Path(named).with_suffix(Path(name).suffix.replace(".0", ".so")), folder / "lib" / name)
        return folder
    with (tmp_path_factory.getbasetemp().parent / "installing").open("w") as lock:
        fcntl.flock(lock, fcntl.LOCK_EX)
        expect("examples/c/install", run(str(EXAMPLES / "c/install"), str(folder), limit=None), (b"", 0))
    return folder


@pytest.fixture(scope="session")
def flags(installed: Path) -> Sequence[str]:
    """How a C program is compiled with the library."""
    return [f"-I{installed}/include", f"-L{installed}/lib", "-l:libgalluspa.a"]


@pytest.fixture(scope="session")
def library(installed: Path) -> Library:
    """The shared library, called by ctypes."""
    return Library(installed / "lib/libgalluspa.so")


@pytest.fixture(scope="session")
def check(flags: Sequence[str], tmp_path_factory: pytest.TempPathFactory) -> str:
    """The checker of examples/c, compiled."""
    path = str(tmp_path_factory.mktemp("check") / "check")
    expect("check.c", run("cc", *WARNINGS, str(EXAMPLES / "c/check.c"), *flags, "-o", path), (b"", 0))
    return path
