"""What the suites of tests share: the built program and the library as fixtures, the order of the files, and what tests say at the end."""

import os
from pathlib import Path

import pytest
from _pytest.terminal import TerminalReporter

from galluspa.engine.library import VARIABLE
from tests.support import TOP
from tests.tools.samples import PROGRAM

LIBRARIES = [TOP / folder / "libgalluspa.so" for folder in ("crates/galluspa/out", "out/lib")]
# The files of tests that take longest, the longest first: they begin first, so that no process waits for one of them at the end.
LONGEST = [
    "test_debugsessions",
    "test_find",
    "test_documents",
    "test_fuzz",
    "test_refusals",
    "test_recorded",
    "test_strangers_cost",
    "test_rerun_output",
    "test_rerun_why",
    "test_wheel",
    "test_recipes",
    "test_session",
    "test_slices",
    "test_bisect",
    "test_symbols",
    "test_trace",
]


@pytest.fixture(scope="session")
def program() -> Path:
    """The program that `rt ci` built, or `rt run` in its crate."""
    if not PROGRAM.is_file():
        pytest.fail(f"{PROGRAM} is not there: run rt ci, or rt run in its crate, first", pytrace=False)
    return PROGRAM


@pytest.fixture(scope="session")
def shared_library() -> Path:
    """The shared library, where the tools find it."""
    for path in (*map(Path, filter(None, [os.environ.get(VARIABLE)])), *LIBRARIES):
        if path.is_file():
            return path
    pytest.fail(f"{LIBRARIES[0]} is not there: run examples/c/install out first", pytrace=False)


def pytest_addoption(parser: pytest.Parser) -> None:
    """The options of `tests/run page` and `tests/run library`."""
    parser.addoption("--module", metavar="FILE", help="the page is built around a module that is there, as web/build does")
    parser.addoption(
        "--cards", metavar="N", type=int, default=10, help="SD cards that are compared, over 1,000 transfers each (10)"
    )


@pytest.hookimpl(tryfirst=True)
def pytest_collection_modifyitems(items: list[pytest.Item]) -> None:
    """Puts the files that take longest first."""
    places = {name: place for place, name in enumerate(LONGEST)}
    items.sort(key=lambda item: places.get(item.path.stem, len(LONGEST)))


def pytest_terminal_summary(terminalreporter: TerminalReporter) -> None:
    """Prints what the tests that passed said: what they counted and compared."""
    for report in terminalreporter.getreports("passed"):
        if report.capstdout:
            terminalreporter.write(report.capstdout)
