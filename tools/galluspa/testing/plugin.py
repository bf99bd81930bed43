"""What pytest calls: options, the files that are tests, the fixture `oberon`, and what is said of them at the end (docs/suites.md).

pytest imports this module whenever it starts in an environment that has this package, so all else is imported once it is needed.
"""

from collections.abc import Generator, Iterator
from pathlib import Path
from typing import TYPE_CHECKING, Any

import pytest

from galluspa.testing import APPROVED, RECORDING, SCRIPT

if TYPE_CHECKING:
    from galluspa.testing.workstation import Boot

BOOT = pytest.StashKey["Boot"]()
ABOUT_NAMES = "all plugins of pytest share its options, and others approve, too: so the names begin with galluspa"


def pytest_addoption(parser: pytest.Parser) -> None:
    """Adds the options, and the settings of an ini file."""
    group = parser.getgroup("galluspa", f"systems that run on the workstation of Project Oberon; {ABOUT_NAMES}")
    group.addoption(
        "--galluspa-approve", action="store_true", help="approve what scripts show, in place of what was approved before"
    )
    group.addoption("--galluspa-image", metavar="FILE", help="run scripts on this image, and not on those that they name")
    group.addoption(
        "--galluspa-before",
        metavar="FILE",
        help="the image of the version that was approved: of what differs, say what that one did there, too",
    )
    group.addoption("--galluspa-recordings", metavar="FOLDER", help="write a recording of each run into this folder")
    parser.addini("galluspa_image", "the image on which scripts run that name none, and `oberon` without one", default="")
    parser.addini("galluspa_stack_limit", "the highest R14 of the stack, as of galluspa rerun", default="0xFFFFFFFF")
    parser.addini("galluspa_limit", "how many seconds each script and each recording may take", default="600")


def pytest_collect_file(file_path: Path, parent: pytest.Collector) -> pytest.Collector | None:
    """Returns the tests of a script or of a recording."""
    if file_path.name.endswith(SCRIPT):
        from galluspa.testing.items import ScriptFile

        return ScriptFile.from_parent(parent, path=file_path)
    if file_path.name.endswith(RECORDING):
        from galluspa.testing.items import RecordingFile

        return RecordingFile.from_parent(parent, path=file_path)
    return None


@pytest.fixture
def oberon(request: pytest.FixtureRequest, tmp_path: Path) -> "Iterator[Boot]":
    """Boots an image, types, and looks at the machine: `oberon("desk.json").type("12+30\\r").still().sent`."""
    from galluspa.testing.workstation import Boot

    boot = Boot(request.config, request.path.parent, tmp_path / f"{request.node.name}.orsr")
    request.node.stash[BOOT] = boot
    yield boot


@pytest.hookimpl(hookwrapper=True)
def pytest_runtest_makereport(item: pytest.Item) -> Generator[None, Any, None]:
    """Says of a test that failed where its workstations are, and writes their recordings."""
    report = (yield).get_result()
    boot = item.stash.get(BOOT, None)
    if boot and report.when == "call" and report.failed and (told := "\n".join(boot.told())):
        report.sections.append(("oberon", told))


def pytest_terminal_summary(terminalreporter: Any) -> None:
    """Prints what was approved."""
    reports = [it for it in terminalreporter.getreports("passed") if it.when == "call"]
    for report in reports:
        for name, text in report.user_properties:
            if name == APPROVED:
                terminalreporter.write_line(f"{report.nodeid}: {text}")
