"""What commands print: the files of runs/, each in a folder of its own, like the console blocks of the documents."""

from pathlib import Path

import pytest

from tests.tools.console import commands_of, laid_out
from tests.tools.samples import TOP

RUNS = sorted((TOP / "tests/tools/runs").glob("*.md"))


@pytest.mark.parametrize("path", RUNS, ids=[it.stem for it in RUNS])
def test_run(path: Path, tmp_path: Path) -> None:
    """Each command prints what is shown, and ends with the status that is."""
    folder = laid_out(tmp_path / path.stem)
    for command in commands_of(path.read_text()):
        if fault := command.fault(folder, has_status=True):
            pytest.fail(fault, pytrace=False)
