"""The files of the crates, as far as they can be tested without a proof."""

import shutil
import subprocess
from pathlib import Path

import pytest

from tests.support import TOP


@pytest.mark.skipif(shutil.which("rt") is None, reason="the Rattle kit is not installed")
def test_the_crates_are_laid_out() -> None:
    """`rt fmt` would change no file: `rt ci` refuses a crate otherwise, but only after it proved those below."""
    kit = Path(subprocess.run(["rt", "doc"], check=True, capture_output=True, text=True).stdout.strip()).parent
    files = [
        str(path) for path in sorted(TOP.glob("crates/*/*/**/*")) if path.suffix in (".rt", ".antt") and "out" not in path.parts
    ]
    assert len(files) > 500
    ran = subprocess.run([kit / "bin/rattle", "fmt", "--check", *files], capture_output=True, text=True)
    assert (ran.returncode, ran.stdout[:2000]) == (0, "")
