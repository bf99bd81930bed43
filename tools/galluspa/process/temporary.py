"""Temporary folders: each is removed once it is not needed, also if a signal ends the tool."""

from collections.abc import Iterator
from contextlib import contextmanager
from pathlib import Path
from tempfile import TemporaryDirectory

from galluspa.process.children import clearing_up, shielded


@contextmanager
def temporary_folder() -> Iterator[Path]:
    """A new folder. It is made and removed as a whole: a signal that comes meanwhile counts afterwards."""
    with shielded():
        folder = TemporaryDirectory(prefix="galluspa-")
    try:
        yield Path(folder.name)
    finally:
        with clearing_up():
            folder.cleanup()
