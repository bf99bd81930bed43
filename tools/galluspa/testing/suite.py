"""What the tests of a run of pytest share: the program, the library, the image, and the scripts that are run."""

from functools import cached_property
from pathlib import Path

import pytest

from galluspa.engine.following import EACH_RISE
from galluspa.engine.library import Library
from galluspa.engine.program import Program
from galluspa.formats.symbolfiles import symbols_for
from galluspa.process.cli import Refused, make_folder, number, write_file
from galluspa.suites import storedsessions
from galluspa.suites.approvals import stem_of
from galluspa.suites.cases import Case
from galluspa.suites.judging import Judge
from galluspa.suites.storedsessions import AS_APPROVED, Shelf

MOST_SECONDS = 1 << 30


class Suite:
    """The scripts and recordings below the root folder of a run of pytest."""

    def __init__(self, config: pytest.Config) -> None:
        """Raises Refused if the program or the library is missing, or a setting is invalid."""
        self.config = config
        self.folder = config.rootpath
        self.program = Program.find(None)
        self.library = Library.find(None)
        self.is_approving = bool(config.getoption("--galluspa-approve"))
        self.seconds = self._number("galluspa_limit", 1, MOST_SECONDS)
        self.stack_limit = self._number("galluspa_stack_limit", 0, EACH_RISE)
        self._judges: dict[Path, Judge] = {}

    def _number(self, name: str, least: int, most: int) -> int:
        """Returns a setting that is a whole number."""
        value = number(text := str(self.config.getini(name)))
        if value is None or not least <= value <= most:
            raise Refused(f"{name} is {text}: expected a whole number from {least:,} to {most:,}")
        return value

    @cached_property
    def image(self) -> Path | None:
        """Returns the file of the image that an option names, or that of the settings."""
        if given := self.config.getoption("--galluspa-image"):
            return self.config.invocation_params.dir / str(given)
        named = str(self.config.getini("galluspa_image"))
        return self.folder / named if named else None

    def judge(self, path: Path) -> Judge:
        """Returns what runs a script. One that is outside the root folder has what is beside it alone."""
        folder = self.folder if path.is_relative_to(self.folder) else path.parent
        if folder not in self._judges:
            before = self.config.getoption("--galluspa-before")
            earlier = self._shelf(folder, self.config.invocation_params.dir / str(before)) if before else None
            self._judges[folder] = Judge(self._shelf(folder, self.image), self.library, self.seconds, earlier, self.stack_limit)
        judge = self._judges[folder]
        judge.shelf.find_names([self.case(path)])
        return judge

    def _shelf(self, folder: Path, image: Path | None) -> Shelf:
        made = storedsessions.image_of(self.program, image, None, ()) if image else None
        return Shelf(self.program, folder, made, symbols_for(None, *filter(None, [image])))

    def case(self, path: Path) -> Case:
        """Returns a script, a session or a recording as a case."""
        return Case(path.name, path, AS_APPROVED)

    def keep(self, path: Path, recording: bytes) -> None:
        """Writes the recording of a run, with --galluspa-recordings."""
        if into := self.config.getoption("--galluspa-recordings"):
            folder = self.config.invocation_params.dir / str(into)
            inside = path.parent.relative_to(self.folder) if path.is_relative_to(self.folder) else Path()
            write_recording(folder / inside / f"{stem_of(path)}.orsr", recording)


def write_recording(path: Path, recording: bytes) -> None:
    """Writes a recording, in a folder that is made."""
    make_folder(path.parent)
    write_file(path, recording)


SUITE = pytest.StashKey[Suite]()


def suite_of(config: pytest.Config) -> Suite:
    """Returns what the tests of a run share. Fails the test that asks, in one line, if something is missing."""
    why = ""
    if SUITE not in config.stash:
        try:
            config.stash[SUITE] = Suite(config)
        except Refused as refusal:
            why = f"galluspa: {refusal}"
    # Outside the handler, so that pytest does not show what is handled.
    if why:
        pytest.fail(why, pytrace=False)
    return config.stash[SUITE]
