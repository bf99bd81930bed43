"""Stored sessions that are run again: the scripts, sessions and recordings under a folder, and the images that they run on."""

import os
from collections.abc import Sequence
from dataclasses import dataclass, field, replace
from pathlib import Path

from galluspa.engine.initial import without_checkpoints
from galluspa.engine.program import Program
from galluspa.formats import recording, scripts
from galluspa.formats.scripts import Script
from galluspa.formats.sessionfaults import LONGEST_SESSION
from galluspa.formats.sessions import Session, check_phase, image_at, of_recording, set_register
from galluspa.formats.symbolfiles import symbols_for
from galluspa.formats.symbols import NONE, Symbols
from galluspa.process.cli import Refused, read_file
from galluspa.process.escapes import printable
from galluspa.suites.approvals import folder_of, stem_of
from galluspa.suites.cases import Case

# The files that are stored sessions, the first of a name before the others; and what a session has in it.
SUFFIXES = (scripts.SUFFIX, ".json", ".orsr")
OF_SESSION = b"oberon-session"
AS_APPROVED, APPROVED = "as approved", "approved"


@dataclass(frozen=True)
class Wanted:
    """What a stored session without a script is looked at for: how long nothing changes before its end, whether its inputs come
    when they are polled, and whether there is a look at each checkpoint."""

    still: int = scripts.STILL
    is_polled: bool = False
    has_checkpoints: bool = False


@dataclass(frozen=True)
class Image:
    """What the sessions run on in place of their own image: another session's initial state, or the bytes of a memory from an
    address on; and registers that are set."""

    session: Session | None = None
    memory: bytes = b""
    assignments: Sequence[str] = ()

    def put_into(self, stored: Session) -> Session:
        """Returns the initial state of a stored session with this image in it."""
        made = replace(self.session or stored, inputs=[], checkpoints=[])
        made.registers = list(made.registers)
        if self.memory:
            made.memory = self.memory
        for assignment in self.assignments:
            set_register(made, assignment)
        check_phase(made)
        return made


@dataclass
class Shelf:
    """Stored sessions inside a folder, and the image that they run on, if it is not that of each."""

    program: Program
    folder: Path
    image: Image | None = None
    symbols: Symbols = NONE
    wanted: Wanted = Wanted()
    _names: dict[Path, Symbols] = field(default_factory=dict)

    @property
    def top(self) -> Path:
        """Returns the folder without links on the way to it."""
        return Path(os.path.realpath(self.folder))

    def taken(self, program: Program, case: Case) -> tuple[Session, Script, Symbols]:
        """Returns the initial state, the script and the names of a stored session. Raises Refused if it is invalid."""
        content = read_file(case.file, LONGEST_SESSION + 1)
        if case.path.name.endswith(scripts.SUFFIX):
            return self._of_script(program, case.path, scripts.read(content))
        stored = session_of(program, case.path.name, content)
        last = stored.checkpoints[-1] if stored.checkpoints else 0
        looks = stored.checkpoints if self.wanted.has_checkpoints else ()
        script = scripts.of_inputs(stored.inputs, last, self.wanted.still, self.wanted.is_polled, looks)
        return (self.image or Image()).put_into(stored), script, self.symbols

    def _of_script(self, program: Program, path: Path, script: Script) -> tuple[Session, Script, Symbols]:
        """Returns the initial state, the script and the names of a script file."""
        if self.image and (self.image.session or script.image is None):
            return self.image.put_into(Session()), script, self.symbols
        if script.image is None:
            raise Refused("the script names no image: name one with --image")
        own = path.parent / script.image
        if not Path(os.path.realpath(own)).is_relative_to(self.top):
            raise Refused("the image of the script is outside the folder of the suite: name a folder that has both")
        if not own.is_file():
            raise Refused(f"{script.image}: no such file, which the script names as its image")
        stored = session_of(program, script.image, read_file(own, LONGEST_SESSION + 1))
        return (self.image or Image()).put_into(stored), script, self.symbols or self._names.get(own, NONE)

    def find_names(self, cases: Sequence[Case]) -> None:
        """Reads the symbol files beside the images that scripts name, if no other image is given."""
        for case in cases:
            own = None if self.image or self.symbols or case.fault else image_beside(case.path)
            if own and own not in self._names and Path(os.path.realpath(own)).is_relative_to(self.top):
                self._names[own] = symbols_for(None, own)


def image_beside(path: Path) -> Path | None:
    """Returns the file that a script names as its image; None if it names none, or is no script."""
    if not path.name.endswith(scripts.SUFFIX):
        return None
    try:
        name = scripts.read(read_file(path, scripts.MOST_BYTES + 1, is_regular=True)).image
    except Refused:
        return None
    return path.parent / name if name else None


def cases_of(path: Path, expected: str) -> tuple[list[Case], list[str]]:
    """Returns the stored sessions under a folder by their names, or that in a file, and the names of the .json files that are no
    sessions. The image that a script names is a stored session only if something is approved of it."""
    if path.is_file():
        return [Case(printable(path.name), path, expected)], []
    if not path.is_dir():
        raise Refused(f"{path}: neither a folder nor a file")
    there = [it for it in path.rglob("*") if it.name.endswith(SUFFIXES) and not it.is_dir()]
    images = {os.path.realpath(image) for it in there if (image := image_beside(it)) and not folder_of(image).is_dir()}
    order = sorted((it for it in there if os.path.realpath(it) not in images), key=lambda it: (it.parent, stem_of(it), _rank(it)))
    cases, others, last = list[Case](), list[str](), None
    for it in order:
        name, own = printable(str(it.relative_to(path))), it.with_name(stem_of(it))
        if _rank(it) == 1 and not _is_session(it):
            others.append(name)
        elif own != last:
            cases.append(Case(name, it, expected))
            last = own
    if not cases:
        raise Refused(f"{path}: no script ({scripts.SUFFIX}), session (.json) or recording (.orsr) in it")
    return cases, others


def _rank(path: Path) -> int:
    """Returns which kind of stored session a file is, by its name."""
    return next(at for at, suffix in enumerate(SUFFIXES) if path.name.endswith(suffix))


def _is_session(path: Path) -> bool:
    """Returns whether a .json file is to be a session."""
    try:
        return path.is_file() and OF_SESSION in read_file(path, LONGEST_SESSION + 1)
    except Refused:
        return True


def image_of(program: Program, path: Path, address: int | None, assignments: Sequence[str]) -> Image:
    """Returns the image in a file: a session, a recording, or the bytes of a memory from an address on."""
    content = read_file(path, LONGEST_SESSION + 1)
    if not content.startswith(b"ORSR") and OF_SESSION not in content:
        return Image(None, image_at(str(path), content, address or 0), assignments)
    if address is not None:
        raise Refused(f"--at: {path} is not a raw memory image, and says itself where its words are")
    return Image(session_of(program, str(path), content), b"", assignments)


def session_of(program: Program, name: str, content: bytes) -> Session:
    """Returns the session that bytes are, or that of a recording. Nothing of it is run. Raises Refused if they are neither."""
    if content.startswith(b"ORSR"):
        return of_recording(name, program.decoded(name, content))
    session, counts = without_checkpoints(content)
    read = recording.read(program.recorded(session, f"{name}: "))
    return replace(of_recording(name, read), checkpoints=counts)
