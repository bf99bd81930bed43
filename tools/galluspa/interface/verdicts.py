"""Verdicts of recordings, the recordings of sessions, and what the calls of the interface take."""

from dataclasses import dataclass
from operator import index

from galluspa.engine.library import Library
from galluspa.engine.program import ACCEPTED, FALSE, REFUSED

# What has bytes, of which others with a buffer are taken, too.
Buffer = bytes | bytearray | memoryview


@dataclass(frozen=True)
class Verdict:
    """The verdict of a recording: its line, as `galluspa check` prints it, and the exit status that goes with it. It is true if the
    recording is accepted, and false otherwise."""

    line: str
    status: int

    def __bool__(self) -> bool:
        return self.is_accepted

    @property
    def is_accepted(self) -> bool:
        """Returns whether all that the recording claims is true."""
        return self.status == ACCEPTED

    @property
    def is_false(self) -> bool:
        """Returns whether the recording claims something that is false; the line names the first of it."""
        return self.status == FALSE

    @property
    def is_refused(self) -> bool:
        """Returns whether the bytes break a rule of the format; the line names the first."""
        return self.status == REFUSED


def content(what: str, given: Buffer) -> bytes:
    """Returns the bytes of a buffer. Raises TypeError for anything else, such as the name of a file."""
    try:
        return given if isinstance(given, bytes) else bytes(memoryview(given))
    except TypeError:
        raise TypeError(f"a {what} is bytes, not {type(given).__name__}: read its file in mode 'rb'") from None


def number(what: str, given: int, first: int, last: int) -> int:
    """Returns a whole number. Raises TypeError for another type, and ValueError outside its range."""
    value = index(given)
    if not first <= value <= last:
        raise ValueError(f"{what} {value} is not in {first}..{last}")
    return value


def check(recording: Buffer, *, library: Library | None = None) -> Verdict:
    """Replays a recording and returns its verdict, also for bytes that are no recording. Raises Failed if memory runs
    out."""
    return Verdict(*(library or Library.find(None)).check(content("recording", recording)))


def record(session: Buffer, *, library: Library | None = None) -> bytes:
    """Runs a session, which is JSON, and returns its recording. Raises Refused if the session breaks a rule, or if no
    recording can hold what its run does."""
    return (library or Library.find(None)).record(content("session", session))
