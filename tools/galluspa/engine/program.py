"""Calls the built program, which gives every verdict, every picture and every recording that the tools show."""

import os
import re
from collections.abc import Sequence
from dataclasses import dataclass
from functools import cached_property
from pathlib import Path
from typing import BinaryIO

from galluspa.formats import recording
from galluspa.formats.recording import Checkpoint, Recording
from galluspa.process import children, paths
from galluspa.process.cli import FAILED, MOST, Failed, Refused
from galluspa.process.timelimit import Limit

ACCEPTED = 0
FALSE = 1
REFUSED = 2
WORDS_REFUSED = 4
# The commands that take version 3.
WITH_DISK = ("check", "screen", "migrate", "record")
# The most workers of a check, and the default.
MOST_WORKERS = 64
WORKERS = min(os.cpu_count() or 1, MOST_WORKERS)

_FALSE_LINE = re.compile(r"false checkpoint (\d+) at \d+ part (.+)")
_REFUSED_LINE = re.compile(r"refused (\d+) \w+ at byte (\d+)")
_SESSION_LINE = re.compile(r"session refused (\d+) \w+")
# How a recording of version 3 begins, or how a session says it: the program takes these by a word of its own.
_VERSION_3 = re.compile(rb'\AORSR\x03\0\0\0|\A(?!ORSR).*?"version"\s*:\s*3\b', re.DOTALL)


@dataclass(frozen=True)
class Answer:
    """What the program printed, and its exit status."""

    output: bytes
    status: int

    @property
    def line(self) -> str:
        """Returns the one line of an answer that is a line."""
        return self.output.decode("ascii", "replace").rstrip("\n")

    @cached_property
    def false_claim(self) -> tuple[int, str] | None:
        """Returns the first false checkpoint and its first false part, if the line names them."""
        match = _FALSE_LINE.fullmatch(self.line) if self.status == FALSE else None
        return (int(match[1]), match[2]) if match else None

    @cached_property
    def fault(self) -> tuple[int, int] | None:
        """Returns the number of a recording's first fault and its byte, if the line names them."""
        match = _REFUSED_LINE.fullmatch(self.line) if self.status == REFUSED else None
        return (int(match[1]), int(match[2])) if match else None

    @cached_property
    def session_fault(self) -> int | None:
        """Returns the number of a session's first fault, if the line names it."""
        match = _SESSION_LINE.fullmatch(self.line) if self.status == REFUSED else None
        return int(match[1]) if match else None


@dataclass(frozen=True)
class Program:
    """The program at a path, and the time in which it has to answer, if any."""

    path: Path
    limit: Limit | None = None

    @staticmethod
    def find(given: str | None, limit: Limit | None = None) -> "Program":
        """Returns the program that was given, or else the one that was built in this clone, or installed with these
        tools."""
        path = Path(given) if given else paths.program()
        if not path:
            raise Refused(
                "there is no program oberon_replay: build it (rt run in crates/oberon_replay), or name one " "with --program"
            )
        if not path.is_file() or not os.access(path, os.X_OK):
            raise Refused(f"no program at {path}")
        return Program(path.resolve(), limit)

    def check(self, text: bytes, workers: int | None = None) -> Answer:
        """Returns the line of a recording, and whether it was accepted, false or refused; by a number of workers, if that
        is said."""
        return self._ask(*_checking(workers), given=text)

    def check_file(self, path: Path, workers: int) -> Answer:
        """Returns the line of the recording in a file, by a number of workers."""
        try:
            with path.open("rb") as file:
                return self._ask(*_checking(workers), given=file)
        except OSError as error:
            raise Refused(f"{path}: {error.strerror}") from error

    def screen(self, text: bytes, checkpoint: int) -> Answer:
        """Returns the picture of what a checkpoint claims, or the line that refuses the text."""
        return self._ask("screen", "--at", str(checkpoint), given=text)

    def drawn(self, state: Checkpoint, memory: bytes) -> bytes:
        """Returns the picture of a state with a memory, of which the bytes from DISPLAY_PAGES on are enough. Only these are read,
        and not the whole recording that the state is of."""
        return self.screen(recording.of_display(state, memory), 0).output

    def decoded(self, name: str, text: bytes) -> Recording:
        """Returns the recording of these bytes. Raises Refused with the program's line, after a name, if they are not valid."""
        answer = self.screen(text, 0)
        if answer.status == REFUSED:
            raise Refused(f"{name}: {answer.line}")
        return recording.read(text)

    def record(self, session: bytes) -> Answer:
        """Returns the recording of a session, or the line that refuses it."""
        return self._ask("record", given=session)

    def recorded(self, session: bytes, before: str = "") -> bytes:
        """Returns the recording of a session. Raises Refused with the program's line, after a text, if there is none."""
        answer = self.record(session)
        if answer.status != ACCEPTED:
            raise Refused(f"{before}{answer.line}")
        return answer.output

    def answer(self, words: Sequence[str], given: bytes | BinaryIO) -> Answer:
        """Returns what the program answers to any arguments and any input."""
        try:
            begins = given if isinstance(given, bytes) else os.pread(given.fileno(), 8, 0) if given.seekable() else b""
            disk = ["--disk"] if words[0] in WITH_DISK and _VERSION_3.search(begins) else []
            ended = children.output_of([self.path, *words, *disk], given, limit=self.limit, most=MOST)
        except OSError as error:
            raise Refused(f"{self.path}: {error.strerror}") from error
        except children.TooLong as error:
            raise Refused(f"{self.path} {words[0]} prints more than any recording has") from error
        return Answer(ended.output, ended.status)

    def _ask(self, *words: str, given: bytes | BinaryIO) -> Answer:
        """Returns the same. Raises if the program failed or refused its arguments."""
        answer = self.answer(words, given)
        if answer.status not in (ACCEPTED, FALSE, REFUSED):
            said = answer.line if len(answer.output) < 100 else "a part of its answer"
            kind = Failed if answer.status == FAILED else Refused
            raise kind(f"{self.path} {words[0]} ended with status {answer.status} and {said!r}")
        return answer


def _checking(workers: int | None) -> list[str]:
    return ["check", *(["--workers", str(workers)] if workers else [])]
