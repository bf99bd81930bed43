"""Recordings, sessions and commands for the tests of the tools."""

import contextlib
import json
import os
import pty
import re
import resource
import struct
import subprocess
import sys
import tempfile
import time
import unittest
from collections.abc import Callable, Iterable, Iterator, Mapping, Sequence
from dataclasses import dataclass
from pathlib import Path
from typing import Any

from galluspa.engine.library import Library
from galluspa.engine.program import Program
from galluspa.engine.tracing import Run
from galluspa.formats.recording import Checkpoint, Event, Recording, page_of, read, table_of, write
from galluspa.process.cli import Refused
from tests.support.slowness import is_within

TOP = Path(__file__).resolve().parents[2]
TOOLS = TOP / "tools"
GALLUSPA = TOP / "galluspa"
EXAMPLES = TOP / "examples"
PROGRAM = TOP / "crates/oberon_replay/out/oberon_replay"
# The recording of version 1 with R0 = 5 after 100 instructions: 9,504 bytes.
STORED = (TOP / "crates/oberon_replay/stdin").read_bytes()
JUMP = 0xE7FFFFFF
# How many seconds a test waits for what has to happen: many times what it takes, also if other work fills the machine.
PATIENCE = 120
# What ends at once takes less of a processor, in seconds, whatever else the machine does.
AT_ONCE = 2


@dataclass(frozen=True)
class Ran:
    """What a command printed, and its exit status."""

    output: bytes
    errors: str
    status: int


def run(command: Sequence[object], text: bytes = b"", **options: Any) -> Ran:
    """Runs a command with a text as its standard input."""
    ran = subprocess.run([str(word) for word in command], input=text, capture_output=True, check=False, **options)
    return Ran(ran.stdout, ran.stderr.decode(), ran.returncode)


def galluspa(*words: object) -> Ran:
    """Runs the command of this clone."""
    return run([GALLUSPA, *words], env={**os.environ, "PYTHONDONTWRITEBYTECODE": "1"})


def tool(name: str, *words: object) -> Ran:
    """Runs a subcommand."""
    return galluspa(name, *words)


def on_terminal(name: str, *words: object) -> bytes:
    """Returns what a tool prints on standard error where that is a terminal."""
    reader, terminal = pty.openpty()
    told = b""
    try:
        with open(terminal, "wb") as errors:
            subprocess.run([GALLUSPA, name, *map(str, words)], stdout=subprocess.DEVNULL, stderr=errors, check=False)
        # A read fails once all is read, since no process has the terminal any more.
        with contextlib.suppress(OSError):
            while part := os.read(reader, 1 << 16):
                told += part
    finally:
        os.close(reader)
    return told


def record(session: dict | bytes) -> bytes:
    """Returns the recording of a session."""
    text = session if isinstance(session, bytes) else json.dumps(session).encode()
    return Program(PROGRAM).recorded(text)


def session(words: Iterable[int], checkpoints: Iterable[int], inputs: Iterable[tuple] = ()) -> dict:
    """Returns a session that begins with these words at place 0."""
    return {
        "format": "oberon-session",
        "version": 1,
        "start": {"R": [0] * 16, "H": 0, "PC": 0, "flags": 0},
        "pages": [{"at": 0, "hex": b"".join(struct.pack("<I", word) for word in words).hex()}],
        "inputs": [list(event) for event in inputs],
        "checkpoints": list(checkpoints),
    }


def claim(count: int, pages: Mapping[int, int] | None = None, **parts: Any) -> Checkpoint:
    """Returns a checkpoint with these parts, and with the first page of the pool at place 0 if no other pages are given."""
    return Checkpoint(count, table=table_of({0: 1} if pages is None else pages), **parts)


def encoded(version: int, pool: Iterable[bytes], checkpoints: Iterable[Checkpoint], events: Iterable[Event] = ()) -> bytes:
    """Returns a recording in a version; in version 1, rate and phase are left out."""
    return write(Recording(version, b"".join(pool), list(events), list(checkpoints)))


def rejoining(claimed: int) -> bytes:
    """Returns a recording that claims R5 in its first checkpoint, where the machine has 1, and is right in its second."""
    first, second = (claim(count, registers=in_register(5, value)) for count, value in ((2, claimed), (4, 1)))
    return encoded(1, [page_of(0x45000001, 0xE7FFFFFE)], [claim(0), first, second])


def run_of(text: bytes, true: range | None = None) -> Run:
    """Returns the run of a true recording, or from those of its checkpoints that are taken to be true."""
    decoded = read(text)
    return Run(Library.find(None), decoded, range(len(decoded.checkpoints)) if true is None else true)


def status_of(text: bytes) -> int:
    """Returns the exit status of the program for a recording's text: 0, 1 or 2."""
    return Program(PROGRAM).check(text).status


def group(pattern: str, text: str) -> str:
    """Returns what the first group of a pattern has, which is somewhere in a text; a dot stands for line feeds, too."""
    found = re.search(pattern, text, re.DOTALL | re.MULTILINE)
    assert found, pattern
    return found[1]


def in_register(at: int, value: int) -> tuple[int, ...]:
    """Registers of which one has a value, and all others are 0."""
    return tuple(value if other == at else 0 for other in range(16))


def calls_of(function: Callable[..., object], *arguments: object) -> int:
    """Returns how many functions, of Python and of C, a function calls: a measure of its work that does not depend on the
    machine."""
    number = 0

    def count(_frame: object, event: str, _argument: object) -> None:
        nonlocal number
        number += event in ("call", "c_call")

    sys.setprofile(count)
    try:
        function(*arguments)
    finally:
        sys.setprofile(None)
    return number


def until(is_so: Callable[[], object]) -> None:
    """Waits until something is so."""
    end = time.monotonic() + PATIENCE
    while not is_so():
        assert time.monotonic() < end, f"not in {PATIENCE} seconds"
        time.sleep(0.02)


def processor_seconds(process: int) -> float:
    """Returns how long a process has kept processors busy, with all its threads."""
    fields = Path(f"/proc/{process}/stat").read_text().rpartition(")")[2].split()
    return (int(fields[11]) + int(fields[12])) / os.sysconf("SC_CLK_TCK")


class ToolTest(unittest.TestCase):
    """A test with a folder of its own, and a way to look at commands that are refused."""

    def setUp(self) -> None:
        folder = tempfile.TemporaryDirectory()
        self.addCleanup(folder.cleanup)
        self.folder = Path(folder.name)

    def file(self, name: str, content: bytes | str) -> Path:
        """Returns a file in the test's folder."""
        path = self.folder / name
        path.parent.mkdir(parents=True, exist_ok=True)
        path.write_bytes(content if isinstance(content, bytes) else content.encode())
        return path

    def executable(self, name: str, script: str) -> Path:
        """Returns a script of the shell in the test's folder."""
        path = self.file(name, f"#!/bin/sh\n{script}\n")
        path.chmod(0o755)
        return path

    def recorded(
        self, words: Iterable[int], checkpoints: Iterable[int], inputs: Iterable[tuple] = (), name: str = "it.orsr"
    ) -> Path:
        """Returns the recording of words from place 0 on."""
        return self.file(name, record(session(words, checkpoints, inputs)))

    def assembled(self, source: str | Path, name: str = "it", **changed: object) -> Path:
        """Returns the recording of a source, with its session and its symbol file beside it; parts of the session may be changed."""
        path = source if isinstance(source, Path) else self.file(f"{name}.asm", source)
        made, recording = self.folder / f"{name}.json", self.folder / f"{name}.orsr"
        ran = tool("assemble", path, "-o", made, "--symbols", recording.with_suffix(".sym"))
        self.assertEqual(ran.status, 0, ran.errors)
        return self.file(recording.name, record(json.loads(made.read_bytes()) | changed))

    def lines_of(self, name: str, *words: object, status: int = 0, errors: str | None = "") -> list[str]:
        """Returns the lines that a tool prints, which ends with this status, and with these words on standard error."""
        ran = tool(name, *words)
        self.assertEqual((ran.status, ran.errors), (status, ran.errors if errors is None else errors), ran.output)
        return ran.output.decode().splitlines()

    @contextlib.contextmanager
    def takes_at_most(self, seconds: float) -> Iterator[None]:
        """What is done takes at most this many seconds of a fast processor, in this process and in those that it ended: what else the
        machine does meanwhile does not count."""
        start = sum(os.times()[:4])
        yield
        took = sum(os.times()[:4]) - start
        self.assertTrue(is_within(took, seconds), f"{took:.1f} s")

    def ended_at_once(self, begun: "subprocess.Popen[bytes]", number: int) -> Ran:
        """Returns what a process printed that ends at once, by a signal."""
        before, spent = resource.getrusage(resource.RUSAGE_CHILDREN), processor_seconds(begun.pid)
        begun.send_signal(number)
        output, errors = begun.communicate(timeout=PATIENCE)
        after = resource.getrusage(resource.RUSAGE_CHILDREN)
        took = after.ru_utime + after.ru_stime - before.ru_utime - before.ru_stime - spent
        self.assertTrue(is_within(took, AT_ONCE), f"{took:.1f} s")
        return Ran(output or b"", (errors or b"").decode(), begun.returncode)

    def assert_raises(self, call: Callable[[], object], told: str) -> None:
        """A call is refused, in one line that has these words."""
        with self.assertRaises(Refused) as refused:
            call()
        self.assertIn(told, str(refused.exception))
        self.assertTrue(str(refused.exception).isprintable())

    def assert_refused(self, ran: Ran, *told: str) -> None:
        """A command printed nothing, told what is wrong in one line, and ended with status 2."""
        self.assertEqual(ran.status, 2, ran.errors)
        self.assertEqual(ran.output, b"")
        self.assertEqual(len(ran.errors.splitlines()), 1, ran.errors)
        for words in told:
            self.assertIn(words, ran.errors)
