"""Another emulator as a persistent process for many sessions: each goes to its standard input, and the answer, the state
at its end, comes from its standard output (docs/testing-an-emulator.md has the bytes)."""

import contextlib
import os
import select
import shlex
import signal
import struct
import subprocess
import time
from collections.abc import Sequence
from dataclasses import dataclass
from typing import IO, cast

from galluspa.emulators.oneshot import Shown
from galluspa.emulators.trials import STATE, Trial
from galluspa.formats import states
from galluspa.formats.recording import MEMORY_BYTES, PAGE_BYTES, PLACES
from galluspa.process import children
from galluspa.process.cli import Refused

# An answer begins with the session's number, how many bytes were sent, and how many pages are not zero.
HEAD = struct.Struct("<3I")
KEYS, KEYS_AT = struct.Struct("<I"), 27 * 4
NUMBERS = 1 << 32
PLACED = struct.Struct(f"<I{PAGE_BYTES}s")
AT_ONCE = 1 << 16
STATE_PARTS = (*states.REGISTERS, *(name for name in states.WORDS if name != "disk"))
# Exit timeout, in seconds.
ENDING_SECONDS = 1.0


@dataclass(frozen=True)
class Answer:
    """What a kept emulator has at the end of a session, as it says so: its state, the bytes that it sent, and its pages."""

    state: bytes
    sent: bytes
    pages: dict[int, bytes]

    def shown(self) -> Shown:
        """Returns the same by the names of parts."""
        *words, number_of_keys, keys = STATE.unpack(self.state)
        memory = bytearray(MEMORY_BYTES)
        for slot, page in self.pages.items():
            memory[slot * PAGE_BYTES : (slot + 1) * PAGE_BYTES] = page
        parts: dict[str, int | list[int]] = {**dict(zip(STATE_PARTS, words, strict=True)), "keys": list(keys[:number_of_keys])}
        return Shown(parts, bytes(memory), None, self.sent)


class KeptEmulator:
    """A process that answers sessions; it restarts on request."""

    def __init__(self, command: Sequence[str], seconds: float) -> None:
        self._words = command
        self._seconds = seconds
        self._number = 1
        self._stack = contextlib.ExitStack()
        self._child: subprocess.Popen[bytes] | None = None

    @property
    def command(self) -> str:
        """Returns the command as it is typed."""
        return shlex.join(self._words)

    def close(self) -> None:
        """Ends the process."""
        self._child = None
        self._stack.close()

    def answer(self, trial: Trial) -> Answer:
        """Returns what it answers to a session."""
        return self.answers([trial])[0]

    def answers(self, trials: Sequence[Trial]) -> list[Answer]:
        """Returns what it answers to sessions, which are written all at once; refused if it doesn't answer as it has to,
        and then the process is ended."""
        try:
            return self._answers(trials)
        except BaseException:
            self.close()
            raise

    def _answers(self, trials: Sequence[Trial]) -> list[Answer]:
        first, self._number = self._number, self._number + len(trials)
        requests = b"".join(trial.request(number % NUMBERS) for number, trial in enumerate(trials, first))
        exchange = _Exchange(self.command, self._begun(), requests, self._seconds)
        answers = [self._read(exchange, number % NUMBERS, trial.count) for number, trial in enumerate(trials, first)]
        if more := exchange.more:
            raise Refused(f"{self.command}: answers with {more:,} bytes too many")
        return answers

    def _read(self, exchange: "_Exchange", wanted: int, count: int) -> Answer:
        """Returns the next answer, to the session with the number `wanted`, which has `count` instructions."""
        number, sent, many = HEAD.unpack(exchange.read(HEAD.size))
        if number != wanted:
            raise Refused(f"{self.command}: session number {number}, expected {wanted}")
        if sent > count or many > PLACES:
            raise Refused(f"{self.command}: answers with {sent:,} bytes that were sent, and {many:,} pages")
        state, content = exchange.read(STATE.size), exchange.read(sent)
        pages: list[tuple[int, bytes]] = [(slot, page) for slot, page in PLACED.iter_unpack(exchange.read(many * PLACED.size))]
        keys: int = KEYS.unpack_from(state, KEYS_AT)[0]
        if keys > 16:
            raise Refused(f"{self.command}: answers with {keys:,} keys that wait, and there is room for 16")
        if any(one >= other for (one, _), (other, _) in zip(pages, [*pages[1:], (PLACES, b"")])):
            raise Refused(f"{self.command}: answers with pages that are not in order, or not below {PLACES:,}")
        # The places of keys that do not wait say nothing.
        return Answer(state[: KEYS_AT + KEYS.size + keys].ljust(STATE.size, b"\0"), content, dict(pages))

    def _begun(self) -> subprocess.Popen[bytes]:
        if self._child is None:
            try:
                self._child = self._stack.enter_context(children.kept(self._words))
            except OSError as error:
                raise Refused(f"{self._words[0]}: {error.strerror}") from error
        return self._child


class _Exchange:
    """Bytes that are written to a process, and those that it prints meanwhile."""

    def __init__(self, command: str, child: subprocess.Popen[bytes], given: bytes, seconds: float) -> None:
        self._command, self._child, self._seconds = command, child, seconds
        self._writer, self._reader = (cast(IO[bytes], it).fileno() for it in (child.stdin, child.stdout))
        self._end = time.monotonic() + seconds
        self._content, self._at = bytearray(), 0
        self._left = memoryview(given)
        self._write()

    @property
    def more(self) -> int:
        """Returns how many bytes were printed that are not read yet."""
        return len(self._content) - self._at

    def read(self, number: int) -> bytes:
        """Returns the next `number` bytes; waits for them."""
        while self.more < number:
            self._wait()
        self._at += number
        return bytes(self._content[self._at - number : self._at])

    def _wait(self) -> None:
        """Reads and writes what can be read and written."""
        poll = select.poll()
        poll.register(self._reader, select.POLLIN)
        if self._left:
            poll.register(self._writer, select.POLLOUT)
        seconds = self._end - time.monotonic()
        if seconds <= 0:
            raise Refused(f"{self._command}: no answer in {self._seconds:g} s")
        for descriptor, _ in poll.poll(1000 * min(seconds, children.WAIT_SECONDS)):
            if descriptor == self._writer:
                self._write()
            elif part := os.read(self._reader, AT_ONCE):
                self._content += part
            else:
                raise Refused(f"{self._command}: {_ended(self._child)}")

    def _write(self) -> None:
        try:
            self._left = self._left[os.write(self._writer, self._left) :]
        except BlockingIOError:
            pass
        except BrokenPipeError:
            raise Refused(f"{self._command}: {_ended(self._child)}") from None


def _ended(child: subprocess.Popen[bytes]) -> str:
    """Returns how a process ended, or closed its pipes."""
    try:
        status = child.wait(ENDING_SECONDS)
    except subprocess.TimeoutExpired:
        return "closes its standard input or output before it answers"
    if status < 0:
        return f"ended by signal {-status} ({signal.strsignal(-status) or 'unknown'}) before it answers"
    return f"ended with status {status} before it answers"
