"""Runs other programs for the tools. Each is bounded in its time and in what it prints, and none outlives its tool."""

import contextlib
import os
import selectors
import signal
import subprocess
import threading
from collections.abc import Callable, Iterable, Iterator, Sequence
from dataclasses import dataclass
from pathlib import Path
from typing import IO, BinaryIO, TypeVar, cast

from galluspa.process.timelimit import Limit

AT_ONCE = 1 << 20
# No wait is longer: a signal that comes just before a wait begins does not end it, and is handled afterwards.
WAIT_SECONDS = 0.2
# By this number prctl asks for a signal when the parent ends.
PARENT_DEATH_SIGNAL = 1
T = TypeVar("T")
U = TypeVar("U")


class TooLong(Exception):
    """The output of a program exceeds its limit."""


class Signalled(BaseException):
    """A signal ends the tool: it starts no more programs, and waits for none."""

    def __init__(self, number: int) -> None:
        super().__init__(number)
        self.status = 128 + number


_running: set[subprocess.Popen[bytes]] = set()
_signalled: Signalled | None = None
_is_shielded = False


@dataclass(frozen=True)
class Ended:
    """What a program printed on standard output, and its exit status; below 0 it is the signal that ended it."""

    output: bytes
    status: int


def stop(number: int) -> None:
    """Kills all children, prevents new ones, and raises `Signalled`, once the main thread has done what an
    exception must not break. For the handler of a signal: it waits for nothing."""
    global _signalled
    _signalled = Signalled(number)
    for child in list(_running):
        _kill(child)
    if not _is_shielded:
        raise _signalled


def signalled() -> Signalled | None:
    """Returns the signal that ends the tool, if one does."""
    return _signalled


def begin_anew(parent: int) -> None:
    """Clears, in a forked process, the children of its parent, and ends it when its parent ends. Raises `Signalled` if it is
    told to end already."""
    # Imported here, since most tools do without, and begin sooner.
    import ctypes

    global _is_shielded
    _running.clear()
    _is_shielded = False
    # Linux alone has this call. Elsewhere a process whose parent was killed ends at its next message.
    if prctl := getattr(ctypes.CDLL(None), "prctl", None):
        prctl(PARENT_DEATH_SIGNAL, signal.SIGTERM)
    if is_orphan(parent):
        stop(signal.SIGTERM)
    if _signalled:
        raise _signalled


def is_orphan(parent: int) -> bool:
    """Returns whether the parent of this process has ended, of which this was the number."""
    return os.getppid() != parent


def is_ending() -> bool:
    """Returns whether a signal ends the tool. Threads that work for long poll this."""
    return _signalled is not None


@contextlib.contextmanager
def shielded() -> Iterator[None]:
    """What an exception must not break in the main thread: to begin a program, and to wait for threads. Raises `Signalled` after it
    if a signal has come by then."""
    with _shield():
        yield
    if _signalled:
        raise _signalled


@contextlib.contextmanager
def clearing_up() -> Iterator[None]:
    """The same for what is done at the end, also while `Signalled` is raised: a signal that came before is not raised again, since
    nobody takes an exception of a generator that Python closes, and Python complains of it. One that comes meanwhile is raised."""
    known = _signalled
    with _shield():
        yield
    if _signalled is not known and _signalled:
        raise _signalled


@contextlib.contextmanager
def _shield() -> Iterator[None]:
    """Lets no signal raise an exception in the main thread."""
    global _is_shielded
    is_main = threading.current_thread() is threading.main_thread()
    was_shielded = _is_shielded
    if is_main:
        _is_shielded = True
    try:
        yield
    finally:
        if is_main:
            _is_shielded = was_shielded


def output_of(command: Sequence[str | Path], given: bytes | BinaryIO = b"", *, limit: Limit | None, most: int) -> Ended:
    """Runs a program over these bytes, or over a file, as its standard input. Refuses, and kills it, if the time is
    over first, or if it prints more than `most` bytes. Raises OSError if it can't be begun."""
    if limit:
        limit.left()
    with _begun(command, subprocess.PIPE if isinstance(given, bytes) else given) as child:
        try:
            output = _exchanged(child, given if isinstance(given, bytes) else b"", limit, most)
            return Ended(output, _status(child, limit))
        finally:
            if child.returncode is None:
                _kill(child)
            _running.discard(child)


@contextlib.contextmanager
def kept(command: Sequence[str | Path]) -> Iterator[subprocess.Popen[bytes]]:
    """Runs a program for as long as it is needed, with pipes to its standard input and from its standard output, which do
    not block; kills it then. Raises OSError if it can't be begun."""
    with _begun(command, subprocess.PIPE) as child:
        try:
            for pipe in (child.stdin, child.stdout):
                os.set_blocking(cast(IO[bytes], pipe).fileno(), False)
            yield child
        finally:
            _kill(child)
            _running.discard(child)
            # What was not written is dropped.
            with contextlib.suppress(OSError):
                cast(IO[bytes], child.stdin).close()


def in_parallel(jobs: int, function: Callable[[T], U], items: Iterable[T]) -> Iterator[U]:
    """Maps a function over items in parallel, and yields the results in their order. Programs whose answers nobody takes
    any more are killed."""
    # Imported here, since most tools do without, and begin sooner.
    from concurrent.futures import ThreadPoolExecutor, wait

    pool = ThreadPoolExecutor(jobs)
    try:
        with shielded():
            futures = [pool.submit(function, it) for it in items]
        for future in futures:
            is_done = False
            while not is_done:
                with shielded():
                    is_done = bool(wait([future], WAIT_SECONDS).done)
            with shielded():
                result = future.result()
            yield result
    finally:
        for child in list(_running):
            _kill(child)
        with clearing_up():
            pool.shutdown(cancel_futures=True)


def _begun(command: Sequence[str | Path], source: int | BinaryIO) -> subprocess.Popen[bytes]:
    """Begins a program, and notes that it runs."""
    with shielded():
        # A group of its own, so that what it has begun ends with it, too.
        child = subprocess.Popen(command, stdin=source, stdout=subprocess.PIPE, process_group=0)
        _running.add(child)
        if _signalled:
            _kill(child)
            child.wait()
    return child


def _kill(child: subprocess.Popen[bytes]) -> None:
    if child.returncode is None:
        with contextlib.suppress(ProcessLookupError, PermissionError):
            os.killpg(child.pid, signal.SIGKILL)


def _status(child: subprocess.Popen[bytes], limit: Limit | None) -> int:
    """Returns the status of a program that prints nothing more, once it has ended."""
    while True:
        with contextlib.suppress(subprocess.TimeoutExpired):
            return child.wait(min(WAIT_SECONDS, limit.left()) if limit else WAIT_SECONDS)


def _exchanged(child: subprocess.Popen[bytes], given: bytes, limit: Limit | None, most: int) -> bytes:
    """Returns what a program prints, while it is given bytes."""
    output, left, printed = bytearray(), memoryview(given), cast(IO[bytes], child.stdout)
    with selectors.DefaultSelector() as ready:
        ready.register(printed, selectors.EVENT_READ)
        if child.stdin:
            os.set_blocking(child.stdin.fileno(), False)
            ready.register(child.stdin, selectors.EVENT_WRITE)
        while ready.get_map():
            for key, _ in ready.select(min(WAIT_SECONDS, limit.left()) if limit else WAIT_SECONDS):
                if child.stdin and key.fileobj is child.stdin:
                    left = left[_written(child.stdin, left) :]
                    if not left:
                        ready.unregister(child.stdin)
                        child.stdin.close()
                elif part := os.read(printed.fileno(), AT_ONCE):
                    output += part
                else:
                    ready.unregister(printed)
            if len(output) > most:
                raise TooLong
    return bytes(output)


def _written(pipe: IO[bytes], content: memoryview) -> int:
    """Returns how many bytes are done with once a pipe took what it could: all of them if its reader is gone."""
    try:
        return os.write(pipe.fileno(), content[:AT_ONCE]) if content else 0
    except BlockingIOError:
        return 0
    except BrokenPipeError:
        return len(content)
