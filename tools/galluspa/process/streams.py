"""The standard streams of a tool: closed ones, and what they cannot write."""

import io
import os
import sys
from typing import TextIO


def open_streams() -> bool:
    """Makes sure that no opened file takes the place of a closed standard stream, and that what can't be written, or read, in the
    encoding of a stream is escaped. Returns whether standard output is open."""
    is_open = sys.stdout is not None
    while (place := os.open(os.devnull, os.O_RDWR)) <= 2:
        pass
    os.close(place)
    sys.stdin = sys.stdin or open(0, closefd=False)
    sys.stderr = sys.stderr or open(2, "w", closefd=False)
    sys.stdout = sys.stdout or open(1, "w", closefd=False)
    sys.stdout, sys.stderr = _whole(sys.stdout), _whole(sys.stderr)
    for stream in (sys.stdout, sys.stderr):
        escape_unwritable(stream)
    if isinstance(sys.stdin, io.TextIOWrapper):
        sys.stdin.reconfigure(errors="surrogateescape")
    return is_open


def _whole(stream: TextIO) -> TextIO:
    """Returns a stream that writes all that is printed, each line at once, or fails. If Python buffers nothing
    (PYTHONUNBUFFERED, `python3 -u`), its own stream drops what a disk that is getting full, or a pipe, did not take."""
    raw = getattr(stream, "buffer", None)
    if not isinstance(raw, io.RawIOBase):
        return stream
    return io.TextIOWrapper(io.BufferedWriter(raw), stream.encoding, stream.errors, line_buffering=True)


def escape_unwritable(stream: TextIO, encoding: str | None = None) -> None:
    """Makes a stream escape what its encoding cannot write; and sets that encoding, if one is given."""
    if isinstance(stream, io.TextIOWrapper):
        stream.reconfigure(encoding=encoding, errors="backslashreplace")


def drop(descriptor: int) -> None:
    """Drops what is left for a stream that cannot be written: Python would try it again when it ends, and end with 120."""
    os.dup2(os.open(os.devnull, os.O_WRONLY), descriptor)
