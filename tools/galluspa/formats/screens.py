"""Screens as the program draws them, in binary PBM, and one of them as a PNG."""

import importlib
import struct
import sys
import zlib
from types import ModuleType

from galluspa.process.cli import Refused

WIDTH, HEIGHT = 1024, 768
# How a screen begins, as the program draws it.
HEADER = b"P4\n1024 768\n"
ROW, HEAD = WIDTH // 8, len(HEADER)
INVERTED = bytes(255 - it for it in range(256))


def picture(pbm: bytes) -> bytes:
    """Returns a screen as a PNG."""
    dots = pbm[HEAD:].translate(INVERTED)
    # Each line comes after the number of its filter, which is 0.
    rows = b"".join(b"\0" + dots[at : at + ROW] for at in range(0, len(dots), ROW))
    head = struct.pack(">IIBBBBB", WIDTH, HEIGHT, 1, 0, 0, 0, 0)
    return b"\x89PNG\r\n\x1a\n" + _chunk(b"IHDR", head) + _chunk(b"IDAT", zlib.compress(rows, 9)) + _chunk(b"IEND", b"")


def _chunk(kind: bytes, content: bytes) -> bytes:
    return struct.pack(">I", len(content)) + kind + content + struct.pack(">I", zlib.crc32(kind + content))


def pillow() -> ModuleType:
    """Returns the module of pictures of Pillow: imported on first use, so that all else runs without it."""
    try:
        return importlib.import_module("PIL.Image")
    except ModuleNotFoundError as error:
        is_apart = sys.prefix != sys.base_prefix
        advice = "pip install Pillow" if is_apart else "apt-get install python3-pil"
        raise Refused(f"{sys.executable} has no {error.name}: {advice}") from error
