"""Reads the image of an SD card of Project Oberon (2013), and loads its boot area as the boot loader does.

A card has blocks of 512 bytes, and its file system begins with the directory, in block 80002H. An image is of a whole card, or
begins with the file system. The boot loader reads the blocks from 80004H on to address 0: the first of them has the limit up to
which it reads, in the word at byte 16. Then it writes the end of the memory that programs may use, and where their stack begins.
"""

import struct
from pathlib import Path

from galluspa.formats.recording import MEMORY_BYTES
from galluspa.process.cli import Refused, opened_file

BLOCK = 512
# The mark of a directory: the first word of a file system.
DIRECTORY = 0x9B1EA38D
# The numbers of the blocks at which the file system and the boot area begin.
FILE_SYSTEM, BOOT_AREA = 0x80002, 0x80004
# Where the boot area has the limit up to which it is loaded.
LIMIT_AT = 16
# What the boot loader writes, by address: the end of the memory that programs may use, and the origin of the stack.
STACK = 0x80000
WRITTEN = {12: 0xE7EF0, 24: STACK}
# The registers as the boot loader leaves them: R12 has the table of modules, R14 is the stack pointer.
REGISTERS = {12: 0x20, 14: STACK}


def loaded(path: Path) -> bytes:
    """Returns the memory that the boot loader makes of a card's image."""
    start = _file_system_of(path)
    boot_area = BLOCK * (BOOT_AREA - FILE_SYSTEM) + start
    limit = _word(path, boot_area + LIMIT_AT)
    if limit is None or not max(WRITTEN) + 4 <= limit <= MEMORY_BYTES:
        found = "the image ends before it" if limit is None else f"it is {limit:,}"
        least, at = max(WRITTEN) + 4, boot_area + LIMIT_AT
        raise Refused(f"{path}: the limit of the boot area, at byte {at:,}, has to be {least} to {MEMORY_BYTES:,}: {found}")
    memory = bytearray(_bytes(path, boot_area, -(-limit // BLOCK) * BLOCK))
    if len(memory) < limit:
        raise Refused(
            f"{path}: the boot area has {limit:,} bytes from byte {boot_area:,} on, and the image {len(memory):,} of them"
        )
    for address, value in WRITTEN.items():
        struct.pack_into("<I", memory, address, value)
    return bytes(memory)


def _file_system_of(path: Path) -> int:
    """Returns the byte at which the file system of an image begins."""
    places = (0, BLOCK * FILE_SYSTEM)
    words = [_word(path, at) for at in places]
    if DIRECTORY in words:
        return places[words.index(DIRECTORY)]
    found = " and ".join(f"{'no bytes' if word is None else f'{word:08X}'} at byte {at:,}" for at, word in zip(places, words))
    raise Refused(
        f"{path}: no card of Project Oberon (2013): the directory begins with the word {DIRECTORY:08X}, at byte {places[0]} of an "
        f"image that begins with the file system, or at byte {places[1]:,} of a whole card: found {found}"
    )


def _word(path: Path, at: int) -> int | None:
    """Returns the word at a byte of a file, or None if the file ends before it."""
    found = _bytes(path, at, 4)
    return int.from_bytes(found, "little") if len(found) == 4 else None


def _bytes(path: Path, at: int, most: int) -> bytes:
    """Returns the bytes of a file from one on, at most `most`."""
    with opened_file(path) as file:
        try:
            file.seek(at)
            return file.read(most)
        except OSError as error:
            raise Refused(f"{path}: {error.strerror}") from error
