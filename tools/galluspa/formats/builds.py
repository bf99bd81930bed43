"""Says whether a symbol file is of the build that is looked at: by sums of its code and of its sources, which `galluspa assemble`
writes into it as comments, or by where calls lead (docs/symbols.md)."""

import re
import stat
import zlib
from collections.abc import Callable, Iterable, Iterator, Sequence
from itertools import groupby
from pathlib import Path

from galluspa.formats.instructions import branches_to
from galluspa.formats.symbols import Symbols
from galluspa.process.cli import complain
from galluspa.process.escapes import printable

CODE_SUM = re.compile(rb"^# code crc32 ([0-9A-F]{8}) ([0-9A-F]{1,8})-([0-9A-F]{1,8})\r?$", re.MULTILINE)
SOURCE_SUM = re.compile(rb"^# source crc32 ([0-9A-F]{8}) (\S.{0,254}?)\r?$", re.MULTILINE)
# The most bytes of a source, the most sources that are read, and the most that are named.
MOST_BYTES, MOST_SOURCES, SHOWN = 4 << 20, 1000, 3
# The four highest bits of a call by an offset; a file does not fit if one call in ONE_IN leads to no name.
CALL_BY_OFFSET, ONE_IN = 15, 20


def sums_of(memory: bytes, instructions: Iterable[int], sources: Iterable[str]) -> Iterator[str]:
    """Yields the lines of a symbol file that have the sums of a build: of each stretch of instructions, which are given by their
    addresses, and of each source that is a file."""
    places = enumerate(sorted(instructions))
    for _, stretch in groupby(places, lambda it: it[1] - 4 * it[0]):
        addresses = [at for _, at in stretch]
        first, end = addresses[0], addresses[-1] + 4
        yield f"# code crc32 {zlib.crc32(memory[first:end]):08X} {first:X}-{end:X}"
    for name in dict.fromkeys(sources):
        content = source_content(Path(name))
        if content is not None and printable(name) == name.strip() and len(name) <= 255:
            yield f"# source crc32 {zlib.crc32(content):08X} {name}"


def source_content(path: Path) -> bytes | None:
    """Returns the bytes of a source; None of anything but a regular file of a proper size."""
    try:
        about = path.stat()
        if not stat.S_ISREG(about.st_mode) or about.st_size > MOST_BYTES:
            return None
        return path.read_bytes()
    except (OSError, ValueError):
        return None


def edited_sources(content: bytes, folders: Sequence[Path]) -> list[str]:
    """Returns the sources that differ from those of which a symbol file has the sums. Skips a source that is in none of the
    folders."""
    found = []
    for wanted, written in SOURCE_SUM.findall(content)[:MOST_SOURCES]:
        name = written.decode("utf-8", "replace")
        there = next((it for it in (source_content(folder / name) for folder in folders) if it is not None), None)
        if there is not None and zlib.crc32(there) != int(wanted, 16):
            found.append(name)
    return found


def tell_edited(path: Path, content: bytes) -> None:
    """Says on standard error which sources were edited since a symbol file was made."""
    if edited := edited_sources(content, (Path(), path.parent)):
        more = f" and {len(edited) - SHOWN:,} more" if len(edited) > SHOWN else ""
        complain(f"{path}: {', '.join(printable(it) for it in edited[:SHOWN])}{more} edited since: lines may be others")


def misfit(symbols: Symbols, memory: bytes) -> str:
    """Returns how the names of a symbol file do not fit the memory of an initial state; nothing if they do, or if that is not
    known. A file without sums of its code is only compared if it has source lines: then it names each procedure."""
    sums = CODE_SUM.findall(symbols.content)
    is_same = all(zlib.crc32(memory[int(first, 16) : int(end, 16)]) == int(wanted, 16) for wanted, first, end in sums)
    if sums and is_same or not sums and not symbols.has_lines:
        return ""
    procedures = _procedures(symbols, memory)
    elsewhere = procedures - set(symbols.begins())
    if elsewhere and (sums or ONE_IN * len(elsewhere) >= len(procedures)):
        number = f"{len(elsewhere):,} of {len(procedures):,} procedures begin elsewhere"
        return f"{symbols.origin} does not fit this memory: {number}"
    return f"{symbols.origin} does not fit this memory: its code is another one" if sums else ""


def _procedures(symbols: Symbols, memory: bytes) -> set[int]:
    """Returns the addresses to which the calls in what has names of code lead."""
    words = memoryview(memory).cast("I")
    places = (at for it in symbols.code() for at in range(it.start // 4, min(it.stop, len(memory)) // 4))
    calls = (branches_to(words[at], at) for at in places if words[at] >> 28 == CALL_BY_OFFSET)
    return {4 * it for it in calls if it is not None and it < len(words) and words[it]}


def tell_misfit(symbols: Symbols, memory: Callable[[], bytes]) -> None:
    """Says on standard error, once for a symbol file, that it does not fit the memory of an initial state."""
    if symbols and not symbols.is_told and (told := misfit(symbols, memory())):
        symbols.is_told = True
        complain(told)
