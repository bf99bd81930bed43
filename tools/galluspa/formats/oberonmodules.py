"""Reads the list of loaded modules that Project Oberon (2013) keeps in memory, and makes symbols of it.

The layout is that of the record ModDesc in the published source of Modules.Mod, in which each address is one word. A
memory may hold anything: what is no such list is refused in one line.
"""

import re
import struct
from collections.abc import Iterator
from dataclasses import dataclass

from galluspa.formats.recording import MEMORY_BYTES
from galluspa.formats.symbols import CODE, DATA, Symbol, shown
from galluspa.process.cli import Refused

# The word that has the address of the module that was loaded last.
ROOT_AT = 20
# A descriptor: the name, then next, key, num, size, refcnt, data, code, imp, cmd, ent, ptr and a word without use.
NAME_BYTES = 32
WORDS = struct.Struct("<12I")
DESCRIPTOR_BYTES = 80
# A system has far fewer modules, and a module far fewer commands.
MOST_MODULES, MOST_COMMANDS = 1000, 1000
# A name as the compiler of Oberon has it.
IDENTIFIER = re.compile(rb"[A-Za-z][A-Za-z0-9]{0,30}")


@dataclass(frozen=True)
class Module:
    """A loaded module: its name, where its data and its code begin and end, and its commands, each with the address of
    its first instruction."""

    name: str
    data: int
    code: int
    end: int
    commands: tuple[tuple[str, int], ...]


def modules_of(memory: bytes) -> Iterator[Module]:
    """Yields the modules in a memory that has all its bytes, from the one that was loaded last on."""
    at, seen = _word(memory, ROOT_AT), set[int]()
    if not at:
        raise Refused(f"the word at byte {ROOT_AT} is 0: no module is loaded, or this is no memory of Project Oberon")
    while at:
        if at in seen:
            raise Refused(f"the list of modules comes back to its descriptor at {at:X} (hexadecimal)")
        if len(seen) == MOST_MODULES:
            raise Refused(f"the list of modules has more than {MOST_MODULES:,}")
        seen.add(at)
        if at % 4 or at + DESCRIPTOR_BYTES > MEMORY_BYTES:
            raise Refused(f"the list of modules leads to {at:X} (hexadecimal), where no descriptor can be")
        following, *_ = WORDS.unpack_from(memory, at + NAME_BYTES)
        # The name of a module that was removed from memory is empty; its descriptor stays in the list.
        if memory[at]:
            yield _module(memory, at)
        at = following


def _module(memory: bytes, at: int) -> Module:
    """Returns the module of a descriptor."""
    name = _name(memory[at : at + NAME_BYTES], f"the descriptor at {at:X} (hexadecimal) has no name of a module")
    _, _, _, _, _, data, code, end, commands, *_ = WORDS.unpack_from(memory, at + NAME_BYTES)
    if not data <= code <= end <= MEMORY_BYTES or code % 4 or code >= MEMORY_BYTES:
        raise Refused(
            f"module {name}: data, code and imports at {data:X}, {code:X} and {end:X} (hexadecimal) are not "
            "in this order in memory"
        )
    return Module(name, data, code, end, tuple(_commands(memory, name, commands, range(code, end))))


def _commands(memory: bytes, module: str, at: int, code: range) -> Iterator[tuple[str, int]]:
    """Yields the commands of a module: each a name that ends with a byte 0, filled up with more of these to a multiple
    of 4, and a word, the offset of its code. A byte 0 comes after the last."""
    for _ in range(MOST_COMMANDS):
        if at >= MEMORY_BYTES:
            raise Refused(f"module {module}: the list of commands leads to {at:X} (hexadecimal), beyond the memory")
        if not memory[at]:
            return
        name = _name(memory[at : at + NAME_BYTES], f"module {module}: no name of a command is at {at:X} (hexadecimal)")
        at = (at + len(name)) // 4 * 4 + 4
        place = code.start + _word(memory, at)
        if place not in code or place % 4:
            raise Refused(f"module {module}: command {name} is at {place:X} (hexadecimal), outside of its code")
        yield name, place
        at += 4
    raise Refused(f"module {module} has more than {MOST_COMMANDS:,} commands")


def _name(content: bytes, mistake: str) -> str:
    """Returns the name at the beginning of some bytes, which has to end in them."""
    name, end, _ = content.partition(b"\0")
    if not end or not IDENTIFIER.fullmatch(name):
        raise Refused(f"{mistake}: {shown(name.decode('latin-1'))}")
    return name.decode("ascii")


def _word(memory: bytes, at: int) -> int:
    """Returns the word at a byte address. Raises Refused for an address outside memory."""
    if at + 4 > MEMORY_BYTES:
        raise Refused(f"the list of modules leads to {at:X} (hexadecimal), beyond the memory")
    return struct.unpack_from("<I", memory, at)[0]


def symbols_of(memory: bytes) -> Iterator[Symbol]:
    """Yields the symbols of the modules in a memory: of each its code, its data, and its commands."""
    for it in modules_of(memory):
        if it.code > it.data:
            yield Symbol(it.data, it.code - it.data, DATA, f"{it.name}:data")
        yield Symbol(it.code, it.end - it.code, CODE, it.name)
        yield from (Symbol(at, 0, CODE, f"{it.name}.{name}") for name, at in it.commands)
