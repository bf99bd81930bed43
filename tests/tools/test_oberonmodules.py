"""galluspa symbols --oberon: a list of modules, made as Modules.Mod of Project Oberon (2013) makes it; memories that have none."""

import json
import struct
from collections.abc import Mapping, Sequence
from typing import Any

from galluspa.formats.oberonmodules import MOST_MODULES, modules_of
from galluspa.formats.symbolfiles import parsed
from galluspa.process.cli import Refused
from tests.tools.samples import GALLUSPA, JUMP, ToolTest, record, run, session, tool

MEMORY_BYTES = 1 << 20
MODULES: Sequence[tuple[str, Mapping[str, int]]] = (
    ("Kernel", {}),
    ("Texts", {}),
    ("Oberon", {}),
    ("System", {"Open": 8, "Directory": 24, "ShowCommandsOfMod": 40}),
)


class Loader:
    """Loads modules into a memory as Modules.Load does: the descriptor, data, code, imports, commands, entries, pointers."""

    def __init__(self) -> None:
        self.memory = bytearray(MEMORY_BYTES)
        self.root, self.free = 0, 0x2000
        self.places: dict[str, int] = {}

    def put(self, at: int, *words: int) -> None:
        struct.pack_into(f"<{len(words)}I", self.memory, at, *words)

    def load(self, name: str, commands: Mapping[str, int], data: int = 64, code: int = 128) -> None:
        at = self.free
        begin = at + 80
        imports = begin + data + code
        names = imports + 8
        place = names
        for command, offset in commands.items():
            text = command.encode() + b"\0"
            text += bytes(-len(text) % 4)
            self.memory[place : place + len(text)] = text
            self.put(place + len(text), offset)
            place += len(text) + 4
        entries = place + 4
        self.memory[at : at + 32] = name.encode().ljust(32, b"\0")
        head = (self.root, 0x1234, len(self.places) + 1, entries + 64 - at, 0)
        self.put(at + 32, *head, begin, begin + data, imports, names, entries, entries + 8, 0)
        self.root = self.places[name] = at
        self.free = (entries + 64 + 31) // 32 * 32
        self.put(20, self.root)


def loaded() -> Loader:
    """Returns a memory with some modules."""
    loader = Loader()
    for name, commands in MODULES:
        loader.load(name, commands)
    return loader


class ModulesTest(ToolTest):
    def test_modules_and_commands_have_their_addresses(self) -> None:
        loader = loaded()
        found = list(modules_of(bytes(loader.memory)))
        self.assertEqual([it.name for it in found], ["System", "Oberon", "Texts", "Kernel"])
        for it in found:
            at = loader.places[it.name]
            self.assertEqual((it.data, it.code, it.end), (at + 80, at + 144, at + 272))
            self.assertEqual(dict(it.commands), {name: at + 144 + offset for name, offset in dict(MODULES)[it.name].items()})

    def test_a_symbol_file_is_made_of_a_recording_a_session_and_an_image(self) -> None:
        loader = loaded()
        image = self.file("it.bin", bytes(loader.memory))
        shown = {at: bytes(loader.memory[at : at + 1024]) for at in range(0, MEMORY_BYTES, 1024)}
        pages = [{"at": at // 1024, "hex": content.hex()} for at, content in shown.items() if any(content)]
        made: dict[str, Any] = {**session([JUMP], [9]), "pages": pages}
        # The first instruction removes System from the list, as Modules.Free does with its name.
        at = loader.places["System"]
        words = [0x40000000 | at, 0xA1000000, JUMP]
        program = {"at": 0x80000 // 1024, "hex": struct.pack("<3I", *words).hex()}
        made["start"] = {**made["start"], "PC": 0x80000 // 4}
        text = record({**made, "pages": [*pages, program]})
        printed = tool("symbols", "--oberon", image).output
        ran = tool("symbols", "--oberon", self.file("it.json", json.dumps(made)))
        self.assertEqual((ran.status, ran.errors, ran.output), (0, "", printed))
        recorded = self.file("it.orsr", text)
        self.assertEqual(tool("symbols", "--oberon", recorded, "--at", 0).output, printed)
        # A pipe is read once.
        self.assertEqual(run([GALLUSPA, "symbols", "--oberon", "/dev/stdin", "--at", 0], recorded.read_bytes()).output, printed)
        later = tool("symbols", "--oberon", recorded).output
        self.assertIn(b"System", printed)
        self.assertNotIn(b"System", later)
        self.assertIn(b"Oberon", later)
        self.assertEqual(tool("symbols", "--oberon", image, "-o", self.folder / "it.sym").status, 0)
        self.assertEqual((self.folder / "it.sym").read_bytes(), printed)
        names, code = parsed(printed), loader.places["System"] + 144
        self.assertEqual(
            [names.text(code + it) for it in (0, 8, 28, 127)],
            ["System", "System.Open", "System.Directory + 0x4", "System.ShowCommandsOfMod + 0x57"],
        )
        self.assertEqual(names.text(loader.places["Texts"] + 84), "Texts:data + 0x4")
        told = tool("trace", recorded, "--steps", 1, "--symbols", self.folder / "it.sym").errors
        self.assertTrue(told.startswith("galluspa trace: 11 names from "), told)

    def test_memories_that_have_no_list_end_in_one_line(self) -> None:
        def changed(name: str, *changes: tuple[int, bytes]) -> bytes:
            loader = loaded()
            for offset, content in changes:
                at = offset if name == "" else loader.places[name] + offset
                loader.memory[at : at + len(content)] = content
            return bytes(loader.memory)

        def word(value: int) -> bytes:
            return struct.pack("<I", value)

        at = loaded().places
        commands = at["System"] + 80 + 64 + 128 + 8
        cut = changed("System", (64, word(MEMORY_BYTES - 4)))[: MEMORY_BYTES - 4]
        for memory, told in (
            (bytes(MEMORY_BYTES), "the word at byte 20 is 0"),
            (changed("", (20, word(2))), "leads to 2 (hexadecimal), where no descriptor can be"),
            (changed("", (20, word(MEMORY_BYTES - 76))), "leads to FFFB4 (hexadecimal), where no descriptor"),
            (changed("", (20, b"\xff" * 4)), "leads to FFFFFFFF"),
            (changed("Kernel", (32, word(at["Oberon"]))), f"comes back to its descriptor at {at['Oberon']:X}"),
            (changed("Kernel", (32, word(at["Kernel"]))), "comes back to its descriptor"),
            (changed("Texts", (0, b"x" * 32)), "has no name of a module: xxxx"),
            (changed("Texts", (0, b"\x1b[2J\0")), "has no name of a module: \\x1b[2J"),
            (changed("Texts", (0, b"a b\0")), "has no name of a module: a b"),
            (changed("Texts", (56, word(0))), "module Texts: data, code and imports at"),
            (changed("Texts", (60, word(1 << 21))), "are not in this order in memory"),
            (changed("Texts", (56, word(at["Texts"] + 145))), "are not in this order in memory"),
            (changed("System", (64, word(MEMORY_BYTES))), "module System: the list of commands leads to 100000"),
            (changed("System", (64, b"\xff" * 4)), "the list of commands leads to FFFFFFFF"),
            (changed("", (commands, b"x" * 40)), "module System: no name of a command is at"),
            (changed("", (commands + 8, word(128))), "command Open is at"),
            (changed("", (commands + 8, word(6))), "outside of its code"),
            (changed("", (commands + 8, b"\xff" * 4)), "outside of its code"),
            (cut + b"Abc\0", "leads to 100000 (hexadecimal), beyond the memory"),
        ):
            self.assert_raises(lambda: list(modules_of(memory)), told)

    def test_lists_that_are_too_long_end(self) -> None:
        loader = Loader()
        for _ in range(MOST_MODULES + 1):
            loader.load("M", {}, data=0, code=4)
        with self.assertRaisesRegex(Refused, "the list of modules has more than 1,000"):
            list(modules_of(bytes(loader.memory)))
        loader = Loader()
        loader.load("M", {f"C{at}": 0 for at in range(1001)})
        with self.assertRaisesRegex(Refused, "module M has more than 1,000 commands"):
            list(modules_of(bytes(loader.memory)))
