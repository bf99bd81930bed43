"""import galluspa with files and names: recordings, symbol files, open calls, who wrote a part, screens, and runs until something happens."""

import io
import json
import os
import sys
import warnings
from collections.abc import Callable
from functools import partial
from itertools import pairwise
from typing import Any

from PIL import Image

import galluspa
from galluspa import interface
from galluspa.formats.instructions import mnemonic
from galluspa.formats.recording import KINDS, read
from galluspa.process.version import number
from tests.tools import naivecalls
from tests.tools.samples import EXAMPLES, GALLUSPA, STORED, TOOLS, TOP, ToolTest, record, rejoining, run, tool

# A procedure that calls another and itself: R0 falls to 0, and each call pushes its return address.
CALLS = """
Main:   MOV SP, 4000H
        MOV R0, 3
        BL Deep
        BL Leaf
        MOV R1, SERIAL
        STR R0, R1, 0
end:    B end
Deep:   SUB SP, SP, 4
        STR LNK, SP, 0
        BL Leaf
        SUB R0, R0, 1
        BEQ back
        BL Deep
back:   LDR LNK, SP, 0
        ADD SP, SP, 4
        B LNK
Leaf:   MOV R2, cell
        LDR R3, R2, 0
        ADD R3, R3, 1
        STR R3, R2, 0
        B LNK
cell:   word 0
bytes:  word 04030201H, 06050807H
"""


def told(it: galluspa.Origin) -> dict[str, object]:
    """Returns a value as `galluspa why --json` has it."""
    part: object = it.part or None
    if it.part.startswith("flags "):
        part = {"flags": it.part.removeprefix("flags ")}
    elif it.part.startswith("dot "):
        part = {"dot": [int(number) for number in it.part.removeprefix("dot ").split(",")]}
    elif it.part == "LEDs":
        part = {"address": 0xFFFFC4, "bytes": [0, 1, 2, 3]}
    elif it.part.startswith("Mem["):
        part = {"address": int(it.part[4:10], 16), "bytes": [0, 1, 2, 3]}
    found: dict[str, object] = {"part": part, "value": it.value, **({"role": it.role} if it.role else {})}
    if it.step and it.step.word is not None:
        names = {name: text for name, text in (("PC", it.name), ("source", it.line)) if text}
        pc, word = it.step.before.pc, it.step.word
        found |= {"count": it.count, "PC": pc, "word": word, "instruction": mnemonic(word)}
        found |= {"names": names} if names else {}
    if it.end:
        found["end"] = it.end
    return {**found, "from": [told(source) for source in it.sources]}


class NamesTest(ToolTest):
    def setUp(self) -> None:
        super().setUp()
        self.path = self.assembled(CALLS, "calls", checkpoints=[75, 150])

    def test_a_recording_is_what_its_file_says(self) -> None:
        for path, text in ((self.path, self.path.read_bytes()), (EXAMPLES / "face.orsr", (EXAMPLES / "face.orsr").read_bytes())):
            decoded = read(text)
            with galluspa.Recording.open(path) as recording:
                self.assertEqual(recording.content, text)
                self.assertEqual((recording.verdict, recording.end), (galluspa.check(text), decoded.checkpoints[-1].count))
                self.assertEqual([it.count for it in recording.checkpoints], [it.count for it in decoded.checkpoints])
                self.assertEqual(recording.sent, b"".join(it.output for it in decoded.checkpoints))
        text = record((EXAMPLES / "clock.json").read_bytes())
        inputs = galluspa.Recording(text).inputs
        self.assertEqual([(it.count, it.value) for it in inputs], [(it.count, it.value) for it in read(text).events])
        self.assertEqual([it.kind for it in inputs], [KINDS[it.kind] for it in read(text).events])

    def test_its_machine_is_the_true_one_before_and_after_the_verdict(self) -> None:
        recording = galluspa.Recording(rejoining(9))
        before = [recording.machine(at).state for at in range(5)]
        self.assertTrue(recording.verdict.is_false)
        self.assertEqual([recording.machine(at).state for at in range(5)], before)
        self.assertEqual((before[2].registers[5], recording.claim(1).state.registers[5]), (1, 9))

    def test_symbols_are_those_of_the_file(self) -> None:
        names = galluspa.Symbols.of(self.path.with_suffix(".sym"))
        found = names.address("Deep"), names.address("Deep+8"), names.name(4 * 9), "Deep" in names
        self.assertEqual(found, (28, 36, "Deep + 0x8", True))
        self.assertEqual((len(names), "Main" in list(names), "None" in names, 5 in names), (7, True, False, False))
        self.assertRegex(names.line(28), r"calls\.asm:9$")
        self.assertEqual((names.line(0x8000), names.name(0xFFFF0), len(galluspa.Symbols())), ("", "", 0))
        several = galluspa.Symbols.of(self.file("two.sym", "10 8 t a\n20 t a\n30 4 d b\n"))
        self.assertEqual(several.size("b"), 4)
        for call, told in (
            (lambda: names.address("Deap"), "no symbol is called Deap: did you mean Deep?"),
            (lambda: several.address("a"), "a stands for 2 addresses"),
            (lambda: galluspa.Symbols.of(self.file("bad.sym", "0 t a\nzz\n")), "bad.sym:2: zz is not an address"),
            (lambda: galluspa.Symbols.of(self.folder / "none.sym"), "none.sym: No such file"),
        ):
            self.assert_raises(call, told)

    def test_words_data_and_registers(self) -> None:
        machine = galluspa.Recording.open(self.path).machine(60)
        memory, registers = machine.memory(), machine.state.registers
        cell = machine.symbols.address("cell")
        places: list[tuple[str | int, int]] = [("cell", cell), (cell, cell), ("SP", registers[14]), ("cell+4", cell + 4)]
        for place, at in (*places, ("SP + 4", registers[14] + 4)):
            self.assertEqual(machine.word(place), int.from_bytes(memory[at : at + 4], "little"), place)
        self.assertEqual((machine.data("bytes", 8), machine.data("bytes+2", 1)), (bytes([1, 2, 3, 4, 7, 8, 5, 6]), b"\3"))
        self.assertEqual([machine.registers[f"R{at}"] for at in range(16)], list(registers))
        named = [machine.registers[it] for it in ("SP", "LNK", "H")]
        self.assertEqual(named, [*registers[14:], machine.state.h])
        self.assert_raises(lambda: machine.word("cel"), "did you mean cell?")
        self.assert_raises(lambda: machine.word("0x100000"), "below 100000")
        self.assert_raises(lambda: machine.data("nothing", 3), "nothing: expected an address")
        with self.assertRaisesRegex(ValueError, "^address 1048576 is not in"):
            machine.word(1 << 20)
        with self.assertRaisesRegex(ValueError, "^length 9 is not in 0..8"):
            machine.data((1 << 20) - 8, 9)

    def test_open_calls_are_those_of_a_stack(self) -> None:
        opened = galluspa.Recording.open(self.path)
        on_the_way, deepest = opened.machine(), 0
        for count, stack in enumerate(naivecalls.stacks(list(opened.machine().steps(150)))):
            expected = [it.count for it in reversed(stack)]
            on_the_way.advance(count)
            for machine in (on_the_way, opened.machine(count)) if count % 10 == 0 else (on_the_way,):
                self.assertEqual([it.count for it in machine.calls()], expected, count)
            deepest = max(deepest, len(expected))
        self.assertEqual(deepest, 4)
        hit = next(opened.hits("PC=Leaf and R0 is 1"))
        calls = opened.machine(hit.count).calls()
        self.assertEqual([it.name for it in calls], ["Leaf", "Deep", "Deep", "Deep"])
        self.assertEqual([it.caller for it in calls], ["Deep + 0x8", "Deep + 0x14", "Deep + 0x14", "Main + 0x8"])
        self.assertRegex(str(calls[3]), r"^Deep, called at 2 by Main \+ 0x8, .*calls\.asm:4$")
        self.assertEqual([(it.address, it.to) for it in calls[3:]], [(8, 28)])
        later = galluspa.Machine.claim(self.path.read_bytes(), 1)
        self.assertEqual(later.calls(), [])

    def test_who_is_the_last_write_of_a_search(self) -> None:
        opened = galluspa.Recording.open(self.path)
        machine = opened.machine(150)
        parts = {"cell": "store cell", "R3": "writes R3", "SP": "writes R14", "LNK": "writes R15", "flags": "writes flags"}
        for part, words in parts.items():
            found, hit = machine.who(part), opened.machine().find(words, 150, last=True)
            assert found and hit
            self.assertEqual((found.count, found.step.word), (hit.count, hit.step.word), part)
        found = machine.who(machine.symbols.address("cell"))
        assert found and found.change
        self.assertEqual((found.name, found.change), ("Leaf + 0xC", found.step))
        self.assertRegex(found.line, r"calls\.asm:\d+$")
        self.assertIn(found.name, str(found))
        self.assertEqual((opened.machine(2).who("cell"), opened.machine().who("R0"), machine.who("LEDs")), (None, None, None))
        self.assert_raises(lambda: machine.who("cel"), "did you mean cell")
        self.assert_raises(lambda: machine.who("cell store 4"), "cellstore4")
        deep = opened.machine(opened.machine().find("PC=Leaf and R0 is 1").count)  # type: ignore[union-attr]
        pushed = deep.who("*SP")
        assert pushed
        self.assertEqual((pushed, pushed.name), (deep.who(deep.state.registers[14]), "Deep + 0x4"))
        face = galluspa.Recording.open(EXAMPLES / "face.orsr").machine(20_000_000)
        dot = face.who("dot 600,219")
        line = tool("find", EXAMPLES / "face.orsr", "--last", "change dot 600,219").output.decode()
        assert dot
        self.assertEqual(str(dot.count), line.split()[0])

    def test_why_is_that_of_the_tool(self) -> None:
        machine = galluspa.Recording.open(self.path).machine(150)
        cell = machine.symbols.address("cell")
        asked: list[tuple[str | int, int]] = [("cell", 20), ("R3", 3), ("*SP", 20), ("flags", 5), (cell, 1), ("LEDs", 20)]
        for part, links in (*asked, ("dot 3,3", 20)):
            text = hex(part) if isinstance(part, int) else part
            ran = tool("why", self.path, "--at", 150, "--links", links, "--json", *text.split())
            self.assertEqual([told(it) for it in machine.why(part, links)], json.loads(ran.output)["values"], part)
        face = galluspa.Recording.open(EXAMPLES / "face.orsr").machine(20_000_000)
        printed = tool("why", EXAMPLES / "face.orsr", "--links", 5, "dot", "600,219").output.decode()
        self.assertEqual("\n".join(map(str, face.why("dot 600,219", links=5))) + "\n", printed)

    def test_an_origin_says_where_and_how_it_ends(self) -> None:
        opened = galluspa.Recording.open(self.path)
        (origin,) = opened.machine(150).why("cell")
        self.assertEqual((origin.part, origin.value, origin.name), (f"Mem[{opened.symbols.address('cell'):06X}]", 4, "Leaf + 0xC"))
        self.assertRegex(origin.line, r"calls\.asm:\d+$")
        self.assertEqual(origin.count, getattr(opened.machine(150).who("cell"), "count"))
        values = list(origin.walk())
        self.assertIs(values[0], origin)
        self.assertEqual({it.end for it in values}, {"", "constant", "initial", "elsewhere"})
        # Each of the four additions, and the load before it.
        self.assertEqual([it.value for it in values if it.part == "R3"], [4, 3, 3, 2, 2, 1, 1, 0])
        # From what a checkpoint claims on: nothing wrote it since.
        (later,) = opened.claim(1).why("cell")
        self.assertEqual((later.end, later.step, later.count, later.sources), ("initial", None, None, ()))
        clock = galluspa.Recording(record((EXAMPLES / "clock.json").read_bytes()))
        (key,) = clock.machine(39).why("R0")
        first = next(it for it in clock.inputs if it.kind == "key")
        self.assertEqual((key.count, key.sources[0].end, key.sources[0].input), (38, "taken", first))

    def test_why_refuses_what_is_none(self) -> None:
        machine = galluspa.Recording.open(self.path).machine(150)
        for part, said in (("cel", "did you mean cell"), ("R16", "R16"), ("", "expected R0 to R15"), ("0-7", "expected R0 to R15")):
            self.assert_raises(partial(machine.why, part), said)
        for links in (0, 201):
            self.assertRaisesRegex(ValueError, f"^links {links} is not in 1..200$", machine.why, "R0", links)
        bad: list[Any] = [7.5, None, b"R0"]
        for it in bad:
            self.assertRaisesRegex(TypeError, "^a part is a str or an int", machine.why, it)
        self.assertRaisesRegex(ValueError, "^address 1048576 is not in", machine.why, 1 << 20)

    def test_a_run_goes_from_hit_to_hit(self) -> None:
        opened = galluspa.Recording.open(self.path)
        counts = [it.count for it in opened.hits("PC=Leaf")]
        self.assertEqual(len(counts), 4)
        machine, found = opened.machine(), []
        while hit := machine.run(until="PC=Leaf"):
            self.assertEqual((machine.count, machine.state.pc), (hit.count, machine.symbols.address("Leaf") // 4))
            found.append(hit.count)
        self.assertEqual((found, machine.count), (counts, 150))
        self.assertEqual([it.count for it in opened.hits("PC=Leaf", counts[1], counts[3])], counts[1:3])
        self.assertEqual([it.count for it in opened.machine(counts[2]).hits("PC=Leaf")], counts[2:])
        there = opened.machine(counts[0])
        self.assertEqual(getattr(there.run(until="PC=Leaf"), "count"), counts[1])
        self.assertEqual((there.run(to=counts[2]), there.count), (None, counts[2]))
        self.assertEqual((there.run(until="sent", to=counts[2]), there.count), (None, counts[2]))
        self.assertTrue(all(one < other for one, other in pairwise(counts)))

    def test_the_screen_is_that_of_the_program(self) -> None:
        with galluspa.Recording.open(EXAMPLES / "face.orsr") as face:
            picture = face.claim(2).screen()
            drawn = tool("screen", EXAMPLES / "face.orsr", "--at", 2).output
            self.assertEqual((picture.size, picture.mode), ((1024, 768), "1"))
            self.assertEqual(picture.tobytes(), Image.open(io.BytesIO(drawn)).tobytes())

    def test_without_pillow_a_screen_is_refused(self) -> None:
        script = (
            "import sys; sys.modules['PIL'] = None\nimport galluspa\n"
            "try: galluspa.Recording.open(sys.argv[1]).machine().screen()\nexcept galluspa.Refused as why: print(why)"
        )
        ran = run([sys.executable, "-B", "-c", script, self.path], env={**os.environ, "PYTHONPATH": str(TOOLS)})
        self.assertRegex(ran.output.decode(), r" has no PIL(\.Image)?: (apt-get|pip) install ")

    def test_what_is_closed_is_not_used(self) -> None:
        with galluspa.Recording.open(self.path) as recording, recording.machine(3) as machine:
            copy, begun = machine.copy(), [machine.hits("PC=0-99"), machine.states(9), machine.copy().steps(9)]
            self.assertEqual([next(it) is None for it in begun], [False] * 3)
        uses: list[Callable[[], object]] = [lambda: machine.count, machine.run, machine.calls, lambda: machine.word("cell")]
        uses += [lambda: machine.who("cell"), lambda: machine.why("cell"), lambda: machine.end]
        uses += [lambda: next(begun[0]), lambda: next(begun[1])]
        for call in uses:
            self.assertRaisesRegex(ValueError, "^this machine is closed$", call)
        uses = [lambda: recording.end, recording.machine, lambda: recording.inputs, lambda: recording.content]
        for call in uses:
            self.assertRaisesRegex(ValueError, "^this recording is closed$", call)
        self.assertEqual((copy.count, copy.advance(4), next(begun[2]) is None), (3, b"", False))
        machine.close()

    def test_refuses_what_is_none(self) -> None:
        self.assert_raises(lambda: galluspa.Recording(STORED[:-1]), "refused 1 short at byte 9503")
        bad = self.file("bad.orsr", STORED[:-1])
        self.assert_raises(lambda: galluspa.Recording.open(bad), f"{bad}: refused 1 short at byte 9503")
        self.assert_raises(lambda: galluspa.Recording.open(self.folder / "none.orsr"), "none.orsr: No such file")
        self.path.with_suffix(".sym").write_text("0 t\n")
        self.assert_raises(lambda: galluspa.Recording.open(self.path), "calls.sym:1: no name after t")
        self.assertEqual(len(galluspa.Recording.open(self.path, galluspa.Symbols()).symbols), 0)
        with self.assertRaises(TypeError):
            galluspa.Recording(str(self.path))  # type: ignore[arg-type]

    def test_a_symbol_file_of_another_build_is_a_warning(self) -> None:
        other = self.folder / "other.orsr"
        other.write_bytes(record((EXAMPLES / "hello.json").read_bytes()))
        other.with_suffix(".sym").write_bytes(self.path.with_suffix(".sym").read_bytes())
        with warnings.catch_warnings(record=True) as told:
            warnings.simplefilter("always")
            galluspa.Recording.open(self.path)
            self.assertEqual(told, [])
            galluspa.Recording.open(other)
        self.assertIn("does not fit this memory", str(told[0].message))

    def test_the_version_is_that_of_the_command(self) -> None:
        self.assertEqual(galluspa.__version__, number())
        self.assertIn(galluspa.__version__.encode(), run([GALLUSPA, "--version"], cwd=TOP).output)

    def test_the_package_offers_what_its_interface_lists(self) -> None:
        names = [*interface.__all__, "__version__"]
        script = (
            "from galluspa import *; import galluspa; print(*galluspa.__all__, *(it for it in galluspa.__all__ if it in globals()))"
        )
        ran = run([sys.executable, "-B", "-c", script], env={**os.environ, "PYTHONPATH": str(TOOLS)})
        self.assertEqual(ran.output.decode().split(), [*names, *names])
        for name in names:
            self.assertTrue(getattr(galluspa, name))
