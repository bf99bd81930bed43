"""galluspa why: where values come from, link by link against a machine that shares no code with the tools and keeps all that it does."""

import json
import random
from collections.abc import Sequence
from dataclasses import replace

from galluspa.analysis.origins import Bytes, Constant, Device, Elsewhere, Flags, Initial, Part, Register, Taken, Unfollowed, Value
from galluspa.analysis.origins import Written, links_in, origins
from galluspa.engine.past import Past
from galluspa.analysis.writers import Writers
from tests.programs import randomly
from tests.programs.trial import Case
from tests.tools.frames import FramesTest
from tests.tools.independent import Independent, Source
from tests.tools.samples import EXAMPLES, JUMP, ToolTest, record, run_of, session, tool

LEDS = 0xFFFFC4


def cells_of(part: Part) -> tuple[object, ...]:
    """The cells of the independent machine that a part has."""
    match part:
        case Device():
            return ("device",)
        case Register(name):
            return (name,)
        case Flags(names):
            return tuple(names)
        case Bytes(address, mask):
            return ("LEDs",) if address == LEDS else tuple(address + at for at in range(4) if mask >> at & 1)
    raise AssertionError(part)


class OriginsTest(ToolTest):
    """The tree of a value."""

    def compare(self, case: Case, questions: int, rng: random.Random) -> tuple[int, set[type]]:
        """Compares the trees of some values of a program with what the independent machine did. Gives how many links there were, and
        how they ended."""
        machine = Independent(case.session).run(case.counts)
        run = Past(run_of(record(replace(case.session, checkpoints=[case.counts]).text().encode())))
        last = run.machine(case.counts)
        self.assertEqual((tuple(last.state.r), last.state.pc), (machine.states[-1].registers, machine.states[-1].pc))
        writers, links, ends = Writers(run), 0, set[type]()
        stored = sorted({place & ~3 for done in machine.done if done for place in done.stored if place < 1 << 20})
        for _ in range(questions):
            count, most = rng.randint(1, case.counts), rng.choice((1, 20, 200))
            parts: list[Written] = [Register(f"R{rng.randrange(16)}"), Register("H"), Flags("NZCV"), Bytes(LEDS)]
            parts += [Bytes(rng.choice(stored or [0x8000]), rng.choice((15, 1, 8)))]
            part = rng.choice(parts)
            values = origins(writers, part, self.value(machine, part, count), count, most)
            self.assertLessEqual(sum(1 for _ in links_in(values)), most)
            for it in values:
                self.check(machine, it, count, ends)
            self.assertEqual(set().union(*(cells_of(it.part) for it in values if it.part)), set(cells_of(part)))
            links += sum(1 for _ in links_in(values))
        return links, ends

    def value(self, machine: Independent, part: Written, count: int) -> int:
        """The value of a part at a count."""
        state = machine.states[count]
        match part:
            case Register(name):
                return state.h if name == "H" else state.registers[int(name[1:])]
            case Flags(names):
                return sum(8 >> at for at, name in enumerate("NZCV") if state.flags[at] and name in names)
            case Bytes(address, mask) if address != LEDS:
                return sum(machine.byte_at(address + at, count) << 8 * at for at in range(4) if mask >> at & 1)
        return state.leds

    def check(self, machine: Independent, it: Value, count: int, ends: set[type]) -> None:
        """Compares a value before a count, and all from which it comes, with what the independent machine did."""
        if it.end:
            ends.add(type(it.end))
        if it.part is None or isinstance(it.part, Device):
            self.assertIsInstance(it.end, Constant | Taken)
            return
        self.assertEqual(it.value, self.value(machine, it.part, it.count), it)
        self.assertLessEqual(it.count, count)
        wrote = [machine.writer(cell, it.count) for cell in cells_of(it.part)]
        if isinstance(it.end, Unfollowed):
            self.assertIsNone(it.step)
            return
        if it.step is None:
            self.assertIsInstance(it.end, Initial)
            self.assertEqual(set(wrote), {None}, it)
            return
        self.assertEqual(set(wrote), {it.step.before.count}, it)
        if isinstance(it.end, Elsewhere):
            self.assertEqual(it.sources, [])
            return
        done = machine.done[it.step.before.count]
        assert done
        taken = [source.end.event for source in it.sources if isinstance(source.end, Taken)]
        given = [source.event for source in done.sources if source.cells == ("device",)]
        as_tuples = [[event and (event.count, event.kind, event.value) for event in events] for events in (taken, given)]
        self.assertEqual(as_tuples[0], as_tuples[1], it)
        self.compare_sources(machine, it, done.sources)
        for source in it.sources:
            self.check(machine, source, it.step.before.count, ends)

    def compare_sources(self, machine: Independent, it: Value, wanted: Sequence[Source]) -> None:
        """Compares the values that an instruction used: their parts together, with what they are for, and each value."""
        cells = [(cell, value.role) for value in it.sources for cell in self.cells(value)]
        used = [(cell, source.role) for source in wanted for cell in source.cells or ("number",)]
        self.assertEqual(sorted(cells, key=str), sorted(used, key=str), it)
        numbers = [value.value for value in it.sources if value.part is None or isinstance(value.part, Device)]
        self.assertEqual(numbers, [source.value for source in wanted if not source.cells or source.cells == ("device",)])

    def cells(self, value: Value) -> tuple[object, ...]:
        """The cells of a value; a number of an instruction has none."""
        if value.part is None:
            return ("number",)
        return cells_of(value.part)

    def test_each_link_of_random_programs(self) -> None:
        rng, links, ends = random.Random(3), 0, set[type]()
        for seed in range(40):
            more, how = self.compare(randomly.case(seed), 8, rng)
            links, ends = links + more, ends | how
        self.assertGreater(links, 1000)
        self.assertLessEqual({Initial, Constant, Elsewhere, Unfollowed, Taken}, ends)

    def test_keys_are_those_of_the_queue_also_if_some_were_dropped(self) -> None:
        """Twenty keys come while nothing takes one, of which four are dropped; then two more, once five were taken."""
        # Seventeen times nothing; then R1 := the next key, again and again.
        words = [0x5000FFC0, *[0x42000000] * 20, *[0x8100001C] * 30, JUMP]
        inputs = [*((at // 2, "key", 0x40 + at) for at in range(20)), (25, "key", 0x70), (26, "key", 0x71)]
        run = Past(run_of(record(session(words, [60], inputs))))
        found = []
        for count in range(22, 46):
            machine = run.machine(count)
            [value] = origins(Writers(run), Register("R1"), machine.state.r[1], count, 1)
            end = value.sources[0].end
            assert isinstance(end, Taken)
            found.append((value.value, end.event.value if end.event else 0))
        self.assertEqual([key for key, _ in found], [*range(0x40, 0x50), 0x70, 0x71, *[0] * 6])
        self.assertEqual([key for key, _ in found], [event for _, event in found])

    def test_bit_28_of_the_mouse_word_is_of_the_key_that_waits(self) -> None:
        """A key and then a move come while a loop loads the mouse word; after a load of the key no key waits."""
        # R0 := -64, the address of the device words; words and bytes of the mouse word; the key; the mouse word.
        words = [0x5000FFC0, *[0x81000018] * 4, 0x9100001B, 0x91000018, 0x8100001C, 0x81000018, JUMP]
        move = 1 << 24 | 3 << 12 | 5
        run = Past(run_of(record(session(words, [10], [(2, "key", 0x61), (3, "mouse", move)]))))
        waits, none = ("keys", 1 << 28, 0x61), ("mouse", 0, None)
        wanted = {
            2: [none],
            3: [none, waits],
            4: [("mouse", move, move), waits],
            6: [("mouse", 1, move), ("keys", 1 << 4, 0x61)],
            7: [("mouse", 5, move)],
            8: [("keys", 0x61, 0x61)],
            9: [("mouse", move, move)],
        }
        for count, parts in wanted.items():
            [value] = origins(Writers(run), Register("R1"), run.machine(count).state.r[1], count, 1)
            found = []
            for it in value.sources:
                if isinstance(it.end, Taken):
                    found.append((it.end.device, it.value, it.end.event.value if it.end.event else None))
            self.assertEqual(found, parts, count)


class CommandTest(FramesTest):
    """The command, and that of the debugger."""

    def test_a_dot_leads_to_the_store_into_another_frame(self) -> None:
        """The word that examples/frames loads wrongly was stored by a procedure whose frame is too small."""
        ran = tool("why", self.recording, "--at", 2124, "dot 40,210", "--directory", EXAMPLES)
        self.assertEqual(ran.status, 0, ran.errors)
        lines = ran.output.decode().splitlines()
        self.assertTrue(lines[0].startswith("dot 40,210 = 1  at 2,123  12  STR R4, R3, 0"), lines[0])
        there = next(line for line in lines if "at 1,843" in line)
        self.assertIn("Mem[0010F0] Stack + 0xF0 = 00000001  at 1,843  34  STR R2, R14, 12", there)
        self.assertIn("Shapes.Column.next, ", there)
        self.assertTrue(there.endswith("shapes.asm:30: STR R2, SP, 12"), there)
        self.assertEqual(sum("  at " in line and "elsewhere" not in line and "constant" not in line for line in lines), 20)
        commands = ("at 2124", "why dot 40,210", "why/3 dot 40,210")
        words = [word for it in commands for word in ("-ex", it)]
        ran = tool("debug", self.recording, "--batch", "--directory", EXAMPLES, *words)
        debugged = ran.output.decode().partition("why dot 40,210\n")[2].partition("(2124) why/3")
        self.assertEqual(debugged[0].splitlines(), lines)
        self.assertEqual(sum("  at " in line for line in debugged[2].splitlines()), 3)

    def test_what_a_call_left_in_its_frame(self) -> None:
        """A slot below R14 is free memory: what is read there was stored by a call that has returned."""
        left = "Leaf: SUB SP, SP, 4\nSTR R1, SP, 0\nLDR R2, SP, 0\nADD SP, SP, 4\nB LNK\n"
        made = self.assembled(
            f"{left}Main: MOV SP, 2000H\nMOV R1, 7\nBL Leaf\nLDR R0, SP, -4\ndone: B done\nstart Main\ncheckpoints 20\n"
        )
        told = "Mem[001FFC] = 00000007  at 4  1  STR R1, R14, 0"
        for part, more, ending in (
            ("R0", (), "  stored by a call that has returned"),
            ("R2", (), ""),
            ("R0", ("--stack-limit", 0x1FFC), ""),
            ("Mem[1FFCH]", ("--at", 6), ""),
            ("Mem[1FFCH]", ("--at", 7), "  stored by a call that has returned"),
        ):
            found = next(line.strip() for line in self.lines_of("why", made, part, *more, errors=None) if told in line)
            self.assertEqual(found.partition("  ;")[0], told + ending, (part, more))

    def test_for_machines(self) -> None:
        ran = tool("why", self.recording, "--at", 1870, "R0", "--links", 2, "--json")
        found = json.loads(ran.output)
        self.assertEqual(found["count"], 1870)
        [value] = found["values"]
        self.assertEqual((value["part"], value["value"], value["count"], value["PC"]), ("R0", 1, 1869, 56))
        [loaded] = value["from"]
        self.assertEqual((loaded["part"], loaded["value"]), ({"address": 0x10F0, "bytes": [0, 1, 2, 3]}, 1))
        self.assertEqual((loaded["count"], loaded["names"]["PC"]), (1843, "Shapes.Column.next"))
        self.assertEqual([it["end"] for it in loaded["from"]], ["unfollowed"])

    def test_parts(self) -> None:
        for part, wanted in (
            ("SP", "R14 = "),
            ("LNK", "R15 = "),
            ("flags", "flags NZ = "),
            ("Stack+0xF0", "Mem[0010F0] Stack + 0xF0 = "),
            ("*SP", "Mem[0010E4] Stack + 0xE4 = "),
            ("Mem[SP + 12]", "Mem[0010F0] Stack + 0xF0 = "),
            ("Mem[0010F0]", "Mem[0010F0] Stack + 0xF0 = "),
            ("0x10F1-0x10F2", "Mem[0010F0] bytes 1 to 2 Stack + 0xF1 = "),
            ("LEDs", "LEDs = 00000000  as at the beginning"),
            ("H", "H = 00000000  as at the beginning"),
            ("dot 3,3", "dot 3,3 = 0  as at the beginning"),
        ):
            ran = tool("why", self.recording, "--at", 2124, "--links", 1, *part.split())
            self.assertEqual(ran.status, 0, ran.errors)
            self.assertTrue(ran.output.decode().startswith(wanted), (part, ran.output))
