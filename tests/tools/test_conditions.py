"""The conditions of a search against the instructions one by one, and the lists of all hits."""

import json
import random
from collections.abc import Callable, Sequence
from dataclasses import replace
from tests.programs import randomly, waiting
from unittest import mock

from galluspa.analysis import search as searching
from galluspa.analysis.conditions import conditions_of
from galluspa.analysis.rawconditions import BECOMES, COUNTER, SENDS, TAKES, WRITTEN
from galluspa.analysis.search import KEPT, Search
from galluspa.engine import recorded
from galluspa.engine.recorded import RawStep
from galluspa.engine.tracing import Run, Step
from galluspa.formats import recording
from galluspa.formats.instructions import address, is_store
from galluspa.formats.recording import WORD
from galluspa.output.traceformats import JsonLines
from galluspa.process.cli import Refused
from tests.tools.samples import JUMP, ToolTest, record, run_of, session, tool
from tests.tools.test_find import COUNTING
from tests.tools.test_trace import SENDING


def accessed(step: Step) -> tuple[range, bool]:
    """The bytes that an instruction loads or stores, and whether it stores them."""
    if step.word is None or step.after.stop or (at := address(step.word, step.before.registers)) is None:
        return range(0), False
    is_byte = step.word >> 28 & 1
    return range(at if is_byte else at & ~3, at + 1 if is_byte else (at & ~3) + 4), is_store(step.word)


def meets(first: int, end: int, is_stored: bool) -> Callable[[Step], bool]:
    """Whether an instruction accesses one of these bytes."""

    def holds(step: Step) -> bool:
        at, stores = accessed(step)
        return stores == is_stored and max(at.start, first) < min(at.stop, end)

    return holds


def changes(first: int, end: int, mask: int = 0xFFFFFFFF) -> Callable[[Step], bool]:
    """Whether an instruction changes a bit of these bytes that a mask has."""

    def holds(step: Step) -> bool:
        for word in step.changed:
            bits = (word.old ^ word.new) & mask
            if any(bits >> 8 * at & 0xFF for at in range(4) if first <= word.address + at < end):
                return True
        return False

    return holds


def takes(*kinds: int) -> Callable[[Step], bool]:
    """Whether one of these inputs is taken."""
    return lambda step: any(event.kind in kinds for event in step.inputs)


def becomes(part: Callable[[recording.Checkpoint], int], value: int) -> Callable[[Step], bool]:
    """Whether a part becomes a value."""
    return lambda step: part(step.before) != value == part(step.after)


def all_of(*tests: Callable[[Step], bool]) -> Callable[[Step], bool]:
    """Whether all of these hold."""
    return lambda step: all(holds(step) for holds in tests)


def sends(step: Step) -> bool:
    """Whether an instruction sends a byte."""
    return bool(step.after.output)


def becomes_not_from(value: int) -> Callable[[Step], bool]:
    """Whether R3 becomes 0 from another value than this."""
    return lambda step: step.before.registers[3] not in (0, value) and step.after.registers[3] == 0


# What is written on a command line, and whether it holds of an instruction.
MEANINGS: tuple[tuple[str, Callable[[Step], bool]], ...] = (
    ("PC=5", lambda it: it.before.pc == 5),
    ("pc=8", lambda it: it.before.pc == 8),
    ("9-11", lambda it: 9 <= it.before.pc <= 11),
    ("PC=0x10-0x20", lambda it: 16 <= it.before.pc <= 32),
    ("7", lambda it: it.before.pc == 7),
    ("store 0x193", meets(400, 404, True)),
    ("store=400-400", meets(400, 401, True)),
    ("write 0x40000-0x7FFFF", meets(0x40000, 0x80000, True)),
    ("store page 256-511", meets(0x40000, 0x80000, True)),
    ("load 0-0x7FFFF", meets(0, 0x80000, False)),
    ("load 0xFFFFD8", meets(0xFFFFD8, 0xFFFFDC, False)),
    ("change 0-0xFFFFF", changes(0, 1 << 20)),
    ("change 0-0xFFFFF mask 1", changes(0, 1 << 20, 1)),
    ("change Mem[040000]", changes(0x40000, 0x40004)),
    ("R3=0", becomes(lambda it: it.registers[3], 0)),
    ("R0=0xFFFFFFFF", becomes(lambda it: it.registers[0], 0xFFFFFFFF)),
    ("R1=-64", becomes(lambda it: it.registers[1], 0xFFFFFFC0)),
    ("SP=0", becomes(lambda it: it.registers[14], 0)),
    ("H=0", becomes(lambda it: it.h, 0)),
    ("flags=Z", becomes(lambda it: it.flags, 4)),
    ("flags=N-C-", becomes(lambda it: it.flags, 10)),
    ("flags=----", becomes(lambda it: it.flags, 0)),
    ("LEDs=0x41", becomes(lambda it: it.leds, 0x41)),
    ("switches=9", becomes(lambda it: it.switches, 9)),
    ("serial=0x142", becomes(lambda it: it.serial, 0x142)),
    ("serial=0x42", becomes(lambda it: it.serial, 0x42)),
    ("mouse=7", becomes(lambda it: it.mouse, 7)),
    ("sent", lambda it: bool(it.after.output)),
    ("sent 0x41", lambda it: it.after.output == b"A"),
    ("sent 66", lambda it: it.after.output == b"B"),
    ("input key", takes(4)),
    ("input", takes(1, 2, 3, 4, 5)),
    ("input=timer", takes(1)),
    ("input serial", takes(5)),
    ("stop", lambda it: it.after.stop > 0),
    ("PC=5-8 and R3 is 0..9", all_of(lambda it: 5 <= it.before.pc <= 8, lambda it: it.before.registers[3] <= 9)),
    ("store 0-0xFFFFF and R0 is -5..0x41", all_of(meets(0, 1 << 20, True), lambda it: it.before.registers[0] + 5 & WORD <= 70)),
    ("writes R2 and load 0-0x7FFFF", all_of(lambda it: "R2" in it.written, meets(0, 0x80000, False))),
    ("sent and PC=0-0x3FFFF and R0 is not 0x41", all_of(sends, lambda it: it.before.registers[0] != 0x41)),
    ("input and flags is not Z", all_of(takes(1, 2, 3, 4, 5), lambda it: it.before.flags != 4)),
    ("LEDs=0x41 and writes R2", lambda it: False),
    ("R3=0 and writes flags and PC=0-0x3FFFF and R3 is not 7", becomes_not_from(7)),
)
# Those that speak of values alone.
VALUES: tuple[tuple[str, Callable[[Step], bool]], ...] = (
    ("R2 is 0x40000", lambda it: it.before.registers[2] == 0x40000),
    ("R0 is not 0x41", lambda it: it.before.registers[0] != 0x41),
    ("R0 is -1..0x41", lambda it: it.before.registers[0] + 1 & WORD <= 0x42),
    ("H is 0", lambda it: it.before.h == 0),
    ("flags is N-C-", lambda it: it.before.flags == 10),
    ("writes R3", lambda it: "R3" in it.written),
    ("writes H", lambda it: "H" in it.written),
    ("writes LNK", lambda it: "R15" in it.written),
    ("writes flags and R0 is 0x41", all_of(lambda it: "flags" in it.written, lambda it: it.before.registers[0] == 0x41)),
)


# Several conditions, of which the first one that holds is named.
SEVERAL = ("R3=0 store 0-0x7FFFF", "input key load 0-0xFFFFF stop", "LEDs=1 store page 0 switches=9 input", "PC=5 PC=0-6 sent")


class ConditionsTest(ToolTest):
    """Each condition holds where its meaning does, in a trace of single instructions."""

    def assert_found(self, text: bytes, number: int, first: int = 0) -> set[str]:
        """Searches a run for each condition, and gives those that hold at some count."""
        run = run_of(text)
        steps, held = list(run.steps(run.machine(first), number)), set()
        for written, holds in (*MEANINGS, *VALUES):
            counts = [step.before.count for step in steps if holds(step)]
            for jobs, room in ((1, 1), (1, KEPT), (3, 2)):
                with mock.patch.multiple(searching, ROOM=room, LEAST_SEGMENT=1):
                    search = Search(run, conditions_of(written.split()), first, number, jobs)
                    self.assertEqual([hit.count for hit in search.all(KEPT)], counts, written)
            with mock.patch.multiple(searching, LAST_STEPS=3, GROWTH=2, LEAST_SEGMENT=1):
                ends = [hit.count if hit else None for hit in (search.first(), search.last())]
            self.assertEqual(ends, [counts[0], counts[-1]] if counts else [None, None], written)
            held |= {written} if counts else set()
        return held

    def test_they_are_those_of_programs(self) -> None:
        """R2 := 40000H, and a loop that sends, lights, reads the devices, divides and multiplies; then random instructions."""
        loop = (
            *(0x5100FFC0, 0x62000004, 0x40080041, 0xA0100008, 0xA0100004, 0xA0200190, 0xA0200000, 0xB0200001, 0x83100008),
            *(0x84100018, 0x8510001C, 0x43000001, 0x43390001, 0x40000000, 0x40F8FFFF, 0x442B0007, 0x440A0000, 0xE7FFFFF0),
        )
        inputs = sorted(
            (at, kind, value)
            for at, kind, value in (
                *((at, "key", 0x42) for at in range(5, 300, 31)),
                *((at, "serial", 0x42) for at in range(9, 300, 40)),
                *((at, "switches", at % 10) for at in range(9, 300, 10)),
                (50, "mouse", 7),
                (90, "timer", 7),
            )
        )
        held = self.assert_found(record(session(loop, [100, 101, 200, 333], inputs)), 333)
        held |= self.assert_found(record(session(SENDING, [9, 40])), 40, 3)
        source = random.Random(5)
        for _ in range(3):
            kinds = (0, 0x40000000, 0x80000000, 0xA0000000)
            words = [source.choice(kinds) | source.getrandbits(28) & 0xF7F70FFF for _ in range(250)]
            words = [word & ~0x80000 if word >> 31 == 0 and word >> 18 & 3 == 3 else word for word in words]
            start = {"R": [source.getrandbits(19) for _ in range(16)], "H": 0, "PC": 0, "flags": 0, "rate": 3, "phase": 0}
            held |= self.assert_found(record({**session(words, [7, 60, 240]), "version": 2, "start": start}), 240)
        held |= self.assert_found(record(session([0x600B0000], [1, 9])), 9)
        never = {"7", "PC=0x10-0x20", "R0=0xFFFFFFFF", "SP=0", "sent 66", "flags=N-C-", "LEDs=0x41 and writes R2"}
        self.assertLessEqual({written for written, _ in MEANINGS} - never, held)

    def test_one_of_several_holds(self) -> None:
        made = self.recorded(SENDING, [40])
        ran = tool("find", made, "R2=8", "PC=4", "sent", "--all", "--json")
        shown = [(it["count"], it["condition"]) for it in map(json.loads, ran.output.splitlines())]
        self.assertEqual(shown, [(4, "R2=8"), (22, "PC=4"), (23, "sent")])
        step = json.loads(ran.output.splitlines()[-1])
        self.assertEqual((step["sent"], step["instruction"]), ([0x41], "STR R0, R1, 0"))

    def test_a_dot_is_a_bit_of_its_word(self) -> None:
        made = self.recorded((0x6D00000E, 0x4DD67F00, 0x40000005, 0xA0D00084, JUMP), [20])
        for dot, is_drawn in (("32,1", True), ("33,1", False), ("34,1", True), ("35,1", False), ("64,1", False), ("32,0", False)):
            ran = tool("find", made, "change", "dot", dot)
            self.assertEqual((ran.output.split()[:1], ran.status), ([b"3"], 0) if is_drawn else ([], 1), dot)
        self.assertEqual(tool("find", made, "store", "dot", "33,1").status, 0)

    def test_the_register_h_may_follow_a_byte_that_is_sent(self) -> None:
        for words in (["sent", "H=5"], ["sent", "H", "5"], ["sent H = 5"], ["sent", "h=-5"]):
            self.assertEqual([it.raws[0].kind for it in conditions_of(words)], [SENDS, BECOMES], words)

    def test_a_device_that_becomes_a_value_may_follow_an_input(self) -> None:
        """What follows `input` is its kind only if no value is assigned to it."""
        for name in ("switches", "mouse", "serial"):
            taken, *rest = WRITTEN[name]
            for words in (["input", f"{name}=3"], [f"input {name} = 3"], ["input", f"{name}=0x3"]):
                found = conditions_of(words)
                self.assertEqual([it.text for it in found], ["input", words[-1].removeprefix("input ").replace(" ", "")], words)
                self.assertEqual([len(it.raws) for it in conditions_of(words)], [6, 1 + len(rest)], words)
            for words in (["input", name, f"{name}=3"], [f"input={name}", f"{name}=3"]):
                self.assertEqual([it.raws for it in conditions_of(words)], [(taken,), WRITTEN[name]], words)
            self.assertEqual([it.raws[0].kind for it in conditions_of(["input", name, "3"])], [TAKES, COUNTER])
        for words in (["input", "timer=3"], ["input", "key=3"]):
            with self.assertRaisesRegex(Refused, "expected input alone, or with one of"):
                conditions_of(words)

    def test_the_values_of_words(self) -> None:
        """The number at 400 is 0 before it is stored there for the first time."""
        made = self.recorded(COUNTING, [30])
        self.assertEqual(tool("find", made, "--all", "Mem[000190]", "is", "not", "1..").status, 2)
        for words, counts in (
            ("400 is 0 and PC=2", []),
            ("400 is 0", [0, 1]),
            ("400 is 3 and PC=0", [9]),
            ("400 is 2..3 and store 400", [7, 10]),
            ("400 is not 1 and PC=1 PC=29", [1, 7, 10, 13, 16, 19, 22, 25, 28]),
        ):
            ran = tool("find", made, "--all", *words.split())
            self.assertEqual([int(line.split()[0]) for line in ran.output.splitlines()], counts, words)

    def test_joined_conditions_that_are_refused(self) -> None:
        for words, why in (
            ("PC=1 and", "expected PC=N"),
            ("and PC=1", "expected PC=N"),
            ("PC=1 and and PC=2", "expected PC=N"),
            ("PC=1 and PC=2 and PC=3 and PC=4 and PC=5", "at most 4"),
            ("LEDs is 3", "before is"),
            ("page 3 is 3", "PLACE"),
            ("0-7 is 3", "one word"),
            ("0xFFFFC4 is 3", "below 100000"),
            ("writes LEDs", "R0 to R15, SP, LNK, H or flags"),
            ("R0 is", "expected a number"),
            ("R0 is not", "expected a number"),
            ("flags is 16", "no bit but those"),
        ):
            with self.assertRaisesRegex(Refused, why):
                conditions_of(words.split())
        with self.assertRaisesRegex(Refused, "more than 64"):
            conditions_of(["input and PC=1"] * 7)

        conditions_of(["sent"] * 64)
        conditions_of(["input"] * 10)
        for joined in (["sent"] * 65, ["input"] * 11):
            with self.assertRaisesRegex(Refused, "more than 64 conditions"):
                conditions_of(joined)


class HitsTest(ToolTest):
    """All hits are the same, however many of them a call lists, and however many counts a call records."""

    def hits(self, run: Run, words: str, end: int, **sizes: int) -> list[tuple[RawStep, str]]:
        """The hits of a search whose calls have some of their limits."""
        own = {name: size for name, size in sizes.items() if name in vars(recorded)}
        others = {name: size for name, size in sizes.items() if name not in own}
        with mock.patch.dict(vars(searching), others), mock.patch.dict(vars(recorded), own):
            return [(hit.raw, hit.condition.text) for hit in Search(run, conditions_of(words.split()), 0, end).all(end)]

    def assert_same(self, text: bytes, end: int, *conditions: str) -> set[str]:
        """Compares the hits with several limits, and gives the conditions that hold at some count."""
        run, held = run_of(text), set()
        for words in conditions or (*(words for words, _ in (*MEANINGS, *VALUES)), *SEVERAL):
            hits = self.hits(run, words, end)
            for sizes in ({"ROOM": 1, "FIRST_STEPS": 7}, {"ROOM": 2, "APART": 0}, {"ROOM": 5, "APART": 3, "MOST_RECORDED": 4}):
                self.assertEqual(self.hits(run, words, end, **sizes), hits, (words, sizes))
            held |= {words} if len(hits) > 1 else set()
        return held

    def test_each_condition(self) -> None:
        """In random programs and in some that mostly wait, with inputs, stops, a timer that counts, and code that writes itself."""
        held = set()
        for case in (randomly.case(1), waiting.case(2)):
            end = min(case.counts, 200)
            held |= self.assert_same(record(replace(case.session, checkpoints=[end]).text().encode()), end)
        held |= self.assert_same(record(session(SENDING, [9, 40])), 40)
        self.assertGreater(len(held), 10)

    def test_borders_of_slices(self) -> None:
        text = record(session(COUNTING, [50, 51, 150, 160], [(at, "key", 65) for at in (16, 17, 31, 32, 33, 99, 100, 101)]))
        self.assert_same(text, 160, "PC=1", "store 400", "input", "change 400 R0=9", "load 0-99 store 400", "R0 is 3..30")

    def test_code_that_writes_itself(self) -> None:
        """R1 := 80H; an instruction before or after the store becomes a store, a load or a move, in turn."""
        for place in (4, 24):
            loop = (0x41000080, 0x60006000, 0x4006C141, 0x41190004, 0x82100000, 0xA2000000 + place, 0x40000000, 0x40000005)
            again = (0xE7FFFFFA,)
            words = [*loop, *again, *[0] * (32 - len(loop) - len(again)), *[0x40000001, 0xA0000190, 0x80000008, 0xA0000194] * 9]
            self.assert_same(
                record(session(words, [200])), 200, "store 400", "load 8", "change 0-99", "R0=5", "store page 0", "PC=6"
            )

    def test_keys_that_a_full_queue_drops(self) -> None:
        """Sixteen keys wait before the first is read, and then one is read each three instructions."""
        keys = [(0, "key", 0x41 + at) for at in range(18)] + [(4, "key", 0x61), (4, "key", 0x62)]
        loop = (0x40000080, 0x5100FFDC, 0x82100000, 0xE7FFFFFD)
        made = self.file("it.orsr", record(session(loop, [20], keys)))
        lines = tool("find", made, "input", "input dropped", "--all").output.decode().splitlines()
        self.assertEqual(
            [it.split("input   ")[1] for it in lines if it.endswith(", dropped")],
            [f"key {it}, dropped" for it in ("51H (Q)", "52H (R)", "62H (b)")],
        )
        self.assertEqual(sum("input   " in it for it in lines), 20)

    def test_the_instructions_are_those_of_a_trace(self) -> None:
        """Of random counts of random programs, whose stores are of words and of bytes."""
        rng = random.Random(7)
        for seed in range(12):
            case = randomly.case(seed)
            run = run_of(record(replace(case.session, checkpoints=[case.counts]).text().encode()))
            steps = list(run.raw_steps(run.machine(0), case.counts))
            for limits in ({}, {"APART": 2}, {"MOST_RECORDED": 5}):
                chosen = sorted(rng.sample(steps, rng.randint(0, len(steps))))
                with mock.patch.dict(vars(recorded), limits):
                    found = list(recorded.steps_at(run.library, run.machine(0), run.inputs, [it.at for it in chosen]))
                self.assertEqual(found, chosen, (seed, limits))

    def test_what_is_printed_is_what_a_trace_shows(self) -> None:
        """As text and as JSON, by segments side by side and one at a time."""
        made = self.recorded(COUNTING, [900, 1000, 3000], [(at, "key", 65) for at in range(5, 3000, 100)])
        sym = self.file("names.sym", "0 t Start\n4 t Store\n190 d Number\n")
        choices: Sequence[Sequence[object]] = ([], ["--symbols", sym])
        for jobs in (1, 3):
            for options in choices:
                objects = tool("trace", made, "--to", 3000, "--json", *options).output.splitlines()
                found = tool("find", made, "--all", "PC=1", "--json", "-j", jobs, *options).output.splitlines()
                expected = [{**it, "condition": "PC=1"} for it in map(json.loads, objects) if it["PC"] == 1]
                self.assertEqual([json.loads(line) for line in found], expected)
            lines = tool("trace", made, "--to", 3000).output.splitlines()
            shown = tool("find", made, "--all", "PC=0-2", "--most", 3000, "-j", jobs).output.splitlines()
            self.assertEqual(shown, lines)

    def test_hits_that_are_dense_take_microseconds(self) -> None:
        run, line = run_of(record(session(COUNTING, [200_000]))), JsonLines().line
        with self.takes_at_most(3):
            hits = Search(run, conditions_of(["PC=1"]), 0, 200_000).all(50_000)
            self.assertEqual(sum(len(line(hit.raw)) > 0 for hit in hits), 50_000)
