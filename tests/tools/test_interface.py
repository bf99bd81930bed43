"""import galluspa: its answers are those of the program and of the tools, its refusals, and that it prints nothing."""

import os
import sys
from collections.abc import Callable
from itertools import islice
from typing import Any

import galluspa
from galluspa.engine.library import Library
from galluspa.formats.recording import read
from tests.tools.samples import EXAMPLES, JUMP, PROGRAM, STORED, TOOLS, ToolTest, record, rejoining, run, session, tool

FACE = (EXAMPLES / "face.orsr").read_bytes()
# R0 := R0 + 1, for ever; the key of count 20 is taken and not read.
COUNTING = [0x40080001, JUMP - 1]
FLOAT = 0x000C0000


class InterfaceTest(ToolTest):
    def test_a_check_is_that_of_the_program(self) -> None:
        for text in (STORED, rejoining(9), STORED[:-1], b"", FACE):
            ran, verdict = run([PROGRAM], text), galluspa.check(text)
            self.assertEqual((f"{verdict.line}\n".encode(), verdict.status), (ran.output, ran.status))
            self.assertEqual([verdict.is_accepted, verdict.is_false, verdict.is_refused], [ran.status == it for it in range(3)])

    def test_a_recording_is_that_of_the_program(self) -> None:
        for path in sorted(EXAMPLES.glob("*.json")):
            self.assertEqual(galluspa.record(path.read_bytes()), record(path.read_bytes()))

    def test_a_machine_is_what_a_checkpoint_claims_and_runs_to_the_next(self) -> None:
        for text in (FACE, record((EXAMPLES / "clock.json").read_bytes())):
            claims = read(text).checkpoints
            for number, claim in enumerate(claims):
                machine = galluspa.Machine.claim(text, number)
                self.assertEqual((machine.count, machine.state.registers), (claim.count, claim.registers))
                self.assertEqual(machine.memory(), read(text).memory(claim, 0, 1 << 20))
                if number + 1 < len(claims):
                    after = claims[number + 1]
                    self.assertEqual(machine.advance(after.count), after.output)
                    found = machine.count, machine.state.registers, machine.state.pc
                    self.assertEqual(found, (after.count, after.registers, after.pc))

    def test_the_machines_of_all_claims_are_those_of_each(self) -> None:
        for text in (FACE, record((EXAMPLES / "clock.json").read_bytes())):
            machines = list(galluspa.Machine.claims(text))
            self.assertEqual(len(machines), len(read(text).checkpoints))
            for number, machine in enumerate(machines):
                alone = galluspa.Machine.claim(text, number)
                self.assertEqual((machine.state, machine.memory(), machine.end), (alone.state, alone.memory(), alone.end))
        first, second, *_ = galluspa.Machine.claims(text)
        first.advance(second.count)
        self.assertEqual((first.state.pc, first.memory()), (second.state.pc, second.memory()))
        with self.assertRaisesRegex(galluspa.Refused, "the bytes are not a recording"):
            next(galluspa.Machine.claims(STORED[:-1]))

    def test_machines_of_many_counts_cost_one_run(self) -> None:
        with galluspa.Recording(FACE) as recording, self.takes_at_most(2):
            pointers = [recording.machine(count).state.pc for count in range(recording.end, 0, -100_000)]
        machine = galluspa.Machine.claim(FACE)
        for count, pointer in zip((100_000, 200_000), reversed(pointers)):
            machine.advance(count)
            self.assertEqual(machine.state.pc, pointer)

    def test_it_finds_what_the_tool_finds(self) -> None:
        path = self.file("face.orsr", FACE)
        machine = galluspa.Machine.claim(FACE, 1)
        for last in (False, True):
            hit = machine.find("change dot 600,219 sent", 20_000_000, last)
            assert hit
            words = ["change dot 600,219", "--from", str(machine.count), *["--last"] * last]
            line = tool("find", path, *words).output.decode()
            self.assertEqual(str(hit.count), line.split()[0])
            self.assertEqual((hit.step.before.count, hit.step.after.count), (hit.count, hit.count + 1))
        self.assertIsNone(machine.find("stop", 20_000_000))
        self.assertIsNone(machine.find("PC=0-4000000", machine.count))
        self.assertEqual(machine.count, read(FACE).checkpoints[1].count)

    def test_states_and_steps_are_those_of_its_run(self) -> None:
        text = record(session(COUNTING, [400], [(20, "key", 65)]))
        states = list(galluspa.Machine.claim(text).states(300))
        self.assertEqual([it.count for it in states], list(range(301)))
        self.assertEqual([it.registers[0] for it in states], [(count + 1) // 2 for count in range(301)])
        self.assertEqual([it.keys for it in states[19:22]], [b"", b"", b"A"])
        machine = galluspa.Machine.claim(text)
        shown = [(it.count, it.registers) for it in machine.states(100, every=30)]
        self.assertEqual(shown, [(states[at].count, states[at].registers) for at in (0, 30, 60, 90, 100)])
        self.assertEqual(list(machine.states(100)), list(machine.states(100, every=7)))
        steps = list(machine.copy().steps(103))
        self.assertEqual([(it.word, it.before.count) for it in steps], [(COUNTING[count % 2], count) for count in (100, 101, 102)])
        self.assertEqual(machine.count, 100)
        first = next(islice(machine.steps(400), 1))
        self.assertEqual((first.after.count, machine.has_stopped), (101, False))

    def test_a_machine_that_stops_does_nothing_more(self) -> None:
        machine = galluspa.Machine.claim(record(session([COUNTING[0], FLOAT], [9])))
        self.assertEqual([(step.word, step.after.stop) for step in machine.copy().steps(9)], [(COUNTING[0], 0), (FLOAT, 1)])
        self.assertEqual([machine.has_stopped, machine.advance(9), machine.has_stopped], [False, b"", True])
        self.assertEqual([[it.stop for it in machine.states(12, every)] for every in (1, 2)], [[1], [1]])

    def test_it_refuses_bad_input(self) -> None:
        machine = galluspa.Machine.claim(FACE, 1)
        for call, told in (
            (lambda: galluspa.record(b"{}"), "session refused 2 shape"),
            (lambda: galluspa.Machine.claim(STORED[:-1]), "the bytes are not a recording"),
            (lambda: galluspa.Machine.claim(FACE, 9), "the recording has no such checkpoint"),
            (lambda: machine.find("rubbish", 5_000_000), "rubbish: "),
        ):
            self.assert_raises(call, told)
        self.assertTrue(issubclass(galluspa.Failed, galluspa.Refused))
        with self.assertRaises(AttributeError):
            getattr(galluspa, "none")

    def test_a_verdict_is_true_only_if_it_accepts(self) -> None:
        verdicts = [galluspa.check(it) for it in (STORED, rejoining(9), STORED[:-1], b"examples/face.orsr")]
        self.assertEqual([bool(it) for it in verdicts], [True, False, False, False])

    def test_any_buffer_is_taken_and_a_name_is_not(self) -> None:
        text, clock = record(session(COUNTING, [400])), (EXAMPLES / "clock.json").read_bytes()
        kinds: list[Callable[[bytes], Any]] = [bytearray, memoryview, lambda it: memoryview(bytearray(it))[:]]
        for kind in kinds:
            self.assertEqual(galluspa.check(kind(text)), galluspa.check(text))
            self.assertEqual(galluspa.record(kind(clock)), record(clock))
            self.assertEqual(galluspa.Machine.claim(kind(text), 1).count, 400)
        self.assertEqual(galluspa.check(memoryview(text + text)[: len(text)]), galluspa.check(text))
        given: list[Any] = ["examples/face.orsr", EXAMPLES / "face.orsr", None, 7]
        calls: list[Callable[[Any], object]] = [galluspa.check, galluspa.record, galluspa.Machine.claim]
        told = "^a (recording|session) is bytes, not [A-Za-z]+: read its file in mode 'rb'$"
        for it in given:
            for call in calls:
                self.assertRaisesRegex(TypeError, told, call, it)

    def test_bad_numbers_are_value_errors(self) -> None:
        text = record(session(COUNTING, [400]))
        machine = galluspa.Machine.claim(text)
        machine.advance(100)
        calls: list[Callable[[], object]] = [
            lambda: machine.advance(-1),
            lambda: machine.advance(99),
            lambda: machine.advance((1 << 40) + 1),
            lambda: machine.find("sent", 99),
            lambda: machine.find("sent", 1 << 64),
            lambda: machine.steps(99),
            lambda: machine.states(99),
            lambda: machine.states(200, every=0),
            lambda: galluspa.Machine.claim(text, -1),
            lambda: galluspa.Machine.claim(text, 1 << 32),
        ]
        for call in calls:
            with self.assertRaisesRegex(ValueError, r"^(count|every|checkpoint) -?\d+ is not in \d+\.\.\d+$"):
                call()
        other: Any = machine
        wrong: list[Callable[[], object]] = [lambda: other.advance(1.5), lambda: other.advance("200")]
        for call in (*wrong, lambda: other.find(7, 200), lambda: other.states(None)):
            self.assertRaises(TypeError, call)
        self.assertEqual((machine.count, machine.advance(100)), (100, b""))

    def test_a_machine_says_where_its_recording_ends_and_runs_on_without_inputs(self) -> None:
        machine = galluspa.Machine.claim(record(session(COUNTING, [40, 400], [(20, "key", 65), (399, "key", 66)])), 1)
        self.assertEqual(machine.end, 400)
        machine.advance(1000)
        self.assertEqual((machine.count, machine.state.keys, machine.end), (1000, b"AB", 400))

    def test_the_library_is_named_by_the_caller(self) -> None:
        library = Library.find(None)
        self.assertEqual(galluspa.check(STORED, library=library), galluspa.check(STORED))
        self.assertEqual(galluspa.Machine.claim(STORED, library=library).count, 0)

    def test_it_imports_little_until_it_is_used(self) -> None:
        script = "import galluspa, sys; print([it for it in sys.modules if it.startswith('galluspa')], 'argparse' in sys.modules)"
        ran = run([sys.executable, "-B", "-c", script], env={**os.environ, "PYTHONPATH": str(TOOLS)})
        self.assertEqual(ran.output, b"['galluspa'] False\n")
