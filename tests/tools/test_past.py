"""The past of a run: machines of any counts, in parts that begin at checkpoints, within a limit of memory and of time."""

from dataclasses import replace
from unittest import mock

from galluspa.engine import past as pasts
from galluspa.engine.past import Past
from galluspa.engine.tracing import Run, RunFrom
from galluspa.process.timelimit import Patience, TimeIsUp
from tests.tools.samples import EXAMPLES, ToolTest, record, run_of, session

FACE = (EXAMPLES / "face.orsr").read_bytes()
COUNTS = (19_999_999, 3, 15_000_000, 15_000_001, 20_000_000, 0, 1, 7_777_777, 7_777_776, 262_144)


class PastTest(ToolTest):
    def compare(self, past: Past, run: Run) -> None:
        """Compares machines of the past with those of the run, in an order that is not that of their counts."""
        for count in COUNTS:
            machine, wanted = past.machine(count), run.machine(count)
            self.assertEqual((bytes(machine.state), machine.memory()), (bytes(wanted.state), wanted.memory()), count)
            # What is done with a machine leaves the past as it is.
            machine.words[5000] = 1

    def test_machines_are_those_of_the_run_in_any_order(self) -> None:
        for run in (run_of(FACE), Run.begun(run_of(FACE).library, FACE)):
            past = Past(run)
            self.compare(past, run)
            self.assertEqual(len(past._parts), 1 if len(run.true) == 1 else 3)

    def test_a_past_holds_no_more_than_its_limit(self) -> None:
        run = Run.begun(run_of(FACE).library, FACE)
        for most in (150_000, 300_000):
            with mock.patch.object(pasts, "MOST_BYTES", most):
                past = Past(run)
                self.compare(past, run)
                (part,) = past._parts
                self.assertLess(part.size, most + 100_000)
                self.assertGreater(part._spacing, pasts.SPACING)
        with mock.patch.object(pasts, "MOST_BYTES", 1):
            past = Past(run_of(FACE))
            for count in COUNTS[:3]:
                past.machine(count)
            self.assertEqual(len(past._parts), 1)

    def test_a_question_for_which_there_is_no_time_leaves_the_past_as_it_is(self) -> None:
        run, patience = run_of(record(session([0x40080001, 0xE7FFFFFE], [10]))), Patience(0.3)
        past = Past(RunFrom(replace(run.library, limit=patience), run.machine(0), run.inputs))
        with self.assertRaises(TimeIsUp):
            past.machine(1 << 36)
        patience.seconds = 600
        patience.begin()
        self.assertGreater(past._parts[0].end, 1 << 18)
        for count in (9, past._parts[0].end + 7):
            self.assertEqual(past.machine(count).state.r[0], (count + 1) // 2)
