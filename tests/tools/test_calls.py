"""The calls that are open at each count, against a naive look at each instruction; and what the tools say of them."""

import json
import random
from collections.abc import Sequence
from dataclasses import replace
from operator import itemgetter
from unittest import mock

from galluspa.analysis.calls import Calls, RisingCalls
from galluspa.engine.past import Past
from galluspa.engine import following
from galluspa.engine.following import EACH_RISE, Call
from galluspa.engine.tracing import Run, Step
from galluspa.interface import Recording
from galluspa.process.cli import Refused
from tests.programs import waiting
from tests.tools import naivecalls
from tests.tools.samples import JUMP, ToolTest, record, run_of, session, tool
from tests.tools.test_rerun import script

# A main program and another one take turns, each on a stack of its own: Switch swaps SP and the return address. Other's stack is above.
COROUTINES = """
Switch: MOV R0, Other.pointer
        LDR R1, R0, 0
        LDR R2, R0, 4
        STR SP, R0, 0
        STR LNK, R0, 4
        MOV SP, R1
        B R2
Other:  BL Work
        BL Switch
        B Other
Work:   ADD R5, R5, 1
        B LNK
Deep:   SUB SP, SP, 4
        STR LNK, SP, 0
        BL Switch
        BL Work
        LDR LNK, SP, 0
        ADD SP, SP, 4
        B LNK
Main:   MOV SP, 1000H
Main.next:
        BL Deep
        B Main.next
Other.pointer:
        word 2000H, Other
        start Main
        checkpoints 200
"""
# A recursion without end.
ENDLESS = """
Main:   SUB SP, SP, 4
        BL Main
        start Main
        checkpoints 4000
"""


class CallsTest(ToolTest):
    def run_of(self, text: bytes) -> tuple[Run, Sequence[Step]]:
        """Returns the run of a recording, and all its instructions up to its last checkpoint."""
        run = run_of(text)
        run.true = range(1)
        return run, list(run.steps(run.machine(0), run.counts[-1]))

    def assert_exact(self, text: bytes, limit: int = EACH_RISE) -> list[tuple[Call, ...]]:
        """Compares the open calls at all counts, asked for in any order, in order, and as calls end; and returns them."""
        run, steps = self.run_of(text)
        wanted = list(naivecalls.stacks(steps, limit))
        counts = random.Random(5).sample(range(len(wanted)), min(len(wanted), 60))
        calls, rising = Calls(run, limit), RisingCalls(Calls(run, limit), 0)
        self.assertEqual([calls.at(it) for it in counts], [wanted[it] for it in counts])
        self.assertEqual([tuple(rising.at(it)) for it in range(len(wanted))], wanted)
        for count in counts[:20]:
            depth, end = len(wanted[count]), len(wanted) - 1
            if depth:
                left = next((at for at in range(count + 1, end + 1) if wanted[at][:depth] != wanted[count]), None)
                self.assertEqual(Calls(Past(run), limit).end_of(depth, count, end), left, count)
        return wanted

    def test_they_are_those_of_random_programs(self) -> None:
        open_calls = 0
        for case in waiting.cases(range(20)):
            text = record(replace(case.session, checkpoints=[min(case.counts, 900)]).text().encode())
            for limit in (EACH_RISE, 0):
                open_calls += sum(map(len, self.assert_exact(text, limit)))
        self.assertGreater(open_calls, 1000)

    def test_the_stacks_of_coroutines_have_a_limit_between_them(self) -> None:
        path = self.assembled(COROUTINES)
        text = path.read_bytes()
        limited, each_rise = self.assert_exact(text, 0x1000), self.assert_exact(text)
        more = (len(stack) - len(other) for stack, other in zip(limited, each_rise))
        count = max(enumerate(more), key=itemgetter(1))[0]
        self.assertEqual((len(limited[count]), len(each_rise[count])), (3, 1))
        option = ("--stack-limit", "0x1000")
        waits = self.file("it.rerun.json", script({"key": "a"}, {"look": "it"}, patience=count))
        for options, wanted in (((), each_rise[count]), (option, limited[count])):
            counts = [call.count for call in reversed(wanted)]
            traced = json.loads(tool("trace", path, "--from", count, "--steps", 1, "--calls", "--json", *options).output)
            self.assertEqual(len(traced["stack"]), len(counts) + 1)
            lines = tool("debug", path, "--batch", "-ex", f"at {count}", "-ex", "bt", *options).output.decode().splitlines()
            frames = [int(it.rpartition(" at ")[2]) for it in lines if it.startswith("#")]
            self.assertEqual(frames, [count, *counts])
            told = tool("rerun", waits, "--image", path, *options).output.decode()
            self.assertEqual(told.partition(f"; at {count:,} by ")[2].splitlines()[0].count(" < "), len(counts), told)
        calls = Recording.open(path).machine(count).calls
        self.assertEqual([len(calls(*limit)) for limit in ((), (0x1000,), ())], [1, 3, 1])
        self.assertRaises(ValueError, calls, -1)

    def test_full_rooms_are_gone_on_from(self) -> None:
        text = self.assembled(ENDLESS).read_bytes()
        with mock.patch.multiple(following, TURNS=7, FIRST_CALLS=2):
            wanted = self.assert_exact(text)
        self.assertEqual(len(wanted[-1]), 2000)

    def test_too_many_open_calls_are_refused(self) -> None:
        run, _ = self.run_of(self.assembled(ENDLESS).read_bytes())
        with mock.patch.multiple(following, MOST_OPEN=1024), self.assertRaisesRegex(
            Refused, "^1,024 calls are open at count 2,048"
        ):
            Calls(run).at(4000)

    def test_a_run_from_a_claim_has_the_calls_since_then(self) -> None:
        path = self.assembled(COROUTINES.replace("checkpoints 200", "checkpoints 30, 200"))
        lines = tool("trace", path, "--at", 1, "--from", 30, "--to", 40, "--calls").output.decode().splitlines()
        self.assertTrue(any(it.startswith("  stack since 30: ") for it in lines), lines)

    def test_a_machine_that_waits_is_followed(self) -> None:
        run = run_of(record(session([0xF7000003, JUMP, JUMP, JUMP, 0x5100FFC8, 0x82100010, 0xE7FFFFFE], [1 << 24])))
        self.assertEqual([it[:3] for it in Calls(run).at(1 << 24)], [(0, 0, 4)])
