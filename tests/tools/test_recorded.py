"""Instructions by the thousand: those that are recorded at once against those one by one, slices of runs, and long runs."""

import random
import signal
import subprocess
import time
from collections.abc import Iterator
from dataclasses import replace
from tests.programs import waiting

from galluspa.engine.machine import MOST_STEPS, SENT_KEPT, Machine, Sent
from galluspa.engine.recorded import FIRST_BATCH
from galluspa.engine.tracing import Run, Step, differing
from galluspa.formats import recording
from galluspa.formats.recording import WORDS, Event, page_of
from galluspa.process.timelimit import Limit, TimeIsUp
from tests.support.slowness import is_within
from tests.tools.samples import GALLUSPA, Ran, ToolTest, claim, encoded, processor_seconds, record, session, tool, until
from tests.tools.samples import run_of
from tests.tools.test_trace import COUNTING


def plain(step: Step) -> Step:
    """Returns an instruction without what tells how it was had: where its states were read, and their tables."""
    before, after = (replace(it, start=0, table=None) for it in (step.before, step.after))
    return replace(step, before=before, after=after, changed=tuple(step.changed), inputs=tuple(step.inputs))


def one_by_one(run: Run, machine: Machine, to: int) -> Iterator[Step]:
    """Yields the instructions from a machine's count up to another, by a call of the library that advances the machine for each."""
    before = machine.seen()
    while before.count < to and not before.stop:
        word, memory = machine.words[before.pc] if before.pc < WORDS else None, machine.memory()
        sent = run.advance(machine, before.count + 1).first
        after = machine.seen(sent)
        yield Step(before, after, run.inputs.of(before.count, after.count), word, tuple(differing(memory, machine.memory())))
        before = after


class AtOnceTest(ToolTest):
    """Batches have the same instructions as single steps."""

    def assert_alike(self, text: bytes, number: int) -> list[Step]:
        """Compares both from the initial state of a recording on, and gives them back."""
        run = run_of(text)
        run.true = range(1)
        one, other = run.machine(0), run.machine(0)
        slow, fast = list(one_by_one(run, one, number)), list(run.steps(other, number))
        self.assertEqual([plain(step) for step in fast], [plain(step) for step in slow])
        self.assertEqual((bytes(other.state), other.memory()), (bytes(one.state), one.memory()))
        return fast

    def test_they_are_of_a_program_that_counts_and_sends(self) -> None:
        loop = (0x5100FFC8, 0x40080001, 0xA0100000, 0xA01FFFFC, 0xA0200190, 0x8F1FFFF8, 0xE7FFFFFA)
        inputs = [(at, kind, at % 256) for at, kind in zip(range(3, 3000, 7), ("mouse", "key", "switches", "timer") * 107)]
        told = session(loop, [1], inputs)
        told |= {"version": 2, "start": {**told["start"], "rate": 13, "phase": 5}}
        steps = self.assert_alike(record(told), 6000)
        self.assertEqual((len(steps), sum(bool(step.after.output) for step in steps)), (6000, 1000))
        self.assertEqual({len(step.before.keys) for step in steps} >= {1, 16}, True)

    def test_they_are_from_any_state_of_the_devices(self) -> None:
        """Also from one that no session can say: a byte of the serial line that was read already."""
        loop = page_of(0x5100FFC0, *[0xEF000000] * 200, 0x82100010, 0x83100008, 0x84100018, 0x8510001C, 0xA5100004, 0xE7FFFFFA)
        for serial in (0, 0x42, 0x142, 0x100):
            first = claim(0, rate=9, phase=8, timer=77, switches=0xABC, leds=0x5A, mouse=0x07001002, serial=serial, keys=b"\0abc")
            steps = self.assert_alike(
                encoded(2, [loop], [first, replace(first, count=1)], [Event(100, 5, 9), Event(300, 4, 8)]), 500
            )
            leds = [step.after.leds for step in steps]
            self.assertEqual((set(leds[:204]), set(leds[205:])), ({0x5A}, {0, 8, 0x61, 0x62, 0x63}))

    def test_they_end_where_the_machine_stops(self) -> None:
        for words in (
            (*[0xEF000000] * 240, 0x000C0000),
            (*[0xEF000000] * 64, 0x600B0000),
            (0x40080001,) * 240 + (0x6F000020, 0xA1F00000),
        ):
            jump = (0x5F00FFFF, 0x4FF10010, 0xC700000F)
            for program in (words, words[:-1] + jump):
                steps = self.assert_alike(record(session(program, [9])), 5000)
                self.assertGreater(len(steps), 64)
                self.assertEqual([step.after.stop != 0 for step in steps], [False] * (len(steps) - 1) + [True])

    def test_they_are_of_random_programs(self) -> None:
        source = random.Random(3)
        for _ in range(4):
            words = [word for word in (self.word(source) for _ in range(400)) if word >> 31 or word >> 16 & 15 < 11][:250]
            steps = self.assert_alike(
                record(
                    {
                        **session(words, [1]),
                        "version": 2,
                        "start": {
                            "R": [source.getrandbits(18) for _ in range(16)],
                            "H": 0,
                            "PC": 0,
                            "flags": 0,
                            "rate": 3,
                            "phase": 0,
                        },
                    }
                ),
                900,
            )
            self.assertGreater(len(steps), 64)

    def test_they_are_of_programs_that_change_themselves_and_of_some_that_wait(self) -> None:
        for case in waiting.cases(range(12)):
            self.assert_alike(record(case.session.text().encode()), min(case.counts, 600))

    def test_the_machine_is_at_the_last_that_was_taken(self) -> None:
        run = run_of(record(session(COUNTING, [3_000_000])))
        machine = run.machine(0)
        for number, _ in enumerate(run.steps(machine, 3_000_000)):
            if number == 5000:
                break
        self.assertEqual((machine.count, machine.state.r[1]), (5001, 0xF0000 - 2500))

    def word(self, source: random.Random) -> int:
        """Returns an operation, or a load or a store near the address in R15, which nothing writes."""
        word = source.choice((0, 0x40000000, 0x80000000, 0xA0000000)) | source.getrandbits(28) & 0xF7F70FFF
        return word | 0xF00000 if word >> 31 else word

    def test_where_the_time_is_over_the_machine_is_at_the_last(self) -> None:
        run = run_of(record(session((0x40080001, 0xE7FFFFFE), [100_000])))
        machine, last = run.machine(0), list[Step]()
        run.library = replace(run.library, limit=Limit(1.5))
        with self.assertRaises(TimeIsUp):
            for step in run.steps(machine, 1 << 30):
                last = [step]
        self.assertEqual((machine.count, machine.state.r[0]), (last[0].after.count, last[0].after.registers[0]))
        self.assertGreater(machine.count, FIRST_BATCH)

    def test_a_search_goes_faster(self) -> None:
        counting = self.file("it.orsr", record(session((0x40080001, 0xE7FFFFFE), [100_000])))
        with self.takes_at_most(15):
            lines = tool("trace", counting, "--until", "R0=15000", "--steps", "2").output.decode().splitlines()
        self.assertEqual([int(line.split()[0]) for line in lines], [29_997, 29_998])


class SliceTest(ToolTest):
    """A call of the library takes a part of a second, whatever the machine did before."""

    def test_a_loop_that_follows_a_long_wait_is_cut_into_slices(self) -> None:
        """The machine waits for a key, for long, and then counts. The seconds are those of the processor."""
        words = (0x5100FFC8, 0x82100010, 0x42210003, 0xE8FFFFFD, 0x40080001, 0xE7FFFFFE)
        run, ends = run_of(record(session(words, [1], [(1 << 31, "key", 65)]))), []
        machine = run.machine(0)
        run.advance(machine, (1 << 31) + (1 << 29), lambda count: ends.append((count, time.process_time())))
        of_wait = [count for count, _ in ends if count <= (1 << 31) + MOST_STEPS]
        self.assertTrue(len(of_wait) < 40 and of_wait[-1] >= 1 << 31, of_wait)
        ends = [(count, seconds) for count, seconds in ends if count >= 1 << 31]
        slices = [(later - sooner, seconds - before) for (sooner, before), (later, seconds) in zip(ends, ends[1:])]
        self.assertLessEqual(slices[0][0], 2 * MOST_STEPS)
        longest = sorted(seconds for _, seconds in slices)[-2]
        self.assertTrue(is_within(longest, 0.25), f"{longest:.2f} s")

    def test_a_long_wait_costs_little(self) -> None:
        """A run of 2^40 instructions in which the machine waits, also after a byte that is sent and with inputs: each tool is through it."""
        waits = [0x5100FFC8, 0xA0100000, 0xE7FFFFFF]
        made = self.file("it.orsr", record(session(waits, [9, 1 << 40], [(1 << at, "key", at) for at in range(4, 40)])))
        self.file("it.sym", "0 t Main\n")
        false = self.file("false.orsr", tool("claim", made, "--at", 2, "--set", "R5=9").output)
        commands: tuple[tuple[tuple[object, ...], int, str], ...] = (
            (("state", made, "--at", (1 << 40) - 1), 0, "count 1,099,511,627,775"),
            (("trace", made, "--from", (1 << 40) - 2), 0, "1099511627775"),
            (("trace", made, "--until", "stop"), 1, ""),
            (("find", made, "store", "400"), 1, ""),
            (("find", made, "stop"), 1, ""),
            (("find", made, "R5=9", "--last", "-j", 1), 1, ""),
            (("find", made, "sent", "--last"), 0, "         1       1  A0100000  STR R0, R1, 0"),
            (("profile", made), 0, "1,099,511,627,776 instructions"),
            (("executed", made), 0, "Main"),
            (("explain", false), 1, "false checkpoint 2 at 1099511627776 part R5"),
            (("debug", made, "--batch", "-ex", "at end", "-ex", "watch 0x400", "-ex", "reverse-continue"), 0, "(0) "),
        )
        for words, status, told in commands:
            with self.takes_at_most(10):
                ran = tool(str(words[0]), *words[1:], "--limit", 40)
            self.assertEqual(ran.status, status, (words, ran))
            self.assertIn(told, ran.output.decode())

    def test_what_follows_a_long_wait_ends_at_once(self) -> None:
        """The machine waits for its timer, for 2^32 instructions, and then counts: no input says when."""
        waits = [0x5100FFC0, 0x82100000, 0x42290FFF, 0xE6FFFFFD, 0x40080001, 0xE7FFFFFE]
        start = {"R": [0] * 16, "H": 0, "PC": 0, "flags": 0, "rate": 1 << 20, "phase": 0}
        timed = {**session(waits, [1]), "version": 2, "start": start}
        read = recording.read(record(timed))
        first, last = (replace(read.checkpoints[1], count=count) for count in (1, 1 << 40))
        made = self.file("it.orsr", recording.write(replace(read, checkpoints=[read.checkpoints[0], first, last])))
        for words in (["trace", "--at", 0, "--from", (1 << 40) - 1], ["trace", "--at", 0, "--until", "R5=9"]):
            command = [str(it) for it in (GALLUSPA, words[0], made, *words[1:])]
            with subprocess.Popen(command, stdout=subprocess.PIPE, stderr=subprocess.PIPE) as begun:
                until(lambda: processor_seconds(begun.pid) > 5)
                self.assertEqual(self.ended_at_once(begun, signal.SIGINT), Ran(b"", "", 130))


class LongRunTest(ToolTest):
    """Runs of a machine that sends at each second instruction, and of one that has stopped."""

    def sending(self) -> Run:
        """Returns a run that sends without end."""
        return run_of(record(session((0x5100FFC8, 0xA0100000, 0xE7FFFFFE), [1])))

    def test_what_is_kept_of_what_is_sent_is_bounded(self) -> None:
        run = self.sending()
        machine = run.machine(0)
        sent = run.advance(machine, 3 * SENT_KEPT)
        self.assertEqual((machine.count, sent.length, len(sent.first)), (3 * SENT_KEPT, 3 * SENT_KEPT // 2, SENT_KEPT))

    def test_a_run_in_slices_is_that_run(self) -> None:
        run = self.sending()
        whole, other = run.machine(0), run.machine(0)
        sent = run.advance(whole, 2_500_001)
        pieces = Sent()
        for count in (1, 2, 70_000, 1_048_577, 2_500_001):
            pieces += run.advance(other, count)
        self.assertEqual((pieces, bytes(other.state), other.memory()), (sent, bytes(whole.state), whole.memory()))

    def test_a_search_on_a_machine_that_has_stopped_ends_at_once(self) -> None:
        stopped = self.file("it.orsr", record(session([0x600B0000], [1 << 40])))
        for condition in (["sent"], ["R5=7"], ["write", "400"]):
            with self.takes_at_most(5):
                ran = tool("trace", stopped, "--until", *condition)
            self.assertEqual((ran.status, ran.output), (1, b""))
            self.assertIn(f"in 0..{1 << 40}: the machine has stopped", ran.errors)
        self.assertIn(b"stopped (divisor)", tool("trace", stopped, "--until", "stop").output)

    def test_what_there_is_no_time_for_is_told(self) -> None:
        busy = self.file("it.orsr", record(session([0x40080001, 0xE7FFFFFE], [9])))
        ran = tool("trace", busy, "--until", "stop", "--to", 1 << 40, "--limit", 1)
        self.assertRegex(ran.errors, r"^galluspa trace: no answer in 1 s: no stop in 0\.\.\d+\n$")
        self.assertEqual((ran.status, ran.output), (3, b""))
