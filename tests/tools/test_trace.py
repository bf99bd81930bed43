"""galluspa trace: what each instruction changes, conditions, checkpoints."""

import json
import random
from dataclasses import replace
from tests.programs import randomly
from unittest import mock

from galluspa.engine.machine import Machine
from galluspa.engine.tracing import Run
from galluspa.formats import recording
from galluspa.engine.library import Library
from tests.tools.samples import EXAMPLES, JUMP, STORED, ToolTest, on_terminal, record, rejoining, run_of, session, tool

# R1 := FF0000H and R1 := 65280 - 1 down to 0 in a loop of two, then a division by 0, which stops.
COUNTING = (0x6100000F, 0x41190001, 0xE93FFFFE, 0x600B0000)
STOPS_AFTER = 1 + 2 * 0xF0000
# R1 := -56; R2 := 10; R2 := R2 - 1 until it is 0; R0 := 65 is sent and stored at 400; a jump to itself.
SENDING = (0x5100FFC8, 0x4200000A, 0x42290001, 0xE93FFFFE, 0x40000041, 0xA0100000, 0xA0200190, JUMP)


class TraceTest(ToolTest):
    def lines(self, text: bytes, *words: object) -> list[str]:
        """Returns the lines that the tool prints of a recording."""
        return self.lines_of("trace", self.file("it.orsr", text), *words)

    def test_the_end_of_a_machine_is_told(self) -> None:
        for words, stop in (
            ((0xC7000001,), None),
            ((0x000C0000,), "float"),
            ((0x000B0000,), "divisor"),
            ((0x6100001F, 0x81100000), "address"),
            ((0x6100FFFF, 0xC7000001), "fetch"),
        ):
            lines = self.lines(record(session(words, [5])), "--to", 5)
            if stop:
                self.assertTrue(lines[-2].endswith(f"stop running → {stop}"), lines)
                self.assertTrue(lines[-1].endswith(f"stopped ({stop}): it does nothing more"), lines)
            else:
                self.assertEqual(len(lines), 5)
        self.assertIn("(no word)", self.lines(record(session((0x6100FFFF, 0xC7000001), [5])), "--to", 5)[-2])

    def test_objects_for_machines(self) -> None:
        objects = [json.loads(line) for line in self.lines(record(session(SENDING, [40])), "--from", 22, "--to", 25, "--json")]
        one = {"count": 23, "inputs": [], "PC": 5, "word": 0xA0100000, "instruction": "STR R0, R1, 0", "changed": {"PC": [5, 6]}}
        self.assertEqual(objects[1], {**one, "memory": [], "sent": [0x41]})
        self.assertEqual(objects[2]["memory"], [[400, 0, 0x41]])
        self.assertEqual(objects[0]["changed"], {"R0": [0, 0x41], "PC": [4, 5], "flags": [4, 0]})

    def test_finds_the_first_that_brings_something_about(self) -> None:
        made = record(session(SENDING, [40]))
        for condition, count in (
            (["sent"], 23),
            (["store", "0x193"], 24),
            (["write", "400"], 24),
            (["R2=8"], 4),
            (["4"], 22),
            (["PC=4"], 22),
            (["flags=Z"], 20),
            (["R0=0x41"], 22),
            (["stop", "R0=0x41", "sent"], 22),
        ):
            lines = self.lines(made, "--steps", 2, "--until", *condition)
            self.assertEqual([int(line.split()[0]) for line in lines], [count - 1, count], condition)
        ran = tool("trace", self.file("it.orsr", made), "--until", "stop")
        self.assertEqual((ran.output, ran.status), (b"", 1))
        self.assertEqual(ran.errors, "galluspa trace: no stop in 0..40\n")

    def test_the_way_to_the_beginning_shows_progress(self) -> None:
        recorded = self.recorded((0x40080001, 0xE7FFFFFE), [1 << 26])
        told = on_terminal("trace", recorded, "--from", 60_000_000, "--steps", 1)
        self.assertIn(b"checking the recording\r", told)
        self.assertRegex(told, rb"at \d\d?,\d{3},\d{3} of 60,000,000\r\x1b\[K\r$")

    def test_shows_progress_on_a_terminal(self) -> None:
        recorded = self.recorded(COUNTING, [3_000_000])
        self.assertIn(b"searched 1,048,576 of 3,000,000\r", on_terminal("trace", recorded, "--until", "stop"))
        told = on_terminal("trace", recorded, "--until", "R5=1", "--to", 300)
        self.assertIn(b"searched 300 of 300\r\x1b[K\r", told)

    def test_a_stop_after_millions_is_found(self) -> None:
        made = record(session(COUNTING, [3_000_000]))
        lines = self.lines(made, "--until", "stop", "--steps", 1)
        self.assertEqual(lines[0].split()[:4], [str(STOPS_AFTER), "3", "600B0000", "DIV'"])
        self.assertEqual(len(lines), 2)

    def test_a_run_begins_at_the_nearest_true_checkpoint(self) -> None:
        read = recording.read((EXAMPLES / "face.orsr").read_bytes())
        rows = ((5, 19_999_999, 12_000_000), (5, 20_000_000, 20_000_000), (2, 19_999_999, 4_000_000), (5, 0, 0))
        for true, count, start in rows:
            run = Run(Library.find(None), read, range(true))
            with mock.patch.object(Machine, "claimed", wraps=Machine.claimed) as claimed:
                machine = run.machine(count)
            self.assertEqual((machine.count, [read.checkpoints[it.args[1]].count for it in claimed.mock_calls]), (count, [start]))

    def test_a_machine_is_what_a_checkpoint_claims(self) -> None:
        """As the library reads it: of both versions, of random programs, of what is false, of keys that wait and of a stop."""
        keys = [(at, "key", 65 + at) for at in range(20)]
        cases = [replace(it.session, checkpoints=[1, it.counts // 2, it.counts]) for it in map(randomly.case, range(4))]
        for text in (
            (EXAMPLES / "face-version-1.orsr").read_bytes(),
            STORED,
            rejoining(9),
            record(session([0x41000005, 0x600B0000], [1, 9, 30], keys)),
            *(record(it.text().encode()) for it in cases),
        ):
            run = run_of(text)
            for number in run.true:
                ours, its = run.claimed(number), run.library.claim(text, number)
                self.assertEqual((bytes(ours.state), ours.memory()), (bytes(its.state), its.memory()))

    def test_the_run_is_the_machines_where_a_claim_is_false(self) -> None:
        row = "         2       0  45000001  MOV R5, 1"
        self.assertEqual(self.lines(rejoining(9), "--from", 2, "--to", 3), [row])
        claimed = f"{row}               R5 00000009 → 00000001"
        self.assertEqual(self.lines(rejoining(9), "--at", 1, "--from", 2, "--to", 3), [claimed])

    def test_what_is_written_is_what_changes(self) -> None:
        """Of random programs: whatever changes is among what an instruction is said to write."""
        source = random.Random(1)
        for _ in range(6):
            kinds = (0, 0x40000000, 0x80000000, 0xA0000000, 0xF7000000)
            words = [source.choice(kinds) | source.getrandbits(28) & 0xFFF70FFF for _ in range(200)]
            registers = [source.getrandbits(19) for _ in range(16)]
            start = {"R": registers, "H": 0, "PC": 0, "flags": 0, "rate": 0, "phase": 0}
            made = record({**session(words, [1]), "version": 2, "start": start})
            run = run_of(made)
            for step in run.steps(run.machine(0), 100):
                changed = {f"R{at}" for at in range(16) if step.before.registers[at] != step.after.registers[at]}
                changed |= {"H"} if step.before.h != step.after.h else set()
                changed |= {"flags"} if step.before.flags != step.after.flags else set()
                self.assertLessEqual(changed, step.written)
                self.assertIn([word.address for word in step.changed], ([], [step.stored_at]))
