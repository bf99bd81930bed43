"""Which instruction wrote a part last, and which one changed it last, against a look at each instruction."""

from collections.abc import Sequence
from dataclasses import replace

from galluspa.analysis.lastwrites import last_write
from galluspa.analysis.rawconditions import REGISTER_NUMBERS, changing
from galluspa.analysis.search import Search
from galluspa.engine.tracing import Run, Step
from galluspa.formats import states
from tests.programs import randomly
from tests.tools.samples import JUMP, ToolTest, record, run_of, session, tool

# R3 := 0, which is 0; R1 := 7 twice; R4 := R3 - 3; R2 := 5, which a word becomes twice; then a jump to itself.
SAME = (0x43000000, 0x41000007, 0x41000007, 0x44390003, 0x42000005, 0xA2000190, 0xA2000190, JUMP)


def last(steps: Sequence[Step], part: str | int) -> tuple[int | None, int | None]:
    """Returns the counts of the last of some instructions that wrote a part, and of the last that changed it."""
    if isinstance(part, int):
        written = [it.before.count for it in steps if it.stored_at == part]
        changed = [it.before.count for it in steps if any(word.address == part for word in it.changed)]
    else:
        written = [it.before.count for it in steps if part in it.written]
        changed = [it.before.count for it in steps if states.values(it.before)[part] != states.values(it.after)[part]]
    return (written[-1] if written else None), (changed[-1] if changed else None)


class WritersTest(ToolTest):
    def assert_found(self, run: Run, end: int) -> int:
        """Compares the answers at counts of a run with its instructions; returns how many differ in write and change."""
        steps, differing = list(run.steps(run.machine(0), end)), 0
        stored = {it.stored_at for it in steps if it.stored_at is not None and it.stored_at < 1 << 20}
        for to in range(1, len(steps) + 1, 19):
            parts: list[str | int] = [*REGISTER_NUMBERS, *sorted(stored)[:3]]
            for part in parts:
                found, wanted = last_write(run, part, 0, to), last(steps[:to], part)
                ends = (found.step.before.count, found.changed.before.count if found.changed else None) if found else (None, None)
                self.assertEqual(ends, wanted, (part, to))
                differing += wanted[0] != wanted[1]
        return differing

    def test_they_are_those_of_single_steps(self) -> None:
        """In random programs, with branches that are not taken, stops, and code that writes itself."""
        differing = 0
        for seed in (3, 5, 8):
            case = randomly.case(seed)
            end = min(case.counts, 80)
            run = run_of(record(replace(case.session, checkpoints=[end // 2, end]).text().encode()))
            differing += self.assert_found(run, end)
        self.assertGreater(differing, 10)

    def test_a_word_that_is_another_instruction_for_a_while_is_looked_at(self) -> None:
        """A loop stores MOV R9, 1 over an instruction, does it, and stores what was there again."""
        words = (
            0x61004900, 0x41160001,  # R1 := the word of MOV R9, 1
            0x62004500, 0x42260001,  # R2 := that of MOV R5, 1
            0xA1000018, 0x40000000, 0x45000001, 0xA2000018, *[0x40000000] * 40, JUMP,
        )  # fmt: skip
        run = run_of(record(session(words, [3000])))
        for to in (7, 9, 3000):
            found = last_write(run, "R9", 0, to)
            self.assertEqual(found.step.before.count if found else None, 6)
        self.assertIsNone(last_write(run, "R9", 0, 6))

    def test_a_long_run_is_passed_over(self) -> None:
        run = run_of(record(session((0x43000000, 0x40080001, 0xE7FFFFFE), [30_000_000])))
        found = last_write(run, "R3", 0, 30_000_000)
        self.assertEqual((found.step.before.count, found.changed) if found else None, (0, None))

    def test_changes_forward_and_backward_are_those_of_single_steps(self) -> None:
        """The first and the last change of each register in stretches of a run."""
        end = min((case := randomly.case(5)).counts, 80)
        run = run_of(record(replace(case.session, checkpoints=[end // 2, end]).text().encode()))
        steps = list(run.steps(run.machine(0), end))
        for first, to in ((0, len(steps)), (7, len(steps)), (len(steps) // 2, len(steps) // 2 + 9), (4, 4)):
            for name in REGISTER_NUMBERS:
                values = [(states.values(it.before)[name], states.values(it.after)[name]) for it in steps[first:to]]
                counts = [first + at for at, (old, new) in enumerate(values) if old != new]
                search = Search(run, [changing(name)], first, to)
                wanted = (counts[0], counts[-1]) if counts else (None, None)
                self.assertEqual(tuple(it and it.count for it in (search.first(), search.last())), wanted, (name, first, to))


class SameValueTest(ToolTest):
    """A write of the value that is there, as each tool shows it."""

    def setUp(self) -> None:
        super().setUp()
        self.recording = self.recorded(SAME, [8, 20])

    def who(self, *places: str) -> list[str]:
        ran = tool("debug", self.recording, "--batch", "-ex", "at 8", *(word for it in places for word in ("-ex", f"who {it}")))
        self.assertEqual(ran.status, 0, ran.errors)
        return [it for it in ran.output.decode().splitlines()[2:] if not it.startswith("(")]

    def test_debug_names_the_last_write_and_the_last_change(self) -> None:
        lines = self.who("R3", "R1", "$r4", "0x190", "R2")
        self.assertEqual([it.split()[0] for it in lines], ["0", "it", "2", "it", "1", "3", "6", "it", "5", "4"])
        self.assertEqual(lines[1], "it wrote the value that was there, which nothing changed since count 0")
        self.assertEqual(lines[3], "it wrote the value that was there; last changed by:")
        self.assertEqual(self.who("flags")[0].split()[0], "4")

    def test_explain_names_the_last_write_and_the_last_change(self) -> None:
        text = tool("claim", self.recording, "--at", 2, "--set", "R1=9").output
        ran = tool("explain", self.file("false.orsr", text), "--steps", 9)
        # Checkpoint 1 is at 8, and nothing after it writes R1.
        self.assertIn("Since checkpoint 1 none wrote it.", ran.output.decode())
        text = tool("claim", self.file("it.orsr", record(session(SAME, [20]))), "--at", 1, "--set", "R1=9").output
        lines = tool("explain", self.file("false.orsr", text), "--steps", 9).output.decode().splitlines()
        first = lines.index("None of the 9 instructions before count 20 wrote R1. The last one before them that wrote it:") + 1
        self.assertEqual([it.split()[0] for it in lines[first : first + 3]], ["2", "it", "1"])

    def test_a_comparison_of_traces_names_the_last_write(self) -> None:
        """R1 is written with its own value long before it is read: a loop of 5,000 rounds is in between."""
        words = (0x41000007, 0x41000007, 0x40001388, 0x40090001, 0xE9FFFFFE, 0x42180001, JUMP)
        path = self.file("loop.orsr", record(session(words, [20_000])))
        trace = self.file("it.csv", "count,PC,R2\n10003,5,0\n10004,6,9\n")
        lines = tool("compare-trace", path, trace).output.decode().splitlines()
        first = lines.index("who wrote R1:") + 1
        self.assertEqual([it.split()[0] for it in lines[first : first + 3]], ["1", "it", "0"])

    def test_a_comparison_of_recordings_names_the_last_write(self) -> None:
        other = self.file("other.orsr", record(session((0x43000000, 0x41000007, 0x41000008, *SAME[3:]), [8, 20])))
        lines = tool("diff", self.recording, other, "--only", "registers", "--who").output.decode().splitlines()
        self.assertEqual([it.split()[1] for it in lines if it.split()[0] in "AB"], ["2", "it", "1", "2"])
