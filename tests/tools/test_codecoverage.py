"""galluspa executed: counts of words, lines, branches and procedures, against a look at each instruction."""

import unittest
from array import array
from collections import Counter
from dataclasses import replace

from galluspa.analysis.codecoverage import CodeCoverage, Share, total
from galluspa.analysis.executioncounts import Branch, Executions, executions_of
from galluspa.engine.library import Library
from galluspa.engine.tracing import Run
from galluspa.formats.instructions import ALWAYS, NEVER, branches_to, is_branch
from galluspa.formats.recording import WORDS
from galluspa.formats.symbolfiles import parsed
from galluspa.formats.symbols import NONE
from tests.programs import waiting
from tests.tools.samples import EXAMPLES, JUMP, ToolTest, record, session, tool

PROGRAMS, MOST = 4, 500
FRAMES = EXAMPLES / "frames/main.asm"


def naive(it: Run, first: int, to: int) -> tuple[Counter[int], Counter[int], dict[int, set[int]]]:
    """Returns how often each word is executed, how often another than the next one comes after it, and what is executed there, by
    single steps."""
    visits, departures, words = Counter[int](), Counter[int](), dict[int, set[int]]()
    for step in it.steps(it.machine(first), to):
        if step.word is not None:
            visits[step.before.pc] += 1
            departures[step.before.pc] += step.after.pc != step.before.pc + 1
            words.setdefault(step.before.pc, set()).add(step.word)
    return visits, departures, words


def naive_branches(it: Run, first: int, to: int) -> list[Branch]:
    """Returns the conditional branches of words that are always the same, by single steps."""
    taken, passed, words = Counter[int](), Counter[int](), dict[int, set[int]]()
    for step in it.steps(it.machine(first), to):
        if step.word is not None:
            at = step.before.pc
            words.setdefault(at, set()).add(step.word)
            (passed if step.after.pc == at + 1 else taken)[at] += 1

    def is_counted(at: int, word: int) -> bool:
        return is_branch(word) and word >> 24 & 15 not in (ALWAYS, NEVER) and branches_to(word, at) != at + 1

    return [Branch(at, taken[at], passed[at]) for at, its in sorted(words.items()) if len(its) == 1 and is_counted(at, min(its))]


class ExecutionsTest(unittest.TestCase):
    def test_counts_are_those_of_single_steps(self) -> None:
        for case in waiting.cases(range(PROGRAMS)):
            counts = min(case.counts, MOST)
            text = record(replace(case.session, checkpoints=[counts]).text().encode())
            it = Run.begun(Library.find(None), text)
            for first in (0, counts // 3):
                found = executions_of(it, first, counts)
                visits, departures, words = naive(it, first, counts)
                self.assertEqual(found.visits, dict(visits), (case.name, first))
                self.assertEqual(found.departures, {at: departures[at] for at in visits}, (case.name, first))
                changed = {at for at, its in words.items() if len(its) > 1}
                self.assertLessEqual(found.changed, changed, case.name)
                if found.changed == changed:
                    self.assertEqual(list(found.branches()), naive_branches(it, first, counts), case.name)

    def test_a_word_that_a_program_writes_is_a_branch_if_it_was_executed_as_one_alone(self) -> None:
        load, other, go = 0x81000018, 0x42000001, 0xE7FFFFFD
        executed_before = [load, other, 0xA1000004, go, JUMP, 0, 0xE9000002]
        only_written_before = [load, 0xA100000C, 0xE7000000, 0, 0, JUMP, 0xE9000001]
        for words, changed, branches in ((executed_before, {1}, []), (only_written_before, set(), [Branch(3, 1, 0)])):
            found = executions_of(Run.begun(Library.find(None), record(session(words, [100]))), 0, 100)
            self.assertEqual((found.changed, list(found.branches())), (changed, branches))

    def test_runs_add_up(self) -> None:
        it = Run.begun(Library.find(None), (EXAMPLES / "face.orsr").read_bytes())
        whole, parts = executions_of(it, 0, 3_000_000), Executions()
        for first, to in ((0, 1_000_000), (1_000_000, 3_000_000)):
            parts.add(executions_of(it, first, to))
        self.assertEqual((parts.visits, parts.departures, parts.words), (whole.visits, whole.departures, whole.words))
        self.assertEqual(whole.instructions, 3_000_000)

    def test_a_word_that_differs_between_runs_is_no_branch(self) -> None:
        seen = Executions()
        seen.put(5, 7, 3, 0xE1000003)
        self.assertEqual(list(seen.branches()), [Branch(5, 3, 4)])
        seen.put(5, 1, 0, 0x40000000)
        self.assertEqual((list(seen.branches()), seen.changed, seen.visits[5]), ([], {5}, 8))
        seen.memory = array("I", bytes(4 * WORDS))
        self.assertEqual(next(CodeCoverage.of(seen, NONE).text()), "1 words are not always the same: they count for no branch")


class ExecutedTest(ToolTest):
    def setUp(self) -> None:
        super().setUp()
        (self.folder / "suite").mkdir()
        self.sym = self.folder / "suite/frames.sym"
        assembled = tool("assemble", FRAMES, "--symbols", self.sym)
        self.file("suite/frames.orsr", record(assembled.output))

    def test_a_suite_is_counted(self) -> None:
        ran = tool("executed", self.folder / "suite")
        self.assertEqual((ran.status, len(ran.errors.splitlines())), (0, 1), ran.errors)
        lines = ran.output.decode().splitlines()
        self.assertEqual(lines[0], "1 recordings, 7,475 instructions at 80 words")
        self.assertRegex(lines[-1], r"^not executed: Main\.done \(.*frames/main\.asm:16\)$")
        self.assertIn("5 of 5 80 of 81 80 of 81 4 of 4 all", [" ".join(line.split()) for line in lines])

    def test_without_names_procedures_have_addresses(self) -> None:
        it = Run.begun(Library.find(None), (self.folder / "suite/frames.orsr").read_bytes())
        found = CodeCoverage.of(executions_of(it, 0, it.counts[-1]), NONE)
        self.assertEqual([it.procedure.name for it in found.covered], ["0x0", "0x38", "0x78", "0xB8"])
        self.assertEqual(total(found.covered)[1], Share(80, 80))

    def test_a_name_without_a_size_ends_where_the_words_do(self) -> None:
        it = Run.begun(Library.find(None), (self.folder / "suite/frames.orsr").read_bytes())
        found = CodeCoverage.of(executions_of(it, 0, it.counts[-1]), parsed(b"0000011C t Main\n00000000 t Dot\n"))
        self.assertEqual([(it.procedure.name, len(it.visits)) for it in found.covered][-1], ("Main", 10))

    def test_symbols_of_another_program_are_refused(self) -> None:
        suite = self.folder / "suite"
        wrong = self.file("wrong.sym", "00080000 t Other\n")
        ran = tool("executed", suite, "--symbols", wrong)
        self.assertEqual((ran.status, ran.output), (2, b""))
        self.assertIn("wrong.sym names nothing that is executed", ran.errors.splitlines()[-1])

    def test_a_recording_that_is_refused_costs_its_own_line(self) -> None:
        self.file("suite/bad.orsr", b"no recording")
        (self.folder / "suite/it.orsr").symlink_to("/dev/null")
        ran = tool("executed", self.folder / "suite")
        self.assertEqual(ran.status, 1)
        self.assertIn(b"not counted: bad.orsr: cannot read checkpoint 0: the bytes are not a recording\n", ran.output)
        self.assertIn(b"1 recordings, 7,475 instructions", ran.output)
        self.assertIn(b"\nnot counted: it.orsr: not a file\n", ran.output)
