"""galluspa profile: instructions, calls and stacks, against a naive look at each instruction."""

from collections import Counter
from dataclasses import replace
from pathlib import Path
from unittest import mock

from galluspa.analysis import calltree
from galluspa.analysis.procedures import NO_MODULE, NO_NAME, Procedure
from galluspa.analysis.profiles import Profile, profile_of
from galluspa.engine import following
from galluspa.engine.following import EACH_RISE
from galluspa.engine.library import Library
from galluspa.engine.tracing import Run
from galluspa.formats.recording import WORDS
from galluspa.formats.symbolfiles import parsed
from galluspa.formats.symbols import NONE
from galluspa.output.profileformats import difference, text
from tests.programs import waiting
from tests.tools import naivecalls
from tests.tools.samples import EXAMPLES, ToolTest, record, tool
from tests.tools.test_navigation import TREES

FRAMES = EXAMPLES / "frames/main.asm"
# Code before the first label runs on into Main, which calls Leaf; and Tail is left by a jump.
BARE = """
        MOV SP, 2000H
        MOV R4, 1000
Main:   BL Leaf
        BL Tail
        SUB R4, R4, 1
        BGT Main
Leaf:   ADD R1, R1, 1
        B LNK
Tail:   B Leaf
        start 0
        checkpoints 92
"""


class ProfileTest(ToolTest):
    def setUp(self) -> None:
        super().setUp()
        self.sym = self.folder / "frames.sym"
        self.orsr = self.file("frames.orsr", record(tool("assemble", FRAMES, "--symbols", self.sym).output))
        self.symbols = parsed(self.sym.read_bytes())

    def profile(self, first: int = 0, to: int | None = None, path: Path | None = None, limit: int = EACH_RISE) -> Profile:
        it = Run.begun(Library.find(None), (path or self.orsr).read_bytes())
        end = it.counts[-1] if to is None else to
        return profile_of(it, first, end, self.symbols, limit)

    def assert_exact(self, first: int, to: int, path: Path | None = None, limit: int = EACH_RISE) -> Profile:
        """Compares a profile with a naive look at each instruction, and at the calls that are open before it."""
        found, it = self.profile(first, to, path, limit), Run.begun(Library.find(None), (path or self.orsr).read_bytes())
        steps = list(it.steps(it.machine(0), to))
        own, inclusive, calls, edges, sites = (Counter[object]() for _ in range(5))

        def of(at: int) -> Procedure:
            return found.procedures.of(at) if at < WORDS else Procedure(WORDS, NO_NAME, NO_MODULE)

        opened = list(naivecalls.stacks(steps, limit))
        for step, stack, later in zip(steps, opened, opened[1:]):
            if step.before.count < first:
                continue
            own[of(step.before.pc)] += step.word is not None
            inclusive.update({of(call.to) for call in stack})
            edges.update({(of(call.at), of(call.to)) for call in stack})
            sites.update({(call.at, of(call.to)) for call in stack})
            calls.update((call.at, of(call.to)) for call in later[-1:] if call.count == step.before.count)
        self.assertEqual((found.own, found.instructions), (+own, sum(own.values())))
        self.assertEqual((+Counter(found.inclusive()), +Counter(found.inclusive_edges())), (inclusive, edges))
        self.assertEqual((+found.totals.of_sites, found.calls()), (sites, {site: calls[site] for site in {*sites, *calls}}))
        return found

    def test_counts_are_those_of_single_steps(self) -> None:
        for first, to in ((0, 7475), (1000, 5001), (2124, 2124)):
            self.assert_exact(first, to)

    def test_they_are_those_of_random_programs(self) -> None:
        """Also where the contexts are added to the totals in parts."""
        self.symbols = NONE
        for case in waiting.cases(range(12)):
            to = min(case.counts, 900)
            path = self.file("it.orsr", record(replace(case.session, checkpoints=[to]).text().encode()))
            for most, first, limit in ((1 << 16, 0, EACH_RISE), (1, to // 3, EACH_RISE), (3, 0, 0)):
                with mock.patch.object(calltree, "MOST_CONTEXTS", most), mock.patch.object(following, "TURNS", 5):
                    self.assert_exact(first, to, path, limit)

    def test_recursion_counts_once(self) -> None:
        orsr = self.file("trees.orsr", record(tool("assemble", self.file("trees.asm", TREES), "--symbols", self.sym).output))
        self.symbols = parsed(self.sym.read_bytes())
        found = self.assert_exact(0, 300, orsr)
        rows = {it.procedure.name: it for it in found.rows()}
        self.assertEqual(rows["Tree"].inclusive, sum(rows[name].own for name in ("Tree", "Tree.leaf", "Leaf") if name in rows))

    def test_rows_are_those_of_the_source(self) -> None:
        found = self.profile()
        rows = {it.procedure.name: (it.own, it.inclusive, it.calls) for it in found.rows()}
        self.assertEqual(rows["Shapes.Column"], (1468, 3708, 4))
        self.assertEqual(rows["Main"], (9, 0, 0))
        self.assertEqual(next(it for it in text(found) if it.endswith("  Main")).split()[3], "-")

    def test_a_profile_from_a_later_count_has_the_calls_that_are_open_there(self) -> None:
        rows = {it.procedure.name: it.inclusive for it in self.profile(1000, 1100).rows()}
        self.assertEqual(rows["Shapes.Box"], 100)

    def test_a_jump_into_another_procedure_is_no_call(self) -> None:
        orsr = self.file("bare.orsr", record(tool("assemble", self.file("bare.asm", BARE), "--symbols", self.sym).output))
        self.symbols = parsed(self.sym.read_bytes())
        found = self.assert_exact(0, 92, orsr)
        rows = {it.procedure.name: (it.own, it.inclusive) for it in found.rows()}
        self.assertEqual([rows[name] for name in ("(no name)", "Main", "Leaf", "Tail")], [(2, 0), (40, 0), (40, 20), (10, 30)])

    def test_differences_are_by_procedure(self) -> None:
        """Each of eight sides has a dot more: 9 instructions in the loop, and 14 to draw it."""
        source = self.folder / "frames"
        source.mkdir()
        for path in FRAMES.parent.glob("*.asm"):
            self.file(f"frames/{path.name}", path.read_text().replace("MOV R2, 40", "MOV R2, 41"))
        other = self.file("other.orsr", record(tool("assemble", source / "main.asm").output))
        lines = list(difference(self.profile(path=other), self.profile()))
        self.assertEqual(lines[0], "7,659 instructions here, 7,475 in the other: +184")
        self.assertEqual(lines[3].split(), ["+112", "4,592", "4,480", "328", "320", "Display.Dot"])
        self.assertEqual(len(lines), 6)

    def test_many_calls_cost_little(self) -> None:
        """A call each sixth instruction, in a run of ten million: 3.3 million turns."""
        source = (
            "Leaf: ADD R1, R1, 1\nB LNK\nMain: ADD R2, R2, 1\nADD R3, R3, 1\nBL Leaf\nB Main\nstart Main\ncheckpoints 10000000\n"
        )
        orsr = self.file("it.orsr", record(tool("assemble", self.file("it.asm", source)).output))
        with self.takes_at_most(8):
            ran = tool("profile", orsr)
        self.assertIn(b" 3,333,333 ", ran.output)
