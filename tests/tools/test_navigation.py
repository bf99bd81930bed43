"""The moves of a debugger through a run, against a plain trace and the calls in it."""

from galluspa.analysis.conditions import conditions_of
from galluspa.engine.past import Past
from galluspa.debugger.navigation import THE_BEGINNING, THE_END, Debugger
from galluspa.engine.tracing import Run
from galluspa.formats.symbolfiles import parsed
from galluspa.formats.symbols import Symbols
from tests.tools import naivecalls
from tests.tools.samples import ToolTest, record, run_of, session

# Counts the nodes of two trees by recursion: each Tree keeps its number and its return address in a frame, and Leaf has none.
TREES = """
Leaf:   ADD R5, R5, 1
        B LNK
Tree:   SUB SP, SP, 8
        STR LNK, SP, 0
        STR R0, SP, 4
        SUB R0, R0, 1
        BLE Tree.leaf
        BL Tree
        LDR R0, SP, 4
        SUB R0, R0, 1
        BL Tree
Tree.leaf:
        BL Leaf
        LDR LNK, SP, 0
        ADD SP, SP, 8
        B LNK
Main:   MOV SP, 2000H
        MOV R0, 4
        BL Tree
        MOV R0, 2
        MOV R6, Tree
        BL R6
done:   B done
        start Main
        checkpoints 100, 150, 300
"""


class NavigationTest(ToolTest):
    """The moves over a program with recursion, against the list of its steps."""

    def setUp(self) -> None:
        super().setUp()
        self.text = self.assembled(TREES).read_bytes()
        self.symbols = parsed((self.folder / "it.sym").read_bytes())
        self.steps = list(self.run_of().steps(self.run_of().machine(0), 300))
        stacks = list(naivecalls.stacks(self.steps))
        self.calls, self.depths = [[it.count for it in stack] for stack in stacks], list(map(len, stacks))

    def run_of(self) -> Run:
        return run_of(self.text)

    def debugger(self, count: int = 0, symbols: Symbols | None = None) -> Debugger:
        return Debugger(Past(self.run_of()), self.symbols if symbols is None else symbols, 2, count)

    def test_next_is_the_next_step_of_the_same_depth_or_less(self) -> None:
        end = len(self.steps)
        for count in range(0, 280, 3):
            debugger = self.debugger(count)
            debugger.step_over()
            wanted = next((at for at in range(count + 1, end) if self.depths[at] <= self.depths[count]), end)
            self.assertEqual(debugger.count, wanted, count)

    def test_the_step_before_is_that_of_the_same_depth_or_less(self) -> None:
        for count in range(1, 280, 3):
            debugger = self.debugger(count)
            debugger.step_back_over()
            wanted = next(at for at in range(count - 1, -1, -1) if self.depths[at] <= self.depths[count])
            self.assertEqual(debugger.count, wanted, count)

    def test_a_procedure_was_called_where_its_depth_began_and_ends_where_it_is_less(self) -> None:
        seen = set()
        for count in range(0, 260, 3):
            debugger, depth = self.debugger(count), self.depths[count]
            self.assertEqual([it.count for it in debugger.stack], self.calls[count], count)
            if not depth:
                continue
            seen.add(depth)
            called = next(at for at in range(count, -1, -1) if self.depths[at - 1] < depth) - 1
            self.assertEqual(debugger.stack[-1].count, called, count)
            debugger.leave(depth)
            self.assertEqual(debugger.count, next(at for at in range(count, 300) if self.depths[at] < depth), count)
        self.assertEqual(seen, {1, 2, 3, 4, 5})

    def test_points_are_met_forward_and_backward_at_the_same_counts(self) -> None:
        debugger = self.debugger()
        leaf, stored = self.symbols.places("Leaf")[0] // 4, 0x1FE8
        debugger.add("Leaf", conditions_of(["PC=Leaf"], self.symbols)[0])
        debugger.add("stack", conditions_of(["change", f"{stored}"], self.symbols)[0], is_after=True)
        breaks = [step.before.count for step in self.steps if step.before.pc == leaf]
        changes = [step.before.count for step in self.steps if any(it.address == stored for it in step.changed)]
        forward, backward = [], []
        while debugger.go_on().reasons != [THE_END]:
            forward.append(debugger.count)
        self.assertEqual(forward, sorted([*breaks, *(at + 1 for at in changes)]))
        self.assertGreater(len(changes), 2)
        while debugger.go_back().reasons != [THE_BEGINNING]:
            backward.append(debugger.count)
        self.assertEqual(backward, sorted([*breaks, *changes], reverse=True))
        self.assertEqual([it.hits for it in debugger.points.values()], [2 * len(breaks), 2 * len(changes)])

    def test_lines_of_a_source_are_run_through(self) -> None:
        # Lines of two instructions each, of Tree and of Main; Leaf has none, and is done with its caller's line.
        tree, leaf, main = (self.symbols.places(name)[0] for name in ("Tree", "Tree.leaf", "Main"))
        starts = [*range(tree, leaf, 8), *range(leaf, main, 8), *range(main, main + 24, 8)]
        lines = "".join(f"{at:X} l T.Mod:{number}\n" for number, at in enumerate(starts, 1))
        names = parsed(f"0 8 t Leaf\n{tree:X} {main - tree:X} t Tree\n{main:X} 24 t Main\n{lines}".encode())
        wanted = [step.before.count for step in self.steps if 4 * step.before.pc in starts]
        debugger, forward = self.debugger(0, names), [0]
        while debugger.count < 200:
            self.assertEqual(list(debugger.step_line(is_over=False).reasons), [])
            forward.append(debugger.count)
        self.assertEqual(forward, wanted[: len(forward)])
        over = self.debugger(forward[1], names)
        over.step_line(is_over=True)
        self.assertEqual(self.depths[over.count], 0)
        backward = [debugger.count]
        while debugger.count:
            debugger.step_back_line(is_over=False)
            backward.append(debugger.count)
        self.assertEqual(backward, forward[::-1])
        over.step_back_line(is_over=True)
        self.assertEqual(over.count, forward[1])

    def test_a_machine_that_stops_ends_the_run(self) -> None:
        debugger = Debugger(Past(run_of(record(session([0x40080001, 0x000C0000], [9])))), Symbols(), 1)
        self.assertEqual((debugger.go_on().reasons, debugger.count), (["the machine has stopped (float)"], 2))
        self.assertEqual(debugger.go_on().reasons, ["the machine has stopped (float): it does nothing more"])
        self.assertIsNone(debugger.step())
        debugger.step_back_over()
        self.assertEqual(debugger.count, 1)
