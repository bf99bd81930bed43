"""galluspa trace --json: the lines are those that are made of the states, and a million take seconds."""

import json

from galluspa.engine.tracing import Run, Step
from galluspa.formats import states
from galluspa.formats.instructions import address, is_branch, mnemonic
from galluspa.formats.symbolfiles import parsed
from galluspa.formats.symbols import NONE, Symbols
from galluspa.output.traceformats import JsonLines
from tests.programs import waiting
from tests.tools import samples
from tests.tools.samples import EXAMPLES, ToolTest, record, session, tool

FACE = EXAMPLES / "face.orsr"
STEPS = 100_000


def run_of(text: bytes) -> Run:
    """The run of a recording's initial state and inputs."""
    return samples.run_of(text, range(1))


def object_of(step: Step, symbols: Symbols) -> dict[str, object]:
    """An instruction by its states: what changed, and the names of its address, its source, its target and what it accesses."""
    old, new, at, word = states.values(step.before), states.values(step.after), step.before.pc, step.word
    accessed = None if word is None else address(word, step.before.registers)
    is_taken = word is not None and is_branch(word) and step.after.pc != at + 1
    names = {
        "PC": symbols.text(4 * at),
        "source": symbols.source(4 * at),
        "target": symbols.text(4 * step.after.pc) if is_taken else "",
        "address": "" if accessed is None else symbols.text(accessed),
    }
    return {
        "count": step.before.count,
        "inputs": [[event.count, states.kind(event), event.value] for event in step.inputs],
        "PC": at,
        "word": word,
        "instruction": None if word is None else mnemonic(word),
        "changed": {name: [old[name], value] for name, value in new.items() if value != old[name]},
        "memory": [[it.address, it.old, it.new] for it in step.changed],
        "sent": list(step.after.output),
        **({"names": {part: name for part, name in names.items() if name}} if symbols else {}),
    }


class JsonTest(ToolTest):
    def assert_same(self, text: bytes, to: int, symbols: Symbols = NONE) -> None:
        """Compares the lines of a run with those that json.dumps makes."""
        run, line = run_of(text), JsonLines(symbols).line
        lines = [line(step) for step in run.raw_steps(run.machine(0), to)]
        self.assertEqual(lines, [json.dumps(object_of(step, symbols)) for step in run.steps(run.machine(0), to)])
        self.assertGreater(len(lines), 0)

    def test_lines_are_those_of_json_dumps(self) -> None:
        for case in waiting.cases(range(12)):
            self.assert_same(record(case.session.text().encode()), min(case.counts, 600))
        for words in ((0x000C0000,), (0x600B0000,), (0x6100001F, 0x81100000), (0x6100FFFF, 0xC7000001)):
            self.assert_same(record(session(words, [5])), 5)

    def test_names_are_in_a_member_of_their_own(self) -> None:
        sym = self.folder / "frames.sym"
        text = record(tool("assemble", EXAMPLES / "frames/main.asm", "--symbols", sym).output)
        self.assert_same(text, 3000, parsed(sym.read_bytes()))

    def test_a_hundred_thousand_take_a_part_of_a_second_of_the_library_and_a_few_in_all(self) -> None:
        text = FACE.read_bytes()
        run, line = run_of(text), JsonLines().line
        with self.takes_at_most(1):
            run.library.records(run.machine(0), run.inputs, STEPS)
        with self.takes_at_most(3):
            self.assertEqual(sum(len(line(step)) > 0 for step in run.raw_steps(run.machine(0), STEPS)), STEPS)
