"""The grammar of expressions and conditions: values, searches and mistakes."""

import random
from dataclasses import replace

from galluspa.analysis.addresses import moment_of
from galluspa.analysis.conditions import conditions_of
from galluspa.analysis.expressions import value_at
from galluspa.analysis.expressiontexts import Parser, literal
from galluspa.analysis.search import Search
from galluspa.engine.tracing import Run
from galluspa.formats.symbolfiles import parsed
from galluspa.process.cli import Refused
from tests.programs import randomly
from tests.tools.drawnexpressions import WORD, condition, expression
from tests.tools.independent import Independent
from tests.tools.samples import ToolTest, record, run_of, tool

NAMES = parsed(
    b"38 40 t Edit.Key\n80 t Edit.Key.next\n1000 4 d Edit.len\n1004 1 d Edit.flag\n1007 1 d Edit.byte\n1100 40 d Edit.buf\n50 a SIZE\n"
    b"2000 d Two\n3000 d Two\n90 t a-b\n2004 4 d R5\n"
)
MISTAKES = (
    ("R0 / 4", "R0 ^/ 4: expected + - * & | << >>, a comparison"),
    ("R0 + ", "R0 + ^: expected a number (16, 0x10 or 10H), a register, a name"),
    ("R0 = 3", "R0 ^= 3: == compares; NAME=VALUE"),
    ("(R0 + 3", "(R0 + 3^: expected )"),
    ("Mem[R0", "Mem[R0^: expected ]"),
    ("Mem[0x100000]", "100000 is no address of memory"),
    ("Edit.lem", "^Edit.lem: no symbol is called Edit.lem: did you mean Edit.len?"),
    ("Two", "Two stands for 2 addresses, 0x2000, 0x3000"),
    ("E7F00", "^E7F00: write 0xE7F00: numbers are decimal"),
    ("4294967296", "^4294967296: a number is below 2^32"),
    ("12ab", "^12ab: expected a number"),
    ("Edit.flag", "Edit.flag is no whole word: write Mem[Edit.flag] & 0xFF for its byte"),
    ("Edit.byte", "write Mem[Edit.byte] >> 24 & 0xFF"),
    ("R0 R1", "R0 ^R1: expected + - *"),
    ("R0 == 3 == 4", "R0 == 3 ^== 4: expected"),
    ("and", "^and: expected a number"),
    ("", "nothing: expected a number"),
)


def program(seed: int) -> tuple[Independent, Run, int]:
    """A random program that has run: on the independent machine, and as a recording; and for how many counts."""
    case = randomly.case(seed)
    machine = Independent(case.session).run(case.counts)
    return machine, run_of(record(replace(case.session, checkpoints=[case.counts]).text().encode())), case.counts


class ExpressionsTest(ToolTest):
    """Values and searches, against a machine that shares no code with the tools."""

    def test_values(self) -> None:
        rng = random.Random(5)
        for seed in range(12):
            machine, run, counts = program(seed)
            for count in rng.sample(range(counts), 4):
                moment = moment_of(run.machine(count))
                for _ in range(40):
                    drawn = expression(rng)
                    if len(drawn.text) > 900:
                        continue
                    value = value_at(Parser(drawn.text).whole(), moment)
                    self.assertEqual(value, drawn.meaning(machine, count) & WORD, (seed, count, drawn.text))

    def test_conditions_hold_where_they_do_on_another_machine(self) -> None:
        """Forward and backward; those that the library has, those that are tested where another holds, and mixtures of both."""
        rng, searched, tested = random.Random(6), 0, 0
        for seed in range(25):
            machine, run, counts = program(seed)
            running = [at for at in range(counts) if not machine.states[at].stop]
            for _ in range(12):
                drawn = condition(rng)
                if len(drawn.text) > 900:
                    continue
                with_pc = f"PC=0-0x3FFFFF and ({drawn.text})"
                try:
                    wanted = conditions_of([drawn.text]) if rng.random() < 0.5 else conditions_of([with_pc])
                except Refused as why:
                    self.assertRegex(f"{why}", "no search finds this alone|it never holds")
                    continue
                is_tested = any(it.test for it in wanted)
                searched, tested = searched + (not is_tested), tested + is_tested
                holding = [at for at in running if drawn.meaning(machine, at)]
                hits = [hit.count for hit in Search(run, wanted, 0, counts).all(counts)]
                self.assertEqual(hits, holding, (seed, drawn.text))
                last = Search(run, wanted, 0, counts).last()
                self.assertEqual(last.count if last else None, holding[-1] if holding else None, (seed, drawn.text))
        self.assertGreater(searched, 50)
        self.assertGreater(tested, 50)

    def test_names(self) -> None:
        machine, run, _ = program(1)
        moment = moment_of(run.machine(0))

        def value(text: str, is_address: bool = False) -> int:
            return value_at(Parser(text, NAMES, is_address).whole(), moment)

        word = machine.word_at(0x1000, 0)
        for text, wanted in (
            ("Edit.Key", 0x38),
            ("Edit.Key.next + 4", 0x84),
            ("Edit.len", word),
            ("&Edit.len", 0x1000),
            ("Edit.len+4", word + 4),
            ("&Edit.len+4", 0x1004),
            ("*Edit.len+0", word),
            ("*&Edit.len", word),
            ("Mem[Edit.len]", word),
            ("Mem[Edit.buf + 4 * 3]", machine.word_at(0x110C, 0)),
            ("SIZE * 2", 0xA0),
            ("a-b", 0x90),
            ("a-b-1", 0x8F),
            ("&R5", 0x2004),
            ("1 + R5", machine.states[0].registers[5] + 1),
            ("KEY", 0xFFFFDC),
        ):
            self.assertEqual(value(text), wanted & WORD, text)
        self.assertEqual((value("Edit.len + 8", True), value("Edit.flag", True)), (0x1008, 0x1004))

    def test_numbers(self) -> None:
        rows = (("16", 16), ("0x10", 16), ("10H", 16), ("0ffh", 255), (" 7 ", 7), ("FFH", None), ("1A", None), ("", None))
        for text, wanted in rows:
            self.assertEqual(literal(text), wanted, text)
        self.assertIsNone(literal("9" * 5000))

    def test_mistakes_name_their_place(self) -> None:
        for text, told in MISTAKES:
            self.assert_raises(lambda: Parser(text, NAMES).whole(), told)

    def test_a_search_takes_them(self) -> None:
        made = self.file("it.orsr", record(replace(randomly.case(2).session, checkpoints=[10]).text().encode()))
        for words, counts in (
            (["PC=0-0x3FFFFF", "and", "R0 == R0"], 10),
            (["PC", ">=", "0"], 10),
            (["R0 == R0 + 1 and PC=0-99"], 0),
        ):
            ran = tool("find", made, "--all", *words)
            self.assertEqual((ran.status, len([it for it in ran.output.splitlines() if b"input" not in it])), (counts == 0, counts))
