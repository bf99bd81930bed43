"""galluspa rerun: parts of the screen that do not count, what is said of a difference and of a system that hangs, and memory by names."""

import json
import os
import random
import shutil
import unittest
from collections.abc import Mapping
from pathlib import Path
from typing import Any

from galluspa.analysis.drawing import Drawn, Mask, OpenCounts
from galluspa.formats.recording import DISPLAY_END, DISPLAY_START
from galluspa.formats.scripts import event_lines, read
from galluspa.interface import Recording, Symbols
from galluspa.process.cli import Refused
from tests.tools.samples import EXAMPLES, ToolTest, tool
from tests.tools.test_rerun import RerunsTest, script

# Shows each key in the next word of the display and sends it, and inverts a byte of the screen at each PERIODth round.
CARET = """
Main:   MOV SP, 4000H
        MOV R1, SERIAL
        MOV' R6, DISPLAY / 10000H
        IOR R6, R6, DISPLAY % 10000H
        ADD R8, R6, 1280
next:   ADD R7, R7, 1
        SUB R2, R7, 100
        BNE poll
        MOV R7, 0
        BL Caret
poll:   LDR R2, R1, MOUSE - SERIAL
        LSL R2, R2, 3
        BPL next
        LDR R0, R1, KEY - SERIAL
        BL Send
        B next
Caret:  SUB SP, SP, 4
        STR LNK, SP, 0
        LDR R0, R8, 0
        XOR R0, R0, 0FF0H
        BL Dots
        LDR LNK, SP, 0
        ADD SP, SP, 4
        B LNK
Dots:   STR R0, R8, 0
        B LNK
Send:   STR R0, R1, 0
        STR R0, R6, 0
        ADD R6, R6, 4
        MOV R3, count
        LDR R2, R3, 0
        ADD R2, R2, 1
        STR R2, R3, 0
        B LNK
count:  word 0
text:   word 1, 2, 3
limit:  word 7
"""
# The same with a caret that blinks sooner, and one in which keys from 128 on look otherwise.
SOONER = CARET.replace("SUB R2, R7, 100", "SUB R2, R7, 73")
OTHER = CARET.replace("Send:   ", "Send:   AND R0, R0, 7FH\n        ")
# Counts without an end, and never polls a key: the first words stay those of one that hangs at once.
HANGING = """
Main:   MOV SP, 4000H
        BL Work
        B Main
Work:   ADD R0, R0, 1
        BL Inner
        B Work
Inner:  ADD R2, R2, 1
        B LNK
"""
LOOK = {"look": "it", "when": {"still": 3000}}


class WhyTest(RerunsTest):
    def named(self, name: str, source: str) -> Path:
        """Returns the session of a source, as an image with a symbol file beside it."""
        self.assembled(source, name)
        return self.folder / f"{name}.json"

    def told(self, *words: object, status: int = 1) -> tuple[list[str], list[str]]:
        """Returns the answers and the reasons of a run with names."""
        ran = tool("rerun", self.tests, *words)
        self.assertEqual(ran.status, status, ran.output.decode() + ran.errors)
        lines = ran.output.decode().splitlines()
        answers = [json.loads(line.partition("answered: ")[2]) for line in lines if "answered: " in line]
        return answers, [json.loads(line.partition("- ")[2]) for line in lines if line.startswith("    - ")]

    def approve(self, image: Path) -> None:
        """Approves what is seen."""
        self.told("--image", image, "--approve", status=0)

    def test_a_caret_is_masked_by_a_rectangle_or_by_the_procedure_that_draws_it(self) -> None:
        old, sooner, other = self.named("old", CARET), self.named("sooner", SOONER), self.named("other", OTHER)
        for mask in ([[0, 10, 32, 1]], ["Caret"], ["Dots"]):
            for at, look in ((0, {**LOOK, "mask": mask}), (1, LOOK)):
                text = script({"key": "H\xe1"}, look) if not at else script({"key": "H\xe1"}, look, mask=mask)
                self.file("tests/it.rerun.json", text)
                self.approve(old)
                self.told("--image", sooner, status=0)
                answers, _ = self.told("--image", other)
                self.assertIn("screen it: 1 dot from 39,0 to 39,0", answers[0])
        self.file("tests/it.rerun.json", script({"key": "H"}, {"look": "it", "when": {"count": 5000}}))
        self.approve(old)
        answers, _ = self.told("--image", sooner)
        self.assertEqual(answers, ["screen it: 8 dots from 4,10 to 11,10"])
        self.file("tests/it.rerun.json", script({"key": "H"}, {"look": "it", "when": {"count": 5000}, "mask": ["Caret"]}))
        self.approve(old)
        self.assertTrue((self.tests / "it.approved/it.mask.png").is_file())
        self.told("--image", sooner, status=0)
        self.file("tests/it.rerun.json", script({"key": "H"}, LOOK, mask=["Caret", "Main"]))
        self.assertIn(
            b"(1 look, 1 byte sent; Main of a mask is never called)", tool("rerun", self.tests, "--image", old, "--approve").output
        )
        self.file("tests/it.rerun.json", script({"key": "H"}, {"look": "it", "when": {"count": 5000}}))
        self.approve(sooner)
        self.assertEqual(sorted(it.name for it in (self.tests / "it.approved").iterdir()), ["it.png", "looks.txt", "sent.txt"])

    def test_a_screen_that_does_not_become_still_names_the_dot(self) -> None:
        image = self.named("old", CARET)
        self.file("tests/it.rerun.json", script({"key": "H"}, LOOK, patience=50_000))
        answers, why = self.told("--image", image)
        told = r"^events\[1\] \(line 1\), look it once nothing changes for 3000 instructions, never comes: not up to"
        self.assertRegex(answers[0], told)
        by = r"^dot 4,10 was changed last at [\d,]+ by Dots \(.*old.asm:26\) < Caret \+ 0x10 < next \+ 0x10: if a caret or a clock blinks"
        self.assertRegex(why[0], by)
        self.assertIn("put it into mask, or wait for sends, after or a condition in place of still", why[0])

    def test_a_difference_names_the_instructions_of_both_versions(self) -> None:
        old, other = self.named("old", CARET), self.named("other", OTHER)
        self.file("tests/it.rerun.json", script({"key": "\xe1"}, LOOK, mask=["Caret"]))
        self.approve(old)
        _, why = self.told("--image", other)
        self.assertRegex(why[0], r"^dot 7,0 of it was changed; now by nothing since the beginning$")
        now = r"now 61 at [\d,]+ by Send \+ 0x4 \(.*other.asm:29\) < poll \+ 0x10"
        self.assertRegex(why[1], rf"^byte 0 was sent; {now}$")
        _, why = self.told("--image", other, "--before", old)
        drawn = r"before at [\d,]+ by Send \+ 0x4 \(.*old.asm:\d+\) < poll \+ 0x10$"
        self.assertRegex(why[0], rf"; now by nothing since the beginning; {drawn}")
        self.assertRegex(why[1], rf"; {now}; before E1 at [\d,]+ by Send \(.*old.asm:\d+\) < poll \+ 0x10$")

    def test_a_system_that_hangs_says_where_and_costs_one_script(self) -> None:
        image = self.named("hanging", HANGING)
        self.file("tests/it0.rerun.json", script({"key": "a"}, {"look": "it"}))
        answers, why = self.told("--image", image)
        told = r"^events\[0\] \(line 1\), key 61 when the machine polls key, never comes: not up to count 100,000,000, "
        self.assertRegex(answers[0], told)
        loop = r"^the last 100,000 instructions loop in \d words from PC \d to \d, in Work, Inner; at [\d,]+ by .* < Main \+ 0x4$"
        self.assertRegex(why[0], loop)
        before = os.times()
        self.told("--image", image, "-j", 1)
        one = sum(os.times()[2:4]) - sum(before[2:4])
        for at in range(1, 10):
            self.file(f"tests/it{at}.rerun.json", script({"key": f"{at}"}, {"look": "it"}))
        before = os.times()
        answers, _ = self.told("--image", image)
        ten = sum(os.times()[2:4]) - sum(before[2:4])
        self.assertEqual(len(answers), 10)
        print(f"rerun: a script of a system that hangs takes {one:.1f} s, ten of them {ten:.1f} s")
        self.assertLess(ten, 5 * one + 2)

    def test_keys_that_the_full_queue_drops_are_said_to_be_dropped(self) -> None:
        image = self.named("hanging", HANGING)
        keys = [{"key": at, "when": {"count": 5 + at % 2}} for at in (*range(0, 38, 2), 1)]
        self.file("tests/it.rerun.json", script(*keys, {"look": "it", "when": {"after": 9}}))
        self.assertIn(b"sent; 4 keys dropped)", tool("rerun", self.tests, "--image", image, "--approve").output)
        self.file(
            "tests/it.rerun.json", script(*keys, {"look": "it"}, {"look": "never", "when": {"sends": "x"}}, patience=2_000_000)
        )
        _, why = self.told("--image", image)
        self.assertEqual(why[0], "events[16] (line 1), key 20 at count 5: dropped, since 16 keys wait")
        self.assertEqual([it.partition(" ")[0] for it in why[:4]], [f"events[{at}]" for at in range(16, 20)])

    def test_a_condition_that_always_holds_fails_where_it_first_does_not(self) -> None:
        image, events = self.named("old", CARET), ({"key": "Hi"}, {"look": "it", "when": {"count": 5000}})
        self.file("tests/it.rerun.json", script(*events, always=["R7 <= 100", "count <= 2 and (R2 != 1 or R14 <= 0x4000)"]))
        self.approve(image)
        self.told("--image", image, status=0)
        self.file("tests/it.rerun.json", script(*events, always=["R7 <= 100", "count < 2"]))
        answers, _ = self.told("--image", image, "--recordings", self.folder)
        broken = Recording.open(self.folder / "it.orsr", Symbols.of(image.with_suffix(".sym"))).machine().find("count == 2")
        assert broken
        self.assertEqual(answers, [f"always[1], count < 2, does not hold at count {broken.count:,}, before Send + 0x1C"])
        self.assertEqual(self.told("--image", image, "--approve")[0], [f"not approved: {answers[0]}"])
        for wrong, why in (
            ("PC=5", "== compares"),
            ("R1 < R2", "no search finds this alone"),
            ("R1 < 2) or (R2 > 3", "expected"),
        ):
            self.file("tests/it.rerun.json", script(*events, always=["R7 < 9", wrong]))
            self.assertRegex(self.told("--image", image)[0][0], rf"^always\[1\]: .*{why}")

    def test_memory_by_a_name_has_its_size(self) -> None:
        image = self.named("old", CARET)
        look = {"look": "it", "when": {"count": 5}, "memory": ["count", "text", "text+4", "limit", "text,2"]}
        self.file("tests/it.rerun.json", script(look))
        self.approve(image)
        lines = (self.tests / "it.approved/looks.txt").read_text().splitlines()[1:]
        self.assertEqual(lines[0], "  count: 00000000")
        self.assertEqual(lines[1], "  text: 00000001 00000002 00000003")
        self.assertEqual([len(line.partition(": ")[2].split()) for line in lines[2:]], [8, 1, 2])
        image.with_suffix(".sym").write_text("0 C d count\n4 d text\n4 d limit\n")
        self.approve(image)
        lines = (self.tests / "it.approved/looks.txt").read_text().splitlines()[1:]
        self.assertEqual([len(line.partition(": ")[2].split()) for line in lines], [3, 8, 8, 8, 2])

    def test_the_first_call_that_differs_is_that_of_the_mistake(self) -> None:
        """Of the desk, in versions that are a word longer and have one mistake each."""
        self.built("examples", {})
        for path in sorted((EXAMPLES / "desk/tests").glob("*.json")):
            shutil.copy(path, self.tests)
        before = self.folder / "examples.json"
        self.approve(before)
        for (file, right, wrong), call in (
            (
                ("calc", "        ADD R0, R1, R0\n", "        SUB R0, R1, R0\n"),
                r"Calc\.Apply\(.*\) leaves R0 = \w+ now, and \w+ before",
            ),
            (("calc", "MUL R0, R0, 10", "MUL R0, R0, 9"), r"Calc\.Number\(\) leaves R0 = \w+ now, and \w+ before"),
            (("texts", "R0, '0'", "R0, '1'"), r"Texts\.Write\(R0 = 3\dH\) at [\d,]+ now, and Texts\.Write\(R0 = 3\dH\)"),
            (("calc", "SUB R3, R0, 1 ", "MOV R3, 1 "), r"Calc\.Apply\(R0 = 0H, R1 = 7H\) has returned before, and not now"),
        ):
            self.built("next", {file: (right, wrong), "main": ("Oberon.Start:\n", "Oberon.Start:\n        MOV R9, 0\n")})
            _, why = self.told("--image", self.folder / "next.json", "--before", before)
            firsts = [line for line in why if line.startswith("the first call that differs: ")]
            self.assertTrue(firsts)
            self.assertRegex(firsts[0], f"^the first call that differs: {call}")

    def built(self, name: str, changes: Mapping[str, tuple[str, str]]) -> None:
        """Makes an image of the desk, of whose modules some are changed in one place."""
        shutil.rmtree(self.folder / name, ignore_errors=True)
        shutil.copytree(EXAMPLES / "desk", self.folder / name)
        for module, (right, wrong) in changes.items():
            path = self.folder / name / f"{module}.asm"
            text = path.read_text()
            self.assertIn(right, text)
            path.write_text(text.replace(right, wrong, 1))
        self.assembled(self.folder / name / "main.asm", name)


class DrawingTest(ToolTest):
    """What is drawn while procedures are called, against a machine that is looked at before each instruction."""

    def test_what_is_drawn_in_calls_is_what_a_naive_follower_sees(self) -> None:
        inputs = [[700 * at, "key", 65 + at] for at in range(9)]
        opened = Recording.open(self.assembled(CARET, inputs=inputs, checkpoints=[9000]))
        run = opened.machine()._run
        for name in ("Caret", "Dots", "Send"):
            procedure = opened.symbols.address(name) // 4
            start = opened.machine()._machine
            counts, drawn = OpenCounts(run.library, start, [procedure]), Drawn(run.library, start, [procedure])
            counts.follow(run.inputs, 9000)
            naive, expected, open_since = Mask(), set[int](), list[int]()
            for step in opened.machine().steps(9000):
                count, pc = step.before.count, step.before.pc
                if open_since:
                    expected.add(count)
                    for word in step.changed:
                        if DISPLAY_START <= word.address < DISPLAY_END:
                            naive.add_word(word.address, word.old ^ word.new)
                if step.after.pc == procedure and pc + 1 != procedure and not open_since:
                    open_since = [pc + 1]
                elif open_since and step.after.pc == open_since[0]:
                    open_since = []
            self.assertGreater(len(expected), 10)
            self.assertEqual({it for it in range(9000) if counts.has(it)}, expected)
            if name == "Send":
                self.assertNotEqual(drawn.up_to(run.inputs, 4000).bitmap, naive.bitmap)
            self.assertEqual(drawn.up_to(run.inputs, 9000).bitmap, naive.bitmap)

    def test_masks(self) -> None:
        mask = Mask()
        self.assertFalse(mask)
        mask.add(30, 2, 4, 2)
        at = DISPLAY_START + 128 * 2
        self.assertTrue(mask.covers(at, 0xC0000000) and mask.covers(at + 4, 3) and mask.covers(at + 128, 0x40000000))
        self.assertFalse(mask.covers(at, 0x20000000) or mask.covers(at + 4, 7) or mask.covers(at + 256, 0x40000000))
        other = Mask()
        for row in (2, 3):
            other.add_word(DISPLAY_START + 128 * row, 0xC0000000)
            other.add_word(DISPLAY_START + 128 * row + 4, 3)
        self.assertEqual(other.bitmap, mask.bitmap)


class LinesTest(unittest.TestCase):
    def test_lines_of_events(self) -> None:
        text = '{"events": 5, "x": [{"events": [1]}],\n "events"\n: [\n{"a": [1,\n2]}, 5,\n\n"]\\"{", [[],\n[]]\n,{}], "y": {}}'
        self.assertEqual(event_lines(text), [4, 5, 7, 7, 9])
        self.assertEqual(event_lines('{"\\u0065vents": [\n[\n], {}]}'), [2, 3])
        for hostile in ("", "]" * 1000, "[" * 1000, '"', '{"events": [', '{"events": [' + "1," * 10_000, "{:" * 1000):
            self.assertLess(len(event_lines(hostile)), 10_001)

    def test_scripts_made_at_random_are_read_or_refused_in_one_line(self) -> None:
        chance, deep = random.Random(5), json.loads("[" * 500 + "]" * 500)
        values: list[Any] = [None, True, -1, 0, 7, 1 << 70, 1.5, float("inf"), "", "x", "a\n\x1b[2J", "\ud800", [], {}, [1, 2]]
        values += [deep, ["4,1"], [3, 4]]
        values += ["Clock", {"count": 1}, {"still": 5, "from": 3}, {"sends": "x"}, {"polls": "key"}, [[0, 0, 1, 1], "Clock"]]
        names = ["key", "serial", "mouse", "look", "when", "memory", "mask", "keys", "\n", "\ud800", "timer", "switches"]
        good: list[dict[str, Any]] = [{"key": "Hi"}, {"key": 7}, {"mouse": [1, 2]}, {"serial": 1, "when": {"after": 3, "from": 9}}]
        good += [{"look": "a"}, {"look": "b", "mask": ["Clock", [0, 0, 1024, 768]]}]
        good += [{"look": "c", "memory": ["4,1"], "when": {"sends": "x"}}]
        refused = 0
        for _ in range(3000):
            events = chance.sample(good, chance.randrange(1, 5))
            if chance.random() < 0.6:
                at = chance.randrange(len(events))
                events[at] = events[at] | {chance.choice(names): chance.choice(values) for _ in range(chance.randrange(3))}
            head = {chance.choice(["image", "patience", "mask", "more"]): chance.choice(values)} if chance.random() < 0.3 else {}
            text = script(*events, **head) if chance.random() < 0.9 else script(*events, **head)[: chance.randrange(200)]
            try:
                made = read(text.encode())
            except Refused as why:
                refused += 1
                self.assertEqual((len(str(why).splitlines()), "\x1b" in str(why)), (1, False), text)
            else:
                self.assertEqual(read(made.text().encode()).text(), made.text(), text)
        print(f"rerun: of 3,000 scripts made at random {refused:,} are refused in one line, and the others are read")
        self.assertTrue(1000 < refused < 2500)

    def test_a_script_that_is_printed_is_read_again(self) -> None:
        text = script({"key": "a"}, {"look": "it", "mask": ["Clock", [1, 2, 3, 4]], "memory": ["4,1"]}, mask=[[0, 0, 1024, 768]])
        once = read(text.encode())
        again = read(once.text().encode())
        self.assertEqual((once.events, once.mask), (again.events, again.mask))
        self.assertEqual((again.lines, again.place(1), once.place(1)), ([6, 7], "events[1] (line 7)", "events[1] (line 1)"))
