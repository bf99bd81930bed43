"""galluspa explain: what differs if a claim is false, and the fields of refused files."""

import re
import struct
from dataclasses import replace

from galluspa.analysis.explanation import FINDS_IT, FalseClaim, explain_false, plain
from galluspa.engine.library import Library
from galluspa.engine.program import Program
from galluspa.engine.tracing import Run
from galluspa.formats import recording
from galluspa.formats.faults import explain_fault
from galluspa.process.timelimit import Limit, TimeIsUp
from tests.tools.samples import (
    EXAMPLES,
    GALLUSPA,
    JUMP,
    PROGRAM,
    STORED,
    TOP,
    ToolTest,
    record,
    rejoining,
    run,
    session,
    status_of,
    tool,
)

CHANGE = re.compile(r"^\| ((?:byte \d+ is [0-9a-f]{2}(?:, )?)+)[^|]*\| `(refused [^`]+)` \|$", re.MULTILINE)
BYTE = re.compile(r"byte (\d+) is ([0-9a-f]{2})")

# R0 := 5, then 40 instructions that write nothing, then R0 := 6; 65 to the serial line; Mem[400] := 6; a jump to itself.
WORDS = (0x40000005, *[0xEF000000] * 40, 0x40000006, 0x5100FFC8, 0xA0100000, 0xA0200190, JUMP)


# What is said of three parts that differ.
ALL_PARTS = """\
false checkpoint 1 at 43 part R0

       claimed   the machine
R0     00000005  00000006
flags  -Z--      N---
LEDs   07        00

The last instructions before count 43 that wrote R0:
         0       0  40000005  MOV R0, 5               R0 00000000 → 00000005
        41      41  40000006  MOV R0, 6               R0 00000005 → 00000006

R0 had the claimed value at 41 of the counts 0 to 143: last at 41, 2 before."""


class Ending(Limit):
    """A limit of time that expires after a number of questions."""

    def __init__(self, times: int) -> None:
        super().__init__(60)
        self.times = times

    def left(self) -> float:
        """Counts down."""
        self.times -= 1
        if self.times < 0:
            raise TimeIsUp("no answer")
        return 60


class ExplainTest(ToolTest):
    def explained(self, text: bytes, *words: object) -> list[str]:
        """Returns the lines that explain a text, but for those that say how to find the instruction; the tool ends as the program
        does."""
        ran = tool("explain", self.file("it.orsr", text), *words)
        self.assertEqual((ran.errors, ran.status), ("", status_of(text)))
        lines = ran.output.decode().splitlines()
        if ran.status != 1:
            return lines
        self.assertEqual((lines[-4], lines[-2]), ("", FINDS_IT))
        return lines[:-4]

    def claiming(self, text: bytes, at: int, *claims: str) -> bytes:
        """Returns a recording with claims changed."""
        for claim in claims:
            text = tool("claim", self.file("it.orsr", text), "--at", at, "--set", claim).output
        return text

    def test_an_accepted_recording_has_its_line(self) -> None:
        self.assertEqual(self.explained(STORED), ["accepted 1 checkpoints 100 steps"])

    def test_all_parts_that_differ_are_told(self) -> None:
        text = self.claiming(record(session(WORDS, [43, 60])), 1, "R0=5", "flags=4", "LEDs=7")
        self.assertEqual("\n".join(self.explained(text)), ALL_PARTS)

    def test_the_stretch_and_the_command_that_finds_the_instruction_are_told(self) -> None:
        """The command is copied, with an emulator that gets R0 wrong from the sixth of the program's seven additions on."""
        text = self.claiming(record(session((*[0x40080001] * 7, JUMP), [4, 9])), 2, "R0=8")
        path = self.file("it's.orsr", text)
        *_, told, finds, command = tool("explain", path).output.decode().splitlines()
        self.assertEqual((told, finds), ("Yours went wrong between 4 and 9: checkpoint 1 is true.", FINDS_IT))
        wrong = self.executable("wrong", 'echo "{\\"R\\": [$(($1 < 6 ? $1 : $1 < 7 ? 7 : 8)), 0,0,0,0,0,0,0,0,0,0,0,0,0,0,0]}"')
        ran = run(["sh", "-c", command.replace("COMMAND", str(wrong)).replace("galluspa", str(GALLUSPA), 1)])
        self.assertTrue(ran.output.startswith(b"differs after instruction 5: the same at 5, not at 6, found by 3 runs\n"), ran)

    def test_twenty_thousand_instructions_take_seconds(self) -> None:
        text = self.claiming(record(session((0x40080001, 0xE7FFFFFE), [60000])), 1, "R0=20007")
        with self.takes_at_most(15):
            lines = self.explained(text, "--steps", 20000)
        self.assertEqual(lines[-1], "R0 had the claimed value at 2 of the counts 40000 to 62000: last at 40014, 19,986 before.")

    def test_memory_is_told_word_by_word(self) -> None:
        made = bytearray(record(session(WORDS, [60])))
        first = 24 + (recording.read(bytes(made)).checkpoints[1].table[0] - 1) * 1024 + 400
        made[first : first + 4] = struct.pack("<I", 7)
        made[first + 8 : first + 12] = struct.pack("<I", 8)
        lines = self.explained(bytes(made))
        self.assertEqual(lines[0], "false checkpoint 1 at 60 part page 0")
        self.assertEqual(lines[3:5], ["Mem[000190]  00000007  00000006", "Mem[000198]  00000008  00000000"])
        self.assertIn("The last instructions before count 60 that wrote Mem[000190]:", lines)
        self.assertIn("        44      44  A0200190  STR R0, R2, 400         Mem[000190] 00000000 → 00000006", lines)
        self.assertIn("Mem[000190] had the claimed value at none of the counts 0 to 160.", lines)
        self.assertIn(".. and 1 more words of memory", self.explained(bytes(made), "--words", 1))

    def test_bytes_sent_are_told(self) -> None:
        made = record((EXAMPLES / "hello.json").read_bytes())
        lines = self.explained(made[:-13] + b"Help!!" + made[-7:])
        self.assertEqual(lines[0], "false checkpoint 1 at 30 part out")
        self.assertEqual(lines[3], "out: claimed are 6 bytes, the machine sent 6; they differ from byte 3 on")
        self.assertIn("00000003  70 21 21                                         p!!", lines)
        self.assertIn("00000003  6c 6f 2c                                         lo,", lines)

    def test_screens_are_told(self) -> None:
        made = bytearray((EXAMPLES / "face.orsr").read_bytes())
        read = recording.read(bytes(made))
        page = read.checkpoints[2].table[955]
        at = 24 + (page - 1) * 1024 + 200
        self.assertEqual(made[at : at + 4], bytes.fromhex("00ffffff"))
        made[at] = 0x03
        lines = self.explained(bytes(made), "--steps", 20)
        self.assertEqual(lines[0], "false checkpoint 2 at 8000000 part page 955")
        self.assertIn("The screen: 2 dots differ, at x 576 to 577 and y 219, counted from the left and from below.", lines)
        self.assertTrue(any("++" in line and "--" in line.split()[-1] for line in lines))
        none = "None of the 20 instructions before count 8000000 wrote Mem[0EECC8]. The last one before them that wrote it:"
        self.assertIn(none, lines)
        self.assertTrue(any("  4838732      41  A6D00000  STR R6, R13, 0" in line for line in lines))

    def test_what_wrote_a_part_long_before_is_told(self) -> None:
        """R5 := 7 twice, the LEDs, a store and a byte that is sent; then R0 counts. A key and a byte come meanwhile."""
        words = (0x5100FFC0, 0x45000007, 0x45000007, 0xA5100004, 0xA5200190, 0xA5200190, 0xA5100008, 0x40080001, 0xE7FFFFFE)
        told = session(words, [30_000, 60_000], [(1000, "key", 65), (2000, "serial", 66), (3000, "switches", 5)])
        made = record({**told, "version": 2, "start": {**told["start"], "rate": 25_000, "phase": 0}})
        for claimed, part, did, count in (
            ("R5=9", "R5", "wrote", 2),
            ("H=9", "H", "wrote", None),
            ("LEDs=9", "LEDs", "wrote", 3),
            ("serial=9", "serial", "wrote", 2000),
            ("switches=9", "switches", "wrote", 3000),
            ("mouse=9", "mouse", "wrote", None),
            ("timer=9", "timer", "", 24_999),
            ("rate=25001", "rate", "changed", None),
        ):
            lines = self.explained(self.claiming(made, 1, claimed), "--steps", 9)
            none = f"None of the 9 instructions before count 30000 wrote {part}."
            last = f"The last one before them that {did} it:" if did else "The one before them, found by bisection, set it:"
            self.assertIn(f"{none} Since checkpoint 0 none {did} it." if count is None else f"{none} {last}", lines)
            also = ["it", "1"] if part == "R5" else []
            shown = [line.split()[0] for line in lines[6:-2] if "input" not in line]
            self.assertEqual(shown, [str(count), *also] if count else [], part)
        lines = self.explained(self.claiming(made, 2, "R5=9"), "--steps", 9)
        self.assertIn("None of the 9 instructions before count 60000 wrote R5. Since checkpoint 1 none wrote it.", lines)

    def test_what_an_earlier_checkpoint_claims_is_told(self) -> None:
        text = self.claiming(record(session(WORDS, [10, 30, 43])), 3, "R0=5")
        self.assertIn("; and at the earlier checkpoints 1 to 2.", self.explained(text, "--steps", 1)[-1])
        told = "R0 had the claimed value at none of the counts 42 to 43"
        self.assertTrue(self.explained(text, "--steps", 1)[-1].startswith(told))

    def test_what_there_is_no_time_for_is_told(self) -> None:
        """Instructions come in batches, of 1,024 and then of 2,048; before the third there is no more time."""
        text = self.claiming(record(session(WORDS, [5000, 6000])), 1, "R0=5")
        read, program = recording.read(text), Program.find(None)
        answer = program.check(text)

        false = answer.false_claim or self.fail("it is not false")

        def explained(slices: int) -> FalseClaim:
            """Returns what is explained in the time for a number of slices of the machine's run."""
            run = Run.of_answer(replace(Library.find(None), limit=Ending(slices)), read, answer)
            return explain_false(run, program, read, false, 5000)

        lines = list(plain(explained(3), "it.orsr"))
        self.assertIn("R0  00000005  00000006", lines)
        self.assertIn("The last instructions before count 3072 that wrote R0:", lines)
        told = "R0 had the claimed value at 41 of the counts 0 to 3072: last at 41, 4,959 before. There was no answer"
        self.assertIn(f"{told}: not all was looked at (--limit).", lines)
        self.assertNotIn("(--limit)", "\n".join(plain(explained(1000), "it.orsr")))
        with self.assertRaisesRegex(TimeIsUp, "no answer: the machine came to count 0"):
            explained(0)

    def test_a_claim_that_rejoins(self) -> None:
        lines = self.explained(rejoining(9))
        self.assertEqual(lines[0], "false checkpoint 1 at 2 part R5")
        self.assertIn("R5  00000009  00000001", lines)

    def test_each_fault_of_the_documents_names_its_field(self) -> None:
        told = {
            "byte 0 is 00": "the first four bytes",
            "byte 4 is 09": "the version",
            "byte 16 is 00": "K + 1",
            "byte 20 is 01": "the last field of the header",
            "byte 1048 is 01": "the count of checkpoint 0",
            "byte 5388 is 01": "the keys of checkpoint 1",
            "byte 5404 is 01": "the file ends in the bytes sent",
            "byte 5408 is 02": "the page id of slot 0 of checkpoint 1",
            "byte 1196 is 00": "change 0 of checkpoint 0",
            "byte 1192 is 00, byte 1193 is 04": "change 0 of checkpoint 0, page id 1 at slot 1024",
            "byte 1336 is 01": "phase of checkpoint 1",
            "byte 1340 is 01": "the file ends in checkpoint 1",
            "byte 4 is 02": "of checkpoint 1",
        }
        document = (TOP / "docs/formats.md").read_text()
        first, second = document.split("In version 2 it has 1,344 bytes", 1)
        migrated = run([PROGRAM, "migrate"], STORED).output
        seen = 0
        for part, text in ((first, STORED), (second, migrated)):
            for change, line in CHANGE.findall(part):
                made = bytearray(text)
                for at, value in BYTE.findall(change):
                    made[int(at)] = int(value, 16)
                lines = self.explained(bytes(made))
                self.assertEqual(lines[0], line)
                self.assertIn(told[change.rstrip(", ")], lines[2], change)
                self.assertTrue(lines[-1].startswith("rule "), lines)
                seen += 1
        self.assertEqual(seen, len(told))

    def test_other_faults_name_their_fields(self) -> None:
        events = record(session([JUMP], [5, 9], [(1, "key", 65), (3, "mouse", 7)]))
        at = 24 + 1024
        for start, content, field in (
            (at + 16, b"\0" * 8, "the count of event 1"),
            (at + 8, b"\x09", "the kind of event 0"),
            (at + 16 + 12, b"\xff\xff\xff\xff", "the value of event 1"),
            (8, b"\xff\xff\xff\xff", "P, the number of pages"),
            (12, b"\xff\xff\xff\xff", "E, the number of events"),
        ):
            text = events[:start] + content + events[start + len(content) :]
            self.assertIn(field, self.explained(text)[2])
        self.assertIn("2 bytes after the end", self.explained(STORED + b"ab")[2])
        for length, field in ((3, "in the header"), (30, "in its pages and events"), (len(events) - 1, "in checkpoint 2")):
            self.assertIn(f"the file ends {field}", self.explained(events[:length])[2])

    def test_texts_cut_off_or_changed_anywhere_have_a_field(self) -> None:
        refused = 0
        for text in (run([PROGRAM, "migrate"], STORED).output, record((EXAMPLES / "keys.json").read_bytes())):
            for at in (*range(0, 24, 3), *range(1048, len(text), 13)):
                for made in (text[:at], text[:at] + b"\xff" + text[at + 1 :]):
                    answer = Program.find(None).screen(made, 0)
                    if answer.fault:
                        self.assertTrue(explain_fault(made, *answer.fault).rule)
                        refused += 1
        self.assertGreater(refused, 60)
