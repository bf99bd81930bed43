"""galluspa rerun: the counts of events by their definitions, what is approved and what differs."""

import json
import re
from collections.abc import Sequence
from pathlib import Path
from typing import Any

from galluspa.formats import recording
from galluspa.formats.scripts import read
from galluspa.interface import Machine
from tests.tools.samples import EXAMPLES, ToolTest, record, tool

# Sends each key, shows it on the LEDs, and puts it into the next word of the display.
ECHO = """
Main:   MOV R1, SERIAL
        MOV' R6, DISPLAY / 10000H
        IOR R6, R6, DISPLAY % 10000H
next:   LDR R2, R1, MOUSE - SERIAL
        LSL R2, R2, 3
        BPL next
        LDR R0, R1, KEY - SERIAL
        BL Send
        B next
Send:   STR R0, R1, 0
        STR R0, R1, LEDS - SERIAL
        STR R0, R6, 0
        ADD R6, R6, 4
        B LNK
"""
# The same with a procedure that is a word longer: of a key from 128 on, a user sees something else.
LONGER = ECHO.replace("Send:   ", "Send:   AND R0, R0, 7FH\n        ")
# Waits for each kind of input, sends what it gets, and stops after a switch.
DEVICES = """
        MOV R1, TIMER
press:  LDR R0, R1, MOUSE - TIMER
        LSL R0, R0, 3
        BPL press
        LDR R0, R1, KEY - TIMER
        STR R0, R1, SERIAL - TIMER
byte:   LDR R0, R1, STATUS - TIMER
        AND R0, R0, 1
        BEQ byte
        LDR R0, R1, SERIAL - TIMER
        STR R0, R1, SERIAL - TIMER
time:   LDR R0, R1, 0
        BEQ time
        STR R0, R1, SERIAL - TIMER
flip:   LDR R0, R1, SWITCHES - TIMER
        BEQ flip
        STR R0, R1, SERIAL - TIMER
        DIV R0, R0, R2
"""
# The bytes of the device words by which a program learns of inputs.
POLLED = {"key": range(0xFFFFD8, 0xFFFFE0), "serial": range(0xFFFFC8, 0xFFFFD0), "mouse": range(0xFFFFD8, 0xFFFFDC)}
POLLED |= {"switches": range(0xFFFFC4, 0xFFFFC8), "timer": range(0xFFFFC0, 0xFFFFC4)}


def script(*events: Any, **members: Any) -> str:
    """Returns the text of a script with these events."""
    return json.dumps({"format": "galluspa-rerun", "version": 1, **members, "events": events})


class RerunsTest(ToolTest):
    def setUp(self) -> None:
        super().setUp()
        self.tests = self.folder / "tests"
        self.tests.mkdir()

    def image(self, name: str, source: str) -> Path:
        """Returns the session of a source, as an image."""
        self.assembled(source, name)
        (self.folder / f"{name}.sym").unlink()
        return self.folder / f"{name}.json"

    def rerun(self, *words: object, status: int = 0) -> list[str]:
        """Returns the lines of TAP, but for the times."""
        ran = tool("rerun", self.tests, *words)
        self.assertEqual((ran.status, ran.errors), (status, ""), ran.output.decode())
        return [line for line in ran.output.decode().splitlines() if not re.match(r"# \d+\.\d\d s", line)]

    def answers(self, *words: object, status: int = 0) -> list[str]:
        """Returns what is answered to each session that is not as approved."""
        return [json.loads(line.partition("answered: ")[2]) for line in self.rerun(*words, status=status) if "answered: " in line]

    def resolved(self, *events: dict[str, Any], image: str = ECHO, **members: Any) -> recording.Recording:
        """Returns the recording that is made of a script."""
        self.file("tests/it.rerun.json", script(*events, **members))
        self.rerun("--image", self.image("image", image), "--recordings", self.folder / "made", "--approve")
        return recording.read((self.folder / "made/it.orsr").read_bytes())


class EventsTest(RerunsTest):
    """The counts of events, against a machine that is looked at before each instruction."""

    def naive(self, read: recording.Recording, text: bytes) -> Sequence[Any]:
        """Returns the steps of a recording."""
        return list(Machine.claim(text).steps(read.checkpoints[-1].count))

    def is_polled(self, step: Any, kind: str) -> bool:
        """Returns whether an instruction polls a kind of input, by the definition."""
        word, before = step.word, step.before
        if word is None or word >> 30 != 2 or word >> 29 & 1 or step.after.stop:
            return False
        offset = (word & 0xFFFFF) - (word >> 19 << 19 & 0x80000) * 2
        address = before.registers[word >> 20 & 15] + offset & 0xFFFFFF
        address &= ~3 if not word >> 28 & 1 else ~0
        has_one = before.keys if kind == "key" else before.serial >> 8 if kind == "serial" else False
        return address in POLLED[kind] and not has_one

    def test_inputs_come_when_they_are_polled(self) -> None:
        events = ({"key": "a"}, {"serial": 7}, {"timer": 5}, {"switches": 3}, {"when": {"after": 50}, "look": "late"})
        read = self.resolved(*events, image=DEVICES)
        steps = self.naive(read, (self.folder / "made/it.orsr").read_bytes())
        last = -1
        for event, kind in zip(read.events, ["key", "serial", "timer", "switches"], strict=True):
            polls = [it.before.count for it in steps if it.before.count > last and self.is_polled(it, kind)]
            self.assertEqual(event.count, polls[0], kind)
            last = event.count

    def test_each_key_comes_once_the_one_before_is_taken(self) -> None:
        read = self.resolved({"key": "Hi!"}, {"look": "end", "when": {"still": 100}})
        steps = self.naive(read, (self.folder / "made/it.orsr").read_bytes())
        last, counts = -1, []
        for _ in "Hi!":
            counts.append(next(it.before.count for it in steps if it.before.count > last and self.is_polled(it, "key")))
            last = counts[-1]
        self.assertEqual([it.count for it in read.events], counts)
        self.assertEqual(b"".join(it.output for it in read.checkpoints), b"Hi!")

    def test_looks_come_once_something_is_sent_or_nothing_changes(self) -> None:
        read = self.resolved(
            {"key": "Hi!"},
            {"look": "sent", "when": {"sends": "!"}},
            {"look": "still", "when": {"still": 200}},
            {"look": "after", "when": {"after": 7}},
            {"look": "at", "when": {"count": 5000}},
            {"look": "from", "when": {"still": 0, "from": 6000}},
            {"look": "loads", "when": {"condition": "load MOUSE"}},
        )
        steps = self.naive(read, (self.folder / "made/it.orsr").read_bytes())
        sent, still, after, at, later, loads = (it.count for it in read.checkpoints[1:])
        sends = [it.before.count for it in steps if it.after.output]
        self.assertEqual(sent, sends[2] + 1)
        changes = [it.before.count for it in steps if it.changed or it.after.output]
        self.assertEqual(still, max(it for it in changes) + 1 + 200)
        self.assertEqual((after, at, later), (still + 7, 5000, 6000))
        polls = [it.before.count for it in steps if it.before.pc == 3]
        self.assertTrue(later < loads <= later + 3 and (loads - polls[-1]) % 3 == 0, (later, loads, polls[-1]))

    def test_a_text_is_found_among_what_is_sent(self) -> None:
        source = ECHO + '        input 0, key, "abcabd"\n'
        read = self.resolved({"key": "ababc"}, {"look": "it", "when": {"sends": "c"}}, image=source)
        self.assertEqual(read.checkpoints[1].output, b"ababc")
        read = self.resolved(
            {"when": {"count": 3}, "key": 97}, {"when": {"count": 3}, "key": 98}, {"look": "it", "when": {"sends": "b"}}
        )
        self.assertEqual((read.checkpoints[1].output, [it.count for it in read.events]), (b"ab", [3, 3]))

    def test_what_was_sent_while_a_text_was_typed_counts(self) -> None:
        source = ECHO + '        input 0, key, "abcabd"\n'
        read = self.resolved({"key": "xyz"}, {"look": "it", "when": {"sends": "xy"}}, {"look": "end"}, image=source)
        at, typed = read.checkpoints[1].count, read.events[-1].count
        self.assertEqual((at, read.checkpoints[1].output[-2:]), (typed + 1, b"xy"))

    def test_an_input_may_come_at_a_count_and_a_look_sees_the_instruction_after_it(self) -> None:
        read = self.resolved(
            {"when": {"count": 10}, "key": "H"}, {"when": {"count": 5}, "mouse": [3, 2, 4]}, {"when": {"count": 1}, "look": "it"}
        )
        self.assertEqual([(it.count, it.value) for it in read.events], [(10, 72), (10, 4 << 24 | 2 << 12 | 3)])
        self.assertEqual(read.checkpoints[1].count, 11)

    def test_what_never_comes_is_said_and_recorded(self) -> None:
        image = self.image("image", DEVICES)
        self.file("tests/it.rerun.json", script({"key": "abc"}, {"look": "it"}, patience=1000))
        words = ("--image", image, "--recordings", self.folder / "made")
        (told,) = self.answers(*words, status=1)
        end = "never comes: not up to count 1,001, where PC is"
        self.assertRegex(told, rf"^events\[0\] \(line 1\), key 62 when the machine polls key, {end} \d+$")
        self.assertEqual(self.answers(*words, "--approve", status=1), [f"not approved: {told}"])
        self.assertFalse((self.tests / "it.approved").exists())
        self.assertEqual(recording.read((self.folder / "made/it.orsr").read_bytes()).checkpoints[-1].output, b"a")
        self.file("tests/it.rerun.json", script({"key": "a"}, {"serial": "b"}, {"timer": 1}, {"switches": 1}, {"key": "c"}))
        (told,) = self.answers(*words, status=1)
        end = r"never comes: the machine stopped \(divisor\) at count"
        self.assertRegex(told, rf"events\[4\] \(line 1\), key 63 when the machine polls key, {end} \d+")
        last = recording.read((self.folder / "made/it.orsr").read_bytes()).checkpoints[-1]
        self.assertEqual((last.stop, last.count), (2, int(told.split()[-1])))

    def test_an_event_is_numbered_as_it_stands_in_the_script_and_a_name_says_where_the_machine_hangs(self) -> None:
        self.assembled(DEVICES, "image")
        self.file("tests/it.rerun.json", script({"key": "a"}, {"serial": "xyz"}, {"look": "it"}, patience=1000))
        told = "\n".join(self.lines_of("rerun", self.tests, "--image", self.folder / "image.json", status=1, errors=None))
        end = r"never comes: not up to count [\d,]+, where PC is \d+, time"
        self.assertRegex(told, rf"events\[1\] \(line 1\), serial 79 when the machine polls serial, {end}")

    def test_a_look_once_nothing_changes_is_waited_for_no_longer_than_patience(self) -> None:
        image = self.image("image", ECHO)
        for still, patience, is_told in ((1000, 1000, False), (1001, 1000, True), (None, 1000, True)):
            when = {"when": {"still": still}} if still else {}
            self.file("tests/it.rerun.json", script({"look": "it", **when}, patience=patience))
            ran = tool("rerun", self.tests, "--image", image)
            self.assertEqual("never comes: not up to count 1,000, where PC is" in ran.output.decode(), is_told, ran.output)

    def test_a_session_is_looked_at_once_it_is_still_however_long_that_is(self) -> None:
        image = self.image("image", ECHO)
        with_stored = json.loads(image.read_text()) | {"checkpoints": [30]}
        self.file("tests/it.json", json.dumps(with_stored))
        self.assertIn("it.json", "".join(self.rerun("--still", 150_000_000, "--approve")))


class SuiteTest(RerunsTest):
    def thirty(self) -> None:
        """Sessions, recordings and scripts, ten of each, of which two have a key from 128 on."""
        for at in range(30):
            keys = f"{chr(97 + at % 26)}{at}" + ("\xe1" if at in (7, 19) else "z")
            events: list[dict[str, Any]] = [{"key": keys}, {"look": "answered", "when": {"still": 500}}]
            inputs = [[60 + 40 * number, "key", ord(key)] for number, key in enumerate(keys)]
            self.file(f"tests/it{at:02}.rerun.json", script(*events))
            if at % 3:
                (self.tests / f"it{at:02}.rerun.json").unlink()
                stored = json.loads((self.folder / "old.json").read_text()) | {"inputs": inputs, "checkpoints": [100, 300]}
                text = json.dumps(stored).encode()
                self.file(f"tests/it{at:02}" + (".json" if at % 3 == 1 else ".orsr"), text if at % 3 == 1 else record(text))

    def test_thirty_sessions_on_an_image_with_a_longer_procedure(self) -> None:
        old, new = self.image("old", ECHO), self.image("new", LONGER)
        self.thirty()
        lines = self.rerun("--image", old, "--approve", "--still", 500)
        self.assertEqual([line[:6] for line in lines[2:]], [f"ok {at + 1} -"[:6] for at in range(30)])
        self.assertEqual(len(self.rerun("--image", old, "--still", 500)), 32)
        same = self.image("same", ECHO.replace("Send:   ", "Send:   MOV R7, R0\n        "))
        self.rerun("--image", same, "--still", 500)
        lines = self.rerun("--image", new, "--still", 500, "--recordings", self.folder / "made", status=1)
        self.assertEqual([line for line in lines if line.startswith("not ok")], ["not ok 8 - it07.json", "not ok 20 - it19.json"])
        told = [json.loads(line.partition("answered: ")[2]) for line in lines if "answered" in line]
        for it, (at, keys) in zip(told, ((2, "h7"), (3, "t19")), strict=True):
            seen = f"running, LEDs 61, approved running, LEDs E1; screen end: 1 dot from {32 * at + 7},0 to {32 * at + 7},0"
            self.assertEqual(it, f'end: {seen}; sent, line 1: "{keys}a", approved "{keys}\\e1"')
        # Compared word by word, each of them differs, since the code does.
        ran = tool("diff", "--only", "memory", self.tests / "it02.orsr", self.folder / "made/it02.orsr")
        self.assertEqual(ran.status, 1)

    def test_inputs_of_a_session_may_come_when_they_are_polled(self) -> None:
        slow = self.image("slow", ECHO.replace("Main:", "Main:   MOV R3, 1000\nwait:   SUB R3, R3, 1\n        BNE wait\n"))
        keys = [[at, "key", 65 + at] for at in range(20)]
        stored = json.loads(slow.read_text()) | {"inputs": keys, "checkpoints": [30]}
        self.file("tests/it.json", json.dumps(stored))
        self.rerun("--approve")
        self.assertEqual((self.tests / "it.approved/sent.txt").read_text(), "ABCDEFGHIJKLMNOP\n")
        self.assertEqual(len(self.answers("--polled", status=1)), 1)
        self.rerun("--approve", "--polled")
        self.assertEqual((self.tests / "it.approved/sent.txt").read_text(), "ABCDEFGHIJKLMNOPQRST\n")

    def test_looks_at_checkpoints_if_that_is_asked_for(self) -> None:
        self.file("tests/it.json", (EXAMPLES / "keys.json").read_bytes())
        self.rerun("--approve", "--checkpoints")
        lines = (self.tests / "it.approved/looks.txt").read_text().splitlines()
        self.assertEqual([line.partition(":")[0] for line in lines], ["checkpoint-1", "checkpoint-2", "checkpoint-3", "end"])
        self.assertEqual(lines[1], "checkpoint-2: running, LEDs 69")

    def test_memory_is_compared_if_that_is_asked_for(self) -> None:
        old = self.image("old", ECHO + "buffer: word 1, 2\n")
        look = {"look": "it", "when": {"count": 5}, "memory": ["4,2", "R6 - 4,1"]}
        self.file("tests/it.rerun.json", script(look, image="old.json"))
        (self.tests / "old.json").write_bytes(old.read_bytes())
        self.assertEqual(self.rerun("--approve")[0], "TAP version 13")
        lines = (self.tests / "it.approved/looks.txt").read_text().splitlines()
        self.assertEqual(lines[1], "  4,2: 6600000E 46667F00")

    def test_the_script_of_a_session(self) -> None:
        one = self.file("tests/it.json", (EXAMPLES / "keys.json").read_bytes())
        for words, whens in (
            ((), [{"count": 10}, {"count": 50}]),
            (("--polled",), [{"polls": "key", "from": at} for at in (10, 50)]),
        ):
            ran = tool("rerun", one, "--script", *words)
            made = json.loads(ran.output)
            self.assertEqual([it["when"] for it in made["events"][::2]], whens)
            last = [str(it) for it in read(ran.output).events][-1]
            self.assertEqual(last, "look end once nothing changes for 1000000 instructions")

    def test_raw_images_and_registers(self) -> None:
        raw = self.folder / "raw.bin"
        self.assertEqual(tool("assemble", self.folder / self.image("it", ECHO).with_suffix(".asm").name, "--image", raw).status, 0)
        stored = json.loads((self.folder / "it.json").read_text()) | {"inputs": [[5, "key", 65]], "checkpoints": [50]}
        self.file("tests/it.json", json.dumps(stored))
        self.rerun("--approve")
        self.rerun("--image", raw)
        self.rerun("--image", raw, "--at", 4096, "--set", "PC=1024")
        self.answers("--image", raw, "--at", 4096, "--set", "PC=1030", status=1)
