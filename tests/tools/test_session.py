"""galluspa session, both ways."""

import json
import struct

from galluspa.formats.cardimages import DIRECTORY
from galluspa.formats.recording import page_of
from tests.tools.samples import EXAMPLES, JUMP, PROGRAM, ToolTest, claim, encoded, record, run, session, tool

# R1 := -56; R0 := the byte at 1024 in memory; it is sent; then a jump to itself.
PROGRAM_WORDS = (0x5100FFC8, 0x90200000, 0xA0100000, JUMP)


class SessionTest(ToolTest):
    def image(self) -> object:
        """Returns a memory image with a program at its start and a byte at 1024."""
        return self.file("memory.bin", page_of(*PROGRAM_WORDS) + b"A")

    def test_makes_a_session_that_is_recorded(self) -> None:
        inputs = self.file("inputs.csv", "count,kind,value\r\n# keys\n0, timer, 0xFFFFFFFF\n2,key,72\n2,Mouse,0x1000\n")
        words = ["--memory", self.image(), "--set", "R2=1024", "--set", "flags=NV", "--set", "PC=0", "--set", "H=0x10"]
        ran = tool("session", *words, "--inputs", inputs, "--checkpoints", "2,0x4")
        self.assertEqual((ran.status, ran.errors), (0, ""))
        made = json.loads(ran.output)
        self.assertEqual(made["start"], {"R": [0, 0, 1024, *[0] * 13], "H": 16, "PC": 0, "flags": 9})
        self.assertEqual(made["inputs"], [[0, "timer", 0xFFFFFFFF], [2, "key", 72], [2, "mouse", 0x1000]])
        self.assertEqual([it["at"] for it in made["pages"]], [0, 1])
        recorded = record(ran.output)
        self.assertEqual(recorded[-1:], b"A")
        self.assertEqual(run([PROGRAM], recorded).output, b"accepted 2 checkpoints 4 steps\n")

    def test_a_timer_that_counts_is_said_by_version_2(self) -> None:
        words = ["--memory", self.image(), "--set", "rate=1000", "--set", "phase=999", "--checkpoints", "1,2001"]
        ran = tool("session", *words)
        made = json.loads(ran.output)
        self.assertEqual((made["version"], made["start"]["rate"], made["start"]["phase"]), (2, 1000, 999))
        recorded = record(ran.output)
        self.assertEqual(run([PROGRAM], recorded).output, b"accepted 2 checkpoints 2001 steps\n")
        self.assertEqual(json.loads(tool("session", "--of", self.file("it.orsr", recorded)).output)["start"], made["start"])

    def test_an_image_lies_where_it_is_told_to(self) -> None:
        image = self.file("memory.bin", struct.pack("<I", JUMP))
        for at, place, content in ((0, 0, "ffffffe7"), (1022, 0, "00" * 1022 + "ffff"), (0xFFFFC, 1023, "00" * 1020 + "ffffffe7")):
            made = json.loads(tool("session", "--memory", image, "--at", at, "--every", 10, "--until", 35).output)
            self.assertEqual(made["pages"][0], {"at": place, "hex": content})
            self.assertEqual(made["checkpoints"], [10, 20, 30])

    def test_a_card_is_loaded_as_the_boot_loader_does(self) -> None:
        """The boot area, of three blocks, is loaded up to the block with its limit; two words of it are replaced."""
        boot_area = bytearray(bytes(range(256)) * 6)
        struct.pack_into("<I", boot_area, 16, 1025)
        system = struct.pack("<I", DIRECTORY).ljust(1024, b"x") + boot_area + bytes(512)
        loaded = bytearray(boot_area)
        struct.pack_into("<I", loaded, 12, 0xE7EF0)
        struct.pack_into("<I", loaded, 24, 0x80000)
        image, whole = self.file("system.img", system), self.file("card.img", b"")
        with whole.open("wb") as file:
            file.seek(512 * 0x80002)
            file.write(system)
        for card in (image, whole):
            ran = tool("session", "--card", card, "--checkpoints", "1")
            self.assertEqual((ran.status, ran.errors), (0, ""))
            made = json.loads(ran.output)
            self.assertEqual(made["start"], {"R": [*[0] * 12, 0x20, 0, 0x80000, 0], "H": 0, "PC": 0, "flags": 0})
            pages = {it["at"]: bytes.fromhex(it["hex"]).ljust(1024, b"\0") for it in made["pages"]}
            self.assertEqual(pages[0] + pages[1], bytes(loaded).ljust(2048, b"\0"))

    def test_a_card_of_another_kind_is_refused(self) -> None:
        directory = struct.pack("<I", DIRECTORY).ljust(1024, b"x")
        for image, why in (
            (b"abcd", "found 64636261 at byte 0 and no bytes at byte 268,436,480"),
            (directory, "at byte 1,040, has to be 28 to 1,048,576: the image ends before it"),
            (directory + bytes(512), "at byte 1,040, has to be 28 to 1,048,576: it is 0"),
            (directory + struct.pack("<5I", 0, 0, 0, 0, 600), "has 600 bytes from byte 1,024 on, and the image 20 of them"),
        ):
            ran = tool("session", "--card", self.file("card.img", image), "--checkpoints", "1")
            self.assertEqual((ran.status, ran.output), (2, b""))
            self.assertIn(why, ran.errors)

    def test_of_a_recording_comes_its_session(self) -> None:
        for name in ("hello", "keys", "face"):
            recorded = record((EXAMPLES / f"{name}.json").read_bytes())
            ran = tool("session", "--of", self.file("it.orsr", recorded))
            self.assertEqual(ran.errors, "")
            self.assertEqual(json.loads(ran.output), json.loads((EXAMPLES / f"{name}.json").read_bytes()))
            self.assertEqual(record(ran.output), recorded)

    def test_a_long_session_comes_back(self) -> None:
        inputs = [(count // 3, kind, count % 256) for count, kind in zip(range(1000), ["timer", "key", "serial"] * 334)]
        recorded = record(session([JUMP], range(1, 200), inputs))
        self.assertEqual(record(tool("session", "--of", self.file("it.orsr", recorded)).output), recorded)

    def test_says_what_a_session_cannot_say(self) -> None:
        for name in ("flags", "stop", "timer", "switches", "LEDs", "mouse", "serial"):
            text = encoded(1, [], [claim(0, {}, **{name.lower(): 1})])
            ran = tool("session", "--of", self.file("it.orsr", text))
            if name == "flags":
                self.assertEqual(json.loads(ran.output)["start"]["flags"], 1)
            else:
                self.assert_refused(ran, f"its initial state has {name} other than 0")
        text = encoded(1, [], [claim(0, {}, keys=b"\x00")])
        self.assert_refused(tool("session", "--of", self.file("it.orsr", text)), "keys")

    def test_refuses_bad_inputs(self) -> None:
        for line, told in (
            ("1,key", "three cells"),
            ("1,key,256", "'256' is not a value for key"),
            ("1,mouse,0x800", "mask"),
            ("1,pen,1", "'pen' is none of timer"),
            ("x,key,1", "'x' is not a count"),
            ("4,key,1", "'4' is not a count from 5"),
            ("0x10000000001,key,1", "not a count"),
        ):
            inputs = self.file("inputs.csv", f"count,kind,value\n5,key,1\n{line}\n" if line[0] == "4" else f"{line}\n")
            ran = tool("session", "--memory", self.image(), "--every", 1, "--until", 1, "--inputs", inputs)
            self.assert_refused(ran, "inputs.csv line", told)
