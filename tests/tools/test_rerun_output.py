"""galluspa rerun: its TAP and its files, and what it refuses."""

import io
import json
import os
from pathlib import Path
from typing import Any
from xml.etree import ElementTree

from PIL import Image

from galluspa.analysis.drawing import Mask
from galluspa.formats.screens import picture
from galluspa.suites.approvals import dots_differing, pbm_of
from tests.tools.samples import EXAMPLES, GALLUSPA, JUMP, STORED, run, session, tool
from tests.tools.test_rerun import ECHO, LONGER, RerunsTest, script


class OutputTest(RerunsTest):
    def two(self) -> tuple[Path, Path]:
        """Returns an image and a longer one, and two sessions that are approved, of which one is seen differently on the longer."""
        old, new = self.image("old", ECHO), self.image("new", LONGER)
        for name, keys in (("a", "Hi"), ("b", "\xc1<")):
            self.file(f"tests/{name}.rerun.json", script({"key": keys}, {"look": "it", "when": {"still": 100}}))
        self.rerun("--image", old, "--approve")
        return old, new

    def test_what_is_approved_is_text_and_pictures(self) -> None:
        self.two()
        self.assertEqual((self.tests / "b.approved/sent.txt").read_text(), "\\c1<\n")
        self.assertEqual((self.tests / "b.approved/looks.txt").read_text(), "it: running, LEDs 3C\n")
        screen = Image.open(self.tests / "b.approved/it.png")
        shown = screen.format, screen.size, screen.getpixel((0, 767)), screen.getpixel((1, 767))
        self.assertEqual(shown, ("PNG", (1024, 768), 0, 255))

    def test_a_picture_that_another_program_wrote_anew_is_the_same(self) -> None:
        old, _ = self.two()
        path = self.tests / "a.approved/it.png"
        before = path.read_bytes()
        Image.open(path).convert("RGB").save(path)
        self.assertNotEqual(path.read_bytes(), before)
        self.rerun("--image", old)

    def test_junit_and_what_changed(self) -> None:
        old, new = self.two()
        kept = self.folder / "run.json"
        self.rerun("--image", old, "--keep", kept)
        lines = self.rerun("--image", new, "--changed-since", kept, "--junit", self.folder / "it.xml", status=1)
        self.assertIn("# changed b.rerun.json: screen it", "\n".join(lines))
        suite = ElementTree.parse(self.folder / "it.xml").getroot()[0]
        self.assertEqual((suite.get("tests"), suite.get("failures"), suite.get("errors")), ("2", "1", "0"))

    def test_approving_again_says_what_changed_and_removes_what_is_gone(self) -> None:
        old, new = self.two()
        self.assertEqual(self.rerun("--image", old, "--approve")[2], "ok 1 - a.rerun.json: approved before (1 look, 2 bytes sent)")
        told = "ok 2 - b.rerun.json: approved now (1 look, 2 bytes sent): screen it"
        self.assertIn(told, self.rerun("--image", new, "--approve")[3])
        self.file("tests/b.rerun.json", script({"key": "A<"}, {"look": "other", "when": {"still": 100}}))
        self.assertEqual(self.answers("--image", old, status=1), ["no look it, which is approved; look other is not approved"])
        self.rerun("--image", old, "--approve")
        self.assertEqual(sorted(it.name for it in (self.tests / "b.approved").iterdir()), ["looks.txt", "other.png", "sent.txt"])

    def test_dots_that_differ(self) -> None:
        empty = b"P4\n1024 768\n" + bytes(98304)
        one = bytearray(empty)
        one[12 + 128 * 767 + 1] = 0x81
        self.assertEqual(str(dots_differing(empty, bytes(one))), "2 dots from 8,0 to 15,0")
        self.assertEqual((dots_differing(empty, empty), pbm_of(picture(bytes(one)))), (None, bytes(one)))
        masked = Mask()
        masked.add(9, 0, 7, 1)
        self.assertEqual(str(dots_differing(empty, bytes(one), [masked.bitmap])), "1 dot from 8,0 to 8,0")


class RefusalTest(RerunsTest):
    def told(self, text: str) -> str:
        """Returns what is answered to a script."""
        self.file("tests/it.rerun.json", text)
        (told,) = self.answers(status=1)
        return told

    def test_scripts_that_are_none(self) -> None:
        for text, told in (
            ("", "not JSON"),
            ("[" * 100_000, "not JSON"),
            ("{}", "expected an object with the format galluspa-rerun"),
            (script(), "events is not an array of one event or more"),
            (script({"look": "it"}, more=1), "more is not a member of a script: expected format, version, image, patience, mask"),
            (script({"look": "it"}), "the script names no image"),
            (script({"look": "it"}, image="../image.json"), "outside the folder"),
            (script({"look": "it"}, image="/etc/passwd"), "outside the folder"),
            (script({"look": "it"}, image="none.json"), "none.json: no such file"),
            (script({"look": "it"}, patience=0), "patience is not a whole number from 1"),
            (script({}), "events[0] (line 1): an event has none of them: expected one of timer"),
            (script({"key": 1, "look": "it"}), "events[0] (line 1): an event has key and look: expected one of"),
            (script({"key": 1}, {"key": 256}), "events[1] (line 1): key is not a whole number from 0 to 255, but 256"),
            (script({"key": ""}), "events[0] (line 1): key is not a text of one sign"),
            (script({"key": "\u20ac"}), "each below 256"),
            (script({"key": True}), "key is not a whole number"),
            (script({"mouse": 5}), "mouse is not [x, y]"),
            (script({"mouse": [1024, 0]}), "x of mouse is not a whole number from 0 to 1,023"),
            (script({"look": "../it"}), 'look is "../it", and the name of a look has'),
            (script({"look": "a"}, {"look": "A"}), "another look is called A"),
            (script({"look": "it", "memory": "R1"}), "memory is not an array"),
            (script({"look": "it", "when": {}}), "when has none of them: expected one of count, after"),
            (script({"look": "it", "when": {"count": 1, "after": 2}}), "when has count and after: expected one of"),
            (script({"look": "it", "when": {"count": -1}}), "count of when is not a whole number from 0"),
            (
                script({"look": "it", "when": {"polls": "keys"}}),
                "polls of when is none of timer, switches, mouse, key, serial, disk",
            ),
            (script({"look": "it", "what": 1}), "what is not a member of an event: expected one of timer"),
            (script({"lok": "it"}), "events[0] (line 1): lok is not a member of an event: did you mean look?"),
            (script({"look": "b", "when": {"stil": 1}}), "stil is not a member of when: did you mean still? expected one of"),
            (script({"keys": "abc"}), "keys is not a member of an event: did you mean key? expected one of timer, switches"),
            (script({"key": 1, "memory": ["4"]}), "memory is not a member of an event with key: it belongs to a look"),
            (script({"look": "it", "memory": [5]}), "memory[0] is not a text of one sign or more, each below 256, but 5"),
            (script({"look": "it", "mask": [[0, 0, 5]]}), "mask[0] is not [x, y, width, height] or the name of a procedure"),
            (script({"look": "it", "mask": [[1000, 0, 25, 1]]}), "width of mask[0] is not a whole number from 1 to 24, but 25"),
            (script({"look": "it"}, mask=5), "mask is not an array of at most 100 rectangles and names, but 5"),
            (script({"look": "it"}, format="rerun"), 'and the version 1: format is "rerun"'),
            (script({"look": "it"}, version=True), "and the version 1: version is true"),
            (script("look"), 'an event is not an object, but "look"'),
            (script({"look": "it", "when": 5}), "when is not an object, but 5"),
            ('{"format": "galluspa-rerun", "version": 1,\n"x": 0, "events": []}', "x is not a member of a script"),
            (script({"look": "a"}, []).replace("[{", "[\n{").replace(", []", ",\n\n []"), "events[1] (line 4): an event is not an"),
            (script({"look": "it", "\n": 1}), "\\n is not a member"),
        ):
            self.assertIn(told, self.told(text), text[:100])

    def test_events_that_ask_for_what_is_not_there(self) -> None:
        self.file("tests/image.json", json.dumps(session([JUMP], [1])))
        first, nowhere = "events[0] (line 1): ", "there is no symbol file, which would have the name Nowhere: expected an address"
        wrong: tuple[tuple[dict[str, Any], str], ...] = (
            ({"when": {"condition": "PC=Nowhere"}}, f"{first}condition of when: PC Nowhere: Nowhere is not a number, and there is"),
            ({"when": {"count": 3}, "memory": ["Nowhere"]}, f"{first}memory[0]: ^Nowhere: {nowhere}"),
            ({"when": {"count": 3}, "memory": ["4", "0,0"]}, "memory[1]: 0,0: '0' is not a number of words"),
            ({"mask": ["Nowhere"]}, f"{first}mask: no symbol is called Nowhere"),
            ({"when": {"condition": "R0 == ("}}, f"{first}condition of when: R0 == (^: expected a number"),
            ({"when": {"condition": "(" * 99_999}}, f"{first}condition of when: conditions have at most 20,000 characters"),
            ({"when": {"condition": "R0 == R1"}}, f"{first}condition of when: R0 == R1: no search finds this alone"),
            ({"when": {"count": 3}, "memory": ["SP +* 3 /"]}, f"{first}memory[0]: SP +* 3 ^/: expected + - *"),
            ({"when": {"count": 3}, "memory": ["4", "R0 + 100000H"]}, f"{first}memory[1]: R0 + 100000H is 100000, and an address"),
        )
        for parts, told in wrong:
            self.file("tests/it.rerun.json", script({"look": "it", **parts}, image="image.json"))
            self.assertIn(told, "\n".join(self.rerun(status=1)))

    def test_sessions_that_are_none(self) -> None:
        self.file("tests/a.json", '{"format": "oberon-session", "version": 1}')
        self.file("tests/b.orsr", STORED[:-1])
        self.file("tests/c.json", json.dumps(session([JUMP], [5, 4])))
        self.file("tests/d.json", '{"format": "galluspa-suite-run"}')
        lines = self.rerun(status=1)
        self.assertEqual(lines[:3], ["# d.json: no session", "TAP version 13", "1..3"])
        told = "\n".join(lines)
        for line in ("a.json: session refused 2 shape", "b.orsr: refused 1 short", "c.json: session refused 4 order"):
            self.assertIn(line, told)

    def test_golden_files_of_a_stranger(self) -> None:
        self.file("tests/it.json", (EXAMPLES / "keys.json").read_bytes())
        self.rerun("--approve")
        approved = self.tests / "it.approved"
        for name, content, told in (
            ("looks.txt", b"", "look end is not approved"),
            ("looks.txt", b"../../it: running\n", "looks.txt line 1: not a look"),
            ("looks.txt", b"\xff\x1b[2J\n", "looks.txt line 1: not a look"),
            ("sent.txt", b"Hi!", "sent.txt does not end with a line feed"),
            ("sent.txt", b"\x1b[2J\n", 'sent, line 1: "Hi!", approved "\\x1b[2J"'),
            ("sent.txt", b"x" * (5 << 20), "more than 4,194,306 bytes"),
            ("end.png", b"", "a golden picture is no PNG"),
            ("end.png", (approved / "end.png").read_bytes()[:60], "a golden picture"),
            ("end.png", small_png(), "a golden picture has 3 by 2 dots"),
        ):
            before = (approved / name).read_bytes()
            (approved / name).write_bytes(content)
            (answer,) = self.answers(status=1)
            self.assertIn(told, answer)
            (approved / name).write_bytes(before)
        self.rerun()
        (approved / "end.png").unlink()
        self.assertIn("it.approved/end.png: no such file; --approve writes it", self.answers(status=1)[0])
        lines = self.rerun("--approve")
        self.assertIn("approved now (1 look, 3 bytes sent): before, it.approved/end.png: no such file", lines[2])
        self.rerun()

    def test_links_that_lead_out_of_the_suite_are_not_followed(self) -> None:
        self.file("tests/it.json", (EXAMPLES / "keys.json").read_bytes())
        (self.folder / "elsewhere").mkdir()
        (self.tests / "it.approved").symlink_to(self.folder / "elsewhere")
        self.assertIn("a link that leads out of the suite", self.answers("--approve", status=1)[0])
        self.assertEqual(list((self.folder / "elsewhere").iterdir()), [])

    def test_pipes_are_neither_read_nor_written(self) -> None:
        self.file("tests/it.json", (EXAMPLES / "keys.json").read_bytes())
        for name in ("a.rerun.json", "b.json", "c.orsr", "it.approved/sent.txt"):
            (self.tests / name).parent.mkdir(exist_ok=True)
            os.mkfifo(self.tests / name)
        self.file("tests/it.approved/looks.txt", "end: running, LEDs 21\n")
        self.file("tests/it.approved/end.png", picture(b"P4\n1024 768\n" + bytes(98304)))
        lines = self.rerun(status=1)
        self.assertEqual(lines[:3], ["# b.json: no session", "TAP version 13", "1..3"])
        told = "\n".join(lines)
        for line in ("a.rerun.json: not a file", "c.orsr: not a file", "it.approved/sent.txt: no such file"):
            self.assertIn(line, told)
        self.assertIn("it.approved/sent.txt: not a file", "\n".join(self.rerun("--approve", status=1)))

    def test_what_cannot_be_written_is_one_line(self) -> None:
        self.file("tests/it.json", (EXAMPLES / "keys.json").read_bytes())
        self.file("tests/it.approved", "a file")
        self.assertEqual(len(self.answers("--approve", status=1)), 1)
        self.file("file", "")
        self.assertEqual(len(self.answers("--recordings", self.folder / "file", status=1)), 1)
        (self.folder / "made").mkdir()
        (self.folder / "made/it.orsr").symlink_to("/dev/full")
        told = self.answers("--recordings", self.folder / "made", "--approve", status=3)
        self.assertEqual(told, [f"{self.folder}/made/it.orsr: No space left on device"])

    def test_what_is_approved_is_written_whole_or_not(self) -> None:
        self.file("tests/it.json", (EXAMPLES / "keys.json").read_bytes())
        cut = ("prlimit", "--fsize=100", GALLUSPA, "rerun", self.tests, "--approve")
        ran = run(cut)
        self.assertEqual(
            (ran.status, b"File too large" in ran.output, list(self.tests.iterdir())), (3, True, [self.tests / "it.json"])
        )
        self.rerun("--approve")
        before = {it.name: it.read_bytes() for it in (self.tests / "it.approved").iterdir()}
        self.file("tests/it.json", (EXAMPLES / "snake.json").read_bytes())
        self.assertEqual(run(cut).status, 3)
        self.assertEqual({it.name: it.read_bytes() for it in (self.tests / "it.approved").iterdir()}, before)

    def test_the_image_of_a_script_is_a_stored_session_only_if_it_is_approved(self) -> None:
        self.file("tests/image.json", (EXAMPLES / "keys.json").read_bytes())
        (self.tests / "suite").mkdir()
        self.file("tests/suite/it.rerun.json", script({"look": "it"}, image="../image.json"))
        self.assertIn("1..1", self.rerun("--approve"))
        (self.tests / "image.approved").mkdir()
        self.assertIn("1..2", self.rerun(status=1))

    def test_a_limit_of_time(self) -> None:
        self.file("tests/it.rerun.json", script({"look": "it", "when": {"sends": "x"}}, image="image.json", patience=1 << 39))
        self.file("tests/image.json", json.dumps(session([0x40080001, 0xE7FFFFFE], [1])))
        ran = tool("rerun", self.tests / "it.rerun.json", "--limit", 1)
        self.assertIn("no answer in 1 s", ran.output.decode())
        self.assertEqual((ran.status, ran.errors), (1, ""))


def small_png() -> bytes:
    """Returns a PNG of another size."""
    out = io.BytesIO()
    Image.new("1", (3, 2)).save(out, "PNG")
    return out.getvalue()
