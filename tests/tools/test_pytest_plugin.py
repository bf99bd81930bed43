"""The plugin of pytest, in a folder as a user has it: scripts, recordings, the fixture `oberon`, approving, and what is wrong."""

import os
import re
import shutil
import sys
from pathlib import Path
from xml.etree import ElementTree

from tests.tools.samples import EXAMPLES, STORED, TOOLS, TOP, Ran, ToolTest, group, rejoining, run, tool
from tests.tools.test_calls import COROUTINES
from tests.tools.test_rerun import ECHO, LONGER, script

TEST = """
import pytest

def test_it(oberon):
    system = oberon("image.json")
    assert system.type("Hi").still(500).sent == b"Hi"
    assert system.word("Send") == system.machine.word(4 * 9)
    assert system.machine.state.leds == 0x69 and len(system.recording()) > 1000
    assert system.until("PC=Send") is None
"""
# The fixture with all inputs and images; one line of it fails.
FIXTURE = """
import pytest
import galluspa

def test_image_of_the_settings(oberon):
    assert oberon().type("a").sends("a").sent == b"a"

def test_raw_memory(oberon):
    system = oberon("../raw.bin", at=0x1000, PC=0x400, patience=10_000)
    assert system.type("abc").after(100).sent == b"abc"
    assert system.screen().size == (1024, 768) and system.count > 100
    assert [it.name for it in system.until("PC=1034").calls()] == [""]
    machine = system.machine
    assert machine.who("LEDs").count < system.count == machine.count == machine.end
    assert machine.why("LEDs")[0].count == machine.who("LEDs").count

def test_two_systems(oberon):
    one, other = oberon(), oberon("image.json")
    assert one.type("a").still().sent != other.type("b").still().sent

def test_refusals(oberon):
    system = oberon()
    for call in (lambda: system.mouse(1024, 0), lambda: system.click(0, 0, 9), lambda: system.switches(4096)):
        with pytest.raises(ValueError, match="is not in 0"):
            call()
    with pytest.raises(galluspa.Refused, match="No such file"):
        oberon("none.json")
    with pytest.raises(galluspa.Refused, match="rubbish"):
        system.until("rubbish")
    with pytest.raises(pytest.fail.Exception, match="once .!. is sent never comes: not up to count 500"):
        oberon(patience=500).sends("!")
"""


class PluginTest(ToolTest):
    def setUp(self) -> None:
        super().setUp()
        (self.folder / "tests").mkdir()
        self.image(ECHO)

    def image(self, source: str) -> Path:
        """Returns the image that the tests run on, with its names beside it."""
        path = self.folder / "tests/image.json"
        ran = tool("assemble", self.file("image.asm", source), "-o", path, "--symbols", path.with_suffix(".sym"))
        self.assertEqual(ran.status, 0, ran.errors)
        return path

    def pytest(self, *words: object, **variables: str) -> Ran:
        """Runs pytest in the test's folder."""
        command = [sys.executable, "-B", "-m", "pytest", "-p", "galluspa.testing.plugin", "-p", "no:cacheprovider", "-q", *words]
        environment = {**os.environ, "PYTHONPATH": str(TOOLS), **variables}
        environment.pop("PYTEST_CURRENT_TEST", None)
        return run(command, cwd=self.folder, env=environment)

    def assert_ends(self, ran: Ran, status: int, *told: str) -> str:
        """A run ended with this status, and its output has these texts."""
        output = ran.output.decode()
        self.assertEqual(ran.status, status, output + ran.errors)
        for words in told:
            self.assertIn(words, output)
        self.assertNotIn("Traceback", output + ran.errors)
        return output

    def script(self, keys: str, **members: object) -> None:
        """Writes a script that types keys and looks."""
        events = ({"key": keys}, {"look": "it", "when": {"still": 500}})
        self.file("tests/it.rerun.json", script(*events, image="image.json", **members))

    def test_a_script_is_approved_passes_and_fails_with_what_differs(self) -> None:
        self.script("Hi\xe1")
        self.assert_ends(self.pytest(), 1, "E   not approved yet: --galluspa-approve writes what is seen", "1 failed")
        told = "tests/it.rerun.json::rerun: approved now (1 look, 3 bytes sent)"
        self.assert_ends(self.pytest("--galluspa-approve"), 0, told, "1 passed")
        self.assertEqual((self.folder / "tests/it.approved/sent.txt").read_text(), "Hi\\e1\n")
        self.assert_ends(self.pytest(), 0, "1 passed")
        before = shutil.copy(self.folder / "tests/image.json", self.folder / "before.json")
        self.image(LONGER)
        words = ("--galluspa-recordings", "build/kept", "--junit-xml", "junit.xml", "--galluspa-before", before)
        seen = ("E   it: running, LEDs 61, approved running, LEDs E1", "E   screen it: 1 dot from 71,0 to 71,0")
        sent = ('E   sent, line 1: "Hia", approved "Hi\\e1"', "E     - Hi\\e1", "E     + Hia")
        output = self.assert_ends(self.pytest(*words), 1, *seen, *sent, "1 failed")
        self.assertRegex(output, r"E   because byte 2 was sent; now 61 at \d+ by Send \+ 0x4 .*; before E1 at \d+ by")
        self.assertTrue((self.folder / "build/kept/tests/it.orsr").is_file())
        failure = ElementTree.parse(self.folder / "junit.xml").getroot()[0][0][0]
        self.assertIn("screen it: 1 dot", str(failure.text))
        self.assert_ends(self.pytest("--galluspa-image", before), 0, "1 passed")
        self.assert_ends(self.pytest("--galluspa-approve"), 0, "approved now (1 look, 3 bytes sent): it: running")

    def test_broken_scripts_and_images_are_lines(self) -> None:
        self.file("tests/it.rerun.json", script({"keys": "a"}, image="image.json").replace('[{"keys', '[\n{"keys'))
        output = self.assert_ends(self.pytest(), 1, "E   events[0] (line 2): keys is not a member of an event: did you mean key?")
        self.assertEqual(output.count("\nE   "), 1)
        self.script("a", patience=100)
        self.file("tests/image.json", "{}")
        self.assert_ends(self.pytest(), 1, "E   image.json: session refused 2 shape")
        self.file("tests/it.rerun.json", script({"look": "it"}, image="none.json"))
        self.assert_ends(self.pytest(), 1, "E   none.json: no such file, which the script names as its image")
        self.assert_ends(self.pytest("--galluspa-image", "nothing.json"), 1, "nothing.json: No such file")
        self.assert_ends(self.pytest("-o", "galluspa_limit=soon"), 1, "galluspa_limit is soon: expected a whole number from 1 to")
        self.assert_ends(self.pytest("-o", "galluspa_stack_limit=-1"), 1, "galluspa_stack_limit is -1: expected a whole number")

    def test_the_stacks_of_coroutines_have_a_limit_between_them(self) -> None:
        self.image(COROUTINES)
        self.script("a", patience=13)
        self.file("tests/test_it.py", "def test_it(oberon):\n    assert len(oberon('image.json').after(13).calls()) == 3\n")
        self.assert_ends(self.pytest(), 1, "assert 1 == 3")
        self.assertEqual(self.assert_ends(self.pytest("-o", "galluspa_stack_limit=0x1000"), 1, "1 passed").count(" < "), 3)

    def test_a_missing_library_is_a_line_of_each_test(self) -> None:
        self.script("a")
        self.file("tests/test_it.py", "def test_it(oberon):\n    oberon('image.json')\n")
        output = self.assert_ends(self.pytest(GALLUSPA_LIBRARY="/none/libgalluspa.so"), 1)
        self.assertEqual(output.count("galluspa: no library at /none/libgalluspa.so"), 2, output)
        self.assertIn("1 failed, 1 error", output)

    def test_recordings_are_checked_against_what_is_expected(self) -> None:
        self.file("good.orsr", STORED)
        self.file("tests/wrong.orsr", rejoining(9))
        self.file("tests/short.orsr", STORED[:-1])
        told = ("2 failed, 1 passed", "E   expected accepted", "E   answered refused 1 short at byte 9503")
        output = self.assert_ends(self.pytest(), 1, *told)
        self.assertIn("E   answered false checkpoint 1 at 2 part R5", output)
        self.file("tests/wrong.expect", "false checkpoint 1\n")
        self.file("tests/short.expect", "refused 1\n")
        self.assert_ends(self.pytest(), 0, "3 passed")
        shutil.copy(EXAMPLES / "keys.json", self.folder / "tests/keys.json")
        self.assertEqual(tool("rerun", self.folder / "good.orsr", "--approve").status, 0)
        self.assert_ends(self.pytest(), 0, "4 passed")
        (self.folder / "good.approved/looks.txt").write_text("end: running, LEDs 01\n")
        self.assert_ends(self.pytest(), 1, "1 failed, 3 passed", "E   end: stopped (fetch), LEDs 00, approved running, LEDs 01")

    def test_the_fixture_boots_and_types(self) -> None:
        self.file("tests/test_it.py", TEST.replace('    assert system.until("PC=Send") is None\n', ""))
        self.assert_ends(self.pytest(), 0, "1 passed")
        self.file("tests/test_it.py", TEST)
        output = self.assert_ends(self.pytest(), 1, 'assert system.until("PC=Send") is None')
        self.assertIn("Failed: when PC=Send never comes: not up to count", output)
        self.assertNotIn("workstation.py", output)
        told = group(r"-+ oberon -+\n(.*?)\n(?:=|-)", output)
        self.assertRegex(told, r"^count \d+, at next( \+ 0x\d)?; its recording: /.*/test_it\.orsr$")
        recording = Path(told.rpartition(": ")[2])
        self.assertIn(b"accepted 1 checkpoints", tool("check", recording).output)

    def test_the_fixture_takes_all_inputs_and_images(self) -> None:
        ran = tool("assemble", self.folder / "image.asm", "--image", self.folder / "raw.bin")
        self.assertEqual(ran.status, 0)
        self.file("pytest.ini", "[pytest]\ngalluspa_image = tests/image.json\ngalluspa_limit = 60\n")
        self.file("tests/test_it.py", FIXTURE)
        self.assert_ends(self.pytest(), 1, "1 failed, 3 passed")
        self.file(
            "tests/test_it.py", FIXTURE.replace('    assert [it.name for it in system.until("PC=1034").calls()] == [""]\n', "")
        )
        self.assert_ends(self.pytest(), 0, "4 passed")
        self.assert_ends(self.pytest("-n", 2), 0, "4 passed")

    def test_a_suite_begins_as_the_document_shows(self) -> None:
        text = (TOP / "docs/suites.md").read_text()
        lines = group(r"^<!-- recipe begin -->\n```sh\n(.*?)^```$", text)
        self.assertLessEqual(len(lines.splitlines()), 10)
        bin_folder = self.folder / "bin"
        bin_folder.mkdir()
        (bin_folder / "galluspa").symlink_to(TOP / "galluspa")
        shutil.copytree(EXAMPLES / "desk", self.folder / "desk", ignore=shutil.ignore_patterns("tests"))
        (self.folder / "tests/image.json").unlink()
        commands = re.sub(r"^.*venv.*pip .*\n|^python3 -m venv .*\n", "", lines, flags=re.MULTILINE)
        plugin = f"{sys.executable} -B -m pytest -p no:cacheprovider -p galluspa.testing.plugin"
        commands = commands.replace("venv/bin/pytest", plugin)
        environment = {**os.environ, "PYTHONPATH": str(TOOLS), "PATH": f"{bin_folder}:{os.environ['PATH']}"}
        ran = run(["bash", "-ec", commands], cwd=self.folder, env=environment)
        self.assert_ends(ran, 0, "tests/sum.rerun.json::rerun: approved now (1 look, 3 bytes sent)")
        self.file("tests/test_desk.py", group(r"^<!-- file tests/test_desk\.py -->\n```python\n(.*?)^```$", text))
        self.assert_ends(self.pytest(), 0, "2 passed")

    def test_it_imports_little_until_it_is_used(self) -> None:
        code = "import galluspa.testing.plugin, sys; print(sorted(it for it in sys.modules if it.startswith('galluspa')))"
        ran = run([sys.executable, "-B", "-c", code], env={**os.environ, "PYTHONPATH": str(TOOLS)})
        self.assertEqual(ran.output, b"['galluspa', 'galluspa.testing', 'galluspa.testing.plugin']\n")
