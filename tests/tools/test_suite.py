"""galluspa suite: TAP, expectations, exit statuses, earlier runs, and JUnit XML."""

import json
import os
import re
from xml.etree import ElementTree


from tests.tools.samples import EXAMPLES, GALLUSPA, PROGRAM, STORED, ToolTest, on_terminal, rejoining, run, tool


class SuitesTest(ToolTest):
    def suite(self) -> None:
        """A folder of recordings with as many kinds of answers."""
        self.file("a.orsr", STORED)
        self.file("b/false.orsr", rejoining(9))
        self.file("b/false.expect", "# R5 is 1\n\nfalse checkpoint 1 at 2 part R5\n")
        self.file("c/short.orsr", STORED[:-1])
        self.file("c/short.expect", "refused 1\n")


class SuiteTest(SuitesTest):
    def test_prove_reads_it(self) -> None:
        self.suite()
        self.assertEqual(run(["prove", GALLUSPA, "::", "suite", self.folder]).status, 0)
        self.file("a.expect", "false\n")
        ran = run(["prove", GALLUSPA, "::", "suite", self.folder])
        self.assertEqual(ran.status, 1)
        self.assertIn(b"Failed 1/3 subtests", ran.output)

    def test_shows_progress_on_a_terminal(self) -> None:
        self.suite()
        self.assertIn(b"3 of 3 checked, 0 not as expected\r\n", on_terminal("suite", self.folder))

    def test_the_examples_are_as_expected(self) -> None:
        self.assertEqual(tool("suite", EXAMPLES).status, 0)

    def test_a_program_that_fails_is_not_ok(self) -> None:
        self.file("a.orsr", STORED)
        self.assertEqual(tool("suite", self.folder, "--program", "/bin/false").status, 1)

    def test_names_that_are_no_text(self) -> None:
        (self.folder / os.fsdecode(b"\xff #1.orsr")).write_bytes(STORED)
        ran = tool("suite", self.folder, "--junit", self.folder / "it.xml", "--keep", self.folder / "it.json")
        self.assertIn(rb"ok 1 - \\xff \#1.orsr: accepted", ran.output)
        self.assertEqual((ran.status, ran.errors), (0, ""))


class EarlierRunTest(SuitesTest):
    def since(self, before: str) -> list[str]:
        """Returns what is told of a suite since an earlier run."""
        ran = tool("suite", self.folder, "--changed-since", self.file("before.json", before))
        self.assertEqual(ran.errors, "")
        return [line for line in ran.output.decode().splitlines() if re.match(r"# [a-z]", line)]

    def kept(self) -> dict:
        """Returns a run of the suite, as it is kept."""
        self.suite()
        self.assertEqual(tool("suite", self.folder, "--keep", self.folder / "kept.json").status, 0)
        return json.loads((self.folder / "kept.json").read_text())

    def test_nothing_changed(self) -> None:
        kept = self.kept()
        for recording in kept["recordings"].values():
            recording["seconds"] = 1000
        told = [f"# nothing changed since {self.folder}/before.json, and nothing got slower"]
        self.assertEqual(self.since(json.dumps(kept)), told)

    def test_what_changed_came_went_and_got_slower(self) -> None:
        kept = self.kept()
        recordings = kept["recordings"]
        self.assertEqual(list(recordings), ["a.orsr", "b/false.orsr", "c/short.orsr"])
        self.assertEqual(recordings["b/false.orsr"]["answered"], "false checkpoint 1 at 2 part R5")
        recordings["a.orsr"].update(answered="accepted 1 checkpoints 99 steps", seconds=1000)
        recordings["b/false.orsr"].update(sha256="0" * 64, seconds=1000)
        recordings["gone.orsr"] = recordings.pop("c/short.orsr")
        told = """# changed a.orsr: accepted 1 checkpoints 100 steps, was accepted 1 checkpoints 99 steps
# rewritten b/false.orsr: other bytes, the same answer
# new c/short.orsr: refused 1 short at byte 9503
# gone gone.orsr: refused 1 short at byte 9503"""
        self.assertEqual("\n".join(self.since(json.dumps(kept))), told)

    def test_what_got_slower(self) -> None:
        slow = self.executable("slow", f'sleep 0.3\nexec {PROGRAM} "$@"')
        kept = self.kept()
        for recording in kept["recordings"].values():
            recording["seconds"] = 0.01
        before = self.file("before.json", json.dumps(kept))
        ran = tool("suite", self.folder, "--changed-since", before, "--program", slow)
        self.assertEqual(ran.output.count(b"# slower"), 3)
        self.assertRegex(ran.output, rb"# slower a.orsr: \d+\.\d\d s, was 0.01 s\n")

    def test_refuses_what_is_no_run(self) -> None:
        self.suite()
        run_of = '{"format": "galluspa-suite-run", "version": %s}'
        for parts in ('2, "recordings": {}', '1, "recordings": {"a": {"answered": 1}}', '1, "recordings": []', "1"):
            self.assert_refused(
                tool("suite", self.folder, "--changed-since", self.file("it.json", run_of % parts)), "it.json: not a run"
            )


class JUnitTest(SuitesTest):
    def test_writes_what_ci_systems_read(self) -> None:
        self.suite()
        self.file("a.expect", "accepted 10\n")
        ran = tool("suite", self.folder, "--junit", self.folder / "it.xml")
        self.assertEqual((ran.status, ran.errors), (1, ""))
        suite = ElementTree.parse(self.folder / "it.xml").getroot()[0]
        self.assertEqual((suite.get("tests"), suite.get("failures"), suite.get("errors")), ("3", "1", "0"))
        self.assertEqual([it.get("name") for it in suite], ["a.orsr", "b/false.orsr", "c/short.orsr"])
        self.assertTrue(all(float(it.get("time", -1)) >= 0 for it in suite))
        self.assertEqual(suite[0].findtext("failure"), "expected accepted 10, answered accepted 1 checkpoints 100 steps")
        self.assertEqual(suite[2].findtext("system-out"), "refused 1 short at byte 9503")
