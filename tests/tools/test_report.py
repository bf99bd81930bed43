"""galluspa report: the live page with a recording in it, and with what is shown beside it; tests/page opens such pages."""

import base64
import gzip
import json
import re
from typing import Any

from tests.tools.samples import EXAMPLES, STORED, ToolTest, rejoining, status_of, tool

FORMAT = {"format": "galluspa-project", "version": 1, "name": "it"}
PART = re.compile(r'<script type="text/plain" id="g-(recording|project)">([^<]*)</script>')


class ReportTest(ToolTest):
    def parts(self, text: bytes, *words: object) -> tuple[str, bytes, dict[str, Any]]:
        """Returns the title of a recording's page, the recording in it, and the project."""
        ran = tool("report", self.file("it.orsr", text), *words)
        self.assertEqual((ran.status, ran.errors), (status_of(text), ""))
        page = ran.output.decode()
        held = {name: gzip.decompress(base64.b64decode(packed)) for name, packed in PART.findall(page)}
        return page.partition("<title>")[2].partition("</title>")[0], held["recording"], json.loads(held["project"])

    def test_the_page_is_that_of_the_recording_with_its_line(self) -> None:
        for text, line in (
            (STORED, "accepted 1 checkpoints 100 steps"),
            (rejoining(9), "false checkpoint 1 at 2 part R5"),
            (STORED[:-1], "refused 1 short at byte 9503"),
            (b"", "refused 1 short at byte 0"),
        ):
            title, recording, project = self.parts(text)
            self.assertEqual((title, recording), (f"it.orsr: {line}", text))
            self.assertEqual({name: project[name] for name in ("format", "version", "name")}, FORMAT)

    def test_the_page_is_the_live_page_but_for_the_title_and_these_parts(self) -> None:
        page = tool("report", self.file("it.orsr", STORED)).output.decode()
        built = (EXAMPLES.parent / "web/galluspa.html").read_text()
        titled = re.sub("<title>[^<]*", "<title>it.orsr: accepted 1 checkpoints 100 steps", built, count=1)
        self.assertEqual(PART.sub("", page).replace("<body>\n\n\n", "<body>\n"), titled)

    def test_a_name_is_text(self) -> None:
        ran = tool("report", self.file('a "<b>".orsr', STORED))
        self.assertIn("<title>a &quot;&lt;b&gt;&quot;.orsr: accepted", ran.output.decode())

    def test_names_sources_and_a_note_are_beside_it(self) -> None:
        symbols, source = b"# galluspa-symbols 1\n", "; \u2192\n"
        self.file("it.sym", symbols)
        words = ("--source", self.file("it.asm", source), "--source", self.file("other.Mod", "MODULE"), "--note")
        ran = tool("report", self.file("it.orsr", STORED), *words, self.file("note", "\nWrong here\n"), "--at", 50)
        self.assertEqual(ran.status, 0)
        project = json.loads(gzip.decompress(base64.b64decode(dict(PART.findall(ran.output.decode()))["project"])))
        self.assertEqual(project["sources"], [["it.asm", source], ["other.Mod", "MODULE"]])
        self.assertEqual((project["cursor"], project["notes"]), (50, [[50, "Wrong here"]]))

    def test_a_note_is_pinned_to_what_the_line_names(self) -> None:
        note = self.file("note", "Here")
        self.assertEqual(self.parts(STORED, "--note", note)[2]["notes"], [[100, "Here"]])
        self.assertEqual(self.parts(rejoining(9), "--note", note)[2]["notes"], [[2, "Here"]])
