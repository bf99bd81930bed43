"""galluspa recording-of: the recording in a report comes out as it went in, and no page makes the tool grow or hang."""

import base64
import gzip
import json
from pathlib import Path

from tests.tools.samples import EXAMPLES, STORED, ToolTest, rejoining, tool


class RecordingOfTest(ToolTest):
    def report(self, text: bytes) -> Path:
        """Returns the page of a text."""
        return self.file("report.html", tool("report", self.file("it.orsr", text)).output)

    def page(self, *packed: bytes) -> Path:
        """Returns a page that holds these as recordings."""
        held = (b'<script type="text/plain" id="g-recording">' + base64.b64encode(it) + b"</script>" for it in packed)
        return self.file("page.html", b"<h1>accepted 9 checkpoints 9 steps</h1>" + b"".join(held))

    def test_the_recording_comes_out_as_it_went_in(self) -> None:
        for text in ((EXAMPLES / "face.orsr").read_bytes(), rejoining(9), STORED[:-1], b""):
            ran = tool("recording-of", self.report(text))
            self.assertEqual((ran.output, ran.errors, ran.status), (text, "", 0))

    def test_takes_the_recording_of_an_exported_project(self) -> None:
        """The page writes the recording first, and the project after it, as JSON that may name anything."""
        project = json.dumps({"format": "galluspa-project", "name": 'id="g-recording">', "branches": []}).encode()
        parts = {b"recording": STORED, b"project": project}
        held = [
            b'<script type="text/plain" id="g-%b">%b</script>\n' % (name, base64.b64encode(gzip.compress(content)))
            for name, content in parts.items()
        ]
        page = self.file("it.html", b"<!doctype html>\n<body>\n" + b"".join(held))
        ran = tool("recording-of", page)
        self.assertEqual((ran.output, ran.errors, ran.status), (STORED, "", 0))
        self.assert_refused(tool("recording-of", self.file("it.html", held[1])), "no recording in this page")

    def test_refuses_bad_input(self) -> None:
        self.assert_refused(tool("recording-of"), "PAGE")
        self.assert_refused(tool("recording-of", self.folder / "none"), "No such file")
        whole = gzip.compress(STORED)
        self.assert_refused(tool("recording-of", self.page(whole, whole)), "2 recordings in this page")
        bomb = gzip.compress(bytes(170_000_000), 1)
        for packed, told in ((b"ORSR", "is not compressed data"), (whole[:-20], "is cut off"), (bomb, "longer")):
            self.assert_refused(tool("recording-of", self.page(packed)), told)
        odd = self.file("page.html", b'<script type="text/plain" id="g-recording">\xff</script>')
        self.assert_refused(tool("recording-of", odd), "is not compressed data")
