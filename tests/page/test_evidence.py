"""What a test of the page leaves when it fails: a picture of each page, and the lines of its console."""

import re
from pathlib import Path

import pytest

from tests.tools.browser import browser

BLANK = """<!doctype html><title>blank</title><body style="height: 3000px">
<script>console.error("first line of the console"); setTimeout(() => { throw new Error("second line"); });</script>"""


def test_a_failure_leaves_the_pages(tmp_path: Path, capsys: pytest.CaptureFixture[str]) -> None:
    """The error goes on; the folder that is named has the page down to its end, and what its console said."""
    path = tmp_path / "blank.html"
    path.write_text(BLANK)
    with pytest.raises(ValueError, match="the test fails"), browser() as running, running.page(path) as page:
        page.wait("document.readyState === 'complete'")
        page.answer("new Promise((done) => setTimeout(done, 50))")
        raise ValueError("the test fails")
    found = re.search(r"^what the pages showed, and what their consoles said: (.*)$", capsys.readouterr().out, re.MULTILINE)
    assert found
    folder = Path(found[1])
    assert sorted(it.name for it in folder.iterdir()) == ["page-0.png", "page-0.txt"]
    lines = (folder / "page-0.txt").read_text().splitlines()
    assert lines[0] == path.as_uri()
    assert "first line of the console" in lines[1] and "Uncaught" in lines[2]
    picture = (folder / "page-0.png").read_bytes()
    assert picture[:8] == b"\x89PNG\r\n\x1a\n" and int.from_bytes(picture[20:24], "big") >= 3000
    for it in folder.iterdir():
        it.unlink()
    folder.rmdir()
