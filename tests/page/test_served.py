"""The page as web/serve serves it: from its sources, so that a change shows at a reload."""

import shutil
import subprocess
from collections.abc import Iterator
from contextlib import contextmanager
from pathlib import Path

from tests.page.driver.desk import PAGE, expect
from tests.page.driver.shows import SENT, shown
from tests.tools import browser
from tests.tools.samples import TOP


@contextmanager
def served(folder: Path) -> Iterator[str]:
    """The address of the sources of a folder, as long as they are served."""
    command = [folder / "web/serve", "--port", "0", "--module", PAGE]
    with subprocess.Popen([str(word) for word in command], stdout=subprocess.PIPE, text=True) as running:
        try:
            assert running.stdout
            yield running.stdout.readline().strip()
        finally:
            running.terminate()


def test_served(tmp_path: Path) -> None:
    """A copy of the sources is served and used; a text that is changed there is another one after a reload."""
    shutil.copytree(TOP / "web", tmp_path / "web")
    for name in ("tools", "examples", "docs"):
        (tmp_path / name).symlink_to(TOP / name)
    blank = tmp_path / "blank.html"
    blank.write_text("<!doctype html><title>blank</title>")
    with served(tmp_path) as address, browser.browser() as running, running.page(blank) as page:
        page.leave_for(address)
        page.wait("document.body.dataset.ready")
        page.answer("document.getElementById('g-draw').click()")
        page.wait("document.getElementById('g-run').textContent === 'Pause' && document.activeElement.id === 'g-screen'")
        page.press("a")
        page.wait(f"{SENT} === 'a'")
        for name, old, new in (
            ("page.html", "<h1>Galluspa</h1>", "<h1>Another</h1>"),
            ("formats/texts.js", "`${grouped(number)} ${what}", "`${grouped(number)} other ${what}"),
        ):
            text = (tmp_path / "web" / name).read_text()
            expect(f"{old} in {name}", text.count(old), 1)
            (tmp_path / "web" / name).write_text(text.replace(old, new))
        page.reload()
        page.wait("document.body.dataset.ready")
        expect("the changed heading", page.answer("document.querySelector('h1').textContent"), "Another")
        page.answer("document.getElementById('g-draw').click()")
        page.wait(f"{shown('status')}.includes(' other instructions')")
        expect("the errors of the page", page.errors, [])
        outside = [url for url in page.requests if not url.startswith(("file:", "blob:", "data:", address))]
        expect("what it asked of another host", outside, [])
