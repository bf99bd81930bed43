"""Projects that are exported, and what is in their files."""

import base64
import gzip
import json
import re
from typing import Any

from tests.page.driver.desk import Desk
from tests.page.driver.given import ECHOES
from tests.page.driver.shows import IS_KEPT, IS_ON


def run_with_key(desk: Desk, key: str) -> int:
    """Runs the source, types a key, pauses, and waits until that is kept. Returns the count."""
    page = desk.page
    desk.run_source()
    page.wait(f"{IS_ON} && document.activeElement === el('screen')")
    page.press(key)
    page.wait("galluspa.frame().inputs === 1 && !galluspa.frame().typed")
    desk.pause()
    page.wait(IS_KEPT)
    count: int = page.answer("galluspa.count()")
    return count


def exported(desk: Desk, name: str) -> bytes:
    """Exports the project that is open, and returns the file."""
    desk.press("export")
    return desk.saved(f"{name}.html")


def exported_echo(desk: Desk) -> bytes:
    """Runs a program that echoes keys, types one, exports the project, and returns the file."""
    desk.open_source("echo.asm", ECHOES.format(more=0))
    run_with_key(desk, "a")
    return exported(desk, "echo")


def project_in(file: bytes) -> dict[str, Any]:
    """Returns the project of an exported file."""
    found = re.search(rb'id="g-project">([^<]*)', file)
    project: dict[str, Any] = json.loads(gzip.decompress(base64.b64decode(found[1]))) if found else {}
    return project


def exported_with(file: bytes, project: bytes | None = None, recording: bytes | None = None) -> bytes:
    """Returns an exported file with another project or another recording in it."""
    for name, content in (("project", project), ("recording", recording)):
        if content is not None:
            text = base64.b64encode(gzip.compress(content, 1))
            file = re.sub(rb'(id="g-%b">)[^<]*' % name.encode(), lambda found: found[1] + text, file)
    return file
