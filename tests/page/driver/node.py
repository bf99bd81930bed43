"""The page's workers and modules without a browser, in node."""

import base64
import json
import subprocess
from collections.abc import Iterable
from pathlib import Path
from typing import Any

from tests.page.driver.desk import PAGE, fail
from tests.tools.samples import TOP


def bundled(name: str, folder: Path) -> Path:
    """Returns the bundle of a script of tests/page with the modules of the page that it imports."""
    made = folder / name
    flags = ("--bundle", "--format=esm", "--platform=node", "--log-level=warning", f"--outfile={made}")
    subprocess.run(["esbuild", TOP / "tests/page" / name, *flags], check=True)
    return made


def ran_by_node(*words: Path, given: str = "") -> str:
    """Returns what a script prints."""
    ran = subprocess.run(["node", *words], input=given, capture_output=True, text=True, check=False)
    if ran.returncode:
        fail(f"node ended with status {ran.returncode}: {ran.stderr}")
    return ran.stdout


def replies(*words: Path, requests: Iterable[object]) -> list[Any]:
    """Returns what a script prints to requests, a line of JSON for each."""
    given = "".join(json.dumps(request) + "\n" for request in requests)
    return [json.loads(line) for line in ran_by_node(*words, given=given).splitlines()]


def answers(page: Path, requests: Iterable[tuple]) -> list[dict]:
    """Returns what the worker of a page answers to requests."""
    return replies(TOP / "tests/page/answers.js", page, requests=requests)


def called(folder: Path, requests: Iterable[tuple]) -> list[Any]:
    """Returns what functions of the page's modules return, by their names in functions.mjs."""
    return replies(bundled("functions.mjs", folder), PAGE, requests=requests)


def asked(name: str, text: bytes, **more: object) -> tuple:
    """Returns a request about a text."""
    return name, {"base64": base64.b64encode(text).decode(), **more}
