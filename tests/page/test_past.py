"""How the page looks into the past of its machine: the scripts of its workers, run by node over programs that are made here."""

import base64
from pathlib import Path

from tests.page.driver.desk import PAGE, expect, program
from tests.page.driver.node import ran_by_node
from tests.page.driver.pastprograms import make_programs
from tests.tools.samples import TOP


def test_past(tmp_path: Path) -> None:
    """Looks, searches and take-overs of the page's workers. The program accepts what was recorded after a take-over."""
    make_programs(tmp_path)
    lines = [line.split(" ") for line in ran_by_node(TOP / "tests/page/past.js", PAGE, tmp_path).splitlines()]
    recorded = {line[1]: base64.b64decode(line[2]) for line in lines if line[0] == "recording"}
    expect("whether something was recorded", len(recorded) > 1, True)
    for name, text in recorded.items():
        expect(f"the status of the recording {name}", program("check", text)[1], 0)
