"""The scripts of the page: each is checked by tsc, which finds nothing."""

import shutil
from pathlib import Path

from tests.tools.samples import TOP, run

WEB = TOP / "web"
# What the scripts have in common with the tools.
LANGUAGE = "tools/galluspa/formats/assembler.json"
# Two faults: a text in place of a number, and a name that is not defined.
ODD = """// @ts-check
import { hex } from "./formats/states.js";
export const odd = hex("1", 2) + missing;
"""


def test_each_script_is_checked() -> None:
    """Each script asks for it in its first line."""
    scripts = sorted(WEB.rglob("*.js"))
    assert scripts
    assert [path.name for path in scripts if not path.read_text().startswith("// @ts-check\n")] == []


def test_tsc_finds_nothing_else_than_two_faults(tmp_path: Path) -> None:
    """The types of the scripts fit; two faults of one more script are found where they are."""
    shutil.copytree(WEB, tmp_path / "web")
    (tmp_path / LANGUAGE).parent.mkdir(parents=True)
    shutil.copy(TOP / LANGUAGE, tmp_path / LANGUAGE)
    (tmp_path / "web/odd.js").write_text(ODD)
    ran = run(["tsc", "-p", tmp_path / "web", "--pretty", "false"])
    places = [line.partition(": ")[0].rpartition("/")[2] for line in ran.output.decode().splitlines()]
    assert places == ["odd.js(3,24)", "odd.js(3,34)"]
