"""The folders of the page's scripts: a script imports only from its own folder and from those before it, and no two import each other."""

import re
import shutil
from pathlib import Path

from tests.tools.samples import TOP

WEB = TOP / "web"
# Each folder imports only from those before it.
FOLDERS = (
    *("formats", "assembler", "engine", "workers", "host"),
    *("ui/screen", "ui/timeline", "ui/code", "ui/source", "ui/files", "ui/report", "ui"),
)
IMPORT = re.compile(r'^(?:import|export) (?:[^"]*? from )?"(\.[^"]+\.js)";$', re.M)


def imports(web: Path) -> dict[str, list[str]]:
    """Returns what each script imports, by their paths in the folder of the page."""
    found = {}
    for script in sorted(web.rglob("*.js")):
        paths = [(script.parent / name).resolve() for name in IMPORT.findall(script.read_text())]
        found[script.relative_to(web).as_posix()] = [path.relative_to(web.resolve()).as_posix() for path in paths]
    return found


def place(script: str) -> int:
    """Returns the place of a script's folder among the folders."""
    return FOLDERS.index(script.rpartition("/")[0])


def upward(web: Path) -> list[str]:
    """Returns the imports from a later folder, each in a line."""
    return [f"{one} {other}" for one, others in imports(web).items() for other in others if place(other) > place(one)]


def knots(web: Path) -> list[set[str]]:
    """Returns the scripts that import each other in a cycle, those of a cycle together."""
    direct = imports(web)
    reached = {one: set(others) for one, others in direct.items()}
    for between in direct:
        for found in reached.values():
            if between in found:
                found |= reached[between]
    inside = {one: frozenset(other for other in found if one in reached[other]) for one, found in reached.items() if one in found}
    return [set(knot) for knot in sorted(set(inside.values()), key=len)]


def test_no_script_imports_from_a_later_folder() -> None:
    """No import points upward."""
    assert upward(WEB) == []


def test_no_scripts_import_each_other() -> None:
    """There is no cycle of imports, also inside a folder."""
    assert knots(WEB) == []


def test_an_import_that_points_upward_is_found(tmp_path: Path) -> None:
    """One more import from a later folder is found, and so is the cycle that it makes."""
    shutil.copytree(WEB, tmp_path / "web")
    script = tmp_path / "web/formats/states.js"
    script.write_text(f'{script.read_text()}import "../engine/library.js";\n')
    assert upward(tmp_path / "web") == ["formats/states.js engine/library.js"]
    assert any({"formats/states.js", "engine/library.js"} <= knot for knot in knots(tmp_path / "web"))
