"""The folders of tools/galluspa are layers: a module imports from its own folder and from those before it, and never in a circle."""

import ast
import re
from collections.abc import Iterable, Iterator, Mapping
from pathlib import Path

from tests.tools.samples import TOOLS

PACKAGE = "galluspa"
# The folders, each of which uses those before it, also what the package itself offers, and the plugin of pytest; then its command.
LAYERS = (
    "process",
    "formats",
    "assembler",
    "engine",
    "analysis",
    "suites",
    "emulators",
    "debugger",
    "output",
    "commands",
    "packaging",
    "interface",
    "testing",
    "__init__",
    "__main__",
)
Modules = Mapping[str, Path]


def modules_of(folder: Path) -> dict[str, Path]:
    """Returns the modules of a package by their names, without that of the package; a folder goes by its __init__."""
    paths = {path.relative_to(folder).with_suffix(""): path for path in sorted(folder.rglob("*.py"))}
    return {".".join(it.parts): path for it, path in paths.items()}


def imports_of(path: Path, there: Modules) -> set[str]:
    """Returns which modules of the package a module imports, also in a function or for types alone."""
    return set(_imported(ast.walk(ast.parse(path.read_text())), there))


def _imported(nodes: Iterable[ast.AST], there: Modules) -> Iterator[str]:
    for node in nodes:
        if isinstance(node, ast.Import):
            names = [it.name for it in node.names]
        elif isinstance(node, ast.ImportFrom):
            assert not node.level, "imports are absolute"
            names = [f"{node.module}.{it.name}" for it in node.names]
        else:
            continue
        yield from (_module(name, there) for name in names if name.split(".")[0] == PACKAGE)


def _module(name: str, there: Modules) -> str:
    """Returns the module that a name is of or in."""
    inside = name.split(".")[1:]
    for parts in (inside, inside[:-1]):
        for module in (".".join(parts), ".".join([*parts, "__init__"])):
            if module in there:
                return module
    return "__init__"


def upward(imports: Mapping[str, set[str]]) -> list[str]:
    """Returns the imports from a later layer, a line for each."""
    rank = {layer: at for at, layer in enumerate(LAYERS)}

    def layer(module: str) -> int:
        return rank[module.split(".")[0]]

    return [f"{one} imports {it}" for one in imports for it in sorted(imports[one]) if layer(it) > layer(one)]


def in_circles(imports: Mapping[str, set[str]]) -> list[str]:
    """Returns the modules whose imports lead back to them, and those between: none, if no import is in a circle."""
    left = {module: set(of) for module, of in imports.items()}
    while ends := left.keys() - {it for it in left if left[it]} | left.keys() - set().union(*left.values()):
        left = {module: of - ends for module, of in left.items() if module not in ends}
    return sorted(left)


def tree(folder: Path, **sources: str) -> dict[str, set[str]]:
    """Returns the imports in a package with these sources, by names of modules with two underscores between folder and module."""
    for name, source in sources.items():
        path = folder / f"{name.replace('__', '/')}.py"
        path.parent.mkdir(exist_ok=True)
        path.write_text(source)
    there = modules_of(folder)
    return {module: imports_of(path, there) for module, path in there.items()}


def test_imports_lead_to_layers_before() -> None:
    imports = tree(TOOLS / PACKAGE)
    assert {module.split(".")[0] for module in imports} == set(LAYERS)
    assert sum(map(len, imports.values())) > 500
    assert upward(imports) == []


def test_no_imports_are_in_a_circle() -> None:
    assert in_circles(tree(TOOLS / PACKAGE)) == []


def test_each_module_is_in_the_readme() -> None:
    """tools/README.md says what each module does; the subcommands, whose modules have their names, are in a list of their own."""
    told = set(re.findall(r"`(\w+\.py)`", (TOOLS / "README.md").read_text()))
    modules = {path.name for name, path in modules_of(TOOLS / PACKAGE).items() if not name.startswith("commands.")}
    assert modules - {"__init__.py"} - told == set()


def test_an_upward_import_is_found(tmp_path: Path) -> None:
    found = tree(
        tmp_path,
        formats__one="from galluspa.engine import two",
        engine__two="from galluspa.formats.one import it",
        engine__three="def it() -> None:\n    import galluspa.output.four",
        output__four="import galluspa.engine.two",
    )
    assert upward(found) == ["engine.three imports output.four", "formats.one imports engine.two"]


def test_a_circle_is_found(tmp_path: Path) -> None:
    found = tree(
        tmp_path,
        formats__one="import galluspa.formats.two",
        formats__two="from galluspa.formats.three import it",
        formats__three="from galluspa.formats import one",
        formats__four="from galluspa.formats import one",
        formats__five="",
    )
    assert in_circles(found) == ["formats.one", "formats.three", "formats.two"]
