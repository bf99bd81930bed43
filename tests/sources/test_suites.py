"""The parts that tests/run starts: how their arguments choose tests; and what tests/alongside says of what it runs."""

import ast
import shutil
from importlib.machinery import SourceFileLoader
from importlib.util import module_from_spec, spec_from_loader
from pathlib import Path
from types import ModuleType

import pytest

from tests.support.parts import PROGRAMS, SCRIPTS, SUITES, page_words
from tests.support.suites import chosen, processes
from tests.tools.samples import TOP, run

TOOLS = TOP / "tests/tools"
DIFF = str(TOOLS / "test_diff.py")
PARTS_OF_GATE = ("programs", "library", "page", "tools")
STUBS = ("tests/refused-growth", "tests/loop-cost", "tests/run", "./galluspa")
COMMANDS = (
    *("tests/refused-growth", "tests/loop-cost", "./galluspa build-library --as-built"),
    *(f"tests/run {part}" for part in PARTS_OF_GATE),
)


@pytest.mark.parametrize(
    ("arguments", "wanted"),
    [
        ([], [str(TOOLS)]),
        (["test_diff"], [DIFF]),
        (["diff"], [DIFF]),
        (["test_diff.DiffTest.test_helps", "-x"], [f"{DIFF}::DiffTest::test_helps", "-x"]),
        (["-k", "test_diff"], ["-k", "test_diff", str(TOOLS)]),
        (["-n", "0", "test_diff"], ["-n", "0", DIFF]),
        (["test_none"], ["test_none", str(TOOLS)]),
    ],
)
def test_names_choose_tests(arguments: list[str], wanted: list[str]) -> None:
    """A file goes by its name, and the value of an option is no name."""
    assert chosen(TOOLS, arguments) == wanted


@pytest.mark.parametrize(
    ("arguments", "wanted"),
    [
        ([], ["-n", "4", "--dist", "loadfile"]),
        (["-k", "x"], ["-n", "4", "--dist", "loadfile"]),
        (["-n", "0"], []),
        (["-s"], []),
        (["-n2"], []),
    ],
)
def test_processes(arguments: list[str], wanted: list[str]) -> None:
    """Tests run side by side, unless an argument says otherwise or their output is to be seen."""
    assert processes(arguments, 4, "loadfile") == wanted


def script(name: str) -> ModuleType:
    """Returns a script of tests/ as a module."""
    spec = spec_from_loader(name, SourceFileLoader(name, str(TOP / "tests" / name)))
    assert spec and spec.loader
    module = module_from_spec(spec)
    spec.loader.exec_module(module)
    return module


def test_a_module_of_the_page_is_one_word() -> None:
    """Pytest gets a file in one word with its option."""
    assert page_words(["--module", "page.wasm", "timeline", "-k", "kept"]) == ["--module=page.wasm", "timeline", "-k", "kept"]


def test_each_part_is_listed_and_there() -> None:
    """Without a name the parts are listed, and a name that is none of theirs is refused; a folder or a script of tests/ is each."""
    ran, listed = run([TOP / "tests/run", "nothing"]), run([TOP / "tests/run"]).output.decode()
    assert (ran.status, ran.errors.startswith("tests/run: nothing is none of sources, ")) == (1, True)
    names = [*SUITES, PROGRAMS, *SCRIPTS]
    assert [line.split()[0] for line in listed.splitlines() if line.startswith("  ")] == names
    assert [name for name in names if not (TOP / "tests" / name).exists()] == []


def test_tests_share_no_tests() -> None:
    """A test of the page imports what drives the page, and no other test: what two of them need is in tests/page/driver."""
    files = sorted((TOP / "tests/page").rglob("*.py"))
    tests = {f"tests.page.{path.stem}" for path in files if path.parent.name == "page"}
    assert len(tests) > 10
    assert [
        (path.name, name) for path in files for name in imported(path) if name in tests or name.startswith("tests.tools.test_")
    ] == []


def imported(path: Path) -> set[str]:
    """Returns the modules that a file of Python imports."""
    nodes = list(ast.walk(ast.parse(path.read_text())))
    plain = {name.name for node in nodes if isinstance(node, ast.Import) for name in node.names}
    return plain | {
        name
        for node in nodes
        if isinstance(node, ast.ImportFrom)
        for name in (node.module or "", *(f"{node.module}.{it.name}" for it in node.names))
    }


def alongside(folder: Path, lines: str) -> tuple[list[str], int]:
    """Returns what tests/alongside prints beside these lines of `rt ci`, over scripts that only print their names; and its
    status."""
    for name in STUBS:
        path = folder / name
        path.parent.mkdir(exist_ok=True)
        path.write_text(f"#!/bin/sh\necho out of {name} $*\n")
        path.chmod(0o755)
    shutil.copy(TOP / "tests/alongside", folder / "tests/alongside")
    ran = run([folder / "tests/alongside"], lines.encode())
    return ran.output.decode().splitlines(), ran.status


def test_what_runs_alongside_is_said(tmp_path: Path) -> None:
    """First all that will run and after what, then where each begins and ends, and at the end what each printed."""
    crates = ("risc_search", "oberon_answers", "oberon_replay", "refused_growth", "galluspa")
    said, status = alongside(tmp_path, "".join(f"rt: {name} proved\n" for name in crates) + "3 passed, 0 failed\n")
    assert status == 0
    assert said[:2] == [
        "alongside: once oberon_replay and refused_growth are built: tests/refused-growth",
        "alongside: once galluspa is built (and, after the first, oberon_replay): "
        "./galluspa build-library --as-built, tests/loop-cost, tests/run page; "
        "then, side by side, tests/run programs, tests/run library, tests/run tools",
    ]
    for command in COMMANDS:
        begins = said.index(f"alongside: {command} begins")
        ends = next(at for at, line in enumerate(said) if line.startswith(f"alongside: {command}: exit status 0, "))
        assert begins < ends < said.index(f"out of {command}")


def test_what_does_not_run_alongside_is_not_said(tmp_path: Path) -> None:
    """A script whose crates were not built does not begin, and a gate that fails ends with status 0, for `pipefail`."""
    said, status = alongside(tmp_path, "rt: oberon_replay proved\n1 passed, 1 failed\n")
    assert status == 0
    assert [line for line in said if line.endswith(" begins")] == []


def test_what_waits_for_more_crates_is_not_begun_without_them(tmp_path: Path) -> None:
    """After the library is built, the tests wait for the program, too; a gate that ends without it ends them, and one that says that all
    is well is not believed."""
    crates = ("risc_search", "oberon_answers", "galluspa", "refused_growth")
    lines = "".join(f"rt: {name} proved\n" for name in crates)
    said, status = alongside(tmp_path, f"{lines}3 passed, 1 failed\n")
    assert status == 0
    assert "alongside: tests/loop-cost begins" not in said
    said, status = alongside(tmp_path, f"{lines}3 passed, 0 failed\n")
    assert status == 1
    assert "alongside: tests/loop-cost begins" not in said


@pytest.mark.parametrize(
    ("failures", "ended", "passes", "status"),
    [(1, 1, True, 0), (5, 1, True, 0), (6, 1, True, 1), (1, 1, False, 1), (1, 2, True, 1)],
)
def test_a_few_failed_tests_run_again_alone(tmp_path: Path, failures: int, ended: int, passes: bool, status: int) -> None:
    """Tests of a suite that failed beside all else run again, and are named if they pass; not many of them, not if the suite was cut short,
    and not those of a script."""
    crates = ("risc_search", "oberon_answers", "oberon_replay", "refused_growth", "galluspa")
    lines = "".join(f"rt: {name} proved\n" for name in crates) + "3 passed, 0 failed\n"
    alongside(tmp_path, lines)
    names = [f"tests/page/test_use.py::test_use[part of {at}]" for at in range(failures)]
    summary = "".join(f"echo 'FAILED {name} - AssertionError: it did not come'\n" for name in names)
    (tmp_path / "tests/run").write_text(
        f"#!/bin/sh\n[ $1 = page ] || exit 0\ncase $* in *--last-failed*) exit {0 if passes else 1};; esac\n{summary}exit {ended}\n"
    )
    ran = run([tmp_path / "tests/alongside"], lines.encode())
    said = ran.output.decode().splitlines()
    assert ran.status == status
    if status:
        assert said[-1].startswith(f"alongside: failed: tests/run page: exit status {ended}, ")
    else:
        assert said[-1] == f"alongside: passed only when run again, alone: {', '.join(names)}"
    (tmp_path / "tests/loop-cost").write_text("#!/bin/sh\nexit 1\n")
    assert run([tmp_path / "tests/alongside"], lines.encode()).status == 1


def test_mutants_begin_once_the_crates_below_are_built(tmp_path: Path) -> None:
    """The mutants of a crate are tried beside its own proof; libraries of the kit are built already."""
    for crate in ("low", "middle", "up"):
        (tmp_path / f"crates/{crate}/mutants").mkdir(parents=True)
    (tmp_path / "crates.txt").write_text("low: hex\nmiddle may_wait=1: low\nup: middle clap\n")
    alongside(tmp_path, "1 passed, 1 failed\n")
    stub = tmp_path / "tests/mutants"
    stub.write_text("#!/bin/sh\n")
    stub.chmod(0o755)
    said = run([tmp_path / "tests/alongside"], b"rt: low proved\n1 passed, 1 failed\n").output.decode().splitlines()
    assert [line for line in said if line.startswith("alongside: once") and "mutants" in line] == [
        "alongside: once low is built: tests/mutants middle",
        "alongside: once middle is built: tests/mutants up",
    ]
    assert "alongside: at the first proof: tests/mutants low" in said
    assert {line for line in said if line.endswith("begins")} <= {
        f"alongside: tests/mutants {it} begins" for it in ("low", "middle")
    }
