"""What tests/mutants makes of mutants and of what the prover says."""

import re
from collections.abc import Callable, Iterable, Sequence
from pathlib import Path
from types import ModuleType, SimpleNamespace

import pytest

from tests.sources.test_suites import script

SOURCE = """/// Is low.
#[inline(always)]
fn low() -> u32
    ensures one { result ≡ 1 }
{
    1
}

fn high() -> u32 { low() + 2 }

fn loose() -> u32 {
    3
}

impl Display for Low {
    fn fmt(&self) -> u32 {
        5
    }
}

const LIMIT: u32 = 4;
"""
MUTANTS = {
    "low.two": ("    1", "    2"),
    "low.nine": ("    1", "    9"),
    "high.three": ("+ 2", "+ 3"),
    "loose.four": ("    3", "    4"),
    "LIMIT.five": ("= 4", "= 5"),
    "Low.fmt.six": ("        5", "        6"),
    "LIMIT.same": ("LIMIT: u32 = 4", "MAX: u32 = 4"),
    "low.gone": ("    one()", "    2"),
}
# What the prover says of a function with a hole for its proof.
HOLE = "depends on a hole in `Rattle.it.proofs.low.Proof.low_spec`"
# What it says of a text that does not compile, after its place.
UNREAD = "error[unknown-name]: no `x` here"
# Which function has to be refused, of those that are tried alone.
REFUSED = {"LIMIT.five": "high", "LIMIT.same": "high", "Low.fmt.six": "LowDisplay::fmt"}
Told = Callable[[str], str]
Checked = Callable[[str, dict[str, str | None], Iterable[str]], object]


def prover(mutants: ModuleType, checks: list[dict[str, str | None]], told: Told, errors: str) -> Checked:
    """Returns a prover that notes the texts that it gets. Of a function that it is asked for it says what `told` says by its name, of others
    that they have holes, and `errors` before; if that is UNREAD, an error in the function is all that it says."""

    def checked(_crate: str, texts: dict[str, str | None], functions: Iterable[str]) -> object:
        checks.append(texts)
        text = texts["src/lib.rt"] or ""
        asked = [*functions]
        names = [*re.findall(r"fn (\w+)", text), *(it for it in asked if "::" in it)]
        for name in filter(lambda it: it in asked and told(it) == UNREAD, names):
            line = text[: text.index(f"fn {name}(")].count("\n") + 2
            return mutants.Check(f"src/lib.rt:{line}:5: {UNREAD}\n", 1.0)
        lines = [f"fn it::{name}: {told(name) if name in asked else HOLE}" for name in names]
        return mutants.Check("\n".join([errors, *lines, f"only={len(asked)} holes=1", ""]), 1.0)

    return checked


def tried(
    folder: Path,
    names: Sequence[str],
    monkeypatch: pytest.MonkeyPatch,
    told: Told,
    errors: str = "",
    *,
    is_unchanged: bool = False,
    checks: list[dict[str, str | None]] | None = None,
) -> tuple[bool, list[str], list[dict[str, str | None]]]:
    """Returns whether all of these mutants count as refused, the lines about them, and the texts of each check."""
    mutants, checks = script("mutants"), [] if checks is None else checks
    (folder / "crates/it/src").mkdir(parents=True)
    (folder / "crates/it/src/lib.rt").write_text(SOURCE)
    (folder / "crates/it/proofs/low").mkdir(parents=True)
    (folder / "crates/it/proofs/low/Answers.antt").write_text(
        "use Rattle.it.proofs.low.Goals as goal\nuse Rattle.it.proofs.lower\n"
    )
    (folder / "crates/it/mutants").mkdir()
    for name in names:
        old, new = MUTANTS[name]
        alone = f"refused: {REFUSED[name]}\n" if name in REFUSED else ""
        (folder / f"crates/it/mutants/{name}.edit").write_text(f"{alone}file: src/lib.rt\nold: {old}\nnew: {new}\n")
    monkeypatch.setattr(mutants, "TOP", folder)
    monkeypatch.setattr(mutants, "checked", prover(mutants, checks, told, errors))
    trial = mutants.Trial("it", mutants.chosen([])["it"])
    is_well: bool = trial.run_unchanged() if is_unchanged else trial.run()
    return is_well, trial.lines, checks


def refused(name: str) -> str:
    """Says what the prover says of a function with a goal that is not proved."""
    return f"no proof: expected answers in ./proofs/{name}/Answers.antt; `search` did not prove `returns`"


def stands_on(name: str) -> str:
    """Says what the prover says of a function with an answer that is refused, and a callee with a hole."""
    answer = f"`Rattle.it.proofs.{name.replace('::', '.')}.Answers.returns`"
    return f"not proved; it stands on {answer}, which antt refuses; it calls `it::low`, which is not proved"


def test_each_mutant_is_in_its_functions_place(tmp_path: Path, monkeypatch: pytest.MonkeyPatch) -> None:
    """One check tries those of functions, and takes a hole for what each other function's proof is; those of a constant and of a trait's
    method are tried alone."""
    is_well, lines, checks = tried(tmp_path, ["high.three", "LIMIT.five", "Low.fmt.six"], monkeypatch, stands_on)
    assert is_well
    assert lines == [
        "mutants: it/high.three: refused, as it must be",
        "mutants: it/LIMIT.five: refused, as it must be (alone)",
        "mutants: it/Low.fmt.six: refused, as it must be (alone)",
        "mutants: it: 3 of 3 refused, in 3 checks of 3 processor seconds",
    ]
    text = checks[0]["src/lib.rt"] or ""
    stub = "/// Is low.\n#[inline(always)]\nfn low() -> u32\n    ensures one { result ≡ 1 }\n{\n    unreachable!()\n}\n"
    assert text.startswith(f"{stub}\nfn high() -> u32 {{ low() + 3 }}\n\nfn loose() -> u32 {{\n    unreachable!()\n}}\n")
    hole = "use Rattle.it.proofs.low.Statement.{statement}\n\npub low_spec : {M : Type 1} → statement M\nlow_spec = ?\n"
    assert checks[0]["proofs/low/Proof.antt"] == hole and "proofs/high/Proof.antt" not in checks[0]
    alone = checks[1]["src/lib.rt"] or ""
    assert "= 5" in alone and "fn high() -> u32 { low() + 2 }" in alone and "proofs/high/Proof.antt" not in checks[1]


def test_several_mutants_of_a_function_are_copies_beside_it(tmp_path: Path, monkeypatch: pytest.MonkeyPatch) -> None:
    """Each has its contract and its answers, and the function has to be admitted as it stands; a mutant may be what it calls."""
    names = ["low.two", "low.nine", "high.three"]
    for said in (HOLE, "not proved; it calls `it::high`, which is not proved", stands_on("high")):
        folder = tmp_path / str(len(said))
        is_well, lines, checks = tried(folder, names, monkeypatch, lambda it: said if it == "low" else stands_on(it))
        assert is_well and lines[-1] == "mutants: it: 3 of 3 refused, in 1 checks of 1 processor seconds"
        text, form = (
            checks[0]["src/lib.rt"] or "",
            "#[inline(always)]\nfn {}() -> u32\n    ensures one {{ result ≡ 1 }}\n{{\n    {}\n}}",
        )
        bodies = (form.format(*it) for it in (("low", 1), ("low_mutant_0", 9), ("low_mutant_1", 2)))
        assert text.startswith("\n\n".join(f"/// Is low.\n{it}" for it in bodies) + "\n\nfn high() -> u32 { low() + 3 }\n")
        answers = "use Rattle.it.proofs.low_mutant_1.Goals as goal\nuse Rattle.it.proofs.lower\n"
        assert checks[0]["proofs/low_mutant_1/Answers.antt"] == answers and "proofs/low/Proof.antt" not in checks[0]


def test_a_mutant_that_another_one_hides_is_tried_again(tmp_path: Path, monkeypatch: pytest.MonkeyPatch) -> None:
    """The prover says nothing of a function that calls one without a proof; if it says so of the rest, that fails."""
    checks, hidden = list[dict[str, str | None]](), "no proof: it calls `it::low`, which is not proved"

    def told(name: str) -> str:
        return refused(name) if name == "low" or len(checks) == 2 else hidden

    is_well, lines, _ = tried(tmp_path / "once", ["low.two", "high.three"], monkeypatch, told, checks=checks)
    assert is_well and lines[-1] == "mutants: it: 2 of 2 refused, in 2 checks of 2 processor seconds"
    assert ["fn high() -> u32 { low() + 3 }" in (it["src/lib.rt"] or "") for it in checks] == [True, True]
    assert ["    2\n" in (it["src/lib.rt"] or "") for it in checks] == [True, False]
    is_well, lines, _ = tried(tmp_path / "ever", ["high.three"], monkeypatch, lambda _: hidden)
    assert not is_well and lines[0] == f"mutants: it/high.three: FAILED: it is not refused for its own proof: {hidden}"


def test_the_functions_as_they_are(tmp_path: Path, monkeypatch: pytest.MonkeyPatch) -> None:
    """Each has to be admitted among the same holes."""
    is_well, lines, checks = tried(
        tmp_path / "well", ["low.two", "low.nine", "LIMIT.five"], monkeypatch, lambda _: HOLE, is_unchanged=True
    )
    assert is_well and lines == ["mutants: it: 1 functions as they are, in 1 checks of 1 processor seconds"]
    assert (checks[0]["src/lib.rt"] or "").count("unreachable!()") == 1
    for said in (refused("high"), "not proved; it calls `it::low`, which is not proved"):
        folder = tmp_path / str(len(said))
        is_well, lines, _ = tried(folder, ["high.three"], monkeypatch, lambda _: said, is_unchanged=True)
        assert not is_well and lines[0] == f"mutants: it: FAILED: refused as it stands: it::high: {said}"


def test_a_mutant_that_stays_proved_fails(tmp_path: Path, monkeypatch: pytest.MonkeyPatch) -> None:
    """It does so beside others that are refused, with and without callees that have holes."""
    for said in ("no holes", "depends on a hole in `Rattle.it.proofs.low.Proof.low_spec`"):
        is_well, lines, _ = tried(
            tmp_path / said[:2],
            ["low.two", "loose.four"],
            monkeypatch,
            lambda name: said if name.startswith("loose") else stands_on(name),
        )
        assert not is_well
        assert lines[:2] == [f"mutants: it/loose.four: FAILED: it is proved: {said}", "mutants: it/low.two: refused, as it must be"]


def test_a_mutant_that_is_tried_alone_and_stays_proved_fails(tmp_path: Path, monkeypatch: pytest.MonkeyPatch) -> None:
    """So does one of a constant that no contract names."""
    is_well, lines, _ = tried(tmp_path, ["LIMIT.same"], monkeypatch, lambda _: "no holes")
    assert not is_well
    assert lines[0] == "mutants: it/LIMIT.same: FAILED: it is proved: no holes"


def test_a_mutant_of_no_function_names_what_is_refused(tmp_path: Path, monkeypatch: pytest.MonkeyPatch) -> None:
    """Else nothing says which contract it breaks."""
    monkeypatch.delitem(REFUSED, "LIMIT.five")
    is_well, lines, checks = tried(tmp_path, ["LIMIT.five"], monkeypatch, refused)
    assert not is_well and not checks
    assert lines[0].startswith("mutants: it/LIMIT.five: FAILED: it changes no function alone, and no line `refused:` names")


def test_a_mutant_that_does_not_compile_fails(tmp_path: Path, monkeypatch: pytest.MonkeyPatch) -> None:
    """The others are tried in a further check."""
    is_well, lines, checks = tried(
        tmp_path, ["low.two", "loose.four"], monkeypatch, lambda name: UNREAD if name.startswith("loose") else refused(name)
    )
    assert not is_well
    assert lines == [
        "mutants: it/loose.four: FAILED: it does not compile, so no contract was tried: no `x` here",
        "mutants: it/low.two: refused, as it must be",
        "mutants: it: 1 of 2 refused, in 2 checks of 2 processor seconds",
    ]
    assert ["    4\n" in (it["src/lib.rt"] or "") for it in checks] == [True, False]


def test_a_mutant_that_is_refused_for_a_callee_fails(tmp_path: Path, monkeypatch: pytest.MonkeyPatch) -> None:
    """Its own proof is not what was refused."""
    callee = "not proved; it calls `it::loose`, which is not proved"
    is_well, lines, _ = tried(tmp_path, ["low.two"], monkeypatch, lambda _: callee)
    assert not is_well
    assert lines[0] == f"mutants: it/low.two: FAILED: it is not refused for its own proof: {callee}"


def test_a_mutant_whose_answers_name_what_it_takes_away_fails(tmp_path: Path, monkeypatch: pytest.MonkeyPatch) -> None:
    """But it counts as refused if another of its answers is false."""
    missing = "./proofs/low/Answers.antt:5:22: error: `returns`: record `Start` has no field `low-step`"
    false = "./proofs/low/Answers.antt:5:9: error: `returns`: `rw` has no last argument"
    is_well, lines, _ = tried(tmp_path / "missing", ["low.two"], monkeypatch, stands_on, missing)
    assert not is_well
    assert lines[0].startswith("mutants: it/low.two: FAILED: its answers name what it takes away, so no contract was tried: ")
    is_well, lines, _ = tried(tmp_path / "false", ["low.two"], monkeypatch, stands_on, f"{missing}\n{false}")
    assert is_well and lines[0] == "mutants: it/low.two: refused, as it must be"


def test_a_mutant_whose_old_text_is_gone_fails(tmp_path: Path, monkeypatch: pytest.MonkeyPatch) -> None:
    """Nothing was changed then."""
    is_well, lines, _ = tried(tmp_path, ["low.gone", "low.two"], monkeypatch, refused)
    assert not is_well
    assert lines[1] == "mutants: it/low.gone: FAILED: a text that it replaces does not occur exactly once"


def test_a_function_that_is_not_proved_fails(tmp_path: Path, monkeypatch: pytest.MonkeyPatch) -> None:
    """A refusal beside it says little, be it of another function or of the same one as it stands."""
    is_well, lines, _ = tried(
        tmp_path / "other", ["low.two"], monkeypatch, lambda it: refused(it) + "\nfn it::other: no proof: `x`"
    )
    assert not is_well and lines[1] == "mutants: it: FAILED: refused as it stands: it::other: no proof: `x`"
    is_well, lines, _ = tried(tmp_path / "same", ["low.two", "low.nine"], monkeypatch, refused)
    assert not is_well and lines[2].startswith("mutants: it: FAILED: refused as it stands: it::low: no proof")


def test_an_unknown_name_is_refused() -> None:
    """So is an unknown mutant of a crate that has some."""
    for word in ("missing", "risc_core/missing"):
        with pytest.raises(SystemExit, match="unknown mutant: "):
            script("mutants").chosen([word])


def test_kept(tmp_path: Path, monkeypatch: pytest.MonkeyPatch, capsys: pytest.CaptureFixture[str]) -> None:
    """What was refused once is tried again only after a change of what was read for it, with `--anew`, or after a failure."""
    mutants, folder, tried = script("mutants"), tmp_path / "top", list[list[str]]()
    is_refused = True

    def run(trial: SimpleNamespace) -> bool:
        tried.append([it.name for it in trial.mutants])
        trial.refused |= {it.name for it in trial.mutants} if is_refused else set()
        return is_refused

    edits = {
        f"mutants/{name}.edit": "file: src/lib.rt\nold: {}\nnew: {}\n".format(*MUTANTS[name]) for name in ("loose.four", "low.two")
    }
    for name, text in {"src/lib.rt": SOURCE, **edits}.items():
        (folder / f"crates/it/{name}").parent.mkdir(parents=True, exist_ok=True)
        (folder / f"crates/it/{name}").write_text(text)
    (folder / "crates/under/specs").mkdir(parents=True)
    (folder / "crates.txt").write_text("under:\nit: under hex\n")
    monkeypatch.setattr(mutants, "TOP", folder)
    monkeypatch.setattr(mutants.Trial, "run", run)
    monkeypatch.setattr(mutants, "tried", lambda _, run: run())
    monkeypatch.setenv("XDG_CACHE_HOME", str(tmp_path / "cache"))
    monkeypatch.setattr(mutants.subprocess, "run", lambda *_, **__: SimpleNamespace(stdout=b"a kit\n"))
    both = ["loose.four", "low.two"]
    assert [mutants.main([]), mutants.main(["it"]), mutants.main(["it/low.two"])] == [0, 0, 0] and tried == [both]
    assert "2 of 2 refused by earlier runs on this machine" in capsys.readouterr().out
    assert mutants.main(["--anew"]) == 0 and tried == [both] * 2
    (folder / "crates/under/specs/Lib.antt").write_text("pub mod Low\n")
    assert [mutants.main([]), mutants.main([])] == [0, 0] and tried == [both] * 3
    # A body is read for the mutants of its function alone, and a contract for all.
    (folder / "crates/it/src/lib.rt").write_text(SOURCE.replace("    3\n", "    7 - 4 + 0 * 3\n"))
    (folder / "crates/it/mutants/loose.four.edit").write_text("file: src/lib.rt\nold: 7 - 4\nnew: 7 - 3\n")
    assert [mutants.main([]), mutants.main([])] == [0, 0] and tried[3:] == [["loose.four"]]
    is_refused = False
    (folder / "crates/it/src/lib.rt").write_text(SOURCE.replace("result ≡ 1", "1 ≡ result"))
    (folder / "crates/it/mutants/loose.four.edit").write_text(edits["mutants/loose.four.edit"])
    assert [mutants.main([]), mutants.main([])] == [1, 1] and tried[4:] == [both] * 2
