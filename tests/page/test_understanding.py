"""Where values come from: what the page's workers answer, against the tools."""

import json
import random
from collections.abc import Sequence
from dataclasses import dataclass
from pathlib import Path
from typing import Any

from galluspa.analysis.origins import Bytes, Dot, Flags, Register, Written, origins
from galluspa.analysis.origintexts import objects
from galluspa.engine.past import Past
from galluspa.analysis.writers import Writers, part_asked, value_now
from galluspa.analysis.addresses import moment_of
from galluspa.engine.library import Library
from galluspa.engine.tracing import Run
from galluspa.formats import recording
from galluspa.formats.devicewords import DEVICES_AT, LEDS_AT
from galluspa.formats.instructions import mnemonic
from galluspa.formats.symbols import Symbols
from tests.page.driver.pastprograms import make_programs
from tests.page.driver.node import ran_by_node
from tests.page.driver.desk import PAGE, expect
from tests.programs import randomly
from tests.tools.samples import EXAMPLES, TOP, record, tool

RANDOM_PROGRAMS, QUESTIONS = 25, 8
LEDS = Bytes(LEDS_AT)
ENDS = {"constant", "initial", "taken", "elsewhere", "unfollowed"}
# Of the examples: the values that are asked about, each before a count.
OF_EXAMPLES: dict[str, Sequence[tuple[str, int]]] = {
    "face": (("dot 600,219", 9_000_000), ("R13", 4_838_732), ("flags", 8_000_000), ("0xE7F00", 9_000_000)),
    "snake": (("R9", 3_000_000), ("LEDs", 6_000_000), ("dot 500,400", 6_000_000)),
    "keys": (("R0", 100), ("LEDs", 100), ("flags", 60)),
    "clock": (("R1", 100), ("R2", 61)),
    "lines": (("dot 300,300", 3209), ("R3", 3000)),
}


@dataclass(frozen=True)
class Question:
    """What is asked: where a part's value before a count comes from, by so many links at most."""

    part: Written
    before: int
    links: int

    def for_page(self) -> dict[str, object]:
        """Returns the question as the page asks it."""
        return {**about(self.part), "before": self.before, "links": self.links}


def about(part: Written) -> dict[str, object]:
    """Returns what the page asks about, of a part as the tools have it."""
    match part:
        case Register(name):
            return {"register": 16 if name == "H" else int(name[1:])}
        case Flags():
            return {"register": 17}
        case Dot(address, bit):
            return {"address": address + bit // 8, "bit": bit % 8}
        case Bytes(address, mask) if address < DEVICES_AT:
            return {"address": address, "mask": sum(0xFF << 8 * at for at in range(4) if mask >> at & 1)}
    return {"device": "LEDs"}


def as_tool(it: dict[str, Any]) -> dict[str, object]:
    """Returns a value of the page's answer as `galluspa why --json` prints it."""
    found: dict[str, object] = {"part": part_as_tool(it["part"]), "value": it["value"]}
    if it["role"]:
        found["role"] = it["role"]
    if step := it["step"]:
        found |= {"count": step["count"], "PC": step["pc"], "word": step["word"], "instruction": mnemonic(step["word"])}
    if it["end"]:
        found["end"] = it["end"]
    if it["input"]:
        found["input"] = it["input"]
    return {**found, "from": [as_tool(one) for one in it["from"]]}


def part_as_tool(part: dict[str, Any] | None) -> object:
    """Returns a part of the page's answer as the command prints it."""
    match part:
        case None:
            return None
        case {"register": name} | {"device": name}:
            return name
        case {"flags": names}:
            return {"flags": names}
        case {"address": address, "bit": bit}:
            row, left = divmod(address - 950_016, 128)
            return {"dot": [8 * left + bit, row]}
    return {"address": part["address"], "bytes": [at for at in range(4) if part["mask"] >> at & 1]}


def run_to(session: dict[str, Any], end: int) -> Past:
    """Returns the run of a session up to a count."""
    read = recording.read(record({**session, "checkpoints": [end]}))
    return Past(Run(Library.find(None), read, range(len(read.checkpoints))))


def answer(run: Past, asked: Question) -> list[dict[str, object]]:
    """Returns what the tools answer, as the command prints it."""
    value = value_now(asked.part, moment_of(run.machine(asked.before)))
    return objects(origins(Writers(run), asked.part, value, asked.before, asked.links), Symbols())


@dataclass(frozen=True)
class Asked:
    """A program that both are asked about: its session, how far it runs, and whether the page searches it in small pieces."""

    name: str
    session: dict[str, Any]
    end: int
    run: Past
    questions: list[Question]
    is_small: bool = False

    def for_page(self) -> dict[str, object]:
        """Returns the program and the questions as the page's script reads them."""
        questions = [it.for_page() for it in self.questions]
        return {"name": self.name, "session": self.session, "end": self.end, "isSmall": self.is_small, "questions": questions}


def random_case(seed: int) -> Asked:
    """Returns a random program, with questions about it."""
    case, rng = randomly.case(seed), random.Random(seed)
    session = json.loads(case.session.text())
    run = run_to(session, case.counts)
    places = {step.stored_at for step in run.steps(run.machine(0), case.counts)}
    stored = sorted(at for at in places if at is not None and at < DEVICES_AT)
    questions = []
    for _ in range(QUESTIONS):
        parts: list[Written] = [Register(f"R{rng.randrange(16)}"), Register("H"), Flags("NZCV"), LEDS]
        parts += [Bytes(rng.choice(stored or [0x8000]), rng.choice((15, 1, 8, 6)))]
        questions.append(Question(rng.choice(parts), rng.randint(1, case.counts), rng.choice((1, 20, 200))))
    return Asked(f"random-{seed}", session, case.counts, run, questions, is_small=seed % 2 == 1)


def example(name: str, wanted: Sequence[tuple[str, int]]) -> Asked:
    """Returns an example, with questions about it."""
    session, end = json.loads((EXAMPLES / f"{name}.json").read_bytes()), max(before for _, before in wanted)
    run = run_to(session, end)
    parts = [(part_asked(text, moment_of(run.machine(before)), Symbols()), before) for text, before in wanted]
    return Asked(name, session, end, run, [Question(part, before, links) for part, before in parts for links in (3, 20)])


def test_understanding(tmp_path: Path) -> None:
    """The page's links are those of the tools, for random programs and the examples."""
    make_programs(tmp_path)
    asked = [*map(random_case, range(RANDOM_PROGRAMS)), *(example(*it) for it in OF_EXAMPLES.items())]
    (tmp_path / "cases.json").write_text(json.dumps([it.for_page() for it in asked]))
    ran = ran_by_node(TOP / "tests/page/understanding.js", PAGE, tmp_path)
    lines = [line.split(" ", 3) for line in ran.splitlines()]
    found = {(line[1], int(line[2])): json.loads(line[3]) for line in lines if line[0] == "values"}
    answers = ""
    for it in asked:
        for number, question in enumerate(it.questions):
            own, wanted = [as_tool(value) for value in found[it.name, number]], answer(it.run, question)
            expect(f"where {question} of {it.name} comes from", own, wanted)
            answers += json.dumps(wanted)
    compare_command(tmp_path, found)
    links, ends = answers.count('"instruction"'), {end for end in ENDS if f'"end": "{end}"' in answers}
    expect("whether there are many links, and how they end", (links > 1000, ends), (True, ENDS))


def compare_command(folder: Path, found: dict[tuple[str, int], Any]) -> None:
    """The command prints for a dot of the face what the page answers."""
    text, before = OF_EXAMPLES["face"][0]
    path = folder / "face-asked.orsr"
    path.write_bytes((EXAMPLES / "face.orsr").read_bytes())
    ran = tool("why", path, "--at", before, "--links", 20, "--json", text)
    expect("the status of galluspa why", (ran.status, ran.errors), (0, ""))
    expect("what the command prints", [as_tool(it) for it in found["face", 1]], json.loads(ran.output)["values"])
