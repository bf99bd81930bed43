"""What tests/allocation-failures makes of bodies that answer that memory ran out, and received no such answer."""

from collections.abc import Mapping
from types import ModuleType

import pytest

from tests.sources.test_suites import script

CLAIM, EXTEND, PROFILE = "galluspa/src/claim.rt", "galluspa/src/extend.rt", "galluspa/src/profile.rt"
ANSWER, RECORDS = "galluspa/src/answer.rt", "galluspa/src/records.rt"
RECORDING, SINK, SERVICE = "oberon_answers/src/recording.rt", "risc_machine/src/sink.rt", "oberon_cli/src/service.rt"
CLAIMED = "        Ok(()) => DONE,\n        Err(_) => OUT_OF_MEMORY,\n"
CHECKED = "match check_in(alloc, Versions::WithDisk, recording) {\n        Ok(answer) => put(&answer, line, status),"
BEGUN = "        Ok(bytes) => put(&bytes, out, out_count),\n        Err(RangeOrMemory::Range) => OUT_OF_RANGE,\n"
READ = "        Ok(valid) => valid,\n"
# Bodies that make it up, by what is wrong: the file, and what is replaced by what.
FOOLING = {
    "a guard that names it": (CLAIM, READ, "        Ok(_) if at > OUT_OF_MEMORY as u32 => return OUT_OF_MEMORY,\n" + READ),
    "a guard that matches it": (CLAIM, READ, "        Ok(_) if matches!(at, OUT_OF_MEMORY) => return 3,\n" + READ),
    "a call that gets no number": (
        RECORDING,
        "Ok(session) => record_of(alloc, versions, &session)",
        'Ok(_) => refused_as(alloc, "session", None, "")',
    ),
    "a call that gets no number by a name": (
        RECORDING,
        "Ok(session) => record_of(alloc, versions, &session)",
        'Ok(_) => { let fault = None; refused_as(alloc, "session", fault, "") }',
    ),
    "an arm of a beginning": (EXTEND, BEGUN, BEGUN.replace("put(&bytes, out, out_count)", "OUT_OF_MEMORY")),
    "an arm of a profile": (PROFILE, "        Ok(()) => DONE,", "        Ok(()) => OUT_OF_MEMORY,"),
    "an arm of records": (RECORDS, "        Ok(()) => DONE,", "        Ok(()) => OUT_OF_MEMORY,"),
    "beside an exception, of a sink": (SINK, "        self.bytes.put(byte)", "        Err(NotTaken)"),
    "an exception that says more": (SINK, "self.bytes.len() >= self.room {", "self.bytes.len() >= self.room / 2 {"),
    "a constant": (
        CLAIM,
        CLAIMED,
        "        Ok(()) => {\n            const GONE: u8 = OUT_OF_MEMORY;\n            GONE\n        }\n",
    ),
    "a constant with its number": (CLAIM, "/// Makes the memory", "const GONE: u8 = 3;\n\n/// Makes the memory"),
    "an else": (
        CLAIM,
        "    if at >= valid.count() {",
        "    if let Err(Fault::Memory) = read_with_disk(alloc, recording) {\n    } else {\n        return OUT_OF_MEMORY;\n    }\n"
        "    if at >= valid.count() {",
    ),
    "an else of one value": (EXTEND, "let Ok(inputs) = inputs_of", "let Ok(true) = inputs_of"),
    "no answer": (ANSWER, CHECKED, "match check_in(alloc, Versions::WithDisk, recording) {\n        Ok(_) => NO_ANSWER,"),
    "the number 0": (ANSWER, CHECKED, "match check_in(alloc, Versions::WithDisk, recording) {\n        Ok(_) => 0,"),
    "the length of nothing": (ANSWER, CHECKED, CHECKED.replace("put(&answer, line, status)", "[].len()")),
    "an empty answer": (ANSWER, CHECKED, CHECKED.replace("&answer", "&Answer { bytes: Vec::new(alloc), status: 0 }")),
    "the number 3": (CLAIM, CLAIMED, CLAIMED.replace("DONE", "3")),
    "a returned number": (CLAIM, "        return NO_CHECKPOINT;", "        return 3;"),
    "a sum": (CLAIM, CLAIMED, CLAIMED.replace("DONE", "OUT_OF_RANGE + NO_ROOM")),
    "an alternative of bits": (CLAIM, CLAIMED, CLAIMED.replace("DONE", "OUT_OF_MEMORY | DONE")),
    "any error, named as if it were this": (CLAIM, "Err(_) => return NO_RECORDING", "Err(Memory) => return OUT_OF_MEMORY"),
    "a type by its path": (RECORDING, "            Ok(Answer { bytes, status: 0 })", "            Err(std::alloc::AllocError)"),
    "the line": (SERVICE, "/// Writes", 'const GONE: &str = "no memory\\n";\n\n/// Writes'),
}


@pytest.fixture(scope="module", name="rule")
def the_rule() -> ModuleType:
    """The script."""
    return script("allocation-failures")


def breaches(rule: ModuleType, changed: Mapping[str, str]) -> list[str]:
    """Returns the breaches of the sources, of which some are changed."""
    found: list[str] = rule.breaches_of({**rule.product_sources(), **changed}, rule.product_crates())[0]
    return found


def test_the_sources_keep_the_rule(rule: ModuleType) -> None:
    """They make no such value up."""
    assert breaches(rule, {}) == []


@pytest.mark.parametrize("wrong", FOOLING)
def test_a_body_that_makes_it_up_is_found(rule: ModuleType, wrong: str) -> None:
    """It is named with its place, although the prover may accept it."""
    name, old, new = FOOLING[wrong]
    text = rule.product_sources()[name]
    assert text.count(old) == 1
    found = breaches(rule, {name: text.replace(old, new)})
    assert any(line.startswith(f"crates/{name}:") and line.endswith("makes it up that memory ran out") for line in found), found
