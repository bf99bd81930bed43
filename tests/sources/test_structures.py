"""Python's binding of the library has the structures, calls and numbers of its header; and the page has the limits of the tools."""

import ctypes
import re
from typing import Any

from galluspa.analysis import rawconditions
from galluspa.engine import library, structures
from galluspa.formats import recording, sessions
from galluspa.process import cli
from tests.tools.samples import TOP

HEADER = (TOP / "include/galluspa.h").read_text()
UNITS: dict[str, Any] = {"void": None, "uint8_t": ctypes.c_uint8, "uint32_t": ctypes.c_uint32, "uint64_t": ctypes.c_uint64}
UNITS |= {"size_t": ctypes.c_size_t, "galluspa_state": structures.RawState}
# A field that Python calls otherwise, since its name in C is a word of Python.
CALLED = {"from": "first"}
# A structure whose plain name is that of a function in C.
NAMES = {"RawRecord": "galluspa_trace_record"}
STRUCTURES = [it for it in vars(structures).values() if isinstance(it, type) and issubclass(it, ctypes.Structure)]
# The page's limits: each is a product or a power of whole numbers.
LIMIT = re.compile(r"(\w+) = ([0-9 *<]+)[,;]")
KINDS = ("COUNTER", "STORE", "CHANGE", "LOAD", "BECOMES", "SENDS", "SENDS_BYTE", "TAKES", "STOPS", "WRITES", "IS", "IS_WORD")


def declared(name: str) -> list[tuple[str, object]]:
    """Returns the fields of a structure of the header, as ctypes has them."""
    body = re.search(rf"^typedef struct {{\n((?:(?!}}).*\n)*)}} {name};$", HEADER, re.MULTILINE)
    assert body, name
    fields = re.findall(r"^    (\w+) (\w+)(?:\[(\d+)\])?;", body[1], re.MULTILINE)
    return [(CALLED.get(field, field), UNITS[unit] * int(many) if many else UNITS[unit]) for unit, field, many in fields]


def called(name: str) -> tuple[object, list[object]]:
    """Returns the type of the result of a call of the header, and those of its arguments, as ctypes has them."""
    found = re.search(rf"^(\w+) galluspa_{name}\(([^)]*)\);$", HEADER, re.MULTILINE)
    assert found, name
    return UNITS[found[1]], [ctypes.c_void_p if {"*", "["} & {*it} else UNITS[it.split()[0]] for it in found[2].split(",")]


def number(name: str) -> int:
    """Returns the value of an enumerator of the header."""
    value = re.search(rf"\bGALLUSPA_{name} = (\d+)", HEADER)
    assert value, name
    return int(value[1])


def test_structures_are_those_of_the_header() -> None:
    assert len(STRUCTURES) >= 5
    for it in STRUCTURES:
        name = NAMES.get(it.__name__, "galluspa_" + it.__name__.removeprefix("Raw").lower())
        assert list(it._fields_) == declared(name), name


def test_calls_are_those_of_the_header() -> None:
    assert len(structures.CALLS) == 15
    assert structures.CALLS == {name: called(name) for name in structures.CALLS}


def test_limits_of_the_page_are_those_of_the_tools() -> None:
    limits = {name: eval(value) for name, value in LIMIT.findall((TOP / "web/formats/limits.js").read_text())}
    assert limits == {
        "MOST_COUNT": sessions.COUNTS,
        "LONGEST_RECORDING": cli.MOST - 1,
        "LONGEST_SESSION": number("LONGEST_SESSION"),
        "INPUT_LIMIT": sessions.INPUTS,
        "INPUT_LIMIT_WITH_DISK": sessions.INPUTS_WITH_DISK,
        "CHECKPOINT_LIMIT": sessions.CHECKPOINTS,
        "POOL_LIMIT": recording.MOST_PAGES,
        "SENT_LIMIT": recording.MOST_SENT,
    }


def test_numbers_are_those_of_the_header() -> None:
    assert number("WORDS") == structures.WORDS == structures.Words._length_
    assert [number(name) for name in KINDS] == [getattr(rawconditions, name) for name in KINDS]
    assert number("LONGEST") + 1 == cli.MOST
    assert number("MAX_CONDITIONS") == rawconditions.MOST_CONDITIONS
    assert number("LAST") == library.LAST
    assert f"#define GALLUSPA_AND {library.AND:#X}u\n".replace("0X", "0x") in HEADER
    refusals = ("OUT_OF_RANGE", "NO_ROOM", "OUT_OF_MEMORY", "NO_RECORDING", "NO_CHECKPOINT")
    assert sorted(library.REFUSALS) == [number(name) for name in refusals]
    assert (number("NO_ROOM"), number("OUT_OF_MEMORY")) == (library.NO_ROOM, library.NO_MEMORY)
    assert (number("NOT_FOUND"), number("MORE")) == (library.NOT_FOUND, library.MORE)
