"""The header of the library against the crate: each function, constant and struct."""

import re
from collections.abc import Iterator, Sequence
from dataclasses import dataclass
from pathlib import Path

from tests.library.trial import CRATE, TOP, WARNINGS, expect, fail, run

# How a type of an export's parameter is declared in C; a slice is a pointer and a length.
SCALARS = {
    "u8": "uint8_t",
    "u16": "uint16_t",
    "u32": "uint32_t",
    "u64": "uint64_t",
    "usize": "size_t",
    "RawState": "galluspa_state",
    "RawInput": "galluspa_input",
    "RawCondition": "galluspa_condition",
    "RawHit": "galluspa_hit",
    "RawPart": "galluspa_part",
    "RawWrite": "galluspa_write",
    "RawPage": "galluspa_page",
    "RawCheckpoint": "galluspa_checkpoint",
    "RawRecord": "galluspa_trace_record",
    "Call": "galluspa_call",
    "RawTurn": "galluspa_turn",
    "RawPast": "galluspa_past",
    "RawExtent": "galluspa_extent",
    "RawLink": "galluspa_link",
    "RawProgress": "galluspa_progress",
    "Card": "galluspa_card",
}
SIZES = {"u8": 1, "u16": 2, "u32": 4, "u64": 8}
# The struct whose first field is private: a pointer, which only the library reads.
HANDLE = "RawPast"
# The limits of the header that are constants of other crates: what they are called there, and where.
LIMITS = {
    "WORDS": ("MEMORY_WORDS", "risc_pages/src/sizes.rt"),
    "LONGEST": ("LONGEST_WITH_DISK", "oberon_format/src/layout.rt"),
    "LONGEST_SESSION": ("LONGEST_SESSION", "recording_limits/src/limits.rt"),
    "MAX_CONDITIONS": ("MAX_CONDITIONS", "risc_search/src/search.rt"),
}
# Where the fields of a state are, and the parameters of a search: programs that are compiled depend on their order, so that they stay
# as they are even if crate and header change together.
STATE_OFFSETS = {
    "count": 0, "r": 8, "h": 72, "pc": 76, "flags": 80, "stop": 84, "timer": 88, "rate": 92, "phase": 96, "switches": 100, "leds": 104,
    "mouse": 108, "serial": 112, "key_count": 116, "keys": 120, "disk": 136, "reserved": 140,
}  # fmt: skip
FIND_PARAMETERS = ["state", "words", "inputs", "to", "conditions", "wanted", "hit"]


@dataclass(frozen=True)
class Field:
    """A field of a struct in the layout of C: the type of its elements, its offset, and its size."""

    name: str
    unit: str
    at: int
    size: int


def group(pattern: str, text: str, flags: int = re.MULTILINE) -> str:
    """Returns what the group of a pattern has where it is found first."""
    match = re.search(pattern, text, flags)
    return match[1] if match else fail(f"{pattern} is nowhere")


def declared(kind: str) -> list[str]:
    """Returns how C declares the parameters of a type: one, also of an array, or the two of a slice."""
    slice_of = re.fullmatch(r"&(mut )?\[(\w+)\]", kind)
    if slice_of:
        return [("" if slice_of[1] else "const ") + SCALARS[slice_of[2]] + " *", "size_t"]
    array = re.fullmatch(r"&(mut )?\[(\w+); (\d+)\]", kind)
    if array:
        return [("" if array[1] else "const ") + f"{SCALARS[array[2]]} [{array[3]}]"]
    one = re.fullmatch(r"&(mut )?(\w+)", kind)
    return [("" if one[1] else "const ") + SCALARS[one[2]] + " *"] if one else [SCALARS[kind]]


def exports() -> Iterator[tuple[str, list[tuple[str, str]], str]]:
    """Yields each export of the crate: its name, its parameters but for the allocator, and its result, which may be empty."""
    text = "".join(file.read_text() for file in sorted((CRATE / "src").glob("*.rt")))
    for name, parameters, result in re.findall(r'pub extern "C" fn (\w+)\((.*?)\)(?: -> (\w+))?\n', text, re.S):
        pairs = [it.strip().split(": ") for it in parameters.split(",") if it.strip()]
        yield name, [(own, kind) for own, kind in pairs][1:], result


def fields_of(name: str) -> list[tuple[str, str]]:
    """Returns the fields of a struct of the crate, in order."""
    files = ("raw.rt", "conditions.rt", "claims.rt", "records.rt", "calls.rt", "past.rt", "past_check.rt", "part.rt")
    text = "".join((CRATE / "src" / file).read_text() for file in files)
    text += (CRATE / "src/link.rt").read_text()
    text += "".join((CRATE.parent / file).read_text() for file in ("risc_model/src/call.rt", "oberon_card/src/card.rt"))
    body = group(rf"#\[repr\(C\)\]\n(?:#[^\n]*\n)*pub struct {name} {{\n(.*?)\n}}", text, re.S)
    return re.findall(r"^    pub (\w+): (.*),$", body, re.M)


def shape_of(unit: str) -> tuple[int, int]:
    """Returns the size and the alignment of a number or of a struct of the crate."""
    if unit in SIZES:
        return SIZES[unit], SIZES[unit]
    fields, size = laid_out(fields_of(unit))
    return size, max(shape_of(it.unit)[1] for it in fields)


def laid_out(fields: Sequence[tuple[str, str]]) -> tuple[list[Field], int]:
    """Returns the fields in the layout of C, and the size of the whole."""
    found, at, widest = list[Field](), 0, 1
    for name, kind in fields:
        array = re.fullmatch(r"\[(\w+); (\d+)\]", kind)
        unit, many = (array[1], int(array[2])) if array else (kind, 1)
        size, alignment = shape_of(unit)
        at += -at % alignment
        found.append(Field(name, unit, at, many * size))
        at, widest = at + many * size, max(widest, alignment)
    return found, at + -at % widest


def constants() -> Iterator[tuple[str, int]]:
    """Yields what the enumerators of the header have to be, by the crate: answers, limits, kinds of conditions, and which count is
    wanted."""
    for name, value in re.findall(r"^pub const (\w+): \w+ = (\d+);$", (CRATE / "src/refusal.rt").read_text(), re.M):
        yield f"GALLUSPA_{name}", int(value)
    for name, (own, file) in LIMITS.items():
        value = group(rf"^pub const {own}: \w+ = ([\d_]+);$", (TOP / "crates" / file).read_text())
        yield f"GALLUSPA_{name}", int(value.replace("_", ""))
    text = (CRATE / "src/conditions.rt").read_text()
    parts = (CRATE / "src/part.rt").read_text()
    yield from ((f"GALLUSPA_{name}", kind) for name, kind in (*kinds(text, "Condition"), *kinds(parts, "Part")))
    yield "GALLUSPA_AND", 1 << int(group(r"^pub const JOINED: u32 = 1 << (\d+);$", text))
    group(r"^pub const (NO_COUNT): u64 = u64::MAX;$", (CRATE / "src/moments.rt").read_text())
    yield "GALLUSPA_NO_COUNT", (1 << 64) - 1
    text = (CRATE / "src/find.rt").read_text()
    first, last = re.findall(r"if wanted == (\d+) {\s*find_first\(.*?} else {\s*find_last\(.*?wanted > (\d+)", text, re.S)[0]
    yield from (("GALLUSPA_FIRST", int(first)), ("GALLUSPA_LAST", int(last)))


def kinds(text: str, of: str) -> Iterator[tuple[str, int]]:
    """Yields the kinds of conditions, or of parts, as the crate reads their numbers: a condition, or a function that makes one, in an arm
    of its own."""
    body = group(rf"fn {of.lower()}_of\(.*?^    match raw\.kind(?: % JOINED)? {{\n(.*?)^    }}", text, re.M | re.S)
    for kind, arm in re.findall(r"^        (\d+)\b(.*?)(?=^        \w)", body, re.M | re.S):
        made = re.search(rf"{of}::(\w+)", arm) or re.search(r"=> (\w+)\(", arm) or fail(f"kind {kind} makes nothing")
        name = group(rf"^fn {made[1]}\(.*?{of}::(\w+)", text, re.M | re.S) if made[1].islower() else made[1]
        yield re.sub(r"(?<=[a-z])(?=[A-Z])", "_", name).upper(), int(kind)


def header_test() -> str:
    """Returns a C file that compiles only where the header declares what the crate exports."""
    lines = ['#include "galluspa.h"']
    for name, parameters, result in exports():
        types = [kind for _, given in parameters for kind in declared(given)]
        lines.append(f"{SCALARS[result] if result else 'void'} {name}({', '.join(types)});")
    lines.append('_Static_assert(sizeof(galluspa_past) == 16 && offsetof(galluspa_past, is_open) == 8, "the handle");')
    lines.append('_Static_assert(_Generic(((galluspa_past *)0)->is_open, uint64_t: 1, default: 0), "whether it is open");')
    structs = [(name, c_name) for name, c_name in SCALARS.items() if c_name.startswith("galluspa_") and name != HANDLE]
    for struct_name, c_name in structs:
        fields, size = laid_out(fields_of(struct_name))
        lines.append(f'_Static_assert(sizeof({c_name}) == {size}, "size of {c_name}");')
        for it in fields:
            of = f"(({c_name} *)0)->{it.name}"
            lines.append(f'_Static_assert(offsetof({c_name}, {it.name}) == {it.at} && sizeof {of} == {it.size}, "{it.name}");')
            first = of if it.size == shape_of(it.unit)[0] else of + "[0]"
            lines.append(f'_Static_assert(_Generic({first}, {SCALARS[it.unit]}: 1, default: 0), "type of {it.name}");')
    lines += [
        f'_Static_assert(offsetof(galluspa_state, {it}) == {at}, "where {it} always was");' for it, at in STATE_OFFSETS.items()
    ]
    lines += [f'_Static_assert({name} == {value}u, "{name}");' for name, value in constants()]
    return "\n".join(lines) + "\n"


def declared_constants() -> dict[str, str]:
    """Returns the enumerators of the header, with their values as it writes them."""
    text = (TOP / "include/galluspa.h").read_text()
    return dict(re.findall(r"\b(GALLUSPA_\w+) = (\w+)", text) + re.findall(r"^#define (GALLUSPA_\w+) (\w+)$", text, re.M))


def c_names(header: str) -> Iterator[tuple[str, list[str]]]:
    """Yields the names of the parameters of each function that the header declares; a length after its pointer is left out."""
    for name, parameters in re.findall(r"^\w+ (galluspa_\w+)\((.*?)\);", header, re.S | re.M):
        names = [group(r"(\w+)(?:\[\d+\])?$", it.strip()) for it in parameters.split(",")]
        yield name, [it for it in names if not any(it == f"{other}_len" for other in names)]


def compare_header(folder: Path) -> list[str]:
    """The header declares what the crate exports, and wrong headers are found. Returns the names of the functions."""
    header = (TOP / "include/galluspa.h").read_text()
    test = folder / "header.c"
    test.write_text(header_test())

    def compiles(text: str) -> tuple[bytes, int]:
        (folder / "wrong").mkdir(exist_ok=True)
        (folder / "wrong/galluspa.h").write_text(text)
        return run("cc", *WARNINGS, "-fsyntax-only", f"-I{folder}/wrong", str(test))

    expect("the header against the crate", compiles(header), (b"", 0))
    expect("the header as C++", run("g++", "-fsyntax-only", "-Wall", "-Werror", "-x", "c++", str(TOP / "include/galluspa.h"))[1], 0)
    names = {name: [it for it, _ in parameters] for name, parameters, _ in exports()}
    expect("the names in the header", dict(c_names(header)), names)
    expect("the parameters of a search", names["galluspa_find"], FIND_PARAMETERS)
    expect("the fields of a state", [name for name, _ in fields_of("RawState")], list(STATE_OFFSETS))
    expect("the enumerators of the header", sorted(declared_constants()), sorted(name for name, _ in constants()))
    # the comparison finds each of these
    wrong = [
        ("uint32_t rate; ", "uint32_t late; "),
        ("    uint32_t pc; ", "    uint64_t pc; "),
        ("    uint32_t flags;", "    int32_t flags;"),
        ("OUT_OF_MEMORY = 3", "OUT_OF_MEMORY = 4"),
        ("uint32_t at, galluspa_state", "uint64_t at, galluspa_state"),
        ("    uint64_t sent_count; ", "    uint32_t sent_count; "),
        ("    uint32_t pages[1024];", "    uint32_t pages[1023];"),
        ("    uint32_t old_value; ", "    uint32_t older_value; "),
        ("size_t galluspa_migrate(const ", "size_t galluspa_migrate("),
        ("WORDS = 262144", "WORDS = 262145"),
        ("CLOSED = 13", "CLOSED = 15"),
        ("NO_COUNT UINT64_MAX", "NO_COUNT UINT32_MAX"),
        ("    uint64_t is_open; ", "    uint32_t is_open; "),
        ("    uint64_t reached; ", "    uint64_t came_to; "),
        ("GALLUSPA_LEDS = 3", "GALLUSPA_LEDS = 6"),
        ("    uint64_t input; ", "    uint32_t input; "),
        ("uint16_t slots[1024]", "uint32_t slots[1024]"),
        ("uint16_t slots[1024]", "uint16_t slots[1023]"),
        ("galluspa_past *past, uint64_t at, uint64_t from", "galluspa_past *past, uint64_t at, uint32_t from"),
        ("galluspa_past *branch);", "const galluspa_past *branch);"),
        ("GALLUSPA_AND 0x80000000u", "GALLUSPA_AND 0x40000000u"),
        ("uint32_t wanted,\n                      galluspa_hit *hit", "galluspa_hit *hit,\n                      uint32_t wanted"),
        (
            "uint64_t to, const galluspa_condition *conditions, size_t conditions_len",
            "const galluspa_condition *conditions, size_t conditions_len, uint64_t to",
        ),
    ]
    kinds_of = list(declared_constants())
    kinds_of = kinds_of[kinds_of.index("GALLUSPA_COUNTER") : kinds_of.index("GALLUSPA_WRITES_FLAGS") + 1]
    swaps = [
        ("uint32_t h; ", "uint32_t pc; "),
        ("uint32_t leds; ", "uint32_t mouse; "),
        ("uint8_t stores; ", "uint8_t sends; "),
        ("uint64_t count;     /* the count", "uint64_t condition; /* the index"),
    ]
    swaps += [(f"{one} =", f"{other} =") for one, other in [*zip(kinds_of, kinds_of[1:]), ("GALLUSPA_FIRST", "GALLUSPA_LAST")]]
    for old in (it for pair in (*((old,) for old, _ in wrong), *swaps) for it in pair):
        if old not in header:
            fail(f"{old!r} is not in the header")
    headers = [header.replace(old, new) for old, new in wrong]
    headers += [header.replace(one, "\0").replace(other, one).replace("\0", other) for one, other in swaps]
    for text, change in zip(headers, [*wrong, *swaps], strict=True):
        if not compiles(text)[1]:
            fail(f"the comparison of the header passes {change}")
    structs = sum(c_name.startswith("galluspa_") for c_name in SCALARS.values())
    print(
        f"header: {len(names)} functions, {len(declared_constants())} enumerators and {structs} structs are the crate's; {len(headers)} wrong headers found"
    )
    return sorted(names)
