"""What a session's first fault is about: the member, its index and its value, and the rule that it breaks, by
docs/formats.md.

The program says that there is a fault, and of which kind. This module looks up the member.
"""

import json
import re
from collections.abc import Iterator, Sequence
from dataclasses import dataclass
from typing import Any, NoReturn

from galluspa.formats.recording import MOUSE, PLACES, WORD
from galluspa.formats.sessions import CHECKPOINTS, COUNTS, INPUTS, INPUTS_WITH_DISK, MOST
from galluspa.formats.states import REGISTERS
from galluspa.process.escapes import printable

LONGEST_SESSION = 1 << 26
DEEPEST = 127
NUMBER = (1 << 64) - 1
MEMBERS = ("format", "version", "start", "pages", "inputs", "checkpoints")
# The most of each sign in a session whose members are named once: an object for each page, an array for
# each input, and some more. A text with more is not taken apart here, as that wants much memory.
SIGNS = {
    "{": (PLACES + 2, "objects"),
    "[": (INPUTS_WITH_DISK + 4, "arrays"),
    '"': (2 * INPUTS_WITH_DISK + 10 * PLACES, "quotation marks"),
}
# A string, or one without its end up to that of the text; a sign that nests; or what is between these. Each sign of a
# text is in one of them, so none is read twice. A repetition that gives nothing back (`*+`) keeps nothing of what it passed.
TOKEN = re.compile(r'"[^"\\]*+(?:\\.[^"\\]*+)*+(?:"|\\?\Z)|[][{}]|[^][{}"]+', re.DOTALL)
SHOWN = 60
NAMES = {
    1: "it is JSON",
    2: "it has the members and types of a session",
    3: "its numbers are in their ranges",
    4: "page slots rise, counts of inputs do not fall, counts of checkpoints rise",
    5: "each hex is an even number of hexadecimal digits",
}


@dataclass(frozen=True)
class Broken:
    """A member that breaks a rule: its name with its index, what is found there, and the rule."""

    member: str
    found: str
    rule: str

    def plain(self) -> Iterator[str]:
        """Yields the lines that say it."""
        yield printable(f"{self.member} {self.found}")
        yield f"rule   {self.rule}"


def is_session(name: str, text: bytes) -> bool:
    """Returns whether a file is looked at as a session, and not as a recording."""
    return not text.startswith(b"ORSR") and (text[:4096].lstrip()[:1] == b"{" or name.endswith(".json"))


def explained(text: bytes, fault: int) -> Broken:
    """Returns the first member of a session that breaks the rules of a fault, by its number."""
    whole = Broken("the session", "breaks it", NAMES[fault])
    if len(text) > LONGEST_SESSION:
        return Broken("the session", "has more bytes than that", f"a session has at most {LONGEST_SESSION:,} bytes")
    session = parsed(text)
    if isinstance(session, Broken):
        return session
    rules = {2: _shape, 3: _ranges, 4: _order, 5: _hex}
    return next(rules[fault](session), whole) if fault in rules else whole


def parsed(text: bytes) -> Any:
    """Returns what a session is as JSON, of any shape, or why it is none: numbers that no session has are floats, as to
    the program."""
    for sign, (most, name) in SIGNS.items():
        if (number := text.count(sign.encode())) > most:
            return Broken("the session", f"has {number:,} {name}", f"a session has at most {most:,} {name}")
    rule = NAMES[1]
    try:
        signs = text.decode()
        if (deep := _too_deep(signs)) is not None:
            return Broken(f"{_where(signs, deep)}", f"nests more than {DEEPEST} deep", rule)
        return json.loads(signs, parse_int=_number, parse_constant=_constant)
    except UnicodeDecodeError as error:
        return Broken(f"byte {error.start}", f"is {text[error.start]:02x}, which is not UTF-8 there", rule)
    except json.JSONDecodeError as error:
        return Broken(f"line {error.lineno}, column {error.colno}", f"is wrong: {error.msg}", rule)
    except (ValueError, RecursionError) as error:
        return Broken("the session", f"has a number or a constant that is wrong: {error}", rule)


def _where(signs: str, at: int) -> str:
    return f"line {signs.count(chr(10), 0, at) + 1}, column {at - signs.rfind(chr(10), 0, at)}"


def _too_deep(signs: str) -> int | None:
    """Returns where arrays and objects nest too deep."""
    depth = 0
    for token in TOKEN.finditer(signs):
        depth += {"[": 1, "{": 1, "]": -1, "}": -1}.get(signs[token.start()], 0)
        if depth > DEEPEST:
            return token.start()
    return None


def _number(digits: str) -> int | float:
    return float(digits) if digits.startswith("-") or len(digits) > 20 or int(digits) > NUMBER else int(digits)


def _constant(name: str) -> NoReturn:
    raise ValueError(name)


def _shown(value: object) -> str:
    written = json.dumps(value[: SHOWN + 1] if isinstance(value, str) else value)
    return f"is {written}" if len(written) <= SHOWN else f"is {written[:SHOWN]} .."


def _is_number(value: object) -> bool:
    return type(value) is int


def _typed(member: str, value: object, kind: type, name: str) -> Iterator[Broken]:
    """Yields a member that is of no kind that it has to be."""
    if type(value) is not kind:
        yield Broken(member, _shown(value), f"it is {name}")


def _members(member: str, value: Any, names: Sequence[str]) -> Iterator[Broken]:
    """Yields an object that has not exactly these members."""
    yield from _typed(member, value, dict, "an object")
    rule = f"{member} has exactly the members {', '.join(names)}"
    yield from (Broken(member, f"lacks {name}", rule) for name in names if name not in value)
    yield from (Broken(member, f"has {json.dumps(name):.60}", rule) for name in value if name not in names)


def _numbers(member: str, values: Any, what: str) -> Iterator[Broken]:
    yield from _typed(member, values, list, f"an array of {what}")
    rule = "a number is whole, from 0 to 2^64 - 1, and written without a point or an exponent"
    yield from (Broken(f"{member}[{at}]", _shown(it), rule) for at, it in enumerate(values) if not _is_number(it))


def _shape(session: Any) -> Iterator[Broken]:
    yield from _members("the session", session, MEMBERS)
    if session["format"] != "oberon-session":
        yield Broken("format", _shown(session["format"]), 'format is "oberon-session"')
    if not _is_number(session["version"]) or session["version"] not in (1, 2, 3):
        yield Broken("version", _shown(session["version"]), "version is 1, 2 or 3")
    devices = ("rate", "phase", "disk")[: (0, 2, 3)[session["version"] - 1]]
    yield from _members("start", session["start"], ("R", "H", "PC", "flags", *devices))
    yield from _numbers("start.R", session["start"]["R"], "16 numbers")
    if len(session["start"]["R"]) != 16:
        yield Broken("start.R", f"has {len(session['start']['R']):,} numbers", "start.R is an array of 16 numbers")
    for name in ("H", "PC", "flags", *devices):
        yield from _typed(f"start.{name}", session["start"][name], int, "a whole number from 0 to 2^64 - 1")
    yield from _typed("pages", session["pages"], list, "an array")
    for at, page in enumerate(session["pages"]):
        yield from _members(f"pages[{at}]", page, ("at", "hex"))
        yield from _typed(f"pages[{at}].at", page["at"], int, "a whole number from 0 to 2^64 - 1")
        yield from _typed(f"pages[{at}].hex", page["hex"], str, "a string")
    yield from _typed("inputs", session["inputs"], list, "an array")
    for at, event in enumerate(session["inputs"]):
        yield from _event(f"inputs[{at}]", event, [*MOST] if "disk" in devices else [*MOST][:-1])
    yield from _numbers("checkpoints", session["checkpoints"], "numbers")


def _event(member: str, event: Any, kinds: Sequence[str]) -> Iterator[Broken]:
    if type(event) is not list or len(event) != 3:
        yield Broken(member, _shown(event), "an input is an array [count, kind, value]")
    yield from _typed(f"{member}[0]", event[0], int, "a count, a whole number")
    if not isinstance(event[1], str) or event[1] not in kinds:
        yield Broken(f"{member}[1]", _shown(event[1]), f"a kind is one of {', '.join(kinds)}")
    yield from _typed(f"{member}[2]", event[2], int, "a value, a whole number")


def _up_to(member: str, value: int, most: int, least: int = 0) -> Iterator[Broken]:
    if not least <= value <= most:
        yield Broken(member, _shown(value), f"it is from {least:,} to {most:,}")


def _at_most(member: str, values: Sequence[object], most: int) -> Iterator[Broken]:
    if len(values) > most:
        yield Broken(member, f"has {len(values):,} items", f"there are at most {most:,}")


def _ranges(session: dict[str, Any]) -> Iterator[Broken]:
    start = session["start"]
    for name, value in zip(REGISTERS, start["R"]):
        yield from _up_to(f"start.R[{name[1:]}]", value, WORD)
    for name, most in (("H", WORD), ("PC", (1 << 22) - 1), ("flags", 15), ("rate", WORD), ("phase", WORD), ("disk", WORD)):
        yield from _up_to(f"start.{name}", start.get(name, 0), most)
    if start.get("phase", 0) >= max(start.get("rate", 0), 1):
        rule = f"phase is below the rate, {start['rate']}, or 0 if that is 0"
        yield Broken("start.phase", _shown(start["phase"]), rule)
    yield from _at_most("pages", session["pages"], PLACES)
    for at, page in enumerate(session["pages"]):
        yield from _up_to(f"pages[{at}].at", page["at"], PLACES - 1)
        if len(page["hex"].encode("utf-8", "replace")) > 2048:
            yield Broken(f"pages[{at}].hex", f"has {len(page['hex']):,} digits", "a hex has at most 2,048 digits")
    yield from _at_most("inputs", session["inputs"], INPUTS_WITH_DISK if "disk" in start else INPUTS)
    for at, (count, kind, value) in enumerate(session["inputs"]):
        yield from _up_to(f"inputs[{at}][0]", count, COUNTS)
        yield from _up_to(f"inputs[{at}][2]", value, MOST[kind])
        if kind == "mouse" and value & ~MOUSE:
            yield Broken(f"inputs[{at}][2]", _shown(value), f"a mouse word has no bit outside the mask {MOUSE:08X}")
    yield from _at_most("checkpoints", session["checkpoints"], CHECKPOINTS)
    for at, count in enumerate(session["checkpoints"]):
        yield from _up_to(f"checkpoints[{at}]", count, COUNTS, 1)


def _order(session: dict[str, Any]) -> Iterator[Broken]:
    rows: list[tuple[str, list[int], bool, str]] = [
        ("pages[{}].at", [page["at"] for page in session["pages"]], True, "page slots rise"),
        ("inputs[{}][0]", [event[0] for event in session["inputs"]], False, "counts of inputs do not fall"),
        ("checkpoints[{}]", session["checkpoints"], True, "counts of checkpoints rise"),
    ]
    for member, values, is_rising, rule in rows:
        for at, (before, value) in enumerate(zip(values, values[1:]), 1):
            if value < before or is_rising and value == before:
                yield Broken(member.format(at), f"is {value}, after {before}", rule)


def _hex(session: dict[str, Any]) -> Iterator[Broken]:
    for at, page in enumerate(session["pages"]):
        if len(page["hex"]) % 2 or not re.fullmatch("[0-9A-Fa-f]*", page["hex"]):
            wrong = re.search("[^0-9A-Fa-f]", page["hex"])
            found = f"has {json.dumps(wrong[0])} at {wrong.start()}" if wrong else f"has {len(page['hex'])} digits"
            yield Broken(f"pages[{at}].hex", found, NAMES[5])
