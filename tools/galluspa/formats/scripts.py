"""Scripts of events for `galluspa rerun`: inputs and looks that come when something happens (docs/formats.md).

This module reads and writes scripts, and makes them of the inputs of sessions. `reruns.py` finds the counts.
"""

import json
import os
import re
from collections.abc import Sequence
from dataclasses import dataclass, field, replace
from functools import cached_property
from typing import Any

from galluspa.formats.alike import alike_of
from galluspa.formats.recording import KINDS, Event
from galluspa.formats.sessions import COUNTS, KIND_NUMBERS, MOST
from galluspa.process.cli import Refused
from galluspa.process.escapes import printable

SUFFIX = ".rerun.json"
FORMAT = "galluspa-rerun"
# The most bytes and the most events of a script.
MOST_BYTES, MOST_EVENTS = 1 << 24, 100_000
# The default of `patience`, in instructions: four seconds of a machine of 25 MHz.
PATIENCE = 100_000_000
# The default of `still`, in instructions.
STILL = 1_000_000
LAST = "end"
COUNT, AFTER, POLLS, SENDS, STILL_FOR, CONDITION = "count", "after", "polls", "sends", "still", "condition"
NUMBERS, TEXTS = (COUNT, AFTER, STILL_FOR), (SENDS, CONDITION)
LOOK, MEMORY, MASK, ALWAYS = "look", "memory", "mask", "always"
MEMBERS = ("format", "version", "image", "patience", MASK, ALWAYS, "events")
LOOK_NAME = re.compile("[A-Za-z0-9_-]{1,60}")
BYTES = ("key", "serial")
LARGEST = {**MOST, "x": 0x3FF, "y": 0x3FF, "keys": 7}
# The most bytes of the name of a file, and of a part of it between slashes.
LONGEST_NAME, LONGEST_PART = 1000, 255
# The size of the screen in dots, and the most parts of it in a mask.
WIDTH, HEIGHT, MOST_MASKS = 1024, 768, 100
SHOWN = 60
# The parts of JSON: strings, signs, and what is between them.
TOKEN = re.compile(r'"(?:[^"\\]|\\.)*"|[\[\]{},:]|[^\s\[\]{},:"]+', re.DOTALL)
# A part of the screen that does not count: a rectangle, by the dot at its left and lower corner, its width and its height; or
# what the procedure of a name draws.
Mask = tuple[int, int, int, int] | str


@dataclass(frozen=True)
class When:
    """When an event comes: the member of a script that says so, its value, and the count before which it does not."""

    member: str
    value: int | str
    first: int = 0

    def __str__(self) -> str:
        """Says it in a line."""
        told = {
            COUNT: f"at count {self.value}",
            AFTER: f"{self.value} instructions after the event before",
            POLLS: f"when the machine polls {self.value}",
            SENDS: f"once {printable(json.dumps(self.value))} is sent",
            STILL_FOR: f"once nothing changes for {self.value} instructions",
            CONDITION: f"when {printable(str(self.value))}",
        }
        return told[self.member]

    def as_object(self) -> dict[str, int | str]:
        """Returns it as a script has it."""
        return {self.member: self.value, **({"from": self.first} if self.first else {})}


@dataclass(frozen=True)
class Input:
    """An input of a kind, by its name, with its value, when it comes, and which event of its script it is of, from 0 on."""

    when: When
    kind: str
    value: int
    at: int = 0

    def __str__(self) -> str:
        """Names it in a message."""
        return f"{self.kind} {self.value:X} {self.when}"


@dataclass(frozen=True)
class Look:
    """A look at the machine: its name, when it comes, the words of memory that it is for, too, the parts of the screen that do not
    count, besides those of its script, and which event of its script it is, from 0 on."""

    when: When
    name: str
    memory: Sequence[str] = ()
    mask: Sequence[Mask] = ()
    at: int = 0

    def __str__(self) -> str:
        """Names it in a message."""
        return f"look {self.name} {self.when}"


@dataclass(frozen=True)
class Script:
    """Events in their order, the image in whose run they come, if the script names one, how long they are waited for, the parts of
    the screen that do not count at any look, the conditions that hold at each instruction, and the text that was read."""

    events: Sequence[Input | Look]
    image: str | None = None
    patience: int = PATIENCE
    mask: Sequence[Mask] = ()
    always: Sequence[str] = ()
    source: str = ""

    @cached_property
    def lines(self) -> Sequence[int]:
        """Returns the lines of the text at which events begin; none if no text was read."""
        return event_lines(self.source)

    def place(self, at: int) -> str:
        """Returns an event as it is named in a message: by its place in the script, with its line."""
        return f"events[{at}]" + (f" (line {self.lines[at]})" if at < len(self.lines) else "")

    def mask_of(self, event: Input | Look) -> Sequence[Mask]:
        """Returns the parts of the screen that do not count for an event."""
        return (*self.mask, *(event.mask if isinstance(event, Look) else ()))

    def text(self) -> str:
        """Returns the script as JSON, an event a line."""
        head: dict[str, object] = {"format": FORMAT, "version": 1}
        if self.image is not None:
            head["image"] = self.image
        if self.patience != PATIENCE:
            head["patience"] = self.patience
        if self.mask:
            head[MASK] = [it if isinstance(it, str) else list(it) for it in self.mask]
        if self.always:
            head[ALWAYS] = list(self.always)
        lines = [f"  {json.dumps(name)}: {json.dumps(value)}," for name, value in head.items()]
        events = ",\n".join(f"    {json.dumps(_as_object(it))}" for it in self.events)
        return "\n".join(["{", *lines, '  "events": [', events, "  ]", "}"]) + "\n"


def _as_object(it: Input | Look) -> dict[str, object]:
    """Returns an event as a script has it."""
    if isinstance(it, Look):
        memory = {MEMORY: list(it.memory)} if it.memory else {}
        mask = {MASK: [one if isinstance(one, str) else list(one) for one in it.mask]} if it.mask else {}
        return {"when": it.when.as_object(), LOOK: it.name, **memory, **mask}
    value: object = it.value
    if it.kind == "mouse":
        value = [it.value & 0x3FF, it.value >> 12 & 0x3FF, it.value >> 24 & 7]
    return {"when": it.when.as_object(), it.kind: value}


def of_inputs(inputs: Sequence[Event], last: int, still: int, is_polled: bool, looks: Sequence[int]) -> Script:
    """Returns the script of a session: each input at its count, or when it is polled from there on, a look at each of
    these counts, and one at the end: once nothing has changed for `still` instructions from the last count on."""

    def when(event: Event) -> When:
        kind = KINDS[event.kind]
        return When(POLLS, kind, event.count) if is_polled else When(COUNT, event.count)

    events: list[tuple[int, Input | Look]] = [(it.count, Input(when(it), KINDS[it.kind], it.value)) for it in inputs]
    events += [(count, Look(When(COUNT, count), f"checkpoint-{at}")) for at, count in enumerate(looks, 1)]
    # Of the same count, a checkpoint comes before the inputs.
    events.sort(key=lambda it: (it[0], isinstance(it[1], Input)))
    ordered = [*(event for _, event in events), Look(When(STILL_FOR, still, last), LAST)]
    return Script([replace(it, at=at) for at, it in enumerate(ordered)], patience=max(PATIENCE, still))


def event_lines(source: str) -> Sequence[int]:
    """Returns the lines at which the elements of the array `events` begin, in the text of an object in JSON."""
    lines: list[int] = []
    depth, line, counted = 0, 1, 0
    name = last = ""
    is_inside = is_next = False
    for token in TOKEN.finditer(source):
        sign = token[0]
        if is_next and sign != "]":
            line, counted = line + source.count("\n", counted, token.start()), token.start()
            lines.append(line)
        is_next = is_inside and depth == 2 and sign == ","
        if sign in ("[", "{"):
            depth += 1
            if depth == 2 and sign == "[" and name == "events":
                lines, is_inside, is_next = [], True, True
        elif sign in ("]", "}"):
            depth -= 1
            is_inside = is_inside and depth >= 2
        elif depth == 1:
            name = _string(last) if sign == ":" else name
            last = sign
    return lines


def _string(token: str) -> str:
    """Returns the text of a string in JSON; of anything else, the empty text."""
    try:
        return str(json.loads(token))
    except ValueError:
        return ""


@dataclass
class _Reader:
    """Reads the events of a script, and says in which of them a mistake is."""

    source: str
    at: int | None = None
    names: set[str] = field(default_factory=set)

    def refuse(self, why: str) -> Refused:
        """Returns what is raised for a mistake."""
        place = "" if self.at is None else f"{Script((), source=self.source).place(self.at)}: "
        return Refused(f"{place}{why}")

    def number(self, value: object, name: str, most: int, least: int = 0) -> int:
        """Returns a number in its range."""
        if isinstance(value, bool) or not isinstance(value, int) or not least <= value <= most:
            raise self.refuse(f"{name} is not a whole number from {least:,} to {most:,}, but {_json(value)}")
        return value

    def text(self, value: object, name: str) -> str:
        """Returns a text of one byte or more."""
        if not isinstance(value, str) or not value or max(map(ord, value)) > 0xFF:
            raise self.refuse(f"{name} is not a text of one sign or more, each below 256, but {_json(value)}")
        return value

    def texts(self, it: object, name: str) -> Sequence[str]:
        """Returns the texts of an array."""
        if not isinstance(it, list) or len(it) > 100:
            raise self.refuse(f"{name} is not an array of at most 100 texts, but {_json(it)}")
        return [self.text(text, f"{name}[{at}]") for at, text in enumerate(it)]

    def one_of(self, it: object, what: str, known: Sequence[str], beside: Sequence[str]) -> tuple[dict[str, Any], str]:
        """Returns an object, and which of the known members it has: exactly one, and perhaps some that may be beside it."""
        wanted = f"expected one of {', '.join(known)}" + (f", and perhaps {', '.join(beside)}" if beside else "")
        if not isinstance(it, dict):
            raise self.refuse(f"{what} is not an object, but {_json(it)}: {wanted}")
        for name in it:
            if name not in known and name not in beside:
                raise self.refuse(f"{_unknown(name, what, (*known, *beside))} {wanted}")
        given = [name for name in known if name in it]
        if len(given) != 1:
            has = " and ".join(given) or "none of them"
            raise self.refuse(f"{what} has {has}: {wanted}")
        return it, given[0]

    def events(self, listed: Sequence[object]) -> list[Input | Look]:
        """Returns the events of a list."""
        read: list[Input | Look] = []
        for at, it in enumerate(listed):
            self.at = at
            read += [replace(one, at=at) for one in self.event(it)]
            if max(len(read), len(listed)) > MOST_EVENTS:
                raise self.refuse(f"a script has at most {MOST_EVENTS:,} events")
        if isinstance(read[-1], Input):
            read += [replace(self.look({LOOK: LAST}), at=len(listed))]
        return read

    def event(self, it: object) -> Sequence[Input | Look]:
        """Returns an event, or one for each byte of a text."""
        event, does = self.one_of(it, "an event", (*KIND_NUMBERS, LOOK), ("when", MEMORY, MASK))
        alone = next((name for name in (MEMORY, MASK) if does != LOOK and name in event), None)
        if alone:
            raise self.refuse(f"{alone} is not a member of an event with {does}: it belongs to a look")
        return [self.look(event)] if does == LOOK else self.inputs(does, event[does], event.get("when"))

    def look(self, it: dict[str, Any]) -> Look:
        """Returns a look."""
        name = it[LOOK]
        if not isinstance(name, str) or not LOOK_NAME.fullmatch(name):
            raise self.refuse(f"look is {_json(name)}, and the name of a look has 1 to 60 letters, digits, - and _")
        if name.lower() in self.names:
            raise self.refuse(f"another look is called {name}")
        self.names.add(name.lower())
        words = self.texts(it.get(MEMORY, []), MEMORY)
        return Look(self.when(it.get("when"), When(STILL_FOR, STILL)), name, words, self.masks(it.get(MASK, [])))

    def masks(self, it: object) -> Sequence[Mask]:
        """Returns the parts of the screen that do not count."""
        if not isinstance(it, list) or len(it) > MOST_MASKS:
            raise self.refuse(f"mask is not an array of at most {MOST_MASKS} rectangles and names, but {_json(it)}")
        return [self.mask(one, f"mask[{at}]") for at, one in enumerate(it)]

    def mask(self, it: object, name: str) -> Mask:
        """Returns such a part."""
        if isinstance(it, str) and it:
            return it
        if not isinstance(it, list) or len(it) != 4:
            raise self.refuse(f"{name} is not [x, y, width, height] or the name of a procedure, but {_json(it)}")
        x, y = self.number(it[0], f"x of {name}", WIDTH - 1), self.number(it[1], f"y of {name}", HEIGHT - 1)
        width = self.number(it[2], f"width of {name}", WIDTH - x, 1)
        return x, y, width, self.number(it[3], f"height of {name}", HEIGHT - y, 1)

    def inputs(self, kind: str, value: object, when: object) -> Sequence[Input]:
        """Returns an input, or one for each byte of a text."""
        polled = When(POLLS, kind)
        first = self.when(when, polled)
        if kind in BYTES and isinstance(value, str):
            return [Input(polled if at else first, kind, byte) for at, byte in enumerate(self.text(value, kind).encode("latin-1"))]
        if kind != "mouse":
            return [Input(first, kind, self.number(value, kind, MOST[kind]))]
        if not isinstance(value, list) or len(value) not in (2, 3):
            raise self.refuse(f"mouse is not [x, y] or [x, y, keys], but {_json(value)}")
        x, y, keys = (self.number(it, f"{name} of mouse", LARGEST[name]) for name, it in zip(("x", "y", "keys"), [*value, 0]))
        return [Input(first, kind, keys << 24 | y << 12 | x)]

    def when(self, it: object, default: When) -> When:
        """Returns when an event comes."""
        if it is None:
            return default
        given, member = self.one_of(it, "when", (*NUMBERS, *TEXTS, POLLS), ("from",))
        value, first = given[member], self.number(given.get("from", 0), "from of when", COUNTS)
        if member in NUMBERS:
            return When(member, self.number(value, f"{member} of when", COUNTS), first)
        if member == POLLS and value not in KIND_NUMBERS:
            raise self.refuse(f"polls of when is none of {', '.join(KIND_NUMBERS)}, but {_json(value)}")
        return When(member, self.text(value, f"{member} of when"), first)


def read(content: bytes) -> Script:
    """Returns the script that bytes encode. Raises Refused with what is wrong."""
    if len(content) > MOST_BYTES:
        raise Refused(f"a script has at most {MOST_BYTES:,} bytes")
    try:
        source = content.decode(json.detect_encoding(content), "surrogatepass")
        script = json.loads(source)
    except (ValueError, RecursionError) as error:
        raise Refused(f"not JSON: {str(error)[:SHOWN]}") from error
    reader = _Reader(source)
    head = script if isinstance(script, dict) else {}
    for name, wanted in (("format", FORMAT), ("version", 1)):
        if head.get(name) != wanted or isinstance(head.get(name), bool):
            told = f"{name} is {_json(head[name])}" if name in head else f"{name} is missing"
            raise Refused(f"expected an object with the format {FORMAT} and the version 1: {told}")
    unknown = next((name for name in head if name not in MEMBERS), None)
    if unknown is not None:
        raise reader.refuse(f"{_unknown(unknown, 'a script', MEMBERS)} expected {', '.join(MEMBERS)}")
    image, events = head.get("image"), head.get("events")
    if image is not None and not _is_name_of_file(image):
        raise reader.refuse(f"image is not the name of a file, but {_json(image)}")
    patience = reader.number(head.get("patience", PATIENCE), "patience", COUNTS, 1)
    mask, always = reader.masks(head.get(MASK, [])), reader.texts(head.get(ALWAYS, []), ALWAYS)
    if not isinstance(events, list) or not events:
        raise reader.refuse(f"events is not an array of one event or more, but {_json(events)}")
    return Script(reader.events(events), image, patience, mask, always, source)


def _is_name_of_file(value: object) -> bool:
    """Returns whether a value may be the name of a file, as far as the system has names: no part of it is longer than 255 bytes."""
    try:
        name = os.fsencode(value) if isinstance(value, str) else b""
    except UnicodeEncodeError:
        return False
    return 0 < len(name) <= LONGEST_NAME and b"\0" not in name and max(map(len, name.split(b"/"))) <= LONGEST_PART


def _unknown(name: str, what: str, known: Sequence[str]) -> str:
    """Returns what is said first of a member that is not known."""
    meant = alike_of(name[:SHOWN], {it.upper(): (at, it) for at, it in enumerate(known)})
    return f"{_shown(name)} is not a member of {what}:" + (f" did you mean {meant}?" if meant else "")


def _json(value: object) -> str:
    """Returns a value of a script as it is shown."""
    if isinstance(value, list | dict):
        return f"{'an array' if isinstance(value, list) else 'an object'} of {len(value):,}"
    return "nothing" if value is None else _shown(json.dumps(value)[: SHOWN + 1])


def _shown(name: str) -> str:
    """Returns a name of a script as it is shown."""
    return printable(name if len(name) <= SHOWN else f"{name[:SHOWN]}..")
