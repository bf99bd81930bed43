"""Prints the parts of a claimed state, and what changed from one checkpoint to the next."""

from collections.abc import Callable, Iterator, Mapping
from functools import lru_cache
from operator import attrgetter
from typing import Any

from galluspa.formats.recording import FLAGS, KINDS, STOPS, UNANSWERED, Checkpoint, Event

REGISTERS = [f"R{at}" for at in range(16)]
# The parts of a processor as numbers: R0 to R15, H, the program counter, the flags and the stop.
Processor = tuple[int, ...]


def values(checkpoint: Checkpoint) -> dict[str, int | list[int]]:
    """The parts of a state but for its memory, by their names, as numbers; the keys as a list of them."""
    return {
        **dict(zip(REGISTERS, checkpoint.registers, strict=True)),
        **{name: getattr(checkpoint, attribute) for name, (attribute, _) in TEXTS.items()},
        "keys": list(checkpoint.keys),
    }


def differing(one: Mapping[str, int | list[int]], other: Mapping[str, int | list[int]]) -> list[str]:
    """The names of all parts that both of two states show and in which they differ, in the order of the first."""
    return [name for name, value in one.items() if name in other and other[name] != value]


def value(name: str, number: int | list[int]) -> str:
    """A part of a state, by its name and its number or numbers, as it is written."""
    if isinstance(number, list):
        return " ".join(f"{key:02X}" for key in number) or "none"
    if name in ("PC", "timer", "rate", "phase"):
        return f"{number}"
    if name == "flags" and number < 16:
        return flags(number)
    return STOPS[number] if name == "stop" and number < len(STOPS) else f"{number:08X}"


def texts(checkpoint: Checkpoint) -> dict[str, str]:
    """The parts of a state but for its memory, by their names, as text; the disk only if it has answered."""
    shown = {name: text(getattr(checkpoint, attribute)) for name, (attribute, text) in TEXTS.items()}
    if checkpoint.disk == UNANSWERED:
        del shown["disk"]
    return {**dict(zip(REGISTERS, map("{:08X}".format, checkpoint.registers), strict=True)), **shown}


def changes(before: Checkpoint, after: Checkpoint) -> Iterator[tuple[str, str, str]]:
    """Yields the parts of a state, except its memory, that differ in a later state: their names, and both values as
    text."""
    if before.registers != after.registers:
        for name, old, new in zip(REGISTERS, before.registers, after.registers, strict=True):
            if old != new:
                yield name, f"{old:08X}", f"{new:08X}"
    for name, old, new in zip(TEXTS, _OTHERS(before), _OTHERS(after), strict=True):
        if old != new:
            text = TEXTS[name][1]
            yield name, text(old), text(new)


@lru_cache(16)
def flags(value: int) -> str:
    """The letters of the flags that are set, with a dash for each that is not."""
    return "".join(letter if value >> 3 - at & 1 else "-" for at, letter in enumerate(FLAGS))


def mouse(value: int) -> str:
    """A mouse word as its x and y, and its three keys as they lie."""
    x, y, keys = value & 0x3FF, value >> 12 & 0x3FF, value >> 24 & 7
    return f"{x}, {y}" + (f", keys {keys:03b}" if keys else "")


def _stop(value: int) -> str:
    return STOPS[value] if value < len(STOPS) else f"{value}"


def _serial(value: int) -> str:
    return f"{value & 0xFF:02X}" + (", received" if value >> 8 else "")


def _keys(codes: bytes) -> str:
    return codes.hex(" ").upper() or "none"


# The attributes here of all parts but the registers, and how they are written.
TEXTS: dict[str, tuple[str, Callable[[Any], str]]] = {
    "H": ("h", "{:08X}".format),
    "PC": ("pc", str),
    "flags": ("flags", flags),
    "stop": ("stop", _stop),
    **{name: (name, str) for name in ("timer", "rate", "phase")},
    "switches": ("switches", "{:03X}".format),
    "LEDs": ("leds", "{:02X}".format),
    "mouse": ("mouse", mouse),
    "serial": ("serial", _serial),
    "keys": ("keys", _keys),
    "disk": ("disk", "{:08X}".format),
}
_OTHERS = attrgetter(*(attribute for attribute, _ in TEXTS.values()))
# The parts of a state that are one word, in the order of parts: how the program names them, and their attributes here.
WORDS = {name: attribute for name, (attribute, _) in TEXTS.items() if name != "keys"}


def kind(taken: Event) -> str:
    """The name of an input's kind."""
    return KINDS.get(taken.kind, f"kind {taken.kind}")


def byte(value: int) -> str:
    """A byte in hexadecimal, which begins with a digit, and the sign that it has."""
    return f"{value:02X}H".rjust(3 + (value > 0x9F), "0") + (f" ({chr(value)})" if 0x20 < value < 0x7F else "")


def event(taken: Event) -> str:
    """An input by its kind and value, and the sign of a byte that has one."""
    name = kind(taken)
    if name == "mouse":
        return f"mouse {mouse(taken.value)}"
    if name == "switches":
        return f"switches {taken.value:03X}"
    return f"{name} {byte(taken.value) if name in ('key', 'serial') else taken.value}"


def text(sent: bytes) -> str:
    """Bytes as text: line feeds and signs of ASCII as they are, other bytes as a backslash and two digits."""
    plain = {10, *range(0x20, 0x7F)} - {ord("\\")}
    return "".join(chr(byte) if byte in plain else f"\\{byte:02x}" for byte in sent)


def ranges(numbers: list[int]) -> str:
    """Rising numbers, with what follows in a row joined, as in 1, 4 to 7."""
    runs: list[list[int]] = []
    for number in numbers:
        if runs and number == runs[-1][-1] + 1:
            runs[-1][1:] = [number]
        else:
            runs.append([number])
    return ", ".join(f"{run[0]}" if len(run) == 1 else f"{run[0]} to {run[1]}" for run in runs)


def hexdump(content: bytes, start: int) -> Iterator[str]:
    """Lines of sixteen bytes, each with the place of its first."""
    for at in range(0, len(content), 16):
        line = content[at : at + 16]
        signs = "".join(chr(byte) if 0x20 <= byte < 0x7F else "." for byte in line)
        yield f"{start + at:08X}  {line.hex(' '):47}  {signs}"
