"""Shows where a value comes from: as a tree of lines, and for machines."""

from collections.abc import Iterator, Sequence

from galluspa.analysis.naming import with_remark
from galluspa.analysis.origins import (
    Elsewhere,
    Bytes,
    Constant,
    Device,
    Dot,
    Flags,
    Initial,
    Part,
    Register,
    Taken,
    Unfollowed,
    Value,
)
from galluspa.formats.devicewords import DEVICES_AT
from galluspa.formats import states
from galluspa.formats.instructions import mnemonic
from galluspa.formats.sourcetext import Sources
from galluspa.formats.symbols import Symbols
from galluspa.formats.recording import Event

INDENT = "  "


def lines(values: Sequence[Value], symbols: Symbols, sources: Sources | None = None, depth: int = 0) -> Iterator[str]:
    """Yields a line for each value but numbers of instructions, and below it those from which it was made."""
    for it in values:
        if shown := line(it, symbols, sources):
            yield INDENT * depth + shown
        yield from lines(it.sources, symbols, sources, depth + 1)


def line(it: Value, symbols: Symbols, sources: Sources | None = None) -> str:
    """Returns the line of a value; of a number of an instruction, which shows it itself, there is none."""
    if it.part is None:
        return ""
    role = f" ({it.role})" if it.role else ""
    shown = f"{part_name(it.part, symbols)}{role} = {_value(it)}"
    if it.step:
        word = it.step.word or 0
        shown += f"  at {it.step.before.count:,}  {it.step.before.pc}  {mnemonic(word)}"
    if it.has_outlived_call:
        shown += "  stored by a call that has returned"
    return with_remark(shown + _ending(it), _place(it, symbols, sources))


def _ending(it: Value) -> str:
    """Returns what is said of where a search ends."""
    match it.end:
        case Constant():
            return "  a constant"
        case Initial():
            return "  as at the beginning"
        case Taken(device, event):
            return f"  {_taken(device, event)}"
        case Elsewhere():
            return "  followed elsewhere in this tree"
        case Unfollowed():
            return "  not followed further"
    return ""


def _taken(device: str, event: Event | None) -> str:
    if event:
        return f"input {states.event(event)} at {event.count:,}"
    return "the timer counts instructions" if device == "timer" else f"{device} as at the beginning"


def _place(it: Value, symbols: Symbols, sources: Sources | None) -> str:
    """Returns the name of the instruction that wrote a value, its line, and what is there."""
    if it.step is None:
        return ""
    at = 4 * it.step.before.pc
    text = sources.line(symbols.line_at(at)).strip().partition(" ")[2].strip() if sources else ""
    source = symbols.source(at)
    return ", ".join(filter(None, [symbols.text(at), f"{source}: {text}" if source and text else source]))


def part_name(part: Part | None, symbols: Symbols) -> str:
    """Returns what a part is called, with the name of an address; nothing of a number of an instruction."""
    match part:
        case Register(name) | Device(name):
            return name
        case Flags(names):
            return f"flags {names}"
        case Dot(_, _, column, row):
            return f"dot {column},{row}"
        case Bytes(address, mask):
            if address >= DEVICES_AT:
                return "LEDs"
            numbers = [at for at in range(4) if mask >> at & 1]
            name = symbols.text(address + numbers[0])
            which = (
                f"Mem[{address:06X}]"
                if len(numbers) == 4
                else f"Mem[{address:06X}] byte{'s' * (len(numbers) > 1)} {states.ranges(numbers)}"
            )
            return f"{which} {name}" if name else which
    return ""


def _value(it: Value) -> str:
    """Returns a value as it is written."""
    if isinstance(it.part, Flags):
        return states.flags(it.value)
    if isinstance(it.part, Dot):
        return f"{it.value}"
    return f"{it.value:08X}"


def objects(values: Sequence[Value], symbols: Symbols) -> list[dict[str, object]]:
    """Returns the same for machines: each value with the instruction that wrote it, or where it ends, and with those from
    which it was made."""
    return [_object(it, symbols) for it in values]


def _object(it: Value, symbols: Symbols) -> dict[str, object]:
    found: dict[str, object] = {"part": _part_object(it.part), "value": it.value}
    if it.role:
        found["role"] = it.role
    if it.step:
        at = 4 * it.step.before.pc
        word = it.step.word or 0
        found |= {"count": it.step.before.count, "PC": it.step.before.pc, "word": word, "instruction": mnemonic(word)}
        names = {"PC": symbols.text(at), "source": symbols.source(at)}
        found |= {"names": {name: text for name, text in names.items() if text}} if symbols else {}
    if it.end:
        found["end"] = end_name(it)
    if isinstance(it.end, Taken) and it.end.event:
        event = it.end.event
        found["input"] = [event.count, states.kind(event), event.value]
    return {**found, "from": objects(it.sources, symbols)}


def end_name(it: Value) -> str:
    """Returns the word for how a search ends; nothing if it goes on."""
    return type(it.end).__name__.lower() if it.end else ""


def _part_object(part: Part | None) -> object:
    """Returns a part for machines: its name, its address and bytes, or a dot."""
    match part:
        case Register(name) | Device(name):
            return name
        case Flags(names):
            return {"flags": names}
        case Dot(_, _, column, row):
            return {"dot": [column, row]}
        case Bytes(address, mask):
            return {"address": address, "bytes": [at for at in range(4) if mask >> at & 1]}
    return None
