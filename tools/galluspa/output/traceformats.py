"""Writes instructions by the million, as an object of JSON in each line: of the numbers of a step, without the states before and
after it."""

import json
from collections.abc import Iterator, Sequence
from functools import lru_cache

from galluspa.engine.recorded import PC, Devices, RawStep
from galluspa.formats import states
from galluspa.formats.instructions import address, is_branch, mnemonic, written
from galluspa.formats.symbols import NONE, Symbols

# The numbers of a processor by their names, how JSON begins each of them, and the parts of devices.
_PROCESSOR = (*states.REGISTERS, "H", "PC", "flags", "stop")
_BEGIN = [f'"{name}": [' for name in _PROCESSOR]
_DEVICES = ("timer", "rate", "phase", "switches", "LEDs", "mouse", "serial", "keys", "disk")
# The number of words, or instructions, whose texts are kept.
KEPT_WORDS = 1 << 16


class JsonLines:
    """Writes instructions as JSON: numbers and names alone, each part that changed with its old and its new value."""

    def __init__(self, symbols: Symbols = NONE) -> None:
        """The names are those of a symbol file; without one there are none."""
        self._symbols = symbols
        self._named = lru_cache(KEPT_WORDS)(self._names)

    def line(self, step: RawStep) -> str:
        """Returns the object of an instruction, without a line feed."""
        count, word, before, after, devices, later, inputs, change, sent = step
        shown, places = _shown(word)
        changed = [f"{_BEGIN[at]}{before[at]}, {after[at]}]" for at in places if before[at] != after[at]]
        if later is not devices:
            changed += _changed_devices(devices, later)
        taken = json.dumps([[event.count, states.kind(event), event.value] for event in inputs]) if inputs else "[]"
        return (
            f'{{"count": {count}, "inputs": {taken}, "PC": {before[PC]}, {shown}, '
            f'"changed": {{{", ".join(changed)}}}, "memory": {f"[{list(change)}]" if change else "[]"}, '
            f'"sent": {"[]" if sent is None else [sent]}{self._member(step) if self._symbols else ""}}}'
        )

    def _member(self, step: RawStep) -> str:
        """Returns the member with the names."""
        word, pc, to = step.word, step.before[PC], step.after[PC]
        is_taken = word is not None and is_branch(word) and to != pc + 1
        accessed = None if word is None else address(word, step.before)
        return self._named(pc, to if is_taken else None, accessed)

    def _names(self, pc: int, target: int | None, accessed: int | None) -> str:
        """Returns that member: the names of an instruction's address, its source, its target and what it accesses."""
        names = {
            "PC": self._symbols.text(4 * pc),
            "source": self._symbols.source(4 * pc),
            "target": "" if target is None else self._symbols.text(4 * target),
            "address": "" if accessed is None else self._symbols.text(accessed),
        }
        return f', "names": {json.dumps({part: name for part, name in names.items() if name})}'


@lru_cache(KEPT_WORDS)
def _shown(word: int | None) -> tuple[str, Sequence[int]]:
    """Returns the members that say an instruction's word, and which numbers of the processor it may change."""
    text = None if word is None else mnemonic(word)
    names = {"PC", "stop", *(() if word is None else written(word))}
    members = f'"word": {json.dumps(word)}, "instruction": {json.dumps(text)}'
    return members, [at for at, name in enumerate(_PROCESSOR) if name in names]


def _changed_devices(before: Devices, after: Devices) -> Iterator[str]:
    """Yields the parts of devices that changed."""
    for name, old, new in zip(_DEVICES, before, after, strict=True):
        if old != new:
            values = [list(it) if isinstance(it, bytes) else it for it in (old, new)]
            yield f'"{name}": {json.dumps(values)}'
