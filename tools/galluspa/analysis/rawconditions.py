"""What a search looks for, as the library takes it: conditions, of which some are joined, and what they are called."""

from collections.abc import Callable
from dataclasses import dataclass

from galluspa.analysis.expressions import Moment
from galluspa.engine.tracing import Step
from galluspa.formats import states
from galluspa.formats.devicewords import KEYS_AT, LEDS_AT, SERIAL_AT
from galluspa.formats.recording import KINDS, WORD

# The kinds of conditions, as include/galluspa.h numbers them.
COUNTER, STORE, CHANGE, LOAD, BECOMES, SENDS, SENDS_BYTE, TAKES, STOPS, WRITES, IS, IS_WORD, ALTERS, WRITES_FLAGS = range(1, 15)
# A search takes no more at once, of which as many can be joined with one another.
MOST_CONDITIONS, MOST_JOINED = 64, 4
KIND_NUMBERS = {name: kind for kind, name in KINDS.items()}
# A mask of all four flags.
FLAG_BITS = 15
REGISTER_NUMBERS = {name: at for at, name in enumerate((*states.REGISTERS, "H", "flags"))}


# Whether something holds at a moment.
Test = Callable[[Moment], bool]


@dataclass(frozen=True)
class Raw:
    """A condition as the library takes it, and whether it is joined to the next one of its list: then both have to hold."""

    kind: int
    first: int = 0
    end: int = 0
    value: int = 0
    least: int = 0
    most: int = 0
    is_joined: bool = False


# What writes the parts of a state that are not registers.
WRITTEN = {
    "out": (Raw(SENDS),),
    "stop": (Raw(STOPS),),
    "LEDs": (Raw(STORE, LEDS_AT, LEDS_AT + 4),),
    "switches": (Raw(TAKES, value=KIND_NUMBERS["switches"]),),
    "mouse": (Raw(TAKES, value=KIND_NUMBERS["mouse"]),),
    "serial": (Raw(TAKES, value=KIND_NUMBERS["serial"]), Raw(LOAD, SERIAL_AT, SERIAL_AT + 4)),
    "keys": (Raw(TAKES, value=KIND_NUMBERS["key"]), Raw(LOAD, KEYS_AT, KEYS_AT + 4)),
    "disk": (Raw(TAKES, value=KIND_NUMBERS["disk"]),),
}


@dataclass(frozen=True)
class Condition:
    """What is sought: as it is written, and the conditions of the library of which one holds where it does. Of a device
    that becomes a value, they hold also elsewhere, and `is_so` says of an instruction whether it brings it about. So does `test` of
    the machine before it, if values are compared for which the library has no condition. `after` tests the machine after the
    instruction."""

    text: str
    raws: tuple[Raw, ...]
    is_so: Callable[[Step], bool] | None = None
    test: Test | None = None
    after: Test | None = None


def writing(part: str | int) -> Condition | None:
    """That a register, H, the flags, a word of memory, by its address, or a part of a device is written, whatever the value. None
    of a part for which the library has no such condition."""
    if isinstance(part, int):
        return Condition(f"store {part:#x}", (Raw(STORE, part, part + 4),))
    if part in REGISTER_NUMBERS:
        return Condition(f"writes {part}", (Raw(WRITES, REGISTER_NUMBERS[part]),))
    return Condition(f"{part} is written", WRITTEN[part]) if part in WRITTEN else None


def changing(part: str) -> Condition:
    """That a register, H, the flags or a part of a device of WRITTEN changes."""

    def is_so(step: Step) -> bool:
        return states.values(step.before)[part] != states.values(step.after)[part]

    text, number = f"change {part}", REGISTER_NUMBERS.get(part)
    if number is None:
        return Condition(text, WRITTEN[part], is_so)
    return Condition(text, (Raw(ALTERS, number, value=FLAG_BITS if part == "flags" else WORD),))
