"""Asks a run who wrote a part last, by searches of the library; reads which part is asked for, and finds where its value comes
from."""

from collections.abc import Sequence
from dataclasses import dataclass

from galluspa.analysis.addresses import moment_of, place_words, register_named
from galluspa.analysis.conditionwords import Words, place_of
from galluspa.analysis.expressions import Moment
from galluspa.analysis.lastwrites import last_step
from galluspa.analysis.origins import (
    ALL_FLAGS,
    Bytes,
    Dot,
    Flags,
    Register,
    Value,
    Written,
    bytes_of,
    flags_of,
    origins,
    register_of,
)
from galluspa.analysis.rawconditions import (
    CHANGE,
    FLAG_BITS,
    IS,
    KIND_NUMBERS,
    REGISTER_NUMBERS,
    STORE,
    WRITES,
    WRITES_FLAGS,
    Condition,
    Raw,
)
from galluspa.analysis.search import Search
from galluspa.engine.following import EACH_RISE
from galluspa.engine.machine import Machine
from galluspa.formats.devicewords import DEVICES_AT, LEDS_AT, MOST_KEYS
from galluspa.engine.tracing import Run, Step
from galluspa.formats.recording import DISPLAY_START, MEMORY_BYTES, Event
from galluspa.formats.symbols import Symbols, shown
from galluspa.process.cli import Refused

# The kinds of inputs that set the devices from which one loads.
KINDS_OF = {"switches": "switches", "mouse": "mouse", "serial": "serial", "timer": "timer", "keys": "key", "disk": "disk"}
# The default number of links, and the most.
LINKS, MOST_LINKS = 20, 200
WANTED = "expected R0 to R15, SP, LNK, H, flags, LEDs, a word of memory or some of its bytes, *ADDRESS, or dot X,Y"


@dataclass(frozen=True)
class Writers:
    """The last writes in a run."""

    run: Run
    jobs: int = 1
    # The highest R14 of the stack.
    stack_limit: int = EACH_RISE

    def last_write(self, part: Written, before: int) -> Step | None:
        """Returns the last instruction before a count that wrote a part; of a dot, that changed it."""
        return last_step(self.run, _writing(part), self.run.first_count, before, self.jobs)

    def was_stack_above(self, address: int, first: int, last: int) -> bool:
        """Returns whether R14 was above an address, and in the stack, at one of the counts from `first` to `last`."""
        above = Condition("SP is above", (Raw(IS, REGISTER_NUMBERS["R14"], least=address + 1, most=self.stack_limit),))
        return address < self.stack_limit and Search(self.run, [above], first, last + 1, self.jobs).first() is not None

    def input_of(self, device: str, step: Step) -> Event | None:
        """Returns the input that set a device last, or of keys the one whose key comes first."""
        kind = KIND_NUMBERS[KINDS_OF[device]]
        taken = [it for it in step.inputs if it.kind == kind]
        if device == "keys":
            return self._key(step, taken)
        if device == "timer" and step.before.rate:
            return None
        if taken:
            return taken[-1]
        return next((it for it in reversed(self._inputs_before(step.before.count)) if it.kind == kind), None)

    def _inputs_before(self, count: int) -> Sequence[Event]:
        """Returns the inputs from the beginning of the run up to a count."""
        return self.run.inputs.of(self.run.first_count, count)

    def _key(self, step: Step, taken: list[Event]) -> Event | None:
        """Returns the input of the key that is first before an instruction: of as many keys as wait, the first of the last
        inputs that were not dropped."""
        waiting = len(step.before.keys)
        if not waiting:
            return taken[0] if taken else None
        earlier = [it for it in self._inputs_before(step.before.count) if it.kind == KIND_NUMBERS["key"]]
        for at in range(len(earlier) - 1, -1, -1):
            before = sum(it.count == earlier[at].count for it in earlier[:at])
            if self.run.machine(earlier[at].count).state.key_count + before < MOST_KEYS:
                waiting -= 1
            if not waiting:
                return earlier[at]
        return None


def origins_asked(
    writers: Writers, machine: Machine, text: str, symbols: Symbols, most: int = LINKS, has_addresses: bool = True
) -> list[Value]:
    """Returns where the value comes from that a machine of a run has in the part that a text names, by at most `most` links, with
    the addresses of loads and stores or without."""
    moment = moment_of(machine)
    part = part_asked(text, moment, symbols)
    return origins(writers, part, value_now(part, moment), machine.count, most, has_addresses)


def _writing(part: Written) -> Condition:
    """Returns the condition that an instruction writes a part."""
    match part:
        case Register(name):
            return Condition(f"writes {name}", (Raw(WRITES, REGISTER_NUMBERS[name]),))
        case Flags():
            return Condition(f"writes {part.names}", (Raw(WRITES_FLAGS, value=flags_of(FLAG_BITS, part)),))
        case Dot(address, bit):
            return Condition("change dot", (Raw(CHANGE, address, address + 4, 1 << bit),))
    raws = [Raw(STORE, part.address + at, part.address + at + 1) for at in range(4) if part.mask >> at & 1]
    return Condition("store", tuple(raws) if part.mask != 15 else (Raw(STORE, part.address, part.address + 4),))


def part_asked(text: str, moment: Moment, symbols: Symbols) -> Written:
    """Returns the part that a text names: a register, the LEDs, a dot, or a word of memory or bytes of one."""
    if not text.strip():
        raise Refused(WANTED)
    if name := register_named(text):
        return Flags(ALL_FLAGS) if name == "flags" else Register(name)
    if text.strip().lower() == "leds" and not symbols.places(text.strip()):
        return Bytes(LEDS_AT)
    words = Words(place_words(text, moment, symbols), symbols)
    is_dot = words.next == "dot"
    try:
        place = place_of(words, has_devices=True)
    except ValueError as why:
        raise Refused(f"{shown(text)}: {why}") from why
    if words or place.end - (place.first & ~3) > 4 or place.first >= DEVICES_AT and place.first & ~3 != LEDS_AT:
        raise Refused(f"{shown(text)}: {WANTED}")
    if is_dot:
        bit = place.mask.bit_length() - 1
        row, left = divmod(place.first - DISPLAY_START, 128)
        return Dot(place.first, bit, 8 * left + bit, row)
    return Bytes(place.first & ~3, sum(1 << (at & 3) for at in range(place.first, place.end)))


def value_now(part: Written, moment: Moment) -> int:
    """Returns the value of a part at a moment."""
    match part:
        case Register(name):
            return register_of(moment.state, name)
        case Flags():
            return flags_of(moment.state.flags, part)
        case Dot(address, bit):
            return moment.word(address // 4) >> bit & 1
        case Bytes(address) if address < MEMORY_BYTES:
            return bytes_of(moment.word(address // 4), part)
    return moment.state.leds
