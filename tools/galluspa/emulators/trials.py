"""A trial: a session on which two machines are compared after a number of instructions, small enough to be made by the thousand."""

import struct
from collections.abc import Mapping, Sequence
from dataclasses import dataclass, replace

from galluspa.formats.devicewords import RECEIVED
from galluspa.formats.recording import NO_PAGE, PAGE_BYTES, UNANSWERED, Checkpoint, Event
from galluspa.formats.sessions import KIND_NUMBERS, Session, numbers_of

# What a kept emulator is sent of a trial: its number, how many instructions, inputs and pages; and the parts of its state,
# which are those of an answer.
HEAD = struct.Struct("<4I")
STATE = struct.Struct("<28I16s")
INPUT = struct.Struct("<3I")
SLOT = struct.Struct("<I")
NO_KEYS = bytes(16)
# What follows in a state of the library: no disk has answered.
NO_DISK = struct.pack("<2I", UNANSWERED, 0)


@dataclass(frozen=True)
class Trial:
    """A session with one checkpoint: what it begins with, the pages that are not zero by their slots, the inputs, and how
    many instructions it has."""

    registers: tuple[int, ...]
    pages: Mapping[int, bytes]
    count: int
    h: int = 0
    pc: int = 0
    flags: int = 0
    rate: int = 0
    phase: int = 0
    inputs: Sequence[Event] = ()

    def session(self) -> Session:
        """Returns the session, with a checkpoint at its end."""
        return Session(
            registers=list(self.registers),
            **numbers_of(self),
            memory=self.memory(),
            inputs=list(self.inputs),
            checkpoints=[self.count] if self.count else [],
        )

    def memory(self) -> bytes:
        """Returns the bytes of the memory, up to the last page that is not zero."""
        memory = bytearray(PAGE_BYTES * (max(self.pages, default=-1) + 1))
        for slot, page in self.pages.items():
            memory[slot * PAGE_BYTES : (slot + 1) * PAGE_BYTES] = page
        return bytes(memory)

    def later(self, state: Checkpoint, memory: bytes) -> "Trial | None":
        """Returns the trial that continues from a state and a memory to which this one leads. Devices get their values by inputs
        before the first instruction, and the LEDs are left out. None if no session begins so: the machine has stopped, or
        the serial line has a byte that was read already."""
        if state.stop or 0 < state.serial < RECEIVED:
            return None
        devices = {"timer": state.timer, "switches": state.switches, "mouse": state.mouse}
        first = [(name, value) for name, value in devices.items() if value]
        first += [("key", key) for key in state.keys]
        first += [("serial", state.serial - RECEIVED)] if state.serial else []
        first += [("disk", state.disk)] if state.disk != UNANSWERED else []
        due = [event for event in self.inputs if state.count <= event.count < self.count]
        pages = (memory[at : at + PAGE_BYTES] for at in range(0, len(memory), PAGE_BYTES))
        return Trial(
            registers=tuple(state.registers),
            pages={slot: page for slot, page in enumerate(pages) if page != NO_PAGE},
            count=self.count - state.count,
            **numbers_of(state),
            inputs=[
                *(Event(0, KIND_NUMBERS[name], value) for name, value in first),
                *(replace(event, count=event.count - state.count) for event in due),
            ],
        )

    def words(self) -> dict[int, int]:
        """Returns the words of memory that are not zero, by their numbers."""
        return {
            slot * 256 + at: word
            for slot, page in self.pages.items()
            for at, word in enumerate(struct.unpack("<256I", page))
            if word
        }

    def with_words(self, words: Mapping[int, int]) -> "Trial":
        """Returns the same with these words of memory, and zeros elsewhere."""
        pages: dict[int, bytearray] = {}
        for at, word in words.items():
            struct.pack_into("<I", pages.setdefault(at // 256, bytearray(PAGE_BYTES)), at % 256 * 4, word)
        return replace(self, pages={slot: bytes(pages[slot]) for slot in sorted(pages)})

    def state(self) -> bytes:
        """Returns the initial state as a kept emulator is sent it."""
        return STATE.pack(*self.registers, self.h, self.pc, self.flags, 0, 0, self.rate, self.phase, 0, 0, 0, 0, 0, NO_KEYS)

    def request(self, number: int) -> bytes:
        """Returns what a kept emulator is sent."""
        pieces = [HEAD.pack(number, self.count, len(self.inputs), len(self.pages)), self.state()]
        pieces += [INPUT.pack(event.count, event.kind, event.value) for event in self.inputs]
        for slot, page in self.pages.items():
            pieces += (SLOT.pack(slot), page)
        return b"".join(pieces)
