"""Follows the calls of a machine through a run, piece by piece, by the library's definition of a call (include/galluspa.h)."""

import ctypes
import struct
from collections.abc import Iterator
from dataclasses import dataclass, field, replace
from typing import NamedTuple

from galluspa.engine.library import Library
from galluspa.engine.machine import Inputs, Machine
from galluspa.engine.structures import RawCall, RawTurn
from galluspa.formats.recording import WORDS
from galluspa.process.cli import Refused

# The highest R14 of the stack, where each rise of R14 ends the calls below it.
EACH_RISE = 0xFFFFFFFF
# The word of the call, in a turn in which no call is made.
NO_CALL = 0xFFFFFFFF
# The room for turns in a call of the library, and at first for calls.
TURNS, FIRST_CALLS = 1 << 14, 1 << 8
# The most calls that may be open: as many as memory has words for their return addresses.
MOST_OPEN = WORDS
# A call and a turn, as the library lays them out.
CALL, TURN = struct.Struct("<Q4I"), struct.Struct("<2Q4I")


class Call(NamedTuple):
    """A call that is open: the count of its branch, the number of this word, the word that it goes to, the word after it, and the
    stack pointer there, R14."""

    count: int  # type: ignore[assignment]
    at: int
    to: int
    back: int
    sp: int


class Turn(NamedTuple):
    """A count at which the open calls change: how many of the oldest stay open, and the call that is made then, as a Call has it.
    If none is made, `at` is NO_CALL."""

    count: int  # type: ignore[assignment]
    stay: int
    at: int
    to: int
    back: int
    sp: int


@dataclass
class Follower:
    """A machine of a run that is led on, with the calls that are open at its count."""

    library: Library
    inputs: Inputs
    machine: Machine
    # The highest R14 of the stack: above it lies another stack.
    limit: int = EACH_RISE
    # How many calls are open, and these, oldest first, at the front of a room for more.
    number: int = 0
    room: bytes = field(default_factory=lambda: bytes(CALL.size * FIRST_CALLS))
    turns: "ctypes.Array[RawTurn] | None" = None

    def copy(self) -> "Follower":
        """Returns another one at the same count."""
        return replace(self, machine=self.machine.copy(), turns=None)

    def calls(self) -> tuple[Call, ...]:
        """Returns the open calls, oldest first."""
        return tuple(map(Call._make, CALL.iter_unpack(memoryview(self.room)[: CALL.size * self.number])))

    def follow(self, to: int) -> Iterator[Turn]:
        """Leads the machine on to a count, and yields the turns on the way."""
        while self.machine.count < to:
            yield from map(Turn._make, TURN.iter_unpack(self.go_on(to)))

    def go(self, to: int) -> tuple[Call, ...]:
        """Leads the machine on to a count, and returns the calls that are open there, oldest first."""
        while self.machine.count < to:
            self.go_on(to)
        return self.calls()

    def go_on(self, to: int) -> memoryview:
        """Leads the machine on, to a count at most, for a part of a second, and returns the turns on the way; the next call
        overwrites them. Raises Refused where MOST_OPEN calls are open."""
        if CALL.size * self.number == len(self.room):
            if self.number >= MOST_OPEN:
                raise Refused(f"{MOST_OPEN:,} calls are open at count {self.machine.count:,}: more are not followed")
            self.room = self.room + bytes(len(self.room))
        calls = (RawCall * (len(self.room) // CALL.size)).from_buffer_copy(self.room)
        # A call that is interrupted may go on to fill them.
        turns, self.turns = self.turns or (RawTurn * TURNS)(), None
        self.number, many = self.library.follow(self.machine, self.inputs, to, self.limit, calls, self.number, turns)
        self.room, self.turns = bytes(calls), turns
        return memoryview(turns).cast("B")[: TURN.size * many]
