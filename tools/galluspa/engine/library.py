"""Calls the library for C through ctypes: what a checkpoint claims, and the proved machine, advanced from count to
count, searched, counted, traced and recorded."""

import ctypes
import os
import threading
import time
from array import array
from collections.abc import Callable, Iterator, Sequence
from dataclasses import dataclass
from pathlib import Path
from typing import Any

from galluspa.engine.machine import MOST_STEPS, SLICE_SECONDS
from galluspa.engine.machine import Inputs, Machine, Profile, Sent, slice_end, steps_after
from galluspa.engine.structures import CALLS, SIZE, Counts, RawHit, RawRecord, RawState, Words
from galluspa.formats.recording import WORDS
from galluspa.process import paths
from galluspa.process.children import WAIT_SECONDS
from galluspa.process.cli import Failed, Refused
from galluspa.process.timelimit import Limit

NAME = "libgalluspa.so"
VARIABLE = "GALLUSPA_LIBRARY"
SENT_AT_ONCE = 1 << 20
# More bytes than a verdict line has.
LINE_BYTES = 256
NO_ROOM, NO_MEMORY = 2, 3
REFUSALS = {
    1: "a number is out of its range",
    NO_ROOM: "no room for what the machine sends",
    NO_MEMORY: "no memory",
    4: "the bytes are not a recording",
    5: "the recording has no such checkpoint",
}
NOT_FOUND, MORE = 11, 12
# What the calls that run a machine do.
DOES = {"advance": "run the machine", "hits": "search", "profile": "count", "calls": "follow calls"}
# The number of a search for the last count.
LAST = 1
# What is added to the kind of a condition that is joined to the next one of its list.
AND = 1 << 31


def ignore(progress: object) -> None:
    """A progress callback that does nothing."""


def refusal(what: str, code: int) -> Refused:
    """Why something is not done, by what the library returns."""
    return (Failed if code == NO_MEMORY else Refused)(f"{what}: {REFUSALS.get(code, f'the library returns {code}')}")


def sized(array: ctypes.Array | bytes) -> tuple[object, int]:
    """Returns the two arguments of a call by which it reads or fills an array."""
    return array, len(array)


def _given(*values: Any) -> Iterator[object]:
    """Yields the arguments by which a call has values: an array and its length, the address of what else it fills, a number."""
    for it in values:
        yield from sized(it) if isinstance(it, ctypes.Array) else (it if isinstance(it, int) else ctypes.byref(it),)


@dataclass(frozen=True)
class Library:
    """The shared library, loaded from a path, and the time in which its runs have to end, if any."""

    path: str
    calls: ctypes.CDLL
    limit: Limit | None = None

    @staticmethod
    def find(given: str | None, limit: Limit | None = None) -> "Library":
        """Returns the library that was given, or else the first that is found where add_library_option says."""
        if named := given or os.environ.get(VARIABLE):
            if not Path(named).is_file():
                raise Refused(f"no library at {named}")
            return Library._load(str(Path(named).resolve()), limit)
        path = next(map(str, paths.libraries()), NAME)
        try:
            return Library._load(path, limit)
        except Refused:
            if path != NAME:
                raise
            raise Refused(
                f"found no {NAME}: build it with examples/c/install FOLDER, and name " f"FOLDER/lib/{NAME} with --library"
            ) from None

    @staticmethod
    def _load(path: str, limit: Limit | None) -> "Library":
        try:
            calls = ctypes.CDLL(path)
            for name, (result, arguments) in CALLS.items():
                call = getattr(calls, f"galluspa_{name}")
                call.restype, call.argtypes = result, arguments
        except (OSError, AttributeError) as error:
            raise Refused(f"{path}: no library of Galluspa: {error}") from error
        return Library(path, calls, limit)

    def claim(self, text: bytes, at: int) -> Machine:
        """Returns the machine that a checkpoint of a recording claims; whether the claim is true is not tested."""
        machine = Machine(RawState(), Words())
        code = self.calls.galluspa_claim(*sized(text), at, ctypes.byref(machine.state), *sized(machine.words))
        if code:
            raise refusal(f"cannot read checkpoint {at}", code)
        return machine

    def check(self, text: bytes) -> tuple[str, int]:
        """Returns the verdict line of a recording, and the program's exit status for it. One call takes the whole
        check."""
        line, status = ctypes.create_string_buffer(LINE_BYTES), ctypes.c_uint8()
        length = self.calls.galluspa_check(*sized(text), *sized(line), ctypes.byref(status))
        if not length:
            raise refusal("cannot check the recording", NO_MEMORY)
        return line.raw[:length].decode("ascii").rstrip("\n"), status.value

    def record(self, session: bytes) -> bytes:
        """Returns the recording of a session, which has to be a lawful one."""
        status, room = ctypes.c_uint8(), len(session)
        while True:
            out = ctypes.create_string_buffer(room)
            length = self.calls.galluspa_record(*sized(session), *sized(out), ctypes.byref(status))
            if not length:
                raise refusal("cannot record", NO_MEMORY)
            if length <= room:
                break
            room = length
        if status.value:
            raise Refused(f"cannot record: {out.raw[:length].decode('ascii', 'replace').strip()}")
        return out.raw[:length]

    def advance(self, machine: Machine, inputs: Inputs, to: int, heard: Callable[[int], None] = ignore) -> Sent:
        """Runs a machine up to a count, with those of the inputs that are due, and returns what it sends. A run that the
        time limit ends leaves the machine at an earlier count. Reports the count after each slice but the last."""
        sent = Sent()
        for more in self.slices(machine, inputs, to):
            sent += more
            if machine.count < to:
                heard(machine.count)
        return sent

    def slices(self, machine: Machine, inputs: Inputs, to: int) -> Iterator[Sent]:
        """Runs a machine up to a count, slice by slice, and yields what it sends in each."""
        room, length = ctypes.create_string_buffer(max(min(to - machine.count, SENT_AT_ONCE), 1)), SIZE()
        while machine.count < to:
            first, steps = machine.count, machine.steps
            if self._lead("advance", machine, inputs, to, room, length) == NO_ROOM:
                machine.steps = min(steps, to - first) // 2
                continue
            if 2 * length.value > len(room):
                machine.steps = min(steps, machine.steps)
            yield Sent(ctypes.string_at(room, length.value), length.value)

    def hits(self, machine: Machine, inputs: Inputs, to: int, conditions: ctypes.Array, room: int) -> Sequence[RawHit]:
        """Returns the counts, from a machine's on, at which one of these conditions holds, each with the index of the first that
        does; `room` at most. The machine is led on for a slice, up to `to` at most, or to the count after the last of them if they
        are that many."""
        hits, number = (RawHit * room)(), SIZE()
        self._lead("hits", machine, inputs, to, conditions, hits, number)
        return hits[: number.value]

    def profile(self, machine: Machine, inputs: Inputs, to: int) -> Profile:
        """Returns how often each instruction is done from a machine's count up to another; the machine stays as it is.
        One call takes all of this, so give it a slice; a call takes some milliseconds, however short."""
        counted = Profile(*(array("Q", [0]) * WORDS for _ in range(2)))
        self._run("profile", machine, inputs, to, *(Counts.from_buffer(it) for it in (counted.visits, counted.departures)))
        return counted

    def records(self, machine: Machine, inputs: Inputs, number: int) -> ctypes.Array[RawRecord]:
        """Returns what each of the next instructions of a machine does, which runs on by them. The inputs that they take are named
        by their indices among those of these counts. One call takes all of this, so give it a slice."""
        first = machine.count
        records, due = (RawRecord * number)(), inputs.raw(first, first + number)
        if code := self.calls.galluspa_records(*_given(machine.state, machine.words, due, records)):
            raise refusal(f"cannot record {number} counts from {first} on", code)
        return records

    def follow(
        self, machine: Machine, inputs: Inputs, to: int, limit: int, calls: ctypes.Array, present: int, turns: ctypes.Array
    ) -> tuple[int, int]:
        """Leads a machine on for a slice, up to a count at most, or to where there is no room for another call or turn, and follows
        its calls from the first `present` of `calls`, which are open. Returns how many are open then, and how many turns there were
        on the way; they are at the fronts of both arrays. `limit` is the highest R14 of the stack."""
        number, turned = SIZE(present), SIZE()
        self._lead("calls", machine, inputs, to, limit, calls, number, turns, turned)
        return number.value, turned.value

    def _lead(self, name: str, machine: Machine, inputs: Inputs, to: int, *more: object) -> int:
        """Leads a machine on by a call, for a slice, up to a count at most, and returns the call's code."""
        if self.limit:
            self.limit.left()
        first, end, begun = machine.count, slice_end(machine, inputs, machine.steps, to), time.monotonic()
        code, seconds = self._run(name, machine, inputs, end, *more), time.monotonic() - begun
        # A last slice that is short says little of the next, as does one that did not come to its end.
        if machine.count == end and (end < to or seconds > SLICE_SECONDS):
            machine.steps = steps_after(machine, end - first, seconds)
        return code

    def _run(self, name: str, machine: Machine, inputs: Inputs, to: int, *more: object) -> int:
        """Makes a call that runs a machine up to a count, and returns its code. One of many steps is made in a thread, which works
        on a copy: that is left to it, as is what else the call fills, if a signal or the limit of time comes first."""
        call, first, codes = getattr(self.calls, f"galluspa_{name}"), machine.count, list[int]()
        is_long = to - first > MOST_STEPS
        there, due = machine.copy() if is_long else machine, inputs.raw(first, to)
        arguments = (*_given(there.state, there.words, due), to, *_given(*more))
        if is_long:
            self._wait_for(threading.Thread(target=lambda: codes.append(call(*arguments)), daemon=True))
            machine.become(there)
        if (code := codes[0] if is_long else call(*arguments)) not in (0, NO_ROOM):
            raise refusal(f"cannot {DOES[name]} from {first} to {to}", code)
        return code

    def _wait_for(self, caller: threading.Thread) -> None:
        """Starts a thread, and handles a signal and the limit of time until it ends."""
        caller.start()
        while caller.is_alive():
            if self.limit:
                self.limit.left()
            caller.join(WAIT_SECONDS)
