"""The structures that the library for C reads and writes, and the types of its calls, as include/galluspa.h declares them: a test
compares the two."""

import ctypes

from galluspa.formats.recording import WORDS

Words, Counts = ctypes.c_uint32 * WORDS, ctypes.c_uint64 * WORDS


class RawState(ctypes.Structure):
    """A machine's state without its memory, as include/galluspa.h lays it out."""

    _fields_ = [
        ("count", ctypes.c_uint64),
        ("r", ctypes.c_uint32 * 16),
        *((name, ctypes.c_uint32) for name in ("h", "pc", "flags", "stop", "timer", "rate", "phase", "switches", "leds")),
        *((name, ctypes.c_uint32) for name in ("mouse", "serial", "key_count")),
        ("keys", ctypes.c_uint8 * 16),
        *((name, ctypes.c_uint32) for name in ("disk", "reserved")),
    ]


class RawInput(ctypes.Structure):
    """An input and its count, as include/galluspa.h lays them out."""

    _fields_ = [("count", ctypes.c_uint64), ("kind", ctypes.c_uint32), ("value", ctypes.c_uint32)]


class RawCondition(ctypes.Structure):
    """A condition of a search, as include/galluspa.h lays it out."""

    _fields_ = [(name, ctypes.c_uint32) for name in ("kind", "first", "end", "value", "least", "most")]


class RawHit(ctypes.Structure):
    """A count at which a condition holds, and its index, as include/galluspa.h lays them out."""

    _fields_ = [("count", ctypes.c_uint64), ("condition", ctypes.c_uint64)]


class RawRecord(ctypes.Structure):
    """What an instruction does, and the state before it, as include/galluspa.h lays it out."""

    _fields_ = [
        ("state", RawState),
        *((name, ctypes.c_uint64) for name in ("inputs_from", "inputs_count")),
        *((name, ctypes.c_uint32) for name in ("word", "address", "old_value", "new_value", "sent")),
        *((name, ctypes.c_uint8) for name in ("has_word", "access_bytes", "stores", "sends")),
    ]


class RawCall(ctypes.Structure):
    """A call that is open, as include/galluspa.h lays it out."""

    _fields_ = [("count", ctypes.c_uint64), *((name, ctypes.c_uint32) for name in ("at", "to", "back", "sp"))]


class RawTurn(ctypes.Structure):
    """A count at which the open calls change, as include/galluspa.h lays it out."""

    _fields_ = [
        *((name, ctypes.c_uint64) for name in ("count", "stay")),
        *((name, ctypes.c_uint32) for name in ("at", "to", "back", "sp")),
    ]


class RawExtent(ctypes.Structure):
    """Where a past is, as include/galluspa.h lays it out."""

    _fields_ = [(name, ctypes.c_uint64) for name in ("first", "end", "reached", "keyframes", "pages", "inputs")]


# The handle of a past: zeros if none is open.
Handle = ctypes.c_uint64 * 2
POINTER, SIZE, COUNT, WORD, CODE = ctypes.c_void_p, ctypes.c_size_t, ctypes.c_uint64, ctypes.c_uint32, ctypes.c_uint8
# Bytes or an array, and how many there are: what each call reads and fills.
ARRAY = (POINTER, SIZE)
# The first arguments of each call that runs a machine: its state, its memory, and the inputs that are due.
RUN = (POINTER, *ARRAY, *ARRAY)
# The type of the result and those of the arguments of the calls that the tools use, by their names without galluspa_.
CALLS = {
    "check": (SIZE, [*ARRAY, *ARRAY, POINTER]),
    "record": (SIZE, [*ARRAY, *ARRAY, POINTER]),
    "claim": (CODE, [*ARRAY, WORD, POINTER, *ARRAY]),
    "advance": (CODE, [*RUN, COUNT, *ARRAY, POINTER]),
    "hits": (CODE, [*RUN, COUNT, *ARRAY, *ARRAY, POINTER]),
    "profile": (CODE, [*RUN, COUNT, *ARRAY, *ARRAY]),
    "records": (CODE, [*RUN, *ARRAY]),
    "calls": (CODE, [*RUN, COUNT, WORD, *ARRAY, POINTER, *ARRAY, POINTER]),
    "past_begin": (CODE, [POINTER, POINTER, *ARRAY, COUNT]),
    "past_close": (None, [POINTER]),
    "past_extent": (CODE, [POINTER, POINTER]),
    "past_at": (CODE, [POINTER, COUNT, COUNT, COUNT, POINTER, POINTER, *ARRAY, POINTER]),
    "past_input": (CODE, [POINTER, *ARRAY]),
    "past_run": (CODE, [POINTER, COUNT, COUNT, *ARRAY, POINTER]),
    "past_find": (CODE, [POINTER, COUNT, COUNT, *ARRAY, WORD, COUNT, POINTER, POINTER]),
}
