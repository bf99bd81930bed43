#!/usr/bin/env python3
"""find.py LIBRARY FILE: prints when a recording sends its first byte, and its last one, up to its last checkpoint."""

import ctypes
import sys
from pathlib import Path

WORDS, DONE, SENDS = 262144, 0, 6
Words, Condition, Hit = ctypes.c_uint32 * WORDS, ctypes.c_uint32 * 4, ctypes.c_uint64 * 2

library = ctypes.CDLL(sys.argv[1])
library.galluspa_claim.restype = library.galluspa_find.restype = ctypes.c_uint8
size, text = ctypes.c_size_t, Path(sys.argv[2]).read_bytes()
# A galluspa_state is 144 bytes, and its first 8 are the count. The inputs, of 16 bytes each, come after the header and the pages.
state, words = (ctypes.c_uint64 * 18)(), Words()
pages, events, checkpoints = (int.from_bytes(text[at : at + 4], "little") for at in (8, 12, 16))
inputs = ctypes.create_string_buffer(text[24 + 1024 * pages :][: 16 * events], 16 * events)


def claim(at):
    """Reads what a checkpoint claims: its state and its words."""
    if library.galluspa_claim(text, size(len(text)), ctypes.c_uint32(at), state, words, size(WORDS)):
        sys.exit("refused")


claim(checkpoints - 1)
last = ctypes.c_uint64(state[0])
claim(0)
for wanted, name in enumerate(("first", "last")):
    hit = Hit()
    answer = library.galluspa_find(
        state, words, size(WORDS), inputs, size(events), last, Condition(SENDS), size(1), ctypes.c_uint32(wanted), hit
    )
    print(f"{name} byte sent by the instruction of count {hit[0]}" if answer == DONE else f"no {name} byte")
