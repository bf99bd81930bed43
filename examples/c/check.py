#!/usr/bin/env python3
"""check.py LIBRARY FILE..: prints the verdict line of each recording, by the shared library, and ends with the worst status."""

import ctypes
import sys
from pathlib import Path

library = ctypes.CDLL(sys.argv[1])
library.galluspa_check.restype = ctypes.c_size_t
worst = 0
for name in sys.argv[2:]:
    text, line, status = Path(name).read_bytes(), ctypes.create_string_buffer(256), ctypes.c_uint8()
    sizes = ctypes.c_size_t(len(text)), ctypes.c_size_t(len(line))
    written = library.galluspa_check(text, sizes[0], line, sizes[1], ctypes.byref(status))
    if not written:
        sys.exit(f"{name}: no memory")
    print(f"{name}: {line.raw[:written].decode()}", end="")
    worst = max(worst, status.value)
sys.exit(worst)
