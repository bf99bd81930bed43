"""The addresses of the device words, and which parts of a state they have."""

# The addresses of the device words, and of those whose accesses change something.
DEVICES_AT, LEDS_AT, SERIAL_AT, KEYS_AT = 0xFFFFC0, 0xFFFFC4, 0xFFFFC8, 0xFFFFDC
# The parts of a state that loads from device words read.
_PARTS = ("timer", "switches", "serial", "serial", "disk", None, "mouse", "keys")
LOADED = {DEVICES_AT + 4 * at: part for at, part in enumerate(_PARTS) if part}
# The most key codes that wait, and the bit of the mouse word that says that one waits.
MOST_KEYS, KEY_WAITS = 16, 1 << 28
# The bit of the serial part that says that its byte is new.
RECEIVED = 1 << 8
