"""Writes what strangers chose, such as names of files and what is in them, so that a terminal or a reader of TAP only
shows it."""


def printable(text: str) -> str:
    """Returns a text in one line, with invisible characters escaped, as in \\n;
    also each byte of a name that is not UTF-8, as in \\xff."""
    return "".join(sign if sign.isprintable() else _escape(sign) for sign in text)


def for_tap(text: str) -> str:
    """Returns the same, as TAP writes a description: a backslash is doubled, and a number sign begins no directive."""
    return printable(text).replace("\\", "\\\\").replace("#", r"\#")


def _escape(sign: str) -> str:
    is_byte = 0xDC80 <= ord(sign) <= 0xDCFF
    return f"\\x{ord(sign) - 0xDC00:02x}" if is_byte else ascii(sign)[1:-1]
