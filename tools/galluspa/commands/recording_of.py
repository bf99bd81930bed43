"""Takes the recording out of a page that `galluspa report` made, or that the live page exported.

What a page from a stranger shows proves nothing, since it can show any line. The recording in it can be checked with a
program of your own.
"""

import binascii
import re
import zlib
from argparse import Namespace
from pathlib import Path
from textwrap import dedent

from galluspa.process.cli import MOST, OK, Parser, Refused, read_file, write_bytes

RECORDING = re.compile(rb'<script type="text/plain" id="g-recording">([^<]*)</script>')
# More bytes than a report has that holds the longest recording.
LONGEST_PAGE = 1 << 28


def parser() -> Parser:
    options = Parser(
        dedent(
            """\
            Prints the recording that a report or an exported project holds, as it is, so that you check it with
            your own program. It runs nothing of the page."""
        ),
        "galluspa recording-of face.html > face.orsr",
        {OK: "the recording is printed, whatever its verdict"},
    )
    options.add_argument("page", metavar="PAGE", type=Path, help="a page that `galluspa report` or the live page made")
    return options


def recording_in(name: str, page: bytes) -> bytes:
    """Returns the bytes of the recording that a page holds, whoever wrote it."""
    found = RECORDING.findall(page)
    if not found:
        raise Refused(f"{name}: no recording in this page: galluspa report makes pages with one, and so does Export")
    if len(found) > 1:
        raise Refused(f"{name}: {len(found)} recordings in this page: a report or a project has one")
    unpacking = zlib.decompressobj(wbits=16 + zlib.MAX_WBITS)
    try:
        text = unpacking.decompress(binascii.a2b_base64(found[0], strict_mode=True), MOST)
    except (ValueError, zlib.error) as error:
        raise Refused(f"{name}: the recording in this page is not compressed data") from error
    if len(text) >= MOST or not unpacking.eof:
        raise Refused(f"{name}: the recording in this page is cut off, or longer than any recording")
    return text


def main(asked: Namespace) -> int:
    """Prints the recording in a page."""
    write_bytes(recording_in(str(asked.page), read_file(asked.page, LONGEST_PAGE)))
    return OK
