"""Makes the live page with a project in it: web/galluspa.html with a recording, and with a JSON of what is shown beside it.

The page itself exports projects in this form; web/formats/project.js has the members.
"""

import base64
import gzip
import html
import io
import json
import re
from collections.abc import Mapping
from pathlib import Path

from galluspa.formats.symbols import Symbols
from galluspa.process import paths
from galluspa.process.cli import Refused, read_file
from galluspa.process.escapes import printable

PAGE = paths.page()
AT_ONCE = 1 << 20
# What the page reads of a name, of a source and of a note.
LONGEST_NAME, LONGEST_SOURCE, LONGEST_NOTE = 80, 4_000_000, 2000
TITLE = re.compile(r"(?<=<title>)[^<]*(?=</title>)")
BODY = "<body>\n"


def page(name: str, line: str, recording: bytes, project: Mapping[str, object]) -> str:
    """Returns the page of a recording with this name and this verdict line, and with these members of its project."""
    try:
        built = PAGE.read_text()
    except OSError as error:
        raise Refused(f"{PAGE}: {error.strerror}; this needs that page") from error
    if BODY not in built or not TITLE.search(built):
        raise Refused(f"{PAGE}: not a page that web/build made")
    head = {"format": "galluspa-project", "version": 1, "name": Path(name).stem[:LONGEST_NAME] or "recording"}
    parts = {"recording": recording, "project": json.dumps({**head, **project}).encode()}
    scripts = (f'<script type="text/plain" id="g-{part}">{_packed(content)}</script>\n' for part, content in parts.items())
    titled = TITLE.sub(lambda _: html.escape(f"{name}: {line}"), built, 1)
    return titled.replace(BODY, BODY + "".join(scripts), 1)


def text_of(path: Path, what: str, longest: int) -> str:
    """Returns the text of a file, at most so many bytes in UTF-8."""
    content = read_file(path, longest + 1)
    if len(content) > longest:
        raise Refused(f"{path}: {what} has at most {longest:,} bytes")
    try:
        return content.decode()
    except UnicodeDecodeError as error:
        raise Refused(f"{path}: not a text in UTF-8, from byte {error.start} on") from error


def source(path: Path) -> tuple[str, str]:
    """Returns the name and the text of a source, as a project has them."""
    return printable(path.name), text_of(path, "a source", LONGEST_SOURCE)


def names(symbols: Symbols) -> dict[str, str] | None:
    """Returns a symbol file, as a project has it."""
    return {"from": symbols.origin, "bytes": base64.b64encode(symbols.content).decode()} if symbols.content else None


def _packed(content: bytes) -> str:
    """Returns bytes as the page unpacks them, in base64: compressed piece by piece, so that a signal is handled between them."""
    out = io.BytesIO()
    with gzip.GzipFile(fileobj=out, mode="wb", mtime=0) as packed:
        for at in range(0, len(content), AT_ONCE):
            packed.write(content[at : at + AT_ONCE])
    return base64.b64encode(out.getvalue()).decode()
