"""The recording of what a session or a recording begins with and of its inputs, for tools that run it for themselves."""

import json
from pathlib import Path

from galluspa.engine.program import Program
from galluspa.formats.sessionfaults import parsed
from galluspa.formats.sessions import CHECKPOINTS, COUNTS
from galluspa.process.cli import Refused, read_file


def recording_of(program: Program, path: Path, to: int | None) -> tuple[bytes, int]:
    """Returns a recording that begins as a session or a recording does and has its inputs, and the count up to which it is looked
    at: the one that is given, or that of the last checkpoint."""
    text = read_file(path)
    if text.startswith(b"ORSR"):
        counts = [it.count for it in program.decoded(str(path), text).checkpoints]
    else:
        session, counts = without_checkpoints(text)
        text = program.recorded(session, f"{path}: neither a recording nor a session: ")
    if not (end := to or max(counts, default=0)):
        raise Refused(f"{path}: no checkpoint: give --to N")
    return text, end


def without_checkpoints(text: bytes) -> tuple[bytes, list[int]]:
    """Returns a session without its checkpoints, so that recording it runs nothing, and their counts. A text whose checkpoints
    are not lawful stays as it is, for the program to refuse."""
    session = parsed(text)
    counts = session.get("checkpoints") if isinstance(session, dict) else None
    if not isinstance(counts, list) or len(counts) > CHECKPOINTS or not all(type(count) is int for count in counts):
        return text, []
    if any(one >= other for one, other in zip([0, *counts], [*counts, COUNTS + 1])):
        return text, []
    return json.dumps({**session, "checkpoints": []}).encode(), counts
