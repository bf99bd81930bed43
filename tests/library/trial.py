"""What the tests of the library for C share: where things are, and how commands are run and answers compared."""

import subprocess
from collections.abc import Iterator
from pathlib import Path
from typing import Any, NoReturn

TOP = Path(__file__).resolve().parents[2]
PROGRAM = TOP / "crates/oberon_replay/out/oberon_replay"
CRATE = TOP / "crates/galluspa"
EXAMPLES = TOP / "examples"
STORED = (TOP / "crates/oberon_replay/stdin").read_bytes()
FACE = (EXAMPLES / "face.orsr").read_bytes()
WARNINGS = ["-std=c11", "-O2", "-Wall", "-Wextra", "-Werror"]


def fail(why: str) -> NoReturn:
    """Ends the test, and says why."""
    raise AssertionError(why)


def run(*words: str | bytes | Path, given: bytes | None = None, limit: float | None = 300, **more: Any) -> tuple[bytes, int]:
    """Returns what a command printed on both outputs, and its status."""
    ran = subprocess.run(list(words), input=given, stdout=subprocess.PIPE, stderr=subprocess.STDOUT, timeout=limit, **more)
    return ran.stdout, ran.returncode


def expect(what: str, found: object, wanted: object) -> None:
    """Fails if something is not what is wanted."""
    if found != wanted:
        fail(f"{what}: {found!r:.400} in place of {wanted!r:.400}")


def changed(text: bytes, at: int, to: int | None = None) -> bytes:
    """Bytes of which one is another: the one that is given, or the same with its lowest bit inverted."""
    return text[:at] + bytes([text[at] ^ 1 if to is None else to]) + text[at + 1 :]


def mutants() -> Iterator[bytes]:
    """Recordings with one byte changed, and some cut off or too long."""
    for text in (
        STORED,
        run(PROGRAM, "migrate", given=STORED)[0],
        run(PROGRAM, "record", given=(EXAMPLES / "keys.json").read_bytes())[0],
    ):
        yield text
        for at in [*range(0, 24), *range(24, len(text), 1 + len(text) // 40), *range(len(text) - 300, len(text), 9)]:
            yield changed(text, at)
            yield changed(text, at, 255)
        for length in (0, 3, 23, 24, len(text) - 1):
            yield text[:length]
        yield text + b"\0"
    for at in (30, len(FACE) - 700, len(FACE) - 3):
        yield changed(FACE, at)
