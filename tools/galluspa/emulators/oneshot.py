"""Another emulator, as a command that prints its state at a count as JSON (docs/debugging.md has the members); and what the
tools that run such a COMMAND share."""

import hashlib
import json
import re
import shlex
from collections.abc import Callable, Sequence
from dataclasses import dataclass
from pathlib import Path
from typing import Any

from galluspa.engine.machine import SENT_KEPT, Machine, Sent
from galluspa.formats import states
from galluspa.formats.recording import MEMORY_BYTES
from galluspa.process import children
from galluspa.process.cli import Parser, Refused, read_file, whole_number
from galluspa.process.timelimit import Limit, TimeIsUp

PLACE = "{count}"
# More than an object with all parts of a state has, whatever was sent.
LONGEST = 4 * SENT_KEPT


def add_command(options: Parser) -> None:
    """Adds the command of another emulator, or about one, as an argument."""
    options.add_argument("command", metavar="COMMAND", nargs="+", help="after --: the command and its arguments")


def add_seconds_option(options: Parser, name: str, seconds: int, each: str = "each time") -> None:
    """Adds the option that bounds the time of a command, which has `seconds` if it is left out."""
    kind = whole_number(1, 1 << 20)
    told = f"time limit of COMMAND {each}, in seconds (default {seconds})"
    options.add_argument(name, metavar="S", type=kind, default=seconds, help=told)


def has(words: Sequence[str], name: str) -> bool:
    """Returns whether the arguments of a command have a name, for which a count or a file is put in."""
    return any(name in word for word in words)


def ended(words: Sequence[str], limit: Limit) -> children.Ended:
    """Runs a command to its end. It is refused if it cannot begin, or prints too much; `TimeIsUp` says that the time is over."""
    try:
        return children.output_of(words, limit=limit, most=LONGEST)
    except OSError as error:
        raise Refused(f"{words[0]}: {error.strerror}") from error
    except children.TooLong as error:
        raise Refused(f"{shlex.join(words)}: prints more than {LONGEST:,} bytes") from error


@dataclass(frozen=True)
class Shown:
    """What an emulator shows of its state at a count: the parts by their names, its memory or a digest of it, and what
    it has sent. Whatever it does not show is None, and is not compared."""

    parts: dict[str, int | list[int]]
    memory: bytes | None
    digest: str | None
    sent: bytes | None

    def differing(self, machine: Machine, sent: Sent) -> list[str]:
        """Returns the names of the parts in which it and a machine differ, in the order of parts."""
        if self.sent is not None and sent.length > SENT_KEPT:
            raise Refused(
                f"{sent.length:,} bytes were sent up to {machine.count:,}, and at most {SENT_KEPT:,} are "
                "compared: leave out `out`"
            )
        names = states.differing(states.values(machine.seen()), self.parts)
        names += ["out"] if self.sent is not None and self.sent != sent.first else []
        content = machine.memory() if self.memory is not None or self.digest is not None else b""
        is_other = self.memory not in (None, content) or self.digest not in (None, hashlib.sha256(content).hexdigest())
        return names + ["memory"] * is_other


@dataclass(frozen=True)
class Emulator:
    """Another emulator: the words of its command, in which {count} stands for a count, and how long it may take."""

    words: Sequence[str]
    seconds: float

    def at(self, count: int) -> Shown:
        """Returns its state at a count."""
        words = [word.replace(PLACE, str(count)) for word in self.words]
        command = shlex.join(words)
        try:
            answer = ended(words, Limit(self.seconds))
        except TimeIsUp as over:
            raise Refused(f"{command}: {over}") from over
        if answer.status:
            raise Refused(f"{command}: ended with status {answer.status}")
        try:
            shown = json.loads(answer.output)
        except (ValueError, RecursionError) as error:
            raise Refused(f"{command}: the output is not JSON") from error
        return _shown(command, shown)


def _shown(command: str, shown: object) -> Shown:
    """Returns what an object shows. Raises Refused for an unknown member, or one of another type."""
    if not isinstance(shown, dict) or not shown:
        raise Refused(f"{command}: the output is not an object with the parts of a state")
    readers: dict[str, Callable[[object], object]] = {
        **dict.fromkeys(states.WORDS, _number),
        "R": _numbers(16, 16),
        "keys": _numbers(0, 16),
        "out": _bytes,
        "memory": _file,
        "memory_sha256": _digest,
    }
    read: dict[str, Any] = {}
    for name, value in shown.items():
        if name not in readers:
            raise Refused(f"{command}: {name!r} is none of {', '.join(readers)}")
        try:
            read[name] = readers[name](value)
        except ValueError as error:
            raise Refused(f"{command}: {name} is {error}") from error
    registers = dict(zip(states.REGISTERS, read.pop("R", [])))
    memory, digest, sent = (read.pop(name, None) for name in ("memory", "memory_sha256", "out"))
    return Shown({**registers, **read}, memory, digest, sent)


def _number(value: object) -> int:
    if type(value) is not int or not 0 <= value < 1 << 32:
        raise ValueError("not a whole number from 0 to 2^32 - 1")
    return value


def _numbers(least: int, most: int) -> Callable[[object], list[int]]:
    def read(value: object) -> list[int]:
        if not isinstance(value, list) or not least <= len(value) <= most:
            raise ValueError(f"not a list of {'' if least == most else 'at most '}{most} numbers")
        return [_number(it) for it in value]

    return read


def _bytes(value: object) -> bytes:
    if not isinstance(value, str) or len(value) % 2 or not re.fullmatch("[0-9A-Fa-f]*", value):
        raise ValueError("not text of hexadecimal digits, two for each byte")
    return bytes.fromhex(value)


def _digest(value: object) -> str:
    if not isinstance(value, str) or not re.fullmatch("[0-9A-Fa-f]{64}", value):
        raise ValueError("not a SHA-256 in hexadecimal digits")
    return value.lower()


def _file(value: object) -> bytes:
    if not isinstance(value, str):
        raise ValueError("not the name of a file")
    try:
        content = read_file(Path(value), MEMORY_BYTES + 1, is_regular=True)
    except Refused as refusal:
        raise ValueError(f"a file that is not read: {refusal}") from refusal
    if len(content) > MEMORY_BYTES:
        raise ValueError(f"a file of more bytes than the memory has, {MEMORY_BYTES:,}: {value}")
    return content.ljust(MEMORY_BYTES, b"\0")
