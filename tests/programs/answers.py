"""What the built program has to print for arguments and standard input: its output, and its exit status.

What is expected comes from the documents, or from the encoder in Python, and not from the program.
"""

import subprocess
from collections.abc import Sequence
from dataclasses import dataclass
from pathlib import Path

from galluspa.engine.program import Answer

# The exit statuses of lines by their first words; that of any other line is 2.
STATUSES = {"accepted": 0, "false": 1, "shard": 0, "words": 4}


@dataclass(frozen=True)
class Call:
    """Arguments and standard input, and the answer that the program has to give."""

    arguments: Sequence[str]
    given: bytes
    wanted: Answer

    def is_answered_by(self, found: Answer) -> bool:
        """Returns whether this is the answer."""
        return found == self.wanted

    def problem(self, program: Path) -> str | None:
        """Returns what is wrong with a program's answer, if anything is."""
        ran = subprocess.run(
            [program, *self.arguments], input=self.given, stdout=subprocess.PIPE, stderr=subprocess.STDOUT, check=False
        )
        found = Answer(ran.stdout, ran.returncode)
        if self.is_answered_by(found):
            return None
        given = f"{len(self.given):,} bytes that begin with {self.given[:200]!r}"
        return (
            f"oberon_replay {' '.join(map(ascii, self.arguments))} < {given}:\n  {shown(found)}\n  in place of {shown(self.wanted)}"
        )


def shown(answer: Answer) -> str:
    """Returns an answer as a failed test shows it."""
    return f"status {answer.status}, {len(answer.output):,} bytes: {answer.output[:200]!r}"


def writes(arguments: str, given: bytes, output: bytes) -> Call:
    """Returns a call that has to write a file."""
    return Call(arguments.split(), given, Answer(output, 0))


def prints(arguments: str, given: bytes, line: str) -> Call:
    """Returns a call that has to print a line."""
    return Call(arguments.split(), given, Answer(line.encode() + b"\n", STATUSES.get(line.split()[0], 2)))
