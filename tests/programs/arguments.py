"""The arguments of the program: those that ask for help, those that it does not know, and that it reads each."""

from collections.abc import Iterator, Sequence
from dataclasses import dataclass

from galluspa.engine.program import Answer
from tests.programs.answers import Call, prints
from tests.programs.named import STORED_RUN, first

UNREAD = b"the input isn't read"
UNKNOWN = [
    "screen",
    "screen --at 4097",
    "screen --at -0",
    "check --workers 65",
    "check --workers 0",
    "check --cut 4097",
    "check --cut 0",
    "check --shard 0/3",
    "check --shard 4/3",
    "check --shard 1/4097",
    "check --shard 1",
    "check --shard /2",
    "check --shard 1/2/2",
    "combine again",
    "combine --disk",
    "check --disk=true",
    "check --disk --disk",
    "bogus",
    "help bogus",
    "check again",
    "check check",
    "record again",
    "record --at 0",
    "migrate again",
    "migrate --at 1",
    "--disk",
    "record --disk=1",
    "upgrade",
    # a byte that is not UTF-8
    "\udcff",
]
KNOWN = "check --workers 2 --cut 1".split()
# Arguments that ask for help, its usage line, and the example at its end.
HELP: Sequence[tuple[str, str, str]] = [
    ("--help", "<COMMAND>", "oberon_replay <face.orsr"),
    ("check --help", "check [OPTIONS]", "oberon_replay check --workers 4 <face.orsr"),
    (
        "combine --help",
        "combine",
        "for k in 1 2 3; do oberon_replay check --shard $k/3 <face.orsr; done | oberon_replay combine",
    ),
    ("record -h", "record [OPTIONS]", "oberon_replay record <face.json >face.orsr"),
    ("help screen", "screen [OPTIONS] --at <K>", "oberon_replay screen --at 1 <face.orsr >face.pbm"),
    ("migrate --help", "migrate [OPTIONS]", "oberon_replay migrate <old.orsr >new.orsr"),
]
COMMANDS = (b"check", b"combine", b"migrate", b"record", b"screen")


@dataclass(frozen=True)
class HelpCall(Call):
    """A call whose help has these texts, and ends with what is wanted."""

    texts: Sequence[bytes]

    def is_answered_by(self, found: Answer) -> bool:
        return (
            found.status == self.wanted.status
            and found.output.endswith(self.wanted.output)
            and all(text in found.output for text in self.texts)
        )


def calls() -> Iterator[Call]:
    """Yields calls with all kinds of arguments."""
    stored = first(STORED_RUN)
    for arguments in ("", "check", "check --workers=+2", "check --workers 64 --cut 100", "check --disk"):
        yield prints(arguments, stored, "accepted 1 checkpoints 100 steps")
    yield from (prints(arguments, UNREAD, "words refused") for arguments in UNKNOWN)
    # none is dropped: one that the program does not know is refused wherever it is
    for at in range(len(KNOWN) + 1):
        yield prints(" ".join([*KNOWN[:at], "bogus", *KNOWN[at:]]), stored, "words refused")
    for arguments, usage, example in HELP:
        texts = [f"Usage: oberon_replay {usage}\n".encode(), *(COMMANDS if arguments == "--help" else ())]
        yield HelpCall(arguments.split(), UNREAD, Answer(f"\nExample:\n  {example}\n".encode(), 0), texts)
