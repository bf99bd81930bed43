"""Checks recordings in shards of random divisions, true, false and refused ones, and compares what `combine` prints of the lines, in any
order, with the line of `check`.

What `combine` has to print of lines of which some are missing is worked out here anew, from docs/formats.md alone.
"""

from collections.abc import Iterator, Sequence
from dataclasses import dataclass, replace
from pathlib import Path
from random import Random

from galluspa.engine.program import Program
from galluspa.formats.recording import Recording, read, write
from galluspa.process.cli import Refused
from tests.programs import randomly
from tests.programs.trial import Case
from tests.support import TOP

# How many shards a recording is divided into, and how many each of the held ones.
DIVISIONS = (1, 2, 2, 3, 3, 4, 5, 7, 16)
HELD_DIVISIONS = (1, 2, 3, 7, 16, 33)
STATUSES = {"holds": 0, "fails": 1, "refused": 2}
EXAMPLES = TOP / "examples"
# What no shard that fails says of the one segment of a recording.
NO_FAILURES = (
    "false checkpoint 2 at 9 part R0\n",
    "false checkpoint 1 at 0 part R0\n",
    "false checkpoint 1 at 1099511627777 part R0\n",
    "false checkpoint 1 at 9 part R16\n",
    "false checkpoint 1 at 9 part page 1024\n",
    "false checkpoint 1 at 9 part pages\n",
    "false checkpoint 1 at 9 part \n",
)
# Lines without their first fields, and why they combine to no line.
MADE = {
    (
        "0 1 2 holds: accepted 2 checkpoints 9 steps",
        "1 2 2 fails: false checkpoint 2 at 5 part R0",
    ): "5 contradiction of lines 2 and 1",
    (
        "0 1 2 holds: accepted 2 checkpoints 9 steps",
        "1 2 2 fails: false checkpoint 2 at 12 part R0",
    ): "5 contradiction of lines 2 and 1",
    (
        "2 3 3 holds: accepted 3 checkpoints 9 steps",
        "0 1 3 fails: false checkpoint 1 at 8 part R0",
    ): "5 contradiction of lines 2 and 1",
    (
        "0 1 3 fails: false checkpoint 1 at 9 part H",
        "1 2 3 fails: false checkpoint 2 at 5 part H",
    ): "5 contradiction of lines 1 and 2",
    (
        "0 1 3 fails: false checkpoint 1 at 9 part H",
        "2 3 3 fails: false checkpoint 3 at 10 part H",
    ): "5 contradiction of lines 1 and 2",
    ("0 1 9 holds: accepted 9 checkpoints 9 steps", "5 6 9 holds: accepted 9 checkpoints 9 steps"): "6 missing segments 1 to 4",
}


@dataclass(frozen=True)
class Text:
    """The bytes of a recording, or of what is refused as one, by a name."""

    name: str
    content: bytes


@dataclass(frozen=True)
class Said:
    """What a program prints, and its status."""

    line: str
    status: int


@dataclass(frozen=True)
class Line:
    """The line of a shard, in its fields: the digest, the segments from and to, how many there are, what was found, and the line of
    the recording with its line feed."""

    digest: str
    start: int
    end: int
    last: int
    found: str
    said: str

    def __str__(self) -> str:
        return f"shard {self.digest} {self.start} {self.end} {self.last} {self.found}: {self.said}"

    @staticmethod
    def read(text: str) -> "Line":
        """Returns the fields of a line."""
        fields, _, said = text.partition(": ")
        word, digest, start, end, last, found = fields.split(" ")
        assert word == "shard" and found in STATUSES, text
        return Line(digest, int(start), int(end), int(last), found, said)


def asked(program: Path, words: Sequence[str], content: bytes) -> Said:
    """Returns what the program prints of bytes."""
    answer = Program(program).answer(words, content)
    return Said(answer.output.decode("ascii", "replace"), answer.status)


def lines_of(program: Path, text: Text, of: int) -> list[str]:
    """Returns the lines of all shards of a division."""
    said = [asked(program, ["check", "--shard", f"{k}/{of}"], text.content) for k in range(1, of + 1)]
    assert all(not it.status for it in said), (text.name, of, said)
    return [it.line for it in said]


def combined(program: Path, lines: Sequence[str]) -> Said:
    """Returns what the program makes of lines."""
    return asked(program, ["combine"], "".join(lines).encode())


def expected(lines: Sequence[str]) -> Said:
    """Returns what true lines of one file combine to, if some may be missing."""
    if not lines:
        return Said("shards refused 3 empty\n", 2)
    shards = [Line.read(it) for it in lines]
    at, last = 0, shards[0].last
    decides = next((it for it in shards if it.found == "refused"), None)
    while not decides and at < last:
        shard = next((it for it in shards if it.start <= at < it.end), None)
        if not shard:
            end = min((it.start for it in shards if at < it.start < it.end), default=last)
            return Said(f"shards refused 6 missing segments {at} to {end - 1}\n", 2)
        decides, at = (None if shard.found == "holds" else shard), shard.end
    decides = decides or next(it for it in shards if it.found == "holds")
    return Said(decides.said, STATUSES[decides.found])


def problems(program: Path, text: Text, divisions: Sequence[int], other: str, rng: Random) -> Iterator[str]:
    """Yields what is wrong with the shards of a recording; `other` is the line of a shard of another file."""
    alone = asked(program, ["check"], text.content)
    first, *more = (lines_of(program, text, of) for of in divisions)
    lines = [*first, *(it for division in more for it in rng.sample(division, rng.randint(0, len(division)))), rng.choice(first)]
    rng.shuffle(lines)
    for some, wanted in (
        (lines, alone),
        (first, alone),
        (fewer := rng.sample(lines, rng.randint(0, len(lines))), expected(fewer)),
        *_refused(lines, other, rng),
    ):
        said = combined(program, some)
        if said.status != wanted.status or not said.line.startswith(wanted.line):
            yield f"{text.name}, in {', '.join(map(str, divisions))} shards: {said} in place of {wanted} of {''.join(some)}"


def _refused(lines: Sequence[str], other: str, rng: Random) -> Iterator[tuple[Sequence[str], Said]]:
    """Yields lines that are refused, and how the answer begins: one is of another file, one is cut, or one contradicts another."""
    at = rng.randint(1, len(lines))
    yield [*lines[:at], other, *lines[at:]], Said(f"shards refused 4 file at line {at + 1}\n", 2)
    yield [*lines[:at], lines[0][: rng.randrange(1, len(lines[0]))]], Said(f"shards refused 2 syntax at line {at + 1}\n", 2)
    lies = [str(lie) for lie in _lies(rng.choice([Line.read(it) for it in lines]))]
    yield [*lines[:at], rng.choice(lies), *lines[at:]], Said("shards refused 5 contradiction of lines ", 2)
    for never in _unprinted(rng.choice([Line.read(it) for it in lines])):
        yield [*lines[:at], never, *lines[at:]], Said(f"shards refused 2 syntax at line {at + 1}\n", 2)


def _lies(it: Line) -> Iterator[Line]:
    """Yields lines that are not true of any file of which this one is: of other totals, another finding or another line."""
    if it.found == "refused":
        yield replace(it, said="refused 2 magic at byte 0\n" if "magic" not in it.said else "refused 3 version at byte 4\n")
        yield replace(it, found="holds", said="accepted 0 checkpoints 0 steps\n")
        return
    yield replace(it, start=0, end=0, last=0, found="refused", said="refused 1 short at byte 0\n")
    if it.found == "fails" or it.start < it.end:
        yield replace(it, found="fails", said=f"false checkpoint {it.end} at 99999999999 part R0\n")
    if it.found == "fails":
        yield replace(it, found="holds", said=f"accepted {it.last} checkpoints 99999999999 steps\n")
    else:
        yield replace(it, said=f"accepted {it.last} checkpoints 99999999999 steps\n")
        yield replace(it, last=it.last + 1, said=f"accepted {it.last + 1} checkpoints 99999999999 steps\n")


def _unprinted(it: Line) -> Iterator[str]:
    """Yields lines that `check --shard` prints of no file: in another form, or with numbers that no recording has."""
    line = str(it)
    yield line[:-1] + "\r\n"
    yield line[:-1] + " \n"
    yield line.replace(": ", ": \x1b[2J", 1)
    yield line.replace(" ", "  ", 1)
    yield line.replace(it.digest, it.digest[:-1] + "G")
    yield line.replace(f" {it.start} ", f" 0{it.start} ", 1)
    yield from (str(replace(it, found=found)) for found in STATUSES if found != it.found)
    yield str(replace(it, end=it.last + 1))
    yield str(replace(it, start=it.end + 1))
    yield str(replace(it, start=0, end=1, last=5000, found="holds", said="accepted 5000 checkpoints 99999999999 steps\n"))
    yield str(replace(it, start=0, end=0, last=2, found="holds", said="accepted 2 checkpoints 1 steps\n"))
    yield str(replace(it, start=0, end=0, last=0, found="holds", said="accepted 0 checkpoints 1 steps\n"))
    yield str(replace(it, start=0, end=0, last=1, found="fails", said="false checkpoint 0 at 0 part R0\n"))
    yield from (str(replace(it, start=0, end=1, last=1, found="fails", said=said)) for said in NO_FAILURES)
    yield str(replace(it, start=0, end=0, last=0, found="refused", said="refused 1 magic at byte 0\n"))
    yield str(replace(it, start=0, end=0, last=0, found="refused", said="refused 9 other at byte 0\n"))


def made_problems(program: Path) -> Iterator[str]:
    """Yields what is wrong with the answers to lines that were made up."""
    for lines, wanted in MADE.items():
        said = combined(program, [f"shard {'ab' * 32} {line}\n" for line in lines])
        if said != Said(f"shards refused {wanted}\n", 2):
            yield f"{said} in place of {wanted} of {lines}"


def held() -> Iterator[Text]:
    """Yields recordings that are always tried: the examples, some with false claims, and some bytes that are none."""
    paths = [*sorted(EXAMPLES.glob("*.orsr")), *sorted((EXAMPLES / "suite").rglob("*.orsr"))[:25]]
    yield from (Text(str(path.relative_to(EXAMPLES)), path.read_bytes()) for path in paths)
    face = (EXAMPLES / "face.orsr").read_bytes()
    for at, register in ((1, 2), (2, 5), (4, 3)):
        yield Text(f"face.orsr with checkpoint {at} false", write(_claiming(read(face), at, register)))
    yield from (
        Text(name, it) for name, it in (("nothing", b""), ("cut", face[:-1]), ("longer", face + b"x"), ("named", b"X" + face[1:]))
    )


def _claiming(it: Recording, at: int, register: int) -> Recording:
    """Returns a recording of which a checkpoint claims another value of a register."""
    claim = it.checkpoints[at]
    registers = [value ^ (number == register) for number, value in enumerate(claim.registers)]
    checkpoints = [*it.checkpoints[:at], replace(claim, registers=tuple(registers)), *it.checkpoints[at + 1 :]]
    return replace(it, checkpoints=checkpoints)


def random_text(program: Path, seed: int) -> tuple[Text, Random]:
    """Returns the recording of a random program with random checkpoints, in a version: a third as it is, a third with false claims, and
    a third with a byte changed, cut or added; and the source of what is random about it."""
    rng = Random(seed)
    case: Case = randomly.case(seed)
    counts = sorted(rng.sample(range(1, case.counts + 1), rng.choice((1, 2, 3, 5, 8, 13, 30))))
    it = read(Program(program).recorded(replace(case.session, checkpoints=counts).text().encode()))
    # A timer that counts is of version 2, and a disk of version 3 alone.
    if it.version == 2 and not case.session.rate and rng.random() < 0.8:
        it = replace(it, version=1)
    kind = ("true", "false", "changed")[seed % 3]
    if kind == "false":
        for _ in range(rng.randint(1, 3)):
            it = _claiming(it, rng.randint(1, len(counts)), rng.randrange(16))
    content = write(it)
    if kind == "changed":
        at = rng.randrange(len(content))
        content = rng.choice((content[:at], content[:at] + rng.randbytes(1) + content[at + 1 :], content + rng.randbytes(1)))
    return Text(f"seed {seed}, {kind}, version {it.version}", content), rng


@dataclass(frozen=True)
class Tried:
    """What was tried of a recording: how its line begins, and what is wrong."""

    begins: str
    problems: list[str]


def tried(program: Path, text: Text, divisions: Sequence[int], rng: Random) -> Tried:
    """Returns what comes of a recording in these divisions."""
    other = lines_of(program, Text("another", text.content + b"another"), 1)[0]
    begins = asked(program, ["check"], text.content).line.split()[0]
    version = int.from_bytes(text.content[4:8], "little")
    return Tried(f"{begins} of version {version}", list(problems(program, text, divisions, other, rng)))


def tried_seed(program: Path, seed: int) -> Tried:
    """Returns what comes of a random recording in random divisions."""
    text, rng = random_text(program, seed)
    return tried(program, text, [rng.choice(DIVISIONS) for _ in range(rng.randint(1, 2))], rng)


def tried_held(program: Path, text: Text) -> Tried:
    """Returns what comes of a held recording, in each of the held divisions with another beside it."""
    rng = Random(text.name)
    all_tried = [tried(program, text, [of, rng.choice(DIVISIONS)], rng) for of in HELD_DIVISIONS]
    return Tried(all_tried[0].begins, [problem for it in all_tried for problem in it.problems])


def expect_to_notice(program: Path, folder: Path) -> None:
    """Sees that a program is noticed which combines lines to that of the first, and one that holds each of its shards for true."""
    false = next(text for text in held() if "checkpoint 2 false" in text.name)
    for words in ("sed -n '1s/.*: //p'", f"sed 's/fails: .*/holds: accepted 4 checkpoints 20000000 steps/' | {program} combine"):
        mistaken = folder / "mistaken"
        mistaken.write_text(f'#!/bin/sh\n[ "$1" = combine ] || exec {program} "$@"\n{words}\n')
        mistaken.chmod(0o755)
        if not tried_held(mistaken, false).problems:
            raise Refused(f"a combination by {words!r} is not noticed")
