"""Lines of shards, and what they combine to."""

from collections.abc import Iterator, Sequence

from tests.programs import named
from tests.programs.answers import Call, prints
from tests.programs.named import first

FILE, OTHER = "00112233445566778899aabbccddeeff" * 2, "00112233445566778899aabbccddee00" * 2
# What lines of one file say after its digest, and what they combine to.
COMBINED: Sequence[tuple[str, Sequence[str]]] = [
    # in any order, and one twice
    (
        "accepted 2 checkpoints 7 steps",
        [
            "1 2 2 holds: accepted 2 checkpoints 7 steps",
            "0 1 2 holds: accepted 2 checkpoints 7 steps",
            "1 2 2 holds: accepted 2 checkpoints 7 steps",
        ],
    ),
    # the first that fails, and a gap after it
    (
        "false checkpoint 3 at 7 part H",
        [
            "4 5 5 fails: false checkpoint 5 at 9 part R5",
            "0 2 5 holds: accepted 5 checkpoints 9 steps",
            "1 3 5 fails: false checkpoint 3 at 7 part H",
        ],
    ),
    ("refused 2 magic at byte 0", ["0 0 0 refused: refused 2 magic at byte 0"]),
    # a recording with checkpoint 0 alone
    ("accepted 0 checkpoints 0 steps", ["0 0 0 holds: accepted 0 checkpoints 0 steps"]),
    ("shards refused 3 empty", []),
    ("shards refused 6 missing segments 0 to 1", ["2 4 9 holds: accepted 9 checkpoints 9 steps"]),
    (
        "shards refused 6 missing segments 4 to 8",
        ["0 4 9 holds: accepted 9 checkpoints 9 steps", "4 4 9 holds: accepted 9 checkpoints 9 steps"],
    ),
    # one shard says that segment 2 fails, and another that it holds
    (
        "shards refused 5 contradiction of lines 2 and 1",
        ["0 4 4 holds: accepted 4 checkpoints 9 steps", "2 3 4 fails: false checkpoint 3 at 7 part H"],
    ),
    # two totals, two parts of one checkpoint, two numbers of segments, a recording that is refused
    (
        "shards refused 5 contradiction of lines 1 and 2",
        ["0 4 4 holds: accepted 4 checkpoints 9 steps", "0 4 4 holds: accepted 4 checkpoints 8 steps"],
    ),
    (
        "shards refused 5 contradiction of lines 1 and 2",
        ["0 3 4 fails: false checkpoint 3 at 7 part H", "2 3 4 fails: false checkpoint 3 at 7 part R5"],
    ),
    (
        "shards refused 5 contradiction of lines 1 and 2",
        ["0 4 4 holds: accepted 4 checkpoints 9 steps", "4 5 5 holds: accepted 5 checkpoints 9 steps"],
    ),
    (
        "shards refused 5 contradiction of lines 1 and 2",
        ["0 0 0 holds: accepted 0 checkpoints 0 steps", "0 0 0 refused: refused 2 magic at byte 0"],
    ),
    # a zero too many
    ("shards refused 2 syntax at line 1", ["00 2 2 holds: accepted 2 checkpoints 7 steps"]),
    ("shards refused 2 syntax at line 1", ["4 5 5 holds: accepted 4 checkpoints 9 steps"]),
]
CUT_LINE = f"shard {FILE} 0 1 2 holds: accepted 2 checkpoints 7 steps\nshard {FILE} 1 2 2 holds: accepted 2 checkpoints 7 ste"
# What sha256sum prints of crates/oberon_replay/stdin.
STORED_DIGEST = "e9db2f05971668f2c01c7971bdb56a3b6335032e5f6d41d96ef339deca8afdd3"


def _lines(*lines: str, file: str = FILE) -> bytes:
    return "".join(f"shard {file} {line}\n" for line in lines).encode()


def calls() -> Iterator[Call]:
    """Yields what `combine` has to print of lines, and the line of one shard."""
    yield from (prints("combine", _lines(*lines), wanted) for wanted, lines in COMBINED)
    yield prints("combine", CUT_LINE.encode(), "shards refused 2 syntax at line 2")
    line = "0 1 1 holds: accepted 1 checkpoints 7 steps"
    yield prints("combine", _lines(line, line) + _lines(line, file=OTHER), "shards refused 4 file at line 3")
    shard = f"shard {STORED_DIGEST} 0 1 1 holds: accepted 1 checkpoints 100 steps"
    yield prints("check --shard 1/1", first(named.STORED_RUN), shard)
