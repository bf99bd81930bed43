"""The examples in C, and the commands of docs/from-c.md."""

import os
import re
from collections.abc import Sequence
from pathlib import Path

from tests.library.trial import EXAMPLES, PROGRAM, TOP, WARNINGS, expect, fail, run


def lockstep(folder: Path, flags: Sequence[str]) -> None:
    """Both machines agree; and where ANN is made wrong in the one in C, the instruction that differs first is found."""
    names = []
    for session in ("flags", "keys", "clock", "hello"):
        names.append(f"{folder}/{session}.orsr")
        Path(names[-1]).write_bytes(run(PROGRAM, "record", given=(EXAMPLES / f"{session}.json").read_bytes())[0])
    given = [*names, str(EXAMPLES / "face.orsr"), *map(str, range(1, 201))]
    source = [*WARNINGS, "-Wno-unused-function", str(EXAMPLES / "c/lockstep.c")]
    right, wrong = f"{folder}/lockstep", f"{folder}/lockstep_wrong"
    expect("lockstep.c", run("cc", *source, f"-I{TOP}/reference", *flags, "-o", right), (b"", 0))
    output, status = run(right, *given)
    if status or output.count(b": the same at ") != len(given):
        fail(f"lockstep: status {status}, {output!r:.400}")
    header = (TOP / "reference/machine.h").read_text()
    expect("ANN in machine.h", header.count("x = b & ~c;"), 1)
    (folder / "planted").mkdir()
    (folder / "planted/machine.h").write_text(header.replace("x = b & ~c;", "x = b & c;"))
    expect(
        "lockstep.c with a wrong ANN",
        run("cc", *source, f"-I{folder}/planted", f"-I{TOP}/reference", *flags, "-o", wrong),
        (b"", 0),
    )
    found = 0
    for seed in range(1, 41):
        output, status = run(wrong, str(seed))
        differs = re.match(rf"{seed}: differs after instruction \d+, ([0-9A-F]{{8}}) at word \d+\n".encode(), output)
        if differs:
            word = int(differs[1], 16)
            expect(f"what differs first with seed {seed}", (word >> 31, word >> 16 & 15, status), (0, 5, 1))
            if b"<--" not in output:
                fail(f"no part that differs is marked: {output!r}")
            found += 1
    if found < 20:
        fail(f"the wrong ANN was found in {found} of 40 programs")
    print(f"lockstep: the same on 5 recordings and 200 programs; a wrong ANN found in {found} of 40 programs, and named each time")


def compare_cards(folder: Path, flags: Sequence[str], cards: int) -> None:
    """The library's card answers what that of examples/c does, and reads and writes the same blocks."""
    source = [*WARNINGS, str(TOP / "tests/library/card.c"), f"-I{EXAMPLES}/c"]
    expect("card.c", run("cc", *source, *flags, "-o", f"{folder}/card"), (b"", 0))
    output, status = run(f"{folder}/card", str(cards), "1000")
    if status or not output.startswith(f"{cards} cards agree over 1000 transfers each".encode()):
        fail(f"card: status {status}, {output!r:.400}")
    print(output.decode(), end="")


def walk(folder: Path, built: Path) -> None:
    """The commands of docs/from-c.md print what it shows."""
    room = folder / "walk"
    room.mkdir()
    for part in ("examples", "reference", "crates", "docs", "tools"):
        (room / part).symlink_to(TOP / part)
    (room / "out").symlink_to(built)
    environment = {
        **os.environ,
        "PATH": f"{TOP}:{PROGRAM.parent}:{os.environ['PATH']}",
        "GALLUSPA_LIBRARY": str(built / "lib/libgalluspa.so"),
        "PYTHONDONTWRITEBYTECODE": "1",
    }
    blocks = re.findall(r"^```console\n(.*?)^```$", (TOP / "docs/from-c.md").read_text(), re.S | re.M)
    commands = [it for block in blocks for it in re.split(r"^\$ ", block, flags=re.M)[1:]]
    for command in commands:
        line, _, shown = command.partition("\n")
        printed = run("bash", "-c", line, cwd=room, env=environment)[0].decode()
        wanted = re.escape(shown.rstrip("\n")).replace(re.escape("\n..\n"), r"\n(?:.*\n)*")
        if not re.fullmatch(wanted, printed.rstrip("\n")):
            fail(f"docs/from-c.md: $ {line}\n{printed}")
    if len(commands) < 5:
        fail("docs/from-c.md shows too few commands")
    print(f"docs/from-c.md: {len(commands)} commands print what it shows")
