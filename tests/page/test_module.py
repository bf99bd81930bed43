"""The page's module and scripts without a browser, in node: against the program, the tools and what the sources make."""

import base64
import json
import random
import struct
from array import array
from collections.abc import Iterator
from dataclasses import replace
from pathlib import Path

import galluspa.formats.recording
from galluspa.engine.program import REFUSED
from galluspa.formats.instructions import instruction, operands_of
from galluspa.formats.slices import slice_of
from tests.library.trial import mutants
from tests.page.driver.given import MOST_INPUTS, STORING, with_inputs
from tests.page.driver.node import answers, asked, bundled, called, ran_by_node
from tests.page.driver.desk import PAGE, expect, fail, program
from tests.support.slowness import is_within
from tests.tools.samples import EXAMPLES, JUMP, PROGRAM, STORED, TOP, group, record, rejoining, run, session


def recordings() -> list[bytes]:
    """Recordings that are accepted, false and refused: those that the library's tests use, and those of the examples."""
    texts = [*mutants(), STORED, rejoining(1), rejoining(9), *map(Path.read_bytes, sorted(EXAMPLES.glob("*.orsr")))]
    texts += [record(path.read_bytes()) for path in sorted(EXAMPLES.glob("*.json"))]
    return texts + [b"ORSR", random.Random(1).randbytes(5000), struct.pack("<4s5I", b"ORSR", 2, 1 << 31, 1 << 31, 1 << 31, 0)]


def sessions() -> Iterator[bytes]:
    """Sessions, one of them with more checkpoints than the page records in one piece, and texts that are none for each of the reasons
    that a reader may have."""
    inputs = [(7, "key", 65), (1000, "mouse", 3), (1000, "key", 66), (2500, "serial", 9)]
    yield json.dumps(session(STORING, range(20, 3001, 20), inputs)).encode()
    yield from (path.read_bytes() for path in sorted(EXAMPLES.glob("*.json")))
    keys = (EXAMPLES / "keys.json").read_text()
    for old, new in BROKEN:
        if keys.count(old) < 1:
            fail(f"keys.json has no {old!r}")
        yield keys.replace(old, new, 1).encode()
    yield from (keys[:at].encode() for at in range(0, len(keys), 23))
    yield from (
        b"",
        b"{}",
        b"[]",
        b"1",
        b"{",
        b"\xff",
        b"\xef\xbb\xbf" + keys.encode(),
        STORED,
        keys.encode() + b" x",
        keys.encode() + b"\n\t ",
    )
    for depth in (127, 128):
        yield b"[" * depth + b"]" * depth
    for number in NUMBERS:
        yield keys.replace('"PC": 0', f'"PC": {number}', 1).encode()
    yield json.dumps(session([], [1, 2, 2])).encode()
    yield json.dumps(session([], [], [(5, "key", 1), (4, "key", 1)])).encode()
    yield json.dumps(session([], range(1, 4098))).encode()
    yield json.dumps(
        session([], [10], [(1, "mouse", 0x073FF3FF), (1, "timer", 0xFFFFFFFF), (2, "switches", 4095), (3, "serial", 255)])
    ).encode()


# Changes of keys.json, each of which makes a session of it that is refused, or a different one.
BROKEN = (
    ("oberon-session", "oberon-sessioN"), ("oberon-session", "oberon\\u002dsession"), ("oberon-session", "\\ud800"), ('"H"', '"h"'),
    ('"version": 1', '"version": 3'), ('"version": 1', '"version": 2'), ('"version": 1', '"version": "1"'), ('"version": 1', '"version": 1.0'),
    ('"R": [0, 0', '"R": [0'), ('"R": [0', '"R": [4294967296'), ('"R": [0', '"R": [4294967295'), ('"R": [0', '"R": [null'),
    ('"PC": 0', '"PC": 4194304'), ('"PC": 0', '"PC": 4194303'), ('"flags": 0', '"flags": 16'), ('"flags": 0', '"flags": 0, "rate": 0'),
    ('"flags": 0', '"flags": 0, "flags": 15'), ('"at": 0', '"at": 1024'), ('"at": 0', '"at": 1023'), ('"hex": "', '"hex": "0'),
    ('"hex": "', '"hex": "0g'), ('"hex": "', '"hex": "é'), ('"hex": "', '"hex": "AbCd'), ('"hex": "', '"hex": "' + "00" * 1025),
    ('"key"', '"Key"'), ('"key"', '"mouse"'), ('"key"', '"timer"'), ('72]', '256]'), ('72]', '72, 1]'), ('72]', '-1]'), ("[10, ", "[1099511627777, "),
    ("[10, ", "[1099511627776, "), ("[10, ", "[60, "), ('"inputs": [', '"inputs": [7, '), ('"inputs"', '"Inputs"'), ('"inputs": [', '"inputs": {'),
    ("{", "{,"), ("{", "{'a': 1,"), (":", " "), (",", ",,"), ('"format"', '"for\nmat"'), ('"format"', '"f\\ormat"'), ("[0, 0", "[00, 0")
)  # fmt: skip
NUMBERS = "-0 +1 1e3 1. .5 1e 1e400 -1e400 0e400 1E2 18446744073709551615 18446744073709551616 0x10 NaN true 01".split()


def test_verdicts_and_recordings() -> None:
    """The module's lines are the program's, its recordings claim what the program's do, and the page's script refuses the same sessions."""
    texts, notes = recordings(), list(sessions())
    found = answers(PAGE, [asked("check", text) for text in texts])
    for text, answer in zip(texts, found, strict=True):
        expect(
            f"check of {text[:30]!r}", (answer.get("answer", answer)["line"], answer["answer"]["status"]), program("check", text)
        )
    same = 0
    for note, made in zip(notes, answers(PAGE, [asked("record", note) for note in notes]), strict=True):
        ran = run([PROGRAM, "record"], note)
        line = ran.output.decode().rstrip("\n") if ran.status else None
        expect(f"opening {note[:60]!r}", made.get("refused"), line)
        same += not ran.status and compare_recording(note, base64.b64decode(made["answer"]["bytes"]), ran.output)
    if not same:
        fail("no recording of the page is the program's byte for byte")


def compare_recording(note: bytes, made: bytes, wanted: bytes) -> bool:
    """A recording that the page makes while it runs is accepted, and has the program's claims, and its inputs but for those
    that come after the last checkpoint; whether it is the same bytes, as it has to be where no input comes after, and the session
    names no page of zeros.
    """
    expect(f"the line of what the page records of {note[:60]!r}", program("check", made), program("check", wanted))
    own, other = galluspa.formats.recording.read(made), galluspa.formats.recording.read(wanted)
    last = other.checkpoints[-1].count
    expect(f"the inputs of {note[:60]!r}", list(own.events), [event for event in other.events if event.count < last])
    names_zeros = b'"hex": ""' in note
    if len(own.events) == len(other.events) and not names_zeros:
        expect(f"the recording of {note[:60]!r}", made == wanted, True)
        return True
    expect(f"the claims of {note[:60]!r}", claims_of(own), claims_of(other))
    return False


def claims_of(read: galluspa.formats.recording.Recording) -> list[tuple]:
    """What the checkpoints of a recording claim, with their memories in place of page ids."""
    return [(replace(it, start=0, table=array("I")), read.memory(it, 0, 1 << 20)) for it in read.checkpoints]


def compare_chain(text: bytes, ends: list[int], made: bytes) -> None:
    """What slices of a recording make up claims what the recording does, and has its inputs up to the last checkpoint."""
    what = f"what {len(ends) - 1} slices of {text[:30]!r} make up"
    own, other = galluspa.formats.recording.read(made), galluspa.formats.recording.read(text)
    expect(f"the line of {what}", program("check", made), program("check", text))
    expect(
        f"the inputs of {what}", list(own.events), [event for event in other.events if event.count < other.checkpoints[-1].count]
    )
    expect(f"the claims of {what}", claims_of(own) == claims_of(other), True)


def test_slices(tmp_path: Path) -> None:
    """The page cuts slices as galluspa slice does, byte for byte, makes the recording of them again, and their lines make the program's line,
    however long they are."""
    texts = [text for text in recordings() if program("check", text)[1] != REFUSED]
    ends = [[*range(len(galluspa.formats.recording.read(text).checkpoints))] for text in texts]
    ends += [[0, len(it) - 1] for it in ends]
    cuts = called(tmp_path, [asked("cut", text, ends=it) for text, it in zip(texts * 2, ends, strict=True)])
    for text, it, cut in zip(texts * 2, ends, cuts, strict=True):
        read = galluspa.formats.recording.read(text)
        wanted = [galluspa.formats.recording.write(slice_of(read, first, last)) for first, last in zip(it, it[1:])]
        expect(f"the slices of {text[:30]!r}", [base64.b64decode(one) for one in cut], wanted)
    whole = [(text, it) for text, it in zip(texts * 2, ends, strict=True) if len(it) > 1]
    for (text, it), chain in zip(whole, called(tmp_path, [asked("chain", text, ends=it) for text, it in whole]), strict=True):
        compare_chain(text, it, base64.b64decode(chain))
    sizes = [
        (text, max(1, galluspa.formats.recording.read(text).checkpoints[-1].count // share))
        for text in texts
        for share in (1, 3, 13)
    ]
    lines = called(tmp_path, [asked("join", text, size=size) for text, size in sizes])
    for (text, size), line in zip(sizes, lines, strict=True):
        expect(f"the line of {text[:30]!r} by slices of {size} steps", (line["line"], line["status"]), program("check", text))
    wait = record(session([JUMP], [1 << 40], [(1 << 39, "key", 65)]))
    (joined,) = called(tmp_path, [asked("join", wait)])
    expect("the line of a long wait", joined["line"], program("check", wait)[0])
    if joined["pieces"] > 1000:
        fail(f"a wait of 2^40 instructions is run in {joined['pieces']:,} pieces")


def test_notation(tmp_path: Path) -> None:
    """Instructions of all kinds, by their upper halves, are written as galluspa listing writes them, and read what the tools say that they read."""
    chance = random.Random(2)
    words = [(upper << 16 | chance.getrandbits(16), chance.randrange(262144)) for upper in range(1 << 16)]
    found = called(tmp_path, [("instruction", {"word": word, "at": at}) for word, at in words])
    for (word, at), written in zip(words, found, strict=True):
        wanted = instruction(word, at)
        expect(f"the instruction {word:08X}", written, [wanted.mnemonic, wanted.meaning, operands_of(word)])


def test_typed_keys(tmp_path: Path) -> None:
    """What the page and its worker hold of what was typed, in many turns."""
    ran_by_node(bundled("typed.mjs", tmp_path))


def test_times(tmp_path: Path) -> None:
    """Comparing two memories, and passing on what was typed before a million inputs of a file, take no frame's time."""
    comparing, (inputs, feeding) = called(tmp_path, [("comparing", {}), asked("feeding", with_inputs(MOST_INPUTS))])
    expect("opening a million inputs", inputs, MOST_INPUTS)
    if not is_within(comparing, 8) or not is_within(feeding, 5):
        fail(f"comparing two memories takes {comparing:.1f} ms, and passing on what was typed {feeding:.1f} ms")


def test_committed_page(tmp_path: Path, given_module: Path | None) -> None:
    """The committed page is what the sources make, byte for byte with the same tools; with others its answers are the same."""
    new = tmp_path / "new.html"
    ran = run([TOP / "web/build", "--to", new, *(["--module", given_module] if given_module else [])])
    expect("web/build", (ran.errors, ran.status), ("", 0))
    expect("whether the page is below 370,000 bytes", new.stat().st_size < 370000, True)
    committed, built = PAGE.read_text(), new.read_text()
    versions = [group(r'id="g-versions">(.*?)</span>', text) for text in (committed, built)]
    if versions[0] == versions[1]:
        if committed != built:
            fail("web/galluspa.html is not what web/build makes of the sources: build it anew")
        return
    requests = [asked("check", text) for text in recordings()[::9]] + [asked("openSession", it) for it in sessions()]
    expect("what a page built by other tools answers", answers(new, requests), answers(PAGE, requests))
