"""What the library answers, against the program: checks, records, migrations, claims, and runs that are recorded."""

import ctypes
import json
from concurrent.futures import ThreadPoolExecutor
from pathlib import Path

from galluspa.formats.recording import read
from tests.library.binding import WORDS, Input, Library
from tests.library.header import constants
from tests.library.trial import EXAMPLES, FACE, PROGRAM, STORED, changed, expect, fail, mutants, run


def compare_checks(folder: Path, check: str, library: Library) -> None:
    """The library and the C checker print the verdict lines of the program."""
    names, lines, kinds = [], [], {0: 0, 1: 0, 2: 0}
    for number, text in enumerate(mutants()):
        name = f"{folder}/{number}.orsr"
        Path(name).write_bytes(text)
        line, status = run(PROGRAM, "check", "--disk", given=text)
        names.append(name)
        lines.append(f"{name}: ".encode() + line)
        kinds[status] += 1
        if number % 20 == 0:
            expect(f"check of {name}", library.answer("check", text, 256), (len(line), line, status))
            expect(f"check of {name} in {len(line) - 1} bytes", library.answer("check", text, len(line) - 1)[::2], (len(line), 77))
    expect("the C checker", run(check, *names), (b"".join(lines), 2))
    for path in sorted(EXAMPLES.glob("*.orsr")):
        line, status = run(PROGRAM, "check", given=path.read_bytes())
        expect(f"the C checker on {path.name}", run(check, str(path)), (f"{path}: ".encode() + line, status))
        expect(f"the verdict on {path.name}", status, 0)
    expect("the C checker on no file", run(check, f"{folder}/none.orsr")[1], 3)
    if not all(kinds.values()):
        fail(f"no recording of some kind: {kinds}")
    print(f"check: {len(names)} recordings as the program says: {kinds[0]} accepted, {kinds[1]} false, {kinds[2]} refused")


def compare_answers(library: Library) -> None:
    """The library records and migrates as the program does; what has version 3, as with --disk."""
    sessions = [path.read_bytes() for path in sorted(EXAMPLES.glob("*.json"))]
    hello = (EXAMPLES / "hello.json").read_bytes()
    sessions += [
        b"",
        b"{}",
        STORED,
        hello[:-3],
        hello.replace(b'"R":[', b'"R":[4294967296,', 1),
        hello.replace(b'"PC":0', b'"PC":4194304', 1),
    ]
    texts = [
        STORED,
        FACE,
        (EXAMPLES / "face-version-1.orsr").read_bytes(),
        b"",
        STORED[:-1],
        changed(STORED, 4),
        changed(STORED, 40),
    ]
    answered = json.loads(hello)
    answered |= {"version": 3, "inputs": [[3, "disk", 0xFFFFFFFF]]}
    answered["start"] |= {"rate": 0, "phase": 0, "disk": 0x12345678}
    with_disk = json.dumps(answered).encode()
    recorded = run(PROGRAM, "record", "--disk", given=with_disk)[0]
    expect("the version of a recording with a disk", recorded[4:8], b"\3\0\0\0")
    cases: list[tuple[str, bytes, list[str]]] = [
        ("record", with_disk, ["--disk"]),
        ("migrate", recorded, ["--disk"]),
        ("migrate", recorded[:-1], ["--disk"]),
    ]
    for name, given in (("record", sessions), ("migrate", texts)):
        cases += [(name, it, []) for it in given]
    for name, it, flags in cases:
        output, status = run(PROGRAM, name, *flags, given=it)
        result, written, found = library.answer(name, it, 1 << 20)
        expect(f"{name} of {it[:40]!r}", (written, found), (output, status))
        expect(f"{name} of {it[:40]!r} without room", library.answer(name, it, 3)[::2], (len(output), 77))
    print(f"record, migrate: {len(cases)} sessions and recordings as the program says")


def inputs_and_last(text: bytes) -> tuple[list[Input], int]:
    """Returns the inputs of a recording, and the number of its last checkpoint."""
    recording = read(text)
    return [Input(it.count, it.kind, it.value) for it in recording.events], len(recording.checkpoints) - 1


def run_live(library: Library) -> None:
    """Recordings run again by frames come to what each of their checkpoints claims, and send what they hold."""
    for name in ("hello", "keys", "clock", "face"):
        text = run(PROGRAM, "record", given=(EXAMPLES / f"{name}.json").read_bytes())[0]
        events, last = inputs_and_last(text)
        code, state, words = library.claim(text, 0)
        expect(f"claim 0 of {name}", (code, state.count), (0, 0))
        sent = b""
        for at in range(1, last + 1):
            code, claimed, claimed_words = library.claim(text, at)
            expect(f"claim {at} of {name}", code, 0)
            while state.count < claimed.count:
                to = min(state.count + max(7, claimed.count // 9), claimed.count)
                due = [it for it in events if state.count <= it.count < to]
                code, more = library.advance(state, words, due, to)
                expect(f"{name} advances to {to}", code, 0)
                sent += more
            expect(f"{name} at checkpoint {at}", (bytes(state), bytes(words)), (bytes(claimed), bytes(claimed_words)))
        expect(f"what {name} sends", text.endswith(sent), True)
        expect(f"a claim of {name} that isn't there", library.claim(text, last + 1)[0], 5)
    print("claim, advance: four recordings run by frames come to each of their checkpoints")


def read_all_claims(library: Library) -> None:
    """All claims, read at once, are those that are read one by one, and what each checkpoint claims was sent is as long."""
    number = 0
    for text in (
        STORED,
        FACE,
        (EXAMPLES / "face-version-1.orsr").read_bytes(),
        *(run(PROGRAM, "record", given=(EXAMPLES / f"{name}.json").read_bytes())[0] for name in ("hello", "keys", "clock")),
    ):
        checkpoints = read(text).checkpoints
        code, needed, *_ = library.claims(text, (0, 0))
        expect("room for no claims", (code, needed[0]), (2, len(checkpoints)))
        for less in ((1, 0), (0, 1)):
            rooms = needed[0] - less[0], needed[1] - less[1]
            expect("too little room for all claims", library.claims(text, rooms)[:2], (2, needed))
        for more in (0, 3):
            code, counts, claimed, pages = library.claims(text, (needed[0] + more, needed[1] + more))
            expect("all claims", (code, counts), (0, needed))
            for at, it in enumerate(checkpoints):
                _, state, words = library.claim(text, at)
                memory = b"".join(bytes(pages[index]) for index in claimed[at].pages)
                expect(f"claim {at} of all", (bytes(claimed[at].state), memory), (bytes(state), bytes(words)))
                expect(f"how much claim {at} of all sends", claimed[at].sent_count, len(it.output))
        expect("the page of zeros", any(bytes(pages[0])), False)
        number += len(checkpoints)
    for text in (b"", STORED[:-1], STORED + b"\0", changed(STORED, 4)):
        expect("all claims of no recording", library.claims(text, (9, 9))[:2], (4, (77, 77)))
    print(f"claims: {number} checkpoints of six recordings, read at once, are those read one by one")


def make_live(library: Library) -> None:
    """Recordings made while the machine runs are accepted, those of sessions are the recorder's bytes, and a false one is false."""
    for name in ("hello", "keys", "clock", "face"):
        recorded = run(PROGRAM, "record", given=(EXAMPLES / f"{name}.json").read_bytes())[0]
        events, last = inputs_and_last(recorded)
        _, state, words = library.claim(recorded, 0)
        code, text, _ = library.begin(state, words)
        expect(f"{name} begins", (code, run(PROGRAM, "check", given=text)), (0, (b"accepted 0 checkpoints 0 steps\n", 0)))
        for at in range(1, last + 1):
            to = library.claim(recorded, at)[1].count
            due = [it for it in events if state.count <= it.count < to]
            code, sent = library.advance(state, words, due, to)
            expect(f"{name} advances to {to}", code, 0)
            code, text, _ = library.extend(text, due, state, words, sent)
            expect(f"{name} with checkpoint {at}", code, 0)
            accepted = f"accepted {at} checkpoints {to} steps\n".encode()
            expect(f"the check of {name} with checkpoint {at}", run(PROGRAM, "check", given=text), (accepted, 0))
        expect(f"what {name} comes to", text, recorded if all(it.count < state.count for it in events) else text)
        state.r[3] ^= 1
        state.count += 10
        code, text, _ = library.extend(text, [], state, words, b"")
        line, status = run(PROGRAM, "check", given=text)
        expect(
            f"a false checkpoint of {name}", (code, line.split(b" at ")[0], status), (0, f"false checkpoint {last + 1}".encode(), 1)
        )
    _, state, words = library.claim(STORED, 1)
    code, sent = library.advance(state, words, [], 150)
    code, text, _ = library.extend(STORED, [], state, words, sent)
    expect(
        "an extension of a recording of version 1",
        (code, run(PROGRAM, "check", given=text)[0]),
        (0, b"accepted 2 checkpoints 150 steps\n"),
    )
    print("begin, extend: four recordings made while the machine runs are accepted at each checkpoint; a false claim is found")


def call_together(library: Library) -> None:
    """Threads that call at the same time get what a single one gets, also where they read the same bytes."""
    texts = [FACE, changed(FACE, len(FACE) - 700), FACE[:-1], STORED]
    alone = [library.answer("check", text, 256) for text in texts]
    events, _ = inputs_and_last(FACE)

    def advanced(_: int) -> tuple[bytes, bytes, bytes]:
        _, state, words = library.claim(FACE, 0)
        return library.advance(state, words, events, 3_000_000)[1], bytes(state), bytes(words)

    first = advanced(0)
    with ThreadPoolExecutor(8) as threads:
        checks = [threads.submit(library.answer, "check", text, 256) for _ in range(3) for text in texts]
        runs = [threads.submit(advanced, number) for number in range(8)]
        expect("checks at the same time", [it.result() for it in checks], alone * 3)
        expect("runs at the same time", [it.result() == first for it in runs], [True] * 8)
    print("threads: eight at a time check and run as one does")


def read_together(library: Library) -> None:
    """Buffers that are only read may overlap."""
    _, state, words = library.claim(STORED, 0)
    _, text, _ = library.begin(state, words)
    state.count = 100
    memory = ctypes.create_string_buffer(text, len(text))
    size, out, count = ctypes.c_size_t, ctypes.create_string_buffer(1 << 21), ctypes.c_size_t(0)
    code = library.c.galluspa_extend(
        memory,
        size(len(text)),
        memory,
        size(0),
        ctypes.byref(state),
        words,
        size(WORDS),
        memory,
        size(9),
        out,
        size(1 << 21),
        ctypes.byref(count),
    )
    apart = library.extend(text, [], state, words, text[:9])
    expect("an extension whose bytes sent are those of its recording", (code, out.raw[: count.value]), apart[:2])
    print("overlap: buffers that are read may be one")


def read_longest(library: Library) -> None:
    """Of a file longer than any recording, one byte more than the longest decides."""
    longest = dict(constants())["GALLUSPA_LONGEST"]
    whole = STORED + bytes(longest + 1000 - len(STORED))
    line, status = run(PROGRAM, "check", "--disk", given=whole)
    expect("the line of a file that is too long", line, b"refused 8 trailing at byte 9504\n")
    for length in (longest + 1, longest):
        expect(f"the check of {length} bytes", library.answer("check", whole[:length], 256), (len(line), line, status))
    expect("the claim of a file that is too long", library.claim(whole[: longest + 1], 0)[0], 4)
    print(f"longest: {longest + 1:,} bytes have the line of the whole file")
