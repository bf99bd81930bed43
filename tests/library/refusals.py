"""Each refusal of the library, and that nothing is changed or written by it."""

import ctypes
import dataclasses
import json
from collections.abc import Sequence
from pathlib import Path
from typing import Any

from galluspa.formats.recording import Event, read, write
from tests.library.binding import WORDS, Input, Library, State, Words
from tests.library.trial import EXAMPLES, PROGRAM, WARNINGS, expect, fail, run

MEMORY = Path(__file__).with_name("memory.c")


def refuse_making(library: Library) -> None:
    """Each refusal of begin and extend, and that nothing is written by it."""
    hello = run(PROGRAM, "record", given=(EXAMPLES / "hello.json").read_bytes())[0]
    _, first, words = library.claim(hello, 0)

    def key(count: int, kind: int = 4, value: int = 65) -> Input:
        return Input(count, kind, value)

    def altered(state: State, **fields: int) -> State:
        it = State.from_buffer_copy(bytes(state))
        for name, value in fields.items():
            setattr(it, name, value)
        return it

    code, text, length = library.begin(first, words)
    expect("hello begins", (code, len(text)), (0, length))
    expect("a beginning with devices", library.begin(altered(first, timer=5, switches=7, leds=3, key_count=2), words)[0], 0)
    expect("a beginning without room", library.begin(first, words, length - 1)[::2], (2, length))
    half = (ctypes.c_uint32 * (WORDS // 2))()
    expect("a beginning of half the words", library.begin(first, half)[0], 1)
    for fields in (
        dict(count=1),
        dict(pc=4194304),
        dict(flags=16),
        dict(stop=5),
        dict(phase=1),
        dict(switches=4096),
        dict(key_count=17),
    ):
        expect(f"a beginning with {fields}", library.begin(altered(first, **fields), words)[0], 1)

    later = altered(first, count=100)
    code, more, length = library.extend(text, [key(0), key(99)], later, words, b"ab")
    expect("an extension", (code, len(more)), (0, length))
    expect("an extension without room", library.extend(text, [key(0), key(99)], later, words, b"ab", length - 1)[::2], (2, length))
    bad: list[tuple[str, bytes, list[Input], State, Words]] = [
        ("half the words", text, [], later, half), ("no recording", text[:-1], [], later, words),
        ("count 0", text, [], altered(first, count=0), words), ("a count above 2^40", text, [], altered(first, count=(1 << 40) + 1), words),
        ("an input at the new count", text, [key(100)], later, words), ("inputs that fall", text, [key(5), key(4)], later, words),
        ("no kind", text, [key(5, 7)], later, words), ("no value of a kind", text, [key(5, 4, 256)], later, words),
        ("an input before the last checkpoint", more, [key(99)], altered(first, count=101), words),
        ("the same count again", more, [], later, words), ("a stop of 5", text, [], altered(later, stop=5), words),
    ]  # fmt: skip
    for what, given, inputs, state, memory in bad:
        expect(
            f"an extension with {what}", library.extend(given, inputs, state, memory, b"")[0], 4 if what == "no recording" else 1
        )
    refuse_too_much(library, text, later, words)
    refuse_pending(library, first, words)
    print(f"begin, extend: {len(bad) + 19} refusals write nothing")


def refuse_too_much(library: Library, text: bytes, later: State, words: Words) -> None:
    """What a recording may not have more of: inputs, checkpoints, bytes sent, pages."""
    most = 1 << 20
    full = library.extend(text, [], later, words, bytes(most), 1 << 22)
    expect("as much output as there may be", full[0], 0)
    expect("too much output at once", library.extend(text, [], later, words, bytes(most + 1), 1 << 22)[0], 8)
    after = State.from_buffer_copy(bytes(later))
    after.count += 1
    expect("too much output in all", library.extend(full[1], [], after, words, b"a", 1 << 22)[0], 8)
    many = bytearray(bytes(Input(7, 4, 65)) * 1_000_001)
    for count, wanted in ((1_000_001, 6), (1_000_000, 0)):
        inputs = (Input * count).from_buffer(many)
        expect(
            f"{count:,} inputs, where there may be 1,000,000", library.extend(text, inputs, later, words, b"", 1 << 25)[0], wanted
        )
    inputs = (Input * 1_000_001).from_buffer(many)
    inputs[0].kind = 6
    expect("as many with an answer of a disk", library.extend(text, inputs, later, words, b"", 1 << 25)[0], 0)
    # (recorded at once: each extension reads what the ones before wrote, so that 4,095 of them take most of a minute)
    session = json.loads((EXAMPLES / "hello.json").read_text())
    session["checkpoints"] = list(range(1, 4096))
    it = run(PROGRAM, "record", given=json.dumps(session).encode())[0]
    for at, wanted in ((4096, 0), (4097, 7)):
        after.count = at
        code, it, _ = library.extend(it, [], after, words, b"")
        expect(f"checkpoint {at}, where there may be 4096", code, wanted)
    it, memory, codes = text, (ctypes.c_uint32 * WORDS)(*words), []
    for at in range(1, 66):
        for page in range(1024):
            memory[256 * page] = at
        after.count = at
        code, more, _ = library.extend(it, [], after, memory, b"", len(it) + (1 << 21))
        it = it if code else more
        codes.append(code)
    expect("1,024 more pages at each checkpoint, where there may be 65,536", codes, [0] * 63 + [9] * 2)


def refuse_pending(library: Library, first: State, words: Words) -> None:
    """A recording with an input at or after its last checkpoint is not extended: its claim would be false, though advance returned it."""
    state, waiting = State.from_buffer_copy(bytes(first)), (ctypes.c_uint32 * WORDS)(*words)
    waiting[0] = 0xE7FFFFFF  # it branches to itself, so that a key stays in the queue
    begun = read(library.begin(state, waiting)[1])
    for count in (0, 10):
        text = write(dataclasses.replace(begun, events=[Event(count, 4, 65)]))
        expect(
            f"the check of a recording with a key at {count}",
            run(PROGRAM, "check", given=text),
            (b"accepted 0 checkpoints 0 steps\n", 0),
        )
        code, now, memory = library.claim(text, 0)
        expect("the run without the key", (code, library.advance(now, memory, [], 20)), (0, (0, b"")))
        expect(f"an extension of a recording with a key at {count}", library.extend(text, [], now, memory, b"")[0], 10)
        expect("one that does not come next, either", library.extend(text, [], first, words, b"")[0], 10)
    key = Input(10, 4, 65)
    expect("the run with the key", library.advance(state, waiting, [key], 20), (0, b""))
    code, text, _ = library.extend(write(begun), [key], state, waiting, b"")
    expect("the extension with the key", (code, run(PROGRAM, "check", given=text)[0]), (0, b"accepted 1 checkpoints 20 steps\n"))
    expect(
        "a false extension",
        library.extend(write(dataclasses.replace(begun, events=[Event(10, 4, 65)])), [key], state, waiting, b"")[0],
        10,
    )


def refuse_live(library: Library) -> None:
    """Each refusal, and that nothing is changed by it."""
    hello = run(PROGRAM, "record", given=(EXAMPLES / "hello.json").read_bytes())[0]
    expect("a claim of half the words", library.claim(hello, 0, WORDS // 2)[0], 1)
    expect("a claim of no recording", library.claim(hello[:-1], 0)[0], 4)

    def refused(
        what: str, code: int, room: int = 1 << 20, inputs: Sequence[Input] = (), length: int | None = None, **fields: int
    ) -> None:
        _, state, words = library.claim(hello, 0)
        for name, value in fields.items():
            setattr(state, name, value)
        if length is not None:
            words = (ctypes.c_uint32 * length)(*words[:length])
        expect(what, library.advance(state, words, list(inputs), 100, room)[0], code)

    good: list[dict[str, Any]] = [
        dict(),
        dict(flags=15),
        dict(pc=4194303),
        dict(rate=7, phase=6),
        dict(key_count=16),
        dict(inputs=[Input(3, 3, 0x073FF3FF)]),
    ]
    for fields in good:
        refused(f"an advance with {fields}", 0, **fields)
    refused("room for all that is sent", 0, room=13)
    refused("too little room", 2, room=12)
    bad: list[dict[str, Any]] = [
        dict(pc=4194304), dict(flags=16), dict(stop=5), dict(rate=7, phase=7), dict(phase=1), dict(switches=4096), dict(leds=256),
        dict(mouse=1 << 10), dict(serial=512), dict(key_count=17), dict(count=101), dict(length=WORDS - 1), dict(length=0),
        dict(inputs=[Input(3, 0, 0)]), dict(inputs=[Input(3, 7, 0)]), dict(inputs=[Input(3, 257, 0)]), dict(inputs=[Input(3, 4, 256)]),
        dict(inputs=[Input(3, 2, 4096)]), dict(inputs=[Input(5, 4, 1), Input(4, 4, 1)]), dict(inputs=[Input((1 << 40) + 1, 4, 1)]),
    ]  # fmt: skip
    for fields in bad:
        refused(f"an advance with {fields}", 1, **fields)
    print(f"claim, advance: {len(bad) + 4} refusals leave everything as it was")


def refuse_memory(folder: Path, flags: Sequence[str]) -> None:
    """Each request for memory of each function refused in turn: it answers that memory ran out, and nothing is written."""
    program = f"{folder}/memory"
    wrapped = ["-Wl,--wrap=malloc,--wrap=realloc,--wrap=free"]
    expect("the program that refuses memory", run("cc", *WARNINGS, str(MEMORY), *flags, *wrapped, "-o", program), (b"", 0))
    hello = EXAMPLES / "hello.json"
    recording = folder / "hello.orsr"
    recording.write_bytes(run(PROGRAM, "record", given=hello.read_bytes())[0])
    output, status = run(program, str(recording), str(hello))
    if status:
        fail(f"memory: {output.decode()}")
    print(f"memory: refused in turn, each request of {output.decode()}", end="")
