"""Counts of executed instructions, and records of what instructions do: of programs that are worked out by hand."""

import ctypes
import time
from collections.abc import Mapping, Sequence
from pathlib import Path
from typing import Any

from galluspa.assembler.encoding import ALWAYS, DEVICES, DIV, EQ, MOV, NE, SUB, branch, imm, load, store
from tests.library.binding import WORDS, Input, Library, Record, State, Words
from tests.library.trial import EXAMPLES, PROGRAM, WARNINGS, expect, fail, run
from tests.support.slowness import is_within

# The text of hello.json has 13 bytes, and its loop the words 2 to 6; the branch at 3 leads to 7 at the byte of 0, and 7 is a jump to itself.
HELLO = {0: (1, 0), 1: (1, 0), 2: (14, 0), 3: (14, 1), 4: (13, 0), 5: (13, 0), 6: (13, 13), 7: (31, 31)}
JUMP = branch(ALWAYS, -1)
LAST = WORDS - 1
# Words of memory, the count up to which they run, and how often each word is visited and left.
ROWS: Sequence[tuple[str, Mapping[int, int], int, int, Mapping[int, tuple[int, int]]]] = (
    (
        "a loop of three rounds",
        {0: imm(MOV, 1, 0, 3), 1: imm(SUB, 1, 1, 1), 2: branch(NE, -2), 3: JUMP},
        0,
        100,
        {0: (1, 0), 1: (3, 0), 2: (3, 2), 3: (93, 93)},
    ),
    ("no count", {0: JUMP}, 0, 0, {}),
    ("one count", {0: JUMP}, 0, 1, {0: (1, 1)}),
    ("a branch to the next word", {0: branch(ALWAYS, 0), 1: JUMP}, 0, 5, {0: (1, 0), 1: (4, 4)}),
    ("a branch that is not taken", {0: branch(NE, 5), 1: imm(SUB, 0, 0, 0), 2: branch(NE, 7), 3: JUMP}, 0, 1, {0: (1, 1)}),
    ("a stop at a divisor", {0: imm(MOV, 1, 0, 1), 1: imm(DIV, 0, 0, 0)}, 0, 1000, {0: (1, 0), 1: (1, 1)}),
    ("a stop at an address", {0: imm(MOV, 1, 0, -68), 1: load(0, 1, 0)}, 0, 9, {0: (1, 0), 1: (1, 1)}),
    ("a branch out of memory", {0: branch(ALWAYS, WORDS)}, 0, 9, {0: (1, 1)}),
    ("the end of memory", {LAST - 1: imm(MOV, 1, 0, 1), LAST: imm(MOV, 1, 0, 2)}, LAST - 1, 9, {LAST - 1: (1, 0), LAST: (1, 0)}),
    ("the last word", {LAST: JUMP}, LAST, 4096, {LAST: (4096, 4096)}),
)
# Waits for a switch in a loop whose load, at the word 1, is done at each odd count; and then jumps to itself.
WAITING = {0: imm(MOV, 1, 0, -64), 1: load(0, 1, 4), 2: branch(EQ, -2), 3: JUMP}
# Instructions at the counts from 5 on: whether each stores, how many bytes, their address, the value before and after; whether it sends, and
# what; and the inputs that it takes, as the first index and the number.
BYTE = 1 << 28
RECORDED: Sequence[tuple[int, ...]] = (
    (imm(MOV, 4, 0, 7), 0, 0, 0, 0, 0, 0, 0, 1, 0),
    (load(0, 3, 0), 0, 4, 0x100, 0x89ABCDEF, 0x89ABCDEF, 0, 0, 1, 0),
    (load(5, 2, 4), 0, 4, 0xFFFFC4, 0x456, 0x456, 0, 0, 1, 2),
    (load(6, 3, 1) | BYTE, 0, 1, 0x101, 0xCD, 0xCD, 0, 0, 3, 1),
    (store(1, 3, 0), 1, 4, 0x100, 0x89ABCDEF, 0x12345678, 0, 0, 4, 0),
    (store(1, 3, 3) | BYTE, 1, 1, 0x103, 0x12, 0x78, 0, 0, 4, 0),
    (store(1, 2, 8), 1, 4, 0xFFFFC8, 0, 0x12345678, 1, 0x78, 4, 0),
    (load(7, 2, 28), 0, 4, 0xFFFFDC, 65, 65, 0, 0, 4, 0),
    (load(8, 2, 24), 0, 4, 0xFFFFD8, 1 << 28, 1 << 28, 0, 0, 4, 1),
    (imm(DIV, 0, 0, 0), 0, 0, 0, 0, 0, 0, 0, 5, 0),
)
# Idle loops: the word at which each begins, its words, and R0 and R1.
IDLE_COUNTS, MOST_SECONDS = 1 << 30, 1.0
# What else runs on the machine makes a call longer, so the shortest of some tries counts.
TRIES = 3
FIVE = imm(MOV, 2, 0, 5)
IDLE: Sequence[tuple[str, int, Sequence[int], tuple[int, int]]] = (
    ("a jump to itself", 0, [JUMP], (0, 0)),
    ("three instructions with a store to the LEDs", 0, [store(0, 1, 4), FIVE, branch(ALWAYS, -3)], (3, DEVICES)),
    ("five instructions with a store to the LEDs", 0, [store(0, 1, 4), FIVE, FIVE, FIVE, branch(ALWAYS, -5)], (3, DEVICES)),
    ("three instructions with a store to one of them", 0, [store(0, 1, 4), FIVE, branch(ALWAYS, -3)], (FIVE, 0)),
    ("five instructions with a store to one of them", 0, [store(0, 1, 4), FIVE, FIVE, FIVE, branch(ALWAYS, -5)], (FIVE, 0)),
    ("a jump to itself in the last word of memory", LAST, [JUMP], (0, 0)),
    ("a loop in the last line of memory", LAST - 2, [FIVE, FIVE, branch(ALWAYS, -3)], (0, 0)),
)


def machine(words: Mapping[int, int], **fields: int) -> tuple[State, Words]:
    """Returns a machine with these words in memory."""
    state, memory = State(disk=255, **fields), (ctypes.c_uint32 * WORDS)()
    for at, word in words.items():
        memory[at] = word
    return state, memory


def counted(visits: Sequence[int], departures: Sequence[int]) -> dict[int, tuple[int, int]]:
    """Returns what was counted of each word of which anything was."""
    return {at: both for at, both in enumerate(zip(visits, departures, strict=True)) if any(both)}


def count_instructions(library: Library) -> None:
    """The counts of programs are those that were worked out by hand."""
    _, state, words = library.claim(run(PROGRAM, "record", given=(EXAMPLES / "hello.json").read_bytes())[0], 0)
    code, visits, departures = library.profile(state, words, [], 100)
    expect("the counts of hello", (code, counted(visits, departures), sum(visits)), (0, HELLO, 100))
    for name, memory, pc, to, wanted in ROWS:
        code, visits, departures = library.profile(*machine(memory, pc=pc), [], to)
        expect(name, (code, counted(visits, departures)), (0, wanted))
    stopped = machine({0: JUMP}, stop=2)
    expect("a machine that has stopped", counted(*library.profile(*stopped, [Input(3, 4, 1)], 1 << 40)[1:]), {})
    beyond = machine({0: JUMP}, pc=WORDS)
    expect("a program counter outside memory", counted(*library.profile(*beyond, [], 1 << 40)[1:]), {})
    split_counts(library)
    print(
        f"profile: the counts of hello and of {len(ROWS) + 2} programs are those worked out by hand; of parts of a run, they add up"
    )


def split_counts(library: Library) -> None:
    """The counts of a run are the sums of those of its parts, with the inputs of their counts; and inputs lead elsewhere."""
    for count, rounds in ((4, 3), (5, 3), (6, 4), (7, 4)):
        left = 20 - 1 - 2 * rounds
        wanted = {0: (1, 0), 1: (rounds, 0), 2: (rounds, rounds - 1), 3: (left, left)}
        code, visits, departures = library.profile(*machine(WAITING), [Input(count, 2, 1)], 20)
        expect(f"the counts with a switch at {count}", (code, counted(visits, departures)), (0, wanted))
    text = run(PROGRAM, "record", given=(EXAMPLES / "keys.json").read_bytes())[0]
    keys = [Input(10, 4, 72), Input(10, 4, 105), Input(50, 4, 33)]
    _, state, words = library.claim(text, 0)
    whole = counted(*library.profile(state, words, keys, 100)[1:])
    expect("that keys change the counts of keys.json", whole == counted(*library.profile(state, words, [], 100)[1:]), False)
    expect("that inputs of other counts do not", counted(*library.profile(state, words, [*keys, Input(100, 4, 1)], 100)[1:]), whole)
    sums: dict[int, tuple[int, int]] = {}
    for to in (1, 10, 11, 37, 50, 51, 100):
        for at, (visited, left) in counted(*library.profile(state, words, keys, to)[1:]).items():
            before = sums.get(at, (0, 0))
            sums[at] = before[0] + visited, before[1] + left
        expect(f"an advance to {to}", library.advance(state, words, keys, to)[0], 0)
    expect("the sums of the counts of parts", dict(sorted(sums.items())), whole)


def skip_idle_loops(library: Library) -> None:
    """A profile of an idle loop takes next to no time, whatever the loop does and wherever it is, and counts each of its rounds."""
    for name, at, loop, registers in IDLE:
        state, words = machine(dict(enumerate(loop, at)), pc=at)
        state.r[:2] = registers
        seconds = MOST_SECONDS + 1
        for _ in range(TRIES):
            since = time.process_time()
            code, visits, departures = library.profile(state, words, [], IDLE_COUNTS)
            seconds = min(seconds, time.process_time() - since)
            if seconds <= MOST_SECONDS:
                break
        rounds, rest = divmod(IDLE_COUNTS, len(loop))
        wanted = {at + index: (rounds + (index < rest), 0) for index in range(len(loop))}
        wanted[at + len(loop) - 1] = rounds, rounds
        expect(f"the counts of {name}", (code, counted(visits, departures)), (0, wanted))
        if not is_within(seconds, MOST_SECONDS):
            fail(f"a profile of {name} takes {seconds:.1f} s of a processor for {IDLE_COUNTS} counts")
    print(f"profile: {len(IDLE)} idle loops of {IDLE_COUNTS} counts are not done step by step")


def record_states(library: Library) -> None:
    """Each state of a record is that of the machine which is advanced one by one; also from a later count, and after a stop."""
    number = 0
    for name, steps in (("hello", 100), ("keys", 120), ("flags", 60), ("clock", 200)):
        text = run(PROGRAM, "record", given=(EXAMPLES / f"{name}.json").read_bytes())[0]
        inputs = [] if name != "keys" else [Input(10, 4, 72), Input(10, 4, 105), Input(50, 4, 33)]
        _, state, words = library.claim(text, 0)
        recorded, wanted = {}, []
        for count in range(steps):
            if count in (0, steps // 3):
                copy = State.from_buffer_copy(bytes(state)), type(words).from_buffer_copy(words)
                code, records = library.records(*copy, inputs, steps - count)
                recorded[count] = code, [bytes(it.state) for it in records]
            wanted.append(bytes(state))
            library.advance(state, words, inputs, count + 1)
        for count, states in recorded.items():
            expect(f"the states of {name} from {count} on", states, (0, wanted[count:]))
        number += steps
    for count, first in ((4, 7), (5, 7), (6, 9), (7, 9)):
        code, waiting = library.records(*machine(WAITING), [Input(count, 2, 1)], 12)
        expect(
            f"the records with a switch at {count}",
            (code, [it.state.pc for it in waiting].index(3), [it.state.r[0] for it in waiting].index(1)),
            (0, first, first - 1),
        )
    code, stopped = library.records(*machine({0: imm(DIV, 0, 0, 0)}), [], 3)
    expect("the records of a stop", (code, [(it.state.pc, it.state.stop) for it in stopped]), (0, [(0, 0), (0, 2), (0, 2)]))
    code, many = library.records(*machine({0: imm(SUB, 1, 1, 1), 1: branch(ALWAYS, -2)}), [], 1 << 20)
    expect("many records", (code, len(many), many[-1].state.r[1], many[-1].state.pc), (0, 1 << 20, (1 << 32) - (1 << 19), 1))
    print(f"records: {number} states are those of the machine advanced one by one")


def did(it: Record) -> tuple[int, ...]:
    """Returns what a record says that its instruction does."""
    access = it.stores, it.access_bytes, it.address, it.old_value, it.new_value
    return it.has_word, it.word, *access, it.sends, it.sent, it.inputs_from, it.inputs_count


def record_instructions(library: Library) -> None:
    """What each instruction does is what was worked out by hand; the states are those of the machine advanced one by one, and it comes
    to the last of them."""
    state, words = machine(dict(enumerate(word for word, *_ in RECORDED)), count=5)
    state.r[1], state.r[2], state.r[3], words[0x40] = 0x12345678, DEVICES, 0x100, 0x89ABCDEF
    again = State.from_buffer_copy(bytes(state)), type(words).from_buffer_copy(words)
    keys = [Input(count, 4, value) for count, value in ((8, 65), (13, 66), (15, 67))]
    inputs = [Input(2, 4, 9), Input(7, 2, 0x123), Input(7, 2, 0x456), *keys]
    code, records = library.records(state, words, inputs, len(RECORDED) + 1)
    wanted = [(1, *row) for row in RECORDED] + [(0, 0, 0, 0, 0, 0, 0, 0, 0, 5, 0)]
    expect("what the instructions do", (code, [did(it) for it in records]), (0, wanted))
    for it in records:
        expect(f"the state of the record of {it.state.count}", bytes(it.state), bytes(again[0]))
        library.advance(*again, inputs, it.state.count + 1)
    expect("where a machine comes that is recorded", (bytes(state), bytes(words)), (bytes(again[0]), bytes(again[1])))
    expect("records of no count", library.records(state, words, inputs, 0), (0, []))
    print(f"records: {len(records)} instructions do what was worked out by hand")


def refuse_counts(library: Library) -> None:
    """Each refusal of profile and records, and that nothing is changed or written by it."""
    half: dict[str, Any] = dict(words=WORDS // 2)
    bad: list[dict[str, Any]] = [
        half, dict(words=0), dict(pc=1 << 22), dict(flags=16), dict(stop=5), dict(rate=7, phase=7), dict(phase=1), dict(switches=4096),
        dict(leds=256), dict(mouse=1 << 10), dict(serial=512), dict(key_count=17), dict(inputs=[Input(3, 0, 0)]), dict(inputs=[Input(3, 7, 0)]),
        dict(inputs=[Input(3, 4, 256)]), dict(inputs=[Input(3, 2, 4096)]), dict(inputs=[Input(5, 4, 1), Input(4, 4, 1)]),
        dict(inputs=[Input((1 << 40) + 1, 4, 1)]),
    ]  # fmt: skip
    for given in bad:
        fields = {name: value for name, value in given.items() if name not in ("words", "inputs")}
        state, words = State(**fields), (ctypes.c_uint32 * given.get("words", WORDS))()
        inputs = given.get("inputs", [])
        expect(f"a profile with {given}", library.profile(state, words, inputs, 100)[0], 1)
        expect(f"records with {given}", library.records(state, words, inputs, 100)[0], 1)
    start = machine({0: JUMP}, count=10)
    for lengths in ((WORDS - 1, WORDS), (WORDS, WORDS - 1), (WORDS + 1, WORDS), (WORDS, WORDS + 1), (0, 0)):
        expect(f"a profile in arrays of {lengths}", library.profile(*start, [], 20, lengths)[0], 1)
    expect("a profile backwards", library.profile(*start, [], 9)[0], 1)
    expect("a profile of no count", library.profile(*start, [], 10)[0], 0)
    late = machine({0: JUMP}, count=(1 << 64) - 5)
    expect("records past it", library.records(*late, [], 5)[0], 1)
    expect("records up to the last count", library.records(*late, [], 4)[0], 0)
    print(f"profile, records: {2 * len(bad) + 7} refusals leave everything as it was")


def run_profile(folder: Path, flags: Sequence[str]) -> None:
    """The example in C prints the counts of hello."""
    program, recording = f"{folder}/profile", folder / "profiled.orsr"
    expect("profile.c", run("cc", *WARNINGS, str(EXAMPLES / "c/profile.c"), *flags, "-o", program), (b"", 0))
    recording.write_bytes(run(PROGRAM, "record", given=(EXAMPLES / "hello.json").read_bytes())[0])
    lines = "".join(f"{at:05x} {visits} {departures}\n" for at, (visits, departures) in HELLO.items())
    expect("what profile.c prints", run(program, str(recording), "100"), (lines.encode(), 0))
