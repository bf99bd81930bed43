"""Where values come from: the links of a past, against a walk over single steps; that nothing but the origins matters; each refusal."""

from collections.abc import Iterator, Sequence
from dataclasses import dataclass
from random import Random

from galluspa.formats.instructions import operands_of
from tests.library.binding import WORDS, Input, Library, Link, Past, State, Words
from tests.library.pasts import SPACING, Run
from tests.library.searches import ADD, FLAGS, H, SUB, accessed, written
from tests.library.trial import FACE, PROGRAM, expect, fail, run
from tests.programs import randomly

ALL = 0xFFFFFFFF
REGISTER, WORD, LEDS, INPUTS, STOP = range(1, 6)
LEDS_AT, DEVICES = 0xFFFFC4, 0xFFFFC0
MOV, DIV = 0, 11
# The kind of the inputs that set what a device word reads, by its number; the mouse word is also of the keys.
SET_BY = {0: [1], 1: [2], 2: [5], 3: [5], 4: [6], 6: [3, 4], 7: [4]}
SEEDS = range(8)
# The fields of a state that inputs of a kind set.
FIELDS = {1: "timer", 2: "switches", 3: "mouse", 5: "serial", 6: "disk"}
# A part: its kind, the register, address or kind of input, and a mask.
Part = tuple[int, int, int]


@dataclass
class Step:
    """The step of a count: the state before and after it, the word of its instruction, the registers that this writes, and what it
    stores to: the address, the bits of the word there, and the word afterwards."""

    before: State
    after: State
    word: int | None
    registers: set[int]
    store: tuple[int, int, int] | None
    inputs: Sequence[Input]


def machine_steps(library: Library, own: Run, end: int) -> tuple[list[Step], list[int]]:
    """Returns the steps of a run up to a count, and its first memory."""
    state, words = own.machine(0)
    first, steps = list(words), []
    for count in range(end):
        inputs = [it for it in own.inputs if it.count == count]
        before, word = State.from_buffer_copy(state), words[state.pc] if not state.stop and state.pc < WORDS else None
        registers, access = written(state, words), accessed(state, words)
        expect("a step", library.advance(state, words, inputs, count + 1)[0], 0)
        store = None
        if access and access[0]:
            at, bits = access[1].start & ~3, sum(255 << 8 * (byte & 3) for byte in access[1])
            store = at, bits, words[at >> 2] if at < 4 * WORDS else 0
        registers = set() if state.stop else registers
        steps.append(Step(before, State.from_buffer_copy(state), word, registers, store, inputs))
    return steps, first


def is_sum(word: int) -> bool:
    """Returns whether an instruction is a sum or a difference."""
    return word >> 31 == 0 and word >> 16 & 15 in (ADD, SUB)


def bits_written(step: Step, part: Part) -> int:
    """Returns which bits of a part a step writes; 0 for none."""
    kind, first, mask = part
    if kind == REGISTER and first == FLAGS:
        bits = 0 if FLAGS not in step.registers else 15 if is_sum(step.word or 0) else 12
        return bits & mask
    if kind == REGISTER:
        return mask if first in step.registers else 0
    if kind == WORD:
        return step.store[1] & mask if step.store and step.store[0] == first else 0
    if kind == LEDS:
        return 255 if step.store and step.store[0] == LEDS_AT else 0
    if kind == INPUTS:
        return int(not step.before.stop and any(it.kind == first for it in step.inputs))
    return ALL if step.after.stop and not step.before.stop else 0


def value_of(state: State, word: int, part: Part) -> int:
    """Returns the value of a part of a state in which a word of memory has this value."""
    kind, first, mask = part
    if kind == REGISTER:
        return (state.r[first] if first < H else state.h if first == H else state.flags) & mask
    if kind == INPUTS:
        return (state.keys[0] if state.key_count else 0) if first == 4 else getattr(state, FIELDS[first])
    return word & mask if kind == WORD else state.leds if kind == LEDS else state.stop


def sources(state: State, word: int | None) -> Iterator[Part]:
    """Yields the parts from which an instruction computes what it writes."""
    if word is None or word >> 30 == 3:
        return
    a, b, c, op, u, v = word >> 24 & 15, word >> 20 & 15, word & 15, word >> 16 & 15, word >> 29 & 1, word >> 28 & 1
    if word >> 30 == 2:
        address = (state.r[b] + ((word & 0xFFFFF) ^ 0x80000) - 0x80000) % (1 << 24)
        if u:
            yield REGISTER, a, ALL
        elif address < 4 * WORDS:
            yield WORD, address & ~3, 255 << 8 * (address & 3) if v else ALL
        elif address >= DEVICES:
            yield from ((INPUTS, kind, 0) for kind in SET_BY.get((address - DEVICES) // 4, []))
        yield REGISTER, b, ALL
    elif op == MOV:
        if not word >> 30:
            yield (REGISTER, c, ALL) if not u else (REGISTER, FLAGS, 15) if v else (REGISTER, H, ALL)
    elif op <= DIV:
        yield REGISTER, b, ALL
        if u and op in (ADD, SUB):
            yield REGISTER, FLAGS, 2
        if not word >> 30:
            yield REGISTER, c, ALL


def compare_operands(word: int, origins: Sequence[Part]) -> None:
    """Compares the origins of an operation with what the tools take for its operands: these name all flags if it uses only C."""
    if word >> 31 == 0 and (word >> 16 & 15) <= DIV:
        names = {"flags" if first == FLAGS else "H" if first == H else f"R{first}" for _, first, _ in origins}
        expect(f"the operands of {word:08X}", names, set(operands_of(word)))


def by_hand(own: Run, steps: Sequence[Step], memory: Sequence[int], part: Part, before: int) -> tuple[object, ...]:
    """Returns the fields of a link, by a walk back over single steps."""
    count = next((count for count in reversed(range(before)) if bits_written(steps[count], part)), None)
    if count is None:
        return 0, 0, 0, value_of(steps[0].before, memory[part[1] >> 2] if part[0] == WORD else 0, part), 0, 0, 0, 0, []
    step = steps[count]
    if part[0] == INPUTS:
        index = max(at for at, it in enumerate(own.inputs) if it.count == count and it.kind == part[1])
        return count, index, 2, own.inputs[index].value, 0, 0, 0, 0, []
    value = value_of(step.after, step.store[2] if step.store else 0, part)
    instruction = step.before.pc, int(step.word is not None), step.word or 0, bits_written(step, part)
    return count, 0, 1, value, *instruction, list(sources(step.before, step.word))


def fields(link: Link) -> tuple[object, ...]:
    """Returns the fields of a link."""
    origins = [(it.kind, it.first, it.mask) for it in link.origins[: link.origins_count]]
    numbers = link.count, link.input, link.how, link.value, link.pc, link.has_word, link.word, link.bits
    return *numbers, origins


def ask(library: Library, past: Past, part: Part, before: int, budget: int) -> tuple[Link, int]:
    """Returns the link of a part before a count, and how often the budget was spent."""
    spent = 0
    keyframes = library.extent(past)[1].keyframes
    while (answer := library.why_in_past(past, part, before, budget))[0] == 12:
        more = library.extent(past)[1].keyframes
        expect("progress in a past", (answer[2] <= before, answer[2] < before or more > keyframes), (True, True))
        keyframes, before, spent = more, answer[2], spent + 1
    expect(f"where the value of {part} comes from", answer[0], 0)
    assert answer[1]
    return answer[1], spent


def some_parts(steps: Sequence[Step], chance: Random) -> list[Part]:
    """Returns parts of a machine: registers and flags, words that are stored to, devices, and the stop."""
    stored = sorted({it.store[0] for it in steps if it.store and it.store[0] < 4 * WORDS}) or [0]
    words = [
        (WORD, chance.choice(stored), chance.choice((ALL, 0xFF, 0xFF00, 0x80000000, chance.getrandbits(32) | 1))) for _ in range(6)
    ]
    flags = [(REGISTER, FLAGS, mask) for mask in (1, 2, 4, 8, 3, 12, 15)]
    inputs = [(INPUTS, kind, 0) for kind in range(1, 7)]
    return [*((REGISTER, number, ALL) for number in range(17)), *flags, *words, *inputs, (LEDS, 0, 0), (STOP, 0, 0)]


def programs() -> Iterator[tuple[int, bytes]]:
    """Yields random programs, and for how many counts they run."""
    for seed in SEEDS:
        it = randomly.case(seed)
        yield it.counts, run(PROGRAM, "record", "--disk", given=it.session.text().encode())[0]


def spend_budgets(library: Library) -> None:
    """A link is the same with a small budget, and each call that spends it adds a keyframe or searches a part of the counts."""
    own, past, other, spent = Run(library, FACE), Past(), Past(), 0
    expect("pasts that are opened", [library.open_past(it, FACE, SPACING) for it in (past, other)], [0, 0])
    parts: list[Part] = [
        (REGISTER, 3, ALL),
        (REGISTER, H, ALL),
        (REGISTER, FLAGS, 3),
        (WORD, 4 * WORDS - 4, ALL),
        (INPUTS, 4, 0),
        (STOP, 0, 0),
    ]
    for part in parts:
        for before in (own.end, own.end // 2):
            link, more = ask(library, past, part, before, 1)
            expect(f"the link of {part} before {before}", bytes(link), bytes(ask(library, other, part, before, 1 << 40)[0]))
            spent += more
    library.close_past(past)
    library.close_past(other)
    if spent < 10:
        fail(f"{spent} times a budget was spent")
    print(f"past: links are the same with a small budget, which was spent {spent} times")


def follow_values(library: Library) -> None:
    """A link is what a walk back over single steps finds, and so are those of its origins."""
    past, chance, links = Past(), Random(17), 0
    for end, text in programs():
        own = Run(library, text)
        steps, memory = machine_steps(library, own, end)
        expect("a past that is begun", library.begin_past(past, *own.machine(0), SPACING), 0)
        expect("inputs", library.input_past(past, own.inputs), 0)
        expect("a run", library.run_past_through(past, end), 0)
        asked = [(part, chance.randint(0, end)) for part in some_parts(steps, chance) for _ in range(3)]
        for part, before in (*asked, *((part, end) for part in some_parts(steps, chance))):
            todo, most = [(part, before)], 12
            while todo and most:
                part, before = todo.pop(0)
                link, _ = ask(library, past, part, before, chance.choice((1, 1 << 40)))
                expect(f"the link of {part} before {before}", fields(link), by_hand(own, steps, memory, part, before))
                links, most = links + 1, most - 1
                for it in link.origins[: link.origins_count]:
                    todo.append(((it.kind, it.first, it.mask), link.count + (it.kind == INPUTS)))
    library.close_past(past)
    if links < 1000:
        fail(f"{links} links of pasts")
    print(f"past: {links} links from values to where they come from")


def changed(state: State, words: Words, kept: Sequence[Part], chance: Random) -> None:
    """Changes all of a machine but some parts, its program counter and the instruction there."""
    bits = {part[:2]: part[2] for part in kept}
    for number in range(16):
        if (REGISTER, number) not in bits:
            state.r[number] = chance.getrandbits(32)
    if (REGISTER, H) not in bits:
        state.h = chance.getrandbits(32)
    keep = bits.get((REGISTER, FLAGS), 0)
    state.flags = state.flags & keep | chance.getrandbits(4) & ~keep
    for kind, name, most in ((1, "timer", 32), (2, "switches", 12), (5, "serial", 9), (6, "disk", 32)):
        if (INPUTS, kind) not in bits:
            setattr(state, name, chance.getrandbits(most))
    if (INPUTS, 3) not in bits:
        state.mouse = chance.getrandbits(10)
    if (INPUTS, 4) not in bits:
        state.key_count = chance.randint(0, 4)
    at = state.pc
    for index in {*range(2048), *(part[1] >> 2 for part in kept if part[0] == WORD)} - {at}:
        keep = bits.get((WORD, 4 * index), 0)
        words[index] = words[index] & keep | chance.getrandbits(32) & ~keep


def change_other_parts(library: Library) -> None:
    """From two machines that agree on the origins of an instruction, it writes the same to each part that it writes from both."""
    chance, compared = Random(19), 0
    for end, text in programs():
        own = Run(library, text)
        state, words = own.machine(0)
        for count in range(min(end, 150)):
            if state.stop or state.pc >= WORDS:
                break
            kept = list(sources(state, words[state.pc]))
            compare_operands(words[state.pc], kept)
            one, one_words = State.from_buffer_copy(state), type(words).from_buffer_copy(words)
            other, other_words = State.from_buffer_copy(state), type(words).from_buffer_copy(words)
            changed(other, other_words, kept, chance)
            registers = written(one, one_words) & written(other, other_words)
            word, access = words[state.pc], accessed(one, one_words)
            expect("what is accessed", access, accessed(other, other_words))
            for it, memory in ((one, one_words), (other, other_words)):
                expect("a step", library.advance(it, memory, [], count + 1)[0], 0)
            expect("why it stops", one.stop, other.stop)
            for number in registers if not one.stop else ():
                mask = (15 if is_sum(word) else 12) if number == FLAGS else ALL
                part = REGISTER, number, mask
                expect(f"{part} by {word:08X}", value_of(one, 0, part), value_of(other, 0, part))
                compared += 1
            if access and access[0] and access[1].start < 4 * WORDS:
                bits = sum(255 << 8 * (byte & 3) for byte in access[1])
                at = access[1].start >> 2
                expect(f"a word stored by {word:08X}", one_words[at] & bits, other_words[at] & bits)
                compared += 1
            expect("an advance", library.advance(state, words, [it for it in own.inputs if it.count == count], count + 1)[0], 0)
    if compared < 500:
        fail(f"{compared} values of machines that agree on origins")
    print(f"past: {compared} values are the same from machines that agree on their origins alone")


def refuse_questions(library: Library) -> None:
    """Each refusal of a question about where a value comes from."""
    own, past = Run(library, FACE), Past()
    r3 = REGISTER, 3, ALL
    expect("a closed past", library.why_in_past(past, r3, 0, 0)[0], 13)
    expect("a past", library.begin_past(past, *own.machine(1_000_000), SPACING), 0)
    expect("a run", library.run_past_through(past, 1_100_000), 0)
    before = bytes(library.extent(past)[1])
    bad: list[tuple[Part, int, int]] = [
        (r3, 999_999, 1), (r3, 1_100_001, 14), ((REGISTER, 3, 0), 1_100_001, 1), ((REGISTER, 18, 1), 1_000_001, 1),
        ((REGISTER, FLAGS, 16), 1_000_001, 1), ((WORD, 2, ALL), 1_000_001, 1), ((WORD, 4 * WORDS, ALL), 1_000_001, 1),
        ((WORD, 0, 0), 1_000_001, 1), ((INPUTS, 0, 0), 1_000_001, 1), ((INPUTS, 7, 0), 1_000_001, 1), ((0, 0, 0), 1_000_001, 1),
        ((6, 0, 0), 1_000_001, 1),
    ]  # fmt: skip
    for part, count, code in bad:
        expect(f"a question about {part} before {count}", library.why_in_past(past, part, count)[0], code)
    expect("a budget of 0", library.why_in_past(past, r3, 1_000_001, 0)[0], 1)
    expect("a past that is refused questions", bytes(library.extent(past)[1]), before)
    code, link, _ = library.why_in_past(past, r3, 1_000_000)
    expect("a value of the first count", (code, link and (link.how, link.value)), (0, (0, own.machine(1_000_000)[0].r[3])))
    library.close_past(past)
    print("past: each refusal of a question about where a value comes from")
