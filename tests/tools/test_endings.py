"""The ends of runs that `until` asks for: loops that a machine never leaves, against a search by force through all states."""

import unittest
from collections.abc import Sequence
from dataclasses import replace
from random import Random
from unittest import mock

from galluspa.analysis import endings
from galluspa.assembler.encoding import ADD, ALWAYS, DEVICES, IOR, MOV, NE, SUB, TIMER, XOR, U, branch, imm, load, reg, store
from galluspa.engine.library import Library
from galluspa.engine.program import Program
from galluspa.formats.instructions import address, is_store
from galluspa.formats.recording import WORDS, Checkpoint, Event, Recording, read
from galluspa.formats.sessions import KIND_NUMBERS, Session
from tests.programs.trial import memory_of
from tests.tools.samples import record

PROGRAMS = 200
MOST = 250
# No loop of these programs that comes back to the same state is longer: it takes two turns at most.
LONGEST_TAIL, LONGEST = 40, 100
# R0 to R5 hold numbers, R6 counts, and R7 and R8 point to the devices and to memory.
COUNTER, BOARD, DATA = 6, 7, 8


def tail(rng: Random) -> list[int]:
    """Instructions that bring a machine back to the same state, after one turn or after two, or at times after none."""
    kinds = [
        lambda: imm(MOV, rng.randrange(6), 0, rng.randrange(9)),
        lambda: imm(IOR, rng.randrange(6), rng.randrange(6), 1),
        lambda: imm(XOR, rng.randrange(6), rng.randrange(6), 3),
        lambda: store(rng.randrange(6), DATA, 4 * rng.randrange(4)),
        lambda: load(rng.randrange(6), DATA, 4 * rng.randrange(4)),
        lambda: load(rng.randrange(6), BOARD, 4),
    ]
    words = [rng.choice(kinds)() for _ in range(rng.choice((0, 0, rng.randrange(9), rng.randrange(LONGEST_TAIL))))]
    if rng.random() < 0.2:
        words.insert(rng.randrange(len(words) + 1), load(rng.randrange(6), BOARD, TIMER))
    if rng.random() < 0.05:
        words.append(imm(ADD, COUNTER, COUNTER, 1))
    return [*words, branch(ALWAYS, -len(words) - 1)]


def program(rng: Random) -> list[int]:
    """Some instructions, at times a loop that counts down, and a loop without end."""
    words = [U | imm(MOV, BOARD, 0, DEVICES >> 16), imm(IOR, BOARD, BOARD, DEVICES & 0xFFFF), imm(MOV, DATA, 0, 2048)]
    words += [reg(ADD, rng.randrange(6), rng.randrange(6), rng.randrange(6)) for _ in range(rng.choice((0, 3, rng.randrange(50))))]
    if rng.random() < 0.5:
        words += [imm(MOV, COUNTER, 0, rng.randrange(1, 40)), imm(SUB, COUNTER, COUNTER, 1), branch(NE, -2)]
    return words + tail(rng)


def session(rng: Random) -> Session:
    """Returns a random program, some of them with a timer that counts, and some with inputs."""
    at = sorted(rng.randrange(MOST + 20) for _ in range(rng.choice((0, 0, 1, 3))))
    inputs = [Event(count, KIND_NUMBERS["switches"], rng.randrange(4)) for count in at]
    return Session(rate=rng.choice((0, 0, 1, 5, 100)), memory=memory_of(program(rng)), inputs=inputs)


def states_of(run: Recording) -> list[int]:
    """Returns a number for the state at each checkpoint, but for its count and for a timer that counts: the same for the same
    states."""
    numbers: dict[tuple, int] = {}
    memories: dict[bytes, tuple] = {}

    def number(it: Checkpoint) -> int:
        table = it.table.tobytes()
        if table not in memories:
            memories[table] = tuple((slot, run.page(page)) for slot, page in enumerate(it.table) if page)
        timer = None if it.rate else it.timer
        processor = it.registers, it.h, it.pc, it.flags, it.stop
        state = *processor, it.switches, it.leds, it.mouse, it.serial, it.keys, timer, memories[table]
        return numbers.setdefault(state, len(numbers))

    return [number(it) for it in run.checkpoints]


def loads_timer(run: Recording, it: Checkpoint) -> bool:
    """Returns whether the next instruction loads the timer, and this counts."""
    word = run.word(it, it.pc) if it.pc < WORDS and it.rate else 0
    place = address(word, it.registers)
    return place is not None and not is_store(word) and place & ~3 == (DEVICES + TIMER) & 0xFFFFFF


def by_force(made: Session) -> int | None:
    """Returns the first count after all inputs, up to MOST, from which on the machine comes back to the same state after at most
    LONGEST instructions, none of which loads a timer that counts: each state is compared with those after it."""
    counts = range(1, MOST + LONGEST + 1)
    run = read(record(replace(made, checkpoints=list(counts)).text().encode()))
    claims, states, loads = run.checkpoints, states_of(run), [loads_timer(run, it) for it in run.checkpoints]
    first = made.inputs[-1].count + 1 if made.inputs else 0
    return next((at for at in range(first, MOST + 1) if comes_back(states, loads, at) and not claims[at].stop), None)


def comes_back(states: Sequence[int], loads: Sequence[bool], at: int) -> bool:
    """Returns whether the state at a count is that of a later one."""
    again = next((later for later in range(at + 1, at + LONGEST + 1) if states[later] == states[at]), None)
    return again is not None and not any(loads[at:again])


class LoopsTest(unittest.TestCase):
    def found(self, made: Session) -> int | None:
        """Returns what `until loops` finds."""
        return endings.Run(Library.find(None), Program.find(None), made).loop(MOST)

    def test_a_loop_is_found_at_its_first_count(self) -> None:
        """A loop of each length up to 40 after a beginning of three instructions, and of one."""
        for length in range(1, LONGEST_TAIL + 1):
            for first in (1, 3):
                words = [imm(MOV, 1, 0, 7)] * first + [imm(MOV, 0, 0, 5)] * (length - 1) + [branch(ALWAYS, -length)]
                # R0 is 5 after the loop's first instruction, so the states come back from there on.
                self.assertEqual(self.found(Session(memory=memory_of(words))), first + (length > 1), (length, first))

    @mock.patch.object(endings, "LONGEST_LOOP", LONGEST)
    def test_finds_what_is_found_by_force(self) -> None:
        found = []
        for seed in range(PROGRAMS):
            made = session(Random(seed))
            wanted = by_force(made)
            self.assertEqual(self.found(made), wanted, seed)
            found.append(wanted)
        self.assertGreater(len(set(found)), 50)
        self.assertGreater(found.count(None), 10)
