"""Finds how many instructions a run has before it stops, or enters an endless loop."""

import argparse
from collections.abc import Sequence
from dataclasses import replace

from galluspa.analysis.rawconditions import WRITTEN, Condition
from galluspa.analysis.search import Search
from galluspa.assembler.encoding import DEVICES, TIMER
from galluspa.engine.library import Library, ignore
from galluspa.engine.machine import Inputs, Machine
from galluspa.engine.program import Program
from galluspa.engine.tracing import RunFrom
from galluspa.formats import recording
from galluspa.formats.instructions import address, is_store
from galluspa.formats.language import LANGUAGE, LOOPS, STOPS, mistake
from galluspa.formats.recording import WORDS
from galluspa.formats.sessions import Session
from galluspa.process.cli import Refused
from galluspa.process.timelimit import Limit

# The longest loop that is looked for, and by which factor the counts grow at which one is looked for.
LONGEST_LOOP = 2000
GROWTH = 8
# What to do about a stop, by its number.
ADVICE = {int(number): text for number, text in LANGUAGE["stops"].items()}
TIMER_ADDRESS = (DEVICES + TIMER) & 0xFFFFFF


class NoEnd(Refused):
    """A run that does not end as it is to end."""


class Run(RunFrom):
    """A run of a session."""

    def __init__(self, library: Library, program: Program, session: Session) -> None:
        alone = replace(session, inputs=[], checkpoints=[])
        first = library.claim(program.recorded(alone.text().encode()), 0)
        super().__init__(library, first, Inputs(session.inputs))
        self.settled = session.inputs[-1].count + 1 if session.inputs else 0

    def later(self, before: Machine, count: int) -> Machine:
        """Returns the machine at a count, from one at a count before."""
        machine = before.copy()
        self.advance(machine, count)
        return machine

    def stop(self, most: int) -> int | None:
        """Returns the first count at which the machine is stopped, up to one."""
        hit = Search(self, [Condition("stop", WRITTEN["stop"])], 0, most, tell=ignore).first()
        return hit.count + 1 if hit else None

    def loop(self, most: int) -> int | None:
        """Returns the first count, after all inputs and up to one, from which on the machine comes back to the same state again
        and again."""
        if self.settled > most:
            return None
        settled = machine = self.machine(self.settled)
        steps = GROWTH
        while True:
            is_last = machine.count >= most
            length = self.loop_length(machine, LONGEST_LOOP if is_last else min(steps // GROWTH, LONGEST_LOOP))
            if length:
                return self._loop_start(settled, machine.count, length)
            if is_last:
                return None
            machine = self.later(machine, min(machine.count + steps, most))
            steps *= GROWTH

    def _loop_start(self, before: Machine, end: int, length: int) -> int:
        """Returns the first count, from that of a machine on, in a loop of this length that the machine is in at the end. A
        shorter search may have missed the loop at any of the counts between, so none of them is taken to be outside."""
        while end > before.count:
            middle = self.later(before, (before.count + end) // 2)
            if self.loop_length(middle, length):
                end = middle.count
            elif middle.count == before.count:
                break
            else:
                before = middle
        return end

    def loop_length(self, start: Machine, longest: int) -> int | None:
        """Returns how many instructions, up to the longest loop, bring a machine back to its state; None if none do. A loop
        that reads the timer while it counts is none: it may wait for it."""
        machine = start.copy()
        for length in range(1, longest + 1):
            if start.state.stop or machine.state.rate and _reads_timer(machine):
                return None
            self.advance(machine, machine.count + 1)
            if machine.state.pc == start.state.pc and _is_same(start, machine):
                return length
        return None


def _reads_timer(machine: Machine) -> bool:
    """Returns whether the next instruction loads the timer."""
    if machine.state.pc >= WORDS:
        return False
    word = machine.words[machine.state.pc]
    place = address(word, machine.state.r)
    return place is not None and not is_store(word) and place & ~3 == TIMER_ADDRESS


def _is_same(one: Machine, other: Machine) -> bool:
    """Returns whether two machines are in the same state, but for their counts and for a timer that counts."""
    return _parts(one) == _parts(other) and one.memory() == other.memory()


def _parts(machine: Machine) -> Sequence[object]:
    it = machine.seen()
    timer = () if it.rate else (it.timer,)
    return (it.registers, it.h, it.pc, it.flags, it.stop, it.switches, it.leds, it.mouse, it.serial, it.keys, it.disk, *timer)


def end_of(asked: argparse.Namespace, session: Session, end: str, most: int) -> int:
    """Returns the count at which the run of a session `stops` or `loops`; refused if it does not by the most counts. What is
    asked names the program, the library and the limit of time."""
    limit = Limit(asked.limit)
    run = Run(Library.find(asked.library, limit), Program.find(asked.program, limit), session)
    count = run.stop(most) if end == STOPS else run.loop(most)
    if count is not None:
        return max(count, 1)
    if end == LOOPS and (stopped := run.stop(most)):
        state = run.machine(stopped).state
        name = recording.STOPS[state.stop]
        raise NoEnd(mistake("noLoop", count=stopped, word=state.pc, stop=state.stop, name=name, advice=ADVICE[state.stop]))
    if end == STOPS:
        raise NoEnd(mistake("noStop", most=most))
    raise NoEnd(mistake("noEnd", most=most))
