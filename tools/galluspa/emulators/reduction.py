"""Makes a trial small as long as something stays true of it: fewer instructions, inputs, pages, words and bits, by removing
chunks of them that get ever smaller (delta debugging)."""

from collections.abc import Callable, Mapping, Sequence
from dataclasses import dataclass, replace
from typing import TypeVar

from galluspa.emulators.trials import NO_DISK, Trial
from galluspa.engine.library import Library
from galluspa.engine.machine import Inputs, Machine
from galluspa.engine.structures import RawState, Words
from galluspa.formats.recording import MEMORY_BYTES, WORDS

T = TypeVar("T")
# More rounds bring hardly anything. Words and inputs are tried one by one if there are at most MOST_WORDS, instructions of
# a run if there are at most SHORT.
ROUNDS, MOST_WORDS, SHORT = 4, 64, 64


def needed(items: Sequence[T], is_still: Callable[[list[T]], bool]) -> list[T]:
    """Returns the items that a property needs: leaves out ever smaller chunks as long as it holds."""
    kept, size = list(items), len(items)
    while size and kept:
        at = 0
        while at < len(kept):
            fewer = kept[:at] + kept[at + size :]
            if is_still(fewer):
                kept = fewer
            else:
                at += size
        size = min(size, len(kept) + 1) // 2
    return kept


def machine_of(library: Library, trial: Trial, count: int) -> Machine:
    """Returns the proved machine in the run of a trial, at a count."""
    raw = RawState.from_buffer_copy(bytes(8) + trial.state() + NO_DISK)
    memory = trial.memory()
    machine = Machine(raw, Words.from_buffer_copy(memory.ljust(MEMORY_BYTES, b"\0")))
    library.advance(machine, Inputs(trial.inputs), count)
    return machine


@dataclass
class Reducer:
    """Makes trials small: the machine with which they begin later, and what has to stay true of them."""

    library: Library
    is_still: Callable[[Trial], bool]

    def smallest(self, trial: Trial) -> Trial:
        """Returns a trial in which nothing can be left out any more, as far as was tried."""
        trial = self.later_start(trial)
        for _ in range(ROUNDS):
            before = trial
            for step in (
                self.fewer_inputs,
                self.fewer_instructions,
                self.fewer_pages,
                self.fewer_words,
                self.fewer_parts,
                self.at_word_0,
                self.fewer_bits,
                self.simpler_inputs,
            ):
                trial = step(trial)
            if trial == before:
                break
        return trial

    def later_start(self, trial: Trial) -> Trial:
        """Returns the same that begins later, in the state to which its run leads."""
        back, without = 1, 0
        best = None
        while back < trial.count and best is None:
            best = self._from(trial, trial.count - back)
            if best is None:
                back, without = 2 * back, back
        if best is None:
            back, best = trial.count, trial
        while back - without > 1:
            middle = (back + without) // 2
            if found := self._from(trial, trial.count - middle):
                back, best = middle, found
            else:
                without = middle
        return best

    def _from(self, trial: Trial, count: int) -> Trial | None:
        """Returns what begins at a count, if it still is so."""
        machine = machine_of(self.library, trial, count)
        later = trial.later(machine.seen(), machine.memory())
        return later if later and self.is_still(later) else None

    def fewer_inputs(self, trial: Trial) -> Trial:
        """Returns the same without inputs that are not needed."""
        return replace(trial, inputs=needed(trial.inputs, lambda some: self.is_still(replace(trial, inputs=some))))

    def fewer_instructions(self, trial: Trial) -> Trial:
        """Returns the same without instructions that are not needed: those after them come earlier."""
        at = 0
        while at < trial.count - 1 and trial.count <= SHORT:
            shorter = _without_instruction(trial, at)
            if self.is_still(shorter):
                trial = shorter
            else:
                at += 1
        return trial

    def fewer_pages(self, trial: Trial) -> Trial:
        """Returns the same without pages that are not needed."""
        slots = needed(list(trial.pages), lambda some: self.is_still(replace(trial, pages={it: trial.pages[it] for it in some})))
        return replace(trial, pages={slot: trial.pages[slot] for slot in slots})

    def fewer_words(self, trial: Trial) -> Trial:
        """Returns the same with zeros in place of words that are not needed."""
        items = list(trial.words().items())
        return trial.with_words(dict(needed(items, lambda some: self.is_still(trial.with_words(dict(some))))))

    def fewer_parts(self, trial: Trial) -> Trial:
        """Returns the same with zeros in place of registers and other parts that are not needed."""
        registers = [at for at, value in enumerate(trial.registers) if value]

        def with_registers(some: Sequence[int]) -> Trial:
            return replace(trial, registers=tuple(value if at in some else 0 for at, value in enumerate(trial.registers)))

        trial = with_registers(needed(registers, lambda some: self.is_still(with_registers(some))))
        for zeros in ({"h": 0}, {"flags": 0}, {"rate": 0, "phase": 0}, {"phase": 0}):
            without = replace(trial, **zeros)
            if without != trial and self.is_still(without):
                trial = without
        return trial

    def at_word_0(self, trial: Trial) -> Trial:
        """Returns the same with its instructions from word 0 on."""
        words, length = trial.words(), min(trial.count, SHORT)
        if not trial.pc:
            return trial
        kept = {at: word for at, word in words.items() if not trial.pc <= at < trial.pc + length}
        moved = {at: words[trial.pc + at] for at in range(length) if trial.pc + at in words}
        first = replace(trial.with_words({**kept, **moved}), pc=0)
        return first if self.is_still(first) else trial

    def fewer_bits(self, trial: Trial) -> Trial:
        """Returns the same with fewer bits in registers, in H, in the flags and in words, if they are not many."""
        for at in range(16):
            trial = self._fewer_in(trial, trial.registers[at], lambda value: _with_register(trial, at, value))
        trial = self._fewer_in(trial, trial.h, lambda value: replace(trial, h=value))
        trial = self._fewer_in(trial, trial.flags, lambda value: replace(trial, flags=value))
        words = trial.words()
        for place in list(words) if len(words) <= MOST_WORDS else ():
            trial = self._fewer_in(trial, words[place], lambda value: trial.with_words({**trial.words(), place: value}))
        return trial

    def simpler_inputs(self, trial: Trial) -> Trial:
        """Returns the same with inputs that come at the beginning, and with fewer bits in them."""
        for at in range(len(trial.inputs) if len(trial.inputs) <= MOST_WORDS else 0):
            earliest = trial.inputs[at - 1].count if at else 0
            sooner = _with_input(trial, at, count=earliest)
            if sooner != trial and self.is_still(sooner):
                trial = sooner
            trial = self._fewer_in(trial, trial.inputs[at].value, lambda value: _with_input(trial, at, value=value))
        return trial

    def _fewer_in(self, trial: Trial, value: int, form: Callable[[int], Trial]) -> Trial:
        """Returns the trial with a number that has only needed bits."""
        bits = [1 << bit for bit in range(32) if value >> bit & 1]
        if not bits:
            return trial
        fewest = needed(bits, lambda some: self.is_still(form(sum(some))))
        return form(sum(fewest)) if len(fewest) < len(bits) else trial


def ended(trial: Trial, count: int) -> Trial:
    """Returns a trial that ends at a count."""
    return replace(trial, count=count, inputs=[event for event in trial.inputs if event.count < count])


def _with_register(trial: Trial, at: int, value: int) -> Trial:
    return replace(trial, registers=(*trial.registers[:at], value, *trial.registers[at + 1 :]))


def _with_input(trial: Trial, at: int, **parts: int) -> Trial:
    return replace(trial, inputs=[*trial.inputs[:at], replace(trial.inputs[at], **parts), *trial.inputs[at + 1 :]])


def _without_instruction(trial: Trial, at: int) -> Trial:
    """Returns a trial without one of the instructions that it does one after another; those after it come earlier."""
    words, first, last = trial.words(), trial.pc + at, trial.pc + trial.count - 1
    moved: Mapping[int, int] = {it: words.get(it + 1, 0) for it in range(first, last)}
    inputs = [replace(event, count=event.count - (event.count > at)) for event in trial.inputs]
    kept = {it: word for it, word in {**words, **moved, last: 0}.items() if it < WORDS}
    return replace(trial.with_words(kept), count=trial.count - 1, inputs=inputs)
