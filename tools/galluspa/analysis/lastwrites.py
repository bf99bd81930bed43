"""Finds the instruction that wrote a part of the machine last, and the one that changed it last, by searches of the library."""

from collections.abc import Iterator
from dataclasses import dataclass

from galluspa.analysis.addresses import place_words, register_named
from galluspa.analysis.conditions import conditions_of
from galluspa.analysis.expressions import Moment
from galluspa.analysis.naming import placed_lines
from galluspa.analysis.rawconditions import CHANGE, REGISTER_NUMBERS, WRITTEN, Condition, Raw, changing, writing
from galluspa.analysis.search import Search
from galluspa.engine.past import Past
from galluspa.engine.tracing import Run, Step
from galluspa.formats.recording import MEMORY_BYTES, WORD
from galluspa.formats.symbols import Symbols, shown
from galluspa.process.cli import Refused


@dataclass(frozen=True)
class LastWrite:
    """The last instruction from a count on that wrote a part, and the last one that changed it, which may be the same; None if
    none changed it."""

    first: int
    step: Step
    changed: Step | None

    @property
    def is_change(self) -> bool:
        """Returns whether the last write changed the part."""
        return self.changed is not None and self.changed.before.count == self.step.before.count

    def lines(self, symbols: Symbols) -> Iterator[str]:
        """Yields the line of the last write, and that of the last change if it is another one."""
        yield from placed_lines(self.step, symbols)
        if self.changed is None:
            yield f"it wrote the value that was there, which nothing changed since count {self.first:,}"
        elif not self.is_change:
            yield "it wrote the value that was there; last changed by:"
            yield from placed_lines(self.changed, symbols)


def last_write_asked(run: Run, text: str, moment: Moment, symbols: Symbols, jobs: int = 1) -> LastWrite | None:
    """Returns the last write before a moment of a run of what a text names: a register, a part of a device, or a place of a
    condition, in which *ADDRESS and a register stand for the address that they are then; a dot is written where it changes. None if
    nothing wrote it. Raises Refused for what is none, and for several places."""
    run, first, to = Past.of(run), run.first_count, moment.state.count
    if part := register_named(text) or (text if text in WRITTEN and not symbols.places(text) else None):
        return last_write(run, part, first, to, jobs)
    words = place_words(text, moment, symbols)
    is_dot = words[0] == "dot"
    conditions = conditions_of(["change" if is_dot else "store", *words], symbols)
    if len(conditions) > 1:
        raise Refused(f"{shown(text)}: expected one place")
    return _last_write(run, conditions[0], None if is_dot else _storing_another(conditions[0]), first, to, jobs)


def last_write(run: Run, part: str | int, first: int, to: int, jobs: int = 1) -> LastWrite | None:
    """Returns the last write of a part, or of the word of memory at an address, in the counts from `first` to `to`; None if
    nothing wrote it, or if there is no condition for the part."""
    if (condition := writing(part)) is None:
        return None
    changes = changing(str(part)) if part in REGISTER_NUMBERS else _storing_another(condition) if isinstance(part, int) else None
    return _last_write(Past.of(run), condition, changes, first, to, jobs)


def _storing_another(stores: Condition) -> Condition | None:
    """Returns the condition that memory changes where something is stored; None of a device: no condition says when it changes."""
    if any(it.end > MEMORY_BYTES for it in stores.raws):
        return None
    return Condition(stores.text, tuple(Raw(CHANGE, it.first, it.end, WORD) for it in stores.raws))


def _last_write(run: Run, writes: Condition, changes: Condition | None, first: int, to: int, jobs: int) -> LastWrite | None:
    """Returns the last write, and the last change, which is the same if there is no condition for it. None if there is none."""
    step = last_step(run, writes, first, to, jobs)
    if step is None:
        return None
    return LastWrite(first, step, last_step(run, changes, first, step.before.count + 1, jobs) if changes else step)


def last_step(run: Run, condition: Condition, first: int, to: int, jobs: int = 1) -> Step | None:
    """Returns the last instruction in the counts from `first` to `to` at which a condition holds; None if there is none."""
    hit = Search(run, [condition], first, to, jobs).last() if first < to else None
    return hit.step if hit else None
