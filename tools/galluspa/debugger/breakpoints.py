"""The points at which a run pauses: breakpoints, watchpoints and catchpoints."""

from collections.abc import Iterable, Iterator, Sequence
from dataclasses import dataclass

from galluspa.analysis.rawconditions import Condition
from galluspa.formats.symbols import shown


@dataclass
class Point:
    """A place or an event at which a run is to pause: before the instruction at which its condition holds, or after it. If
    there is an `if`, `alternatives` are the conditions of which one has to hold in place of it. The next `ignored` hits pause
    nothing; a temporary point is deleted by the first one that does."""

    number: int
    text: str
    condition: Condition
    is_after: bool = False
    hits: int = 0
    alternatives: Sequence[Condition] = ()
    when: str = ""
    is_enabled: bool = True
    is_temporary: bool = False
    ignored: int = 0
    commands: Sequence[str] = ()

    @property
    def conditions(self) -> Sequence[Condition]:
        """Returns the conditions of which one has to hold."""
        return self.alternatives or (self.condition,)

    def is_of(self, condition: Condition) -> bool:
        """Returns whether a condition is one of its own."""
        return any(it is condition for it in self.conditions)

    @property
    def kind(self) -> str:
        """Returns what it is called."""
        return "watchpoint" if self.is_after else "catchpoint" if self.condition.text == self.text else "breakpoint"


def conditions_in(points: Iterable[Point]) -> list[Condition]:
    """Returns the conditions of some points."""
    return [condition for it in points for condition in it.conditions]


def point_lines(points: Iterable[Point]) -> Iterator[str]:
    """Yields a line for each point, and its commands."""
    number = 0
    for number, it in enumerate(points, 1):
        more = [f"if {shown(it.when)}"] * bool(it.when) + ["disabled"] * (not it.is_enabled) + ["temporary"] * it.is_temporary
        more += [f"ignores the next {it.ignored:,}"] * bool(it.ignored)
        hits = f"{it.hits} {'hit' if it.hits == 1 else 'hits'}"
        yield "  ".join([f"{it.number:>3}", f"{it.kind:10}", shown(it.text), hits, *([", ".join(more)] if more else [])])
        yield from (f"       {shown(line)}" for line in it.commands)
    if not number:
        yield "no breakpoints or watchpoints"
