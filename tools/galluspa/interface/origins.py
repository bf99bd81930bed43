"""Where a value comes from, for programs that import this package."""

from collections.abc import Iterator, Sequence
from dataclasses import dataclass, field

from galluspa.analysis.origins import Taken, Value
from galluspa.analysis.origintexts import INDENT, end_name, line, part_name
from galluspa.engine.tracing import Step
from galluspa.formats.symbols import NONE, Symbols
from galluspa.interface.inputs import Input


@dataclass(frozen=True)
class Origin:
    """A value, and where it comes from: the instruction that wrote its part last, and the values from which that made it.

    `part` is what `galluspa why` calls the part, such as `R0` or `Mem[0010F0]`; it is empty for a number in an instruction.
    `role` is `address` or `carry` if the instruction uses the value so, and else empty. `step` is the instruction that wrote the
    part, with its `name` and its source `line`; it is None where the search ends before one. `end` says why it ends: `constant`,
    `initial`, `taken` (then `input` is the input, or None if none set it), `elsewhere` (another Origin of the tree has the
    sources), or `unfollowed` (there are as many links as asked for); it is empty where the search goes on. `text` is the line of
    `galluspa why`.
    """

    part: str
    value: int
    role: str
    step: Step | None
    name: str
    line: str
    end: str
    input: Input | None
    sources: Sequence["Origin"] = field(repr=False)
    text: str = field(repr=False)

    @staticmethod
    def of(value: Value, symbols: Symbols) -> "Origin":
        """Returns the public form of a value and of all from which it was made."""
        at = 4 * value.step.before.pc if value.step else None
        event = value.end.event if isinstance(value.end, Taken) else None
        return Origin(
            part=part_name(value.part, NONE),
            value=value.value,
            role=value.role,
            step=value.step,
            name="" if at is None else symbols.text(at),
            line="" if at is None else symbols.source(at),
            end=end_name(value),
            input=Input.of(event) if event else None,
            sources=tuple(Origin.of(it, symbols) for it in value.sources),
            text=line(value, symbols),
        )

    @property
    def count(self) -> int | None:
        """Returns the count of the instruction that wrote the part; None if there is none."""
        return self.step.before.count if self.step else None

    def walk(self) -> Iterator["Origin"]:
        """Yields this value and all from which it was made, each before its sources."""
        yield self
        for it in self.sources:
            yield from it.walk()

    def __str__(self) -> str:
        """Returns the tree as `galluspa why` prints it."""
        return "\n".join(self._lines(0))

    def _lines(self, depth: int) -> Iterator[str]:
        if self.text:
            yield INDENT * depth + self.text
        for it in self.sources:
            yield from it._lines(depth + 1)
