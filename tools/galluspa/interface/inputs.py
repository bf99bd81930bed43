"""Inputs of recordings, for programs that import this package."""

from dataclasses import dataclass

from galluspa.formats.recording import KINDS, Event


@dataclass(frozen=True)
class Input:
    """An input of a recording: the count of the instruction before which the machine takes it, its kind (`timer`, `switches`,
    `mouse`, `key`, `serial` or `disk`), and its value."""

    count: int
    kind: str
    value: int

    @staticmethod
    def of(event: Event) -> "Input":
        """Returns the input that an event of a recording is."""
        return Input(event.count, KINDS[event.kind], event.value)
