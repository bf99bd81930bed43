"""What scripts of one image have in common until their first input: found once, however many scripts run side by side."""

import threading
from collections.abc import Callable, Hashable
from dataclasses import dataclass, field
from typing import Generic, TypeVar

from galluspa.process import children
from galluspa.process.children import WAIT_SECONDS
from galluspa.process.cli import Failed
from galluspa.process.timelimit import Limit

# The most answers that are kept, some of which have a machine.
MOST_KEPT = 64
T = TypeVar("T")


@dataclass
class _Answer(Generic[T]):
    """An answer that is found in one thread, for which others wait. It stays None if that thread does not find it."""

    is_done: threading.Event = field(default_factory=threading.Event)
    value: T | None = None


class Boots:
    """Answers that are shared by threads: each is found by the first one that needs it."""

    def __init__(self) -> None:
        self._lock = threading.Lock()
        self._answers: dict[Hashable, _Answer] = {}

    def shared(self, key: Hashable, find: Callable[[], T], limit: Limit | None) -> T:
        """Returns what belongs to a key. If the thread that looks for it fails, such as at its limit of time, another one looks
        for it."""
        while True:
            with self._lock:
                answer: _Answer[T] | None = self._answers.get(key)
                if answer is None and len(self._answers) < MOST_KEPT:
                    answer = self._answers[key] = _Answer()
                    break
            if answer is None:
                return find()
            while not answer.is_done.wait(WAIT_SECONDS):
                if children.is_ending():
                    raise Failed("interrupted")
                if limit:
                    limit.left()
            if answer.value is not None:
                return answer.value
        try:
            answer.value = find()
            return answer.value
        finally:
            if answer.value is None:
                with self._lock:
                    del self._answers[key]
            answer.is_done.set()
