"""The time that a tool may take."""

import time


class TimeIsUp(Exception):
    """The time limit expired before the answer; its text says so."""


class Limit:
    """A time limit in seconds, from construction on."""

    def __init__(self, seconds: float) -> None:
        self.seconds = seconds
        self._end = time.monotonic() + seconds

    @property
    def is_over(self) -> bool:
        """Returns whether the limit has expired."""
        return time.monotonic() >= self._end

    def left(self) -> float:
        """Returns the seconds that are left. Raises TimeIsUp if none are."""
        left = self._end - time.monotonic()
        if left <= 0:
            raise TimeIsUp(f"no answer in {self.seconds:g} s")
        return left


class Interrupted(TimeIsUp):
    """The user ends a search."""


class Patience(Limit):
    """The time that one command may take, which the user may also end."""

    def __init__(self, seconds: float) -> None:
        super().__init__(seconds)
        self.is_interrupted = False

    def begin(self) -> None:
        """Begins another command."""
        self._end = time.monotonic() + self.seconds
        self.is_interrupted = False

    def left(self) -> float:
        if self.is_interrupted:
            raise Interrupted("interrupted")
        return super().left()
