"""Clocks by which deadlines pass."""
from __future__ import annotations

import time
from typing import Protocol


class Clock(Protocol):
    """A clock of a system. Its moments are nanoseconds."""

    def now(self) -> int:
        """The moment now."""

    def wait_until(self, until: int) -> int:
        """For how many nanoseconds a call may sleep whose deadline is this moment."""


class RealClock:
    """The monotonic clock."""

    def now(self) -> int:
        """The moment now."""
        return time.monotonic_ns()

    def wait_until(self, until: int) -> int:
        """The time that is left."""
        return max(0, until - self.now())


class VirtualClock:
    """A clock that stands still until a call waits for its deadline, or the program moves it. So a
    simulation of hours runs in one thread without sleeping."""

    def __init__(self, start: float = 0.0) -> None:
        self._now = round(start * 1_000_000_000)

    def now(self) -> int:
        """The moment now."""
        return self._now

    def wait_until(self, until: int) -> int:
        """Moves to the deadline at once: nobody sleeps."""
        self._now = max(self._now, until)
        return 0

    @property
    def seconds(self) -> float:
        """The moment now, in seconds."""
        return self._now / 1_000_000_000

    def advance(self, seconds: float) -> None:
        """Moves the clock on."""
        if seconds < 0:
            raise ValueError("a clock does not go back")
        self._now += round(seconds * 1_000_000_000)
