"""How much a search may do: pivots, seconds of a System, and seconds of a command."""

from __future__ import annotations

import time
from typing import Callable

#: Of one System.
MOST_PIVOTS = 2_000
SECONDS = 2.0
#: Of a whole command.
ALL_SECONDS = 60.0


class Exceeded(Exception):
    """A search has come to a limit, which is said in words."""

    def __init__(self, words: str) -> None:
        super().__init__(words)
        self.words = words


class Budget:
    """What is left to the search in one System."""

    def __init__(
        self, seconds: float = SECONDS, pivots: int = MOST_PIVOTS, clock: Callable[[], float] = time.monotonic
    ) -> None:
        self._clock = clock
        self._end = clock() + seconds
        self._pivots = pivots

    def pivot(self) -> None:
        """Takes one pivot. Raises Exceeded."""
        self._pivots -= 1
        if self._pivots < 0:
            raise Exceeded("the search takes too many pivots")
        self.look()

    def look(self) -> None:
        """Looks at the clock. Raises Exceeded."""
        if self._clock() > self._end:
            raise Exceeded("the search takes too long")


class Purse:
    """What is left to a whole command, from which each System gets its share."""

    def __init__(self, seconds: float = ALL_SECONDS, clock: Callable[[], float] = time.monotonic) -> None:
        self._clock = clock
        self._end = clock() + seconds

    @property
    def is_empty(self) -> bool:
        """Whether the time of the command is over."""
        return self._clock() >= self._end

    def budget(self) -> Budget:
        """What the next System may use."""
        return Budget(max(0.0, min(SECONDS, self._end - self._clock())), clock=self._clock)
