"""How far a long call has come, for a user at a terminal."""

from __future__ import annotations

import time
from typing import Optional, TextIO

#: How long nothing is shown, in seconds: most calls have ended by then.
_PATIENCE = 1.0


class Progress:
    """A line on a terminal that says how far a call has come; it is gone when the call ends."""

    def __init__(self, stream: Optional[TextIO] = None) -> None:
        self._stream = stream if stream is not None and stream.isatty() else None
        self._begin = time.monotonic()
        self._width = 0

    def show(self, words: str) -> None:
        """Shows how far the call has come, once it has taken some time."""
        if time.monotonic() - self._begin > _PATIENCE:
            self._put(words)

    def announce(self, words: str) -> None:
        """Shows at once what the call does next, which may take long."""
        self._put(words)

    def clear(self) -> None:
        """Takes the line away."""
        if self._width:
            self._put("")

    def _put(self, words: str) -> None:
        if self._stream is None:
            return
        try:
            self._stream.write(f"\r{words.ljust(self._width)}" + ("" if words else "\r"))
            self._stream.flush()
        except OSError:
            # What the call answers doesn't depend on it.
            self._stream = None
        self._width = len(words)
