"""The signals that end the editor from outside: the terminal goes away, or the system shuts down."""

from __future__ import annotations

import signal
from contextlib import contextmanager
from typing import Iterator

ENDING = (signal.SIGHUP, signal.SIGQUIT, signal.SIGTERM)


class Ended(SystemExit):
    """A signal ends the editor."""

    def __init__(self, number: int) -> None:
        super().__init__(128 + number)
        self.number = number


@contextmanager
def ended_by_signals() -> Iterator[None]:
    """Has these signals raise an Ended, once; what is done then isn't cut off by further ones."""
    def end(number: int, frame: object) -> None:
        for one in (*ENDING, signal.SIGINT):
            signal.signal(one, signal.SIG_IGN)
        raise Ended(number)

    before = [(one, signal.signal(one, end)) for one in ENDING]
    before.append((signal.SIGINT, signal.getsignal(signal.SIGINT)))
    try:
        yield
    finally:
        for one, handler in before:
            signal.signal(one, handler)


@contextmanager
def deaf_to_keys() -> Iterator[None]:
    """Leaves the signals of keys to the program that has the terminal; it gets them with their own effects."""
    def nothing(number: int, frame: object) -> None:
        pass

    keys = (signal.SIGINT, signal.SIGQUIT)
    before = [(one, signal.signal(one, nothing)) for one in keys]
    try:
        yield
    except Ended:
        # All these signals are ignored by now.
        before.clear()
        raise
    finally:
        for one, handler in before:
            signal.signal(one, handler)
