"""Work that takes time: it goes on in a thread of its own, and can be given up from the one that has the terminal.

A thread can't be ended from outside. So the programs that it runs are ended, and no further one is started; what it
computes itself goes on to its end, and nobody takes the result.
"""

from __future__ import annotations

import os
import signal
import subprocess
import threading
import time
from contextlib import suppress
from typing import Any, Callable, Generic, Optional, Sequence, Set, TypeVar

from ..statuses import CompanionError, Status

#: How long the end of the programs is waited for once they are told, and once they are killed. In seconds.
_PATIENCE = (0.5, 0.5)

T = TypeVar("T")


class GivenUp(CompanionError):
    """Work was given up, and nothing has come of it."""

    def __init__(self, words: str = "the work", seconds: float = 0.0) -> None:
        super().__init__(Status.DONE, f"{words}: given up after {int(seconds)} s; nothing is changed")


class Programs:
    """Runs programs that can all be ended at once."""

    def __init__(self) -> None:
        self._lock = threading.Lock()
        self._running: Set["subprocess.Popen[bytes]"] = set()
        self._is_ended = False

    def run(
        self, command: Sequence[str], timeout: Optional[float] = None, check: bool = False, **options: Any
    ) -> "subprocess.CompletedProcess[bytes]":
        """As `subprocess.run` does. The program has a group of processes of its own, with all that it starts."""
        given: Optional[bytes] = options.pop("input", None)
        if given is not None:
            options["stdin"] = subprocess.PIPE
        with self._lock:
            if self._is_ended:
                raise GivenUp()
            process = subprocess.Popen(command, start_new_session=True, **options)
            self._running.add(process)
        try:
            out, errors = process.communicate(given, timeout)
        except BaseException:
            _signal(process, signal.SIGKILL)
            process.communicate()
            raise
        finally:
            with self._lock:
                self._running.discard(process)
        if self._is_ended:
            raise GivenUp()
        return subprocess.CompletedProcess(command, process.returncode, out, errors)

    def end(self, number: int) -> bool:
        """Sends a signal to all that is running, and answers whether something is. Nothing is started any longer."""
        with self._lock:
            self._is_ended = True
            for process in self._running:
                _signal(process, number)
            return bool(self._running)


def _signal(process: "subprocess.Popen[bytes]", number: int) -> None:
    if process.returncode is None:
        with suppress(ProcessLookupError, PermissionError):
            os.killpg(process.pid, number)


class Work(Generic[T]):
    """Something that is done in a thread: what it's called, and since when it goes on."""

    def __init__(self, words: str, act: Callable[[Programs], T]) -> None:
        self.words = words
        self._act = act
        self._programs = Programs()
        self._begin = time.monotonic()
        self._ended = threading.Event()
        self._result: Optional[T] = None
        self._error: Optional[BaseException] = None
        # At the end of the editor nobody waits for what goes on all the same.
        self._thread = threading.Thread(target=self._do, daemon=True)
        self._thread.start()

    def _do(self) -> None:
        try:
            self._result = self._act(self._programs)
        except BaseException as error:  # It's raised where the result is wanted.
            self._error = error
        finally:
            self._ended.set()

    @property
    def seconds(self) -> float:
        """How long it goes on."""
        return time.monotonic() - self._begin

    @property
    def is_done(self) -> bool:
        """Whether there is a result, or an error."""
        return self._ended.is_set()

    def wait(self, seconds: float) -> None:
        """Waits until it's done, but no longer than that."""
        self._ended.wait(seconds)

    def result(self) -> T:
        """What has come of it; where that is an error, it's raised."""
        if self._error is not None:
            raise self._error
        return self._result  # type: ignore[return-value]

    def give_up(self) -> None:
        """Ends its programs."""
        for number, seconds in zip((signal.SIGTERM, signal.SIGKILL), _PATIENCE):
            if not self.is_done and self._programs.end(number):
                self._thread.join(seconds)
