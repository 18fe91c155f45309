"""Calls of the program ped. Each call has copies of its files in a folder of its own."""

from __future__ import annotations

import os
import re
import subprocess
import tempfile
from contextlib import contextmanager
from pathlib import Path
from typing import Any, Callable, Dict, Iterator, List, Optional, Tuple

from . import files
from .lines import split_lines
from .panes import Panes, read_panes
from .replies import Reply, read_replies
from .scripts import read_script
from .statuses import CompanionError, ProgramRefused, Status

try:
    import resource
except ImportError:  # Only Unix has it.
    resource = None  # type: ignore[assignment]

#: Where this variable is set, the launcher doesn't say again that its program isn't proved.
_KNOWN_UNPROVED = "PED_KNOWN_UNPROVED"
#: Where this one is set, it prints the path of its program, and starts nothing.
_NAMING = "PED_NAME_PROGRAM"
#: The stack that the launcher wants for its program, in bytes.
_STACK = 5120 * 1024

#: Texts are bytes to ped. Read in this encoding, each byte is a character, and none is lost.
ENCODING = "latin-1"

#: How many bytes data may have. Programs and scripts may have fewer, and ped says so itself.
_MOST = 4_194_304

_REFUSED = re.compile(r"ped: refused (\d+) (\w+) at (\d+)")
_TOO_LONG = re.compile(r"ped: (\S+) is longer than (\d+) bytes")


def find_ped(given: Optional[str]) -> str:
    """The program to call: the one that is given, else that of PEDX_PED, else `ped` beside the companion."""
    return given or os.environ.get("PEDX_PED") or str(Path(__file__).resolve().parent.parent / "ped")


def shown(name: str) -> str:
    """The name of a file as it stands in messages, which are written in the same encoding."""
    return os.fsencode(name).decode(ENCODING)


def argument(name: str) -> str:
    """The name of a file as a word that no program takes for an option."""
    return os.path.join(os.curdir, name) if name.startswith("-") else name


def cause(error: Exception) -> str:
    """What the system says of a file that it doesn't read or write."""
    return (error.strerror if isinstance(error, OSError) else None) or str(error)


def read_file(name: str) -> str:
    """The whole text of a file."""
    try:
        data = files.read_bytes(name, _MOST + 1)
    except (OSError, ValueError) as error:
        raise CompanionError(Status.NOT_READ, f"cannot read {shown(name)}: {cause(error)}") from error
    if len(data) > _MOST:
        raise CompanionError(Status.TOO_LONG, f"{shown(name)} is longer than {_MOST} bytes")
    return data.decode(ENCODING)


#: How a program is run: as `subprocess.run` does.
Runner = Callable[..., "subprocess.CompletedProcess[Any]"]


class Ped:
    """The program ped."""

    def __init__(self, program: str, is_quiet: bool = False, run: Runner = subprocess.run) -> None:
        self._program = program
        self._runner = run
        #: Whether what it writes to standard error is dropped, as it would spoil what a terminal shows.
        self._is_quiet = is_quiet
        self._environment: Optional[Dict[str, str]] = None

    def quiet(self) -> Ped:
        """The same program, without what it writes to standard error."""
        return Ped(self._program, is_quiet=True, run=self._runner)

    def run_by(self, run: Runner) -> Ped:
        """The same program, run in another way."""
        other = Ped(self._program, self._is_quiet, run)
        other._environment = self._environment
        return other

    def direct(self) -> Ped:
        """The program that a launcher would start, for thousands of calls; the same where there is no launcher.

        The launcher raises a low limit of the stack, so it stays where there is one.
        """
        if resource is None or 0 <= resource.getrlimit(resource.RLIMIT_STACK)[0] < _STACK or os.sep not in self._program:
            return self
        try:
            done = subprocess.run(
                [os.path.abspath(self._program)], stdin=subprocess.DEVNULL, stdout=subprocess.PIPE, check=False,
                env={**os.environ, _NAMING: "1"},
            )
        except OSError:
            return self
        name = done.stdout.decode(ENCODING).rstrip("\n")
        is_program = done.returncode == 0 and os.path.isabs(name) and os.path.isfile(name) and os.access(name, os.X_OK)
        return Ped(name, self._is_quiet, self._runner) if is_program else self

    def show(self, source: str) -> Panes:
        """Both panes of a program."""
        rows = self._call({"program": source}, ["show", "--", "program"])
        with understood():
            return read_panes(rows)

    def session(self, source: str, script: str, data: Optional[str] = None) -> List[Reply]:
        """The reply to each command of a script."""
        texts = {"program": source, "script": script}
        words = ["session"]
        if data is not None:
            texts["data"] = data
            words += ["--data", "data"]
        rows = self._call(texts, words + ["--", "program", "script"])
        with understood():
            return read_replies(read_script(script), rows)

    def _call(self, texts: Dict[str, str], words: List[str]) -> List[str]:
        """The rows that ped prints in a folder with these files."""
        try:
            with tempfile.TemporaryDirectory(prefix="pedx-") as folder:
                for name, text in texts.items():
                    Path(folder, name).write_bytes(text.encode(ENCODING))
                status, answer = self._run(words, folder)
        except OSError as error:
            raise CompanionError(Status.NOT_READ, f"cannot write a file for ped: {error.strerror}") from error
        rows = split_lines(answer)
        if status not in (Status.DONE, Status.LINE_REFUSED):
            raise self._failed(status, rows[-1] if rows else "", texts["program"])
        return rows

    def _run(self, words: List[str], folder: str) -> Tuple[int, str]:
        program = os.path.abspath(self._program) if os.sep in self._program else self._program
        try:
            done = self._runner(
                [program, *words], cwd=folder, stdin=subprocess.DEVNULL, stdout=subprocess.PIPE,
                stderr=subprocess.DEVNULL if self._is_quiet else None, check=False, env=self._environment,
            )
        except OSError as error:
            message = f"cannot start {shown(self._program)}: {error.strerror}; --ped or PEDX_PED names the program ped"
            raise CompanionError(Status.NO_PED, message) from error
        self._environment = {**os.environ, _KNOWN_UNPROVED: "1"}
        return done.returncode, done.stdout.decode(ENCODING)

    def _failed(self, status: int, last: str, source: str) -> CompanionError:
        """The error that a status of ped stands for, by the last row that it has printed."""
        refused = _REFUSED.fullmatch(last)
        if status == Status.PROGRAM_REFUSED and refused is not None:
            return ProgramRefused(int(refused[1]), refused[2], int(refused[3]), source)
        too_long = _TOO_LONG.fullmatch(last)
        if status == Status.TOO_LONG and too_long is not None:
            return CompanionError(Status.TOO_LONG, f"the {too_long[1]} is longer than {too_long[2]} bytes")
        if status in (Status.PROGRAM_REFUSED, Status.TOO_LONG):
            return CompanionError(Status.NOT_UNDERSTOOD, f"ped answered what isn't understood: {last!r}")
        if status == Status.NO_MEMORY:
            return CompanionError(Status.NO_MEMORY, "ped ran out of memory")
        message = f"{shown(self._program)} ended with status {status}: {last or 'nothing printed'}"
        return CompanionError(Status.NO_PED, message)


@contextmanager
def understood() -> Iterator[None]:
    """Takes what can't be read of an answer as that, whatever is wrong with it."""
    try:
        yield
    except (ValueError, LookupError) as error:
        raise CompanionError(Status.NOT_UNDERSTOOD, f"ped answered what isn't understood: {error}") from error
