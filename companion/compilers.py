"""gfortran and gcov: how they are found, and what they make of a program, in a folder of its own."""

from __future__ import annotations

import os
import re
import shlex
import shutil
import subprocess
import time
from dataclasses import dataclass
from pathlib import Path
from typing import Dict, List, Mapping, Optional, Sequence

from .lines import split_lines
from .ped import ENCODING, cause, shown
from .statuses import CompanionError, Status

#: How many seconds a compiler and a run may take.
_COMPILING, _RUNNING = 300, 600
#: So many lines of a compiler's message are shown.
_MOST_LINES = 12
#: The name of the text that is compiled, and of the program that is made of it.
SOURCE, PROGRAM = "program.f", "program"

_COUNTED = re.compile(r" *([0-9]+|#+|=+)\*?: *([0-9]+):")


def compiler() -> Optional[List[str]]:
    """The words that start the compiler: those of $FC, or gfortran; none where it isn't there."""
    words = shlex.split(os.environ.get("FC") or "gfortran")
    return words if words and shutil.which(words[0]) else None


def wanted_compiler(purpose: str) -> List[str]:
    """The words that start the compiler, which something can't do without."""
    words = compiler()
    if words is None:
        name = shown(os.environ.get("FC") or "gfortran")
        message = f"{name} isn't there, which {purpose} needs; $FC names another compiler"
        raise CompanionError(Status.NO_COMPILER, message)
    return words


def wanted_counter(words: Sequence[str]) -> str:
    """The program that reads the counts of what a compiler makes: $GCOV, or gcov with the compiler's version."""
    given = os.environ.get("GCOV")
    version = re.search(r"-[0-9.]+$", words[0])
    names = [given] if given else [f"gcov{version.group()}", "gcov"] if version else ["gcov"]
    found = next((name for name in names if shutil.which(name)), None)
    if found is None:
        needed = f"{shown(names[-1])} isn't there, which counting needs"
        message = f"{needed}; it comes with gcc, and $GCOV names another one"
        raise CompanionError(Status.NO_COMPILER, message)
    return found


@dataclass(frozen=True)
class Ran:
    """How a run has ended: its status, below zero for a signal, what it has written, and how long it took."""

    status: int
    out: bytes
    said: str
    seconds: float


def make(words: Sequence[str], options: Sequence[str], folder: Path, text: str) -> None:
    """Makes a program of a text in a folder."""
    (folder / SOURCE).write_bytes(text.encode(ENCODING))
    done = _call([*words, *options, "-o", PROGRAM, SOURCE], folder, _COMPILING)
    if done.returncode != 0:
        rows = split_lines(done.stdout.decode(ENCODING))[:_MOST_LINES]
        message = "\n".join([f"{shown(words[0])} doesn't compile the program:", *(f"  {row}" for row in rows)])
        raise CompanionError(Status.NO_COMPILER, message)


def run(folder: Path, data: Optional[str], changes: Mapping[str, str]) -> Ran:
    """Runs the program that was made in a folder, with changes of the environment."""
    begin = time.perf_counter()
    try:
        done = subprocess.run(
            [str(folder / PROGRAM)], cwd=folder, input=(data or "").encode(ENCODING), stdout=subprocess.PIPE,
            stderr=subprocess.PIPE, env={**os.environ, **changes}, timeout=_RUNNING, check=False,
        )
    except subprocess.TimeoutExpired as error:
        raise CompanionError(Status.FAULT, f"a run takes longer than {_RUNNING} seconds") from error
    except OSError as error:
        raise CompanionError(Status.NO_COMPILER, f"cannot start the compiled program: {cause(error)}") from error
    seconds = time.perf_counter() - begin
    return Ran(done.returncode, done.stdout, done.stderr.decode(ENCODING), seconds)


def counts(counter: str, folder: Path) -> Dict[int, int]:
    """How often each line of the text was executed in the runs of a program, as far as gcov says it."""
    done = _call([counter, SOURCE], folder, _COMPILING)
    listing = folder / f"{SOURCE}.gcov"
    if done.returncode != 0 or not listing.exists():
        said = split_lines(done.stdout.decode(ENCODING))[-1:] or [f"status {done.returncode}"]
        raise CompanionError(Status.NO_COMPILER, f"{shown(counter)} tells no counts: {said[0]}")
    found: Dict[int, int] = {}
    for row in split_lines(listing.read_bytes().decode(ENCODING)):
        match = _COUNTED.match(row)
        if match is not None:
            found[int(match.group(2))] = int(match.group(1)) if match.group(1).isdigit() else 0
    return found


def _call(command: Sequence[str], folder: Path, seconds: int) -> "subprocess.CompletedProcess[bytes]":
    try:
        return subprocess.run(
            command, cwd=folder, stdin=subprocess.DEVNULL, stdout=subprocess.PIPE, stderr=subprocess.STDOUT,
            timeout=seconds, check=False,
        )
    except subprocess.TimeoutExpired as error:
        message = f"{shown(command[0])} takes longer than {seconds} seconds"
        raise CompanionError(Status.NO_COMPILER, message) from error
    except OSError as error:
        message = f"cannot start {shown(command[0])}: {cause(error)}"
        raise CompanionError(Status.NO_COMPILER, message) from error
