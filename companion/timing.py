"""How long a translated program takes without OpenMP and with it, and whether all runs print the same."""

from __future__ import annotations

import os
import tempfile
from pathlib import Path
from typing import Dict, List, NamedTuple, Optional, Sequence

from .compilers import Ran, make, run, wanted_compiler
from .messages import counted
from .ped import ENCODING
from .statuses import CompanionError, Status

_OPENMP = "-fopenmp"
#: The threads of the runs, as far as there are processors.
_THREADS = (1, 2, 4)
#: So many runs are made of each kind, and the least time counts.
_RUNS = 3
_MOST_WIDTH = 60


class Times(NamedTuple):
    """Seconds: of the program without OpenMP, and with it for each number of threads."""

    serial: float
    threads: Dict[int, float]

    def rows(self) -> List[str]:
        """A table of the times, in lines."""
        rows = [f"without OpenMP  {self.serial:9.3f} s"]
        for threads, seconds in self.threads.items():
            ratio = self.serial / seconds
            rows.append(f"{counted(threads, 'thread'):14}  {seconds:9.3f} s  {ratio:5.2f} times as fast")
        return rows


class Differs(Exception):
    """Two runs of a program print different things, or end in different ways; in lines."""


def processors() -> int:
    """How many processors this process may use."""
    if hasattr(os, "sched_getaffinity"):
        return len(os.sched_getaffinity(0))
    return os.cpu_count() or 1


def timed(text: str, options: Sequence[str], data: Optional[str], threads: Sequence[int] = _THREADS) -> Times:
    """Compiles a text without and with OpenMP, runs both, and compares what they print. May raise Differs."""
    words = wanted_compiler("--time")
    with tempfile.TemporaryDirectory(prefix="pedx-") as name:
        serial, parallel = Path(name, "serial"), Path(name, "parallel")
        for folder, chosen in ((serial, [one for one in options if one != _OPENMP]), (parallel, list(options))):
            folder.mkdir()
            make(words, chosen, folder, text)
        return _measured(serial, parallel, data, [one for one in threads if one <= processors()])


def _measured(serial: Path, parallel: Path, data: Optional[str], wanted: Sequence[int]) -> Times:
    """Runs both programs in turn, so that other work on the machine slows all of them alike."""
    first = run(serial, data, {})
    if first.status != 0:
        said = first.said.strip().splitlines()[-1:] or ["nothing is said"]
        raise CompanionError(Status.FAULT, f"the run without OpenMP {_ended(first)}, so nothing is timed: {said[0]}")
    least = first.seconds
    threads: Dict[int, float] = {}
    for _ in range(_RUNS):
        again = run(serial, data, {})
        _compare(first, again, "another run without OpenMP")
        least = min(least, again.seconds)
        for number in wanted:
            ran = run(parallel, data, {**_environment(), "OMP_NUM_THREADS": str(number)})
            _compare(first, ran, f"the run with {counted(number, 'thread')}")
            threads[number] = min(ran.seconds, threads.get(number, ran.seconds))
    return Times(least, threads)


def _environment() -> Dict[str, str]:
    """Threads that wait sleep, unless the user wants otherwise: on a busy machine those that spin hold up others."""
    return {"OMP_DYNAMIC": "false", "OMP_WAIT_POLICY": os.environ.get("OMP_WAIT_POLICY", "passive")}


def _compare(wanted: Ran, found: Ran, words: str) -> None:
    """Two runs end in the same way, and print the same bytes."""
    if found.status != wanted.status:
        raise Differs(f"{words} {_ended(found)}, the one without OpenMP {_ended(wanted)}")
    if found.out == wanted.out:
        return
    lines, others = (out.decode(ENCODING).split("\n") for out in (wanted.out, found.out))
    number = next(
        (at for at, (one, other) in enumerate(zip(lines, others), 1) if one != other), min(len(lines), len(others)) + 1
    )
    ours, theirs = (part[number - 1][:_MOST_WIDTH] if number <= len(part) else "(nothing)" for part in (lines, others))
    raise Differs("\n".join([
        f"{words} prints something else than the one without OpenMP, at line {number}:",
        f"  without OpenMP: {ours}", f"  {' ' * 8}with it: {theirs}",
    ]))


def _ended(ran: Ran) -> str:
    return f"is ended by signal {-ran.status}" if ran.status < 0 else f"ends with status {ran.status}"
