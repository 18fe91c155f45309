"""Random subroutines compiled by gfortran as they are and with the directives of `omp`: both compute the same.

Those whose subscripts leave the arrays in a run with -fcheck=bounds are left out. More are run by hand:
`python3 -m companion.tests.real_random_runs FIRST COUNT`.
"""

from __future__ import annotations

import os
import shutil
import subprocess
import sys
import tempfile
import unittest
from pathlib import Path
from typing import List, Tuple

from ..real import exporting
from .real_loops import Loops
from .real_random import HEAD, Subroutine

_FIRST, _COUNT = 5000, 25
#: So many subroutines are in one program.
_TOGETHER = 25
_WAYS = ((2, "dynamic"), (4, "static,1"), (3, "static"))

_BOUNDS = "A(-500:3000), B(-500:3000), C(-90:300,-90:300), IX(-500:3000)"
_DECLARED = f"INTEGER {_BOUNDS}, N, M, L, K, T, U, I, J, JJ"
_MAIN = f"""
PROGRAM P
INTEGER {_BOUNDS}, N, M, L, K, T, I, J, W
CHARACTER(9) WORD
CALL GET_COMMAND_ARGUMENT(1, WORD)
READ (WORD, *) W
DO I = -500, 3000
A(I) = MOD(I*7, 11) - 2
B(I) = MOD(I*5, 13) - 3
IX(I) = MOD(I*3, 7)
END DO
DO J = -90, 300
DO I = -90, 300
C(I,J) = MOD(I*J, 9) - 1
END DO
END DO
N = 6 + MOD(W, 5); M = 4 + MOD(W, 3); L = 1 + MOD(W, 3); K = MOD(W, 4); T = MOD(W, 5)
SELECT CASE (W)
{{}}
END SELECT
PRINT *, N, M, L, K, T
DO I = -500, 3000
IF (A(I) /= MOD(I*7, 11) - 2) PRINT *, 'A', I, A(I)
IF (B(I) /= MOD(I*5, 13) - 3) PRINT *, 'B', I, B(I)
IF (IX(I) /= MOD(I*3, 7)) PRINT *, 'IX', I, IX(I)
END DO
DO J = -90, 300
DO I = -90, 300
IF (C(I,J) /= MOD(I*J, 9) - 1) PRINT *, 'C', I, J, C(I,J)
END DO
END DO
END
"""


def text_of(number: int) -> str:
    """A random subroutine whose arrays have bounds, and whose local variables have values."""
    lines = Subroutine(number).text.splitlines()
    assert lines[:2] == HEAD
    started = "U = 3; I = 1; J = 2; JJ = 1"
    return "\n".join([f"SUBROUTINE S{number}(A, B, C, IX, N, M, L, K, T)", _DECLARED, started, *lines[2:]]) + "\n"


class Batch:
    """Some subroutines in one program."""

    def __init__(self, first: int, count: int, folder: str) -> None:
        self._folder = folder
        self.numbers = range(first, first + count)
        self.texts = [text_of(number) for number in self.numbers]
        self.directives = 0

    def with_directives(self) -> List[str]:
        """The subroutines with directives, each with SCHEDULE(RUNTIME)."""
        found = []
        for number, text in zip(self.numbers, self.texts):
            loops = Loops(text, "r.f90", assume=["A8"] * (number % 2))
            newer = number % 3 == 0
            chosen = exporting.chosen(loops.file, loops.verdicts(newer), "5.0" if newer else "4.5").verdicts
            self.directives += len(chosen)
            found.append(exporting.exported(text, loops.file, chosen, exporting.RUNTIME))
        return found

    def built(self, name: str, texts: List[str], *flags: str) -> str:
        """A program of subroutines, compiled."""
        calls = "\n".join(f"CASE ({number})\nCALL S{number}(A, B, C, IX, N, M, L, K, T)" for number in self.numbers)
        path = Path(self._folder, f"{name}.f90")
        path.write_text("".join(texts) + _MAIN.format(calls))
        built = str(Path(self._folder, name))
        subprocess.run(["gfortran", "-w", "-O1", *flags, "-o", built, str(path)], check=True)
        return built

    def run(self, program: str, number: int, threads: int = 1, schedule: str = "static") -> Tuple[int, bytes]:
        """The status and the output of a run."""
        environment = {
            **os.environ,
            "OMP_NUM_THREADS": str(threads),
            "OMP_SCHEDULE": schedule,
            "OMP_WAIT_POLICY": "passive",
        }
        try:
            done = subprocess.run(
                [program, str(number)], stdout=subprocess.PIPE, stderr=subprocess.DEVNULL, env=environment, check=False,
                timeout=60,
            )
        except subprocess.TimeoutExpired:
            return -1, b""
        return done.returncode, done.stdout

    def differing(self) -> Tuple[int, List[str]]:
        """How many subroutines were compared, and those that differ in parallel, with their texts."""
        serial = self.built("serial", self.texts, "-fcheck=bounds")
        written = self.with_directives()
        parallel = self.built("parallel", written, "-fopenmp")
        compared, found = 0, []
        for number, text in zip(self.numbers, written):
            wanted = self.run(serial, number)
            if wanted[0] != 0:
                continue
            compared += 1
            for threads, schedule in _WAYS:
                if self.run(parallel, number, threads, schedule) != wanted:
                    found.append(f"{number}, {threads} threads, {schedule}:\n{text}")
                    break
        return compared, found


@unittest.skipUnless(shutil.which("gfortran"), "gfortran isn't there")
class RandomRuns(unittest.TestCase):
    def test_runs(self) -> None:
        compared = directives = 0
        for first in range(_FIRST, _FIRST + _COUNT, _TOGETHER):
            with tempfile.TemporaryDirectory() as folder:
                batch = Batch(first, min(_TOGETHER, _FIRST + _COUNT - first), folder)
                count, differing = batch.differing()
                self.assertEqual(differing, [])
                compared += count
                directives += batch.directives
        self.assertGreater(compared, _COUNT//3)
        self.assertGreater(directives, _COUNT//5)


def _by_hand(first: int, count: int) -> None:
    for begin in range(first, first + count, _TOGETHER):
        with tempfile.TemporaryDirectory() as folder:
            batch = Batch(begin, min(_TOGETHER, first + count - begin), folder)
            compared, differing = batch.differing()
            print(begin, "compared", compared, "directives", batch.directives, "different", len(differing), flush=True)
            for text in differing:
                print(text, flush=True)


if __name__ == "__main__":
    if len(sys.argv) == 3 and sys.argv[1].isdigit():
        _by_hand(int(sys.argv[1]), int(sys.argv[2]))
    else:
        unittest.main()
