"""Well-known kernels: each loop has the verdict that was reasoned by hand, and the programs compute the same in parallel.

A comment behind each DO, `!= parallel`, `!= carries A, B` or `!= refused CLASS`, is what is wanted.
"""

from __future__ import annotations

import re
import shutil
import unittest
from concurrent.futures import ThreadPoolExecutor
from functools import lru_cache
from pathlib import Path
from typing import Dict, List

from ..ped import read_file
from ..real import exporting
from ..real.compiled import CheckFails, Job, checked
from ..real.report import clauses_said
from ..real.verdicts import CARRIED, PARALLEL, REFUSED, Verdict
from .real_corpora import FOLDER
from .real_loops import Loops

_WANTED = re.compile("!= (.*)")


def kernels() -> List[Path]:
    """The programs."""
    paths = sorted(path for path in FOLDER.iterdir() if path.suffix in (".f", ".f90"))
    return [path for path in paths if _WANTED.search(path.read_text())]


def wanted(path: Path) -> Dict[int, str]:
    """The verdicts in comments, by their lines."""
    found = {}
    for number, line in enumerate(path.read_text().splitlines(), 1):
        match = _WANTED.search(line)
        if match is not None:
            found[number] = match.group(1).strip()
    return found


def said(verdict: Verdict) -> str:
    """A verdict as the comments say it."""
    if verdict.word == CARRIED:
        return f"carries {', '.join(sorted(one.name for one in verdict.carried))}"
    if verdict.word == REFUSED and verdict.refusal is not None:
        return f"refused {verdict.refusal.reason}"
    return verdict.word


@lru_cache(maxsize=None)
def judged(path: Path) -> Dict[int, Verdict]:
    """The verdicts about the loops of a program, by their lines."""
    return Loops(read_file(str(path)), str(path)).by_line()


def job_of(path: Path) -> Job:
    """The program and what `omp` makes of it, to be compiled and run."""
    loops = Loops(read_file(str(path)), str(path))
    text = read_file(str(path))
    chosen = exporting.chosen(loops.file, list(judged(path).values()), "4.5").verdicts
    return Job(
        str(path), loops.file.form, 72, text, exporting.exported(text, loops.file, chosen),
        exporting.exported(text, loops.file, chosen, exporting.RUNTIME), True,
        not any("A9" in verdict.assumes for verdict in chosen),
    )


def _checked(job: Job) -> str:
    """What a check says, whatever it is."""
    try:
        return checked(job, "gfortran")
    except CheckFails as error:
        return str(error)


class Kernels(unittest.TestCase):
    maxDiff = None

    def test_there_are_many(self) -> None:
        self.assertGreaterEqual(len(kernels()), 20)
        self.assertGreaterEqual(sum(len(wanted(path)) for path in kernels()), 150)

    def test_verdicts(self) -> None:
        for path in kernels():
            with self.subTest(path.name):
                self.assertEqual({line: said(one) for line, one in judged(path).items()}, wanted(path))

    def clauses(self, name: str, unit: str) -> List[str]:
        """The clauses of the parallel loops of a unit."""
        found = [one for one in judged(FOLDER / name).values() if one.place.scene.unit.name == unit]
        return [clauses_said(one.clauses) for one in found if one.word == PARALLEL]

    def test_clauses(self) -> None:
        """Some clauses that are easy to get wrong."""
        self.assertEqual(self.clauses("blas1.f", "DCOPY"), ["LINEAR(IX:1), LINEAR(IY:-1)"])
        self.assertEqual(self.clauses("blas1.f", "DROT"), ["PRIVATE(T)"])
        self.assertEqual(self.clauses("blas1.f", "DASUM"), ["REDUCTION(+:DASUM)"])
        self.assertEqual(self.clauses("linpack.f", "DGEFA"), ["", "PRIVATE(T)", ""])
        self.assertEqual(self.clauses("products.f90", "DOTS"), ["PRIVATE(S)", "PRIVATE(S)", "REDUCTION(+:S)"])
        self.assertEqual(self.clauses("stencils.f90", "CUBE"), ["PRIVATE(MIDDLE), REDUCTION(+:TOTAL)"] * 3)
        self.assertEqual(self.clauses("wave.f", "PEAK"), ["REDUCTION(MAX:BIG)"])

    @unittest.skipUnless(shutil.which("gfortran"), "gfortran isn't there")
    def test_runs(self) -> None:
        jobs = [job_of(path) for path in kernels()]
        with ThreadPoolExecutor(4) as pool:
            for job, said_of_it in zip(jobs, pool.map(_checked, jobs)):
                self.assertIn("agree with the serial run", said_of_it, job.path)


if __name__ == "__main__":
    unittest.main()
