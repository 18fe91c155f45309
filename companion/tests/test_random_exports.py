"""Exports of 500 random programs, and the sanitizer that some of them are run under."""

import os
import shutil
import subprocess
import tempfile
import unittest
from collections import Counter
from pathlib import Path

from .random_exports import How, executed, linked_for_sanitizer, outcomes, sanitizer_in
from .random_programs import sample
from .support import fortran

_SEED = 67
_COUNT = 500
#: How many are run under the sanitizer.
_SANITIZED = 12


def sanitizer_works() -> bool:
    """Whether programs can be compiled and run with the thread sanitizer here."""
    if not (shutil.which("gfortran") and shutil.which("gcc")):
        return False
    with tempfile.TemporaryDirectory(prefix="pedx-test-") as folder:
        Path(folder, "p.f").write_text(fortran("PRINT *, 1", "END"))
        words = ["gfortran", "-fsanitize=thread", "-o", "p", "p.f"]
        done = subprocess.run(words, cwd=folder, stdout=subprocess.DEVNULL, stderr=subprocess.DEVNULL, check=False)
        if done.returncode != 0:
            return False
        done = subprocess.run(["./p"], cwd=folder, stdout=subprocess.PIPE, stderr=subprocess.DEVNULL, check=False)
        return done.returncode == 0 and done.stdout.split() == [b"1"]


class Samples(unittest.TestCase):
    def test_samples_stay(self) -> None:
        """A seed gives one and the same sample, so that a difference can be looked at."""
        self.assertEqual(sample("1/1"), sample("1/1"))
        self.assertNotEqual(sample("1/1"), sample("1/2"))


@unittest.skipUnless(shutil.which("gfortran"), "gfortran isn't there, so no export is compiled")
class Exports(unittest.TestCase):
    def test_runs(self) -> None:
        """With 1, 2 and 4 threads each prints what ped's `run` shows."""
        words: Counter[str] = Counter()
        seeds = [f"{_SEED}/{number}" for number in range(_COUNT)]
        for outcome in outcomes(seeds, How(["-O0"]), min(2, os.cpu_count() or 1)):
            words[outcome.word] += 1
            with self.subTest(outcome.seed):
                self.assertEqual(outcome.complaint, "")
        # Most of the samples say something: no fault, and no race.
        self.assertGreater(words["fine"], _COUNT // 2, words)
        self.assertEqual(words["refused"], 0)


@unittest.skipUnless(sanitizer_works(), "the thread sanitizer isn't there, so no export is run under it")
class Sanitized(unittest.TestCase):
    def setUp(self) -> None:
        folder = tempfile.TemporaryDirectory(prefix="pedx-test-")
        self.addCleanup(folder.cleanup)
        self.folder = folder.name
        self.sanitizer = sanitizer_in(self.folder)

    def test_samples(self) -> None:
        seeds = [f"{_SEED}/{number}" for number in range(_SANITIZED)]
        for outcome in outcomes(seeds, How(["-O0"], self.sanitizer), 1):
            with self.subTest(outcome.seed):
                self.assertEqual(outcome.complaint, "")

    def test_a_race(self) -> None:
        """The sanitizer finds a race that is there."""
        loop = fortran("DO I = 1, 9", "K = K+I", "END DO", "PRINT *, K", "END")
        Path(self.folder, "p.f").write_text(fortran("K = 0") + "C$OMP PARALLEL DO\n" + loop)
        self.assertEqual(linked_for_sanitizer(self.folder, ["-fopenmp"], self.sanitizer), "")
        self.assertIn("data race", executed(self.folder, "", 4))


if __name__ == "__main__":
    unittest.main()
