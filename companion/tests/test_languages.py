"""Which language a file is in, as far as its name and its words say."""

import os
import tempfile
import unittest
from pathlib import Path

from ..languages import file_and_line, has_profile_words, is_real_by_name
from ..statuses import Status
from .calling import Calling
from .support import fortran

RECURRENCE = "examples/panes/recurrence.f"


class Languages(unittest.TestCase):
    def test_names(self) -> None:
        for name in ("a.f90", "A.F90", "x/y.f95", "z.F03", "z.f08", "z.f18"):
            self.assertTrue(is_real_by_name(name), name)
        for name in ("a.f", "a.F", "a.for", "f90", "a.f90.txt", "<stdin>"):
            self.assertFalse(is_real_by_name(name), name)

    def test_words_of_the_profile(self) -> None:
        for lines in (
            ["PARALLEL DO 10 I = 1, 9"], ["10 PARALLEL DO I = 1, 9"], ["DO I = 1, 9", "PRIVATE T"],
            ["10 DO 20 I = 1, N, 2", "PRIVATE T, U"],
        ):
            self.assertTrue(has_profile_words(fortran(*lines)), lines)
        self.assertTrue(has_profile_words("C$PED REJECT A\n"))
        for lines in (
            ["MODULE M", "PRIVATE X"], ["PRIVATE"], ["DO I = 1, 9", "X = 1"], ["PARALLEL = 3"], ["DO 10 I = 1, 9"],
        ):
            self.assertFalse(has_profile_words(fortran(*lines)), lines)
        self.assertFalse(has_profile_words("C     PARALLEL DO I = 1, 9\n!     DO I = 1, 2\n"))

    def test_files_with_lines(self) -> None:
        self.assertEqual(file_and_line("a.f90:12"), ("a.f90", 12))
        self.assertEqual(file_and_line("a:b.f90:12"), ("a:b.f90", 12))
        self.assertEqual(file_and_line("a.f90"), ("a.f90", None))
        self.assertEqual(file_and_line(":12"), (":12", None))
        self.assertEqual(file_and_line("a.f90:x"), ("a.f90:x", None))
        with tempfile.TemporaryDirectory() as folder:
            name = os.path.join(folder, "a.f90:12")
            Path(name).touch()
            self.assertEqual(file_and_line(name), (name, None))


class Calls(Calling):
    """Calls that need no library: programs of the profile, and files that only other commands read."""

    def test_programs_of_the_profile_stay_that(self) -> None:
        for words in (["--assume", "A8"], ["--deny=A1"], ["--exact"], ["--form", "fixed"], ["--openmp", "5.0"]):
            said = f"{RECURRENCE} is a program of ped's profile, which takes no {words[0].split('=')[0]}; --real reads it"
            self.ends(Status.BAD_WORDS, ["loops", RECURRENCE, *words], said)
        self.ends(Status.BAD_WORDS, ["model", RECURRENCE], "which has no model")
        self.ends(Status.BAD_WORDS, ["why", RECURRENCE + ":5"], "not lines")
        self.ends(Status.BAD_WORDS, ["omp", RECURRENCE, "--at", "4"], "takes no --at")
        self.ends(Status.BAD_WORDS, ["omp", RECURRENCE, "--in-place"], "takes no --in-place")

    def test_loops_as_json(self) -> None:
        """Of a program of the profile there is one document."""
        self.assertEqual(*(self.ends(Status.DONE, words + [RECURRENCE]) for words in (["loops", "--json"], ["json"])))

    def test_files_in_free_form(self) -> None:
        name = self.file("p.f90", "end\n")
        for command in ("edit", "tune", "calls", "check", "graph"):
            self.ends(Status.PROGRAM_REFUSED, [command, name], f"{name} is in free form, which loops, profile, why, omp,")

    def test_refused_programs_of_the_profile(self) -> None:
        """What has words of the profile isn't read as anything else."""
        name = self.file("p.f", fortran("PARALLEL DO 10 I = 1, 2", "X = 1", "10 CONTINUE", "END"))
        for words in (["loops"], ["why"], ["omp"], ["json"], ["model"]):
            self.ends(Status.PROGRAM_REFUSED, [*words, name], f"{name}:2:7: error: 14 RealName")
        name = self.file("q.f", fortran("X = 1", "END"))
        self.ends(Status.PROGRAM_REFUSED, ["loops", name, "--profile"], f"{name}:1:7: error: 14 RealName")
        self.ends(Status.PROGRAM_REFUSED, ["loops", name, "--no-trials"], f"{name}:1:7: error: 14 RealName")

    def test_without_the_library(self) -> None:
        """A program of the profile needs no library; of another one its name is said, and what ped says of it."""
        path = Path(self.folder, "fparser")
        path.mkdir()
        (path / "__init__.py").write_text("raise ImportError\n")
        self.ends(Status.DONE, ["loops", RECURRENCE], PYTHONPATH=self.folder)
        free = self.file("p.f90", "end\n")
        self.ends(Status.NO_LIBRARY, ["loops", free], "`apt-get install python3-fparser`", PYTHONPATH=self.folder)
        fixed = self.file("q.f", fortran("X = 1", "END"))
        self.ends(Status.PROGRAM_REFUSED, ["loops", fixed], f"{fixed}:1:7: error: 14 Real", PYTHONPATH=self.folder)
        self.ends(Status.PROGRAM_REFUSED, ["loops", fixed], "pedx: note: real Fortran is read", PYTHONPATH=self.folder)


if __name__ == "__main__":
    unittest.main()
