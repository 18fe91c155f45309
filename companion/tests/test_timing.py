"""`pedx omp --time` and `--counts`: the shape of the table, and that runs which differ are reported."""

import os
import shutil
import unittest
from pathlib import Path

from ..statuses import Status
from ..timing import Times, processors
from .calling import Calling
from .support import fortran

#: A compiler that makes a program which prints what is in the script, on as many threads as there are.
_FAKE = """\
#!/bin/sh
while [ "$1" != -o ]; do
    shift
done
printf '#!/bin/sh\\n%s\\n' '{commands}' >"$2"
chmod +x "$2"
"""


class Table(unittest.TestCase):
    def test_rows(self) -> None:
        self.assertEqual(Times(2.0, {1: 2.5, 2: 1.0, 4: 0.5}).rows(), [
            "without OpenMP      2.000 s",
            "1 thread            2.500 s   0.80 times as fast",
            "2 threads           1.000 s   2.00 times as fast",
            "4 threads           0.500 s   4.00 times as fast",
        ])


class Timing(Calling):
    def setUp(self) -> None:
        super().setUp()
        self.program = self.file("p.f", fortran(
            "INTEGER A(9000)", "READ *, N", "DO K = 1, 3", "PARALLEL DO I = 1, N", "A(I) = K*I", "END DO", "END DO",
            "PRINT *, A(N)", "END"
        ))
        self.data = self.file("data", "9000\n")
        self.target = os.path.join(self.folder, "out.f")

    def fake_compiler(self, commands: str) -> str:
        """A compiler whose programs carry out these commands."""
        path = self.file("fc", _FAKE.format(commands=commands))
        os.chmod(path, 0o755)
        return path

    @unittest.skipUnless(shutil.which("gfortran"), "gfortran isn't there")
    def test_compiled(self) -> None:
        """The times go to standard output, and the program to the file that -o names."""
        out = self.ends(Status.DONE, ["omp", self.program, "--data", self.data, "--time", "-o", self.target])
        first, *rows, last = out.splitlines()
        self.assertRegex(first, r"^without OpenMP +\d+\.\d{3} s$")
        for row in rows:
            self.assertRegex(row, r"^[124] threads? +\d+\.\d{3} s +\d+\.\d\d times as fast$")
        self.assertEqual(len(rows), sum(number <= processors() for number in (1, 2, 4)))
        self.assertEqual(last, "all runs print the same")
        self.assertEqual(Path(self.target).read_text(), self.ends(Status.DONE, ["omp", self.program]))

    def test_equal(self) -> None:
        compiler = self.fake_compiler("echo 3")
        self.assertIn("all runs print the same", self.ends(Status.DONE, ["omp", self.program, "--time"], FC=compiler))

    def test_runs_that_differ(self) -> None:
        """A program that prints something else with threads is reported, and not written."""
        compiler = self.fake_compiler("echo same; echo ${OMP_NUM_THREADS:-0}")
        words = ["omp", self.program, "--time", "-o", self.target]
        said = (
            "pedx: error: the run with 1 thread prints something else than the one without OpenMP, at line 2:\n"
            "  without OpenMP: 0\n          with it: 1\npedx: error: nothing is written\n"
        )
        self.assertEqual(self.ends(Status.DIFFERS, words, said, FC=compiler, OMP_NUM_THREADS="0"), "")
        self.assertFalse(os.path.exists(self.target))

    def test_longer_output(self) -> None:
        compiler = self.fake_compiler("echo 1; test \"${OMP_NUM_THREADS:-0}\" = 0 || echo 2")
        said = "at line 2:\n  without OpenMP: \n          with it: 2\n"
        self.ends(Status.DIFFERS, ["omp", self.program, "--time"], said, FC=compiler, OMP_NUM_THREADS="0")

    def test_other_end(self) -> None:
        compiler = self.fake_compiler("exit ${OMP_NUM_THREADS:-0}")
        said = "the run with 1 thread ends with status 1, the one without OpenMP ends with status 0"
        self.ends(Status.DIFFERS, ["omp", self.program, "--time"], said, FC=compiler, OMP_NUM_THREADS="0")

    def test_fault(self) -> None:
        compiler = self.fake_compiler("echo it fails >&2; exit 2")
        said = "the run without OpenMP ends with status 2, so nothing is timed: it fails"
        self.assertEqual(self.ends(Status.FAULT, ["omp", self.program, "--time"], said, FC=compiler), "")

    def test_missing_compiler(self) -> None:
        said = "none isn't there, which --time needs; $FC names another compiler"
        self.ends(Status.NO_COMPILER, ["omp", self.program, "--time"], said, FC="none")

    def test_no_directive(self) -> None:
        name = self.file("q.f", fortran("K = 1", "PRINT *, K", "END"))
        out = self.ends(Status.DONE, ["omp", name, "--time"], FC="none")
        self.assertEqual(out, "no loop has a directive, so there is nothing to compare\n")

    @unittest.skipUnless(shutil.which("gfortran") and shutil.which("gcov"), "gfortran or gcov isn't there")
    def test_counts(self) -> None:
        """By counts a loop that does little at a time gets a condition; one that does enough is as without them."""
        words = ["omp", self.program, "--counts", "--data"]
        few = self.file("few", "20\n")
        self.assertIn("\nC$OMP PARALLEL DO IF(N.GE.10000)\n", self.ends(Status.DONE, [*words, few]))
        self.assertIn("\nC$OMP PARALLEL DO IF(N.GE.10000)\n", self.ends(Status.DONE, ["omp", self.program]))
        text = self.ends(Status.DONE, [*words, few, "--all"])
        self.assertIn("\nC$OMP PARALLEL DO\n", text)
        big = self.file("q.f", Path(self.program).read_text().replace("9000", "90000").replace("K*I", "K+I"))
        many = self.file("many", "90000\n")
        self.assertIn("\nC$OMP PARALLEL DO\n", self.ends(Status.DONE, ["omp", big, "--counts", "--data", many]))

    @unittest.skipUnless(shutil.which("gfortran") and shutil.which("gcov"), "gfortran or gcov isn't there")
    def test_data(self) -> None:
        """Data for counts or times aren't for a search for races, which would take ped long."""
        name = self.file("r.f", fortran(
            "INTEGER A(9)", "READ *, N", "PARALLEL DO I = 1, 9", "A(MOD(I,N)+1) = 1", "END DO", "PRINT *, A(1)", "END"
        ))
        data = self.file("three", "3\n")
        self.ends(Status.DONE, ["omp", name, "--all", "--data", data], "a run on the given data has a race")
        for word in ("--counts", "--time"):
            done = self.call("omp", name, "--all", word, "--data", data)
            self.assertEqual((done.returncode, "has a race" in done.stderr), (Status.DONE, False))

    def test_real_fortran(self) -> None:
        """Real Fortran takes neither."""
        name = self.file("p.f90", "end\n")
        for word in ("--counts", "--time"):
            self.ends(Status.BAD_WORDS, ["omp", name, word], f"{name} is read as Fortran, which takes no {word}")


if __name__ == "__main__":
    unittest.main()
