"""Directives in files of users: which loops get none, and that gfortran takes what is written."""

import os
import shutil
import subprocess
import tempfile
import unittest
from pathlib import Path
from typing import Dict, List, Optional

from ..real.blocks import read_file
from ..real.directives import Clauses, directive_lines, indentation_of, obstacle, outermost, with_directives
from ..real.symbols import Scopes


class Written:
    """A text that was read, with its first loop in a unit."""

    def __init__(self, text: str, form: str = "free") -> None:
        self.file = read_file("p.f90" if form == "free" else "p.f", text)
        self.scopes = Scopes(self.file.all_units())
        self.loops = [(unit, loop) for unit in self.file.all_units() for loop in unit.loops()]

    def obstacle(self, clauses: Clauses = Clauses(), number: int = 0, openmp: str = "4.5") -> Optional[str]:
        unit, loop = self.loops[number]
        return obstacle(loop, self.file, self.scopes.of(unit), clauses, openmp)


def free(*lines: str) -> Written:
    return Written("".join(f"{line}\n" for line in lines))


def fixed(*lines: str) -> Written:
    return Written("".join(f"{line}\n" for line in lines), "fixed")


class Left(unittest.TestCase):
    """Which loops get no directive."""

    def loop(self, *specification: str, arguments: str = "a", prefix: str = "") -> Written:
        return free(f"{prefix}subroutine s({arguments})", *specification, "do i = 1, 9", "a(i) = 1", "end do", "end")

    def test_none_is_left_out_without_reason(self) -> None:
        self.assertIsNone(self.loop("real a(9)").obstacle())
        named = free("subroutine s(a)", "real a(9)", "one: do i = 1, 9", "a(i) = 1", "end do one", "end")
        self.assertIsNone(named.obstacle())
        self.assertIsNone(self.loop("real a(9)").obstacle(Clauses(("T",), reductions=(("+", "R"),))))

    def test_lines(self) -> None:
        for line in ("x = 1; do i = 1, 9", "do i = 1, 9; x = 1"):
            self.assertEqual(free(line, "a = 1", "end do", "end").obstacle(), "another statement is on its line")

    def test_labels(self) -> None:
        self.assertEqual(
            free("goto 10", "10 do i = 1, 9", "x = 1", "end do", "end").obstacle(),
            "a jump to its label 10 would lead past the directive",
        )

    def test_concurrent(self) -> None:
        """OpenMP has no directive for a DO CONCURRENT, and a DO in one gets none either."""
        for head in ("do concurrent (j = 1:9)", "do concurrent (j = 1:9, k = 1:9)"):
            written = free("subroutine s(a)", "real a(9)", "do i = 1, 9", "a(i) = 1", "end do", head, "do i = 1, 9",
                           "a(i) = 1", "end do", "end do", "end")
            self.assertIsNone(written.obstacle())
            for index in (1, 2):
                self.assertIn("DO CONCURRENT", written.obstacle(number=index) or "")

    def test_shared_ends(self) -> None:
        written = fixed(
            "      REAL A(9,9)", "      DO 10 I = 1, 9", "      DO 10 J = 1, 9", "   10 A(I,J) = 1", "      END",
        )
        self.assertIsNone(written.obstacle())
        self.assertEqual(written.obstacle(number=1), "it ends with the same statement as a DO round it")

    def test_own_directives(self) -> None:
        self.assertEqual(
            free("!$omp parallel", "do i = 1, 9", "x = 1", "end do", "!$omp end parallel", "end").obstacle(),
            "its unit has a directive of its own (line 1)",
        )
        other = free("subroutine s", "!$omp barrier", "end", "subroutine t", "do i = 1, 9", "x = 1", "end do", "end")
        self.assertIsNone(other.obstacle())

    def test_lines_that_openmp_makes_statements(self) -> None:
        """T is read after the loop where OpenMP is on, though no statement reads it."""
        words = "a line with !$ is a statement where OpenMP is on, and wasn't read (line {})"
        loop = ("do i = 1, 9", "t = i", "a(i) = t", "end do")
        written = free("subroutine s(a)", "real a(9)", *loop, "!$ print *, t", "end")
        self.assertEqual(written.obstacle(Clauses(("T",))), words.format(7))
        host = ("module m", "!$ integer :: t", "contains", "subroutine s(a)", "real a(9)", *loop, "end", "end")
        self.assertEqual(free(*host).obstacle(), words.format(2))
        other = ("subroutine r", "!$ print *, t", "end", "subroutine s(a)", "real a(9)", *loop, "end")
        self.assertIsNone(free(*other).obstacle())

    def test_threadprivate(self) -> None:
        written = free(
            "module m", "real w(9)", "!$omp threadprivate(w)", "end", "subroutine s", "use m", "do i = 1, 9",
            "w(i) = 1",
            "end do", "end",
        )
        self.assertEqual(written.obstacle(), "THREADPRIVATE (line 3) gives each thread variables of its own")

    def test_pure_procedures(self) -> None:
        for prefix, words in [("pure ", "its procedure is PURE"), ("elemental ", "its procedure is PURE"),
                              ("impure elemental ", None), ("recursive ", None)]:
            self.assertEqual(self.loop("real, intent(inout) :: a(9)", prefix=prefix).obstacle(), words)

    def test_names(self) -> None:
        for line, words in [
            ("equivalence (t, u)", "shares its storage with another name"), ("namelist /g/ t", "is in a NAMELIST"),
            ("real, pointer :: t", "is a POINTER"), ("real t(*)", "is an array of assumed size"),
            ("real, optional :: t", "may be absent"), ("real, intent(in) :: t", "has INTENT(IN)"),
            ("f(x) = x + t", "is in a statement function"), ("pointer (t, p)", "shares its storage with another name"),
            ("use lib", "isn't known to be a variable"), ("parameter (t = 1)", "isn't known to be a variable"),
        ]:
            specification = [line, "real a(9)"]
            arguments = "a, t" if line.startswith(("real t", "real, o", "real, i")) else "a"
            ordered = specification if line.startswith("use") else specification[::-1]
            written = self.loop(*ordered, arguments=arguments)
            clauses = Clauses(("T",))
            self.assertEqual(written.obstacle(clauses), f"T {words}, so it can't be in a clause")

    def test_variables_of_loops_count(self) -> None:
        written = self.loop("real a(9)", "equivalence (i, k)")
        self.assertEqual(written.obstacle(), "I shares its storage with another name, so it can't be in a clause")

    def test_arguments_of_statement_functions_are_free(self) -> None:
        self.assertIsNone(self.loop("real a(9)", "f(t) = t + 1", "g(x) = x + 1").obstacle(Clauses(("T",))))

    def test_versions(self) -> None:
        written = self.loop("real a(9)")
        self.assertEqual(written.obstacle(Clauses(conditional=("T",))), "LASTPRIVATE(CONDITIONAL:..) is OpenMP 5.0")
        self.assertIsNone(written.obstacle(Clauses(conditional=("T",)), openmp="5.0"))

    def test_outermost(self) -> None:
        written = free(
            "do i = 1, 9", "do j = 1, 9", "do k = 1, 9", "end do", "end do", "do l = 1, 9", "end do", "end do", "end",
        )
        loops = [loop for _, loop in written.loops]
        self.assertEqual(outermost(loops), loops[:1])
        self.assertEqual(outermost(loops[1:]), [loops[1], loops[3]])


#: Files with the clauses of their first loops.
_FIXED = """\
      SUBROUTINE S(A, N, K, INCX, OK, BIG)
      REAL A(N)
      LOGICAL OK
      DO 10 I = 1, N
        T = A(I)
        A(I) = T
        S1 = S1 + T
        OK = OK .AND. T .GT. 0.0
        BIG = MAX(BIG, T)
        K = K + INCX
   10 LASTT = I
      PRINT *, LASTT, I, S1
      END
"""
_FREE = """\
subroutine s(a, n, k, incx, ok, big)
  real :: a(n)
  logical :: ok
  integer :: very_long_name_for_a_private_scalar_of_this_loop, another_very_long_name_for_a_private_scalar
      outer: do &
        i = 1, n
        very_long_name_for_a_private_scalar_of_this_loop = 1
        another_very_long_name_for_a_private_scalar = 2
        t = a(i); a(i) = t; s1 = s1 + t; ok = ok .and. t > 0; big = max(big, t); k = k + incx
        lastt = i
      end do outer
  print *, lastt, i, s1
end subroutine
"""
_LONG = ("VERY_LONG_NAME_FOR_A_PRIVATE_SCALAR_OF_THIS_LOOP", "ANOTHER_VERY_LONG_NAME_FOR_A_PRIVATE_SCALAR")
_SHARED = Clauses(
    ("T",), ("LASTT",), ("I",), (), (("+", "S1"), (".AND.", "OK"), ("MAX", "BIG")), (("K", "INCX"),)
)


#: A program whose first loop has all clauses; it prints the values after the loop.
_RUN = """\
program p
  integer :: a(0:999), n, k, m, big, total, last, seen
  logical :: ok
  read *, n
  k = 5; m = -3; big = 0; total = 7; last = -1; seen = -2; ok = .true.
  a = [(mod(7*i, 101), i = 0, 999)]
  do i = 1, n
    j = a(i)
    k = k + 2
    m = m - 3
    last = j*i
    if (mod(j, 10) == 3) seen = j + i
    a(i) = j + k - m
    total = total + j
    big = max(big, j)
    ok = ok .and. j < 100
  end do
  print *, i, k, m, last, total, big, ok, sum(a)
  print *, seen
end program
"""


@unittest.skipUnless(shutil.which("gfortran"), "gfortran isn't there, so no file with directives is compiled")
class Compiled(unittest.TestCase):
    """gfortran reads each directive, and would name an error in it."""

    def compile(self, name: str, text: str, *flags: str) -> str:
        with tempfile.TemporaryDirectory() as folder:
            path = Path(folder, name)
            path.write_text(text)
            words = ["gfortran", "-fopenmp", "-std=legacy", *flags, "-S", "-o", str(Path(folder, "p.s")), str(path)]
            result = subprocess.run(
                words, stdout=subprocess.PIPE, stderr=subprocess.STDOUT, universal_newlines=True, check=False,
            )
            self.assertEqual(result.returncode, 0, result.stdout)
            return Path(folder, "p.s").read_text()

    def with_directive(self, text: str, form: str, clauses: Clauses) -> str:
        written = Written(text, form)
        self.assertIsNone(written.obstacle(clauses, openmp="5.0"))
        line = written.loops[0][1].first_line
        directives: Dict[int, List[str]] = {
            line: directive_lines(clauses, form, indentation_of(written.file.lines[line - 1]))
        }
        return with_directives(text, directives)

    def test_files(self) -> None:
        free_clauses = Clauses(
            (*_LONG, "T"), _SHARED.last, _SHARED.last_alone, (), _SHARED.reductions, _SHARED.inductions
        )
        conditional = Clauses(("T",), (), (), ("LASTT",), _SHARED.reductions, _SHARED.inductions)
        for name, text, form, clauses in [
            ("p.f", _FIXED, "fixed", _SHARED), ("p.f90", _FREE, "free", free_clauses),
            ("p.f", _FIXED, "fixed", conditional),
        ]:
            changed = self.with_directive(text, form, clauses)
            self.assertIn("GOMP_", self.compile(name, changed))
            rest = [line for line in changed.split("\n") if not line.lstrip().lower().startswith("!$omp")]
            self.assertEqual("\n".join(rest), text)

    def run_it(self, text: str, count: int, threads: int, schedule: str) -> str:
        """What a program prints for a count of iterations; without OpenMP where there are no threads."""
        with tempfile.TemporaryDirectory() as folder:
            Path(folder, "p.f90").write_text(text)
            flags = ["-fopenmp"] if threads else []
            subprocess.run(["gfortran", "-O1", *flags, "-o", "p", "p.f90"], cwd=folder, check=True)
            variables = {**os.environ, "OMP_NUM_THREADS": str(threads), "OMP_SCHEDULE": schedule}
            result = subprocess.run(
                [str(Path(folder, "p"))], input=f"{count}\n", env=variables, stdout=subprocess.PIPE, check=True,
                universal_newlines=True,
            )
            return result.stdout

    def test_results(self) -> None:
        """After the loop all values are those of a run without OpenMP."""
        reductions = (("+", "TOTAL"), ("MAX", "BIG"), (".AND.", "OK"))
        clauses = Clauses(("J",), ("LAST",), ("I",), ("SEEN",), reductions, (("K", "2"), ("M", "-3")))
        changed = self.with_directive(_RUN, "free", clauses)
        # OMP_SCHEDULE counts for a loop with this clause alone.
        changed = changed.replace("!$omp parallel do", "!$omp parallel do schedule(runtime)", 1)
        for count in (1, 999):
            wanted = self.run_it(_RUN, count, 0, "static")
            for threads, schedule in ((1, "static"), (2, "static,1"), (4, "dynamic")):
                self.assertEqual(self.run_it(changed, count, threads, schedule), wanted)

    def test_a_loop_with_carriage_returns(self) -> None:
        text = _FREE.replace("\n", "\r\n")
        changed = self.with_directive(text, "free", _SHARED)
        self.assertNotIn("\n", changed.replace("\r\n", ""))
        self.compile("p.f90", changed)


if __name__ == "__main__":
    unittest.main()
