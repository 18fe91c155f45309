"""Runs that are counted by marks: each loop's entries and iterations, and what the run computes stays the same."""

import shutil
import subprocess
import tempfile
import unittest
from pathlib import Path
from typing import Dict, List, Tuple

from ..ped import read_file as read_text
from ..real.blocks import read_file
from ..real.costs import Cost
from ..real.counted import Run, costs_of
from ..real.marking import counter_text, marked, marks_for, module_text
from ..real.project import Project
from ..statuses import CompanionError, Status
from .real_corpora import FOLDER

#: Each DO has its entries and its iterations in a comment.
FIXED = """\
      PROGRAM COUNTS
      INTEGER I, J, K, N, F
      F(I) = I + 1
      K = 0
      N = 0
      DO 10 I = 1, 7
C     Both end at one label.
      DO 10 J = 1, 10
   10 K = K + 1
      I = 0
   20 I = I + 1
      DO 30 J = 1, 3
        IF (J .EQ. 2) GO TO 30
        K = K + 1
   30 CONTINUE
      IF (I .LT. 4) GO TO 20
      GO TO 40
   35 K = 0
   40 DO 50 J = 1, 5
        IF (J .EQ. 3) GO TO 60
   50 CONTINUE
   60 DO WHILE (N .LT. 6)
        N = N + 1
      END DO
      CALL DEEP(3)
      PRINT *, K, N, J, F(N)
      END
      RECURSIVE SUBROUTINE DEEP(N)
      INTEGER N, I
      DO I = 1, 2
        IF (N .GT. 0) CALL DEEP(N - 1)
      END DO
      END
"""
FIXED_COUNTS = {6: (1, 7), 8: (7, 70), 12: (4, 12), 19: (1, 3), 22: (1, 6), 30: (15, 30)}

FREE = """\
module work
  implicit none
contains
  pure subroutine add(a, n)
    integer, intent(in) :: n
    real, intent(inout) :: a(n)
    integer :: i
    do i = 1, n
      a(i) = a(i) + 1
    end do
  end subroutine add
  elemental real function twice(x) result(y)
    real, intent(in) :: x
    y = 2 * x
  end function twice
end module work
program counts
  use work
  implicit none
  real :: a(10), b(10) = 0
  integer :: i, j, k
  a = 0
  outer: do i = 1, 6
    if (i == 4) cycle outer
    inner: do j = 1, 8
      if (j == 5) cycle outer
      if (i == 6) exit outer
      b(j) = twice(b(j))
    end do inner
  end do outer
  where (a > 0)
    b = a
  elsewhere
    b = 1
  end where
  do k = 1, 3; a(k) = k; end do
  do concurrent (i = 1:10)
    call add(a(i:i), 1)
  end do
  call early(a)
  print *, a, b
contains
  subroutine early(x)
    real, intent(inout) :: x(:)
    do i = 1, size(x)
      x(i) = 0
      if (i == 4) return
    end do
  end subroutine early
end program counts
"""
FREE_COUNTS = {8: (10, 10), 23: (1, 6), 25: (5, 21), 36: (1, -1), 37: (1, 10), 45: (1, 4)}

CALLS = """\
program calls
  real :: x = 0
  do i = 1, 10
    call light(x)
  end do
  do i = 1, 10
    call heavy(x)
  end do
  print *, x
contains
  subroutine light(x)
    x = x + 1
  end subroutine light
  subroutine heavy(x)
    do j = 1, 98
      x = x + 1
    end do
  end subroutine heavy
end program calls
"""


def costs(path: str, text: str, **run: object) -> Dict[int, Cost]:
    """What a run of one file costs, by the lines of its loops."""
    project = Project([read_file(path, text)], [], frozenset())
    return {line: cost for (_, line), cost in costs_of(project, Run(**run)).items()}  # type: ignore[arg-type]


@unittest.skipIf(shutil.which("gfortran") is None, "gfortran isn't there")
class Counted(unittest.TestCase):
    def wanted(self, path: str, text: str, counts: Dict[int, Tuple[int, int]]) -> None:
        """A run has these counts."""
        found = costs(path, text)
        self.assertEqual({line: (one.entries, one.iterations) for line, one in found.items()}, counts)

    def test_fixed_form(self) -> None:
        self.wanted("p.f", FIXED, FIXED_COUNTS)

    def test_tabs(self) -> None:
        text = FIXED.replace("   20 I", "20\tI").replace("   40 DO", "40\tDO")
        self.wanted("p.f", text, FIXED_COUNTS)

    def test_free_form(self) -> None:
        self.wanted("p.f90", FREE, FREE_COUNTS)

    def test_calls_count_for_their_loops(self) -> None:
        found = costs("p.f90", CALLS)
        # A statement for the CALL, and those of the procedure.
        self.assertEqual([found[line].executed for line in (3, 6, 15)], [20, 1000, 980])
        self.assertAlmostEqual(sum(found[line].share for line in (3, 6)), 100 * 1020 / 1023, 3)

    def test_a_name_that_is_taken(self) -> None:
        marks = marks_for([read_file("p.f90", "integer :: pedx_mark\nend\n")])
        self.assertEqual(marks.name, "PEDX_MARK2")

    def test_faults(self) -> None:
        for text, status, said in (
            ("subroutine s\nend\n", Status.BAD_WORDS, "has a main program"),
            ("read *, i\nend\n", Status.FAULT, "data are missing"),
            ("do i = 1, 3\nend do\nstop 3\nend\n", Status.FAULT, "status 3"),
            ("x = 1 +\nend\n", Status.NO_COMPILER, "doesn't compile"),
            ("print *, 1/\nend\n", Status.NO_COMPILER, "doesn't compile"),
        ):
            with self.assertRaises(CompanionError) as caught:
                costs("p.f90", text)
            self.assertEqual(caught.exception.status, status, text)
            self.assertIn(said, caught.exception.message)

    def test_a_folder_with_the_programs_files(self) -> None:
        text = "open (9, file='n.txt')\nread (9, *) n\ndo i = 1, n\nend do\n"
        text += "open (9, file='m.txt')\nwrite (9, *) n\nend\n"
        with tempfile.TemporaryDirectory() as folder:
            Path(folder, "n.txt").write_text("12\n")
            found = costs("p.f90", text, folder=folder)
            self.assertEqual([one.name for one in Path(folder).iterdir()], ["n.txt"])
        self.assertEqual(found[3].iterations, 12)

    def test_programs_compute_what_they_did(self) -> None:
        for name in ("legacy.f", "fft.f90", "modern.f90", "records.f90"):
            path = FOLDER / name
            file = read_file(str(path), read_text(str(path)))
            if not any(unit.kind == "PROGRAM" for unit in file.units):
                continue
            self.assertEqual(self.outputs([path]), self.outputs(self.marked_files(path)), name)

    def marked_files(self, path: Path) -> List[Path]:
        """A copy of a program with marks, and what is compiled with it."""
        folder = tempfile.mkdtemp()
        self.addCleanup(shutil.rmtree, folder)
        project = Project([read_file(str(path), read_text(str(path)))], [], frozenset())
        marks = marks_for(project.files)
        lines = marked(project.files[0], 0, project.scopes, marks)
        texts = {"a.f90": module_text(marks), "b.f90": counter_text(marks, "NONE"), path.name: "\n".join(lines) + "\n"}
        for name, text in texts.items():
            Path(folder, name).write_text(text, "latin-1")
        return [Path(folder, name) for name in texts]

    @staticmethod
    def outputs(paths: List[Path]) -> bytes:
        """What a program prints."""
        with tempfile.TemporaryDirectory() as folder:
            words = ["gfortran", "-w", "-std=legacy", *(str(path.resolve()) for path in paths), "-o", "x"]
            subprocess.run(words, cwd=folder, check=True)
            return subprocess.run(["./x"], cwd=folder, check=True, stdout=subprocess.PIPE).stdout
