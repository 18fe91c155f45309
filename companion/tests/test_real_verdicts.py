"""Verdicts about loops: what each rests on, and the places where a wrong one would be easy."""

from __future__ import annotations

import tempfile
import unittest
from pathlib import Path

from ..real.verdicts import Verdict
from .real_loops import Loops, subroutine

DAXPY = """\
      SUBROUTINE DAXPY(N,DA,DX,INCX,DY,INCY)
      DOUBLE PRECISION DX(*),DY(*),DA
      INTEGER I,INCX,INCY,IX,IY,M,MP1,N
      IF (N.LE.0) RETURN
      IF (DA.EQ.0.0D0) RETURN
      IF (INCX.EQ.1 .AND. INCY.EQ.1) GO TO 20
      IX = 1
      IY = 1
      IF (INCX.LT.0) IX = (-N+1)*INCX + 1
      IF (INCY.LT.0) IY = (-N+1)*INCY + 1
      DO 10 I = 1,N
         DY(IY) = DY(IY) + DA*DX(IX)
         IX = IX + INCX
         IY = IY + INCY
   10 CONTINUE
      RETURN
   20 M = MOD(N,4)
      IF (M.EQ.0) GO TO 40
      DO 30 I = 1,M
         DY(I) = DY(I) + DA*DX(I)
   30 CONTINUE
      IF (N.LT.4) RETURN
   40 MP1 = M + 1
      DO 50 I = MP1,N,4
         DY(I) = DY(I) + DA*DX(I)
         DY(I+1) = DY(I+1) + DA*DX(I+1)
         DY(I+2) = DY(I+2) + DA*DX(I+2)
         DY(I+3) = DY(I+3) + DA*DX(I+3)
   50 CONTINUE
      END
"""

HEAT = """\
module heat
  implicit none
contains
  subroutine jacobi(u, v, n, m, diff)
    integer, intent(in) :: n, m
    real, intent(in) :: u(0:n+1,0:m+1)
    real, intent(inout) :: v(0:n+1,0:m+1)
    real, intent(out) :: diff
    integer :: i, j; real :: d
    diff = 0.0
    do j = 1, m
      do i = 1, n
        v(i,j) = 0.25*(u(i-1,j) + u(i+1,j) + u(i,j-1) + u(i,j+1))
        d = abs(v(i,j) - u(i,j))
        diff = max(diff, d)
      end do
    end do
  end subroutine
  subroutine seidel(u, n, m)
    integer, intent(in) :: n, m
    real, intent(inout) :: u(0:n+1,0:m+1)
    integer :: i, j
    do j = 1, m
      do i = 1, n
          u(i,j) = 0.25*(u(i-1,j) + u(i+1,j) + u(i,j-1) + u(i,j+1))
      end do
    end do
  end subroutine
end module
"""


def only(loops: Loops, conditional: bool = False) -> Verdict:
    """The verdict about the first loop."""
    return loops.verdicts(conditional)[0]


class WholeFiles(unittest.TestCase):
    """Files with several loops."""

    def test_daxpy(self) -> None:
        found = Loops(DAXPY, "daxpy.f").by_line()
        self.assertEqual([(line, one.word) for line, one in found.items()], [
            (11, "carried"), (19, "parallel"), (24, "parallel"),
        ])
        carried = {one.name: one for one in found[11].carried}
        self.assertEqual(sorted(carried), ["DY", "IX", "IY"])
        self.assertEqual(carried["DY"].kinds, ("flow", "anti", "output"))
        self.assertEqual(carried["DY"].lines, ((12, 12),))
        self.assertEqual([(one.assumed, one.word) for one in found[11].would], [(("A8",), "parallel")])
        self.assertEqual(found[11].would[0].clauses.inductions, (("IX", "INCX"), ("IY", "INCY")))
        self.assertEqual(found[19].assumes, ("A1", "A3", "A12"))

    def test_daxpy_with_steps_that_are_not_0(self) -> None:
        found = Loops(DAXPY, "daxpy.f", assume=["A8"]).by_line()[11]
        self.assertEqual(found.word, "parallel")
        self.assertEqual(found.clauses.inductions, (("IX", "INCX"), ("IY", "INCY")))
        self.assertIn("A8", found.assumes)

    def test_heat(self) -> None:
        found = Loops(HEAT).by_line()
        self.assertEqual([(line, one.word) for line, one in found.items()], [
            (11, "parallel"), (12, "parallel"), (23, "carried"), (24, "carried"),
        ])
        for line in (11, 12):
            self.assertEqual(found[line].clauses.private, ("D",))
            self.assertEqual(found[line].clauses.reductions, (("MAX", "DIFF"),))
            self.assertEqual(found[line].assumes, ("A1", "A2", "A3", "A6", "A9", "A12"))
        for line in (23, 24):
            self.assertEqual([(one.name, one.kinds, one.lines) for one in found[line].carried], [
                ("U", ("flow", "anti"), ((25, 25),)),
            ])

    def test_heat_with_sums_in_their_order(self) -> None:
        found = Loops(HEAT, deny=["A9"]).by_line()[11]
        self.assertEqual((found.word, [one.name for one in found.carried]), ("carried", ["DIFF"]))
        self.assertEqual([one.assumed for one in found.would], [("A9",)])


class Scalars(unittest.TestCase):
    """What becomes of scalars."""

    def test_a_private_one(self) -> None:
        found = only(subroutine("DO I = 1, N", "T = A(I)", "B(I) = T*T", "END DO", declarations="REAL T"))
        self.assertEqual((found.word, found.clauses.private), ("parallel", ("T",)))

    def test_one_that_is_read_first(self) -> None:
        found = only(subroutine("DO I = 1, N", "B(I) = T", "T = A(I)", "END DO", declarations="REAL T"))
        self.assertEqual((found.word, [one.name for one in found.carried]), ("carried", ["T"]))

    def test_a_last_value(self) -> None:
        found = only(subroutine("DO I = 1, N", "X = A(I)", "B(I) = X", "END DO"))
        self.assertEqual((found.word, found.clauses.last, found.clauses.private), ("parallel", ("X",), ()))

    def test_a_last_value_of_some_iterations(self) -> None:
        loops = subroutine("DO I = 1, N", "IF (A(I) > 0) L = I", "END DO")
        found = only(loops)
        self.assertEqual((found.word, [one.name for one in found.carried]), ("carried", ["L"]))
        found = only(loops, conditional=True)
        self.assertEqual((found.word, found.clauses.conditional, found.clauses.last), ("parallel", ("L",), ()))

    def test_a_saved_one_is_wanted_when_the_unit_ends(self) -> None:
        given = "REAL T; SAVE T"
        found = only(subroutine("B(1) = T", "DO I = 1, N", "T = A(I)", "B(I) = T", "END DO", declarations=given))
        self.assertEqual((found.word, found.clauses.last), ("parallel", ("T",)))

    def test_one_that_only_the_end_of_the_unit_makes_private(self) -> None:
        lines = ["DO I = 1, N", "T = A(I)", "B(I) = T", "END DO"]
        self.assertNotIn("A11", only(subroutine(*lines, declarations="REAL T")).assumes)
        self.assertIn("A11", only(subroutine("B(1) = T", *lines, declarations="REAL T")).assumes)

    def test_the_variable_of_the_loop(self) -> None:
        lines = ["DO I = {}, {}", "A(I) = X", "END DO", "K = I"]
        for first, last, word in [("1", "N", "carried"), ("1", "9", "parallel"), ("9", "1", "carried")]:
            with self.subTest(first=first, last=last):
                found = only(subroutine(lines[0].format(first, last), *lines[1:]))
                self.assertEqual(found.word, word)
        found = only(subroutine("DO I = 1, N", *lines[1:]))
        self.assertEqual([(one.name, one.kinds) for one in found.carried], [("I", ("value",))])
        self.assertEqual([one.assumed for one in found.would], [("A13",)])
        found = only(subroutine("DO I = 1, N", *lines[1:], assume=["A13"]))
        self.assertEqual((found.word, found.clauses.last_alone), ("parallel", ("I",)))

    def test_a_variable_of_an_inner_loop_that_is_wanted(self) -> None:
        found = only(subroutine("DO I = 1, N", "DO J = 1, M", "C(I,J) = X", "END DO", "END DO", "K = J"))
        self.assertEqual((found.word, found.clauses.last), ("parallel", ("J",)))

    def test_an_inner_variable_that_is_read_after_its_loop(self) -> None:
        found = only(subroutine("DO I = 1, N", "DO J = I, M", "C(I,J) = X", "END DO", "B(I-J+5) = X", "END DO"))
        self.assertEqual([one.name for one in found.carried], ["B"])

    def test_reductions(self) -> None:
        for statement, operator in [
            ("X = X + A(I)", "+"), ("X = X - A(I)", "+"), ("X = MAX(A(I), X)", "MAX"),
            ("IF (A(I) < X) X = A(I)", "MIN"),
        ]:
            with self.subTest(statement):
                found = only(subroutine("DO I = 1, N", statement, "END DO"))
                self.assertEqual((found.word, found.clauses.reductions), ("parallel", ((operator, "X"),)))
                self.assertIn("A9", found.assumes)

    def test_no_reductions(self) -> None:
        for statement in ["X = A(I) - X", "X = X + A(I)*X", "X = X + A(I); B(I) = X", "A(I) = X; X = X + 1"]:
            with self.subTest(statement):
                found = only(subroutine("DO I = 1, N", statement, "END DO"))
                self.assertEqual(found.word, "carried")
                self.assertIn("X", [one.name for one in found.carried])

    def test_induction_variables(self) -> None:
        found = only(subroutine("DO I = 1, N", "K = K + 2", "A(K) = B(K+1)", "END DO"))
        self.assertEqual((found.word, found.clauses.inductions), ("parallel", (("K", "2"),)))
        found = only(subroutine("DO I = 1, N", "A(K) = X", "K = K + 1", "A(K) = Y", "END DO"))
        self.assertEqual([(one.name, one.lines) for one in found.carried], [("A", ((7, 5),))])
        for statement in ["A(K) = A(K+1)", "A(K) = A(L)", "A(K) = SUM(A)", "A(K) = A(I)"]:
            with self.subTest(statement):
                lines = ["DO I = 1, N", statement, "K = K + M", "L = L + M", "END DO"]
                found = only(subroutine(*lines, assume=["A8"]))
                self.assertEqual([one.name for one in found.carried], ["A"])

    def test_an_induction_variable_on_some_ways_only(self) -> None:
        found = only(subroutine("DO I = 1, N", "IF (A(I) > 0) THEN", "K = K + 1", "B(K) = A(I)", "END IF", "END DO"))
        self.assertEqual(sorted(one.name for one in found.carried), ["B", "K"])


class InternalUnits(unittest.TestCase):
    """READ and WRITE of CHARACTER variables."""

    def check(self, wanted: str, *lines: str) -> None:
        """That a loop over I has a verdict, with the names that it carries or its private ones."""
        given = "CHARACTER W*20, D(99)*8, F*9"
        found = only(subroutine("DO I = 1, N", *lines, "END DO", declarations=given))
        names = found.clauses.private if found.word == "parallel" else [one.name for one in found.carried]
        self.assertEqual(" ".join([found.word, *names]), wanted, lines)

    def test_verdicts(self) -> None:
        self.check("parallel W", "WRITE (W, '(I5)') IX(I)", "D(I) = W(1:3)")
        self.check("carried W", "D(I) = W", "WRITE (W, '(I5)') IX(I)")
        self.check("carried W", "WRITE (W(1:5), '(I5)') IX(I)", "D(I) = W")
        self.check("carried D", "WRITE (D(1), '(I5)') IX(I)")
        self.check("carried D", "WRITE (D(I+1), '(I5)') I", "READ (D(I), '(I5)') IX(I)")
        self.check("carried D", "WRITE (D, '(I5)') I")
        self.check("parallel J", "WRITE (D(I), '(9I2)') (IX(J), J = 1, 4)")
        self.check("carried IX", "READ (D(I), '(9I2)') (IX(J), J = 1, 4)")
        self.check("parallel J", "READ (D(I), '(9F2.0)') (C(J,I), J = 1, 4)")
        self.check("carried W", "WRITE (W, '(I5)', ERR=10) IX(I)", "10 D(I) = W")
        self.check("parallel F W", "F = '(I5)'", "WRITE (W, F) IX(I)", "D(I) = W")

    def test_other_units(self) -> None:
        for line in ["WRITE (K, *) A(I)", "PRINT *, A(I)", "READ (5, *) A(I)", "WRITE (*, '(A)') D(I)"]:
            self.assertEqual(subroutine("DO I = 1, N", line, "END DO", declarations="CHARACTER D(9)").reason(), "io")


class Arrays(unittest.TestCase):
    """What is carried of arrays."""

    def test_a_shift(self) -> None:
        for statement, kinds in [("A(I) = A(I-1)", ("flow",)), ("A(I) = A(I+1)", ("anti",)), ("A(I) = A(I)", ())]:
            with self.subTest(statement):
                found = only(subroutine("DO I = 1, N", statement, "END DO"))
                self.assertEqual([one.kinds for one in found.carried], [kinds] if kinds else [])

    def test_concurrent(self) -> None:
        """A promise that is seen to be kept, or isn't; nothing is gathered, and no value is a last one."""
        for lines, wanted in [
            (["A(I) = B(I)"], "parallel"), (["A(I) = A(I+1)"], "carried A"), (["A(IX(I)) = 1"], "carried A"),
            (["T = A(I)", "B(I) = T"], "parallel"), (["X = X + A(I)"], "carried X"), (["X = A(I)"], "carried X"),
            (["K = K + 1", "A(K) = 1"], "carried A K"), (["A(I) = I", "IF (A(I) > 3) CYCLE", "B(I) = 2"], "parallel"),
        ]:
            with self.subTest(lines):
                found = only(subroutine("DO CONCURRENT (I = 1:N)", *lines, "END DO", declarations="REAL T"))
                self.assertEqual(" ".join([found.word, *(one.name for one in found.carried)]), wanted)
        found = only(subroutine("I = 3", "DO CONCURRENT (I = 1:N)", "A(I) = 1", "END DO", "K = I"))
        self.assertEqual((found.word, found.clauses.names), ("parallel", ()))

    def test_a_triangle_by_the_second_model(self) -> None:
        found = only(subroutine("DO J = 1, N", "DO K = 1, J-1", "C(J,K) = C(K,J)", "END DO", "END DO"))
        self.assertEqual(found.word, "parallel")

    def test_the_second_model_with_names_that_are_none_of_the_profile(self) -> None:
        lines = [
            "DO J = 1, N", "T_1 = A(J)", "DO KK = 1, J-1", "T_2 = C(KK,J)*T_1", "C(J,KK) = T_2", "END DO", "T_3 = T_1",
            "B(J) = T_3", "END DO", "X = T_3",
        ]
        found = only(subroutine(*lines, declarations="REAL T_1, T_2, T_3"))
        self.assertEqual((found.word, found.clauses.private, found.clauses.last), (
            "parallel", ("T_1", "T_2"), ("T_3",),
        ))

    def test_a_leading_dimension_may_be_1(self) -> None:
        lines = ["DO J = 1, N", "DO I = 1, M", "A(I+J*L) = X", "END DO", "END DO"]
        self.assertEqual([one.word for one in subroutine(*lines).verdicts()], ["carried", "parallel"])

    def test_an_array_with_the_name_of_an_intrinsic(self) -> None:
        loops = subroutine("DO I = 1, N", "INDEX(I) = INDEX(I+1)", "END DO", declarations="INTEGER INDEX(N)")
        self.assertEqual([one.name for one in only(loops).carried], ["INDEX"])

    def test_after_several_jumps(self) -> None:
        lines = [
            "DO 10 I = 1, N", "IF (A(I) > 0) GO TO 5", "IF (A(I) < -1) GO TO 6", "T = 1", "GO TO 8", "5 T = 2",
            "GO TO 8", "6 IF (B(I) > 0) GO TO 8", "T = 3", "8 B(I) = T", "10 CONTINUE",
        ]
        self.assertEqual([one.name for one in only(subroutine(*lines, declarations="REAL T")).carried], ["T"])
        skipping = [
            "DO 10 I = 1, N", "IF (A(I) > 0) GO TO 5", "IF (A(I) < -1) GO TO 8", "T = 1", "5 A(I) = 2", "8 B(I) = T",
            "10 CONTINUE",
        ]
        self.assertEqual([one.name for one in only(subroutine(*skipping, declarations="REAL T")).carried], ["T"])
        lines[7] = "6 IF (B(I) > 0) T = 4"
        lines[8] = "IF (B(I) <= 0) T = 3"
        self.assertEqual([one.name for one in only(subroutine(*lines, declarations="REAL T")).carried], ["T"])
        lines[7:9] = ["6 T = 4"]
        found = only(subroutine(*lines, declarations="REAL T"))
        self.assertEqual((found.word, found.clauses.private), ("parallel", ("T",)))

    def test_columns_and_tabs_of_fixed_form(self) -> None:
        text = (
            "      SUBROUTINE S(A, N)\n      REAL A(N)\n      DO 10 I = 1, N\n   10 A(I) = A(I"
            + " " * 56 + "-1)\n     &)\n      DO 20 I = 1, N\n\tA(I) = A(I\n\t1-1)\n   20 CONTINUE\n      END\n"
        )
        found = Loops(text, "s.f").verdicts()
        self.assertEqual([one.word for one in found], ["parallel", "carried"])

    def test_a_loop_in_an_included_file(self) -> None:
        with tempfile.TemporaryDirectory() as folder:
            Path(folder, "l.inc").write_text("DO I = 1, N\nA(I) = 0\nEND DO\n")
            lines = ["SUBROUTINE S(A, N)", "REAL A(N)", "INCLUDE 'l.inc'", "END"]
            path = str(Path(folder, "r.f90"))
            found = Loops("\n".join(lines) + "\n", path).verdicts()
            self.assertEqual([(one.word, one.place.line, one.place.last_line) for one in found], [("parallel", 1, 3)])
            self.assertIn("A5", found[0].assumes)
            lines.insert(2, "!$OMP PARALLEL DO")
            self.assertEqual(Loops("\n".join(lines) + "\n", path).reason(), "directive")

    def test_a_variable_of_a_host(self) -> None:
        text = "\n".join([
            "SUBROUTINE S(A, N)", "REAL A(N), T", "DO I = 1, N", "T = A(I)", "A(I) = T", "END DO", "CALL P",
            "CONTAINS", "SUBROUTINE P", "A(1) = T", "END SUBROUTINE", "END",
        ]) + "\n"
        self.assertEqual(only(Loops(text)).clauses.last, ("T",))

    def test_assumptions_about_modules(self) -> None:
        """A module of a host counts, too; one that isn't in the file might have operators of its own."""
        inner = [
            "CONTAINS", "SUBROUTINE P(A, N)", "INTEGER N, I", "REAL A(N)", "DO I = 1, N", "A(I) = 1", "END DO",
            "END SUBROUTINE", "END",
        ]
        for head, wanted in (
            (["SUBROUTINE S"], ("A1", "A3", "A12")), (["SUBROUTINE S", "USE NONE"], ("A1", "A3", "A5", "A6", "A12")),
            (["MODULE M", "END MODULE", "SUBROUTINE S", "USE M"], ("A1", "A3", "A5", "A12")),
        ):
            self.assertEqual(only(Loops("\n".join([*head, *inner]) + "\n")).assumes, wanted)

    def test_neighbours_in_a_common_block(self) -> None:
        """Beyond the end of one array is the next one: A2."""
        lines = ["DO I = 1, N", "P(I) = Q(I)", "END DO"]
        for given, cites in (
            ("COMMON /C/ P(9), Q(9)", True), ("COMMON /C/ P(9) /D/ Q(9)", False), ("REAL P(9), Q(9)", False),
        ):
            self.assertEqual("A2" in only(subroutine(*lines, declarations=given)).assumes, cites, given)

    def test_assumptions_that_are_denied(self) -> None:
        found = only(subroutine("DO I = 1, N", "C(I,1) = C(I,2)", "END DO", deny=["A2"]))
        assert found.refusal is not None
        self.assertEqual((found.word, found.refusal.reason), ("refused", "assumption"))

    def test_a_model_that_ped_refuses(self) -> None:
        starts = [f"DO {name} = 1, 2" for name in ("I", "J", "K", "L", "M", "N", "JJ")]
        found = only(subroutine(*starts, "A(I) = X", *["END DO"] * 7))
        assert found.refusal is not None
        self.assertEqual(found.refusal.reason, "limit")


if __name__ == "__main__":
    unittest.main()
