"""`pedx tune`: what stands in the way of loops, and which single step removes it. What is wanted is known by hand."""

import unittest
from typing import List, Optional

from ..commands.tune import tune
from ..ped import Ped
from ..replies import Reply
from .support import fortran, ped, ped_path, view_of

_NO_PED = Ped("/nowhere/ped")


def told(source: str, *loops: int) -> List[str]:
    """What is told of the loops of a program, without blanks at the front."""
    return [row.strip() for row in tune(view_of(source), ped(), loops).splitlines()[1:]]


class Ways(unittest.TestCase):
    def test_free(self) -> None:
        self.assertEqual(told(fortran("INTEGER A(9)", "DO I = 1, 9", "A(I) = I", "END DO", "END")), [
            "1     2  DO I = 1, 9  nothing",
            "`parallel 1`: ped accepts it",
        ])

    def test_parallel(self) -> None:
        self.assertEqual(told(fortran("INTEGER A(9)", "PARALLEL DO I = 1, 9", "A(I) = I", "END DO", "END")), [
            "1     2  PARALLEL DO I = 1, 9  nothing: it is a PARALLEL DO",
        ])

    def test_variable_wanted_behind(self) -> None:
        self.assertEqual(told(fortran("INTEGER A(9)", "DO I = 1, 9", "A(I) = I", "END DO", "PRINT *, I", "END")), [
            "1     2  DO I = 1, 9  rule 5 IndexEscapes at 3: statement 3 reads the variable of a loop where the step "
            "would leave it without a value",
        ])

    def test_scalar_wanted_behind(self) -> None:
        """An array keeps the last value, a private scalar doesn't."""
        rows = told(fortran("INTEGER A(9)", "DO I = 1, 9", "K = I*I", "A(I) = K", "END DO", "PRINT *, K", "END"))
        self.assertEqual(rows[1:], ["`expand 1 K`: then ped accepts `parallel 1`"])

    def test_first_iteration(self) -> None:
        """Iteration 1 alone writes what all read; the loop stands behind the two statements of that iteration."""
        rows = told(fortran("INTEGER A(9), B(9)", "DO I = 1, 9", "B(I) = A(1)", "A(I) = I", "END DO", "END"))
        self.assertEqual(rows[1:], ["`peel 1 first`: then ped accepts `parallel 3`"])

    def test_inner_loop_outwards(self) -> None:
        """The rows depend on each other, the columns don't."""
        rows = told(fortran(
            "INTEGER A(9,9)", "DO I = 2, 9", "DO J = 1, 9", "A(I,J) = A(I-1,J)", "END DO", "END DO", "END"
        ))
        self.assertEqual(rows[1:2] + rows[3:], [
            "no single step removes it; `pedx why FILE --loop 1` tells why",
            "`parallel 2`: ped accepts it",
            "`interchange 1` makes it the outer loop: then ped accepts `parallel 1`",
        ])

    def test_outer_loop_inwards(self) -> None:
        """Behind the interchange the new outer loop carries the dependence, and its old outer one nothing."""
        rows = told(fortran(
            "INTEGER A(9,9)", "DO I = 2, 9", "DO J = 2, 9", "A(I,J) = A(I-1,J-1)", "END DO", "END DO", "END"
        ), 1)
        self.assertEqual(rows[1:], ["`interchange 1` makes it the inner loop: then ped accepts `parallel 2`"])

    def test_part(self) -> None:
        """The scalar goes, and the sum stays."""
        rows = told(fortran(
            "INTEGER A(9)", "DO I = 1, 9", "K = A(I)", "M = M+K", "END DO", "PRINT *, M", "END"
        ))
        self.assertEqual(rows[1:3], [
            "`privatise 1 K` takes a part away; the loop then carries M",
            "`expand 1 K` takes a part away; the loop then carries M",
        ])

    def test_sums(self) -> None:
        """No step makes the loop a PARALLEL DO, but its iterations may be done in any order."""
        rows = told(fortran("DO I = 1, 9", "K = K-I", "L = L+I*I", "END DO", "PRINT *, K, L", "END"))
        self.assertEqual(rows[1:], ["`reduce 1 K L`: then the iterations may be done in any order"])

    def test_distribution(self) -> None:
        """A is a recurrence, and B is computed from it: the second loop is free. Its DO is statement 3."""
        rows = told(fortran("INTEGER A(9), B(9)", "DO I = 2, 9", "A(I) = A(I-1)+I", "B(I) = 2*A(I)", "END DO", "END"))
        self.assertEqual(rows[1:], ["`distribute 1` makes 2 loops of it, of which 3 carries nothing"])

    def test_pending(self) -> None:
        rows = told(fortran("INTEGER A(9), L(9)", "DO I = 1, 9", "A(L(I)) = I", "END DO", "END"))
        self.assertEqual(rows[1:], [
            "`reject 1 A`, where you know that no two iterations use one element; ped then promises nothing",
        ])

    def test_no_rejection_of_scalars(self) -> None:
        """All iterations use one M; that no two use one element can be true of A alone."""
        rows = told(fortran(
            "INTEGER A(9), L(9)", "READ *, N", "DO I = 1, N", "A(L(I)) = M", "M = MAX(M,L(I))", "END DO", "PRINT *, M",
            "END",
        ))
        self.assertEqual(rows[1:], [
            "M is a maximum that statement 3 reads on the way: it stays in order; the rest of the loop can be taken "
            "apart from it",
            "`reject 2 A`, where you know that no two iterations use one element; ped then promises nothing",
        ])

    def test_no_rejection_of_what_is_certain(self) -> None:
        """The rows are pending since N and the IF are open; but which elements are used is certain."""
        rows = told(fortran(
            "INTEGER A(99)", "READ *, N", "DO I = 2, N", "IF (I.GT.N/2) A(I) = A(I-1)", "END DO", "PRINT *, A(9)", "END"
        ))
        self.assertEqual(rows[1:], ["no single step removes it; `pedx why FILE --loop 2` tells why"])

    def test_no_rejection_beside_proven_rows(self) -> None:
        """Each iteration reads what the one before has written, whatever L holds."""
        rows = told(fortran(
            "INTEGER A(99), L(9)", "DO I = 2, 9", "A(I) = A(I-1)+A(L(I))", "END DO", "PRINT *, A(9)", "END"
        ))
        self.assertEqual(rows[1:], ["no single step removes it; `pedx why FILE --loop 1` tells why"])

    def test_sessions(self) -> None:
        """All loops of a short program are asked about in one session, and what is taken apart in two more."""
        calls: List[str] = []

        class Counted(Ped):
            """A program that notes the scripts that it is given."""

            def session(self, source: str, script: str, data: Optional[str] = None) -> List[Reply]:
                calls.append(script)
                return super().session(source, script, data)

        lines = [line for _ in range(20) for line in ("DO I = 2, 9", "A(I) = A(I-1)+I", "B(I) = 2*A(I)", "END DO")]
        text = tune(view_of(fortran("INTEGER A(9), B(9)", *lines, "END")), Counted(ped_path()), [])
        self.assertEqual(text.count("makes 2 loops of it"), 20)
        self.assertEqual(len(calls), 3)

    def test_nothing_helps(self) -> None:
        rows = told(fortran("INTEGER A(99)", "DO I = 2, 99", "A(I) = A(I-1)", "END DO", "END"))
        self.assertEqual(rows[1:], ["no single step removes it; `pedx why FILE --loop 1` tells why"])

    def test_output(self) -> None:
        rows = told(fortran("DO I = 1, 9", "PRINT *, I", "END DO", "END"))
        self.assertEqual(rows[1:], ["no single step removes it; `pedx why FILE --loop 1` tells why"])

    def test_no_loops(self) -> None:
        self.assertEqual(tune(view_of(fortran("K = 1", "END")), _NO_PED, []), "no loops\n")


if __name__ == "__main__":
    unittest.main()
