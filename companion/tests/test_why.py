"""`pedx why`: sentences, marks in lines, and which rows are chosen."""

import unittest

from ..commands.why import Wanted, why
from .support import example_view, examples, fortran, view_of


class Sentences(unittest.TestCase):
    def test_whole(self) -> None:
        self.assertEqual(why(example_view("panes/recurrence"), Wanted()).splitlines()[1:], [
            "    5 |    10 A(I)=A(I-1)+1",
            "      |       ^^^^ 2.2 writes",
            "      |            ~~~~~~ 2.1 reads, 1 iteration of DO I later",
            "      subscript 1 decides: I against I-1, strong SIV, distance 1 in DO I",
            "      row: 2.2 2.1 A flow 1 (<) (1) proven",
        ])
        headline = why(example_view("panes/recurrence"), Wanted()).splitlines()[0]
        self.assertTrue(headline.endswith(
            "recurrence.f:5:7: flow of A from 2.2 to 2.1, carried by loop 1 (DO I), proven"
        ), headline)

    def test_iterations(self) -> None:
        text = why(view_of(fortran(
            "INTEGER A(99,99)", "DO 10 I = 2, 9", "DO 10 J = 1, 8", "10 A(I,J) = A(I-1,J+1)", "END"
        )), Wanted())
        self.assertIn("~ 3.1 reads, 1 iteration of DO I later, 1 iteration of DO J earlier\n", text)
        text = why(view_of(fortran(
            "INTEGER A(99)", "DO 10 I = 1, 5", "DO 10 J = 1, 5", "DO 10 K = 1, 5", "10 A(I+J-K) = 0", "END"
        )), Wanted(loops=[1]))
        self.assertIn("~ 4.1 writes, in a later iteration of DO I, and otherwise as the vectors say\n", text)

    def test_reasons(self) -> None:
        text = why(view_of(fortran(
            "INTEGER A(99), L(99)", "READ *, N", "DO 10 I = 1, N", "A(L(I)) = 0", "IF (L(I).GT.0) A(I) = A(1)",
            "10 A(I) = A(12-I)", "END",
        )), Wanted())
        for reason in (
            "subscript 1: L(I) against I: L(I) isn't affine, so nothing is excluded",
            "subscript 1: I against 1, weak-zero SIV: the same where I is 1",
            "subscript 1: I against 12-I, weak-crossing SIV: the same where the two values of I add up to 12",
            "pending: the limit N of loop 2 (DO I) isn't constant",
            "pending: statement 5 is in the IF of statement 4",
            "pending: subscript 1: weak-zero SIV doesn't tell a distance",
        ):
            self.assertIn(f"      {reason}\n", text)

    def test_scalars_and_lines(self) -> None:
        text = why(example_view("steps/squares"), Wanted())
        self.assertIn("      T is a scalar, and all iterations use the same one\n", text)
        self.assertIn(
            "      ISQ is private to an iteration of loop 6 (DO I): it has one copy\n",
            why(example_view("panes/private"), Wanted(statements=[8])),
        )
        self.assertIn("      lines are read and printed in their order\n", why(example_view("sessions/means"), Wanted()))

    def test_rejected(self) -> None:
        text = why(example_view("panes/chains"), Wanted(loops=[11]))
        self.assertIn("      rejected by the directive of line 22; without it the row is pending\n", text)
        self.assertIn("      K occurs in no subscript: all iterations of DO K use the same elements\n", text)

    def test_continued_lines(self) -> None:
        view = view_of("      INTEGER A(9)\n      DO 10 I = 2, 9\n   10 A(I) = A(I\n     &        -1)\n      END\n")
        self.assertEqual(why(view, Wanted()).splitlines()[1:6], [
            "    3 |    10 A(I) = A(I",
            "      |       ^^^^ 2.2 writes",
            "      |              ~~~",
            "    4 |      &        -1)",
            "      |       ~~~~~~~~~~~ 2.1 reads, 1 iteration of DO I later",
        ])


class Chosen(unittest.TestCase):
    def rows(self, name: str, wanted: Wanted) -> int:
        return why(example_view(name), wanted).count("      row: ")

    def test_filters(self) -> None:
        self.assertEqual(self.rows("steps/squares", Wanted(loops=[3])), 3)
        self.assertEqual(self.rows("steps/squares", Wanted(statements=[5])), 3)
        self.assertEqual(self.rows("steps/squares", Wanted(kinds=["flow", "anti"])), 3)
        self.assertEqual(self.rows("steps/squares", Wanted(names=["t"], kinds=["output"])), 1)
        self.assertEqual(self.rows("panes/chains", Wanted(marks=["rejected"])), 5)
        self.assertEqual(self.rows("steps/squares", Wanted(marks=["pending"])), 0)

    def test_none(self) -> None:
        self.assertTrue(why(example_view("steps/squares"), Wanted(marks=["pending"])).endswith("no such row among 4\n"))

    def test_all_rows_of_all_examples(self) -> None:
        for name in examples():
            self.assertEqual(self.rows(name, Wanted()), len(example_view(name).dependences), name)


if __name__ == "__main__":
    unittest.main()
