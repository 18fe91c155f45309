"""IFs whose conditions depend on each other: what is known of the later one where the earlier one holds, or fails."""

from __future__ import annotations

import unittest
from typing import List

from ..real import expressions
from ..real.conditions import Conditions
from .real_loops import Loops, subroutine

DECLARED = "REAL T, W; INTEGER V; LOGICAL P, Q"


def verdict(*lines: str) -> str:
    """What is said of a loop over I: its verdict, with the names that it carries."""
    found = subroutine("DO I = 1, N", *lines, "END DO", declarations=DECLARED).verdicts()[0]
    return " ".join([found.word, *(one.name for one in found.carried)])


class Implied(unittest.TestCase):
    """What a condition says of another."""

    def conditions(self) -> Conditions:
        scene = subroutine("DO I = 1, N", "END DO", declarations=DECLARED).places[0].scene
        return Conditions(scene.roles, scene.symbols.constant, {})

    def assertImplied(self, one: str, wanted: List[str], others: List[str]) -> None:
        """That a condition implies all of some others, and none of further ones."""
        known = self.conditions()
        for other in [*wanted, *others]:
            with self.subTest(f"{one} and {other}"):
                found = known.implies(expressions.read_expression(one), expressions.read_expression(other))
                self.assertEqual(found, other in wanted)

    def test_relations_to_numbers(self) -> None:
        self.assertImplied("K > 8", ["K > 8", "K > 7", "K >= 9", "K >= 8", "K /= 8", "K /= 3", "7 < K", ".NOT. K <= 8",
                                     ".NOT. (K == 2)"],
                           ["K > 9", "K >= 10", "K /= 9", "K == 9", "K < 20", "L > 8", ".NOT. K > 8"])
        self.assertImplied("K >= 8", ["K > 7", "K >= 8", "K /= 7"], ["K > 8", "K /= 8", "K >= 9"])
        self.assertImplied("K < 3", ["K < 3", "K < 4", "K <= 2", "K <= 3", "K /= 3", "K /= 5"],
                           ["K < 2", "K <= 1", "K /= 2", "K > -9"])
        self.assertImplied("K <= 3", ["K < 4", "K <= 3", "K /= 4"], ["K < 3", "K <= 2", "K /= 3"])
        self.assertImplied("K == 3", ["K == 3", "K > 2", "K >= 3", "K < 4", "K <= 3", "K /= 4", "3 == K"],
                           ["K > 3", "K < 3", "K /= 3", "K == 4"])
        self.assertImplied("K /= 3", ["K /= 3"], ["K == 3", "K /= 4", "K > 3", "K < 3"])

    def test_several_conditions(self) -> None:
        self.assertImplied("P .AND. K > 3", ["P", "K > 2", "P .OR. Q", "K > 1 .AND. P"], ["Q", "P .AND. Q", ".NOT. P"])
        self.assertImplied("P .OR. Q", ["Q .OR. P", "P .OR. Q"], ["P", "Q", "P .AND. Q"])
        self.assertImplied(".NOT. P", [".NOT. P", ".NOT. (P .AND. Q)"], ["P", "Q", ".NOT. Q"])

    def test_numbers_that_are_real(self) -> None:
        """No relation of a REAL is the opposite of another, since NaNs have none; nor is a computed one the same twice."""
        self.assertImplied("X > 1.0", ["X > 1.0", ".NOT. (.NOT. X > 1.0)"], [".NOT. X <= 1.0", "X >= 1.0", "X > 0.5"])
        self.assertImplied("X*Y > 1.0", [], ["X*Y > 1.0"])
        self.assertImplied("SQRT(X) > Y", [], ["SQRT(X) > Y"])
        self.assertImplied("A(I+K*2) > Y", ["A(I+K*2) > Y"], ["A(I+K) > Y"])
        self.assertImplied("MOD(I, 2) == 0", ["MOD(I, 2) == 0"], ["MOD(I, 3) == 0"])


class Verdicts(unittest.TestCase):
    """Scalars that one IF assigns and another one reads."""

    def test_the_same_condition(self) -> None:
        for first, second in [
            ("IF (P) T = 1", "IF (P) B(I) = T"), ("IF (IX(I) > 7) T = 1", "IF (IX(I) > 8) B(I) = T"),
            ("IF (A(I) > Y) T = 1", "IF (A(I) > Y .AND. Q) B(I) = T"),
            ("IF (.NOT. P) T = 1", "IF (.NOT. (P)) B(I) = T"),
        ]:
            with self.subTest(second):
                self.assertEqual(verdict(first, second), "parallel")
                self.assertEqual(verdict(first, "Z = A(I); A(I) = Z + 1.0", second.replace("A(I)", "IX(I)")).split()[0],
                                 "parallel" if "A(I)" not in first else "carried")

    def test_both_branches(self) -> None:
        first = "IF (IX(I) == 3) THEN; T = 1; ELSE; W = 2; END IF"
        self.assertEqual(verdict(first, "IF (IX(I) == 3) THEN; B(I) = T; ELSE; B(I) = W; END IF"), "parallel")
        self.assertEqual(verdict(first, "IF (IX(I) /= 3) THEN; B(I) = W; ELSE; B(I) = T; END IF"), "parallel")
        self.assertEqual(verdict(first, "IF (IX(I) == 3) THEN; B(I) = W; ELSE; B(I) = T; END IF"), "carried T W")
        self.assertEqual(verdict(first, "IF (IX(I) > 2) THEN; B(I) = T; ELSE; B(I) = W; END IF"), "carried T")

    def test_conditions_that_say_too_little(self) -> None:
        for first, second in [
            ("IF (IX(I) > 8) T = 1", "IF (IX(I) > 7) B(I) = T"), ("IF (P) T = 1", "IF (Q) B(I) = T"),
            ("IF (P) T = 1", "IF (.NOT. P) B(I) = T"), ("IF (P .AND. Q) T = 1", "IF (P) B(I) = T"),
            ("IF (A(I) > 0) T = 1", "IF (.NOT. (A(I) <= 0)) B(I) = T"),
            ("IF (IX(I) > 7) T = 1", "IF (IX(L) > 8) B(I) = T"),
            ("IF (A(I)*X > 0) T = 1", "IF (A(I)*X > 0) B(I) = T"),
        ]:
            with self.subTest(second):
                self.assertEqual(verdict(first, second), "carried T")

    def test_conditions_that_change(self) -> None:
        """The second condition isn't the first one where the loop assigns what it reads in between."""
        self.assertEqual(verdict("P = A(I) > 0", "IF (P) T = 1", "P = .NOT. P", "IF (P) B(I) = T"), "carried T")
        self.assertEqual(verdict("V = IX(I)", "IF (V > 3) T = 1", "V = V + 5", "IF (V > 3) B(I) = T"), "carried T")
        lines = ["V = IX(I)", "IF (V > 3) V = 1", "IF (V > 3) T = 1", "IF (V > 3) B(I) = T"]
        self.assertEqual(verdict(*lines), "parallel")
        self.assertEqual(
            verdict("V = IX(I)", "IF (V > 3) THEN; T = 1; V = 0; ELSE; V = 9; END IF", "IF (V > 3) B(I) = T"),
            "carried T",
        )
        self.assertEqual(verdict("IF (IX(I) > 3) T = 1", "IX(JX(I)) = 1", "IF (IX(I) > 3) B(I) = T"), "carried IX T")

    def test_a_chain(self) -> None:
        lines = ["IF (P) T = 1", "IF (P .AND. Q) W = T", "Z = A(I)", "IF (P) B(I) = T", "IF (P .AND. Q) A(I) = W"]
        self.assertEqual(verdict(*lines), "parallel")

    def test_reductions_and_induction_variables_stay_what_they_are(self) -> None:
        loops = subroutine("DO I = 1, N", "IF (P) T = 1", "IF (P) X = X + 1", "IF (P) B(I) = T", "END DO",
                           declarations=DECLARED)
        self.assertEqual(loops.verdicts()[0].word, "carried")
        lines = ["IF (P) T = 1", "K = K + 1", "IF (P) A(K) = T"]
        found = subroutine("DO I = 1, N", *lines, "END DO", declarations=DECLARED).verdicts()[0]
        self.assertEqual((found.clauses.inductions, [one.name for one in found.carried]), ((("K", "1"),), ["T"]))

    def test_all_references_stay(self) -> None:
        """What the second condition reads is in both branches of the first one."""
        body = subroutine(
            "DO I = 1, N", "IF (IX(I) > 7) V = I", "X = Y", "IF (IX(I) > 8) A(I) = V", "END DO", declarations=DECLARED,
        ).body()
        self.assertEqual(body, [
            "DO I = 1, N", "IF (IX(I).NE.0) THEN", "V = 1", "X = Y", "IF (IX(I).NE.0) THEN", "A(I) = V", "END IF",
            "ELSE",
            "X = Y", "IF (IX(I).NE.0) THEN", "END IF", "END IF", "END DO",
        ])

    def test_inner_loops_are_never_written_twice(self) -> None:
        lines = ["DO I = 1, N", "IF (P) T = 1", "DO J = 1, M", "C(I,J) = X", "END DO", "IF (P) B(I) = T", "END DO"]
        head = ["SUBROUTINE S(B, C, N, M, P, X)", "REAL B(N), C(N,N), X, T; LOGICAL P"]
        loops = Loops("\n".join([*head, *lines, "END"]))
        self.assertEqual(loops.body().count("C(I,J) = X"), 1)


if __name__ == "__main__":
    unittest.main()
