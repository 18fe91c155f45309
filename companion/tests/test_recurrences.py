"""What scalars are that loops carry, and closed forms of induction variables. What is wanted is computed by hand."""

import re
import unittest
from typing import Dict, List, Optional, Tuple

from ..closed_forms import induction
from ..recurrences import Kind, about_scalar, gathered
from .support import fortran, ped, view_of


def loop_of(*lines: str) -> str:
    """A program with a loop, whose END DO is written here."""
    return fortran("INTEGER A(99)", *lines, "END DO", "PRINT *, K, L", "END")


def kind(*lines: str) -> Optional[Kind]:
    """What the first loop of a program gathers in K."""
    program = view_of(loop_of(*lines)).program
    return gathered(program, next(iter(program.loops.values())), "K")


def about(name: str, *lines: str) -> str:
    """What is told of a scalar at the first loop of a program."""
    program = view_of(loop_of(*lines)).program
    return about_scalar(program, next(iter(program.loops.values())), name)


class Kinds(unittest.TestCase):
    def test_maximum(self) -> None:
        for statement in ("K = MAX(K,A(I))", "K = MAX(A(I),7,K)", "K = MAX0(MAX(K,I),A(I))", "IF (A(I).GT.K) K = A(I)",
                          "IF (K.LT.A(I)) K = A(I)", "IF (A(I).GE.K) K = A(I)"):
            self.assertIs(kind("DO I = 1, 9", statement), Kind.MAXIMUM, statement)

    def test_minimum(self) -> None:
        for statement in ("K = MIN(K,A(I))", "IF (A(I).LT.K) K = A(I)", "IF (K.GE.A(I)) K = A(I)"):
            self.assertIs(kind("DO I = 1, 9", statement), Kind.MINIMUM, statement)

    def test_others(self) -> None:
        self.assertIs(kind("DO I = 1, 9", "K = 2*K*A(I)"), Kind.PRODUCT)
        self.assertIs(kind("DO I = 1, 9", "K = A(I)+K+I"), Kind.SUM)
        for statement in ("K = A(I)-K", "K = K*K", "K = MAX(K,A(K))", "IF (A(I).GT.K) K = A(I)+1", "IF (I.EQ.K) K = I",
                          "K = A(I)", "K = K/2", "K = MOD(K,7)"):
            self.assertIsNone(kind("DO I = 1, 9", statement), statement)
        self.assertIsNone(kind("DO I = 1, 9", "K = MAX(K,A(I))", "K = K+1"))
        self.assertIsNone(kind("DO I = 1, 9", "IF (A(I).GT.K) THEN", "ELSE", "K = A(I)", "END IF"))

    def test_words(self) -> None:
        self.assertEqual(
            about("K", "DO I = 1, 9", "K = MAX(K,A(I))"),
            "K is a maximum: store the values that are compared in an array, and take the maximum in a loop of its own",
        )
        self.assertEqual(
            about("K", "DO I = 1, 9", "IF (A(I).GT.3) K = K+1", "A(I) = K"),
            "K is a sum that statement 4 reads on the way: it stays in order; the rest of the loop can be taken apart "
            "from it",
        )
        self.assertEqual(
            about("L", "DO I = 1, 9", "IF (A(I).GT.K) THEN", "K = A(I)", "L = I", "END IF"),
            "the last iteration that assigns L says what is wanted after the loop: find out in a loop of its own which "
            "one that is, and assign L after it",
        )
        self.assertEqual(
            about("K", "DO I = 1, 9", "K = A(I)", "A(I) = K+1"),
            "the value of K is wanted after the loop: assign it there once more, as the last iteration does",
        )
        self.assertEqual(
            about("K", "DO I = 1, 9", "A(I) = K", "K = I*I"),
            "statement 2 may read what an earlier iteration has left in K: where none of them wants that, assign K at "
            "the front of the body; else compute it anew from I",
        )

    def test_induction(self) -> None:
        """The loop of a subprogram that goes through a vector in strides of INCX."""
        self.assertEqual(
            about("K", "READ *, N, IY, INCX", "K = IY", "DO I = 1, N", "A(K) = A(K)+1", "K = K+INCX"),
            "K grows by INCX in each iteration, at statement 5: write IY+(I-1)*INCX for it in statement 4, and take "
            "statement 5 out; after the loop put K = IY+MAX(0,N)*INCX",
        )
        self.assertEqual(
            about("K", "READ *, N", "DO I = N, K", "K = K-2", "A(I) = K"),
            "K falls by 2 in each iteration, at statement 3: write K-(I-N+1)*2 for it in statement 4, and take "
            "statement 3 out; after the loop give K the value that it has there now",
        )


#: Programs with an induction variable K, up to the END DO of the loop: the closed forms of K in the statements that
#: read it, and what K is after the loop. Lines `L = K` are where it is read.
FORMS: List[Tuple[Tuple[str, ...], List[str], Optional[str]]] = [
    # The variable of the loop counts from 1: K is 0, 1, .. before the increment, and 1, 2, .. after it.
    (("K = 0", "DO I = 1, 9", "L = K", "K = K+1", "L = K"), ["I-1", "I"], "9"),
    # From 3 on: I-3 iterations are done before the one with I.
    (("K = 5", "DO I = 3, 9", "L = K", "K = 2+K", "L = K"), ["2*I-1", "2*I+1"], "19"),
    # Downwards: 10-I are done.
    (("K = 0", "DO I = 10, 1, -1", "L = K", "K = K+2", "L = K"), ["20-2*I", "22-2*I"], "20"),
    # Each second value: (I-1)/2 are done.
    (("K = 4", "DO I = 1, 10, 2", "L = K", "K = K-6", "L = K"), ["7-3*I", "1-3*I"], "-26"),
    (("READ *, K", "DO I = 1, 10, 2", "L = K", "K = K+3", "L = K"), ["K+((I-1)/2)*3", "K+((I+1)/2)*3"], "K+15"),
    (("READ *, K", "DO I = 9, 2, -3", "L = K", "K = K-1", "L = K"), ["K-(I-9)/(-3)", "K-(I-12)/(-3)"], "K-3"),
    # The amount is a variable.
    (("READ *, M, N, J", "K = J", "DO I = 1, N", "L = K", "K = K+M", "L = K"), ["J+(I-1)*M", "J+I*M"], "J+MAX(0,N)*M"),
    (("READ *, M, N", "DO I = 0, N", "L = K0", "K = K-(M+1)", "L = K"), ["K-(I+1)*(M+1)"], "K-MAX(0,N+1)*(M+1)"),
    (("READ *, M, N", "K = 3*N", "DO I = N, 1, -1", "L = K", "K = M+K", "L = K"),
     ["3*N+(N-I)*M", "3*N+(N-I+1)*M"], "3*N+MAX(0,N)*M"),
    (("READ *, M, N", "DO I = M, N, 2", "L = K", "K = K+1", "L = K"),
     ["K+(I-M)/2", "K+(I-M+2)/2"], "K+MAX(0,(N-M+2)/2)"),
    # Twice in an iteration.
    (("K = 1", "DO I = 1, 4", "L = K", "K = K+1", "L = K", "K = K+2", "L = K"), ["3*I-2", "3*I-1", "3*I+1"], "13"),
    (("READ *, M", "DO I = 1, 4", "K = K+M", "L = K", "K = K-3", "L = K"),
     ["K+(I-1)*(M-3)+M", "K+I*(M-3)"], "K+4*(M-3)"),
    # K is assigned anew before the loop, from what isn't the same in it.
    (("READ *, M", "K = M", "M = 2", "DO I = 1, 4", "L = K", "K = K+M"), ["K+(I-1)*M"], "K+4*M"),
    (("READ *, M", "K = L", "DO I = 1, 4", "L = K", "K = K+M"), ["K+(I-1)*M"], "K+4*M"),
    (("READ *, M", "IF (M.GT.3) K = 1", "DO I = 1, 4", "L = K", "K = K+2"), ["K+2*I-2"], "K+8"),
]


class ClosedForms(unittest.TestCase):
    def test_forms(self) -> None:
        for lines, forms, last in FORMS:
            with self.subTest(lines):
                program = view_of(loop_of(*lines)).program
                found = induction(program, next(iter(program.loops.values())), "K")
                assert found is not None
                self.assertEqual((list(found.readers), found.last_value), (forms, last))

    def test_runs(self) -> None:
        """K and its closed form are the same whenever it is read, and after the loop; K0 holds what K was before."""
        for lines, forms, last in FORMS:
            given: Dict[str, str] = {"K = L": "K = L0", "READ *, M": "READ *, M, L0", "L = K0": "L = 0"}
            rest = iter(forms)
            body: List[str] = []
            for line in lines:
                if line.startswith("DO "):
                    body.append("K0 = K")
                body.append(f"PRINT *, K-({_at_start(next(rest))})" if line == "L = K" else given.get(line, line))
            program = fortran(*(["K = 0"] if "READ *, K" not in lines else []), *body, "END DO",
                              f"PRINT *, K-({_at_start(last or 'K')})", "END")
            for data in ("4 9 7\n", "-3 -5 11\n", "2 12 0\n"):
                with self.subTest(lines, data=data):
                    rows = ped().session(program, "run\n", data)[0].rows
                    self.assertEqual(rows[-1], "ended", program)
                    self.assertEqual(set(rows[:-1]), {"| 0"})

    def test_none(self) -> None:
        """The amount changes, or an iteration may go without it, or K isn't read but for its sum."""
        for lines in (
            ("DO I = 1, 9", "L = K", "K = K+I"), ("DO I = 1, 9", "L = K", "IF (I.GT.L) K = K+1"),
            ("DO I = 1, 9", "K = K+1"), ("DO I = 1, 9", "L = K", "DO J = 1, 3", "K = K+1", "END DO"),
            ("DO I = 1, 9", "L = K", "M = I", "K = K+M"), ("DO I = 1, 9", "L = K", "READ *, K"),
            ("DO I = 1, 9", "L = K", "K = K+1", "K = 2*K"), ("DO I = 1, 9", "L = K", "K = 3-K"),
        ):
            program = view_of(loop_of(*lines)).program
            self.assertIsNone(induction(program, program.loops[1], "K"), lines)

    def test_inner_loop(self) -> None:
        """In the inner loop it grows; the outer one carries it, too, but not by one amount for each iteration."""
        program = view_of(loop_of("DO I = 1, 9", "DO J = 1, 3", "K = K+1", "A(K) = I", "END DO")).program
        found = induction(program, program.loops[2], "K")
        assert found is not None
        self.assertEqual((list(found.readers), found.last_value), (["K+J"], "K+3"))

    def test_start_in_another_branch(self) -> None:
        """What is assigned in the one part of an IF isn't there in the other."""
        program = view_of(fortran(
            "READ *, M", "IF (M.GT.1) THEN", "K = 7", "ELSE", "DO I = 1, 9", "L = K", "K = K+1", "END DO", "END IF",
            "END",
        )).program
        found = induction(program, program.loops[4], "K")
        assert found is not None
        self.assertEqual(list(found.readers), ["K+I-1"])


def _at_start(form: str) -> str:
    """A closed form with K0 in the place of K, which changes."""
    return re.sub(r"\bK\b", "K0", form)


if __name__ == "__main__":
    unittest.main()
