"""What statements of real Fortran read and write: expected values follow from the standard."""

import unittest
from typing import List

from ..real.intrinsics import ALWAYS_REAL, COMPLEXES, FIRST_TYPE, INTEGERS, LOGICALS, PURE, REALS, SAME_TYPE
from .real_programs import Program, program, subroutine


def found(made: Program, line: int) -> str:
    """The accesses of a statement, in order: `=` before a write, `=?` before one that covers nothing for certain."""
    words = []
    for access in made.effects(line).accesses:
        mark = "" if not access.writes else "=" if access.covers else "=?"
        words.append(f"{mark}{access.designator}")
    return " ".join(words)


def one(statement: str, declarations: str = "") -> str:
    """The accesses of a single statement."""
    return found(subroutine(statement, declarations=declarations), 3)


def reasons(statement: str, declarations: str = "") -> List[str]:
    """The classes of refusals of a single statement."""
    return [trouble.reason for trouble in subroutine(statement, declarations=declarations).effects(3).troubles]


class Assignments(unittest.TestCase):
    def test_order(self) -> None:
        self.assertEqual(one("X = Y + A(I)*Z"), "Y I A(I) Z =X")
        self.assertEqual(one("A(I+J) = A(K)"), "K A(K) I J =?A(I+J)")
        self.assertEqual(one("A(B(I)) = X", "INTEGER A(9), B(9)"), "X I B(I) =?A(B(I))")

    def test_subscripts_are_within(self) -> None:
        made = subroutine("A(B(I)) = X", declarations="INTEGER A(9), B(9)")
        within = [str(access.within) for access in made.effects(3).accesses]
        self.assertEqual(within, ["None", "B(I)", "A(B(I))", "None"])
        self.assertEqual([str(one) for one in made.effects(3).accesses[-1].subscripts or ()], ["B(I)"])

    def test_whole_arrays_and_sections(self) -> None:
        self.assertEqual(one("A = B"), "B =?A")
        self.assertEqual(one("A(I:) = B(:J)"), "J B(:J) I =?A(I:)")
        self.assertIsNone(subroutine("A = B").effects(3).accesses[0].subscripts)

    def test_constants(self) -> None:
        self.assertEqual(one("X = N*Y", "PARAMETER (N = 3)"), "Y =X")
        self.assertEqual(one("X = T(I)", "REAL, PARAMETER :: T(2) = [1.0, 2.0]"), "I =X")

    def test_substrings(self) -> None:
        """The rest of a CHARACTER variable stays what it was."""
        self.assertEqual(one("C(I:J) = 'AB'", "CHARACTER*8 C"), "I J C(I:J) =?C(I:J)")
        self.assertEqual(one("X = LEN_TRIM(C(2:I))", "CHARACTER*8 C"), "I C(2:I) =X")
        self.assertEqual(one("C(I)(1:J) = 'A'", "CHARACTER*8 C(9)"), "I J =?C(I)(1:J)")

    def test_components(self) -> None:
        made = program(
            "SUBROUTINE S", "TYPE P", "REAL X(3), Y", "END TYPE", "TYPE(P) Q(9), R", "Q(I)%X(J) = R%Y", "R = Q(1)",
            "END",
        )
        self.assertEqual(found(made, 6), "R%Y I J =?Q(I)%X(J)")
        self.assertEqual([str(one) for one in made.effects(6).accesses[-1].subscripts or ()], ["I"])
        self.assertEqual(made.effects(6).troubles, ())
        self.assertEqual(found(made, 7), "Q(1) Q(1) =?R =?R")
        self.assertEqual([one.place for one in made.effects(7).accesses], ["Q%X", "Q%Y", "R%X", "R%Y"])

    def test_pointer_components(self) -> None:
        made = program(
            "SUBROUTINE S", "TYPE P", "REAL, POINTER :: X(:)", "END TYPE", "TYPE(P) Q(9)", "Q(I)%X(J) = 1", "END",
        )
        self.assertEqual([one.reason for one in made.effects(6).troubles], ["pointer"])

    def test_type_that_is_not_there(self) -> None:
        made = program("SUBROUTINE S(Q)", "USE ELSEWHERE", "TYPE(P) Q(9)", "Q(I)%X = 1", "END")
        self.assertIn("use", [one.reason for one in made.effects(4).troubles])


class Functions(unittest.TestCase):
    def test_pure_intrinsics(self) -> None:
        self.assertEqual(one("X = MAX(Y, A(I), SQRT(Z))"), "Y I A(I) Z =X")
        self.assertEqual(one("X = SUM(A(1:N), DIM=1)"), "N A(1:N) =X")
        self.assertEqual(reasons("X = MAX(Y, ABS(Z))"), [])

    def test_inquiries(self) -> None:
        """SIZE asks for the form, which assignments to allocatable variables change."""
        self.assertEqual(one("X = SIZE(A)"), "=X")
        self.assertEqual(one("X = SIZE(A(1:N), K)"), "N K =X")
        self.assertEqual(one("X = SIZE(V)", "REAL, ALLOCATABLE :: V(:)"), "V =X")
        self.assertEqual(one("I = LEN(C)", "CHARACTER(:), ALLOCATABLE :: C"), "C =I")

    def test_array_with_the_name_of_an_intrinsic(self) -> None:
        self.assertEqual(one("X = INDEX(I)", "INTEGER INDEX(9)"), "I INDEX(I) =X")
        self.assertEqual(one("SUM = SUM + A(I)"), "SUM I A(I) =SUM")
        self.assertEqual(one("C = INDEX(1:2)", "CHARACTER*8 INDEX, C"), "INDEX(1:2) =C")

    def test_unknown_functions(self) -> None:
        self.assertEqual(reasons("X = F(Y)"), ["function"])
        self.assertEqual(reasons("X = SIN(Y)", "EXTERNAL SIN"), ["function"])
        self.assertEqual(reasons("X = RAND(0)"), ["function"])
        self.assertTrue(subroutine("X = F(Y)").effects(3).calls)

    def test_arguments_may_be_written(self) -> None:
        made = program("SUBROUTINE S", "EXTERNAL F", "X = F(Y, (Z))", "END")
        self.assertEqual(found(made, 3), "Y =?Y Z =X")

    def test_statement_functions(self) -> None:
        made = program("SUBROUTINE S", "REAL A(9)", "F(K) = A(K) + C", "X = F(J+1)", "END")
        self.assertEqual(found(made, 3), "")
        self.assertEqual(found(made, 4), "J J A((J+1)) C =X")
        self.assertEqual(made.effects(4).troubles, ())

    def test_user_operators(self) -> None:
        self.assertEqual(reasons("X = Y .PLUS. Z"), ["function"])

    def test_unknown_names_of_modules(self) -> None:
        made = program("SUBROUTINE S", "USE M", "REAL A(9)", "A(3) = Q", "A(Q) = 1", "Q = 1", "A(3) = Q(1)", "END")
        wanted = {4: [], 5: ["use"], 6: ["use"], 7: ["use"]}
        self.assertEqual({line: [one.reason for one in made.effects(line).troubles] for line in wanted}, wanted)


class OtherStatements(unittest.TestCase):
    def test_conditions(self) -> None:
        self.assertEqual(one("IF (X > A(I)) Y = Z"), "X I A(I) Z =?Y")
        self.assertEqual(found(subroutine("IF (X > Y) THEN", "END IF"), 3), "X Y")
        self.assertEqual(found(subroutine("IF (X) 10, 10, 20", "10 CONTINUE", "20 CONTINUE"), 3), "X")

    def test_headers(self) -> None:
        self.assertEqual(found(subroutine("DO I = J, N, K", "END DO"), 3), "J N K =I")
        self.assertEqual(found(subroutine("DO WHILE (X > Y)", "END DO"), 3), "X Y")

    def test_forall(self) -> None:
        """The variables of a FORALL are its own."""
        made = subroutine("FORALL (I = 1:N, A(I) > X) B(I) = A(I+J)")
        self.assertEqual(found(made, 3), "N A(I) X J A(I+J) =?B(I)")
        self.assertEqual(sorted(made.effects(3).accesses[-1].bound), ["I"])

    def test_concurrent(self) -> None:
        made = subroutine("DO CONCURRENT (I = 1:N)", "A(I) = I + K", "END DO")
        self.assertEqual(found(made, 3), "N")
        self.assertEqual(found(made, 4), "K =?A(I)")

    def test_where(self) -> None:
        self.assertEqual(one("WHERE (A > X) B = A"), "A X A =?B")

    def test_implied_do(self) -> None:
        self.assertEqual(one("A(1:N) = [(X*I, I = 1, N)]"), "N X N =?A(1:N)")

    def test_calls(self) -> None:
        made = subroutine("CALL P(X, A(I), Y+1, *10)", "10 CONTINUE")
        self.assertEqual(found(made, 3), "X =?X I A(I) =?A(I) Y")
        self.assertTrue(made.effects(3).calls)

    def test_refusals(self) -> None:
        wanted = {
            "CALL P": ["call"], "READ *, X": ["io"], "PRINT *, X": ["io"], "STOP": ["exit"], "PAUSE": ["io"],
            "ALLOCATE (V(3))": ["allocate"], "P => T": ["pointer"], "ASSIGN 10 TO K": ["goto"], "10 GO TO K": ["goto"],
            "X = (((": ["parse"], "10 CONTINUE": [], "IF (X > 1) STOP": ["exit"], "X = Y[2]": ["coarray"],
        }
        declared = "REAL, ALLOCATABLE :: V(:)\nREAL, POINTER :: P\nREAL, TARGET :: T"
        for statement, reason in wanted.items():
            made = program("SUBROUTINE S", *declared.split("\n"), statement, "END")
            self.assertEqual([one.reason for one in made.effects(5).troubles], reason, statement)

    def test_blocks_of_forall(self) -> None:
        made = subroutine("FORALL (I = 1:N)", "A(I) = B(I) + K", "FORALL (J = 1:9) C(I,J) = I + J", "END FORALL")
        self.assertEqual(found(made, 4), "B(I) K =?A(I)")
        self.assertEqual(found(made, 5), "=?C(I,J)")

    def test_implied_do_of_input(self) -> None:
        """Its variable is the unit's own, and is assigned."""
        self.assertEqual(one("READ *, (A(I), B(I), I = 1, N)"), "N =I A(I) =?A(I) B(I) =?B(I)")
        self.assertEqual(one("READ *, ((C(I,J), I = 1, 9), J = 1, M)", "REAL C(9,9)"), "M =J =?I C(I,J) =?C(I,J)")

    def test_read_may_leave_its_items_alone(self) -> None:
        self.assertEqual(one("READ (5, *, IOSTAT=K) X"), "K =?K X =?X")

    def test_internal_units(self) -> None:
        """They are variables. A list-directed READ may leave an item alone, and so may an error that ends no run."""
        declared = "CHARACTER C*20, D(9)*8, F*9; REAL A(9)"
        for statement, wanted in {
            "WRITE (C, '(I5)') X, A(I)": "X I A(I) =C", "WRITE (D(J), F) X": "F X J =?D(J)", "WRITE (D, *) X": "X =?D",
            "WRITE (C(1:K), '(A)') X": "X K C(1:K) =?C(1:K)", "WRITE (C, 10, ERR=20) X": "X =?C",
            "WRITE (UNIT=C, FMT=*, IOSTAT=K) X": "X =?C =K", "WRITE (C, '(A)', IOMSG=F) X": "X =C =?F",
            "WRITE (D(J)(2:3), '(I5)') (A(K), K = 1, N)": "N =K A(K) J =?D(J)(2:3)",
            "READ (C, '(I5)') K, A(K)": "C =K K =?A(K)",
            "READ (C, *) K": "C =?K", "READ (C, 10, END=20) K": "C =?K", "READ (C, 10, IOSTAT=L) K": "C =?K =L",
            "READ (D(I), '(9F8.0)') (A(J), J = 1, K)": "I D(I) K =J =?A(J)", "WRITE (C, TRIM(F)//'X') X": "F X =C",
            "READ (C(I:I), '(I1)') K": "I I C(I:I) =K", "IF (X > 0) WRITE (C, 10) X": "X X =?C",
        }.items():
            made = subroutine(statement, "10 FORMAT (I5)", "20 CONTINUE", declarations=declared)
            with self.subTest(statement):
                self.assertEqual(found(made, 3), wanted)
                self.assertEqual(made.effects(3).troubles, ())

    def test_other_units_and_formats(self) -> None:
        declared = "CHARACTER C*20, F*9; NAMELIST /G/ X; INTEGER U; CHARACTER H; NAMELIST /H/ Y"
        for statement in [
            "WRITE (U, *) X", "WRITE (*, '(A)') C", "PRINT F, C", "READ F, C", "READ (C, G)", "WRITE (C, NML=G)",
            "READ (C, FMT='(I5)', ADVANCE='NO') X", "WRITE (C, U) X", "WRITE (C) X", "READ (C, '(A)', REC=3) X",
            "READ ('12', *) X", "WRITE (C//F, *) X", "READ (C, H)", "READ (C, '(A)', SIZE=K) X", "OPEN (U, FILE=C)",
        ]:
            with self.subTest(statement):
                reasons_ = [one.reason for one in subroutine(statement, declarations=declared).effects(3).troubles]
                self.assertIn(reasons_[:1], (["io"], ["parse"]))

    def test_functions_among_items(self) -> None:
        made = subroutine("WRITE (C, *) F(X)", declarations="CHARACTER C*20; EXTERNAL F")
        self.assertEqual([one.reason for one in made.effects(3).troubles], ["function"])


class Lists(unittest.TestCase):
    def test_types_are_of_listed_functions(self) -> None:
        for functions in (INTEGERS, LOGICALS, ALWAYS_REAL, COMPLEXES, REALS, SAME_TYPE, FIRST_TYPE):
            self.assertEqual(functions - PURE, frozenset())
        self.assertEqual(INTEGERS & (LOGICALS | ALWAYS_REAL | COMPLEXES | REALS), frozenset())

    def test_functions_with_effects_are_not_pure(self) -> None:
        for name in ("RAND", "IRAND", "SECOND", "ETIME", "TIME", "CPU_TIME", "RANDOM_NUMBER", "COMMAND_ARGUMENT_COUNT"):
            self.assertNotIn(name, PURE)
