"""Models of loops, construct by construct. What is wanted was written by hand from the rules of docs/REAL.md."""

from __future__ import annotations

import unittest

from ..real.model import Model
from .real_loops import Loops, subroutine


class Statements(unittest.TestCase):
    """Each kind of statement."""

    def test_assignments_have_the_sum_of_their_reads(self) -> None:
        loops = subroutine("DO I = 1, N", "A(I) = X*B(I) - SQRT(B(I+1))/2.0", "X = 1.0", "END DO")
        self.assertEqual(loops.body(), ["DO I = 1, N", "A(I) = X+B(I)+B(I+1)", "X = 1", "END DO"])

    def test_ifs_and_their_branches(self) -> None:
        loops = subroutine(
            "DO I = 1, N", "IF (A(I) > X) THEN", "B(I) = 1", "ELSE IF (N == M) THEN", "B(I) = 2", "ELSE", "B(I) = 3",
            "END IF", "IF (.TRUE.) A(I) = 0", "END DO",
        )
        self.assertEqual(loops.body(), [
            "DO I = 1, N", "IF (A(I)+X.NE.0) THEN", "B(I) = 1", "ELSE", "IF (N+M.NE.0) THEN", "B(I) = 1", "ELSE",
            "B(I) = 1", "END IF", "END IF", "IF (OPQ.NE.0) THEN", "A(I) = 1", "END IF", "END DO",
        ])

    def test_a_select_is_a_chain_of_ifs(self) -> None:
        loops = subroutine(
            "DO I = 1, N", "SELECT CASE (IX(I))", "CASE (1)", "A(I) = 1", "CASE (2:3)", "B(I) = 1", "END SELECT",
            "END DO",
        )
        self.assertEqual(loops.body(), [
            "DO I = 1, N", "IF (IX(I).NE.0) THEN", "A(I) = 1", "ELSE IF (OPQ.NE.0) THEN", "B(I) = 1", "END IF",
            "END DO",
        ])

    def test_while_may_have_any_number_of_iterations(self) -> None:
        loops = subroutine("DO I = 1, N", "DO WHILE (X > 0)", "X = X - A(I)", "END DO", "END DO")
        self.assertEqual(loops.body(), [
            "DO I = 1, N", "IF (X.NE.0) THEN", "END IF", "DO K1X = 1, OPQ", "IF (X.NE.0) THEN", "END IF",
            "IF (OPQ.NE.0) THEN", "X = X+A(I)", "END IF", "END DO", "END DO",
        ])

    def test_sections_have_loops_of_their_own(self) -> None:
        loops = subroutine("DO I = 1, N", "C(I,2:M) = C(3:N:2,I)", "END DO")
        self.assertEqual(loops.body(), [
            "DO I = 1, N", "DO K1X = 0, K2X", "IF (C(3+2*K1X,I).NE.0) THEN", "END IF", "END DO",
            "DO K3X = 0, M-2", "C(I,2+K3X) = 1", "END DO", "END DO",
        ])

    def test_whole_arrays_leave_all_positions_open(self) -> None:
        loops = subroutine("DO I = 1, N", "C = A(I)", "END DO")
        self.assertEqual(loops.body(), ["DO I = 1, N", "C(OPQ*OPQ,OPQ*OPQ) = A(I)", "END DO"])

    def test_where_may_leave_elements_alone(self) -> None:
        loops = subroutine("DO I = 1, N", "WHERE (C(:,I) > 0) A = X", "END DO")
        self.assertEqual(loops.body(), [
            "DO I = 1, N", "DO K1X = 0, K2X", "IF (C(1+K1X,I).NE.0) THEN", "END IF", "END DO", "IF (X.NE.0) THEN",
            "END IF", "IF (OPQ.NE.0) THEN", "A(OPQ*OPQ) = 1", "END IF", "END DO",
        ])

    def test_jumps_make_branches(self) -> None:
        loops = subroutine("DO I = 1, N", "IF (A(I) < 0) CYCLE", "B(I) = 1", "END DO")
        self.assertEqual(loops.body(), [
            "DO I = 1, N", "IF (A(I).NE.0) THEN", "ELSE", "B(I) = 1", "END IF", "END DO",
        ])

    def test_jumps_that_make_no_branches_leave_parts_out(self) -> None:
        loops = subroutine(
            "DO I = 1, N", "IF (A(I) > 0) GO TO 5", "IF (A(I) < -1) GO TO 6", "X = 1", "5 Y = 2", "6 B(I) = X",
            "END DO",
        )
        self.assertEqual(loops.body(), [
            "DO I = 1, N", "IF (A(I).NE.0) THEN", "END IF", "IF (OPQ.NE.0) THEN", "IF (A(I).NE.0) THEN", "END IF",
            "END IF", "IF (OPQ.NE.0) THEN", "X = 1", "END IF", "IF (OPQ.NE.0) THEN", "Y = 1", "END IF", "B(I) = X",
            "END DO",
        ])

    def test_internal_units(self) -> None:
        """A WRITE assigns its unit; a READ its items in their order, each of which may be an index of the next."""
        given = "CHARACTER W*20, D(9)*8"
        lines = ["DO I = 1, N", "WRITE (W, '(F8.3)') A(I) + X", "D(I) = W", "END DO"]
        body = subroutine(*lines, declarations=given).body()
        self.assertEqual(body, ["DO I = 1, N", "IF (A(I)+X.NE.0) THEN", "END IF", "W = 1", "D(I) = W", "END DO"])
        body = subroutine("DO I = 1, N", "READ (D(I), '(2I4)') K, IX(K)", "END DO", declarations=given).body()
        self.assertEqual(body, [
            "DO I = 1, N", "IF (D(I).NE.0) THEN", "END IF", "K = 1", "IF (K.NE.0) THEN", "END IF",
            "IF (OPQ.NE.0) THEN", "IX(K) = 1", "END IF", "END DO",
        ])
        body = subroutine("DO I = 1, N", "READ (D(I), *) K", "A(I) = K", "END DO", declarations=given).body()
        self.assertEqual(body[3:], ["IF (OPQ.NE.0) THEN", "K = 1", "END IF", "A(I) = K", "END DO"])

    def test_internal_units_with_jumps(self) -> None:
        """What a statement assigns is there whether it jumps or not."""
        given = "CHARACTER W*20, D(9)*8"
        lines = ["DO I = 1, N", "READ (D(I), '(I4)', ERR=10) IX(I)", "A(I) = 1", "10 B(I) = 2", "END DO"]
        written = ["IF (D(I).NE.0) THEN", "END IF", "IF (OPQ.NE.0) THEN", "IX(I) = 1", "END IF"]
        chosen = ["IF (OPQ.NE.0) THEN", "ELSE", "A(I) = 1", "END IF", "B(I) = 1", "END DO"]
        self.assertEqual(subroutine(*lines, declarations=given).body(), [lines[0], *written, *chosen])
        lines[1] = "IF (X > 0) " + lines[1]
        self.assertEqual(subroutine(*lines, declarations=given).body(), [
            lines[0], "IF (X.NE.0) THEN", *written, "END IF", *chosen,
        ])
        for label, reason in [("20", "exit"), ("10", None), ("30", "exit")]:
            lines[1] = f"READ (D(I), '(I4)', END={label}) IX(I)"
            loops = subroutine(*lines, "20 X = 1", declarations=given)
            self.assertEqual(loops.reason(), reason)

    def test_a_component_is_an_array_of_its_own(self) -> None:
        loops = subroutine(
            "DO I = 1, N", "P(I)%Q = P(I+1)%R + O%Q", "END DO",
            declarations="TYPE T; REAL Q, R; END TYPE; TYPE(T) P(9), O",
        )
        model = loops.model()
        assert isinstance(model, Model)
        self.assertIn("P%Q(I) = P%R(I+1)+O%Q(1)", model.names.put_back(model.text))

    def test_long_sums_are_cut(self) -> None:
        value = " + ".join(f"B(I+{number})" for number in range(70))
        loops = subroutine("DO I = 1, N", "A(I) = " + value.replace("+ B(I+40)", "&\n+ B(I+40)"), "END DO")
        model = loops.model()
        assert isinstance(model, Model)
        self.assertEqual(model.text.count("B(I"), 70)
        self.assertEqual(sum(verdict.word == "parallel" for verdict in loops.verdicts()), 1)


class Subscripts(unittest.TestCase):
    """Subscripts and bounds."""

    def _body(self, statement: str, declarations: str = "") -> str:
        return subroutine("DO I = 1, N", statement, "END DO", declarations=declarations).body()[1]

    def test_sums_stay(self) -> None:
        self.assertEqual(self._body("A(2*I-1+M) = X"), "A(2*I-1+M) = X")
        self.assertEqual(self._body("A(-I) = X"), "A((-I)) = X")

    def test_constants_have_their_values(self) -> None:
        self.assertEqual(self._body("A(I+P) = X", "INTEGER, PARAMETER :: P = 2*3"), "A(I+6) = X")
        self.assertEqual(self._body("A(I+P) = X", "INTEGER, PARAMETER :: P = -3"), "A(I+(-3)) = X")

    def test_what_the_loop_does_not_change_is_one_scalar_for_each_text(self) -> None:
        self.assertEqual(self._body("A(I+N*M) = B(N*M) + B(IX(5))"), "A(I+K1X) = B(K1X)+B(K2X)")

    def test_other_products_are_open(self) -> None:
        self.assertEqual(self._body("A(I*M) = B(I/2)"), "A(OPQ*OPQ) = B(OPQ*OPQ)")

    def test_a_division_without_a_remainder(self) -> None:
        for subscript, wanted in [
            ("2*I/2", "1*I"), ("(4*I-6+M*2)/2", "(2*I-3+(M*1))"), ("6*(I+1)/(-3)", "(-2)*((I+1))"), ("I*4/2", "I*2"),
            ("IX(I)*2/2", "IX(I)*1"), ("(2*I+1)/2", "OPQ*OPQ"), ("3*I/2", "OPQ*OPQ"), ("2*X*I/2", "OPQ*OPQ"),
            ("I/1", "OPQ*OPQ"), ("2*I/0", "OPQ*OPQ"), ("(2*I)**2/4", "OPQ*OPQ"), ("2/2*I", "1*I"),
            ("2*(I/2)", "OPQ*OPQ"),
        ]:
            with self.subTest(subscript):
                body = self._body(f"A({subscript}) = Y")
                self.assertEqual(body.replace(" ", "")[:-2], f"A({wanted})", body)

    def test_elements_stay(self) -> None:
        self.assertEqual(self._body("A(IX(I)) = B(MIN(I, M))"), "A(IX(I)) = B(MIN(I,M))")

    def test_what_the_loop_writes_is_read_in_subscripts(self) -> None:
        loops = subroutine("DO I = 1, N", "K = IX(I)", "A(K) = X", "IX(I) = A(IX(I+1))", "END DO")
        self.assertEqual(loops.body(), [
            "DO I = 1, N", "K = IX(I)", "A(K) = X+K", "IX(I) = IX(I+1)+A(IX(I+1))", "END DO",
        ])

    def test_no_sum_of_a_real(self) -> None:
        self.assertEqual(self._body("A(INT(I+0.7)) = 1.0"), "A(OPQ*OPQ) = 1")

    def test_a_vector_of_subscripts_is_open(self) -> None:
        self.assertEqual(self._body("A(IX) = X"), "A(OPQ*OPQ) = X")

    def test_the_lower_bound_of_an_allocatable_array_is_open(self) -> None:
        body = subroutine(
            "DO I = 1, N", "D(:,I) = X", "END DO", declarations="REAL, ALLOCATABLE :: D(:,:)"
        ).body()
        self.assertEqual(body[1], "D(OPQ*OPQ,I) = X")

    def test_the_lower_bound_of_an_assumed_shape_is_1_or_what_is_written(self) -> None:
        for shape, target in [
            (":,:", "1+K1X"), ("0:,:", "0+K1X"), ("3:,:", "3+K1X"), ("K:,:", "OPQ*OPQ"), ("-1:,:", "OPQ*OPQ"),
        ]:
            for attribute in ("", ", TARGET", ", POINTER", ", ALLOCATABLE"):
                if shape != ":,:" and attribute in (", POINTER", ", ALLOCATABLE"):
                    continue
                with self.subTest(shape + attribute):
                    lines = ["SUBROUTINE S(D, K, X)", f"REAL{attribute} :: D({shape})", "REAL X; INTEGER I, K",
                             "DO I = 1, 9", "D(:,I) = X", "END DO", "END"]
                    deferred = attribute in (", POINTER", ", ALLOCATABLE")
                    wanted = f"D({'OPQ*OPQ' if deferred else target},I) = X"
                    self.assertIn(wanted, Loops("\n".join(lines)).body())

    def test_integers_of_eight_bytes_are_refused(self) -> None:
        lines = ["DO I = 1, N", "A(I+W) = X", "END DO"]
        self.assertEqual(subroutine(*lines, declarations="INTEGER(8) W").reason(), "kind")
        self.assertIsNone(subroutine(*lines, declarations="INTEGER(8) W", assume=["A7"]).reason())
        self.assertEqual(subroutine("DO I = 1, 10_8", "A(I) = X", "END DO").reason(), "kind")

    def test_bounds_that_are_left(self) -> None:
        given = "REAL D(4,N), E(1,N)"
        for statement, reason in [
            ("D(5,I) = X", "bounds"), ("D(4,I) = X", None), ("E(I,1) = X", "bounds"), ("E(1,I) = X", None),
            ("D(M,I) = X", None),
        ]:
            with self.subTest(statement):
                self.assertEqual(subroutine("DO I = 1, N", statement, "END DO", declarations=given).reason(), reason)
        loops = subroutine("DO I = 1, 5", "D(I,1) = X", "END DO", declarations=given)
        self.assertEqual(loops.reason(), "bounds")


class Headers(unittest.TestCase):
    """The headers of DOs."""

    def test_steps(self) -> None:
        self.assertEqual(subroutine("DO I = N, 1, -2", "A(I) = X", "END DO").body()[0], "DO I = N, 1, -2")
        self.assertEqual(subroutine("DO I = 1, N, M", "A(I) = X", "END DO").body()[0], "DO I = K1X, K2X")

    def test_a_first_value_that_is_not_constant_is_counted_from_0(self) -> None:
        body = subroutine("DO J = 1, N", "DO I = J+1, N", "C(I,J) = X", "END DO", "END DO").body()
        self.assertEqual(body[1:3], ["DO K1X = 0, N-(J+1)", "C((J+1+K1X),J) = X"])

    def test_induction_variables_are_sums_of_their_steps(self) -> None:
        body = subroutine("DO I = 1, N", "A(K) = X", "K = K - 2", "A(K) = X", "END DO").body()
        self.assertEqual(body, [
            "DO K1X = 0, N-1", "A((K3X-2*K1X)) = X", "A((K3X-2*(K1X+1))) = X", "END DO",
        ])
        body = subroutine("DO I = 2, N", "K = 3 + K", "A(K+I) = X", "END DO").body()
        self.assertEqual(body, ["DO K1X = 0, N-2", "A((K3X+3*(K1X+1))+((2+K1X))) = X", "END DO"])

    def test_an_unknown_step_counts_where_its_variable_is_alone(self) -> None:
        body = subroutine("DO I = 1, N", "A(K) = B(K) + B(K+1)", "K = K + M", "END DO", assume=["A8"]).body()
        self.assertEqual(body, [
            "DO K1X = 0, N-1", "A(K1X) = B(OPQ*OPQ)+B(OPQ*OPQ)", "IF (M.NE.0) THEN", "END IF", "END DO",
        ])

    def test_the_second_model_counts_down(self) -> None:
        model = subroutine("DO J = 1, N", "DO I = 1, J-1", "C(I,J) = C(J,I)", "END DO", "END DO").model()
        assert isinstance(model, Model) and model.second is not None
        self.assertIn("DO K1X = 0, J-1-1", model.second.text)
        self.assertIn("C((J-1-K1X),J) = C(J,(J-1-K1X))", model.second.text)

    def test_a_variable_that_is_read_after_its_loop_is_assigned(self) -> None:
        body = subroutine("DO I = 1, N", "DO J = 1, M", "A(J) = X", "END DO", "B(I-J) = X", "END DO").body()
        self.assertEqual(body, [
            "DO I = 1, N", "J = OPQ", "DO K1X = 0, M-1", "A((1+K1X)) = X", "END DO", "B(I-J) = X+J", "END DO",
        ])

    def test_concurrent(self) -> None:
        """It counts as a DO does, and its mask is a condition; its variable is none of the unit's."""
        self.assertEqual(subroutine("DO CONCURRENT (I = 1:N)", "A(I) = B(I+1)", "END DO").body(), [
            "DO I = 1, N", "A(I) = B(I+1)", "END DO",
        ])
        self.assertEqual(subroutine("DO CONCURRENT (I = K:N:2, A(I) > X)", "B(I*M) = I", "END DO").body(), [
            "DO I = K, N, 2", "IF (A(I)+X.NE.0) THEN", "B(OPQ*OPQ) = 1", "END IF", "END DO",
        ])
        inner = ["DO CONCURRENT (I = 1:N)", "DO J = I, M", "C(I,J) = X", "END DO", "END DO"]
        self.assertEqual(subroutine(*inner).body()[1:3], ["DO K1X = 0, M-I", "C(I,(I+K1X)) = X"])

    def test_no_model_of_other_loops(self) -> None:
        for lines, reason in [
            (["DO WHILE (X > 0)", "X = X - 1", "END DO"], "while"),
            (["DO CONCURRENT (I=1:N, J=1:M)", "A(I) = X", "END DO"], "concurrent"),
            (["DO CONCURRENT (INTEGER(8) :: I=1:N)", "A(I) = X", "END DO"], "concurrent"),
            (["DO X = 1.0, 2.0", "A(1) = X", "END DO"], "index"),
            (["DO I = 1, N", "I = I + 1", "END DO"], "index"),
            (["DO I = 1, N", "DO I = 1, M", "A(I) = X", "END DO", "END DO"], "index"),
            (["DO I = 1, N, 0", "A(I) = X", "END DO"], "index"),
        ]:
            with self.subTest(lines[0]):
                self.assertEqual(subroutine(*lines).reason(), reason)


class Refusals(unittest.TestCase):
    """What has no model."""

    def test_each_reason(self) -> None:
        for statement, reason in [
            ("CALL P(A(I))", "call"), ("A(I) = F(I)", "function"), ("PRINT *, A(I)", "io"), ("IF (X > 0) EXIT", "exit"),
            ("STOP", "exit"), ("A(I) = A(I", "parse"), ("ALLOCATE (D(3))", "allocate"),
            ("ASSOCIATE (Q => A(I)); Q = 1; END ASSOCIATE", "associate"),
        ]:
            with self.subTest(statement):
                given = "EXTERNAL F, P; REAL, ALLOCATABLE :: D(:)"
                self.assertEqual(subroutine("DO I = 1, N", statement, "END DO", declarations=given).reason(), reason)

    def test_shared_storage(self) -> None:
        lines = ["DO I = 1, 9", "D(I) = E(I)", "END DO"]
        for given, reason in [
            ("REAL D(9), E(9); EQUIVALENCE (D(1), E(1))", "equivalence"), ("REAL D(9), E(9)", None),
            ("REAL, POINTER :: D(:), E(:)", "pointer"), ("REAL, TARGET :: D(9), E(9)", "pointer"),
            ("REAL, POINTER :: D(:); REAL E(9)", None), ("REAL, VOLATILE :: D(9); REAL E(9)", "volatile"),
            ("REAL D(9), E(9); POINTER (P, D)", "pointer"),
        ]:
            with self.subTest(given):
                self.assertEqual(subroutine(*lines, declarations=given).reason(), reason)

    def test_one_member_of_an_equivalence_is_never_private(self) -> None:
        given = "REAL T, U; EQUIVALENCE (T, U)"
        loops = subroutine("DO I = 1, N", "T = A(I)", "B(I) = T", "END DO", declarations=given)
        self.assertEqual([verdict.word for verdict in loops.verdicts()], ["carried"])

    def test_very_deep_nests(self) -> None:
        """Of the seven outermost of 13 DOs nothing is said; of a unit with 3000 of them neither, and in short time."""
        for count, wanted in ((13, 7), (400, 401), (3000, 3001)):
            lines = [*(f"DO I{index} = 1, 2" for index in range(count)), "A(I0) = 1", *["END DO"] * count]
            loops = subroutine(*lines, "DO I = 1, N", "B(I) = 1", "END DO")
            reasons = [loops.reason(index) for index in range(count + 1)]
            self.assertEqual(reasons.count("limit"), wanted)

    def test_very_deep_ifs(self) -> None:
        """Of a unit with many IFs in one another nothing is said, and in short time."""
        for count, wanted in ((40, None), (2000, "limit")):
            lines = ["DO I = 1, N", *["IF (A(I) > 1) THEN"] * count, "B(I) = 1", *["END IF"] * count, "END DO"]
            self.assertEqual(subroutine(*lines).reason(), wanted)

    def test_directives(self) -> None:
        loop = ["DO I = 1, N", "A(I) = X", "END DO"]
        self.assertEqual(subroutine("!$OMP PARALLEL DO", *loop).reason(), "directive")
        self.assertEqual(subroutine("!$OMP PARALLEL", *loop, "!$OMP END PARALLEL").reason(), "directive")
        self.assertEqual(subroutine(loop[0], "!$ X = 1", *loop[1:]).reason(), "directive")
        self.assertIsNone(subroutine("!$OMP PARALLEL DO", *loop, *loop).reason(1))

    def test_lines_for_a_compiler_with_openmp_outside_the_loop(self) -> None:
        loop = ["DO I = 1, N", "T = A(I)", "B(I) = T", "END DO"]
        for line, reason in [("!$ X = T", "directive"), ("!$ X = U", None), ("!$OMP THREADPRIVATE(T)", "directive")]:
            with self.subTest(line):
                self.assertEqual(subroutine(*loop, line, declarations="REAL T, U").reason(), reason)

    def test_lines_for_a_compiler_with_openmp_that_declare_or_jump(self) -> None:
        loop = ["DO I = 1, N", "T = A(I)", "B(I) = T", "END DO"]
        for lines, reason in {
            ("USE OMP_LIB",): None, ("USE OMP_LIB, ONLY: OMP_GET_WTIME",): None, ("USE OTHER",): "directive",
            ("INTEGER NT, ME",): None, ("INTEGER :: NT",): None, ("INTEGER N2, M",): "directive",
            ("INTEGER, PARAMETER :: Q = 3",): "directive", ("IMPLICIT NONE",): "directive", ("SAVE",): "directive",
            ("EQUIVALENCE (Q, R)",): "directive", ("INTEGER NT(9)",): "directive", ("REAL Q; SAVE",): "directive",
        }.items():
            with self.subTest(lines):
                marked = "\n".join(f"!$ {line}" for line in lines)
                self.assertEqual(subroutine(*loop, declarations=f"REAL T\n{marked}").reason(), reason)
        for line, reason in {
            "NT = OMP_GET_MAX_THREADS()": None, "CALL OMP_SET_NUM_THREADS(4)": None, "NT = F(1)": "directive",
            "PRINT *, 'A (B) ! C', NT ! D": None, "DO Q = 1, 2": "directive", "END DO": "directive",
            "IF (NT > 2) THEN": "directive", "IF (NT > 2) RETURN": "directive", "RETURN": "directive",
            "10 CONTINUE": "directive", "CALL OTHER": "directive", "& + 1": "directive", "NT = &": "directive", "": None,
        }.items():
            with self.subTest(line):
                self.assertEqual(subroutine(*loop, f"!$ {line}", declarations="REAL T").reason(), reason)
        text = (
            "      SUBROUTINE S(A)\n      REAL A(9)\n!$    NT = 1\n!$   1 + F(2)\n      DO I = 1, 9\n      A(I) = 1\n"
            "      END DO\n      END\n"
        )
        self.assertEqual(Loops(text, "s.f").reason(), "directive")
        self.assertIsNone(Loops(text.replace("!$   1 + F(2)\n", ""), "s.f").reason())

    def test_lines_for_a_compiler_with_openmp_in_hosts_and_modules(self) -> None:
        """They may declare the loop's names, but not those in other procedures."""
        inner = ["SUBROUTINE S(A, N)", "REAL A(N)", "DO I = 1, N", "A(I) = 1", "END DO", "END SUBROUTINE"]
        for line, reason in [
            ("!$ INTEGER :: NT", None), ("!$ IMPLICIT REAL (I)", "directive"), ("!$ INTEGER :: I", "directive"),
            ("!$ INTEGER, PARAMETER :: Q = 3", "directive"), ("!$ USE OMP_LIB", None),
        ]:
            with self.subTest(line):
                text = "\n".join(["MODULE M", line, "CONTAINS", *inner, "END MODULE"])
                self.assertEqual(Loops(text).reason(), reason)
                text = "\n".join(["MODULE M", line, "END MODULE", inner[0], "USE M", *inner[1:]])
                self.assertEqual(Loops(text).reason(), reason)
        other = ["SUBROUTINE T", "!$ IMPLICIT REAL (I)", "END SUBROUTINE"]
        self.assertIsNone(Loops("\n".join(["MODULE M", "CONTAINS", *inner, *other, "END MODULE"])).reason())

    def test_names_of_modules_that_are_not_there(self) -> None:
        head = ["SUBROUTINE S(A, N)", "USE ELSEWHERE", "REAL A(N); INTEGER I", "DO I = 1, N"]
        for statement, reason in [
            ("A(I) = Q", None), ("A(I) = A(I+Q)", "use"), ("A(I) = Q(I)", "use"), ("Q = A(I)", "use"),
        ]:
            with self.subTest(statement):
                lines = [*head, statement, "END DO", "END"]
                self.assertEqual(Loops("\n".join(lines) + "\n").reason(), reason)

    def test_what_is_missing_refuses_the_unit(self) -> None:
        lines = ["SUBROUTINE S(A, N)", "INCLUDE 'nowhere.inc'", "REAL A(N)", "DO I = 1, N", "A(I) = 1", "END DO", "END"]
        self.assertEqual(Loops("\n".join(lines) + "\n").reason(), "include")


if __name__ == "__main__":
    unittest.main()
