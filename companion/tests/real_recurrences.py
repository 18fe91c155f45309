"""Reductions and induction variables: expected values follow from arithmetic and from OpenMP's clauses."""

import random
import unittest
from typing import Callable, Dict, List, Optional, Sequence, Tuple

from ..real.recurrences import Induction, Reduction, inductions, is_invariant, reductions, type_of
from ..real.shape import bare_statements
from ..real import tree
from .real_programs import Program, program, subroutine

DECLARATIONS = "REAL A(9), B(9), S, E; INTEGER K, L, M(9); LOGICAL P, Q(9); COMPLEX Z, W(9); DOUBLE PRECISION D"


def loop(*lines: str, declarations: str = DECLARATIONS) -> Program:
    """A DO of I on line 3 with lines of its body from line 4 on."""
    return subroutine("DO I = 1, N", *lines, "END DO", declarations=declarations)


def reduced(*lines: str, declarations: str = DECLARATIONS) -> List[Tuple[str, str]]:
    """The names and the operators of the reductions."""
    return [(one.name, one.operator) for one in reductions(loop(*lines, declarations=declarations).loop())]


def grown(*lines: str, declarations: str = DECLARATIONS) -> List[Tuple[str, str]]:
    """The names of the induction variables, and their steps."""
    made = loop(*lines, declarations=declarations)
    found = inductions(made.loop(), bare_statements(made.shape()))
    return [(one.name, f"{'-' if one.falls else '+'}{one.step}") for one in found]


class Reductions(unittest.TestCase):
    def test_sums(self) -> None:
        for statement in ("S = S + A(I)", "S = A(I) + S", "S = S - A(I)", "S = A(I) + S - B(I)",
                          "S = S + A(I)*B(I) - 1", "S = (S + A(I)) + B(I)",
                          "S = S - (A(I) - B(I))", "IF (A(I) > 0) S = S + A(I)", "S = S + K"):
            self.assertEqual(reduced(statement), [("S", "+")], statement)
        self.assertEqual(reduced("K = K + 1"), [("K", "+")])
        self.assertEqual(reduced("Z = Z + CONJG(W(I))"), [("Z", "+")])

    def test_no_sums(self) -> None:
        for statement in ("S = A(I) - S", "S = A(I) - (S + 1)", "S = S + S", "S = S + A(INT(S))", "S = -S + A(I)",
                          "S = S*A(I) + 1", "S = S/A(I)", "S = A(I)", "S = S", "S = S + F(I)", "S = S**2",
                          "IF (S > 0) S = S + A(I)", "A(I) = A(I) + S"):
            self.assertEqual(reduced(statement), [], statement)

    def test_conversions(self) -> None:
        """`K = K + 0.5` cuts the sum off in each iteration, so that its terms can't be added up elsewhere."""
        self.assertEqual(reduced("K = K + A(I)"), [])
        self.assertEqual(reduced("K = K + INT(A(I))"), [("K", "+")])
        self.assertEqual(reduced("K = K + L*M(I)"), [("K", "+")])
        self.assertEqual(reduced("K = K*2.0"), [])
        self.assertEqual(reduced("K = MAX(K, INT(A(I)))"), [("K", "MAX")])
        self.assertEqual(reduced("IF (A(I) > K) K = A(I)"), [])
        self.assertEqual(reduced("D = D + A(I)"), [("D", "+")])
        self.assertEqual(reduced("S = S + W(I)"), [])
        self.assertEqual(reduced("K = K + X(I)", declarations="EXTERNAL X"), [])

    def test_products(self) -> None:
        for statement in ("S = S*A(I)", "S = A(I)*S*B(I)", "S = 2*(A(I)*S)"):
            self.assertEqual(reduced(statement), [("S", "*")], statement)
        self.assertEqual(reduced("S = A(I)/S"), [])

    def test_extrema(self) -> None:
        for statement in ("S = MAX(S, A(I))", "S = AMAX1(A(I), S, B(I))", "S = MAX(A(I), MAX(S, B(I)))",
                          "IF (A(I) > S) S = A(I)", "IF (A(I) .GE. S) S = A(I)", "IF (S < A(I)) S = A(I)",
                          "IF ((S .LE. ABS(A(I)))) S = ABS(A(I))"):
            self.assertEqual(reduced(statement), [("S", "MAX")], statement)
        for statement in ("S = MIN(S, A(I))", "IF (A(I) < S) S = A(I)", "IF (S >= A(I)) S = A(I)",
                          "IF (S > A(I)) S = A(I)", "IF (A(I) <= S) S = A(I)"):
            self.assertEqual(reduced(statement), [("S", "MIN")], statement)
        self.assertEqual(reduced("IF (A(I) > S) THEN", "S = A(I)", "END IF"), [("S", "MAX")])

    def test_no_extrema(self) -> None:
        for lines in (("IF (A(I) > S) S = B(I)",), ("IF (A(I) > S) S = A(I) + 1",), ("IF (A(I) == S) S = A(I)",),
                      ("IF (A(I) > S) THEN", "S = A(I)", "K = I", "END IF"), ("S = MAX(S, A(I), S)",),
                      ("IF (A(I) > S) THEN", "S = A(I)", "ELSE", "B(I) = 1", "END IF"), ("S = MOD(S, A(I))",),
                      ("IF (A(I) > S + 1) S = A(I)",)):
            self.assertNotIn("S", [name for name, _ in reduced(*lines)], lines)

    def test_logical_and_bitwise(self) -> None:
        wanted = {
            "P = P .AND. Q(I)": ".AND.", "P = Q(I) .OR. P": ".OR.", "P = P .EQV. Q(I)": ".EQV.",
            "P = P .NEQV. Q(I)": ".NEQV.", "P = P .AND. A(I) > 1": ".AND.",
        }
        for statement, operator in wanted.items():
            self.assertEqual(reduced(statement), [("P", operator)], statement)
        for function in ("IAND", "IOR", "IEOR"):
            self.assertEqual(reduced(f"K = {function}(K, M(I))"), [("K", function)])
        self.assertEqual(reduced("P = P .AND. Q(I) .OR. Q(1)"), [])

    def test_all_statements_count(self) -> None:
        self.assertEqual(reduced("S = S + A(I)", "S = S - 1"), [("S", "+")])
        self.assertEqual(reduced("S = S + A(I)", "S = S * 2"), [])
        self.assertEqual(reduced("S = S + A(I)", "B(I) = S"), [])
        self.assertEqual(reduced("S = S + A(I)", "S = 0"), [])
        self.assertEqual(reduced("K = K + 1", "A(K) = 1"), [])
        self.assertEqual(reduced("K = K + 1", "DO J = 1, K", "END DO"), [])
        self.assertEqual(reduced("DO J = 1, N", "S = S + A(J)", "END DO"), [("S", "+")])
        self.assertEqual(reduced("S = S + A(I)", "CALL X(S)"), [])
        self.assertEqual(reduced("S = S + A(I)", "READ *, S"), [])
        self.assertEqual(reduced("S = S + A(I)", "X = (((S"), [])

    def test_variables_that_are_reached_otherwise(self) -> None:
        self.assertEqual(reduced("S = S + 1", declarations="EQUIVALENCE (S, T)"), [])
        self.assertEqual(reduced("S = S + 1", declarations="REAL, TARGET :: S"), [])
        self.assertEqual(reduced("S = S + 1", declarations="REAL, VOLATILE :: S"), [])
        self.assertEqual(reduced("S = S + 1", declarations="REAL, ALLOCATABLE :: S"), [])
        self.assertEqual(reduced("S = S + 1", declarations="COMMON S"), [("S", "+")])
        self.assertEqual(reduced("S = S + 1", "CALL F", declarations="COMMON S"), [])
        self.assertEqual(reduced("S(1) = S(1) + 1", declarations="REAL S(9)"), [])
        self.assertEqual(reduced("S = S + 1", declarations="REAL S(9)"), [])

    def test_array_with_the_name_of_an_intrinsic(self) -> None:
        self.assertEqual(reduced("S = MAX(S, A(I))", declarations="REAL MAX(9, 9), A(9)"), [])
        self.assertEqual(reduced("S = MAX(S, A(I))", declarations="EXTERNAL MAX; REAL A(9)"), [])

    def test_exact(self) -> None:
        made = loop("K = K + 1", "S = S + 1", "P = P .OR. Q(I)")
        found = {one.name: one.is_exact for one in reductions(made.loop())}
        self.assertEqual(found, {"K": True, "P": True, "S": False})

    def test_places(self) -> None:
        made = loop("IF (A(I) > S) THEN", "S = A(I)", "END IF")
        numbers = frozenset(made.written(line).number for line in (4, 5))
        self.assertEqual(reductions(made.loop()), (Reduction("S", "MAX", "REAL", numbers),))


class RandomGatherings(unittest.TestCase):
    """Whatever is taken for a reduction gives the same value by parts as by one iteration after the other."""

    #: For each operator the value that a thread begins with, and how two of them are put together.
    OPERATORS: Dict[str, Tuple[int, Callable[[int, int], int]]] = {
        "+": (0, lambda left, right: left + right),
        "*": (1, lambda left, right: left * right),
        "MAX": (-10**9, max),
        "MIN": (10**9, min),
    }

    def test_values_by_parts(self) -> None:
        numbers = random.Random(1971)
        counts = dict.fromkeys(self.OPERATORS, 0)
        lines = [line for _ in range(400) for line in ("DO I = 1, N", _random_statement(numbers), "END DO")]
        made = subroutine(*lines, declarations="INTEGER A(9), B(9)")
        for index, block in enumerate(made.loops):
            for found in reductions(made.loop(index)):
                counts[found.operator] += 1
                statement = made.facts.loop(block).statements[max(found.numbers)].statement
                self.check(statement, found.operator, numbers)
        self.assertTrue(all(count > 2 for count in counts.values()), counts)

    def check(self, statement: tree.Statement, operator: str, numbers: random.Random) -> None:
        begin, joined = self.OPERATORS[operator]
        values = [{"A": numbers.randint(-9, 9), "B": numbers.randint(-9, 9)} for _ in range(8)]
        first = numbers.randint(-9, 9)
        wanted = _run(statement, first, values)
        cut = numbers.randint(0, 8)
        parts = [_run(statement, begin, values[:cut]), _run(statement, begin, values[cut:])]
        self.assertEqual(joined(first, joined(*parts)), wanted, (statement, operator))


def _random_statement(numbers: random.Random) -> str:
    """An assignment to K, often after an IF."""
    condition = ""
    if numbers.random() < 0.4:
        relation = numbers.choice(("<", ">", "<=", ">="))
        condition = f"IF ({_random_value(numbers, 1)} {relation} {numbers.choice(('K', _random_value(numbers, 1)))}) "
    return f"{condition}K = {_random_value(numbers, 0 if condition and numbers.random() < 0.5 else 3)}"


def _random_value(numbers: random.Random, depth: int) -> str:
    """An expression of K, A(I), B(I) and literals."""
    if depth == 0 or numbers.random() < 0.2:
        return numbers.choice(("K", "K", "A(I)", "B(I)", "2"))
    kind = numbers.choice(("+", "-", "*", "MAX", "MIN", "()"))
    left, right = _random_value(numbers, depth - 1), _random_value(numbers, depth - 1)
    if kind == "()":
        return f"({left})"
    return f"{kind}({left}, {right})" if kind in ("MAX", "MIN") else f"{left} {kind} {right}"


def _run(statement: tree.Statement, first: int, values: Sequence[Dict[str, int]]) -> int:
    """The last value of K."""
    value = first
    for arrays in values:
        action = statement
        if isinstance(action, tree.LogicalIf):
            if not _value(action.condition, value, arrays):
                continue
            action = action.action
        assert isinstance(action, tree.Assignment)
        value = _value(action.value, value, arrays)
    return value


def _value(expression: tree.Expression, k: int, arrays: Dict[str, int]) -> int:
    if isinstance(expression, tree.Name):
        return k
    if isinstance(expression, tree.Literal):
        return int(expression.text)
    if isinstance(expression, tree.Parentheses):
        return _value(expression.inner, k, arrays)
    if isinstance(expression, tree.Reference) and str(expression.base) in arrays:
        return arrays[str(expression.base)]
    operands = [_value(part, k, arrays) for part in expression.parts()]
    if isinstance(expression, tree.Reference):
        return max(operands) if str(expression.base) == "MAX" else min(operands)
    assert isinstance(expression, tree.Operation)
    return int(_COMPUTE[expression.operator](*operands))


_COMPUTE: Dict[str, Callable[[int, int], int]] = {
    "+": lambda left, right: left + right, "-": lambda left, right: left - right,
    "*": lambda left, right: left * right, ".LT.": lambda left, right: left < right,
    ".GT.": lambda left, right: left > right, ".LE.": lambda left, right: left <= right,
    ".GE.": lambda left, right: left >= right,
}


class Inductions(unittest.TestCase):
    def test_forms(self) -> None:
        wanted = {
            "K = K + 2": "+2", "K = 2 + K": "+2", "K = K - 2": "-2", "K = K + L": "+L", "K = (K + M(3))": "+M(3)",
            "K = K + L*2": "+L*2", "K = K + MAX(L, 1)": "+MAX(L,1)",
        }
        for statement, step in wanted.items():
            self.assertEqual(grown(statement, "A(K) = 1"), [("K", step)], statement)

    def test_no_inductions(self) -> None:
        for lines in (
            ("K = 2 - K",), ("K = 2*K",), ("K = K + I",), ("K = K + K",), ("K = K + 0.5",), ("K = K + A(3)",),
            ("IF (A(I) > 1) K = K + 1",), ("K = K + 1", "K = K + 1"), ("K = K + 1", "IF (A(I) > 1) K = 0"),
            ("DO J = 1, N", "K = K + 1", "END DO"), ("IF (A(I) > 1) CYCLE", "K = K + 1"),
            ("L = I", "K = K + L"), ("M(I) = 1", "K = K + M(3)"), ("K = K + F(1)",), ("K = K + 1", "CALL X(K)"),
            ("DO K = 1, N", "END DO", "K = K + 1"), ("IF (A(I) > 1) THEN", "K = K + 1", "END IF"),
            ("IF (A(I) > 1) GO TO 10", "K = K + 1", "10 CONTINUE"),
        ):
            self.assertEqual([name for name, _ in grown(*lines) if name == "K"], [], lines)

    def test_reals(self) -> None:
        self.assertEqual(grown("S = S + 1"), [])

    def test_jump_after_the_assignment(self) -> None:
        self.assertEqual(grown("K = K + 1", "IF (A(I) > 1) CYCLE", "A(K) = 1"), [("K", "+1")])

    def test_before_and_after(self) -> None:
        """K0+step*T before the assignment, K0+step*(T+1) after it."""
        made = loop("A(K) = 1", "K = K + L", "B(K) = 1")
        found, = inductions(made.loop(), bare_statements(made.shape()))
        self.assertEqual(found, Induction("K", tree.Name("L"), False, made.written(5).number))
        self.assertEqual([found.has_grown(made.written(line).number) for line in (4, 6)], [False, True])
        self.assertFalse(found.is_constant)

    def test_constant_steps(self) -> None:
        for statement, is_constant in (("K = K + 2", True), ("K = K + L", False), ("K = K + 0", False)):
            made = loop(statement, "A(K) = 1")
            self.assertEqual([one.is_constant for one in inductions(made.loop(), bare_statements(made.shape()))],
                             [is_constant])

    def test_shared_storage(self) -> None:
        self.assertEqual(grown("K = K + 1", declarations="EQUIVALENCE (K, L)"), [])
        self.assertEqual(grown("K = K + L", declarations="EQUIVALENCE (J, L)"), [])


class Types(unittest.TestCase):
    def check(self, text: str, wanted: str) -> None:
        made = subroutine(f"X = {text}", declarations=DECLARATIONS)
        statement = made.written(3).statement
        assert isinstance(statement, tree.Assignment)
        self.assertEqual(type_of(statement.value, made.names), wanted, text)

    def test_types(self) -> None:
        wanted = {
            "1": "INTEGER", "1.0": "REAL", "1D0": "REAL", "K + M(1)": "INTEGER", "K + 1.0": "REAL", "K*Z": "COMPLEX",
            "K/2": "INTEGER", "K > S": "LOGICAL", ".NOT. P": "LOGICAL", "K .AND. L": "", "INT(S)": "INTEGER",
            "REAL(K)": "REAL", "MAX(K, L)": "INTEGER", "MAX(S, A(1))": "REAL", "ABS(K)": "INTEGER", "ABS(Z)": "REAL",
            "SQRT(S)": "REAL", "SQRT(Z)": "", "F(S)": "", "SUM(M)": "INTEGER", "(K)": "INTEGER", "-K": "INTEGER",
            "NINT(S)": "INTEGER", "(1.0, 2.0)": "COMPLEX", "IAND(K, L)": "INTEGER", "MERGE(K, L, P)": "INTEGER",
        }
        for text, type_ in wanted.items():
            self.check(text, type_)


class Invariance(unittest.TestCase):
    def check(self, text: str, wanted: bool, *lines: str, declarations: Optional[str] = None) -> None:
        made = loop(f"B(1) = {text}", *lines, declarations=declarations or DECLARATIONS)
        statement = made.written(4).statement
        assert isinstance(statement, tree.Assignment)
        self.assertEqual(is_invariant(statement.value, made.loop()), wanted, text)

    def test_invariance(self) -> None:
        self.check("L + 2*MAX(N, 3)", True)
        self.check("I", False)
        self.check("A(3)", True)
        self.check("A(3)", False, "A(I) = 1")
        self.check("M(J)", False, "DO J = 1, N", "END DO")
        self.check("F(3)", False)
        self.check("L", True, "CALL X(K)")
        self.check("L", False, "CALL X(L)")
        self.check("L", False, "CALL X", declarations="COMMON L; REAL B(9)")


class OtherLoops(unittest.TestCase):
    def test_optional_dummy(self) -> None:
        """A clause would copy what isn't there."""
        lines = ("DO I = 1, 9", "IF (PRESENT(S)) S = S + 1", "END DO", "END")
        made = program("SUBROUTINE P(S)", "REAL, OPTIONAL :: S", *lines)
        self.assertEqual(reductions(made.loop()), ())

    def test_concurrent_variable(self) -> None:
        """The variable of a DO CONCURRENT is another than the unit's of the same name."""
        made = program("SUBROUTINE P", "REAL A(9)", "DO I = 1, N", "S = S + 1", "DO CONCURRENT (S = 1:9)", "A(S) = 1",
                       "END DO", "END DO", "END")
        self.assertEqual([one.name for one in reductions(made.loop())], ["S"])
