"""References: their numbers in hand-made statements, in the rows of all examples, and in those of all cases."""

import unittest
from typing import List

from ..panes import Dependence, read_dependences
from ..program import Program, read_program
from .support import cases, example_view, examples, fortran, has_subroutines

WRITES = {"flow": (True, False), "anti": (False, True), "output": (True, True)}


def references(*statements: str) -> List[str]:
    """The references of the last statement, each by its text, with a mark behind those that write."""
    program = read_program(fortran(*statements).splitlines())
    return [one.text + ("=" if one.writes else "") for one in program.statements[-1].references]


class References(unittest.TestCase):
    def test_assignment(self) -> None:
        self.assertEqual(references("A(K+1) = A(K)*2"), ["K", "A(K)", "K", "A(K+1)="])
        self.assertEqual(references("K = L(M(I)) - K"), ["I", "M(I)", "L(M(I))", "K", "K="])

    def test_if(self) -> None:
        self.assertEqual(references("IF (A(I).LT.B.OR.C.EQ.0) THEN"), ["I", "A(I)", "B", "C"])

    def test_do(self) -> None:
        self.assertEqual(references("DO 10 I = K, N(L), 2", "PRIVATE T, U"), ["K", "L", "N(L)", "T=", "U="])

    def test_print_and_read(self) -> None:
        self.assertEqual(references("PRINT *, K, 'A', B(I)"), ["K", "I", "B(I)", "PRINT="])
        self.assertEqual(references("READ *, K, A(K)"), ["READ=", "K=", "K", "A(K)="])
        self.assertEqual(references("PRINT *"), ["PRINT="])
        self.assertEqual(references("READ *"), ["READ="])
        self.assertEqual(references("STOP"), [])

    def test_what_is_none(self) -> None:
        self.assertEqual(references("PARAMETER (N=2)", "K = N + MOD(L,N)"), ["L", "K="])
        self.assertEqual(references("DO 10 I = 1, 2", "A(I) = I + J"), ["J", "A(I)="])
        self.assertEqual(references("DO 10 I = 1, 2", "10 A(I) = 1", "K = I"), ["I", "K="])
        self.assertEqual(references("DO 10 J = 1, 2", "DO 20 I = J, K"), ["K"])

    def test_logical_if(self) -> None:
        self.assertEqual(references("IF (K.EQ.1) A(L) = M"), ["M", "L", "A(L)="])


class Rows(unittest.TestCase):
    """Each row of a pane names the references that are found at its numbers, and its kind says which of them write."""

    def compare(self, where: str, program: Program, rows: List[Dependence]) -> None:
        for row in rows:
            source, sink = program.reference(row.source), program.reference(row.sink)
            self.assertEqual((source.name, sink.name), (row.name, row.name), f"{where}: {row.row}")
            self.assertEqual((source.writes, sink.writes), WRITES[row.kind], f"{where}: {row.row}")

    def test_examples(self) -> None:
        for name in examples():
            view = example_view(name)
            self.assertEqual(view.name.endswith(".f"), not has_subroutines(name), f"{name} isn't read as ped reads it")
            self.compare(name, view.program, list(view.dependences))
            self.compare(name, view.printed, list(view.dependences))

    def test_cases(self) -> None:
        count = 0
        for case in cases():
            if "dependences" in case.wanted:
                rows = list(read_dependences(case.wanted["dependences"]))
                self.compare(case.name, read_program(case.program), rows)
                count += len(rows)
        self.assertGreater(count, 1000)


if __name__ == "__main__":
    unittest.main()
