"""Subscripts: the distances and the marks of all rows follow from the tests that are told."""

import unittest
from fractions import Fraction
from typing import List

from ..doubts import doubts
from ..panes import Dependence, read_dependences
from ..program import Program, read_program
from ..subscripts import Position, Test, positions
from .support import cases, example_view, examples, fortran


def pair(*statements: str) -> Position:
    """The first position of the two references to A in the last statement, the right one as the source."""
    program = read_program(fortran(*statements).splitlines())
    source, sink = (one for one in program.statements[-1].references if one.name == "A")
    return positions(program, source, sink)[0]


class Positions(unittest.TestCase):
    def test_strong_siv(self) -> None:
        position = pair("DO 10 I = 1, 9", "A(2*I+1) = A(2*I-5)")
        self.assertEqual((position.test, position.distance), (Test.STRONG_SIV, -3))
        position = pair("DO 10 I = 9, 1, -2", "A(I) = A(I+4)")
        self.assertEqual(position.distance, -2)
        position = pair("DO 10 I = 1, 9", "A(2*I) = A(2*I+1)")
        self.assertEqual((position.test, position.distance), (Test.STRONG_SIV, None))

    def test_other_tests(self) -> None:
        self.assertIs(pair("DO 10 I = 1, 9", "A(3) = A(4)").test, Test.ZIV)
        position = pair("DO 10 I = 1, 9", "A(2*I) = A(6)")
        self.assertEqual((position.test, position.meeting), (Test.WEAK_ZERO_SIV, 3))
        position = pair("DO 10 I = 1, 9", "A(2) = A(3*I-1)")
        self.assertEqual((position.test, position.meeting), (Test.WEAK_ZERO_SIV, 1))
        position = pair("DO 10 I = 1, 9", "A(2*I) = A(11-2*I)")
        self.assertEqual((position.test, position.meeting), (Test.WEAK_CROSSING_SIV, Fraction(11, 2)))
        self.assertIs(pair("DO 10 I = 1, 9", "A(2*I) = A(I)").test, Test.GCD_AND_BANERJEE)
        self.assertIs(pair("DO 10 I = 1, 9", "DO 20 J = 1, 9", "A(I+J) = A(I)").test, Test.GCD_AND_BANERJEE)

    def test_what_has_no_test(self) -> None:
        for subscript in ("L(I)", "I*I", "I/2", "MAX(I,2)"):
            position = pair("DO 10 I = 1, 9", f"A(I) = A({subscript})")
            self.assertEqual((position.test, position.hindrance), (Test.NONE, subscript))
        position = pair("DO 10 I = 1, 9", "A(I) = A(I+K)")
        self.assertEqual((position.test, position.hindrance), (Test.NONE, "K"))

    def test_scalars(self) -> None:
        self.assertEqual(pair("DO 10 I = 1, 9", "A(I+K) = A(I+K-1)").distance, -1)
        position = pair("DO 10 I = 1, 9", "K = I", "A(I+K) = A(I+K-1)")
        self.assertEqual((position.test, position.hindrance), (Test.NONE, "I+K-1"))


class Rows(unittest.TestCase):
    def compare(self, where: str, program: Program, rows: List[Dependence]) -> None:
        for row in rows:
            source, sink = program.reference(row.source), program.reference(row.sink)
            told = positions(program, source, sink)
            common = [loop for loop in program.loops_round(source.statement) if loop.number in
                      program.statement(sink.statement).loops]
            distances = tuple(
                next((one.distance for one in told if one.test is Test.STRONG_SIV and loop.number in one.indices), None)
                for loop in common
            )
            self.assertEqual(distances, row.distances, f"{where}: {row.row}")
            causes = doubts(program, row)
            self.assertEqual(not causes, row.mark == "proven", f"{where}: {row.row}: {causes}")

    def test_examples(self) -> None:
        for name in examples():
            self.compare(name, example_view(name).program, list(example_view(name).dependences))

    def test_cases(self) -> None:
        for case in cases():
            if "dependences" in case.wanted:
                program = read_program(case.program)
                self.compare(case.name, program, list(read_dependences(case.wanted["dependences"])))


if __name__ == "__main__":
    unittest.main()
