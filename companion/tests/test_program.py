"""Programs: numbers of statements, loops and IFs, in the printed form and in the texts of users."""

import sys
import unittest
from typing import List, Tuple

from ..program import Program, read_program
from ..views import shape_of
from .support import cases, fortran


def read(*statements: str) -> Program:
    return read_program(fortran(*statements).splitlines())


def places(program: Program) -> List[Tuple[int, Tuple[int, ...], Tuple[int, ...]]]:
    """The line of each statement, the loops round it and the IFs round it."""
    return [(statement.line, statement.loops, statement.ifs) for statement in program.statements]


class Programs(unittest.TestCase):
    def test_labels(self) -> None:
        program = read("DO 10 I = 1, 5", "DO 10 J = 1, 5", "K = 1", "10 L = 2", "M = 3", "END")
        self.assertEqual(places(program), [(1, (), ()), (2, (1,), ()), (3, (1, 2), ()), (4, (1, 2), ()), (5, (), ())])
        self.assertEqual([(loop.nest, loop.last) for loop in program.loops.values()], [((1,), 4), ((1, 2), 4)])

    def test_end_do(self) -> None:
        program = read("DO I = 1, 5", "PARALLEL DO J = 1, 5", "K = 1", "END DO", "L = 2", "END DO", "M = 3", "END")
        self.assertEqual([one.loops for one in program.statements], [(), (1,), (1, 2), (1,), ()])
        self.assertEqual([loop.form.parallel for loop in program.loops.values()], [False, True])
        self.assertEqual([loop.form.label for loop in program.loops.values()], [None, None])

    def test_end_do_with_labels(self) -> None:
        program = read("DO 10 I = 1, 5", "DO J = 1, 5", "K = 1", "20 END DO", "10 END DO", "M = 3", "END")
        self.assertEqual([one.loops for one in program.statements], [(), (1,), (1, 2), ()])
        program = read("DO 10 I = 1, 5", "DO 10 J = 1, 5", "K = 1", "10 END DO", "M = 3", "END")
        self.assertEqual([one.loops for one in program.statements], [(), (1,), (1, 2), ()])

    def test_end_do_that_ends_nothing(self) -> None:
        """An END DO without a label ends no loop that has one, and no loop round an IF that is open."""
        program = read("DO 10 I = 1, 5", "END DO", "K = 1", "10 L = 2", "M = 3", "END")
        self.assertEqual([one.loops for one in program.statements], [(), (1,), (1,), ()])
        program = read("DO I = 1, 5", "IF (K.EQ.1) THEN", "END DO", "L = 2", "END IF", "END DO", "M = 3", "END")
        self.assertEqual([one.loops for one in program.statements], [(), (1,), (1,), ()])

    def test_both_forms_are_one_program(self) -> None:
        labels = read(
            "DO 10 I = 1, 5", "IF (I.GT.2) THEN", "DO 20 J = 1, I", "PRIVATE T", "T = J", "20 CONTINUE", "END IF",
            "10 CONTINUE", "END",
        )
        ends = read(
            "DO I = 1, 5", "IF (I.GT.2) THEN", "DO J = 1, I", "PRIVATE T", "T = J", "END DO", "END IF", "END DO", "END"
        )
        self.assertEqual(shape_of(labels), shape_of(ends))
        self.assertEqual([name.name for name in ends.loops[3].private], ["T"])

    def test_names_of_31_letters(self) -> None:
        name = "ITERATIONSOFTHEOUTERMOSTLOOP123"
        self.assertEqual(len(name), 31)
        program = read(f"DO {name} = 1, 5", f"A({name}) = 1", "END DO", "END")
        self.assertEqual(program.loops[1].variable, name)
        self.assertEqual([one.text for one in program.statement(2).references], [f"A({name})"])

    def test_names_that_begin_with_words(self) -> None:
        program = read("INTEGER FUNCTION F(9)", "CONTINUE = 1", "PARALLEL DO 10 I = 1", "DOUBLE PRECISION = 1, 2", "END DO")
        self.assertEqual(program.arrays, {"FUNCTIONF": ("9",)})
        names = [one.references[0].name for one in program.statements if one.references]
        self.assertEqual(names, ["CONTINUE", "PARALLELDO10I"])
        self.assertEqual([loop.variable for loop in program.loops.values()], ["UBLEPRECISION"])

    def test_ifs(self) -> None:
        program = read(
            "IF (K.EQ.1) THEN", "A = 1", "ELSE IF (K.EQ.2) THEN", "A = 2", "ELSE", "IF (L.EQ.1) A = 3", "END IF",
            "A = 4", "END",
        )
        self.assertEqual([one.ifs for one in program.statements], [(), (1,), (1,), (1, 3), (1, 3), (1, 3, 5), ()])

    def test_logical_if_ends_a_loop(self) -> None:
        program = read("DO 10 I = 1, 5", "10 IF (I.EQ.2) K = 1", "IF (K.EQ.1) CONTINUE", "K = 2", "END")
        self.assertEqual([one.loops for one in program.statements], [(), (1,), (1,), (), ()])

    def test_assignments_with_words(self) -> None:
        program = read("IF(1) = 2", "DO 10 I = 1", "DO 20 J = 1, 5", "PRINT(K) = 3", "20 END = 4", "END")
        self.assertEqual([one.references[-1].name for one in program.statements if one.references], [
            "IF", "DO10I", "PRINT", "END",
        ])
        self.assertEqual(list(program.loops), [3])

    def test_declarations(self) -> None:
        program = read(
            "PROGRAM P", "PARAMETER (N=10, M=2*N)", "INTEGER A(0:N,M), K", "DIMENSION B(3)", "SAVE A, K", "K = 1", "END"
        )
        self.assertEqual(program.name, "P")
        self.assertEqual(program.constants, {"N": 10, "M": 20})
        self.assertEqual(program.arrays, {"A": ("0:N", "M"), "B": ("3",)})
        self.assertEqual(program.saved, {"A", "K"})

    def test_directives(self) -> None:
        program = read_program(["C$PED REJECT A", "      DO 10 I = 1, 5", "   10 A(L(I)) = 1", "      END"])
        self.assertEqual(program.loops[1].rejected, ["A"])

    def test_cases(self) -> None:
        """What is written and what is printed of it are read as one program."""
        count = 0
        for case in cases():
            if "printed" in case.wanted:
                written, printed = read_program(case.program), read_program(case.wanted["printed"])
                self.assertEqual(shape_of(written), shape_of(printed), case.name)
                count += 1
        self.assertGreater(count, 300)

    def test_few_calls(self) -> None:
        """How many calls of Python it takes to read a statement; they are counted, since times differ."""
        count = 100
        statements = [
            text for number in range(count)
            for text in (f"DO I = 2, {number}", f"T = A(I-1)+I+{number}", f"A(I) = T-{number}*2", "END DO")
        ]
        calls = 0

        def counted(frame: object, event: str, argument: object) -> None:
            nonlocal calls
            calls += event in ("call", "c_call")

        before = sys.getprofile()
        sys.setprofile(counted)
        try:
            program = read("INTEGER A(100)", *statements, "END")
        finally:
            sys.setprofile(before)
        self.assertEqual(len(program.statements), 3 * count)
        self.assertLess(calls, 300 * len(program.statements))


if __name__ == "__main__":
    unittest.main()
