"""Expressions: their trees, the order of their names, and the values of constant ones."""

import unittest
from typing import Optional

from ..expressions import Expression, NoExpression, Operation, names_in, read_expression, value_of
from ..lines import Place, read_statements


def read(text: str) -> Expression:
    return read_expression(read_statements([f"      {text}"])[0].text)


def grouped(expression: Expression) -> str:
    """An expression with parentheses about each operation."""
    if not isinstance(expression, Operation):
        return expression.text
    operands = [grouped(operand) for operand in expression.operands]
    return f"({expression.operator.join(operands) if len(operands) > 1 else expression.operator + operands[0]})"


class Expressions(unittest.TestCase):
    def test_grouping(self) -> None:
        for text, tree in {
            "A+B-C": "((A+B)-C)",
            "A-B*C": "(A-(B*C))",
            "A/B*C": "((A/B)*C)",
            "A**B**C": "(A**(B**C))",
            "-A**2": "(-(A**2))",
            "-A*B": "(-(A*B))",
            "-A+B": "((-A)+B)",
            "(A+B)*C": "((A+B)*C)",
            "A*(-B)": "(A*(-B))",
            "A.LT.B+1.AND..NOT.C.EQ.D.OR.E.GT.2": "(((A.LT.(B+1)).AND.(.NOT.(C.EQ.D))).OR.(E.GT.2))",
            ".NOT.(A.EQ.1.OR.B.EQ.2)": "(.NOT.((A.EQ.1).OR.(B.EQ.2)))",
        }.items():
            self.assertEqual(grouped(read(text)), tree, text)

    def test_names_as_they_are_used(self) -> None:
        self.assertEqual(names_in(read("A(I+J,B(K))*L+MAX(M,2)")), ["I", "J", "K", "B", "A", "L", "M"])

    def test_places(self) -> None:
        sum_ = read("A + B(I - 1)")
        self.assertIsInstance(sum_, Operation)
        element = sum_.parts()[1]
        self.assertEqual((element.span.start, element.span.end), (Place(1, 11), Place(1, 18)))
        self.assertEqual(element.text, "B(I-1)")

    def test_no_expression(self) -> None:
        for text in ("A+", "A B(", "A(1,)", ")", "A.EQ."):
            with self.assertRaises(NoExpression, msg=text):
                read(text)

    def test_deepest_parentheses(self) -> None:
        text = "(" * 300 + "A" + ")" * 300
        lines = ["      " + text[:66]] + [f"     &{text[at:at + 66]}" for at in range(66, len(text), 66)]
        self.assertEqual(read_expression(read_statements(lines)[0].text).text, "A")

    def test_values(self) -> None:
        values = {
            "7/2": 3, "(-7)/2": -3, "MOD(-7,3)": -1, "MOD(7,-3)": 1, "2**(-1)": 0, "(-1)**(-3)": -1, "0**0": 1,
            "1/0": None, "0**(-1)": None, "MOD(1,0)": None, "N+1": 11, "K": None, "MAX(1,N,3)": 10, "ABS(-4)": 4,
            "2**3**2": 512, "-2**2": -4, "2**127": None, "2**126": 2**126, "A(1)": None, "3-2-1": 0, "+5": 5,
        }
        for text, value in values.items():
            result: Optional[int] = value_of(read(text), {"N": 10})
            self.assertEqual(result, value, text)


if __name__ == "__main__":
    unittest.main()
