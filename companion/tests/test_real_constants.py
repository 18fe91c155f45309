"""Constants: all values are those of the Fortran standard, by hand."""

import unittest
from typing import Dict, Optional, Tuple

from ..real import tree
from ..real.constants import Integer, integer, module_has, selected_int_kind, spec_kind, value, wide_part
from .real_trees import expression, operation, reference


class Known:
    """Names with the values, types and kinds that a test needs."""

    def __init__(self, values: Dict[str, Integer], kinds: Dict[str, Tuple[str, Optional[int]]]) -> None:
        self._values = values
        self._kinds = kinds

    def value(self, name: str) -> Optional[Integer]:
        return self._values.get(name)

    def type_and_kind(self, name: str) -> Tuple[str, Optional[int]]:
        return self._kinds.get(name, ("INTEGER" if name[0] in "IJKLMN" else "REAL", 4))

    def type_and_kind_of_component(self, designator: tree.Component) -> Tuple[str, Optional[int]]:
        return {"N": ("INTEGER", 4), "M": ("INTEGER", 8)}.get(designator.component, ("", None))

    def is_intrinsic(self, name: str) -> bool:
        return name != "MYMAX" and name not in self._kinds


NAMES = Known(
    {"N": Integer(10, 4), "LONG": Integer(8, 4), "BIG": Integer(5, 8)},
    {
        "WIDE": ("INTEGER", 8), "ODD": ("INTEGER", None), "X8": ("REAL", 8), "WHAT": ("", None), "BIG": ("INTEGER", 8),
        "IX": ("INTEGER", 4),
    },
)


def literal(text: str, kind: Optional[str] = None, type_: str = "INTEGER") -> tree.Literal:
    return tree.Literal(type_, text, kind)


class Values(unittest.TestCase):
    def test_operators(self) -> None:
        for one, wanted in [
            (operation("+", "N", 5), 15), (operation("-", 3, "N"), -7), (operation("*", "N", "N"), 100),
            (operation("/", 7, 2), 3), (operation("/", operation("-", 7), 2), -3), (operation("/", 7, 0), None),
            (operation("-", operation("/", 7, 2)), -3), (operation("**", 2, 10), 1024),
            (operation("**", 2, operation("-", 1)), 0), (operation("**", 0, operation("-", 1)), None),
            (operation("**", operation("-", 1), operation("-", 3)), -1), (operation("**", 0, 0), 1),
            (operation("+", 5), 5), (tree.Parentheses(expression("N")), 10), (expression("M"), None),
            (operation(".LT.", 1, 2), None), (operation("//", 1, 2), None),
        ]:
            self.assertEqual(value(one, NAMES), wanted, str(one))

    def test_a_value_that_leaves_its_kind_is_none(self) -> None:
        greatest = literal("2147483647")
        self.assertEqual(value(greatest, NAMES), 2147483647)
        self.assertIsNone(value(operation("+", greatest, 1), NAMES))
        self.assertIsNone(value(operation("-", operation("+", greatest, 1), 1), NAMES))
        self.assertIsNone(value(literal("2147483648"), NAMES))
        self.assertEqual(integer(operation("+", literal("2147483647", "8"), 1), NAMES), Integer(2147483648, 8))
        self.assertIsNone(value(operation("**", 2, 1000000), NAMES))

    def test_what_is_not_integer_has_no_value(self) -> None:
        self.assertIsNone(value(literal("1.5", None, "REAL"), NAMES))
        self.assertIsNone(value(operation("+", 1, literal("1.5", None, "REAL")), NAMES))
        self.assertIsNone(value(literal("Z'FF'", None, "BOZ"), NAMES))

    def test_intrinsic_functions(self) -> None:
        seven = operation("-", 7)
        for one, wanted in [
            (reference("MAX", 3, "N"), 10), (reference("MIN", 3, "N", 2), 2), (reference("ABS", seven), 7),
            (reference("MOD", seven, 3), -1), (reference("MOD", 7, operation("-", 3)), 1),
            (reference("MOD", 7, 0), None),
            (reference("INT", "N"), 10), (reference("MYMAX", 3, 4), None), (reference("SIN", 3), None),
            (reference("HUGE", 1), 2147483647), (reference("BIT_SIZE", 1), 32),
            (reference("HUGE", literal("1.0", None, "REAL")), None),
        ]:
            self.assertEqual(value(one, NAMES), wanted, str(one))


class Kinds(unittest.TestCase):
    def test_kinds_by_functions(self) -> None:
        double = literal("1.0D0", None, "REAL")
        for one, wanted in [
            (reference("KIND", double), 8), (reference("KIND", literal("1.0", None, "REAL")), 4),
            (reference("KIND", 1), 4),
            (reference("KIND", literal("1", "8")), 8), (reference("KIND", "X8"), 8), (reference("KIND", "ODD"), None),
            (reference("SELECTED_INT_KIND", 9), 4), (reference("SELECTED_INT_KIND", 10), 8),
            (reference("SELECTED_REAL_KIND", 6), 4), (reference("SELECTED_REAL_KIND", 6, 37), 4),
            (reference("SELECTED_REAL_KIND", 6, 38), 8), (reference("SELECTED_REAL_KIND", 15, 307), 8),
            (reference("SELECTED_REAL_KIND", 18), None),
            (reference("SELECTED_REAL_KIND", tree.Keyword("P", expression(12))), 8),
            (reference("SELECTED_REAL_KIND", tree.Keyword("RADIX", expression(10))), None),
        ]:
            self.assertEqual(value(one, NAMES), wanted, str(one))
        self.assertEqual([selected_int_kind(digits) for digits in (2, 4, 9, 18, 38, 39)], [1, 2, 4, 8, 16, -1])

    def test_kinds_of_types(self) -> None:
        spec = tree.TypeSpec
        for one, wanted in [
            (spec("INTEGER"), 4), (spec("REAL", bytes=8), 8), (spec("INTEGER", bytes=8), 8),
            (spec("COMPLEX", bytes=16), 8),
            (spec("DOUBLE PRECISION"), 8), (spec("DOUBLE COMPLEX"), 8), (spec("INTEGER", kind=expression("LONG")), 8),
            (spec("INTEGER", kind=expression("M")), None), (spec("TYPE", derived="T"), None), (spec("LOGICAL"), 4),
        ]:
            self.assertEqual(spec_kind(one, NAMES), wanted, str(one))

    def test_modules(self) -> None:
        self.assertIs(module_has("ISO_FORTRAN_ENV", "REAL64"), True)
        self.assertIs(module_has("ISO_FORTRAN_ENV", "A"), False)
        self.assertIs(module_has("ISO_C_BINDING", "C_LOC"), True)
        self.assertIs(module_has("ISO_C_BINDING", "A"), False)
        self.assertIsNone(module_has("MPI", "A"))


class WideParts(unittest.TestCase):
    """Integers of 8 bytes in subscripts and bounds: ped's ranges are those of 4 bytes."""

    def test_wide(self) -> None:
        for one, wanted in [
            (expression("WIDE"), "WIDE"), (operation("+", "I", "WIDE"), "WIDE"),
            (operation("+", "I", literal("1", "8")), "1_8"),
            (literal("1", "LONG"), "1_LONG"), (literal("1", "UNHEARD"), "1_UNHEARD"), (expression("ODD"), "ODD"),
            (expression("WHAT"), "WHAT"), (reference("IX", "WIDE"), "WIDE"), (reference("WIDE", "I"), "WIDE(I)"),
            (reference("INT", "X", 8), "INT(X,8)"), (reference("INT8", "X"), "INT8(X)"),
            (reference("SIZE", "X", tree.Keyword("KIND", expression("LONG"))), "SIZE(X,KIND=LONG)"),
            (literal("Z'FF'", None, "BOZ"), "Z'FF'"), (tree.Component(expression("P"), "X"), "P%X"),
            (tree.Component(expression("P"), "M"), "P%M"),
            (reference("FINDLOC", "IX", 1, 1, 1, 8), "FINDLOC(IX,1,1,1,8)"),
        ]:
            self.assertEqual(str(wide_part(one, NAMES)), wanted)

    def test_not_wide(self) -> None:
        for one in [
            operation("+", "I", 1), reference("IX", "I"), reference("INT", "X8"), reference("INT", "X", 4),
            reference("NINT", operation("*", "X", literal("1.0D0", None, "REAL"))), literal("1", "4"),
            reference("MAX", "I", "J"),
            reference("SIZE", "X", 1), tree.Component(expression("X"), "N"),
        ]:
            self.assertIsNone(wide_part(one, NAMES), str(one))


if __name__ == "__main__":
    unittest.main()
