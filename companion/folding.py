"""Constant expressions that a compiler computes otherwise than ped, or refuses.

ped computes constants exactly, within 128 bits. Compilers compute them with 32 bits, or refuse what leaves these. They
also refuse a division by a constant zero, which ped takes for a fault only where it is carried out. So a statement gets
the value in place of such a constant, and a variable in place of such a zero.
"""

from __future__ import annotations

import operator
from dataclasses import dataclass
from typing import Callable, Dict, Iterator, Mapping, Optional

from .expressions import Call, Expression, Number, Operation, Variable, read_expression, value_of
from .lines import Span, Text
from .statements import Assignment, BlockIf, Declaration, Do, Form, Parameter, Print, Read

_GREATEST = 2**31 - 1
_RELATIONS: Dict[str, Callable[[int, int], bool]] = {
    ".LT.": operator.lt, ".LE.": operator.le, ".EQ.": operator.eq, ".NE.": operator.ne, ".GT.": operator.gt,
    ".GE.": operator.ge,
}
_ARITHMETIC = frozenset(["+", "-", "*", "/", "**"])


@dataclass(frozen=True)
class Repair:
    """A part of a statement, and what is to be written in its place."""

    span: Span
    text: str


class Folding:
    """What is to be written otherwise in the statements of one program."""

    def __init__(self, constants: Mapping[str, int], zero: Callable[[], str]) -> None:
        self._constants = constants
        #: Answers the name of the variable that takes the place of a zero.
        self._zero = zero
        #: Whether a constant that leaves 32 bits is still there.
        self.leaves_range = False

    def repairs(self, form: Form, text: Text) -> Iterator[Repair]:
        """What is to be written otherwise in a statement, by its form and its text."""
        for expression in _expressions(form, text):
            yield from self._in(expression)

    def _in(self, expression: Expression) -> Iterator[Repair]:
        if self._is_constant(expression) and not self._is_plain(expression):
            value = value_of(expression, self._constants)
            if value is not None and -_GREATEST - 1 <= value <= _GREATEST:
                yield Repair(expression.span, _literal(value))
                return
            self.leaves_range = True
        truth = self._truth(expression)
        if truth is not None:
            yield Repair(expression.span, "0.EQ.0" if truth else "0.EQ.1")
            return
        zero = self._constant_zero(expression)
        for part in expression.parts():
            if part is zero:
                yield Repair(part.span, self._zero())
            else:
                yield from self._in(part)

    def _is_constant(self, expression: Expression) -> bool:
        """Whether an expression is arithmetic on constants."""
        if isinstance(expression, Variable):
            return expression.name in self._constants
        is_arithmetic = (
            isinstance(expression, (Number, Call))
            or isinstance(expression, Operation) and expression.operator in _ARITHMETIC
        )
        return is_arithmetic and all(self._is_constant(part) for part in expression.parts())

    def _is_plain(self, expression: Expression) -> bool:
        """Whether a constant and all its parts have values within 32 bits."""
        value = value_of(expression, self._constants)
        is_within = value is not None and -_GREATEST - 1 <= value <= _GREATEST
        return is_within and all(self._is_plain(part) for part in expression.parts())

    def _truth(self, expression: Expression) -> Optional[bool]:
        """Whether a relation of constants holds, where one of them leaves 32 bits; none for all else."""
        relation = _RELATIONS.get(expression.operator) if isinstance(expression, Operation) else None
        if relation is None or not all(self._is_constant(part) for part in expression.parts()):
            return None
        left, right = (value_of(part, self._constants) for part in expression.parts())
        if left is None or right is None or all(self._is_plain(part) for part in expression.parts()):
            return None
        return relation(left, right)

    def _constant_zero(self, expression: Expression) -> Optional[Expression]:
        """The constant part of an operation that is zero and makes it fault."""
        parts = expression.parts()
        values = [value_of(part, self._constants) if self._is_constant(part) else None for part in parts]
        if isinstance(expression, Call) and expression.name == "MOD" and values[1] == 0:
            return parts[1]
        if not isinstance(expression, Operation) or len(parts) != 2:
            return None
        if expression.operator == "/" and values[1] == 0:
            return parts[1]
        is_inverse = values[1] is not None and values[1] < 0
        return parts[0] if expression.operator == "**" and values[0] == 0 and is_inverse else None


def _literal(value: int) -> str:
    """A value as it is written in an expression; the least one has no literal."""
    if value < -_GREATEST:
        return f"(-{_GREATEST}-1)"
    return str(value) if value >= 0 else f"({value})"


def _expressions(form: Form, text: Text) -> Iterator[Expression]:
    """The expressions of a statement."""
    if isinstance(form, Assignment):
        yield from (form.target, form.value)
    elif isinstance(form, BlockIf):
        yield form.condition
    elif isinstance(form, Do):
        yield from (form.first, form.last, *([form.step] if form.step is not None else []))
    elif isinstance(form, (Print, Read)):
        yield from form.items
    elif isinstance(form, Parameter):
        yield from (expression for _, expression in form.values)
    elif isinstance(form, Declaration):
        yield from bounds(text)


def bounds(text: Text) -> Iterator[Expression]:
    """The bounds of the arrays in an INTEGER or a DIMENSION, from left to right."""
    for declarator in text.split(","):
        opening = declarator.letters.find("(")
        if opening >= 0:
            for dimension in declarator[opening + 1:declarator.closing(opening)].split(","):
                yield from (read_expression(bound) for bound in dimension.split(":"))
