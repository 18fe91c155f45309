"""Expressions and conditions: their trees, with the places at which each part is written.

The rules are those of docs/LANGUAGE.md, "Expressions" and "Conditions". A text is read that ped has read before, so
there is one error alone: `NoExpression`, where a text has another form than is known here.
"""

from __future__ import annotations

import re
from dataclasses import dataclass
from itertools import accumulate
from typing import Dict, List, Mapping, Optional, Sequence, Tuple, Union

from .lines import Span, Text

INTRINSICS = frozenset(["MOD", "ABS", "IABS", "MAX", "MAX0", "MIN", "MIN0"])

#: The greatest size of a number on the way to a constant's value.
_WIDEST = 2**127

#: How tightly the operators bind between two operands.
_BINDING: Dict[str, int] = {
    ".OR.": 1, ".AND.": 2, ".LT.": 4, ".LE.": 4, ".EQ.": 4, ".NE.": 4, ".GT.": 4, ".GE.": 4,
    "+": 5, "-": 5, "*": 6, "/": 6, "**": 7,
}

#: What an operator before an operand takes: operators that bind at least so tightly.
_PREFIX_TAKES: Dict[str, int] = {".NOT.": 3, "+": 6, "-": 6}

_TOKEN = re.compile(r"[A-Z][A-Z0-9]*|[0-9]+|\.[A-Z]+\.|\*\*|'|.")


class NoExpression(Exception):
    """A text isn't an expression of a form that is known here."""


@dataclass(frozen=True)
class Expression:
    """A part of an expression: where it stands, and its text without blanks."""

    #: The characters that it was read from.
    source: Text
    text: str

    @property
    def span(self) -> Span:
        """Where the expression stands."""
        return self.source.span

    def parts(self) -> Tuple[Expression, ...]:
        """The expressions that this one is made of, from left to right."""
        return ()


@dataclass(frozen=True)
class Number(Expression):
    """A literal."""

    value: int


@dataclass(frozen=True)
class Constant(Expression):
    """A character constant, in PRINT alone."""


@dataclass(frozen=True)
class Variable(Expression):
    """A name without subscripts: a scalar or a named constant."""

    name: str


@dataclass(frozen=True)
class Element(Expression):
    """An element of an array."""

    name: str
    subscripts: Tuple[Expression, ...]

    def parts(self) -> Tuple[Expression, ...]:
        return self.subscripts


@dataclass(frozen=True)
class Call(Expression):
    """An intrinsic function of arguments."""

    name: str
    arguments: Tuple[Expression, ...]

    def parts(self) -> Tuple[Expression, ...]:
        return self.arguments


@dataclass(frozen=True)
class Operation(Expression):
    """An operator between two operands, or before one."""

    operator: str
    operands: Tuple[Expression, ...]

    def parts(self) -> Tuple[Expression, ...]:
        return self.operands


def read_expression(text: Text) -> Expression:
    """The tree of an expression or a condition, or of a character constant."""
    reader = _Reader(text)
    expression = reader.operations(0)
    reader.expect("")
    return expression


class _Reader:
    """Reads a text from left to right. Calls nest twice as deep as its parentheses, which may be 660."""

    def __init__(self, text: Text) -> None:
        tokens = _TOKEN.findall(text.letters)
        self._text = text
        #: Where each token begins, and the end of the last one.
        self._starts = [0, *accumulate(map(len, tokens))]
        #: The tokens, and behind them empty ones: one may be taken at the end.
        self._tokens = [*tokens, "", ""]
        self._next = 0
        #: The token that is to be taken next.
        self._token = self._tokens[0]

    def operations(self, least: int) -> Expression:
        """An expression of operators that bind at least so tightly; `**` groups to the right, others to the left."""
        begin = self._next
        if self._token in _PREFIX_TAKES:
            operator = self._take()
            left: Expression = self._operation(begin, operator, self.operations(_PREFIX_TAKES[operator]))
        else:
            left = self._primary()
        binding = _BINDING.get(self._token, -1)
        while binding >= least:
            operator = self._take()
            right = self.operations(binding if operator == "**" else binding + 1)
            left = self._operation(begin, operator, left, right)
            binding = _BINDING.get(self._token, -1)
        return left

    def _primary(self) -> Expression:
        begin = self._next
        token = self._take()
        if token[:1].isalpha():
            return self._named(begin, token)
        if token.isdecimal():
            return Number(*self._here(begin), int(token))
        if token == "'":
            return Constant(*self._here(begin))
        if token != "(":
            raise NoExpression(str(self._text))
        inner = self.operations(0)
        self.expect(")")
        return inner

    def _named(self, begin: int, name: str) -> Expression:
        """What begins with a name."""
        if self._token != "(":
            return Variable(*self._here(begin), name)
        parts = self._list()
        if name in INTRINSICS:
            return Call(*self._here(begin), name, parts)
        return Element(*self._here(begin), name, parts)

    def _list(self) -> Tuple[Expression, ...]:
        """Expressions in parentheses."""
        parts = []
        separator = "("
        while self._token == separator:
            self._take()
            parts.append(self.operations(0))
            separator = ","
        self.expect(")")
        return tuple(parts)

    def _operation(self, begin: int, operator: str, *operands: Expression) -> Operation:
        return Operation(*self._here(begin), operator, operands)

    def _here(self, begin: int) -> Tuple[Text, str]:
        """The characters of what was read from a token on, and their text."""
        text = self._text.part(self._starts[begin], self._starts[self._next])
        return text, str(text)

    def _take(self) -> str:
        token = self._token
        self._next += 1
        self._token = self._tokens[self._next]
        return token

    def expect(self, token: str) -> None:
        """Takes a token, the text's end where it is empty."""
        if self._take() != token:
            raise NoExpression(str(self._text))


def occurrences(expression: Expression) -> List[Union[Variable, Element]]:
    """The variables and elements of an expression as they are used: the subscripts of an element come before it."""
    found: List[Union[Variable, Element]] = []
    _gather(expression, found)
    return found


def _gather(expression: Expression, found: List[Union[Variable, Element]]) -> None:
    for part in expression.parts():
        _gather(part, found)
    if isinstance(expression, (Variable, Element)):
        found.append(expression)


def names_in(expression: Expression) -> List[str]:
    """The names of variables and arrays in an expression, as they are used."""
    return [part.name for part in occurrences(expression)]


def value_of(expression: Expression, constants: Mapping[str, int]) -> Optional[int]:
    """The value of a constant expression; none where it isn't constant, or faults."""
    if isinstance(expression, Number):
        return expression.value
    if isinstance(expression, Variable):
        return constants.get(expression.name)
    values = []
    for part in expression.parts():
        value = value_of(part, constants)
        if value is None:
            return None
        values.append(value)
    return result_of(expression, values)


def result_of(expression: Expression, values: Sequence[int]) -> Optional[int]:
    """What an intrinsic function or an operator of arithmetic makes of the values of its parts; none where it faults."""
    if isinstance(expression, Call):
        result = _called(expression.name, values)
    elif isinstance(expression, Operation):
        result = _operated(expression.operator, values)
    else:
        return None
    return result if result is not None and -_WIDEST <= result < _WIDEST else None


def _called(name: str, values: Sequence[int]) -> Optional[int]:
    if name == "MOD":
        quotient = _quotient(values[0], values[1])
        return None if quotient is None else values[0] - quotient * values[1]
    if name in ("ABS", "IABS"):
        return abs(values[0])
    return max(values) if name.startswith("MAX") else min(values)


def _operated(operator: str, values: Sequence[int]) -> Optional[int]:
    left, right = values[0], values[-1]
    if len(values) == 1:
        return {"-": -left, "+": left}.get(operator)
    if operator == "/":
        return _quotient(left, right)
    if operator == "**":
        return _power(left, right)
    results: Dict[str, int] = {"+": left + right, "-": left - right, "*": left * right}
    return results.get(operator)


def _quotient(left: int, right: int) -> Optional[int]:
    """A quotient that is cut off behind the point; none for a division by 0."""
    if right == 0:
        return None
    size = abs(left) // abs(right)
    return size if (left < 0) == (right < 0) else -size


def _power(base: int, exponent: int) -> Optional[int]:
    if exponent < 0:
        return None if base == 0 else _quotient(1, base if exponent % 2 else base * base)
    if abs(base) > 1 and exponent > 127:
        return None
    return base**exponent
