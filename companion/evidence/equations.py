"""The equations of a System, solved by whole changes of the unknowns.

The unknowns x become sums of others, y, with whole coefficients both ways. So the whole solutions are the same ones,
and a number divides all coefficients of a row in y just where it does so in x. Each equation in turn is brought to
`y + c = 0` for one of the y, or shows that it has no whole solution.

Each row that results is a sum of given rows, and its factors are kept.
"""

from __future__ import annotations

from dataclasses import dataclass, field
from fractions import Fraction
from functools import reduce
from math import gcd
from typing import Dict, Iterable, List, Optional, Sequence, Tuple

from .certificates import Gcd, Part
from .limits import Budget
from .systems import Row

#: For each row of the branch, counted from 1, its factor in a sum.
Factors = Dict[int, Fraction]


@dataclass
class Derived:
    """A row in the new unknowns, and the sum of given rows that it is."""

    coefficients: List[int]
    constant: int
    factors: Factors = field(default_factory=dict)

    @property
    def content(self) -> int:
        """The greatest number that divides all coefficients; 0 where there are none but 0."""
        return divisor_of(self.coefficients)

    def add(self, factor: int, other: Derived) -> None:
        """Adds another row, times a factor."""
        self.coefficients = [one + factor * more for one, more in zip(self.coefficients, other.coefficients)]
        self.constant += factor * other.constant
        for row, amount in other.factors.items():
            self.factors[row] = self.factors.get(row, Fraction(0)) + factor * amount


def divisor_of(numbers: Iterable[int]) -> int:
    """The greatest number that divides all of some numbers; 0 where there are none but 0."""
    return reduce(gcd, numbers, 0)


def whole(factors: Factors) -> Tuple[int, Tuple[Part, ...]]:
    """The least number by which factors become whole, and what they become, in the order of the rows."""
    scale = 1
    for amount in factors.values():
        scale = scale * amount.denominator // gcd(scale, amount.denominator)
    parts = tuple((row, int(amount * scale)) for row, amount in sorted(factors.items()) if amount)
    return scale, parts


@dataclass(frozen=True)
class Solved:
    """What is left of a System whose equations are solved: its inequalities, in the unknowns that are still free.

    Where the equations have no whole solution, it is the step that says so.
    """

    inequalities: Tuple[Derived, ...]
    contradiction: Optional[Gcd] = None


def solve(rows: Sequence[Row], budget: Budget) -> Solved:
    """Solves the equations of some rows."""
    equations: List[Derived] = []
    inequalities: List[Derived] = []
    for number, row in enumerate(rows, 1):
        derived = Derived(list(row.coefficients), row.constant, {number: Fraction(1)})
        (equations if row.is_equation else inequalities).append(derived)
    every = [*equations, *inequalities]
    while equations:
        budget.look()
        # The least coefficients first: the numbers stay small.
        equation = min(equations, key=_size)
        equations.remove(equation)
        every.remove(equation)
        step = _settle(equation, every)
        if step is not None:
            return Solved((), step)
    return Solved(tuple(inequalities))


def _size(row: Derived) -> Tuple[int, int]:
    amounts = [abs(one) for one in row.coefficients if one]
    return (min(amounts), len(amounts)) if amounts else (0, 0)


def _settle(equation: Derived, others: List[Derived]) -> Optional[Gcd]:
    """Solves an equation, and takes its unknown out of the other rows; the step where it has no whole solution."""
    content = equation.content
    if content == 0 and equation.constant == 0:
        return None
    if content == 0 or equation.constant % content:
        return _missed(equation, content)
    if content > 1:
        equation.coefficients = [one // content for one in equation.coefficients]
        equation.constant //= content
        equation.factors = {row: amount / content for row, amount in equation.factors.items()}
    place = _isolated(equation, others)
    sign = equation.coefficients[place]
    for row in others:
        if row.coefficients[place]:
            row.add(-sign * row.coefficients[place], equation)
    return None


def _isolated(equation: Derived, others: Sequence[Derived]) -> int:
    """Changes the unknowns until a single one is left in an equation, with coefficient 1 or -1; answers its place."""
    while True:
        places = [place for place, one in enumerate(equation.coefficients) if one]
        pivot = min(places, key=lambda place: (abs(equation.coefficients[place]), place))
        if len(places) == 1:
            return pivot
        for place in places:
            if place != pivot:
                quotient = equation.coefficients[place] // equation.coefficients[pivot]
                for row in (equation, *others):
                    row.coefficients[place] -= quotient * row.coefficients[pivot]


def _missed(equation: Derived, content: int) -> Gcd:
    """The step for an equation whose constant isn't a multiple of what divides its coefficients."""
    scale, parts = whole(equation.factors)
    if content:
        return Gcd(parts, scale * content)
    constant = scale * equation.constant
    return Gcd(parts, next(divisor for divisor in range(2, abs(constant) + 2) if constant % divisor))
