"""The search for a certificate of a System.

First the equations are solved. Then come sums that can't hold; inequalities that are divided and rounded, and sums of
these; and two cases of an unknown. Whatever is found is checked by `checking.refutes` before it is answered.
"""

from __future__ import annotations

from fractions import Fraction
from typing import List, Optional, Sequence, Tuple

from . import checking
from .certificates import Cut, Split, Step, is_writable
from .equations import Derived, Factors, divisor_of, solve, whole
from .limits import Budget, Exceeded
from .simplex import contradiction
from .systems import Row

#: How many splits are nested, and how many unknowns are tried at each.
_DEPTH = 4
_CANDIDATES = 2


def find(rows: Sequence[Row], budget: Budget, depth: int = _DEPTH) -> Optional[Tuple[Step, ...]]:
    """Steps that refute some rows, where they are found. Raises Exceeded."""
    steps = _branch(list(rows), budget, depth)
    if steps is None:
        return None
    found = tuple(steps)
    if not is_writable(found):
        raise Exceeded("a certificate has numbers of more than nine digits, or too many steps")
    return found if checking.refutes(rows, found) else None


def _branch(rows: List[Row], budget: Budget, depth: int) -> Optional[List[Step]]:
    """Steps that refute the rows of a branch."""
    steps = _without_splits(rows, budget)
    if steps is not None or depth == 0:
        return steps
    for split in _splits(rows)[:_CANDIDATES]:
        found: List[Step] = [split]
        for half in (checking.at_most, checking.more_than):
            closed = _branch([*rows, half(len(rows[0].coefficients), split)], budget, depth - 1)
            if closed is None:
                break
            found.extend(closed)
        else:
            return found
    return None


def _without_splits(rows: List[Row], budget: Budget) -> Optional[List[Step]]:
    solved = solve(rows, budget)
    if solved.contradiction is not None:
        return [solved.contradiction]
    present = [_Inequality(row) for row in solved.inequalities]
    found = _closed(len(rows), present, budget)
    if found is not None:
        return found
    tightened = [_Inequality(divided, one) for one in present for divided in [_tightened(one.row)] if divided]
    return _closed(len(rows), [*present, *tightened], budget) if tightened else None


def _closed(count: int, present: Sequence[_Inequality], budget: Budget) -> Optional[List[Step]]:
    """The steps behind so many rows for a sum of some inequalities that can't hold, where there is one."""
    factors = contradiction([Row(tuple(one.row.coefficients), one.row.constant) for one in present], budget)
    return _Writer(count).steps(present, factors) if factors is not None else None


class _Inequality:
    """An inequality in the solved unknowns: a sum of given rows, or another one that is divided and rounded."""

    def __init__(self, row: Derived, origin: Optional[_Inequality] = None) -> None:
        self.row = row
        self.origin = origin


def _tightened(row: Derived) -> Optional[Derived]:
    """An inequality divided by what divides its coefficients, and rounded; none where that says no more."""
    content = row.content
    if content < 2 or row.constant % content == 0:
        return None
    return Derived([one // content for one in row.coefficients], row.constant // content)


class _Writer:
    """Writes the steps of a branch: one for each rounded inequality in use, and then the sum."""

    def __init__(self, rows: int) -> None:
        self._rows = rows
        self._steps: List[Step] = []
        self._numbers: List[Tuple[_Inequality, int]] = []

    def steps(self, present: Sequence[_Inequality], factors: Sequence[Fraction]) -> List[Step]:
        """The steps for a sum of some inequalities that can't hold."""
        total: Factors = {}
        for inequality, factor in zip(present, factors):
            if factor:
                for row, amount in self._factors(inequality).items():
                    total[row] = total.get(row, Fraction(0)) + factor * amount
        _, parts = whole(total)
        shared = divisor_of(factor for _, factor in parts)
        self._steps.append(Cut(tuple((row, factor // shared) for row, factor in parts), 1))
        return self._steps

    def _factors(self, inequality: _Inequality) -> Factors:
        """The sum of rows that an inequality is."""
        if inequality.origin is None:
            return inequality.row.factors
        return {self._number(inequality, inequality.origin): Fraction(1)}

    def _number(self, inequality: _Inequality, origin: _Inequality) -> int:
        """The number of the row that a rounded inequality is, with the step that adds it."""
        for known, number in self._numbers:
            if known is inequality:
                return number
        scale, parts = whole(self._factors(origin))
        self._steps.append(Cut(parts, scale * origin.row.content))
        number = self._rows + len(self._steps)
        self._numbers.append((inequality, number))
        return number


def _splits(rows: Sequence[Row]) -> List[Split]:
    """The unknowns with two simple bounds, each split at its middle; those of least width first."""
    count = len(rows[0].coefficients) if rows else 0
    low: List[Optional[int]] = [None] * count
    high: List[Optional[int]] = [None] * count
    for row in rows:
        places = [place for place, one in enumerate(row.coefficients) if one]
        if len(places) == 1 and abs(row.coefficients[places[0]]) == 1 and not row.is_equation:
            place = places[0]
            least, greatest = low[place], high[place]
            if row.coefficients[place] > 0:
                low[place] = -row.constant if least is None else max(least, -row.constant)
            else:
                high[place] = row.constant if greatest is None else min(greatest, row.constant)
    found = []
    for place, (least, greatest) in enumerate(zip(low, high)):
        if least is not None and greatest is not None and least < greatest:
            found.append((greatest - least, Split(place + 1, (least + greatest) // 2)))
    return [split for _, split in sorted(found, key=lambda one: one[0])]
