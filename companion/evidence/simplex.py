"""Sums of inequalities that can't hold, by the simplex method on their factors.

Inequalities have no common solution in rational numbers exactly where a sum of them, each times a factor of at least 0,
has no unknowns left and a negative constant: the lemma of Farkas. The factors are found by the first phase of the
simplex method, with Bland's rule, by which it ends. The numbers are kept whole, over one divisor.
"""

from __future__ import annotations

from fractions import Fraction
from typing import List, Optional, Sequence

from .limits import Budget
from .systems import Row


def contradiction(rows: Sequence[Row], budget: Budget) -> Optional[List[Fraction]]:
    """For each inequality its factor in a sum that is -1; none where there is no such sum."""
    if not rows:
        return None
    # An equation for each unknown, that it isn't left, and one for the constant; each has a variable of its own, which
    # the method drives to 0.
    table = [[row.coefficients[place] for row in rows] + [0] for place in range(len(rows[0].coefficients))]
    table.append([-row.constant for row in rows] + [1])
    return _Tableau(table, len(rows), budget).solution()


class _Tableau:
    """Equations for variables of at least 0, of which each row has one that occurs in no other row."""

    def __init__(self, table: List[List[int]], count: int, budget: Budget) -> None:
        self._table = table
        self._count = count
        self._budget = budget
        #: All numbers are divided by this one, which is positive.
        self._divisor = 1
        #: The variable that belongs to each row; those of the first phase have numbers from `count` on.
        self._basis = [count + place for place in range(len(table))]
        #: The sum of the rows of these variables: what is still to be driven to 0.
        self._goal = [sum(column) for column in zip(*table)]

    def solution(self) -> Optional[List[Fraction]]:
        """Values that meet all equations; none where there are none."""
        while self._goal[-1] > 0:
            column = next((place for place in range(self._count) if self._goal[place] > 0), None)
            if column is None:
                return None
            row = self._leaving(column)
            if row is None:
                return None
            self._budget.pivot()
            self._pivot(row, column)
        values = [Fraction(0)] * self._count
        for row, variable in enumerate(self._basis):
            if variable < self._count:
                values[variable] = Fraction(self._table[row][-1], self._divisor)
        return values

    def _leaving(self, column: int) -> Optional[int]:
        """The row whose variable first comes to 0 where that of a column grows; of several the one of least number."""
        best: Optional[int] = None
        for place, row in enumerate(self._table):
            if row[column] > 0 and (best is None or self._is_before(place, best, column)):
                best = place
        return best

    def _is_before(self, place: int, best: int, column: int) -> bool:
        ours, theirs = self._table[place], self._table[best]
        difference = ours[-1] * theirs[column] - theirs[-1] * ours[column]
        return difference < 0 or difference == 0 and self._basis[place] < self._basis[best]

    def _pivot(self, chosen: int, column: int) -> None:
        ours = self._table[chosen]
        for place, row in enumerate(self._table):
            if place != chosen:
                self._table[place] = self._less(row, ours, column)
        self._goal = self._less(self._goal, ours, column)
        self._divisor = ours[column]
        self._basis[chosen] = column

    def _less(self, row: List[int], ours: List[int], column: int) -> List[int]:
        """A row without the variable of a column; the division is exact."""
        pivot, factor, divisor = ours[column], row[column], self._divisor
        if factor == 0:
            return row if pivot == divisor else [entry * pivot // divisor for entry in row]
        return [(entry * pivot - factor * further) // divisor for entry, further in zip(row, ours)]
