"""Whole numbers within small values that meet all rows of a System, so that no certificate can refute it."""

from __future__ import annotations

from typing import List, Optional, Sequence, Tuple

from .limits import Budget
from .systems import Row

#: How far from 0, or from its nearest bound, a value is tried, and how many choices are made.
_WIDTH = 24
_MOST_CHOICES = 1_500

#: For each unknown the least and the greatest value that it may have.
_Ranges = List[Tuple[int, int]]


def point(rows: Sequence[Row], budget: Budget) -> Optional[Tuple[int, ...]]:
    """Values that meet all rows, where small ones are found. Raises Exceeded."""
    return _Finder(rows, budget).found() if rows else None


class _Finder:
    """Tries values of one unknown after the other; what the rows then say of the others narrows their ranges."""

    def __init__(self, rows: Sequence[Row], budget: Budget) -> None:
        self._terms = [
            ([(place, one) for place, one in enumerate(row.coefficients) if one], row.constant, row.is_equation)
            for row in rows
        ]
        self._rows = rows
        self._count = len(rows[0].coefficients)
        self._budget = budget
        self._choices = 0

    def found(self) -> Optional[Tuple[int, ...]]:
        """The values, where there are some."""
        wide = [(-2**63, 2**63)] * self._count
        ranges = self._narrowed(wide)
        if ranges is None:
            return None
        near = [_near(*one) for one in ranges]
        start = self._narrowed(near)
        return self._tried(start) if start is not None else None

    def _tried(self, ranges: _Ranges) -> Optional[Tuple[int, ...]]:
        """Values within some ranges."""
        self._budget.look()
        open_places = [place for place, (low, high) in enumerate(ranges) if low < high]
        if not open_places:
            values = tuple(low for low, _ in ranges)
            return values if all(row.holds(values) for row in self._rows) else None
        place = min(open_places, key=lambda one: (ranges[one][1] - ranges[one][0], one))
        for value in sorted(range(ranges[place][0], ranges[place][1] + 1), key=lambda one: (abs(one), -one)):
            self._choices += 1
            if self._choices > _MOST_CHOICES:
                return None
            narrowed = self._narrowed([*ranges[:place], (value, value), *ranges[place + 1:]])
            found = self._tried(narrowed) if narrowed is not None else None
            if found is not None:
                return found
        return None

    def _narrowed(self, ranges: _Ranges) -> Optional[_Ranges]:
        """The ranges that the rows leave of some; none where one is empty."""
        present = list(ranges)
        for _ in range(4 * self._count + 8):
            before = list(present)
            for terms, constant, is_equation in self._terms:
                if not _narrow(present, terms, constant, is_equation):
                    return None
            if present == before:
                break
        return present


def _near(low: int, high: int) -> Tuple[int, int]:
    """The part of a range that is near to 0, or to the bound that is nearest to it."""
    middle = min(max(low, 0), high)
    return max(low, middle - _WIDTH), min(high, middle + _WIDTH)


def _narrow(ranges: _Ranges, terms: Sequence[Tuple[int, int]], constant: int, is_equation: bool) -> bool:
    """Takes out of some ranges what a row forbids; false where nothing is left of one."""
    greatest = constant + sum(one * (ranges[place][1] if one > 0 else ranges[place][0]) for place, one in terms)
    if greatest < 0:
        return False
    for place, one in terms:
        low, high = ranges[place]
        # Even where all other terms are as great as can be, this one must not be too small.
        others = greatest - one * (high if one > 0 else low)
        if one > 0:
            low = max(low, -(others // one))
        else:
            high = min(high, others // -one)
        if low > high:
            return False
        ranges[place] = (low, high)
    if not is_equation:
        return True
    return _narrow(ranges, [(place, -one) for place, one in terms], -constant, False)
