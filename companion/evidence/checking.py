"""Whether steps refute a System: the rule by which ped judges a line of evidence.

What the search finds is checked here first. Only what ped itself answers counts.
"""

from __future__ import annotations

from typing import List, Optional, Sequence, Tuple

from .certificates import Cut, Gcd, Part, Split, Step
from .systems import Row

#: The greatest size of a number in a row that a step adds.
_MOST = 2**63


def refutes(rows: Sequence[Row], steps: Sequence[Step]) -> bool:
    """Whether the steps show that no whole numbers meet all rows."""
    present: List[Row] = list(rows)
    waiting: List[List[Row]] = []
    for place, step in enumerate(steps):
        if isinstance(step, Split):
            halves = _halves(present, step)
            if halves is None:
                return False
            present, other = halves
            waiting.append(other)
            continue
        if isinstance(step, Cut):
            row = cut(present, step)
            if row is None:
                return False
            is_closed = not any(row.coefficients) and row.constant < 0
            present.append(row)
        else:
            is_closed = _misses(present, step)
            if not is_closed:
                return False
        if is_closed:
            if not waiting:
                return place + 1 == len(steps)
            present = waiting.pop()
    return False


def cut(rows: Sequence[Row], step: Cut) -> Optional[Row]:
    """The row that a cut adds; none where it isn't allowed."""
    found = _sum(rows, step.parts)
    if found is None or step.divisor < 1 or any(one % step.divisor for one in found[0]):
        return None
    row = Row(tuple(one // step.divisor for one in found[0]), found[1] // step.divisor)
    return row if all(-_MOST <= one < _MOST for one in (*row.coefficients, row.constant)) else None


def _sum(rows: Sequence[Row], parts: Sequence[Part]) -> Optional[Tuple[List[int], int]]:
    """The sum of some rows times their factors; none where one isn't there, or an inequality is taken negatively."""
    if not rows or not parts:
        return None
    coefficients, constant = [0] * len(rows[0].coefficients), 0
    for number, factor in parts:
        if not 1 <= number <= len(rows) or factor < 0 and not rows[number - 1].is_equation:
            return None
        row = rows[number - 1]
        for place, coefficient in enumerate(row.coefficients):
            coefficients[place] += factor * coefficient
        constant += factor * row.constant
    return coefficients, constant


def _misses(rows: Sequence[Row], step: Gcd) -> bool:
    """Whether a divisor divides all coefficients of a sum of equations, and misses its constant."""
    found = _sum(rows, step.parts)
    return (
        found is not None and step.divisor >= 1 and all(rows[number - 1].is_equation for number, _ in step.parts)
        and not any(one % step.divisor for one in found[0]) and found[1] % step.divisor != 0
    )


def _halves(rows: Sequence[Row], step: Split) -> Optional[Tuple[List[Row], List[Row]]]:
    """The rows of both cases of a split; none where the unknown isn't there."""
    if not rows or not 1 <= step.unknown <= len(rows[0].coefficients):
        return None
    return [*rows, at_most(len(rows[0].coefficients), step)], [*rows, more_than(len(rows[0].coefficients), step)]


def at_most(count: int, step: Split) -> Row:
    """The row of the first case of a split, over so many unknowns."""
    return Row(_unit(count, step.unknown, -1), step.bound)


def more_than(count: int, step: Split) -> Row:
    """The row of the second case."""
    return Row(_unit(count, step.unknown, 1), -step.bound - 1)


def _unit(count: int, unknown: int, coefficient: int) -> Tuple[int, ...]:
    return tuple(coefficient if place == unknown else 0 for place in range(1, count + 1))
