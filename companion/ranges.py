"""How often loops are carried out at most, as far as the text of a program tells it."""

from __future__ import annotations

from typing import Dict, List, Mapping, Optional, Tuple

from .expressions import Call, Expression, Operation, Variable, value_of
from .program import Loop, Program

#: The least and the greatest value that something may have.
Range = Tuple[int, int]


def iterations_of(program: Program, loop: Loop) -> Optional[int]:
    """How many iterations each entry of a loop has, where its bounds are constants; else none."""
    form = loop.form
    first, last = value_of(form.first, program.constants), value_of(form.last, program.constants)
    step = _step(program, loop)
    if first is None or last is None or not step:
        return None
    return max((last - first + step) // step, 0)


def most_executed(program: Program, loop: Loop) -> Optional[int]:
    """How many statements an entry of a loop executes at most; none where the text doesn't tell."""
    ranges: Dict[str, Range] = {}
    for outer in program.loops_round(loop.number):
        _enter(program, outer, ranges)
    return _Walk(program).most(loop, ranges)


def most_in_iteration(program: Program, loop: Loop) -> Optional[int]:
    """How many statements an iteration of a loop executes at most; none where the text doesn't tell."""
    ranges: Dict[str, Range] = {}
    for one in [*program.loops_round(loop.number), loop]:
        _enter(program, one, ranges)
    return _Walk(program).each(loop, ranges)


class _Walk:
    """Adds up the statements of loops in one another."""

    def __init__(self, program: Program) -> None:
        self._program = program

    def most(self, loop: Loop, ranges: Mapping[str, Range]) -> Optional[int]:
        """The statements of an entry, where the variables of the loops round it have these ranges."""
        inside = dict(ranges)
        iterations = _enter(self._program, loop, inside)
        each = self.each(loop, inside) if iterations is not None else None
        return None if iterations is None or each is None else iterations * each

    def each(self, loop: Loop, ranges: Mapping[str, Range]) -> Optional[int]:
        """The statements of an iteration: each branch of an IF counts."""
        count = 0
        for number in range(loop.number + 1, loop.last + 1):
            if self._program.statement(number).loops != loop.nest:
                continue
            inner = self.most(self._program.loops[number], ranges) if number in self._program.loops else 0
            if inner is None:
                return None
            count += 1 + inner
        return count


def _enter(program: Program, loop: Loop, ranges: Dict[str, Range]) -> Optional[int]:
    """Notes the range that a loop's variable has in its body, and answers how many iterations an entry has at most."""
    first = _range(program, loop.form.first, ranges)
    last = _range(program, loop.form.last, ranges)
    step = _step(program, loop)
    ranges.pop(loop.variable, None)
    if first is None or last is None or not step:
        return None
    low, high = (first[0], last[1]) if step > 0 else (last[0], first[1])
    ranges[loop.variable] = (low, max(low, high))
    return max((high - low + abs(step)) // abs(step), 0)


def _step(program: Program, loop: Loop) -> Optional[int]:
    return value_of(loop.form.step, program.constants) if loop.form.step is not None else 1


def _range(program: Program, expression: Expression, ranges: Mapping[str, Range]) -> Optional[Range]:
    """The range of an expression of constants and variables of loops; none where it isn't told."""
    value = value_of(expression, program.constants)
    if value is not None:
        return value, value
    if isinstance(expression, Variable):
        return ranges.get(expression.name)
    if not isinstance(expression, (Call, Operation)):
        return None
    parts: List[Range] = []
    for part in expression.parts():
        found = _range(program, part, ranges)
        if found is None:
            return None
        parts.append(found)
    if isinstance(expression, Operation):
        return _operated(expression.operator, parts)
    if expression.name.startswith(("MAX", "MIN")):
        choose = max if expression.name.startswith("MAX") else min
        return choose(part[0] for part in parts), choose(part[1] for part in parts)
    return None


def _operated(operator: str, parts: List[Range]) -> Optional[Range]:
    """The range of a sum, a difference or a product."""
    (low, high), (least, most) = parts[0], parts[-1]
    if len(parts) == 1:
        return {"-": (-high, -low), "+": (low, high)}.get(operator)
    if operator == "+":
        return low + least, high + most
    if operator == "-":
        return low - most, high - least
    if operator == "*":
        products = [one * other for one in parts[0] for other in parts[1]]
        return min(products), max(products)
    return None
