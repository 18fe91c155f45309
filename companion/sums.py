"""What a loop sums up: the scalars for which the step `reduce` is meant.

Whether the step is carried out is ped's answer. What is looked up here is only whether it is worth being tried.
"""

from __future__ import annotations

from typing import List, Sequence

from .expressions import Expression, Operation, Variable
from .panes import Dependence
from .program import Program
from .statements import Assignment
from .trials import carried_names

#: The most scalars that the step takes.
_MOST = 8


def sums_of(program: Program, carried: Sequence[Dependence]) -> List[str]:
    """Of the names in rows that a loop carries those that it sums up; none where they are too many for one step."""
    names = [
        name for name in carried_names(carried)
        if name not in program.arrays and _is_summed(program, name, [row for row in carried if row.name == name])
    ]
    return names if len(names) <= _MOST else []


def reduction(loop: int, names: Sequence[str]) -> str:
    """The step for a loop that sums these scalars up."""
    return " ".join(["reduce", str(loop), *names])


def _is_summed(program: Program, name: str, rows: Sequence[Dependence]) -> bool:
    return all(_is_sum(program, name, number) for number in _statements(rows))


def _is_sum(program: Program, name: str, number: int) -> bool:
    """Whether a statement is `K = K+e`, `K = e+K` or `K = K-e`, where e doesn't name K."""
    form = program.statement(number).form
    if not isinstance(form, Assignment) or form.target.text != name:
        return False
    value = form.value
    if not isinstance(value, Operation) or value.operator not in ("+", "-") or len(value.operands) != 2:
        return False
    left, right = value.operands
    is_added_left = value.operator == "+" and _is_alone(right, name) and not _has_name(left, name)
    return is_added_left or (_is_alone(left, name) and not _has_name(right, name))


def _statements(rows: Sequence[Dependence]) -> List[int]:
    return sorted({place[0] for row in rows for place in (row.source, row.sink)})


def _is_alone(part: Expression, name: str) -> bool:
    return isinstance(part, Variable) and part.name == name


def _has_name(part: Expression, name: str) -> bool:
    return _is_alone(part, name) or any(_has_name(inner, name) for inner in part.parts())
