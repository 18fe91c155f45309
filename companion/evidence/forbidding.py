"""Which rows of the dependence pane forbid a step that evidence may permit, and in which directions.

The rule is that of docs/COMMANDS.md, of the steps `parallel`, `reverse` and `interchange`.
"""

from __future__ import annotations

from dataclasses import dataclass
from itertools import product
from typing import List, Sequence, Tuple

from ..panes import Dependence
from ..program import Loop
from ..views import View

#: The steps that take evidence.
STEPS = ("parallel", "reverse", "interchange")

#: The directions that a sign of the pane stands for.
_DIRECTIONS = {"<": "<", "=": "=", ">": ">", "<=": "<=", ">=": "=>", "<>": "<>", "*": "<=>"}

#: A direction for each loop round both references.
Vector = Tuple[str, ...]


@dataclass(frozen=True)
class Forbidding:
    """A row that forbids a step, a pattern that fits all vectors in which it does, and these vectors."""

    row: Dependence
    pattern: Vector
    vectors: Tuple[Vector, ...]


def forbidding(view: View, loop: Loop, step: str) -> List[Forbidding]:
    """The rows that forbid a step at a loop, in the order of the pane."""
    found = []
    for row in view.carried_by(loop):
        vectors = _vectors(row, loop.level) if step == "interchange" else _all_vectors(row)
        if vectors and not row.is_rejected:
            found.append(Forbidding(row, _pattern(len(row.distances), loop.level, step), vectors))
    return found


def may_be_disproved(view: View, row: Dependence) -> bool:
    """Whether evidence may disprove a row: it is pending, and of elements."""
    return row.mark == "pending" and row.name in view.program.arrays


def is_doubtful(view: View, loop: Loop, step: str = STEPS[0]) -> bool:
    """Whether rows forbid a step at a loop, and evidence may disprove each of them."""
    rows = [one.row for one in forbidding(view, loop, step)]
    return bool(rows) and all(may_be_disproved(view, row) for row in rows)


def _all_vectors(row: Dependence) -> Tuple[Vector, ...]:
    """The vectors of a row, with one direction at each loop."""
    return tuple(dict.fromkeys(
        vector for written in row.vectors for vector in product(*(_DIRECTIONS[sign] for sign in written))
    ))


def _vectors(row: Dependence, level: int) -> Tuple[Vector, ...]:
    """Those that go back in the loop inside the one of a level."""
    return tuple(vector for vector in _all_vectors(row) if vector[level:level + 1] == (">",))


def _pattern(depth: int, level: int, step: str) -> Vector:
    front = ("=",) * (level - 1) + ("<",) + ((">",) if step == "interchange" else ())
    return front + ("*",) * (depth - len(front))


def step_with_evidence(step: str, loop: int, lines: Sequence[str]) -> Tuple[str, ...]:
    """A step as a script has it: with its evidence, or plainly where it needs none."""
    return (f"{step} {loop} by", *lines, ".") if lines else (f"{step} {loop}",)
