"""Why a dependence is pending: what keeps the tests from proving it; and whether a user may know better.

The rule is that of docs/PANES.md, "Marks". A dependence is proven where constants alone decide that both statements
are reached, and where each subscript tells of its loop all that there is to know.
"""

from __future__ import annotations

from typing import Dict, List, Sequence, Tuple

from .expressions import value_of
from .panes import Dependence
from .program import Loop, Program
from .statements import Do
from .subscripts import Position, Test, iterations, positions


def doubts(program: Program, dependence: Dependence) -> List[str]:
    """Each cause why the dependence isn't proven, in words; none where it is."""
    causes = []
    statements = sorted({dependence.source[0], dependence.sink[0]})
    loops: Dict[int, Loop] = {}
    for number in statements:
        loops.update((loop.number, loop) for loop in program.loops_round(number))
    for _, loop in sorted(loops.items()):
        causes.extend(_about_loop(program, loop))
    for number in statements:
        ifs = program.statement(number).ifs
        if ifs:
            causes.append(f"statement {number} is in the IF of statement {ifs[-1]}")
    both = positions(program, program.reference(dependence.source), program.reference(dependence.sink))
    for position in both:
        causes.extend(_about_position(position))
    return causes


def may_reject(program: Program, rows: Sequence[Dependence]) -> bool:
    """Whether a user may know that the rows of one name aren't there, so that `reject` is worth being offered.

    All iterations use one scalar, so its rows are no matter of doubt. Of an array each row has to be pending for a
    subscript that leaves open which element it is; where bounds and IFs alone are open, the elements are the same.
    """
    if not rows or any(row.mark != "pending" or row.name not in program.arrays for row in rows):
        return False
    # Several rows may be of two references.
    return all(_is_open(program, *pair) for pair in {(row.source, row.sink) for row in rows})


def _is_open(program: Program, source: Tuple[int, int], sink: Tuple[int, int]) -> bool:
    """Whether a subscript of one of two references to an array leaves open which element it is."""
    return any(map(_about_position, positions(program, program.reference(source), program.reference(sink))))


def _about_loop(program: Program, loop: Loop) -> List[str]:
    count = iterations(program, loop)
    if count is None:
        return [f"{_open_bound(program, loop.form)} of loop {loop.number} (DO {loop.variable}) isn't constant"]
    if count < 2:
        return [f"loop {loop.number} (DO {loop.variable}) has {'no' if count == 0 else 'one'} iteration"]
    return []


def _open_bound(program: Program, form: Do) -> str:
    if value_of(form.first, program.constants) is None:
        return f"the initial value {form.first.text}"
    return f"the limit {form.last.text}"


def _about_position(position: Position) -> List[str]:
    if position.test is Test.NONE:
        return [f"subscript {position.number}: {why_untested(position)}"]
    if position.test in (Test.ZIV, Test.STRONG_SIV):
        return []
    if position.test is Test.GCD_AND_BANERJEE:
        return [f"subscript {position.number}: the GCD test and Banerjee's inequality don't tell a distance"]
    return [f"subscript {position.number}: {position.test.value} doesn't tell a distance"]


def why_untested(position: Position) -> str:
    """Why a position has no test."""
    if position.hindrance in (position.source.text, position.sink.text):
        return f"{position.hindrance} isn't affine"
    return f"{position.hindrance} isn't the same on both sides"
