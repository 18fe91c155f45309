"""What the subscripts of two references say about a dependence: which test each position gets, and what it tells.

The rules are those of docs/PANES.md, "The tests". Nothing is tested here: ped has done that. This module says in
words what ped has looked at, and the tests of the companion compare it with the distances that ped prints.
"""

from __future__ import annotations

from dataclasses import dataclass
from enum import Enum
from fractions import Fraction
from typing import Dict, FrozenSet, List, Mapping, Optional, Tuple

from .expressions import Expression, Operation, Variable, value_of
from .program import Loop, Program
from .references import Reference
from .statements import Do

#: The greatest sizes of a coefficient and of a constant, and of a bound of a loop.
_COEFFICIENT = 2**31
_CONSTANT = 2**62


class Test(Enum):
    """The test that a position gets, by the indices that occur in it."""

    ZIV = "ZIV"
    STRONG_SIV = "strong SIV"
    WEAK_ZERO_SIV = "weak-zero SIV"
    WEAK_CROSSING_SIV = "weak-crossing SIV"
    GCD_AND_BANERJEE = "GCD and Banerjee"
    NONE = "none"


@dataclass(frozen=True)
class Affine:
    """A sum of names, each times a coefficient that isn't 0, and a constant."""

    coefficients: Mapping[str, int]
    constant: int


@dataclass(frozen=True)
class Position:
    """The two subscripts at one position, the test that they get, and what it tells."""

    number: int
    source: Expression
    sink: Expression
    test: Test
    #: The numbers of the loops whose variables occur.
    indices: FrozenSet[int] = frozenset()
    #: Where the test is strong SIV, the distance in iterations of the one loop, if it is whole.
    distance: Optional[int] = None
    #: Where the test is weak-zero SIV, the value of the variable at which both sides meet; where it is weak-crossing
    #: SIV, the sum of the two values.
    meeting: Optional[Fraction] = None
    #: Where there is no test, the subscript, or the name, that excludes one.
    hindrance: str = ""


def affine_of(expression: Expression, constants: Mapping[str, int], unknowns: FrozenSet[str]) -> Optional[Affine]:
    """A subscript as an affine form of these unknowns, where it is one."""
    value = value_of(expression, constants)
    form: Optional[Affine] = None
    if value is not None:
        form = Affine({}, value)
    elif isinstance(expression, Variable) and expression.name in unknowns:
        form = Affine({expression.name: 1}, 0)
    elif isinstance(expression, Operation) and expression.operator in ("+", "-", "*"):
        form = _combined(expression.operator, [affine_of(part, constants, unknowns) for part in expression.operands])
    return form if form is not None and _is_limited(form) else None


def _combined(operator: str, forms: List[Optional[Affine]]) -> Optional[Affine]:
    if any(form is None for form in forms):
        return None
    first, last = forms[0], forms[-1]
    assert first is not None and last is not None
    if operator == "*":
        if first.coefficients and last.coefficients:
            return None
        factor, form = (last, first) if first.coefficients else (first, last)
        return _sum([(factor.constant, form)])
    sign = -1 if operator == "-" else 1
    return _sum([(sign, first)] if len(forms) == 1 else [(1, first), (sign, last)])


def _sum(terms: List[Tuple[int, Affine]]) -> Affine:
    coefficients: Dict[str, int] = {}
    for factor, form in terms:
        for name, coefficient in form.coefficients.items():
            coefficients[name] = coefficients.get(name, 0) + factor * coefficient
    return Affine(
        {name: coefficient for name, coefficient in coefficients.items() if coefficient},
        sum(factor * form.constant for factor, form in terms),
    )


def _is_limited(form: Affine) -> bool:
    return abs(form.constant) <= _CONSTANT and all(abs(one) <= _COEFFICIENT for one in form.coefficients.values())


def positions(program: Program, source: Reference, sink: Reference) -> List[Position]:
    """The positions of a pair of references to one array."""
    pair = _Pair(program, source, sink)
    both = zip(source.subscripts, sink.subscripts)
    return [pair.position(number, *subscripts) for number, subscripts in enumerate(both, 1)]


class _Pair:
    """A pair of references with a loop round both."""

    def __init__(self, program: Program, source: Reference, sink: Reference) -> None:
        self._program = program
        #: For each side the loops round it, by their variables.
        self._sides = [
            {loop.variable: loop for loop in program.loops_round(reference.statement)} for reference in (source, sink)
        ]
        outermost = program.loops_round(source.statement)[0]
        self._assigned = assigned_in(program, outermost)

    def position(self, number: int, source: Expression, sink: Expression) -> Position:
        """The position of two subscripts."""
        forms = []
        for side, subscript in zip(self._sides, (source, sink)):
            unknowns = _names(subscript).difference(self._assigned).union(side)
            form = affine_of(subscript, self._program.constants, frozenset(unknowns))
            if form is None:
                return self._untested(number, source, sink, subscript.text)
            forms.append(form)
        for name in sorted(set(forms[0].coefficients).union(forms[1].coefficients)):
            if self._is_symbol(name) and forms[0].coefficients.get(name) != forms[1].coefficients.get(name):
                return self._untested(number, source, sink, name)
        return self._tested(number, source, sink, forms)

    def _untested(self, number: int, source: Expression, sink: Expression, hindrance: str) -> Position:
        return Position(number, source, sink, Test.NONE, self._indices_in(source, sink), hindrance=hindrance)

    def _is_symbol(self, name: str) -> bool:
        return all(name not in side for side in self._sides)

    def _indices_in(self, *subscripts: Expression) -> FrozenSet[int]:
        """The loops whose variables stand in the subscripts."""
        return frozenset(
            side[name].number
            for side, subscript in zip(self._sides, subscripts) for name in _names(subscript) if name in side
        )

    def _tested(self, number: int, source: Expression, sink: Expression, forms: List[Affine]) -> Position:
        ours, theirs = (
            {side[name].number: form.coefficients[name] for name in form.coefficients if name in side}
            for side, form in zip(self._sides, forms)
        )
        indices = frozenset(ours).union(theirs)
        if not indices:
            return Position(number, source, sink, Test.ZIV, indices)
        loop = self._program.loops[min(indices)]
        if len(indices) > 1 or not self._is_common(loop):
            return Position(number, source, sink, Test.GCD_AND_BANERJEE, indices)
        a, b = ours.get(loop.number, 0), theirs.get(loop.number, 0)
        apart = forms[0].constant - forms[1].constant
        test = _siv_test(a, b)
        distance = _whole(apart, a * step_of(self._program, loop)) if test is Test.STRONG_SIV else None
        meets = test in (Test.WEAK_ZERO_SIV, Test.WEAK_CROSSING_SIV)
        return Position(number, source, sink, test, indices, distance, Fraction(apart, b or -a) if meets else None)

    def _is_common(self, loop: Loop) -> bool:
        return all(loop in side.values() for side in self._sides)


def _siv_test(a: int, b: int) -> Test:
    if a == b:
        return Test.STRONG_SIV
    if a == 0 or b == 0:
        return Test.WEAK_ZERO_SIV
    return Test.WEAK_CROSSING_SIV if a == -b else Test.GCD_AND_BANERJEE


def _whole(dividend: int, divisor: int) -> Optional[int]:
    return dividend // divisor if dividend % divisor == 0 else None


def _names(expression: Expression) -> FrozenSet[str]:
    """The names of which an affine form can be made: those outside elements, quotients, powers and functions."""
    if isinstance(expression, Variable):
        return frozenset([expression.name])
    if not isinstance(expression, Operation) or expression.operator not in ("+", "-", "*"):
        return frozenset()
    return frozenset().union(*(_names(part) for part in expression.operands))


def assigned_in(program: Program, loop: Loop) -> FrozenSet[str]:
    """The names that a loop assigns: by an assignment or a READ, in PRIVATE, or as the variable of a DO."""
    known = program.assigned.get(loop.number)
    if known is None:
        names = {
            reference.name
            for number in range(loop.number, loop.last + 1) for reference in program.statement(number).references
            if reference.writes
        }
        known = frozenset(names.union([loop.variable], (inner.variable for inner in program.inner_loops(loop))))
        program.assigned[loop.number] = known
    return known


def step_of(program: Program, loop: Loop) -> int:
    """The increment of a loop."""
    step = value_of(loop.form.step, program.constants) if loop.form.step is not None else 1
    return step if step is not None else 1


def constant_bounds(program: Program, form: Do) -> Optional[Tuple[int, int]]:
    """The initial value and the limit of a loop, where both are constant."""
    first, last = value_of(form.first, program.constants), value_of(form.last, program.constants)
    if first is None or last is None or max(abs(first), abs(last)) > _CONSTANT:
        return None
    return first, last


def iterations(program: Program, loop: Loop) -> Optional[int]:
    """How many iterations a loop has, where its bounds are constant."""
    bounds = constant_bounds(program, loop.form)
    if bounds is None:
        return None
    step = step_of(program, loop)
    return max((bounds[1] - bounds[0] + step) // step, 0)
