"""What each row of a System says of the program, in words: a bound of a loop, a direction, a subscript.

ped prints the rows in a fixed order (docs/COMMANDS.md, `system`), and so each is known by its place. Where that fails,
a row is told as it is printed.
"""

from __future__ import annotations

from dataclasses import dataclass
from enum import IntEnum
from typing import Dict, FrozenSet, Iterable, Iterator, List, Optional, Sequence, Set

from ..expressions import Call, Expression, Variable, occurrences, value_of
from ..messages import listed
from ..program import Loop, Program
from ..subscripts import affine_of, assigned_in, step_of
from .certificates import Claim, Split
from .systems import Place, Row, System, sum_text


class Kind(IntEnum):
    """What a row is about, in the order in which facts are told."""

    LOOP = 0
    POSITION = 1
    DIRECTION = 2
    SYMBOL = 3
    OTHER = 4


@dataclass(frozen=True)
class Fact:
    """What a row says."""

    kind: Kind
    words: str


def facts_of(program: Program, system: System) -> List[Fact]:
    """What each row of a System says."""
    reader = _Reader(program, system)
    found = list(reader.read())
    if len(found) == len(system.rows):
        return found
    return [Fact(Kind.OTHER, system.form(row)) for row in system.rows]


def sentence(facts: Iterable[Fact]) -> str:
    """Facts in one sentence."""
    by_kind: List[List[str]] = [[] for _ in Kind]
    for fact in facts:
        if fact.words not in by_kind[fact.kind]:
            by_kind[fact.kind].append(fact.words)
    loops, positions, directions, symbols, others = by_kind
    parts = [listed(_joined(loops))] if loops else []
    if positions:
        parts.append(f"the element is the same only where {listed(positions)}")
    if directions:
        parts.append(f"the directions say {listed(directions)}")
    if symbols or others:
        parts.append(listed([*symbols, *others]))
    return "; ".join(parts)


def _joined(words: Sequence[str]) -> List[str]:
    """What is said of loops, together for each of them: `DO I begins at 1 and ends at N`."""
    said: Dict[str, List[str]] = {}
    others = []
    for one in words:
        do, name, *rest = one.split(" ")
        if do == "DO":
            said.setdefault(name, []).append(" ".join(rest))
        else:
            others.append(one)
    return [*(f"DO {name} {listed(sorted(about))}" for name, about in said.items()), *others]


def used(system: System, claim: Claim) -> List[int]:
    """The rows of a System that a certificate uses, counted from 1, in order."""
    rows: Set[int] = set()
    for step in claim.steps:
        if not isinstance(step, Split):
            rows.update(number for number, factor in step.parts if factor)
    return sorted(number for number in rows if number <= len(system.rows))


def split_words(system: System, claim: Claim) -> List[str]:
    """That a certificate goes by cases, where it does."""
    names = dict.fromkeys(system.unknowns[step.unknown - 1] for step in claim.steps if isinstance(step, Split))
    return [f"by cases of {listed(list(names))}"] if names else []


def unread_subscripts(program: Program, source: Place, sink: Place) -> List[str]:
    """The subscripts of two references of which a System says nothing, in words."""
    found: Dict[str, str] = {}
    assigned = assigned_in(program, program.loops_round(source[0])[0])
    for place in (source, sink):
        own = frozenset(loop.variable for loop in program.loops_round(place[0]))
        for expression in program.reference(place).subscripts:
            if not _has_form(program, expression, own, assigned):
                found.setdefault(expression.text, f"{expression.text} isn't affine, so nothing is known of it")
    return list(found.values())


def is_told(program: Program, source: Place, sink: Place) -> bool:
    """Whether a System says something of the elements of two references: both subscripts of a position have a form."""
    assigned = assigned_in(program, program.loops_round(source[0])[0])
    sides = [frozenset(loop.variable for loop in program.loops_round(place[0])) for place in (source, sink)]
    both = zip(program.reference(source).subscripts, program.reference(sink).subscripts)
    return any(all(_has_form(program, one, own, assigned) for one, own in zip(pair, sides)) for pair in both)


def conditions(program: Program, source: Place, sink: Place) -> List[str]:
    """What a System doesn't look at: the IFs round two references, and bounds that aren't affine."""
    found: List[str] = []
    assigned = assigned_in(program, program.loops_round(source[0])[0])
    for place in (source, sink):
        ifs = program.statement(place[0]).ifs
        found.extend(f"the IF of statement {number}" for number in ifs)
        around: FrozenSet[str] = frozenset()
        for loop in program.loops_round(place[0]):
            parts = [*_operands(loop.form.first), *_operands(loop.form.last)]
            if not all(_has_form(program, part, around, assigned) for part in parts):
                found.append(f"a bound of DO {loop.variable}")
            around = around.union([loop.variable])
    return list(dict.fromkeys(found))


def _operands(bound: Expression) -> List[Expression]:
    """The operands of a bound by MAX or MIN, or the bound alone."""
    if isinstance(bound, Call) and bound.name in ("MAX", "MAX0", "MIN", "MIN0"):
        return [part for argument in bound.arguments for part in _operands(argument)]
    return [bound]


def _has_form(program: Program, expression: Expression, own: FrozenSet[str], assigned: FrozenSet[str]) -> bool:
    """Whether an expression has a form in the indices of its own side, and in what the outermost loop leaves alone."""
    names = frozenset(part.name for part in occurrences(expression) if isinstance(part, Variable))
    return affine_of(expression, program.constants, names.difference(assigned).union(own)) is not None


def values_text(system: System, values: Sequence[int]) -> str:
    """Values of the unknowns in words: first those of the indices, then those of the symbols."""
    indices: List[str] = []
    symbols: List[str] = []
    is_index = _indices(system)
    for place, (name, value) in enumerate(zip(system.unknowns, values)):
        if name.startswith("#"):
            continue
        (indices if place in is_index else symbols).append(f"{name}={value}")
    return listed_plainly(indices) + (f" for {listed_plainly(symbols)}" if symbols else "")


def listed_plainly(words: Sequence[str]) -> str:
    """Words with commas between them."""
    return ", ".join(words)


def _indices(system: System) -> Set[int]:
    """The places of the unknowns that are indices: those before the quotients, with an apostrophe or a twin."""
    primed = {name[:-1] for name in system.unknowns if name.endswith("'")}
    last = max((place for place, name in enumerate(system.unknowns) if name.endswith("'")), default=-1)
    return {place for place, name in enumerate(system.unknowns) if place <= last or name in primed}


class _Reader:
    """Goes through the rows in their order."""

    def __init__(self, program: Program, system: System) -> None:
        self._program = program
        self._system = system
        self._nests = [program.loops_round(place[0]) for place in (system.source, system.sink)]
        self._place = 0

    def read(self) -> Iterator[Fact]:
        """The facts; fewer than there are rows where a row isn't what stands at its place."""
        first = 0
        for nest in self._nests:
            own = range(first, first + len(nest))
            for place, loop in zip(own, nest):
                yield from self._about_loop(loop, place, own)
            first += len(nest)
        while self._has_quotient():
            yield self._taken(Kind.LOOP, "the steps are whole")
        for sign in self._system.pattern:
            if sign != "*":
                yield self._related()
        while self._row is not None and self._row.is_equation:
            yield self._taken(Kind.POSITION, equation_text(self._system.unknowns, self._row))
        while self._row is not None:
            name = next((one for one, factor in zip(self._system.unknowns, self._row.coefficients) if factor), "")
            yield self._taken(Kind.SYMBOL, f"{name} has 32 bits")

    @property
    def _row(self) -> Optional[Row]:
        return self._system.rows[self._place] if self._place < len(self._system.rows) else None

    def _taken(self, kind: Kind, words: str) -> Fact:
        self._place += 1
        return Fact(kind, words)

    def _about_loop(self, loop: Loop, place: int, own: range) -> Iterator[Fact]:
        """The rows of a loop: both ends of its range, its bounds, and its steps."""
        for is_upper in (False, True):
            if self._row is not None:
                yield self._taken(Kind.LOOP, self._end_text(loop, place, is_upper, self._row))
        while self._is_bound(place, own):
            assert self._row is not None
            yield self._taken(Kind.LOOP, _bound_text(self._program, loop, self._row.coefficients[place] < 0))
        if self._has_quotient() and self._is_of(place, own):
            step = step_of(self._program, loop)
            yield self._taken(Kind.LOOP, f"DO {loop.variable} goes from {loop.form.first.text} in steps of {step}")

    def _end_text(self, loop: Loop, place: int, is_upper: bool, row: Row) -> str:
        written = _bound(self._program, loop, is_upper)
        if value_of(written, self._program.constants) is not None:
            return _bound_text(self._program, loop, is_upper)
        end = row.constant if is_upper else -row.constant
        return f"{loop.variable} is at {'most' if is_upper else 'least'} {end}"

    def _is_bound(self, place: int, own: range) -> bool:
        """Whether the present row is about a bound of a loop: an inequality of its index and of something else."""
        row = self._row
        return (
            row is not None and not row.is_equation and self._is_of(place, own)
            and any(factor for other, factor in enumerate(row.coefficients) if other != place)
        )

    def _has_quotient(self) -> bool:
        row = self._row
        return row is not None and row.is_equation and any(
            factor and name.startswith("#") for name, factor in zip(self._system.unknowns, row.coefficients)
        )

    def _is_of(self, place: int, own: range) -> bool:
        """Whether the present row is about an index, and no index of the other side."""
        count = sum(map(len, self._nests))
        row = self._row
        return row is not None and row.coefficients[place] != 0 and not any(
            row.coefficients[other] for other in range(count) if other not in own
        )

    def _related(self) -> Fact:
        """The row of a direction."""
        row = self._row
        if row is None:
            return self._taken(Kind.OTHER, "")
        names = [name for name, factor in zip(self._system.unknowns, row.coefficients) if factor]
        if len(names) != 2:
            return self._taken(Kind.OTHER, self._system.form(row))
        relation = "="
        if not row.is_equation:
            relation = "<" if next(factor for factor in row.coefficients if factor) < 0 else ">"
        return self._taken(Kind.DIRECTION, f"{names[0]}{relation}{names[1]}")


def _bound(program: Program, loop: Loop, is_upper: bool) -> Expression:
    """The bound that a loop's index doesn't fall below, or doesn't exceed."""
    return loop.form.last if is_upper == (step_of(program, loop) > 0) else loop.form.first


def _bound_text(program: Program, loop: Loop, is_upper: bool) -> str:
    word = "ends" if is_upper == (step_of(program, loop) > 0) else "begins"
    return f"DO {loop.variable} {word} at {_bound(program, loop, is_upper).text}"


def equation_text(unknowns: Sequence[str], row: Row) -> str:
    """An equation with no minus sign before an unknown: `I=K'`."""
    left = Row(tuple(max(factor, 0) for factor in row.coefficients), max(row.constant, 0))
    right = Row(tuple(max(-factor, 0) for factor in row.coefficients), max(-row.constant, 0))
    return f"{sum_text(unknowns, left)}={sum_text(unknowns, right)}"
