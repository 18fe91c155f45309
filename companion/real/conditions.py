"""IFs whose conditions depend on each other, one inside the other.

In `IF (P) T = 1` and then `IF (P) B = T` no way through both reads T without assigning it. A shape has all four ways;
here the later IF is put into both branches of the earlier one, where its condition is known to hold, or not to. That
is done only where nothing between the two tests assigns what the earlier condition reads.
"""

from __future__ import annotations

from dataclasses import dataclass
from typing import Callable, Dict, FrozenSet, Iterator, List, Optional, Sequence, Tuple

from . import tree
from .accesses import Effects, Kind, Names
from .recurrences import type_of
from .shape import BUSY, JUMPS, Action, Choice, Maybe, Part, Single, Tested
from .units import Block, Written

#: How many statements may be between two IFs that become one; they are written twice.
_MOST_BETWEEN = 8

#: The opposite of each relation between INTEGERs.
_OPPOSITE: Dict[str, str] = {
    ".GT.": ".LE.", ".LE.": ".GT.", ".GE.": ".LT.", ".LT.": ".GE.", ".EQ.": ".NE.", ".NE.": ".EQ.",
}
_TURNED: Dict[str, str] = {
    ".GT.": ".LT.", ".LT.": ".GT.", ".GE.": ".LE.", ".LE.": ".GE.", ".EQ.": ".EQ.", ".NE.": ".NE.",
}


class Conditions:
    """The conditions of one loop.

    `effects` has what its statements do, by their numbers. Those in `fixed` are written once, and in their own way.
    """

    def __init__(
        self, names: Names, constant: Callable[[tree.Expression], Optional[int]], effects: Dict[int, Effects],
        fixed: FrozenSet[int] = frozenset(),
    ) -> None:
        self._names = names
        self._constant = constant
        self._effects = effects
        self._fixed = fixed

    def joined(self, parts: Sequence[Part]) -> List[Part]:
        """Parts that are carried out one after the other, with later IFs in earlier ones."""
        found: List[Part] = list(parts)
        index = 0
        while index < len(found):
            merged = self._with_next(found, index)
            if merged is None:
                index += 1
            else:
                one, last = merged
                found[index:last + 1] = [one]
        return found

    def _with_next(self, parts: Sequence[Part], index: int) -> Optional[Tuple[Part, int]]:
        """The IF at an index with the next IF in it, and the index of the latter."""
        first = self._as_if(parts[index])
        if first is None or not self._is_steady(first.condition):
            return None
        count = 0
        for last in range(index + 1, len(parts)):
            second = self._as_if(parts[last])
            between = parts[index + 1:last]
            merged = None if second is None else self._merged(first, between, parts[last], second)
            if merged is not None:
                return (merged, last) if self._stays(first, [*first.holding, *first.other, *between]) else None
            numbers = list(_numbers([parts[last]]))
            count += len(numbers)
            if count > _MOST_BETWEEN or self._fixed.intersection(numbers) or _has_block([parts[last]]):
                return None
        return None

    def _as_if(self, part: Part) -> Optional[_If]:
        """A part as an IF of two branches; none where it isn't one."""
        head = part.head if isinstance(part, Choice) else part.node if isinstance(part, Single) else None
        statement = head.statement if isinstance(head, Written) else None
        if head is None or not isinstance(statement, (tree.LogicalIf, tree.IfThen, tree.ElseIf)):
            return None
        assert isinstance(head, Written)
        action = statement.action if isinstance(statement, tree.LogicalIf) else None
        if isinstance(action, BUSY):
            return None
        if isinstance(part, Choice):
            return _If(head, statement.condition, *part.branches) if len(part.branches) == 2 else None
        if action is None or isinstance(action, JUMPS) or head.number in self._fixed:
            return None
        return _If(head, statement.condition, (Action(head),), ())

    def _stays(self, first: _If, parts: Sequence[Part]) -> bool:
        """Whether the value of a condition stays what it is while some parts are carried out."""
        condition = self._effects[first.head.number]
        read = {access.name for access in condition.reads}
        for number in _numbers(parts):
            found = self._effects[number]
            if found.calls or found.reads_all or read.intersection(access.name for access in found.writes):
                return False
        return not (condition.calls or condition.reads_all)

    def _merged(self, first: _If, between: Sequence[Part], part: Part, second: _If) -> Optional[Part]:
        """Two IFs as one, where the value of one condition says something of the other's."""
        tested = Tested(second.head)
        holding, failing = (tested, *second.holding), (tested, *second.other)
        here, there = first.condition, second.condition
        after: Dict[bool, Tuple[Part, ...]] = {True: (part,), False: (part,)}
        if self.implies(here, there):
            after[True] = holding
        elif self._excludes(here, there):
            after[True] = failing
        if self.implies(there, here):
            after[False] = failing
        elif self._excludes(_not(here), there):
            after[False] = failing
        elif self.implies(_not(here), there):
            after[False] = holding
        if after[True] == after[False]:
            return None
        return Choice(first.head, (
            (*first.holding, *between, *after[True]), (*first.other, *between, *after[False]),
        ))

    # --- What conditions say -------------------------------------------------------------------------------------

    def implies(self, one: tree.Expression, other: tree.Expression) -> bool:
        """Whether a condition holds for certain where another one holds."""
        one, other = _plain(one), _plain(other)
        if one == other:
            return self._is_steady(one)
        if _is(other, ".AND."):
            return all(self.implies(one, part) for part in other.parts())
        if _is(one, ".OR."):
            return all(self.implies(part, other) for part in one.parts())
        if _is(one, ".AND.") and any(self.implies(part, other) for part in one.parts()):
            return True
        if _is(other, ".OR.") and any(self.implies(one, part) for part in other.parts()):
            return True
        if _is(one, ".NOT.") and _is(other, ".NOT."):
            return self.implies(other.parts()[0], one.parts()[0])
        return self._follows(one, other)

    def _excludes(self, one: tree.Expression, other: tree.Expression) -> bool:
        """Whether a condition fails for certain where another one holds."""
        return self.implies(one, _not(other))

    def _follows(self, one: tree.Expression, other: tree.Expression) -> bool:
        """The same for two relations of one INTEGER to numbers; the opposite of a relation is one, too."""
        left, right = self._relation(one), self._relation(other)
        if left is None or right is None or left[0] != right[0] or not self._is_steady(left[0]):
            return False
        _, sign, number = left
        _, wanted, limit = right
        if sign == ".EQ.":
            return _holds(number, wanted, limit)
        if sign == ".NE.":
            return wanted == ".NE." and number == limit
        # An INTEGER is above 3 where it is at least 4.
        if sign in (".GT.", ".GE."):
            least = number + (sign == ".GT.")
            return wanted in (".GT.", ".GE.", ".NE.") and _holds(least, ".GT." if wanted == ".NE." else wanted, limit)
        most = number - (sign == ".LT.")
        return wanted in (".LT.", ".LE.", ".NE.") and _holds(most, ".LT." if wanted == ".NE." else wanted, limit)

    def _relation(self, condition: tree.Expression) -> Optional[Tuple[tree.Expression, str, int]]:
        """An INTEGER expression, a relation and a number; none for other conditions."""
        if _is(condition, ".NOT."):
            inner = self._relation(_plain(condition.parts()[0]))
            return None if inner is None else (inner[0], _OPPOSITE[inner[1]], inner[2])
        if not isinstance(condition, tree.Operation) or condition.operator not in _TURNED:
            return None
        left, right = map(_plain, condition.operands)
        if type_of(left, self._names) != "INTEGER" or type_of(right, self._names) != "INTEGER":
            return None
        number = self._constant(right)
        if number is not None:
            return left, condition.operator, number
        number = self._constant(left)
        return None if number is None else (right, _TURNED[condition.operator], number)

    def _is_steady(self, expression: tree.Expression) -> bool:
        """Whether an expression has one value each time, while its variables keep theirs.

        A REAL that is computed may differ in its last digits, as compilers please.
        """
        if isinstance(expression, tree.Literal):
            return True
        if isinstance(expression, tree.Operation) and expression.is_defined:
            return False
        if isinstance(expression, (tree.Name, tree.Reference, tree.Component)) and not self._is_stored(expression):
            if type_of(expression, self._names) not in ("INTEGER", "LOGICAL"):
                return False
        is_arithmetic = isinstance(expression, tree.Operation) and expression.operator in ("+", "-", "*", "/", "**")
        if is_arithmetic and type_of(expression, self._names) != "INTEGER":
            return False
        return all(map(self._is_steady, expression.parts()))

    def _is_stored(self, designator: tree.Expression) -> bool:
        """Whether an expression is a variable or a constant, and nothing that is computed."""
        name = tree.root_of(designator)
        kind = self._names.kind_of(name) if name else None
        is_element = isinstance(designator, tree.Reference) and isinstance(designator.base, tree.Name)
        return kind in (Kind.ARRAY, Kind.CONSTANT) or kind is Kind.SCALAR and not is_element


@dataclass(frozen=True)
class _If:
    """An IF: its head, its condition, and what is carried out where that holds and where it doesn't."""

    head: Written
    condition: tree.Expression
    holding: Tuple[Part, ...]
    other: Tuple[Part, ...]


def _numbers(parts: Sequence[Part]) -> Iterator[int]:
    """The numbers of all statements in some parts."""
    for part in parts:
        if isinstance(part, Single):
            nodes = part.node.statements() if isinstance(part.node, Block) else (part.node,)
            yield from (one.number for one in nodes)
        elif isinstance(part, (Action, Tested)):
            yield part.head.number
        elif isinstance(part, Maybe):
            yield from _numbers(part.parts)
        else:
            if part.head is not None:
                yield part.head.number
            for branch in part.branches:
                yield from _numbers(branch)


def _has_block(parts: Sequence[Part]) -> bool:
    """Whether an inner DO, WHERE or FORALL is among the statements of some parts."""
    return any(
        isinstance(part.node, Block) if isinstance(part, Single)
        else _has_block(part.parts) if isinstance(part, Maybe)
        else isinstance(part, Choice) and any(map(_has_block, part.branches))
        for part in parts
    )


def _plain(expression: tree.Expression) -> tree.Expression:
    """An expression without the parentheses round it, and without two .NOT. in one another."""
    while isinstance(expression, tree.Parentheses):
        expression = expression.inner
    if _is(expression, ".NOT.") and _is(_inner(expression), ".NOT."):
        return _plain(_inner(_inner(expression)))
    return expression


def _inner(expression: tree.Expression) -> tree.Expression:
    """The only operand of an operation, without parentheses round it."""
    return _plain(expression.parts()[0])


def _not(condition: tree.Expression) -> tree.Expression:
    """The opposite of a condition."""
    condition = _plain(condition)
    return condition.parts()[0] if _is(condition, ".NOT.") else tree.Operation(".NOT.", (condition,))


def _is(expression: tree.Expression, operator: str) -> bool:
    return isinstance(expression, tree.Operation) and expression.operator == operator


def _holds(left: int, relation: str, right: int) -> bool:
    """Whether a relation holds for two numbers."""
    return {
        ".GT.": left > right, ".GE.": left >= right, ".LT.": left < right, ".LE.": left <= right,
        ".EQ.": left == right, ".NE.": left != right,
    }[relation]
