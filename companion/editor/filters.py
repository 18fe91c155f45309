"""Which rows of the dependence pane are shown: by level, kind, mark and name."""

from __future__ import annotations

from dataclasses import dataclass, replace
from typing import Callable, Dict, List, Optional, Sequence, Tuple

from ..panes import KINDS, MARKS, Dependence
from ..outline import LoopLines
from .session import Present

#: All rows that touch the loop, those that the loop carries, and those within one iteration. Else a level is a number.
ALL = "all"
CARRIED = "carried"
WITHIN = "-"


#: The orders of the rows, by their names: that of the pane, and those by a column.
ORDERS: Dict[str, Callable[[Dependence], Tuple[object, ...]]] = {
    "pane": lambda row: (),
    "source": lambda row: row.source,
    "sink": lambda row: row.sink,
    "name": lambda row: (row.name,),
    "kind": lambda row: (KINDS.index(row.kind),),
    "level": lambda row: (row.level is None, row.level or 0),
}


@dataclass(frozen=True)
class Filters:
    """The filters, and the order; rows have to meet all filters."""

    level: str = CARRIED
    kind: str = ALL
    mark: str = ALL
    name: str = ALL
    order: str = "pane"

    def with_next_order(self) -> Filters:
        """The filters with the next order of rows."""
        return replace(self, order=_next(list(ORDERS), self.order))

    def with_next_level(self, depth: int) -> Filters:
        """The filters with the next choice of levels."""
        return replace(self, level=_next([CARRIED, ALL, *map(str, range(1, depth + 1)), WITHIN], self.level))

    def with_next_kind(self) -> Filters:
        """The filters with the next choice of kinds."""
        return replace(self, kind=_next([ALL, *KINDS], self.kind))

    def with_next_mark(self) -> Filters:
        """The filters with the next choice of marks."""
        return replace(self, mark=_next([ALL, *MARKS], self.mark))

    def with_name(self, name: str) -> Filters:
        """The filters with a name; an empty one takes all."""
        return replace(self, name=name.upper() or ALL)

    @property
    def words(self) -> str:
        """The filters as they stand above the rows."""
        chosen = [("level", self.level), ("kind", self.kind), ("mark", self.mark), ("name", self.name)]
        words = " ".join(f"{what}={choice}" for what, choice in chosen if choice != ALL) or ALL
        return words if self.order == "pane" else f"{words}, by {self.order}"

    def chosen(self, present: Present, loop: Optional[LoopLines]) -> List[Dependence]:
        """The rows that are shown for a loop; outside all loops the rows of the program."""
        return sorted([row for row in self._of_loop(present, loop) if self._allows(row)], key=ORDERS[self.order])

    def _of_loop(self, present: Present, loop: Optional[LoopLines]) -> Sequence[Dependence]:
        if loop is None:
            return present.panes.dependences
        if self.level == CARRIED:
            return present.carried.get(loop.number, [])
        return [row for row in present.panes.dependences if loop.touches(row)]

    def _allows(self, row: Dependence) -> bool:
        level = WITHIN if row.level is None else str(row.level)
        return (
            self.level in (ALL, CARRIED, level) and self.kind in (ALL, row.kind)
            and self.mark in (ALL, row.mark) and self.name in (ALL, row.name)
        )


def _next(choices: Sequence[str], present: str) -> str:
    """The choice behind the present one, the first behind the last."""
    index = choices.index(present) + 1 if present in choices else 0
    return choices[index % len(choices)]
