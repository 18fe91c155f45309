"""Whether rejected dependences occur in a run.

`C$PED REJECT` says that a dependence isn't there, and ped believes it. Such a dependence occurs in a run where its source
and, later, its sink touch one cell in two iterations of the loop that carries it, and in the same iteration of each loop
round that one. Directions in inner loops aren't looked at: those that occur are in the pane.
"""

from __future__ import annotations

from dataclasses import dataclass
from typing import Dict, List, Optional, Sequence, Tuple

from .lines import split_lines
from .messages import listed
from .panes import Dependence, Panes
from .program import Program
from .runs import MOST_STEPS, Access, Cell, Faulted, Run, TooLong
from .views import View


@dataclass(frozen=True)
class Occurrence:
    """A rejected dependence that occurs: its row, and the first two accesses that show it."""

    row: Dependence
    earlier: Access
    later: Access


#: A row, a cell, and the iterations of the loops round the one that carries the dependence.
_Source = Tuple[Dependence, Cell, Tuple[int, ...]]


class Watch:
    """Looks at the accesses of a run for rejected dependences."""

    def __init__(self, rows: Sequence[Dependence]) -> None:
        self._rows = [row for row in rows if row.is_rejected and row.level is not None]
        self._by_source: Dict[Tuple[int, int], List[Dependence]] = {}
        self._by_sink: Dict[Tuple[int, int], List[Dependence]] = {}
        for row in self._rows:
            self._by_source.setdefault(row.source, []).append(row)
            self._by_sink.setdefault(row.sink, []).append(row)
        #: The earliest access of each source: those behind it have no lesser iteration of the carrying loop.
        self._earliest: Dict[_Source, Access] = {}
        self._found: Dict[Dependence, Occurrence] = {}

    def run(self, program: Program, data: Sequence[str]) -> List[str]:
        """Runs the program on some data, and returns the rows that the run shows. Raises Faulted and TooLong."""
        return Run(program, data, {row.name for row in self._rows}, self.see).rows()

    @property
    def found(self) -> List[Occurrence]:
        """The rejected dependences that have occurred, in the order of the pane."""
        return [self._found[row] for row in self._rows if row in self._found]

    def see(self, access: Access) -> None:
        """Takes the next access of a run."""
        for row in self._by_sink.get(access.reference, ()):
            earlier = self._earliest.get(_source(row, access))
            if earlier is not None and row not in self._found and _differ(row, earlier, access):
                self._found[row] = Occurrence(row, earlier, access)
        for row in self._by_source.get(access.reference, ()):
            self._earliest.setdefault(_source(row, access), access)


def _source(row: Dependence, access: Access) -> _Source:
    assert row.level is not None
    return row, access.cell, access.iterations[:row.level - 1]


def _differ(row: Dependence, earlier: Access, later: Access) -> bool:
    """Whether two accesses are in two iterations of the loop that carries a dependence."""
    assert row.level is not None
    return earlier.iterations[row.level - 1] != later.iterations[row.level - 1]


def is_trusting(panes: Panes) -> bool:
    """Whether the program of these panes has rejected dependences."""
    return any(row.is_rejected for row in panes.dependences)


@dataclass(frozen=True)
class Examined:
    """The rejected dependences that occur in a run, or why that can't be told."""

    found: Sequence[Occurrence] = ()
    doubt: Optional[str] = None

    @property
    def words(self) -> str:
        """What is said of the run, in few words."""
        if self.doubt is not None:
            return f"it can't be told whether a rejected dependence occurs: {self.doubt}"
        names = list(dict.fromkeys(one.row.name for one in self.found))
        return f"a rejected dependence of {listed(names)} occurs" if names else "no rejected dependence occurs"


def examine(view: View, data: Optional[str], shown: Sequence[str]) -> Examined:
    """Looks for rejected dependences that occur in the run of a program in order, of which ped's `run` has shown rows.

    They are looked for in a run of pedx's own. Where that doesn't show what ped's shows, nothing is said.
    """
    watch = Watch(view.dependences)
    try:
        rows = watch.run(view.printed, split_lines(data or ""))
    except Faulted:
        return Examined(doubt="the run meets a fault")
    except TooLong:
        return Examined(doubt=f"the run takes more than {MOST_STEPS} steps")
    if rows != list(shown):
        return Examined(doubt="pedx can't follow the run")
    return Examined(watch.found)
