"""The strategy of ped's `auto`, with evidence where `parallel` is refused for a dependence.

docs/COMMANDS.md, `auto`, says which steps are tried in which order. Here each `parallel` is tried with evidence, too,
and what is disproved isn't among the names that a loop carries. Each step is tried by ped on the present program.
"""

from __future__ import annotations

from dataclasses import dataclass
from typing import List, Optional, Sequence, Tuple

from ..panes import read_panes
from ..ped import Ped
from ..program import Loop
from ..progress import Progress
from ..questions import text_of
from ..references import INPUT, OUTPUT
from ..trials import carried_names
from ..views import View, view_of_panes
from .forbidding import forbidding, may_be_disproved
from .limits import Purse
from .proving import Kind, Prover

#: How many scalars one `reduce` takes.
_MOST_SUMS = 8


@dataclass(frozen=True)
class Left:
    """A loop that is left, and why `parallel` is refused there."""

    loop: Loop
    refusal: str


class Strategy:
    """Carries out the strategy on the program of a view. The ped has to have the commands for evidence."""

    def __init__(self, ped: Ped, view: View, purse: Purse, progress: Progress = Progress()) -> None:
        self._ped = ped
        self._purse = purse
        self._progress = progress
        self.view = view_of_panes(view.panes)
        #: The accepted steps, each as its lines in a script.
        self.steps: List[Tuple[str, ...]] = []

    def run(self) -> List[Left]:
        """Goes through the loops, until nothing more is accepted, and says which are left."""
        number = 1
        while number <= len(self.view.program.statements):
            if self._is_serial(number):
                self._treat(number)
            number += 1
        while any([self._parallel(number) for number in list(self.view.program.loops) if self._is_serial(number)]):
            pass
        return self._left()

    def _is_serial(self, number: int) -> bool:
        loop = self.view.program.loops.get(number)
        return loop is not None and not loop.form.parallel

    def _treat(self, number: int) -> None:
        """Tries the steps at a loop, and once more at the first of those that `distribute` makes of it."""
        if not self._made_free(number) and self._try([f"distribute {number}"]):
            self._made_free(number)

    def _made_free(self, number: int) -> bool:
        """Whether a loop has become parallel, or has got a list of sums."""
        if self._parallel(number):
            return True
        names = self._open_names(number)
        if names and self._are_scalars(names):
            for name in names:
                self._try([f"privatise {number} {name}"])
            if self._parallel(number):
                return True
        names = carried_names(self.view.carried_by(self.view.program.loops[number]))
        if not self._are_scalars(names) or not 1 <= len(names) <= _MOST_SUMS:
            return False
        return self._try([" ".join(["reduce", str(number), *names])])

    def _are_scalars(self, names: Sequence[str]) -> bool:
        return all(name not in self.view.program.arrays and name not in (INPUT, OUTPUT) for name in names)

    def _parallel(self, number: int) -> bool:
        """Whether `parallel` is accepted, plainly or with evidence."""
        if self._try([f"parallel {number}"]):
            return True
        if not self._may_help(number) or not self._are_elements(number):
            return False
        proof = self._prover().prove([self.view.program.loops[number]], "parallel")[0]
        return proof.is_accepted and self._try(proof.script)

    def _open_names(self, number: int) -> List[str]:
        """The names that a loop carries, but for those of which all rows are disproved."""
        loop = self.view.program.loops[number]
        names = carried_names(self.view.carried_by(loop))
        if self._are_scalars(names) or not self._may_help(number):
            return names
        proof = self._prover().prove([loop], "parallel")[0]
        rows = [one.forbidding.row for one in proof.findings if one.kind is not Kind.DISPROVED]
        return carried_names(rows)

    def _may_help(self, number: int) -> bool:
        """Whether all rows on elements that forbid `parallel` may be disproved, and there is one."""
        rows = [one.row for one in forbidding(self.view, self.view.program.loops[number], "parallel")]
        others = [row for row in rows if not self._are_scalars([row.name])]
        return bool(others) and all(may_be_disproved(self.view, row) for row in others)

    def _are_elements(self, number: int) -> bool:
        """Whether all rows that forbid `parallel` are of elements."""
        rows = [one.row for one in forbidding(self.view, self.view.program.loops[number], "parallel")]
        return all(row.name in self.view.program.arrays for row in rows)

    def _prover(self) -> Prover:
        return Prover(self._ped, self.view, self._purse, self._progress)

    def _try(self, step: Sequence[str]) -> bool:
        """Whether ped accepts a step, which then is one of those that were taken."""
        reply, shown = self._ped.session(text_of(self.view.panes.lines), text_of([*step, "show"]))
        if not reply.accepted:
            return False
        self.view = view_of_panes(read_panes(shown.rows))
        self.steps.append(tuple(step))
        self._progress.show(f"auto: {len(self.steps)} steps are taken")
        return True

    def _left(self) -> List[Left]:
        """The loops that are no PARALLEL DO, each with the cause against `parallel`."""
        loops = [loop for loop in self.view.program.loops.values() if not loop.form.parallel]
        script = text_of(f"parallel {loop.number}" for loop in loops)
        replies = self._ped.session(text_of(self.view.panes.lines), script) if loops else []
        return [Left(loop, reply.refusal) for loop, reply in zip(loops, replies) if reply.refusal is not None]


def replayed(ped: Ped, view: View, steps: Sequence[Sequence[str]]) -> Optional[Tuple[str, ...]]:
    """The source to which steps lead from the program of a view; none where ped refuses one of them."""
    lines = [line for step in steps for line in step]
    replies = ped.session(text_of(view.panes.lines), text_of([*lines, "print"]))
    return replies[-1].rows if all(reply.accepted for reply in replies[:-1]) else None
