"""`pedx auto`: the steps of ped's `auto` as a script, and with evidence those that it permits, too."""

from __future__ import annotations

from typing import Iterator, List, Sequence, Tuple

from ..evidence.limits import Purse
from ..evidence.proving import require_evidence
from ..evidence.strategy import Strategy, replayed
from ..messages import counted
from ..ped import Ped
from ..progress import Progress
from ..questions import text_of
from ..refusals import refused
from ..statuses import CompanionError, Status
from ..views import View


def auto(
    view: View, ped: Ped, proves: bool, progress: Progress = Progress()
) -> Tuple[str, List[Tuple[str, ...]]]:
    """What the strategy does to a program, in words, and its steps."""
    if proves:
        require_evidence(ped, view)
        strategy = Strategy(ped, view, Purse(), progress)
        left = [(one.loop.number, one.refusal) for one in strategy.run()]
        steps = strategy.steps
        if replayed(ped, view, steps) != tuple(strategy.view.panes.lines):
            raise CompanionError(Status.NOT_UNDERSTOOD, "the script of the steps doesn't lead to the same program")
    else:
        reply = ped.session(text_of(view.panes.lines), "auto\n")[0]
        steps = [(step,) for step in reply.taken]
        left = [(one.number, one.refusal) for one in reply.left]
    rows = [_headline(steps), *(line for step in steps for line in step), *_left(left)]
    return "".join(row + "\n" for row in rows), steps


def _headline(steps: Sequence[Sequence[str]]) -> str:
    proved = sum(len(step) > 1 for step in steps)
    return f"auto: {counted(len(steps), 'step')}" + (f", {proved} of them with evidence" if proved else "")


def _left(left: Sequence[Tuple[int, str]]) -> Iterator[str]:
    for number, refusal in left:
        yield f"left {number}: {refused(refusal)}"
