"""What ped is asked in a session: what it advises at loops, and what comes of steps that are tried.

The command `advise` tells of each step that wants no more than a loop. Steps that take a scalar are tried. What the
loop carries then is what `deps` shows of its level: of the rows that touch the loop, no other one has both ends in it.
"""

from __future__ import annotations

import re
from dataclasses import dataclass, field
from typing import Dict, List, Optional, Sequence, Tuple

from .panes import Dependence, read_dependences
from .ped import Ped
from .progress import Progress
from .questions import ask_in_turn
from .replies import Advised, Reply
from .views import View


@dataclass(frozen=True)
class Trial:
    """Steps of a script at a loop, one after the other. The loop keeps its number and its level."""

    steps: Tuple[str, ...]
    loop: int
    level: int
    #: The scalar that the step takes.
    scalar: Optional[str] = None
    #: What the loop carries then, where that needn't be asked: what else it carried.
    rest: Tuple[str, ...] = field(default=(), compare=False)

    @property
    def script(self) -> List[str]:
        """The commands; behind them the program is as it was, since a session begins with nothing to undo."""
        shown = [] if self.rest else [f"deps {self.loop}"]
        return [*self.steps, *shown, *("undo" for _ in self.steps)]

    @property
    def sums(self) -> bool:
        """Whether the last step says what the loop sums up."""
        return self.steps[-1].startswith("reduce ")


@dataclass(frozen=True)
class Outcome:
    """What came of a trial."""

    trial: Trial
    #: The cause why one of the steps was refused; none where all were accepted.
    refusal: Optional[str]
    #: The names of what the loop carries then, without what is rejected.
    names: Tuple[str, ...]

    @property
    def accepted(self) -> bool:
        """Whether ped accepts the steps."""
        return self.refusal is None

    @property
    def named_statement(self) -> Optional[int]:
        """The statement that a refusal names as one that breaks a rule."""
        match = re.fullmatch(r"rule \d+ \w+ at (\d+)", self.refusal or "")
        return int(match.group(1)) if match else None


def carried_names(rows: Sequence[Dependence]) -> List[str]:
    """The names in some rows, but for rejected ones, in the order in which they come first."""
    return list(dict.fromkeys(row.name for row in rows if not row.is_rejected))


def rows_by_name(rows: Sequence[Dependence]) -> Dict[str, List[Dependence]]:
    """The rows of each name, but for rejected ones, the names in the order in which they come first."""
    found: Dict[str, List[Dependence]] = {}
    for row in rows:
        if not row.is_rejected:
            found.setdefault(row.name, []).append(row)
    return found


@dataclass(frozen=True)
class Answers:
    """What ped answers: what it advises at each loop, and the outcome of each trial."""

    advised: Dict[int, Tuple[Advised, ...]]
    outcomes: Dict[Trial, Outcome]


def ask(ped: Ped, view: View, loops: Sequence[int], trials: Sequence[Trial], progress: Progress) -> Answers:
    """Asks what ped advises at loops, and tries steps on the program of a view, each trial by itself."""
    scripts = [*([f"advise {loop}"] for loop in loops), *(trial.script for trial in trials)]
    answers = ask_in_turn(ped, view.panes.lines, scripts, progress, "advice")
    advised = {loop: replies[0].advised for loop, replies in zip(loops, answers)}
    return Answers(advised, {trial: _outcome(trial, replies) for trial, replies in zip(trials, answers[len(loops):])})


def _outcome(trial: Trial, replies: Sequence[Reply]) -> Outcome:
    """The outcome by the replies to the steps, and to the `deps` behind them.

    Where a step is refused, those behind it are carried out all the same; all that were accepted are undone by as many
    `undo` at least, and the others are refused, since a session begins with nothing to undo.
    """
    steps = replies[:len(trial.steps)]
    refusal = next((step.refusal for step in steps if step.refusal is not None), None)
    if refusal is not None or trial.rest:
        return Outcome(trial, refusal, trial.rest if refusal is None else ())
    return Outcome(trial, None, names_of_level(replies[len(trial.steps)], trial.level))


def names_of_level(shown: Reply, level: int) -> Tuple[str, ...]:
    """The names of what a loop carries that has this level, by the rows that `deps` shows of it."""
    if shown.refusal is not None:
        return ()
    return tuple(carried_names([row for row in read_dependences(shown.rows) if row.level == level]))
