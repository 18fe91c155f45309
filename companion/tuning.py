"""What a single step does for a loop that isn't parallel: each step is tried in a session, and `parallel` behind it.

Whether a step is carried out and whether the loop may then be parallel is ped's answer. What is looked up here is only
where the loop stands behind the step, and what it then carries. `reduce` leaves the loop a DO, and needs no `parallel`.
"""

from __future__ import annotations

from dataclasses import dataclass
from typing import Dict, Iterator, List, Optional, Sequence, Tuple

from .messages import listed
from .outline import LoopLines, Outline, outline_of
from .panes import read_source_row
from .ped import Ped
from .progress import Progress
from .questions import ask_in_turn
from .references import INPUT, OUTPUT
from .replies import Reply
from .sums import reduction, sums_of
from .trials import carried_names, names_of_level
from .views import View


#: How many loops are taken apart before the source pane is shown.
_TOGETHER = 32


@dataclass(frozen=True)
class Place:
    """Where a loop stands: its DO, and its level."""

    number: int
    level: int


@dataclass(frozen=True)
class Attempt:
    """A step to be tried, and where the loop stands then; no step is an attempt, too."""

    step: Optional[str]
    place: Place
    #: What the loop carries then, where that needn't be asked.
    names: Optional[Tuple[str, ...]] = None

    @property
    def script(self) -> List[str]:
        """The commands; behind them the program is as it was, since a session begins with nothing to undo."""
        steps = [self.step] if self.step is not None else []
        number = self.place.number
        shown = [f"deps {number}"] if self.names is None else []
        made = [] if self.names else [f"parallel {number}"]
        return [*steps, *shown, *made, *["undo"] * len((*steps, *made))]

    @property
    def sums(self) -> bool:
        """Whether the step says what the loop sums up."""
        return (self.step or "").startswith("reduce ")

    @property
    def divides(self) -> bool:
        """Whether the step takes the loop apart."""
        return (self.step or "").startswith("distribute ")


@dataclass(frozen=True)
class Result:
    """What came of an attempt."""

    attempt: Attempt
    #: Why the step was refused, and why `parallel` was; none where they were carried out, or not tried.
    refusal: Optional[str]
    hindrance: Optional[str]
    #: What the loop carries behind the step.
    names: Tuple[str, ...]

    @property
    def frees(self) -> bool:
        """Whether the iterations may be done in any order behind the step."""
        return self.refusal is None and (self.attempt.sums or self.hindrance is None and not self.attempt.names)


def attempts(view: View, outline: Outline, loop: LoopLines) -> Iterator[Attempt]:
    """The steps that may do something for a loop, and first none at all."""
    here = Place(loop.number, loop.level)
    carried = view.carried_by(view.program.loops[loop.number])
    names = tuple(carried_names(carried))
    yield Attempt(None, here, names)
    sums = sums_of(view.program, carried)
    if sums and sums == list(names):
        yield Attempt(reduction(loop.number, sums), here, names)
    for name in names:
        if name not in (INPUT, OUTPUT) and name not in view.printed.arrays:
            # These steps take away the rows of the scalar, and no other ones.
            rest = tuple(other for other in names if other != name) or None
            yield Attempt(f"privatise {loop.number} {name}", here, rest)
            yield Attempt(f"expand {loop.number} {name}", here, rest)
    if names:
        yield Attempt(f"peel {loop.number} first", Place(loop.last, loop.level))
        yield Attempt(f"peel {loop.number} last", here)
        yield Attempt(f"interchange {loop.number}", Place(loop.number + 1, loop.level + 1))
    elif loop.level > 1:
        outer = outline.loops[loop.nest[-2]]
        if outer.number == loop.number - 1 and view.carried_by(view.program.loops[outer.number]):
            yield Attempt(f"interchange {outer.number}", Place(outer.number, outer.level))


def division(loop: int, level: int, names: Tuple[str, ...]) -> Attempt:
    """The attempt to take a loop apart; what comes of it `parts` says."""
    return Attempt(f"distribute {loop}", Place(loop, level), names)


def results(ped: Ped, view: View, tried: Sequence[Attempt], progress: Progress) -> List[Result]:
    """What comes of attempts, each on the program of a view by itself."""
    answers = ask_in_turn(ped, view.panes.lines, [attempt.script for attempt in tried], progress, "steps")
    return [_result(attempt, replies) for attempt, replies in zip(tried, answers)]


def _result(attempt: Attempt, replies: Sequence[Reply]) -> Result:
    rest = list(replies)
    refusal = rest.pop(0).refusal if attempt.step is not None else None
    if refusal is not None:
        return Result(attempt, refusal, None, ())
    names = attempt.names if attempt.names is not None else names_of_level(rest.pop(0), attempt.place.level)
    # What the loop carries forbids `parallel`, so that isn't tried.
    return Result(attempt, None, rest[0].refusal if not attempt.names else None, names)


@dataclass(frozen=True)
class Parts:
    """The loops that `distribute` makes of one, by their statements, and those of them that carry nothing."""

    numbers: Tuple[int, ...]
    free: Tuple[int, ...]

    @property
    def words(self) -> str:
        """What the step does to the loop, in words."""
        made = f"makes {len(self.numbers)} loops of it"
        if not self.free:
            return made
        verb = "carries" if len(self.free) == 1 else "carry"
        return f"{made}, of which {listed([str(number) for number in self.free])} {verb} nothing"


def parts(ped: Ped, view: View, loops: Sequence[LoopLines], progress: Progress) -> Dict[int, Parts]:
    """What `distribute` makes of each of some loops, for which ped accepts it."""
    made = _made_of(ped, view, _groups(loops), progress)
    scripts = [
        [f"distribute {number}", *(f"deps {one}" for one in numbers), "undo"] for number, numbers in made.items()
    ]
    levels = {loop.number: loop.level for loop in loops}
    found: Dict[int, Parts] = {}
    answers = ask_in_turn(ped, view.panes.lines, scripts, progress, "their parts")
    for (number, numbers), replies in zip(made.items(), answers):
        free = [one for one, shown in zip(numbers, replies[1:]) if not names_of_level(shown, levels[number])]
        found[number] = Parts(tuple(numbers), tuple(free))
    return found


def _groups(loops: Sequence[LoopLines]) -> List[List[LoopLines]]:
    """Loops in groups: those of a group have one level, so none stands in another one, and are in text order."""
    levels: Dict[int, List[LoopLines]] = {}
    for _, loop in sorted({loop.number: loop for loop in loops}.items()):
        levels.setdefault(loop.level, []).append(loop)
    return [alike[first:first + _TOGETHER] for alike in levels.values() for first in range(0, len(alike), _TOGETHER)]


def _made_of(
    ped: Ped, view: View, groups: Sequence[Sequence[LoopLines]], progress: Progress
) -> Dict[int, List[int]]:
    """For each loop those that `distribute` makes of it alone.

    The source pane is that of the whole program. So it is shown once for a group, and the last loop is taken apart
    first, which leaves the numbers of the others. Where that fails for one of them, each is taken apart by itself.
    """
    scripts = [
        [*(f"distribute {loop.number}" for loop in reversed(group)), "source", *("undo" for _ in group)]
        for group in groups
    ]
    made: Dict[int, List[int]] = {}
    alone: List[List[LoopLines]] = []
    answers = ask_in_turn(ped, view.panes.lines, scripts, progress, "groups of loops taken apart")
    for group, replies in zip(groups, answers):
        if len(group) == 1 or all(reply.accepted for reply in replies[:len(group)]):
            made.update(_made_of_group(view, group, replies[len(group)].rows))
        else:
            alone.extend([loop] for loop in group)
    if alone:
        made.update(_made_of(ped, view, alone, progress))
    return made


def _made_of_group(view: View, group: Sequence[LoopLines], source: Sequence[str]) -> Iterator[Tuple[int, List[int]]]:
    """The loops in the place of each of a group, by the rows of the source pane; they share its body's statements."""
    last = group[-1].last_line + len(source) - 1 - len(view.panes.source)
    # Directives before the first loop may be gone to another of its parts.
    first = group[0].first_line - len(view.printed.loops[group[0].number].directives)
    outline = outline_of([read_source_row(row) for row in source[max(first, 1):last + 1]])
    further = 0
    for loop in group:
        numbers: List[int] = []
        number, left = loop.number + further, loop.last - loop.number
        while left > 0 or not numbers:
            numbers.append(number - further)
            left -= outline.loops[number].last - number
            number = outline.loops[number].last + 1
        further += len(numbers) - 1
        yield loop.number, numbers
