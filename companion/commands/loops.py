"""`pedx loops`: which loops are parallel, what the others carry, and what to try there."""

from __future__ import annotations

from bisect import bisect
from typing import Dict, Iterator, List, Optional, Sequence, Tuple

from ..advice import Adviser
from ..automatic import Rest, rests
from ..counting import Counts
from ..messages import counted, listed
from ..panes import KINDS, MARKS, Dependence
from ..ped import Ped
from ..program import Loop
from ..progress import Progress
from ..statuses import CompanionError, Status
from ..trials import carried_names, rows_by_name
from ..views import View

#: More loops aren't named one by one.
_MOST_NAMED = 20
#: Of a program with more lines `auto` takes some time.
_LONG = 500

#: The headings of the columns of counts.
COUNTED = f"{'entries':>11} {'iterations':>13}  {'share':>5}"


def loops(
    view: View, ped: Ped, numbers: Sequence[int], tries: bool, progress: Progress = Progress(),
    counts: Optional[Counts] = None,
) -> str:
    """The table of the loops, or of those with these statement numbers; with the counts of a run, where there are some.

    What `auto` leaves is told in the table of all loops alone, since it has ped look at all of them.
    """
    chosen = [find_loop(view, number) for number in numbers] or list(view.program.loops.values())
    if not chosen:
        return "no loops\n"
    adviser = Adviser(view, ped, chosen, tries, progress)
    left: Dict[int, List[Rest]] = {}
    if tries and not numbers and not all(loop.form.parallel for loop in chosen):
        if len(view.panes.lines) > _LONG:
            progress.announce("auto: ped looks at all loops; --no-trials does without it")
        left = rests(ped, view)
    headers = [header(loop) for loop in chosen]
    width = max(map(len, headers + ["loop"]))
    rows = [f"{'S':>4} {'line':>5}  {'loop':{width}}  {f'{COUNTED}  ' if counts else ''}verdict"]
    for loop, text in zip(chosen, headers):
        line = view.program.statement(loop.number).line
        numbered = f"{columns(counts, loop)}  " if counts else ""
        rows.append(f"{loop.number:4} {line:5}  {text:{width}}  {numbered}{verdict(view, loop)}")
        rows.extend(" " * 14 + remark for remark in _remarks(view, adviser, loop, left.get(loop.number, [])))
    return "".join(row.rstrip() + "\n" for row in rows)


def find_loop(view: View, number: int) -> Loop:
    """The loop of a statement."""
    loop = view.program.loops.get(number)
    if loop is None:
        raise CompanionError(Status.BAD_WORDS, f"statement {number} of {view.name} is no DO; {_known(view, number)}")
    return loop


def _known(view: View, number: int) -> str:
    """The statements of the loops; where there are many, the two next to a number."""
    known = list(view.program.loops)
    if not known:
        return "the loops are: there is none"
    if len(known) <= _MOST_NAMED:
        return f"the loops are: {', '.join(map(str, known))}"
    place = bisect(known, number)
    near = [str(one) for one in known[max(place - 1, 0):place + 1]]
    return f"it has {len(known)} loops, the nearest at {listed(near)}"


def header(loop: Loop) -> str:
    """The header of a loop without its label, two blanks further for each loop round it."""
    form = loop.form
    bounds = [form.first, form.last] + ([form.step] if form.step is not None else [])
    word = "PARALLEL DO" if form.parallel else "DO"
    text = f"{word} {loop.variable} = {', '.join(bound.text for bound in bounds)}"
    indented = "  " * (loop.level - 1) + text
    return indented if len(indented) <= 48 else indented[:46] + ".."


def columns(counts: Counts, loop: Loop) -> str:
    """The counts of a loop, in columns."""
    tally = counts.loops[loop.number]
    return f"{tally.entries:11,} {tally.iterations:13,} {counts.share(loop):5.1f}%"


def verdict(view: View, loop: Loop) -> str:
    """What the loop carries, in words."""
    rows = view.carried_by(loop)
    names = carried_names(rows)
    if names:
        return f"PARALLEL DO, but carries {listed(names)}" if loop.form.parallel else f"carries {listed(names)}"
    word = "parallel" if loop.form.parallel else "free"
    rejected = list(dict.fromkeys(row.name for row in rows))
    disproved = carried_names(view.disproved_at(loop))
    but = [f"what is rejected of {listed(rejected)}"] if rejected else []
    but += [f"what evidence disproves of {listed(disproved)}"] if disproved else []
    return f"{word}: carries nothing" + (f" but {listed(but)}" if but else "")


def _remarks(view: View, adviser: Adviser, loop: Loop, left: Sequence[Rest]) -> Iterator[str]:
    for name, mine in rows_by_name(view.carried_by(loop)).items():
        yield f"{name}: {summary(mine)}"
        for advice in adviser.about_name(loop, name, mine):
            yield f"- {advice}"
    for advice in [*adviser.about_loop(loop), *(rest.words for rest in left)]:
        yield f"- {advice}"


def summary(rows: List[Dependence]) -> str:
    """The kinds, the number and the marks of some rows."""
    kinds = [kind for kind in KINDS if any(row.kind == kind for row in rows)]
    return f"{', '.join(kinds)} ({counted(len(rows), 'row')}), {_marks(rows)}"


def _marks(rows: List[Dependence]) -> str:
    counts: List[Tuple[int, str]] = [(sum(row.mark == mark for row in rows), mark) for mark in MARKS]
    present = [(count, mark) for count, mark in counts if count]
    if len(present) == 1:
        return present[0][1]
    return listed([f"{count} {mark}" for count, mark in present])
