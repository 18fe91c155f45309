"""Lists of the editor: the loops, the changes, and the variables of a loop with the steps that take them."""

from __future__ import annotations

from typing import List

from ..program import Loop
from ..trials import carried_names
from ..variables import CARRIED, SUM, Variable, variables_of
from ..views import View
from .desk import Desk
from .keys import EXPAND, PRIVATISE, REDUCE
from .pages import KEYS, Listed
from .pictures import Style
from .session import Session


def loops_list(desk: Desk) -> Listed:
    """All loops with what they carry, to go to the line of one. Behind the last key they have none."""
    keys = iter(KEYS)
    listed = Listed([], [], [], [])
    styles: List[Style] = []
    for loop in desk.outline.loops.values():
        names = carried_names(desk.present.carried.get(loop.number, []))
        shape = "*" if names else "=" if loop.parallel else "o"
        words = f"carries {', '.join(names)}" if names else "parallel" if loop.parallel else "free"
        styles.append(Style.CARRIES if names else Style.PARALLEL if loop.parallel else Style.FREE)
        listed.places.append(len(listed.lines))
        listed.chosen.append(str(loop.first_line))
        listed.lines.append(
            f"{next(keys, ''):>3}  {shape} {loop.number:4} {'  ' * (loop.level - 1)}{loop.header}: {words}"
        )
    if not listed.lines:
        return Listed(["The program has no loops."], [], [])
    here = str(desk.loop.first_line) if desk.loop is not None else ""
    first = listed.chosen.index(here) if here in listed.chosen else 0
    return listed._replace(styles=styles, first=first)


def changes_list(session: Session) -> Listed:
    """The changes, each with its command, to go back and forth in: a choice says how many of them are to stand."""
    keys = iter(KEYS)
    done = len(session.changes)
    commands = ["the program as it was", *(change.command for change in (*session.changes, *session.undone))]
    lines = []
    for count, command in enumerate(commands):
        state = "  <- here" if count == done else "  (undone)" if count > done else ""
        lines.append(f"{next(keys, ''):>3}  {count or '':>4} {command}{state}")
    places = list(range(len(lines)))
    return Listed(lines, list(map(str, places)), places, first=done)


def variables_list(view: View, loop: Loop) -> Listed:
    """The variables of a loop, each with its role, the keys of the steps meant for it, and who wants it after."""
    variables = variables_of(view, loop)
    width = max((len(one.name) for one in variables), default=0)
    lines = []
    for one in variables:
        after = f"; wanted after by {one.after}" if one.after else ""
        lines.append(f" {one.name:{width}}  {one.role:8}  {' '.join(_steps(loop, one)):3}  {one.words}{after}")
    names = [one.name for one in variables]
    return Listed(lines or ["Nothing is referred to in this loop."], names, list(range(len(names))), keys="")


def _steps(loop: Loop, one: Variable) -> List[str]:
    """The keys of the steps that take a scalar. Whether ped accepts them is seen when they are carried out."""
    if loop.form.parallel or one.is_array:
        return []
    return [REDUCE] if one.role == SUM else [PRIVATISE, EXPAND] if one.role == CARRIED else []


def scalars_of(key: str, name: str, view: View, loop: Loop) -> str:
    """The scalars that a step of the list of variables takes: `reduce` takes all sums where the chosen one is a sum."""
    sums = [one.name for one in variables_of(view, loop) if one.role == SUM]
    return " ".join(sums) if key == REDUCE and name in sums else name
