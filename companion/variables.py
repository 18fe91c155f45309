"""The variables of a loop: which are shared, private, sums or carried, and which are read after the loop."""

from __future__ import annotations

from typing import Dict, List, NamedTuple, Sequence

from .messages import listed
from .panes import Dependence
from .program import Loop, Program
from .recurrences import readers_after
from .references import INPUT, OUTPUT
from .sums import sums_of
from .trials import rows_by_name
from .views import View

#: What a variable is to a loop, in the order of the list.
CARRIED, SUM, REJECTED, LINES, PRIVATE, INDEX, SHARED = ROLES = (
    "carried", "sum", "rejected", "lines", "private", "index", "shared"
)


class Variable(NamedTuple):
    """A variable or an array that is referred to in a loop."""

    name: str
    role: str
    is_array: bool
    #: What the role means here.
    words: str
    #: Who may read the value that the loop leaves; empty where nobody does.
    after: str


def variables_of(view: View, loop: Loop) -> List[Variable]:
    """The variables of a loop: first what it carries, then by their roles, and within a role as they occur."""
    rows = rows_by_name(view.carried_by(loop))
    all_rows: Dict[str, List[Dependence]] = {}
    for row in view.carried_by(loop):
        all_rows.setdefault(row.name, []).append(row)
    sums = sums_of(view.program, view.carried_by(loop))
    found = [
        _variable(view.program, loop, name, rows.get(name, ()), all_rows.get(name, ()), name in sums)
        for name in _names(view.program, loop)
    ]
    return sorted(found, key=lambda variable: ROLES.index(variable.role))


def _names(program: Program, loop: Loop) -> List[str]:
    """The names that are referred to in the iterations of a loop, as they occur; and the variables of its loops."""
    indices = [loop.variable, *(inner.variable for inner in program.inner_loops(loop))]
    names = [
        one.name for number in range(loop.number + 1, loop.last + 1) for one in program.statement(number).references
    ]
    return list(dict.fromkeys([*indices, *(name.name for name in loop.private), *names]))


def _variable(
    program: Program, loop: Loop, name: str, carried: Sequence[Dependence], rows: Sequence[Dependence], is_sum: bool
) -> Variable:
    uses = program.uses_in(loop, name)
    is_array = name in program.arrays
    is_index = name == loop.variable or name in [inner.variable for inner in program.inner_loops(loop)]
    is_written = is_index or any(one.writes for one in uses)
    after = _after(program, loop, name) if is_written else ""
    if name in (INPUT, OUTPUT):
        return Variable(name, LINES, False, "lines are read and printed in their order", "")
    if carried:
        count = f"{len(carried)} row{'' if len(carried) == 1 else 's'}"
        words = "the loop only adds to it" if is_sum else f"the loop carries it in {count}"
        return Variable(name, SUM if is_sum else CARRIED, is_array, words, after)
    if rows:
        return Variable(name, REJECTED, is_array, "C$PED REJECT says that the loop doesn't carry it", after)
    if name in [private.name for private in loop.private]:
        return Variable(name, PRIVATE, is_array, "each iteration has its own copy", after)
    if is_index:
        return Variable(name, INDEX, is_array, "the variable of a DO", after)
    words = f"no two iterations use {'one element' if is_array else 'it'}, unless both only read"
    return Variable(name, SHARED, is_array, words if is_written else "iterations only read it", after)


def _after(program: Program, loop: Loop, name: str) -> str:
    """Who may read the value of a variable that a loop leaves."""
    readers = [str(number) for number in dict.fromkeys(readers_after(program, loop, name))]
    words = []
    if readers:
        shown = readers if len(readers) <= 4 else [*readers[:3], "others"]
        words.append(f"statement{'' if len(readers) == 1 else 's'} {listed(shown)}")
    if name in program.saved:
        words.append("SAVE")
    return listed(words)
