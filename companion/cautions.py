"""What pedx warns of in a program that ped reads."""

from __future__ import annotations

from typing import Iterable, Iterator, Sequence, Tuple

from .expressions import value_of
from .lines import LAST_COLUMN, Place, is_comment
from .messages import listed
from .openmp import Sums
from .program import Loop, Program
from .trials import carried_names
from .views import View

#: How many names a caution lists.
_MOST_NAMES = 8

#: A place, and what is said of it.
Caution = Tuple[Place, str]


def past_last_column(lines: Sequence[str]) -> Iterator[Caution]:
    """Text behind column 72, where nothing is read."""
    for number, line in enumerate(lines, 1):
        text = line[LAST_COLUMN:].strip(" ")
        if text and not is_comment(line):
            yield Place(number, LAST_COLUMN + 1), f"text past column {LAST_COLUMN} isn't read: {text}"


def parallel_loops(view: View) -> Iterator[Caution]:
    """PARALLEL DO loops that carry dependences."""
    for loop in view.program.loops.values():
        names = carried_names(view.carried_by(loop))
        if loop.form.parallel and names:
            place = view.program.statement(loop.number).span.start
            yield place, f"the iterations of this PARALLEL DO may race: it carries dependences of {listed(names)}"


def idle_directives(view: View) -> Iterator[Caution]:
    """Directives that reject nothing."""
    for loop in view.program.loops.values():
        rejected = {row.name for row in view.carried_by(loop) if row.is_rejected}
        for directive in loop.directives:
            if directive.name not in rejected:
                words = f"loop {loop.number} carries nothing pending of {directive.name}"
                yield Place(directive.line, 1), f"this directive rejects nothing: {words}"


def untidy_loops(view: View) -> Iterator[Caution]:
    """PARALLEL DO loops that aren't tidy, as docs/COMMANDS.md says it; of SAVE as far as it is seen without paths."""
    program = view.program
    for loop in program.loops.values():
        if not loop.form.parallel:
            continue
        place = program.statement(loop.number).span.start
        for variable in dict.fromkeys([loop.variable, *(inner.variable for inner in program.inner_loops(loop))]):
            writers = [number for number in _assigning(program, variable) if number in loop]
            if writers:
                words = f"statement {writers[0]} in it assigns {variable}, the variable of a loop"
                yield place, f"this PARALLEL DO isn't tidy: {words}"
            elif variable in program.saved and not _may_overwrite(program, loop, variable):
                words = f"{variable} is in SAVE, and nothing after the loop assigns it"
                yield place, f"this PARALLEL DO isn't tidy: {words}"


def _assigning(program: Program, name: str) -> Iterator[int]:
    """The statements that assign a scalar outside the loops of it, each of them perhaps more than once."""
    return (one.statement for one in program.references() if one.writes and one.name == name)


def _may_overwrite(program: Program, loop: Loop, variable: str) -> bool:
    """Whether a statement that may come behind a loop gives its variable a value."""
    loops = (one.number for one in program.loops.values() if one.variable == variable and one is not loop)
    outermost = program.loops[loop.nest[0]]
    return any(
        number > loop.last or number in outermost and number not in loop
        for number in [*_assigning(program, variable), *loops]
    )


def doubtful_directives(view: View, loops: Iterable[Loop], sums: Sums) -> Iterator[Tuple[Loop, str]]:
    """What isn't sure of loops that get a directive for OpenMP; the names in a live list of sums are no cause."""
    for loop in loops:
        rows = [row for row in view.carried_by(loop) if row.name not in sums.get(loop.number, ())]
        carried = carried_names(rows)
        if carried:
            yield loop, f"the iterations of this loop may race: it carries dependences of {_some(carried)}"
        rejected = list(dict.fromkeys(row.name for row in rows if row.is_rejected))
        if rejected:
            words = f"this loop rests on C$PED REJECT {_some(rejected)}"
            yield loop, f"{words}: that its iterations don't race is taken on trust"
        if _leaves_range(view.program, loop):
            yield loop, f"after this loop {loop.variable} would leave 32 bits: compiled, the loop may miss iterations"


def _some(names: Sequence[str]) -> str:
    """Names, of many the first ones."""
    if len(names) <= _MOST_NAMES:
        return listed(names)
    return listed([*names[:_MOST_NAMES], f"{len(names) - _MOST_NAMES} others"])


def _leaves_range(program: Program, loop: Loop) -> bool:
    """Whether it is known of a loop that its variable leaves 32 bits after the last iteration."""
    form = loop.form
    first, last = value_of(form.first, program.constants), value_of(form.last, program.constants)
    step = value_of(form.step, program.constants) if form.step is not None else 1
    if first is None or last is None or not step:
        return False
    after = first + max((last - first + step) // step, 0) * step
    return not -2**31 <= after < 2**31
