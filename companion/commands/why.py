"""`pedx why`: each row of the dependence pane in a sentence, with both references marked in their lines."""

from __future__ import annotations

from dataclasses import dataclass
from typing import Iterator, List, Optional, Sequence, Tuple

from ..doubts import doubts, why_untested
from ..evidence.offers import may_help
from ..evidence.proving import knows_evidence
from ..messages import Mark, excerpt, located
from ..panes import Dependence
from ..ped import Ped
from ..program import Loop
from ..references import INPUT, OUTPUT, Reference
from ..subscripts import Position, Test, positions
from ..views import View
from .loops import find_loop


@dataclass(frozen=True)
class Wanted:
    """Which rows are wanted; where a list is empty, all that it is about."""

    loops: Sequence[int] = ()
    statements: Sequence[int] = ()
    names: Sequence[str] = ()
    kinds: Sequence[str] = ()
    marks: Sequence[str] = ()


def why(view: View, wanted: Wanted, ped: Optional[Ped] = None) -> str:
    """The wanted rows, explained; with a ped that takes evidence, it's said where that may help."""
    rows = list(_chosen(view, wanted))
    if not rows:
        return f"{view.name}: no such row among {len(view.dependences)}\n"
    offers = ped is not None and any(may_help(view, row) for row in rows) and knows_evidence(ped, view)
    return "\n".join("".join(line + "\n" for line in explained(view, row, offers)) for row in rows)


def _chosen(view: View, wanted: Wanted) -> Iterator[Dependence]:
    loops = [find_loop(view, number).number for number in wanted.loops]
    names = [name.upper() for name in wanted.names]
    for row in view.dependences:
        carrier = view.carrier(row)
        if (
            (not loops or carrier is not None and carrier.number in loops)
            and (not wanted.statements or {row.source[0], row.sink[0]}.intersection(wanted.statements))
            and (not names or row.name in names)
            and (not wanted.kinds or row.kind in wanted.kinds)
            and (not wanted.marks or row.mark in wanted.marks)
        ):
            yield row


def explained(view: View, row: Dependence, offers: bool = False) -> Iterator[str]:
    """A row in a sentence, its references marked in their lines, and why the tests don't exclude it.

    Where evidence may disprove it, that is offered if wanted.
    """
    source, sink = view.program.reference(row.source), view.program.reference(row.sink)
    yield located(view.name, source.span.start, headline(view, row))
    yield from excerpt(view.lines, _marks(view, row, source, sink))
    for reason in reasons(view, row):
        yield f"      {reason}"
    carrier = view.carrier(row)
    if offers and carrier is not None and may_help(view, row):
        yield f"      `pedx prove FILE {carrier.number}` looks for evidence that it isn't there"
    yield f"      row: {row.row}"


def headline(view: View, row: Dependence) -> str:
    """What a row is, in a sentence."""
    carrier = view.carrier(row)
    where = "within one iteration" if carrier is None else f"carried by loop {carrier.number} (DO {carrier.variable})"
    return f"{row.kind} of {row.name} from {_key(row.source)} to {_key(row.sink)}, {where}, {row.mark}"


def _key(place: Tuple[int, int]) -> str:
    return f"{place[0]}.{place[1]}"


def _marks(view: View, row: Dependence, source: Reference, sink: Reference) -> List[Mark]:
    return [
        Mark(source.span, "^", f"{_key(row.source)} {_verb(source)}"),
        Mark(sink.span, "~", f"{_key(row.sink)} {_verb(sink)}, {when(view, row)}"),
    ]


def _verb(reference: Reference) -> str:
    return "writes" if reference.writes else "reads"


def when(view: View, row: Dependence) -> str:
    """In which iterations the sink comes, seen from the source."""
    if row.level is None:
        return "in the same iteration"
    loops = _common(view, row)
    words = []
    for level, loop in enumerate(loops[row.level - 1:], row.level):
        signs = {vector[level - 1] for vector in row.vectors}
        if level == row.level or len(row.vectors) == 1:
            words.append(_steps(signs.pop(), row.distances[level - 1], loop))
    if len(row.vectors) > 1 and len(words) < len(loops) - row.level + 1:
        words.append("and otherwise as the vectors say")
    return ", ".join(words)


def _common(view: View, row: Dependence) -> List[Loop]:
    """The loops round both references, the outermost first."""
    sink = view.program.statement(row.sink[0]).loops
    return [loop for loop in view.program.loops_round(row.source[0]) if loop.number in sink]


def _steps(sign: str, distance: object, loop: Loop) -> str:
    """How the sink's iteration of a loop stands to that of the source."""
    name = f"DO {loop.variable}"
    if isinstance(distance, int) and sign in ("<", ">"):
        count = abs(distance)
        return f"{count} iteration{'' if count == 1 else 's'} of {name} {'later' if sign == '<' else 'earlier'}"
    return {
        "<": f"in a later iteration of {name}",
        "=": f"in the same iteration of {name}",
        ">": f"in an earlier iteration of {name}",
        "<=": f"in the same or a later iteration of {name}",
        ">=": f"in the same or an earlier iteration of {name}",
        "<>": f"in another iteration of {name}",
        "*": f"in any iteration of {name}",
    }[sign]


def reasons(view: View, row: Dependence) -> Iterator[str]:
    """Why the tests don't exclude a row, and what its mark rests on."""
    source, sink = view.program.reference(row.source), view.program.reference(row.sink)
    if row.name in (INPUT, OUTPUT):
        yield "lines are read and printed in their order"
    elif row.name not in view.program.arrays:
        yield _about_scalar(view, row)
    else:
        yield from _about_subscripts(view, row, source, sink)
    if row.mark == "pending":
        for doubt in doubts(view.program, row):
            yield f"pending: {doubt}"
    elif row.is_rejected:
        yield _about_rejection(view, row)


def _about_scalar(view: View, row: Dependence) -> str:
    for loop in reversed(view.program.loops_round(row.source[0])):
        if row.name in [name.name for name in loop.private]:
            return f"{row.name} is private to an iteration of loop {loop.number} (DO {loop.variable}): it has one copy"
    return f"{row.name} is a scalar, and all iterations use the same one"


def _about_subscripts(view: View, row: Dependence, source: Reference, sink: Reference) -> Iterator[str]:
    both = positions(view.program, source, sink)
    carrier = view.carrier(row)
    decisive = _decisive(both, carrier)
    for position in both:
        decides = " decides" if position is decisive else ""
        yield f"subscript {position.number}{decides}: {_about_position(view, position)}"
    if carrier is not None and all(_leaves_out(position, carrier) for position in both):
        variable = carrier.variable
        yield f"{variable} occurs in no subscript: all iterations of DO {variable} use the same elements"


def _leaves_out(position: Position, loop: Loop) -> bool:
    """Whether a position has a test, and the variable of a loop doesn't stand in it."""
    return position.test is not Test.NONE and loop.number not in position.indices


def _decisive(both: Sequence[Position], carrier: Optional[Loop]) -> Optional[Position]:
    """The position that tells the distance in the loop that carries the dependence."""
    if carrier is None:
        return None
    tells = (one for one in both if one.test is Test.STRONG_SIV and carrier.number in one.indices)
    return next(tells, None)


def _about_position(view: View, position: Position) -> str:
    against = f"{position.source.text} against {position.sink.text}"
    if position.test is Test.NONE:
        return f"{against}: {why_untested(position)}, so nothing is excluded"
    if position.test is Test.GCD_AND_BANERJEE:
        return f"{against}: the GCD test and Banerjee's inequality don't exclude it"
    if position.test is Test.ZIV:
        return f"{against}, ZIV: the same in each iteration"
    loop = view.program.loops[min(position.indices)]
    return f"{against}, {position.test.value}{_about_index(position, loop.variable)}"


def _about_index(position: Position, variable: str) -> str:
    """What a position with one index tells of it."""
    if position.test is Test.WEAK_ZERO_SIV:
        return f": the same where {variable} is {position.meeting}"
    if position.test is Test.WEAK_CROSSING_SIV:
        return f": the same where the two values of {variable} add up to {position.meeting}"
    if position.distance is None:
        return f": no whole number of steps of DO {variable}"
    return f", distance {position.distance} in DO {variable}"


def _about_rejection(view: View, row: Dependence) -> str:
    carrier = view.carrier(row)
    directives = [one for one in carrier.directives if one.name == row.name] if carrier is not None else []
    if not directives:
        return "rejected by a directive"
    return f"rejected by the directive of line {directives[0].line}; without it the row is pending"
