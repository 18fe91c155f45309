"""A program translated for OpenMP, with all that isn't sure of it.

A directive says that the iterations of a loop don't race. ped says so of a loop that carries no dependence. Of a loop
that carries one, or whose dependences a user has rejected, nobody has proved it. That is said at the directive and in
a message.
"""

from __future__ import annotations

from dataclasses import dataclass
from typing import Dict, List, Mapping, Optional, Sequence, Tuple

from .cautions import doubtful_directives
from .choices import choice_of
from .counting import Counts
from .faults import FAULTS
from .lists import live_sums
from .messages import ERROR, WARNING, located
from .openmp import Wishes, translate
from .ped import Ped
from .program import Loop
from .replies import Race, Reply
from .views import View


@dataclass(frozen=True)
class Export:
    """A translated program."""

    text: str
    #: The options of gfortran with which it is to be compiled.
    options: Tuple[str, ...]
    #: A message for each thing that isn't sure of it.
    doubts: Tuple[str, ...]


def export_of(
    ped: Ped, view: View, wishes: Wishes, data: Optional[str] = None, counts: Optional[Counts] = None
) -> Export:
    """The program of a view, translated. Where there are data, ped looks for a race in the run on them.

    Where there are counts of a run, they choose the loops that get a directive.
    """
    lines = view.panes.lines
    sums = live_sums(ped, lines, view.printed)
    choice = choice_of(view.printed, sums, wishes, counts)
    loops = {number: view.program.loops[number] for number in choice.loops}
    notes: Dict[int, List[str]] = {}
    doubts = []
    for loop, words in doubtful_directives(view, loops.values(), sums):
        notes.setdefault(loop.number, []).append(_note(words))
        doubts.append(located(view.name, view.program.statement(loop.number).span.start, f"{WARNING}: {words}"))
    if data is not None:
        reply, = ped.session("".join(line + "\n" for line in lines), "races\n", data)
        if reply.race is not None:
            notes.setdefault(_loop_of(reply.race, loops), []).append(_note(_about_race(reply.race)))
        doubts.extend(_about_run(view, reply))
    translated = translate(lines, view.printed, sums, wishes, notes, choice)
    text = "".join(line + "\n" for line in translated.lines)
    return Export(text, translated.options, tuple(doubts))


def _note(words: str) -> str:
    """What a comment at a directive says."""
    return f"PEDX: {words.upper()}."


def _about_race(race: Race) -> str:
    words = f"two iterations of a PARALLEL DO use {race.cell}, at statements {race.first} and {race.second}"
    return f"a run on the given data has a race: {words}"


def _loop_of(race: Race, loops: Mapping[int, Loop]) -> int:
    """The outermost loop with a directive that has the two statements of a race in it; 0 where none has."""
    return next((number for number, loop in loops.items() if race.first in loop and race.second in loop), 0)


def _about_run(view: View, reply: Reply) -> Sequence[str]:
    """What the search for a race has found."""
    if reply.race is not None:
        place = view.program.statement(reply.race.first).span.start
        return [located(view.name, place, f"{ERROR}: {_about_race(reply.race)}")]
    if reply.fault is not None:
        place = view.program.statement(reply.fault.statement).span.start
        cause = FAULTS.get(reply.fault.number, "unknown")
        words = f"nothing is promised on the given data, where the run meets fault {reply.fault.number}: {cause}"
        return [located(view.name, place, f"{WARNING}: {words}")]
    return []
