"""What the server knows of a text of ped's language: its refusals and warnings, its loops and rows, and its steps."""

from __future__ import annotations

from dataclasses import dataclass
from typing import Iterator, List, NamedTuple, Optional, Sequence, Tuple

from ..cautions import idle_directives, parallel_loops, past_last_column, untidy_loops
from ..commands.loops import verdict
from ..commands.why import headline, reasons
from ..evidence.offers import with_evidence
from ..exports import export_of
from ..lines import Place, Span, split_lines
from ..openmp import Wishes
from ..panes import Dependence
from ..ped import Ped
from ..program import Loop
from ..refusals import REFUSALS
from ..repairs import refusals
from ..statuses import ProgramRefused
from ..sums import reduction, sums_of
from ..trials import carried_names
from ..references import INPUT, OUTPUT
from ..views import Question, View, view_of_file

ERROR, WARNING = 1, 2

#: How long is searched for evidence while a user types, in seconds.
_SECONDS = 1.0


class Notice(NamedTuple):
    """What is wrong at a place: how grave it is, the name of the rule, and the words."""

    span: Span
    severity: int
    code: str
    words: str


class Verdict(NamedTuple):
    """What is said above a loop."""

    line: int
    words: str


class Step(NamedTuple):
    """A step that ped accepts, and the text that it makes."""

    command: str
    text: str


@dataclass
class Program:
    """A text that ped takes, or refuses."""

    view: Optional[View]
    notices: List[Notice]
    lines: Sequence[str]

    @property
    def verdicts(self) -> List[Verdict]:
        """What is said above each loop."""
        view = self.view
        if view is None:
            return []
        return [
            Verdict(view.program.statement(loop.number).line, verdict(view, loop))
            for loop in view.program.loops.values()
        ]

    def told_at(self, place: Place) -> Optional[str]:
        """What is to be said of the reference at a place, or of the statement there; none where there is none."""
        if self.view is None:
            return None
        rows = [row for row in self.view.dependences if any(_has(self.view, key, place) for key in (row.source, row.sink))]
        loop = self.loop_at(place.line)
        if not rows and loop is None:
            return None
        head = [verdict(self.view, loop)] if loop is not None else []
        return "\n".join([*head, *(line for row in rows for line in _told(self.view, row))])

    def loop_at(self, line: int) -> Optional[Loop]:
        """The loop whose DO stands on a line."""
        if self.view is None:
            return None
        program = self.view.program
        return next((loop for loop in program.loops.values() if program.statement(loop.number).line == line), None)


def read_program(ped: Ped, name: str, text: str) -> Program:
    """What there is to say of a text. What of the text ped refuses stands among the notices."""
    lines = split_lines(text)
    cautions = [_notice(lines, place, WARNING, "", words) for place, words in past_last_column(lines)]
    try:
        view = view_of_file(ped.show(text), text, Question(name))
    except ProgramRefused as refusal:
        return Program(None, [*cautions, *_refused(ped, lines, refusal)], lines)
    if view.lines != lines:
        # The lines of the printed source are no lines of the text, as with subroutines: nothing is said at them.
        return Program(None, cautions, lines)
    view = with_evidence(ped, view, seconds=_SECONDS)
    found = [*parallel_loops(view), *untidy_loops(view), *idle_directives(view)]
    return Program(view, [*cautions, *(_notice(lines, place, WARNING, "", words) for place, words in found)], lines)


def _refused(ped: Ped, lines: Sequence[str], refusal: ProgramRefused) -> Iterator[Notice]:
    for one in refusals(ped, refusal)[0]:
        known = REFUSALS.get(one.number)
        place, about = one.where
        words = f"{known.rule}{f': {about}' if about else ''}; {known.instead}" if known is not None else one.name
        yield _notice(lines, place, ERROR, f"{one.number} {one.name}", f"{words}{one.because}", len(about or "1"))


def _notice(lines: Sequence[str], place: Place, severity: int, code: str, words: str, length: int = 0) -> Notice:
    """A notice at a place, over so many columns, or to the end of the line."""
    line = lines[place.line - 1] if place.line <= len(lines) else ""
    last = place.column + length - 1 if length else max(len(line), place.column)
    return Notice(Span(place, Place(place.line, last)), severity, code, words)


def _has(view: View, key: Tuple[int, int], place: Place) -> bool:
    start, end = view.program.reference(key).span
    return start <= place <= end


def _told(view: View, row: Dependence) -> Iterator[str]:
    yield headline(view, row)
    for reason in reasons(view, row):
        yield f"  {reason}"


def steps_at(ped: Ped, text: str, view: View, loop: Loop) -> List[Step]:
    """The steps that ped accepts at a loop, each with the text that it makes."""
    advised = ped.session(text, f"advise {loop.number}\n")[0].advised
    wanted = [one.command for one in advised if one.refusal is None] + list(_with_names(view, loop))
    # A step that is refused changes nothing; then `undo` is refused, too, since nothing is to be undone.
    script = "".join(f"{command}\nprint\nundo\n" for command in wanted)
    replies = ped.session(text, script)
    return [
        Step(command, "".join(f"{row}\n" for row in replies[place + 1].rows))
        for command, place in zip(wanted, range(0, len(replies), 3)) if replies[place].accepted
    ]


def _with_names(view: View, loop: Loop) -> Iterator[str]:
    """The steps that take a scalar, for the scalars that a loop carries."""
    carried = view.carried_by(loop)
    for name in carried_names(carried):
        if name not in (INPUT, OUTPUT) and name not in view.program.arrays:
            yield f"privatise {loop.number} {name}"
            yield f"expand {loop.number} {name}"
    sums = sums_of(view.program, carried)
    if sums:
        yield reduction(loop.number, sums)


def exported(ped: Ped, view: View) -> Tuple[str, Sequence[str]]:
    """The program with OpenMP directives, and what isn't sure of it."""
    export = export_of(ped, view, Wishes(False, every=False, paying=True))
    return export.text, export.doubts
