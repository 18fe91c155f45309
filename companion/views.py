"""A program with its dependences, as the commands look at it: of a file, or of a session behind its last line."""

from __future__ import annotations

import re
from dataclasses import dataclass
from functools import cached_property
from typing import Dict, Iterator, List, Optional, Sequence, Tuple

from .lines import Place, split_lines
from .messages import ERROR, WARNING, located
from .panes import Dependence, Panes, read_panes
from .ped import Ped, read_file, shown, understood
from .program import Loop, Program, read_program
from .refusals import refused
from .replies import Reply
from .scripts import Command, weave
from .statuses import CompanionError, Status

#: The name of the printed source in messages.
PRINTED = "<source>"


@dataclass(frozen=True)
class Question:
    """What is to be looked at: a file, or the end of a session on it."""

    file: str
    script: Optional[str] = None
    data: Optional[str] = None
    #: Whether lines are those of the printed source; always so behind a script.
    printed: bool = False

    @property
    def name(self) -> str:
        """The name of the file in messages."""
        return shown(self.file)

    @property
    def script_name(self) -> str:
        """The name of the script in messages."""
        return shown(self.script or "")


@dataclass(frozen=True)
class View:
    """A program with its dependences, and the lines in which it is shown."""

    panes: Panes
    #: The program as ped prints it.
    printed: Program
    #: The same program in the lines that are shown, and the name of these lines.
    program: Program
    lines: Sequence[str]
    name: str
    #: The lines of the script that were refused, as messages.
    complaints: Tuple[str, ...] = ()
    #: The rows that evidence disproves, as far as that was looked for; no loop carries them.
    disproved: Tuple[Dependence, ...] = ()

    @property
    def dependences(self) -> Tuple[Dependence, ...]:
        """The rows of the dependence pane."""
        return self.panes.dependences

    def carrier(self, dependence: Dependence) -> Optional[Loop]:
        """The loop that carries a dependence."""
        return carrier(self.program, dependence)

    def carried_by(self, loop: Loop) -> List[Dependence]:
        """The rows that a loop carries: of its level, with both references in it."""
        return self._by_loop.get(loop.number, [])

    def disproved_at(self, loop: Loop) -> List[Dependence]:
        """The rows that a loop would carry if evidence didn't disprove them."""
        return by_carrier(self.program, self.disproved).get(loop.number, [])

    @cached_property
    def _by_loop(self) -> Dict[int, List[Dependence]]:
        disproved = set(self.disproved)
        return by_carrier(self.program, [row for row in self.dependences if row not in disproved])


def carrier(program: Program, dependence: Dependence) -> Optional[Loop]:
    """The loop that carries a dependence: of those round both references, the one at its level."""
    if dependence.level is None:
        return None
    return program.loops_round(dependence.source[0])[dependence.level - 1]


def by_carrier(program: Program, dependences: Sequence[Dependence]) -> Dict[int, List[Dependence]]:
    """For the statement of each loop that carries something the rows that it carries, in the order of the pane."""
    rows: Dict[int, List[Dependence]] = {}
    for dependence in dependences:
        loop = carrier(program, dependence)
        if loop is not None:
            rows.setdefault(loop.number, []).append(dependence)
    return rows


def open_view(ped: Ped, question: Question) -> View:
    """Has ped show what is asked for."""
    source = read_file(question.file)
    if question.script is None:
        return view_of_file(ped.show(source), source, question)
    data = read_file(question.data) if question.data is not None else None
    woven = weave(read_file(question.script), lambda command: (), ["show"])
    replies = list(zip(woven.origins, ped.session(source, woven.text, data)))
    panes = next(read_panes(reply.rows) for origin, reply in replies if origin is None)
    return view_of_panes(panes, tuple(complaints(question.script_name, replies)))


def view_of_file(panes: Panes, source: str, question: Question) -> View:
    """The view of a file; in its own lines where they are read as ped reads them."""
    view = view_of_panes(panes)
    lines = split_lines(source)
    program = read_program(lines)
    if question.printed or shape_of(program) != shape_of(view.printed):
        return view
    # A SAVE without a list is printed with one.
    program.saved = view.printed.saved
    return View(panes, view.printed, program, lines, question.name)


def view_of_panes(panes: Panes, refusals: Tuple[str, ...] = ()) -> View:
    """The view of a printed program, in its printed lines."""
    with understood():
        printed = read_program(panes.lines)
        agrees = _agree(panes, printed)
    if not agrees:
        raise CompanionError(Status.NOT_UNDERSTOOD, "ped numbers statements or references otherwise than pedx")
    return View(panes, printed, printed, panes.lines, PRINTED, refusals)


def _agree(panes: Panes, program: Program) -> bool:
    """Whether statements and references are read as ped numbers them."""
    numbers = [(row.statement, row.line) for row in panes.source if row.statement is not None]
    return numbers == [(statement.number, statement.line) for statement in program.statements] and all(
        program.has_reference(place, dependence.name)
        for dependence in panes.dependences for place in (dependence.source, dependence.sink)
    ) and _have_loops(panes.dependences, program)


def _have_loops(dependences: Sequence[Dependence], program: Program) -> bool:
    """Whether each row has a sign and a distance for each loop round both its statements, and one of these as level."""
    depths: Dict[Tuple[int, int], int] = {}
    for row in dependences:
        ends = (row.source[0], row.sink[0])
        if ends not in depths:
            depths[ends] = len(set(program.statement(ends[0]).loops).intersection(program.statement(ends[1]).loops))
        depth = depths[ends]
        if len(row.distances) != depth or not 1 <= (row.level or 1) <= depth:
            return False
        if any(len(vector) != depth for vector in row.vectors):
            return False
    return True


def shape_of(program: Program) -> List[object]:
    """What two texts of one program have in common: what stands where, and which references there are."""
    return [
        (type(statement.form), statement.loops, statement.ifs, [(one.name, one.writes) for one in statement.references])
        for statement in program.statements
    ]


def complaints(script: str, replies: Sequence[Tuple[Optional[Command], Reply]]) -> Iterator[str]:
    """A message for each line of a script that was refused."""
    for origin, reply in replies:
        if origin is not None and reply.refusal is not None:
            line = refused_line(origin, reply.refusal)
            yield located(script, Place(line, 1), f"{ERROR}: {refused(reply.refusal, origin.word)}")


def idle_lines(script: str, replies: Sequence[Tuple[Optional[Command], Reply]]) -> Iterator[str]:
    """A message for each line of evidence in a script that proves nothing."""
    for origin, reply in replies:
        if origin is not None:
            for line in reply.idle:
                place = Place(line - reply.command.line + origin.line, 1)
                yield located(script, place, f"{WARNING}: this line of evidence proves nothing")


def refused_line(command: Command, refusal: str) -> int:
    """The line of a script that a refusal is about: that of the command, or one of the text of an edit."""
    edit = re.fullmatch(r"BadEdit \d+ \w+ at (\d+)", refusal)
    if edit is None or command.word not in ("replace", "insert"):
        return command.line
    first = int(command.words[1]) + (1 if command.word == "insert" else 0)
    index = int(edit.group(1)) - first
    return command.line + 1 + index if 0 <= index < len(command.text) else command.line
