"""How often each statement of a program is executed: counted by gfortran and gcov.

gcov's count of a line of a loop may hold that of the jump back, too. So the text that is compiled has a statement of
its own, a mark, before each numbered statement, at the front of each part of an IF, and at the front and at the end of
each body of a loop. A mark has a line of its own, and nothing jumps to the middle of it; so its count is exact.
"""

from __future__ import annotations

import re
import tempfile
from dataclasses import dataclass, field
from pathlib import Path
from typing import Dict, List, Mapping, Optional, Sequence, Tuple

from .compilers import counts, make, run, wanted_compiler, wanted_counter
from .lines import FIRST_COLUMN, WrittenStatement, read_statements
from .openmp import Wishes, translate
from .program import Loop
from .renaming import Names
from .statements import Assignment, BlockIf, Do, ElseIf, Print, Read, Word, read_form
from .statuses import CompanionError, Status
from .views import View

#: Without optimisation each mark stays where it is. Subscripts are checked, since a fault makes counts worthless.
_OPTIONS = ("--coverage", "-O0", "-w", "-fcheck=bounds")
_DROPPED = ("-fopenmp", "-O2")
#: The environment may send gcov's files elsewhere.
_ENVIRONMENT = {"GCOV_PREFIX": "", "GCOV_PREFIX_STRIP": "0"}

_AT_LINE = re.compile(r"At line (\d+) of file")
_RUNTIME = "Fortran runtime error: "
_SIGNALS = {8: "a division by zero", 11: "it leaves its memory, or has too little"}


@dataclass(frozen=True)
class Tally:
    """What a run has done of a loop: how often it was entered, its iterations, and the statements in its body."""

    entries: int
    iterations: int
    executed: int


@dataclass(frozen=True)
class Counts:
    """What a run has done: all executed statements, and each loop by its statement."""

    total: int
    loops: Dict[int, Tally]

    def share(self, loop: Loop) -> float:
        """The share of all executed statements that is in a loop, in hundredths."""
        return 100.0 * self.loops[loop.number].executed / self.total if self.total else 0.0


@dataclass
class Marked:
    """A text with marks."""

    lines: List[str] = field(default_factory=list)
    #: For each numbered statement, but for ELSE IF, the line of the mark before it.
    before: Dict[int, int] = field(default_factory=dict)
    #: For each loop the line of the mark at the front of its body.
    fronts: Dict[int, int] = field(default_factory=dict)
    #: For each ELSE IF the statement of the condition before it, and the line of the mark in the part of that one.
    chained: Dict[int, Tuple[int, int]] = field(default_factory=dict)
    #: The line of each numbered statement.
    places: Dict[int, int] = field(default_factory=dict)

    def executed(self, by_line: Mapping[int, int]) -> Dict[int, int]:
        """How often each numbered statement was executed, by the counts of the lines."""
        found: Dict[int, int] = {}
        for number in sorted(self.places):
            if number in self.chained:
                condition, line = self.chained[number]
                found[number] = found[condition] - by_line.get(line, 0)
            else:
                found[number] = by_line.get(self.before[number], 0)
        return found

    def statement_at(self, line: int) -> Optional[int]:
        """The numbered statement at a line, or the last one before it."""
        numbers = [number for number, place in self.places.items() if place <= line]
        return max(numbers) if numbers else None


def marked(lines: Sequence[str]) -> Marked:
    """A translated program with marks; its statements have the numbers of the program."""
    marker = _Marker(lines)
    for written in read_statements(lines):
        marker.take(written)
    return marker.finish()


class _Marker:
    """Puts marks into a text, statement by statement."""

    def __init__(self, lines: Sequence[str]) -> None:
        self._lines = lines
        self._mark = f"{' ' * (FIRST_COLUMN - 1)}{Names(lines).new()} = 0"
        self._made = Marked()
        self._done = 0
        self._number = 0
        #: For each open IF its last condition, and the line of the mark in the part of that one.
        self._parts: List[Tuple[int, int]] = []

    def finish(self) -> Marked:
        """The whole text."""
        self._copy(len(self._lines))
        return self._made

    def take(self, written: WrittenStatement) -> None:
        """Takes a statement."""
        self._copy(written.first_line - 1)
        form = read_form(written.text)
        if form == Word("ENDDO"):
            self._put()
        elif form == Word("ENDIF"):
            self._parts.pop()
        elif isinstance(form, ElseIf):
            self._numbered()
            self._made.chained[self._number] = self._parts.pop()
        elif isinstance(form, (Assignment, BlockIf, Do, Print, Read)) or form == Word("STOP"):
            line = self._put()
            self._numbered()
            self._made.before[self._number] = line
        self._copy(written.last_line)
        if isinstance(form, Do):
            self._made.fronts[self._number] = self._put()
        elif isinstance(form, (BlockIf, ElseIf)):
            self._parts.append((self._number, self._put()))

    def _numbered(self) -> None:
        """Gives the next statement its number."""
        self._number += 1
        self._made.places[self._number] = len(self._made.lines) + 1

    def _put(self) -> int:
        """Puts a mark, and answers its line."""
        self._made.lines.append(self._mark)
        return len(self._made.lines)

    def _copy(self, last: int) -> None:
        """Copies the lines up to a line."""
        self._made.lines.extend(self._lines[self._done:last])
        self._done = max(self._done, last)


def counts_of(view: View, data: Optional[str]) -> Counts:
    """The counts of a run of a program on these data, taken in order."""
    words = wanted_compiler("counting")
    counter = wanted_counter(words)
    translated = translate(view.panes.lines, view.printed, {}, Wishes(), {})
    text = marked(translated.lines)
    options = [*_OPTIONS, *(one for one in translated.options if one not in _DROPPED)]
    with tempfile.TemporaryDirectory(prefix="pedx-") as name:
        folder = Path(name)
        make(words, options, folder, "".join(f"{line}\n" for line in text.lines))
        ran = run(folder, data, _ENVIRONMENT)
        if ran.status != 0:
            raise CompanionError(Status.FAULT, _about_fault(view, text, ran.status, ran.said))
        by_line = counts(counter, folder)
    return _tallied(view, text, by_line)


def _tallied(view: View, text: Marked, by_line: Mapping[int, int]) -> Counts:
    """The counts of the loops."""
    executed = text.executed(by_line)
    if list(executed) != [statement.number for statement in view.printed.statements]:
        raise ValueError("the text that is compiled has other statements than the program")
    loops = {}
    for loop in view.printed.loops.values():
        inside = sum(executed[number] for number in range(loop.number + 1, loop.last + 1))
        loops[loop.number] = Tally(executed[loop.number], by_line.get(text.fronts[loop.number], 0), inside)
    return Counts(sum(executed.values()), loops)


def _about_fault(view: View, text: Marked, status: int, said: str) -> str:
    """What is said of a run that hasn't come to its end: the place, where it is told, and the cause."""
    cause = said.partition(_RUNTIME)[2].partition("\n")[0].strip()
    if cause.startswith("End of file"):
        cause = "data are missing; --data names a file that holds them"
    if not cause:
        cause = _SIGNALS.get(-status, f"signal {-status} ends it") if status < 0 else f"it ends with status {status}"
    at = _AT_LINE.search(said)
    number = text.statement_at(int(at.group(1))) if at is not None else None
    place = f" at line {view.program.statement(number).line}" if number is not None else ""
    return f"the run of {view.name} ends with a fault{place}, so nothing is counted: {cause}"
