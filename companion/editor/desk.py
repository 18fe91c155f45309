"""What is looked at: the present line with its loop, the dependences below, and what ped has answered last."""

from __future__ import annotations

import re
from typing import Dict, List, Optional, Sequence, Tuple

from ..lines import FIRST_COLUMN, LAST_COLUMN
from ..messages import listed
from ..panes import Dependence, read_dependence
from ..trials import carried_names
from .filters import ALL, Filters
from ..outline import LoopLines, Outline
from .changes import common
from .session import Present

_STATEMENTS = re.compile(r"\bat (\d+)|\band (\d+)")
_EDGE = "edge "


def line_in(old: Sequence[str], new: Sequence[str], line: int) -> int:
    """Where a line of a text stands in a later one: as far from the front, or the end, where that is as it was."""
    if line <= common(old, new):
        return line
    back = common(old[::-1], new[::-1])
    return line + len(new) - len(old) if line > len(old) - back else line


class Desk:
    """The program on the desk of a user."""

    def __init__(self, present: Present) -> None:
        self._present = present
        self._rows: Optional[List[Dependence]] = None
        self._count: Optional[int] = None
        self._filters = Filters()
        #: The present line, counted from 1; the first loop is looked at first.
        self.line = 1
        #: The row that is chosen, counted from 0, and whether the keys move in the rows.
        self.row = 0
        self.in_rows = False
        #: What was answered last, and the statements that it names.
        self.message = ""
        self.named: Dict[int, str] = {}
        if self.outline.loops:
            self.line = next(iter(self.outline.loops.values())).first_line

    @property
    def present(self) -> Present:
        """The present program."""
        return self._present

    @property
    def outline(self) -> Outline:
        """The loops of the program."""
        return self._present.outline

    @property
    def loop(self) -> Optional[LoopLines]:
        """The present loop: the innermost one at the present line."""
        return self.outline.loop_at(self.line)

    @property
    def carried(self) -> List[Dependence]:
        """The rows that the present loop carries."""
        return self._present.carried.get(self.loop.number, []) if self.loop is not None else []

    @property
    def is_free(self) -> bool:
        """Whether the present loop is a DO that carries nothing."""
        return self.loop is not None and not self.loop.parallel and not carried_names(self.carried)

    @property
    def verdict(self) -> str:
        """What the present loop carries."""
        names = carried_names(self.carried)
        rejected = " but what is rejected" if self.carried and not names else ""
        return f"carries {listed(names) or 'nothing'}{rejected}"

    @property
    def filters(self) -> Filters:
        """The filters of the rows."""
        return self._filters

    @filters.setter
    def filters(self, filters: Filters) -> None:
        self._filters = filters
        self._rows = None
        self.row = 0

    @property
    def rows(self) -> List[Dependence]:
        """The rows that are shown."""
        if self._rows is None:
            self._rows = self._filters.chosen(self._present, self.loop)
            self._count = None
            self.row = max(0, min(self.row, len(self._rows) - 1))
        return self._rows

    @property
    def count(self) -> int:
        """How many rows touch the present loop, shown or not."""
        if self._rows is None or self._count is None:
            self._count = len(Filters(level=ALL).chosen(self._present, self.loop))
        return self._count

    @property
    def chosen(self) -> Optional[Dependence]:
        """The row that is chosen."""
        return self.rows[self.row] if self.in_rows and self.rows else None

    def put(self, present: Present, statement: Optional[int] = None) -> None:
        """Puts another program on the desk; the loop at a statement, or the next one behind it, is looked at then.

        Without a statement the present line stays, where it is still there.
        """
        before, lines = self.loop, self._present.lines
        self._present = present
        self._rows = None
        self.in_rows = False
        self.named = {}
        starts = [loop.first_line for loop in self.outline.loops.values() if statement and loop.number >= statement]
        self._look(min(starts) if starts else line_in(lines, present.lines, self.line), before)

    def say(self, message: str) -> None:
        """Shows an answer, and nothing of an earlier one."""
        self.message = message
        self.named = {}

    def point(self, refusal: str) -> None:
        """Marks the statements that a refusal names, and chooses the row that it names."""
        numbers = [int(one or other) for one, other in _STATEMENTS.findall(refusal)]
        self.named = {number: "!" for number in numbers}
        if refusal.startswith(_EDGE):
            self._choose(refusal[len(_EDGE):])

    def _choose(self, text: str) -> None:
        """Chooses a row by its text, with filters that show it.

        What `fuse` is refused for is no row yet; then the two statements are marked.
        """
        for filters in (self._filters, Filters(), Filters(level=ALL)):
            rows = filters.chosen(self._present, self.loop)
            found = [index for index, row in enumerate(rows) if row.row == text]
            if found:
                self.filters = filters
                self.row, self.in_rows = found[0], True
                return
        row = read_dependence(text)
        self.named = {row.source[0]: "!", row.sink[0]: "!"}

    def go(self, line: int) -> None:
        """Goes to a line."""
        self._look(line, self.loop)

    def _look(self, line: int, before: Optional[LoopLines]) -> None:
        """Goes to a line from a loop; with the loop its filters end, but the order of the rows stays."""
        self.line = max(1, min(line, len(self._present.lines)))
        after = self.loop
        if before is after:
            return
        self._rows = None
        self.row = 0
        if before is None or after is None or before.number != after.number:
            self._filters = Filters(order=self._filters.order)

    def move(self, count: int) -> None:
        """Goes some lines, or rows, down; up where the number is negative."""
        if self.in_rows:
            self.row = max(0, min(self.row + count, len(self.rows) - 1))
        else:
            self.go(self.line + count)

    def go_to_loop(self, forward: bool) -> None:
        """Goes to the next loop in the text, or to the one before."""
        self.in_rows = False
        starts = sorted(loop.first_line for loop in self.outline.loops.values())
        ahead = [line for line in starts if (line > self.line if forward else line < self.line)]
        if ahead:
            self.go(ahead[0] if forward else ahead[-1])
        else:
            self.say("there is no further loop" if starts else "the program has no loops")

    def search(self, text: str) -> None:
        """Goes to the next line that has a text, in capitals or not; from the last line on to the first."""
        lines = [line.upper() for line in self._present.lines]
        ahead = [*range(self.line, len(lines)), *range(self.line)]
        found = next((place for place in ahead if text.upper() in lines[place]), None)
        if found is None:
            self.say(f"no line has {text}")
        else:
            self.in_rows = False
            self.go(found + 1)

    def go_out(self) -> None:
        """Goes to the loop round the present one."""
        loop = self.loop
        if loop is None or (loop.level == 1 and self.line == loop.first_line):
            self.say("no loop is round this line" if loop is None else "no loop is round this one")
            return
        outer = loop if self.line != loop.first_line else self.outline.loops[loop.nest[-2]]
        self.go(outer.first_line)

    @property
    def is_unread(self) -> bool:
        """Whether a row is chosen, and its references can't be marked before the program is read."""
        return self.chosen is not None and not self._present.is_read

    def marked(self) -> Dict[int, List[Tuple[int, int]]]:
        """For each line the columns of the two references of the chosen row, from 0 on, the last one not among them."""
        found: Dict[int, List[Tuple[int, int]]] = {}
        row = self.chosen
        for key in (row.source, row.sink) if row is not None and not self.is_unread else ():
            start, end = self._present.view.program.reference(key).span
            for line in range(start.line, end.line + 1):
                first = start.column - 1 if line == start.line else FIRST_COLUMN - 1
                found.setdefault(line, []).append((first, end.column if line == end.line else LAST_COLUMN))
        return found

    def ends_of_row(self) -> Dict[int, str]:
        """The statements of the chosen row with their marks: the source, the sink, or both."""
        row = self.chosen
        if row is None:
            return {}
        source, sink = row.source[0], row.sink[0]
        return {source: "*"} if source == sink else {source: "^", sink: "~"}
