"""Lists of sums: the comments `C$REDUCE K` at the front of a DO's body, and which of these lists are live.

The rule is that of docs/RUNS.md, "Sums in any order": a list is live where its DO stands in no other one whose list is
live, and the step `reduce` with these names would be accepted if the list weren't there. The latter is ped's answer.
"""

from __future__ import annotations

import re
from dataclasses import dataclass
from typing import Dict, Iterator, List, Sequence, Tuple

from .lines import LAST_COLUMN, is_comment, read_statements
from .ped import Ped
from .program import Loop, Program
from .statements import Private, read_form
from .sums import reduction

_LISTED = re.compile(r"C\$REDUCE([A-Z][A-Z0-9]*)")


@dataclass(frozen=True)
class SumList:
    """The list of a loop: its names, and the lines of its comments."""

    loop: Loop
    names: Tuple[str, ...]
    first_line: int
    last_line: int

    @property
    def script(self) -> List[str]:
        """The commands that ask whether the list may be there, and leave the program as it was.

        Where `reduce` is refused, the last of them is refused as well, since a session begins with nothing to undo.
        """
        step = reduction(self.loop.number, self.names)
        return [f"delete {self.first_line} {self.last_line}", step, "undo", "undo"]


def live_sums(ped: Ped, lines: Sequence[str], program: Program) -> Dict[int, Tuple[str, ...]]:
    """For each loop of a printed program whose list is live the names in it."""
    lists = list(_lists(lines, program))
    if not lists:
        return {}
    text = "".join(line + "\n" for line in lines)
    replies = iter(ped.session(text, "".join(line + "\n" for one in lists for line in one.script)))
    live: Dict[int, Tuple[str, ...]] = {}
    for one in lists:
        taken, made, *_ = [next(replies) for _ in one.script]
        if taken.accepted and made.accepted and not any(number in live for number in one.loop.nest):
            live[one.loop.number] = one.names
    return live


def _lists(lines: Sequence[str], program: Program) -> Iterator[SumList]:
    """The lists of a printed program, in the order of the text."""
    statements = {statement.first_line: statement for statement in read_statements(lines)}
    for loop in program.loops.values():
        line = statements[program.statement(loop.number).line].last_line + 1
        if line in statements and isinstance(read_form(statements[line].text), Private):
            line = statements[line].last_line + 1
        names = tuple(_names(lines[line - 1:]))
        if names:
            yield SumList(loop, names, line, line + len(names) - 1)


def _names(lines: Sequence[str]) -> Iterator[str]:
    """The names in the comments of a list at the front of some lines."""
    for line in lines:
        match = _LISTED.fullmatch(line[:LAST_COLUMN].replace(" ", "").upper()) if is_comment(line) else None
        if match is None:
            return
        yield match.group(1)
