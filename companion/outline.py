"""The loops of a printed program, found by its lines alone.

In the printed form each DO, PARALLEL DO and END DO has a line of its own. So the loops of a long program are found at
once, and nothing of its expressions is read.
"""

from __future__ import annotations

import re
from dataclasses import dataclass, field
from typing import Dict, List, Optional, Sequence, Tuple

from .lines import is_comment, is_continuation
from .panes import Dependence, SourceRow

_DO = re.compile(r"(PARALLEL DO|DO) (\w+) = ")
_ARRAY = re.compile(r"(\w+)\(")


@dataclass
class LoopLines:
    """A loop, and where it stands: the statement of its DO, its last statement, its first and its last line."""

    number: int
    header: str
    variable: str
    parallel: bool
    #: The statements of the loops round it, and its own, the outermost first.
    nest: Tuple[int, ...]
    first_line: int
    last_line: int = 0
    last: int = 0

    @property
    def level(self) -> int:
        """1 for an outermost loop."""
        return len(self.nest)

    def touches(self, row: Dependence) -> bool:
        """Whether one of the two ends of a dependence is the loop's DO or stands in the loop."""
        return self.number <= row.source[0] <= self.last or self.number <= row.sink[0] <= self.last


@dataclass
class Outline:
    """The loops of a program, and the lines of its statements."""

    loops: Dict[int, LoopLines] = field(default_factory=dict)
    #: The line at which each statement begins.
    lines: Dict[int, int] = field(default_factory=dict)
    #: For each statement the statements of the loops round it, the outermost first.
    nests: Dict[int, Tuple[int, ...]] = field(default_factory=dict)
    arrays: List[str] = field(default_factory=list)

    @property
    def depth(self) -> int:
        """How many loops stand in one another at most."""
        return max((loop.level for loop in self.loops.values()), default=0)

    def loop_at(self, line: int) -> Optional[LoopLines]:
        """The innermost loop on whose lines a line is."""
        round_it = [loop for loop in self.loops.values() if loop.first_line <= line <= loop.last_line]
        return max(round_it, key=lambda loop: loop.level) if round_it else None

    def carrier(self, row: Dependence) -> Optional[int]:
        """The loop that carries a dependence; none within one iteration."""
        return None if row.level is None else self.nests[row.source[0]][row.level - 1]


def outline_of(source: Sequence[SourceRow]) -> Outline:
    """The outline of a printed program."""
    outline = Outline()
    open_loops: List[LoopLines] = []
    for row in source:
        text = row.text.strip()
        if row.statement is not None:
            nest = tuple(loop.number for loop in open_loops)
            outline.lines[row.statement] = row.line
            outline.nests[row.statement] = nest
            for loop in open_loops:
                loop.last = row.statement
            header = _DO.match(text)
            if header is not None:
                open_loops.append(_loop(row, row.statement, header, nest))
                outline.loops[row.statement] = open_loops[-1]
        elif text == "END DO" and open_loops:
            open_loops.pop().last_line = row.line
        elif not outline.lines:
            outline.arrays.extend(_arrays(row.text))
    return outline


def _loop(row: SourceRow, number: int, header: re.Match[str], nest: Tuple[int, ...]) -> LoopLines:
    parallel = header.group(1) == "PARALLEL DO"
    return LoopLines(number, row.text.strip(), header.group(2), parallel, (*nest, number), row.line, last=number)


def _arrays(line: str) -> List[str]:
    """The arrays that are declared on a line."""
    is_declaration = line.strip().startswith("INTEGER ") or is_continuation(line)
    return _ARRAY.findall(line) if is_declaration and not is_comment(line) else []
