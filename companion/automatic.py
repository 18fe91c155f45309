"""What `auto` would leave of a program: which loops stay, and why.

ped numbers statements anew where it takes a loop apart. So each loop gets a comment before it, by which it is found
again: what `distribute` makes of a loop stands in its place, one loop behind the other.
"""

from __future__ import annotations

from collections import Counter
from dataclasses import dataclass
from typing import Dict, Iterator, List, Optional, Sequence

from .lines import is_comment
from .outline import outline_of
from .panes import read_source
from .ped import Ped
from .questions import text_of
from .refusals import refused
from .views import View

#: A program's file has no more bytes.
_MOST_BYTES = 2**20


@dataclass(frozen=True)
class Rest:
    """A loop that `auto` leaves, and what it was before."""

    #: The statement of the loop before, and of what is left of it behind.
    loop: int
    number: int
    #: Whether `auto` has taken the loop apart, and the step by which what is left got sums.
    is_part: bool
    sums: Optional[str]
    #: Why `parallel` is refused, in the numbers of the program behind.
    refusal: str

    @property
    def words(self) -> str:
        """What is left, and why."""
        left = "it"
        if self.is_part:
            left = f"loop {self.number} of it"
        elif self.number != self.loop:
            left = f"it as loop {self.number}"
        sums = f" after `{self.sums}`" if self.sums is not None else ""
        return f"`auto` leaves {left}{sums}: {refused(self.refusal)}"


def rests(ped: Ped, view: View) -> Dict[int, List[Rest]]:
    """For each loop of a program what `auto` would leave of it; nothing where the program leaves no room to ask."""
    text = text_of(marked(view))
    if len(text) > _MOST_BYTES:
        return {}
    automatic, shown = ped.session(text, "auto\nsource\n")
    owners = _owners(_mark(view), shown.rows)
    parts = Counter(owners.values())
    sums = {step.split()[1]: step for step in automatic.taken if step.startswith("reduce ")}
    found: Dict[int, List[Rest]] = {}
    for left in automatic.left:
        owner = owners.get(left.number)
        if owner is not None:
            is_part = parts[owner] > 1
            rest = Rest(owner, left.number, is_part, sums.get(str(left.number)), left.refusal)
            found.setdefault(owner, []).append(rest)
    return found


def _mark(view: View) -> str:
    """The front of the comments before loops: one with which no comment of the program begins."""
    marks = (f"CLOOP{number} " for number in range(10**5))
    return next(mark for mark in marks if not any(line.startswith(mark) for line in view.panes.lines))


def marked(view: View) -> Iterator[str]:
    """The printed program, with a comment before each loop, and before its directives."""
    mark = _mark(view)
    loops = {
        min([directive.line for directive in loop.directives] + [view.printed.statement(loop.number).line]): loop.number
        for loop in view.printed.loops.values()
    }
    for number, line in enumerate(view.panes.lines, 1):
        if number in loops:
            yield f"{mark}{loops[number]}"
        yield line


def _owners(mark: str, rows: Sequence[str]) -> Dict[int, int]:
    """For each loop of a source pane the loop that it was before, by the last comment in its list of statements."""
    source = read_source(rows)
    outline = outline_of(source)
    # One entry for each list of statements that is open: the loop of the last comment in it.
    last: List[Optional[int]] = [None]
    owners: Dict[int, int] = {}
    for row in source:
        text = row.text.strip()
        if row.text.startswith(mark) and is_comment(row.text):
            last[-1] = int(row.text[len(mark):])
        elif row.statement in outline.loops:
            owner = last[-1]
            if row.statement is not None and owner is not None:
                owners[row.statement] = owner
            last.append(None)
        elif text == "END DO" and len(last) > 1:
            last.pop()
    return owners
