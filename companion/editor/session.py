"""The session of the editor: the present program, the changes that have led to it, and what ped answers.

A session of ped replays its whole script. Here ped is asked about the present program alone, in one call for each
command with what is shown behind it; so the time doesn't grow with the changes. That the panes of the present source
are those of the printed program is ped's own promise, and `replays` tries it on the whole script.
"""

from __future__ import annotations

import copy
from typing import Dict, List, Optional, Sequence

from ..occurrences import Examined, examine, is_trusting
from ..panes import Dependence, Panes, read_panes
from ..ped import Ped, Runner, understood
from ..replies import Reply
from ..statuses import CompanionError, Status
from ..views import View, view_of_panes
from .changes import Change, Lines, carried_out, edit_between, lines_of, script_of
from ..outline import Outline, outline_of


class Present:
    """The present program, as ped shows it."""

    def __init__(self, panes: Panes) -> None:
        self.panes = panes
        self.lines: Lines = lines_of(panes.lines)
        with understood():
            #: The loops of the program.
            self.outline = outline_of(panes.source)
            #: For each loop the rows that it carries, in the order of the pane.
            self.carried = _carried(self.outline, panes.dependences)
        self._view: Optional[View] = None

    @property
    def text(self) -> str:
        """The program as a file."""
        return _text(self.lines)

    @property
    def is_read(self) -> bool:
        """Whether the expressions are read."""
        return self._view is not None

    @property
    def is_trusting(self) -> bool:
        """Whether the program has rejected dependences."""
        return is_trusting(self.panes)

    @property
    def view(self) -> View:
        """The program with its expressions, which are read once something asks for them; that takes time."""
        if self._view is None:
            self._view = view_of_panes(self.panes)
        return self._view


class Session:
    """What a user does to a program."""

    def __init__(self, ped: Ped, source: str, panes: Optional[Panes] = None) -> None:
        self._ped = ped
        self._source = source
        self._undone: List[Change] = []
        self._saved: List[Change] = []
        #: The data for runs.
        self.data: Optional[str] = None
        self.changes: List[Change] = []
        self.present = Present(panes or ped.show(source))

    def trial(self, run: Runner) -> Session:
        """A session as this one, to be tried on; it runs ped in a way of its own. `adopt` takes what has come of it."""
        other = copy.copy(self)
        other._ped = self._ped.run_by(run)
        other.adopt(self)
        return other

    def adopt(self, other: Session) -> None:
        """Has all changes that another session has."""
        self.present = other.present
        self.changes, self._undone, self._saved = list(other.changes), list(other._undone), list(other._saved)

    @property
    def undone(self) -> List[Change]:
        """What was undone and can be done again, the next one first."""
        return self._undone[::-1]

    @property
    def script(self) -> str:
        """The script of the changes."""
        return script_of(self.changes)

    @property
    def is_saved(self) -> bool:
        """Whether the script holds what it held when it was saved last; at the beginning it needn't be saved."""
        return self.script == script_of(self._saved)

    def mark_saved(self) -> None:
        """Takes note that the script was saved."""
        self._saved = list(self.changes)

    def load(self, script: str, is_saved: bool = True) -> List[Reply]:
        """Carries a script out, and answers what was refused. Of the script the changes that stand are kept.

        They count as saved or not, as is said.
        """
        replies = self._ped.session(self._source, script, self.data)
        self.changes, self._undone = carried_out(replies)
        self.present = self._replayed(self.changes)
        self._saved = list(self.changes) if is_saved else []
        return [reply for reply in replies if reply.refusal is not None]

    def step(self, command: str) -> Optional[str]:
        """Has ped carry out a step; answers the cause where it is refused."""
        return self._change((command,))

    def step_with_evidence(self, script: Sequence[str]) -> Optional[str]:
        """Has ped carry out a step with its evidence; answers the cause where it is refused."""
        return self._change(lines_of(script))

    def automatic(self) -> Reply:
        """Has ped make parallel what can be; each step that it takes is a change of its own."""
        reply, shown = self._ped.session(self.present.text, "auto\nshow\n")
        if reply.taken:
            present = Present(read_panes(shown.rows))
            self.changes.extend(Change(lines_of((step,))) for step in reply.taken)
            self._undone = []
            self.present = present
        return reply

    def edit(self, lines: Sequence[str]) -> Optional[str]:
        """Has ped replace the program by these lines; answers the cause where that is refused."""
        change = edit_between(self.present.lines, lines)
        return self._change(lines_of(change)) if change else None

    def undo(self) -> Optional[Change]:
        """Takes the last change back, and answers it; none where there is none."""
        if not self.changes:
            return None
        self.go_to(len(self.changes) - 1)
        return self._undone[-1]

    def redo(self) -> Optional[Change]:
        """Does the change again that was taken back last, and answers it; none where there is none."""
        if not self._undone:
            return None
        rest, change = self._undone[:-1], self._undone[-1]
        refusal = self._change(change.script)
        if refusal is not None:
            raise CompanionError(Status.NO_PED, f"ped doesn't do {change.command} again: {refusal}")
        self._undone = rest
        return change

    def go_to(self, count: int) -> None:
        """Takes changes back, or does some again, until so many stand."""
        while len(self.changes) < count and self.redo() is not None:
            pass
        if count < len(self.changes):
            before = self.changes[count].before
            if before is None:
                self.present = self._replayed(self.changes[:count])
            else:
                self.present = Present(self._ped.show(_text(before)))
            self._undone.extend(reversed(self.changes[count:]))
            del self.changes[count:]

    def answer(self, command: str) -> Reply:
        """What ped answers to a command that changes nothing, on the data that are chosen."""
        return self._ped.session(self.present.text, f"{command}\n", self.data)[0]

    def examined(self) -> Examined:
        """Whether rejected dependences occur in the run of the present program on the data that are chosen."""
        return examine(self.present.view, self.data, self.answer("run").rows)

    def replays(self) -> bool:
        """Whether the whole script leads from the first program to the present one."""
        return self._replayed(self.changes).lines == self.present.lines

    @property
    def ped(self) -> Ped:
        """The program ped."""
        return self._ped

    def _change(self, script: Lines) -> Optional[str]:
        text = "".join(line + "\n" for line in script)
        reply, shown = self._ped.session(self.present.text, text + "show\n")
        if not reply.accepted:
            return reply.refusal or "what was asked"
        present = Present(read_panes(shown.rows))
        self.changes.append(Change(script, self.present.lines))
        self._undone = []
        self.present = present
        return None

    def _replayed(self, changes: Sequence[Change]) -> Present:
        """The program behind some changes of the first program."""
        shown = self._ped.session(self._source, script_of(changes) + "show\n")[-1]
        return Present(read_panes(shown.rows))


def _carried(outline: Outline, rows: Sequence[Dependence]) -> Dict[int, List[Dependence]]:
    """For each loop the rows that it carries. It's an error where a row names what isn't there."""
    carried: Dict[int, List[Dependence]] = {}
    for row in rows:
        if row.source[0] not in outline.lines or row.sink[0] not in outline.lines:
            raise LookupError(row.row)
        loop = outline.carrier(row)
        if loop is not None:
            carried.setdefault(loop, []).append(row)
    return carried


def _text(lines: Sequence[str]) -> str:
    return "".join(line + "\n" for line in lines)
