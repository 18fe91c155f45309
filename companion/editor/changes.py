"""The changes of a session as a script, and the change that leads from one text to another."""

from __future__ import annotations

import sys
from dataclasses import dataclass
from typing import List, Optional, Sequence, Tuple

from ..replies import Reply
from ..scripts import END_OF_TEXT

#: The lines of a program. Equal lines of several programs are kept once.
Lines = Tuple[str, ...]


class NoChange(Exception):
    """No edit leads to the text, because of one of its lines."""

    def __init__(self, line: int, cause: str) -> None:
        super().__init__(f"line {line}: {cause}")
        self.line = line


@dataclass(frozen=True)
class Change:
    """A change that ped has carried out: its lines in a script, and the program before it, where that is known."""

    script: Lines
    before: Optional[Lines] = None

    @property
    def command(self) -> str:
        """The command, without the text of an edit."""
        return self.script[0]


def lines_of(texts: Sequence[str]) -> Lines:
    """Lines to be kept."""
    return tuple(sys.intern(text) for text in texts)


def script_of(changes: Sequence[Change]) -> str:
    """The script of some changes."""
    return "".join(line + "\n" for change in changes for line in change.script)


def edit_between(old: Sequence[str], new: Sequence[str]) -> Lines:
    """The edit that makes new lines of the old ones, and touches as few of them as can be; nothing where none does."""
    front = common(old, new)
    back = common(old[front:][::-1], new[front:][::-1])
    taken = old[front:len(old) - back]
    put = new[front:len(new) - back]
    if END_OF_TEXT in put:
        line = front + put.index(END_OF_TEXT) + 1
        raise NoChange(line, "a line that is a period and nothing else can't be put into a program")
    if not taken and not put:
        return ()
    if not put:
        return (f"delete {front + 1} {front + len(taken)}",)
    command = f"replace {front + 1} {front + len(taken)}" if taken else f"insert {front}"
    return (command, *put, END_OF_TEXT)


def common(one: Sequence[str], other: Sequence[str]) -> int:
    """How many lines two texts have in common at their fronts."""
    pairs = zip(one, other)
    return next((count for count, (left, right) in enumerate(pairs) if left != right), min(len(one), len(other)))


def carried_out(replies: Sequence[Reply]) -> Tuple[List[Change], List[Change]]:
    """What a session has changed: the changes that stand, and those that `redo` would bring back, the next one last.

    In the place of an `auto` stand the steps that it has taken, each of which `undo` takes back by itself.
    """
    done: List[Change] = []
    undone: List[Change] = []
    for reply in replies:
        if reply.taken:
            done.extend(Change(lines_of((step,))) for step in reply.taken)
            undone = []
        if not reply.accepted:
            continue
        if reply.command.word == "undo":
            undone.append(done.pop())
        elif reply.command.word == "redo":
            done.append(undone.pop())
        else:
            done.append(Change(_script_of(reply)))
            undone = []
    return done, undone


def _script_of(reply: Reply) -> Lines:
    return lines_of(reply.command.written)
