"""What a session answers, taken apart: the rows that each command of a script has printed.

docs/COMMANDS.md says what each command prints. A change and a refusal are answered in one row that begins with the
line of the command, and the first row of an `auto` begins so; what is shown has no such number, and is told by its
first words.
"""

from __future__ import annotations

import re
from dataclasses import dataclass
from typing import Callable, Dict, List, Optional, Sequence, Tuple

from .evidence.systems import length_of
from .panes import calls_length, dependences_length, source_length
from .scripts import Command
from .statuses import CompanionError, Status

_ANSWER = re.compile(r"(\d+): (ok|refused .*|auto \d+)")
_IDLE = re.compile(r"(\d+): idle")
_AUTO = "auto "
_REFUSED = "refused "
_TAKEN = "+ "
_LEFT = re.compile(r"left (\d+) (.+)")
_FAULT = re.compile(r"fault (\d+) at (\d+)")
_RACE = re.compile(r"race (\S+) at (\d+) and (\d+)")
_ADVISED = ("interchange", "reverse", "distribute", "fuse", "parallel", "serial", "peel first", "peel last")
_LAST_PRINTED = " " * 6 + "END"


class NoReply(CompanionError):
    """The answer isn't that of a session with these commands."""

    def __init__(self, row: str) -> None:
        super().__init__(Status.NOT_UNDERSTOOD, f"ped answered what isn't understood: {row!r}")


@dataclass(frozen=True)
class Fault:
    """A run that met a fault: its number and the statement."""

    number: int
    statement: int


@dataclass(frozen=True)
class Race:
    """A race: its cell, and the statements of the earlier and of the later access."""

    cell: str
    first: int
    second: int


@dataclass(frozen=True)
class Advised:
    """What `advise` says of a step: the step as a command, and why it is refused; none where it could be done."""

    command: str
    refusal: Optional[str]

    @property
    def word(self) -> str:
        """The first word of the command."""
        return self.command.split()[0]

    @property
    def is_forbidden(self) -> bool:
        """Whether a dependence forbids the step."""
        return (self.refusal or "").startswith("edge ")


@dataclass(frozen=True)
class Left:
    """A loop that `auto` leaves: its statement in the program behind, and why `parallel` is refused there."""

    number: int
    refusal: str


@dataclass(frozen=True)
class Reply:
    """The rows that a command has printed."""

    command: Command
    rows: Tuple[str, ...]

    @property
    def accepted(self) -> bool:
        """Whether a change was carried out."""
        return self._answer == "ok"

    @property
    def refusal(self) -> Optional[str]:
        """The cause of a refusal, without the word `refused`."""
        answer = self._answer
        return answer[len(_REFUSED):] if answer is not None and answer.startswith(_REFUSED) else None

    @property
    def idle(self) -> Tuple[int, ...]:
        """The lines of evidence that have proved nothing, by their lines in the script."""
        matches = [_IDLE.fullmatch(row) for row in self.rows[1:]] if self.command.takes_evidence else []
        return tuple(int(match.group(1)) for match in matches if match is not None)

    @property
    def taken(self) -> Tuple[str, ...]:
        """The steps that an `auto` has taken, as commands in order."""
        return tuple(row[len(_TAKEN):] for row in self._report if row.startswith(_TAKEN))

    @property
    def left(self) -> Tuple[Left, ...]:
        """The loops that an `auto` leaves."""
        matches = [_LEFT.fullmatch(row) for row in self._report]
        return tuple(Left(int(match.group(1)), match.group(2)) for match in matches if match is not None)

    @property
    def _report(self) -> Tuple[str, ...]:
        return self.rows if (self._answer or "").startswith(_AUTO) else ()

    @property
    def fault(self) -> Optional[Fault]:
        """The fault that a `run` or a `races` has met."""
        match = self.command.word in ("run", "races") and _FAULT.fullmatch(self.rows[0])
        return Fault(int(match.group(1)), int(match.group(2))) if match else None

    @property
    def race(self) -> Optional[Race]:
        """The race that a `races` has found."""
        match = self.command.word == "races" and _RACE.fullmatch(self.rows[0])
        return Race(match.group(1), int(match.group(2)), int(match.group(3))) if match else None

    @property
    def advised(self) -> Tuple[Advised, ...]:
        """What an `advise` says, step by step; nothing where its statement isn't there."""
        if self.command.word != "advise" or self._answer is not None:
            return ()
        return tuple(_advised(step, row, self.command.words[1]) for step, row in zip(_ADVISED, self.rows))

    @property
    def _answer(self) -> Optional[str]:
        match = _ANSWER.fullmatch(self.rows[0]) if self.rows else None
        return match.group(2) if match else None


def read_replies(commands: Sequence[Command], rows: Sequence[str]) -> List[Reply]:
    """The reply to each command of a script."""
    replies = []
    first = 0
    for command in commands:
        count = _count(command, rows, first)
        if count == 0:
            raise NoReply(rows[first] if first < len(rows) else "")
        replies.append(Reply(command, tuple(rows[first:first + count])))
        first += count
    if first != len(rows):
        raise NoReply(rows[first])
    return replies


def _count(command: Command, rows: Sequence[str], first: int) -> int:
    """How many rows, from the first one on, are the reply to a command; 0 where none is."""
    if first >= len(rows):
        return 0
    match = _ANSWER.fullmatch(rows[first])
    if match is not None:
        if int(match.group(1)) != command.line:
            return 0
        if command.takes_evidence:
            return 1 + _while(rows, first + 1, lambda row: _is_idle(command, row))
        return _automatic(rows, first, match.group(2)) if match.group(2).startswith(_AUTO) else 1
    counter = _SHOWN.get(command.word)
    return counter(rows, first) if counter is not None else 0


def _is_idle(command: Command, row: str) -> bool:
    """Whether a row says that a line of a command's evidence has proved nothing."""
    match = _IDLE.fullmatch(row)
    return match is not None and command.line < int(match.group(1)) <= command.last_line


def _automatic(rows: Sequence[str], first: int, answer: str) -> int:
    """How many rows an `auto` has printed: its answer, the steps that it has taken, the loops left, the source."""
    taken = int(answer[len(_AUTO):])
    if _while(rows, first + 1, lambda row: row.startswith(_TAKEN)) != taken:
        return 0
    count = 1 + taken + _while(rows, first + 1 + taken, _LEFT.fullmatch)
    source = _printed(rows, first + count)
    return count + source if source else 0


def _printed(rows: Sequence[str], first: int) -> int:
    last = next((place for place in range(first, len(rows)) if rows[place] == _LAST_PRINTED), None)
    return last + 1 - first if last is not None else 0


def _both(rows: Sequence[str], first: int) -> int:
    count = source_length(rows, first)
    return count + dependences_length(rows, first + count)


def _run(rows: Sequence[str], first: int) -> int:
    if _FAULT.fullmatch(rows[first]):
        return 1
    count = _while(rows, first, lambda row: row.startswith("| "))
    if first + count == len(rows) or rows[first + count] != "ended":
        return 0
    count += 1
    return count + _while(rows, first + count, lambda row: row.startswith("live "))


def _advice(rows: Sequence[str], first: int) -> int:
    told = [
        row for step, row in zip(_ADVISED, rows[first:first + len(_ADVISED)])
        if re.fullmatch(step + " (?:ok|refused .*)", row)
    ]
    return len(told) if len(told) == len(_ADVISED) else 0


def _advised(step: str, row: str, loop: str) -> Advised:
    """A row of `advise`; the number of the loop stands behind the first word of the step."""
    word, *rest = step.split()
    answer = row[len(step) + 1:]
    return Advised(" ".join([word, loop, *rest]), None if answer == "ok" else answer[len(_REFUSED):])


def _while(rows: Sequence[str], first: int, belongs: Callable[[str], object]) -> int:
    """How many rows, from the first one on, belong to a reply."""
    place = first
    while place < len(rows) and belongs(rows[place]):
        place += 1
    return place - first


_SHOWN: Dict[str, Callable[[Sequence[str], int], int]] = {
    "source": source_length,
    "deps": dependences_length,
    "calls": calls_length,
    "show": _both,
    "print": _printed,
    "run": _run,
    "races": lambda rows, first: 1,
    "tested": lambda rows, first: 1,
    "system": length_of,
    "advise": _advice,
}
