"""The panes as ped prints them; docs/PANES.md says what their rows are."""

from __future__ import annotations

import re
from dataclasses import dataclass
from functools import lru_cache
from typing import Iterator, List, NamedTuple, Optional, Sequence, Tuple

from .statuses import CompanionError, Status

_SOURCE = re.compile(r"source (\d+)")
_DEPENDENCES = re.compile(r"dependences (\d+)")
_CALLS = re.compile(r"calls (\d+) edges (\d+)")
_SOURCE_ROW = re.compile(r" *(\d+) ([ \d]{4}) (.*)", re.DOTALL)

#: The signs of direction vectors.
_SIGNS = ("<", "=", ">", "<=", ">=", "<>", "*")

KINDS = ("flow", "anti", "output")
MARKS = ("proven", "pending", "rejected")


class NoPane(CompanionError):
    """What ped printed isn't a pane."""

    def __init__(self, row: str) -> None:
        super().__init__(Status.NOT_UNDERSTOOD, f"ped printed what is no pane: {row!r}")


@dataclass(frozen=True)
class SourceRow:
    """A row of the source pane: a printed line, and the statement that begins on it."""

    line: int
    statement: Optional[int]
    text: str


class Dependence(NamedTuple):
    """A row of the dependence pane."""

    source: Tuple[int, int]
    sink: Tuple[int, int]
    name: str
    kind: str
    #: The level of the loop that carries the dependence, none where it is within one iteration.
    level: Optional[int]
    #: The direction vectors, each with a sign for each loop, the outermost first.
    vectors: Tuple[Tuple[str, ...], ...]
    #: The distance at each loop, none where it is unknown.
    distances: Tuple[Optional[int], ...]
    mark: str
    row: str

    @property
    def is_rejected(self) -> bool:
        """Whether the user says that the dependence isn't there."""
        return self.mark == "rejected"


@dataclass(frozen=True)
class Panes:
    """Both panes of a program."""

    source: Tuple[SourceRow, ...]
    dependences: Tuple[Dependence, ...]

    @property
    def lines(self) -> List[str]:
        """The lines of the printed program."""
        return [row.text for row in self.source]


def read_panes(rows: Sequence[str]) -> Panes:
    """Both panes, the source pane first; nothing else may stand there."""
    count = source_length(rows, 0)
    return Panes(read_source(rows[:count]), read_dependences(rows[count:]))


def source_length(rows: Sequence[str], first: int) -> int:
    """How many rows the source pane has that begins at a place of some rows, its first one included."""
    return _length(rows, first, _SOURCE)


def dependences_length(rows: Sequence[str], first: int) -> int:
    """How many rows the dependence pane has that begins at a place of some rows, its first one included."""
    return _length(rows, first, _DEPENDENCES)


def calls_length(rows: Sequence[str], first: int) -> int:
    """How many rows the pane of calls has that begins at a place of some rows, its first one included."""
    return _length(rows, first, _CALLS)


def read_source(rows: Sequence[str]) -> Tuple[SourceRow, ...]:
    """A source pane; nothing else may stand there."""
    if source_length(rows, 0) != len(rows):
        raise NoPane(rows[-1])
    return tuple(map(read_source_row, rows[1:]))


def read_source_row(row: str) -> SourceRow:
    """A row of the source pane, but for its first one."""
    match = _SOURCE_ROW.fullmatch(row)
    if match is None:
        raise NoPane(row)
    line, statement, text = match.groups()
    return SourceRow(int(line), int(statement) if statement.strip() else None, text)


def read_dependences(rows: Sequence[str]) -> Tuple[Dependence, ...]:
    """A dependence pane; nothing else may stand there."""
    if dependences_length(rows, 0) != len(rows):
        raise NoPane(rows[-1])
    return tuple(read_dependence(row) for row in rows[1:])


def _length(rows: Sequence[str], first: int, title: re.Pattern[str]) -> int:
    match = title.fullmatch(rows[first]) if first < len(rows) else None
    if match is None or len(rows) - first <= sum(map(int, match.groups())):
        raise NoPane(rows[first] if first < len(rows) else "")
    return sum(map(int, match.groups())) + 1


def read_dependence(row: str) -> Dependence:
    """A row of the dependence pane."""
    try:
        source, sink, name, kind, level, vectors, distances, mark = row.split(" ")
        return Dependence(
            _place(source), _place(sink), name, _one_of(kind, KINDS), None if level == "-" else int(level),
            _vectors(vectors), _distances(distances), _one_of(mark, MARKS), row,
        )
    except ValueError as error:
        raise NoPane(row) from error


# Few places, vectors and distances stand in many rows.


@lru_cache(maxsize=2**16)
def _place(text: str) -> Tuple[int, int]:
    statement, number = text.split(".")
    return int(statement), int(number)


@lru_cache(maxsize=2**12)
def _vectors(text: str) -> Tuple[Tuple[str, ...], ...]:
    return tuple(tuple(_one_of(sign, _SIGNS) for sign in vector.split(",")) for vector in _in_parentheses(text))


@lru_cache(maxsize=2**12)
def _distances(text: str) -> Tuple[Optional[int], ...]:
    return tuple(
        None if distance == "*" else int(distance)
        for part in _in_parentheses(text) for distance in part.split(",")
    )


def _one_of(word: str, words: Sequence[str]) -> str:
    if word not in words:
        raise ValueError(word)
    return word


def _in_parentheses(text: str) -> Iterator[str]:
    if text[:1] != "(" or text[-1:] != ")":
        raise ValueError(text)
    return iter(text[1:-1].split(")("))
