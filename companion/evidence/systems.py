"""The System of a pair of references, as ped's command `system` prints it.

Its rows say what every two iterations keep to in which both references touch one element, in the directions of a
pattern. Where no whole numbers meet all rows, there are no such iterations.
"""

from __future__ import annotations

import re
from dataclasses import dataclass
from typing import List, NamedTuple, Optional, Sequence, Tuple

from ..statuses import CompanionError, Status

_HEAD = re.compile(r"system (\d+)\.(\d+) (\d+)\.(\d+) \(([<=>*](?:,[<=>*])*)\)")
_ROW = re.compile(r"(\d+) (\S+) (>=|=) 0")
_TERM = re.compile(r"([+-]?)(?:(\d+)\*)?([A-Z][A-Z0-9]*'?|#\d+|\d+)")

#: The place of a reference: its statement, and its number there.
Place = Tuple[int, int]


class NoSystem(CompanionError):
    """What ped printed isn't a System."""

    def __init__(self, row: str) -> None:
        super().__init__(Status.NOT_UNDERSTOOD, f"ped printed what is no system: {row!r}")


class Row(NamedTuple):
    """A sum of unknowns, each times its coefficient, and a constant: it is at least 0, or just 0 in an equation."""

    coefficients: Tuple[int, ...]
    constant: int
    is_equation: bool = False

    def value(self, values: Sequence[int]) -> int:
        """The sum at some values of the unknowns."""
        return sum(map(int.__mul__, self.coefficients, values)) + self.constant

    def holds(self, values: Sequence[int]) -> bool:
        """Whether the row holds there."""
        value = self.value(values)
        return value == 0 if self.is_equation else value >= 0


@dataclass(frozen=True)
class System:
    """The System of two references and a pattern of directions."""

    source: Place
    sink: Place
    pattern: Tuple[str, ...]
    unknowns: Tuple[str, ...]
    rows: Tuple[Row, ...]

    def form(self, row: Row) -> str:
        """A row as ped prints it, without its number."""
        return f"{sum_text(self.unknowns, row)} {'=' if row.is_equation else '>='} 0"


def pattern_text(pattern: Sequence[str]) -> str:
    """A pattern as a command takes it."""
    return f"({','.join(pattern)})"


def place_text(place: Place) -> str:
    """The place of a reference as a command takes it."""
    return f"{place[0]}.{place[1]}"


def question(source: Place, sink: Place, pattern: Sequence[str]) -> str:
    """The command that asks for a System."""
    return f"system {place_text(source)} {place_text(sink)} {pattern_text(pattern)}"


def sum_text(unknowns: Sequence[str], row: Row) -> str:
    """The sum of a row: its terms in the order of the unknowns, and its constant where that isn't 0."""
    text = ""
    for name, coefficient in zip(unknowns, row.coefficients):
        if coefficient:
            sign = "-" if coefficient < 0 else "+" if text else ""
            text += sign + (name if abs(coefficient) == 1 else f"{abs(coefficient)}*{name}")
    if row.constant or not text:
        text += f"{row.constant:+}" if text else str(row.constant)
    return text


def length_of(rows: Sequence[str], first: int) -> int:
    """How many rows a System has that begins at a place of some rows; 0 where none begins there."""
    if first + 2 >= len(rows) or _HEAD.fullmatch(rows[first]) is None:
        return 0
    match = re.fullmatch(r"rows (\d+)", rows[first + 2])
    count = 3 + int(match[1]) if match is not None else 0
    return count if first + count <= len(rows) else 0


def read_system(rows: Sequence[str]) -> System:
    """Reads a System; nothing else may stand there."""
    if not rows or length_of(rows, 0) != len(rows):
        raise NoSystem(rows[0] if rows else "")
    head = _HEAD.fullmatch(rows[0])
    word, *unknowns = rows[1].split(" ")
    if head is None or word != "unknowns" or not unknowns or len(set(unknowns)) != len(unknowns):
        raise NoSystem(rows[1])
    read: List[Row] = []
    for number, text in enumerate(rows[3:], 1):
        row = _read_row(unknowns, number, text)
        if row is None:
            raise NoSystem(text)
        read.append(row)
    source, sink = (int(head[1]), int(head[2])), (int(head[3]), int(head[4]))
    return System(source, sink, tuple(head[5].split(",")), tuple(unknowns), tuple(read))


def _read_row(unknowns: Sequence[str], number: int, text: str) -> Optional[Row]:
    match = _ROW.fullmatch(text)
    if match is None or int(match[1]) != number:
        return None
    coefficients = [0] * len(unknowns)
    constant = place = 0
    while place < len(match[2]):
        term = _TERM.match(match[2], place)
        if term is None or not term[1] and place:
            return None
        sign, place = -1 if term[1] == "-" else 1, term.end()
        if term[3].isdigit():
            constant += sign * int(term[3])
        elif term[3] in unknowns:
            coefficients[unknowns.index(term[3])] += sign * int(term[2] or 1)
        else:
            return None
    return Row(tuple(coefficients), constant, match[3] == "=")
