"""The text of a model in ped's profile, with the place of each of its references and where that comes from.

A statement is made of pieces: texts, and `Use`s, which are references with what is written in them. `Writer` lays them
out in fixed form, in columns 7 to 72, and notes at which line and column each reference begins. There the panes of ped,
as `program.read_program` reads them, have the same reference.
"""

from __future__ import annotations

import re
from bisect import bisect_right
from dataclasses import dataclass
from typing import Dict, Iterator, List, Mapping, Optional, Sequence, Tuple, Union

from ..lines import FIRST_COLUMN, LAST_COLUMN, Place
from .naming import WORDS

#: The most continuation lines, printed characters and references that a statement of the profile has.
MOST_CONTINUATIONS = 19
MOST_CHARACTERS = 1300
MOST_REFERENCES = 64

#: How many characters and references a sum has before it's cut: some are left for the statement round it.
SUM_CHARACTERS = 1200
SUM_REFERENCES = 60

_WIDTH = LAST_COLUMN - FIRST_COLUMN + 1
#: The deepest indentation, so that a line has room for text.
_DEEPEST = 24
#: Characters after which a line is cut where possible.
_CUTS = "+-*,="
_NAME = re.compile(r"\.[A-Z]+\.|[A-Z][A-Z0-9]*")


@dataclass(frozen=True)
class Origin:
    """Where a reference of a model comes from in the user's program.

    `unit` is the path of the unit, `line` the first line of the statement, in `file` where that is an INCLUDEd one.
    `text` is the reference as `tree` prints it, `name` the user's name. `writes` is true where the user's statement
    assigns it.
    """

    unit: str
    line: int
    text: str
    name: str
    writes: bool
    file: str = ""


@dataclass(frozen=True)
class Use:
    """A reference in a statement: its name with its subscripts, and where it comes from.

    `origin` is none for a name of the model's own.
    """

    pieces: Tuple[Piece, ...]
    origin: Optional[Origin] = None


#: A part of a statement.
Piece = Union[str, Use]


class TooLong(Exception):
    """A statement passes a limit of the profile. It has no other cure than that the loop gets no model."""


def length(*pieces: Piece) -> int:
    """How many characters pieces have."""
    return sum(len(piece) if isinstance(piece, str) else length(*piece.pieces) for piece in pieces)


def references(*pieces: Piece) -> int:
    """How many references pieces have, or a few more: variables of loops count here, and not in the profile."""
    names = (match.group() for text in _texts(pieces) for match in _NAME.finditer(text))
    return sum(name[0] != "." and name not in WORDS for name in names)


def sums(reads: Sequence[Piece]) -> List[List[Piece]]:
    """Some reads in groups, each of which is short enough for the sum of one statement; none for no reads."""
    groups: List[List[Piece]] = []
    characters = count = 0
    for read in reads:
        characters += length(read) + 1
        count += references(read)
        if not groups or characters > SUM_CHARACTERS or count > SUM_REFERENCES:
            groups.append([])
            characters, count = length(read) + 1, references(read)
        groups[-1].append(read)
    return groups


def sum_of(reads: Sequence[Piece]) -> List[Piece]:
    """The pieces of the sum of some reads, `1` where there are none."""
    return [piece for read in reads for piece in ("+", read)][1:] or ["1"]


@dataclass(frozen=True)
class Written:
    """A text in the profile, the places of its references, and their origins."""

    text: str
    origins: Mapping[Place, Origin]


class Writer:
    """Writes the statements of a model one after the other, and puts the declarations before them at the end."""

    def __init__(self) -> None:
        self._lines: List[str] = []
        self._origins: Dict[Place, Origin] = {}
        self._depth = 0

    def statement(self, *pieces: Piece) -> None:
        """Writes a statement; raises TooLong where the profile has no room for it."""
        if length(*pieces) > MOST_CHARACTERS or references(*pieces) > MOST_REFERENCES:
            raise TooLong
        first = len(self._lines) + 1
        text = "".join(_texts(pieces))
        lines, begins = _laid_out(text, min(2 * self._depth, _DEEPEST))
        columns = [len(line) + 1 - (end - begin) for line, begin, end in zip(lines, begins, [*begins[1:], len(text)])]
        self._lines += lines
        for offset, origin in _origins(pieces):
            row = bisect_right(begins, offset) - 1
            self._origins[Place(first + row, columns[row] + offset - begins[row])] = origin

    def comment(self, text: str) -> None:
        """Writes a comment, in as many lines as it takes."""
        self._lines += _comments(text)

    def begin(self, *pieces: Piece) -> None:
        """Writes the first statement of a block: what follows is indented."""
        self.statement(*pieces)
        self._depth += 1

    def turn(self, *pieces: Piece) -> None:
        """Writes a statement between two parts of a block: ELSE, or ELSE IF."""
        self._depth -= 1
        self.begin(*pieces)

    def end(self, *pieces: Piece) -> None:
        """Writes the last statement of a block."""
        self._depth -= 1
        self.statement(*pieces)

    def reads(self, reads: Sequence[Piece]) -> None:
        """Writes statements that read alone: empty IFs."""
        for group in sums(reads):
            self.statement("IF (", *sum_of(group), ".NE.0) THEN")
            self.statement("END IF")

    def assign(self, target: Piece, reads: Sequence[Piece]) -> None:
        """Writes an assignment of the sum of some reads; what is too much for it is read before it."""
        groups = sums(reads)
        while groups and _is_too_much(target, groups[-1]):
            self.reads(groups.pop())
        for group in groups[:-1]:
            self.reads(group)
        self.statement(target, " = ", *sum_of(groups[-1] if groups else []))

    def finish(self, heading: str, arrays: Mapping[str, int], saved: Sequence[str]) -> Written:
        """The whole model: a comment, the declarations of arrays with their ranks, SAVE, all that was written, END."""
        front = Writer()
        front.comment(heading)
        front.statement("IMPLICIT INTEGER (A-Z)")
        for name, rank in arrays.items():
            front.statement(f"INTEGER {name}({','.join('1' * rank)})")
        for name in saved:
            front.statement(f"SAVE {name}")
        shift = len(front._lines)
        text = "".join(line + "\n" for line in [*front._lines, *self._lines, "      END"])
        return Written(text, {Place(place.line + shift, place.column): one for place, one in self._origins.items()})


def _is_too_much(target: Piece, reads: Sequence[Piece]) -> bool:
    characters = length(target) + length(*reads) + len(reads) + 4
    return characters > MOST_CHARACTERS or references(target) + references(*reads) > MOST_REFERENCES


def _texts(pieces: Sequence[Piece]) -> Iterator[str]:
    for piece in pieces:
        if isinstance(piece, str):
            yield piece
        else:
            yield from _texts(piece.pieces)


def _origins(pieces: Sequence[Piece], begin: int = 0) -> Iterator[Tuple[int, Origin]]:
    """The origins of references with the offsets in the statement's text at which the references begin."""
    for piece in pieces:
        if isinstance(piece, Use):
            if piece.origin is not None:
                yield begin, piece.origin
            yield from _origins(piece.pieces, begin)
        begin += length(piece)


def _laid_out(text: str, indentation: int) -> Tuple[List[str], List[int]]:
    """A statement's lines, and the offset in its text at which each begins."""
    begins = _cut(text, _WIDTH - indentation)
    if len(begins) > MOST_CONTINUATIONS + 1:
        indentation = 0
        begins = list(range(0, max(len(text), 1), _WIDTH))
    lines = []
    for number, (begin, end) in enumerate(zip(begins, [*begins[1:], len(text)])):
        front = " " * (FIRST_COLUMN - 1) if number == 0 else "     &"
        lines.append(front + " " * indentation + text[begin:end])
    return lines, begins


def _cut(text: str, width: int) -> List[int]:
    """Where the lines of a text begin, cut after operators and commas, and never before blanks."""
    begins, begin = [0], 0
    while len(text) - begin > width:
        end = begin + width
        good = next((place for place in range(end, begin + width // 2, -1) if _may_cut(text, place)), end)
        begin = good
        begins.append(begin)
    return begins


def _may_cut(text: str, place: int) -> bool:
    """Whether a line may end before a place: after an operator, and not inside `**`."""
    return text[place - 1] in _CUTS and text[place] not in " *"


def _comments(text: str) -> Iterator[str]:
    """A comment in lines of fixed form, cut between words where they are short enough; `?` for letters beyond ASCII."""
    row = "C    "
    for word in text.encode("ascii", "replace").decode("ascii").split():
        if len(row) + 1 + len(word) > LAST_COLUMN and row.strip() != "C":
            yield row
            row = "C    "
        row += " " + word
        while len(row) > LAST_COLUMN:
            yield row[:LAST_COLUMN]
            row = "C     " + row[LAST_COLUMN:]
    yield row
