"""Messages as compilers print them, and lines of a program with marks below them."""

from __future__ import annotations

from dataclasses import dataclass
from typing import List, Sequence, Tuple

from .lines import FIRST_COLUMN, LAST_COLUMN, Place, Span

ERROR = "error"
WARNING = "warning"
NOTE = "note"


@dataclass(frozen=True)
class Mark:
    """Characters of a program to be marked, by a sign below each, and what is said of them."""

    span: Span
    sign: str
    words: str = ""


def located(name: str, place: Place, words: str) -> str:
    """A message about a place of a file."""
    return f"{name}:{place.line}:{place.column}: {words}"


def excerpt(
    lines: Sequence[str], marks: Sequence[Mark], columns: Tuple[int, int] = (FIRST_COLUMN, LAST_COLUMN)
) -> List[str]:
    """The lines of a program that hold marks, each with its marks below it.

    A mark that goes over several lines is between the first and the last of `columns` there.
    """
    rows = []
    for number in sorted({number for mark in marks for number in _lines_of(mark)}):
        rows.append(f"{number:5} | {lines[number - 1]}".rstrip())
        for mark in marks:
            if number in _lines_of(mark):
                rows.append(f"      | {_below(lines[number - 1], number, mark, columns)}".rstrip())
    return rows


def _lines_of(mark: Mark) -> range:
    return range(mark.span.start.line, mark.span.end.line + 1)


def _below(line: str, number: int, mark: Mark, columns: Tuple[int, int]) -> str:
    """What stands below a line that holds a mark, or a part of it; the words stand below the last part."""
    start, end = mark.span
    first = start.column if number == start.line else columns[0]
    last = end.column if number == end.line else min(len(line), columns[1])
    words = f" {mark.words}" if mark.words and number == end.line else ""
    margin = "".join("\t" if letter == "\t" else " " for letter in line[:first - 1])
    return margin.ljust(first - 1) + mark.sign * max(last - first + 1, 1) + words


def listed(words: Sequence[str], last: str = "and") -> str:
    """Words with commas between them, and `and` before the last one."""
    if len(words) < 2:
        return "".join(words)
    return f"{', '.join(words[:-1])} {last} {words[-1]}"


def counted(count: int, word: str) -> str:
    """A number with its word in the singular or in the plural."""
    if count == 1:
        return f"{count} {word}"
    return f"{count} {word[:-1]}ies" if word.endswith("ry") else f"{count} {word}s"
