"""Where a reference is in the user's lines: its text is looked for there, without blanks."""

from __future__ import annotations

from typing import Iterator, List, Sequence, Tuple

from ..expressions import Span
from ..lines import FIRST_COLUMN, Place
from .writer import Origin

_QUOTES = "'\""
_NAME = "_%$"


def span_of(lines: Sequence[str], form: str, last_column: int, first: int, last: int, origin: Origin) -> Span:
    """The place of a reference in the lines of its statement, counted from 1; the whole statement where it isn't sure.

    `last_column` is the last one of fixed form that counts.
    """
    letters: List[Tuple[str, Place]] = []
    for number in range(first, last + 1):
        letters.extend(_letters(lines[number - 1], number, form, last_column))
    if not letters:
        return Span(Place(first, 1), Place(first, 1))
    text, wanted = "".join(letter for letter, _ in letters), "".join(origin.text.split())
    found = [index for index in _places(text, wanted) if _is_target(text, index + len(wanted)) == origin.writes]
    if len(found) != 1 or any("\t" in lines[number - 1] for number in range(first, last + 1)):
        return Span(letters[0][1], letters[-1][1])
    return Span(letters[found[0]][1], letters[found[0] + len(wanted) - 1][1])


def _letters(line: str, number: int, form: str, last_column: int) -> Iterator[Tuple[str, Place]]:
    """The letters of a line's statement in capitals, without blanks and comments, each with its place."""
    begin = 0
    if form == "fixed":
        if line[:1] in ("C", "c", "*", "!", "D", "d"):
            return
        begin, line = FIRST_COLUMN - 1, line[:last_column]
    quote = ""
    letters: List[Tuple[str, Place]] = []
    for column, letter in enumerate(line[begin:], begin + 1):
        if not quote and letter == "!":
            break
        if letter in _QUOTES and quote in ("", letter):
            quote = "" if quote else letter
        if not letter.isspace():
            letters.append((letter.upper(), Place(number, column)))
    if form == "free":
        if letters and letters[-1][0] == "&":
            letters.pop()
        if letters and letters[0][0] == "&":
            letters.pop(0)
    yield from letters


def _places(text: str, wanted: str) -> Iterator[int]:
    """Where a reference begins in a text: as a whole, and not as a part of a longer one."""
    index = text.find(wanted)
    while index >= 0:
        before, after = text[index - 1:index], text[index + len(wanted):][:1]
        begins = not (before.isalnum() or before and before in _NAME)
        if begins and not (after.isalnum() or after and after in _NAME + "("):
            yield index
        index = text.find(wanted, index + 1)


def _is_target(text: str, end: int) -> bool:
    """Whether an assignment follows a reference that ends before a place."""
    return text[end:end + 1] == "=" and text[end + 1:end + 2] not in ("=", ">") and text[:end].count("(") == \
        text[:end].count(")")
