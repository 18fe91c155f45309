"""Places in a text, as pedx counts them and as the protocol does.

pedx counts lines and bytes from 1. The protocol counts lines and units of UTF-16 from 0.
"""

from __future__ import annotations

from typing import Dict, Sequence

from ..lines import Place
from ..ped import ENCODING

Json = Dict[str, object]


def as_bytes(text: str) -> str:
    """A text as ped and pedx take it: a character for each byte."""
    return text.encode("utf-8", "surrogatepass").decode(ENCODING)


def as_text(text: str) -> str:
    """The text that bytes stand for."""
    return text.encode(ENCODING).decode("utf-8", "replace")


def _units(text: str) -> int:
    """The length of a part of a line in units of UTF-16."""
    return len(as_text(text).encode("utf-16-le")) // 2


def position(lines: Sequence[str], place: Place) -> Json:
    """Where a place stands, for the protocol. The lines have a character for each byte."""
    line = min(place.line, len(lines) + 1)
    before = lines[line - 1][:place.column - 1] if line <= len(lines) else ""
    return {"line": line - 1, "character": _units(before)}


def span(lines: Sequence[str], start: Place, end: Place) -> Json:
    """A range from a place to another one, which belongs to it."""
    return {"start": position(lines, start), "end": position(lines, Place(end.line, end.column + 1))}


def whole_line(lines: Sequence[str], line: int) -> Json:
    """The range of a line, without the blanks before its text."""
    text = lines[line - 1] if line <= len(lines) else ""
    first = len(text) - len(text.lstrip()) + 1
    return span(lines, Place(line, min(first, max(len(text), 1))), Place(line, len(text)))


def column_of(line: str, character: int) -> int:
    """The column of a line at which a unit of the protocol stands."""
    units = 0
    for at, one in enumerate(as_text(line)):
        if units >= character:
            return len(as_bytes(as_text(line)[:at])) + 1
        units += 2 if ord(one) > 0xFFFF else 1
    return len(line) + 1
