"""Statements as they are written: their lines, their labels, and their texts."""

from __future__ import annotations

import re
from dataclasses import dataclass, replace
from typing import Any, List, Optional, Set

from .library import statement_classes
from .source import Source, as_written, code_lines

_PLACEHOLDER = re.compile(r"\?([0-9]+)\?")

#: What is said of lines that the library's reader has lost.
_LOST = "the library can't divide its lines into statements"


@dataclass(frozen=True)
class Item:
    """A statement as it is written.

    `first` and `last` are its lines, counted from 1. Two statements with a `;` between them have the same lines.
    `label` is its number, none where there is none. `name` is the name of its construct (`OUTER` of `OUTER: DO`), in
    capitals, empty where there is none. `text` is what is left: continuation lines are joined, comments are taken out,
    and blanks and small letters are as they are written. Where there is a `;`, all letters are small.

    `file` is the path of the file that the lines are of, if it's an INCLUDEd one; empty for the file itself. `fault`
    says why no statement can be in these lines (a letter in columns 1 to 5 of fixed form); it's empty for all others.
    `include` is the file that an INCLUDE names, empty for all others.
    """

    first: int
    last: int
    label: Optional[int]
    name: str
    text: str
    file: str = ""
    fault: str = ""
    include: str = ""


def read_items(source: Source) -> List[Item]:
    """The statements of a file, in order of text. Each line with some of a statement is in one of them."""
    items = []
    reader = _reader(source)
    while True:
        before = reader.linecount
        try:
            line = reader.next()
        except StopIteration:
            break
        except Exception as error:  # The library raises what it likes; whatever it is, these lines are lost.
            if reader.linecount == before:
                break
            text = " ".join(source.lines[before:reader.linecount]).strip()
            items.append(Item(before + 1, reader.linecount, None, "", text, fault=f"{_LOST} ({error})"))
            continue
        items.append(_item(line, source))
    return sorted([*items, *_lost(items, source)], key=lambda item: item.first)


def _reader(source: Source) -> Any:
    """The library's reader for laid out lines. It never opens a file by itself, and stops at no error."""
    classes = statement_classes()

    class Reader(classes.reader):  # type: ignore[misc, name-defined]
        """The reader without its own way with INCLUDE and with errors."""

        def next(self, ignore_comments: Optional[bool] = None) -> Any:
            """The next statement."""
            return self._next(True)

    reader = Reader("".join(f"{line}\n" for line in source.layout), ignore_comments=True)
    reader.exit_on_error = False
    reader.set_format(classes.line_format(source.form == "free", False))
    return reader


def _item(line: Any, source: Source) -> Item:
    """An item for one of the library's."""
    text = as_written(line.line)
    item = Item(line.span[0], line.span[1], line.label, (line.name or "").upper(), text)
    match = _PLACEHOLDER.match(text)
    if match is None:
        return item
    number = int(match.group(1))
    if number in source.includes:
        file = source.includes[number]
        rest = text[match.end():].strip()
        return replace(item, text=f"INCLUDE '{file}'{rest}", include=file, fault=_LOST if rest else "")
    broken, fault = source.broken[number]
    text = broken + text[match.end():]
    # A label alone on its line is one of what comes in the next line.
    is_read = not broken and text.strip() != ""
    return replace(item, text=text.strip() if is_read else text, fault="" if is_read else fault)


def _lost(items: List[Item], source: Source) -> List[Item]:
    """Lines with code that are in no item: none of them may be forgotten."""
    covered: Set[int] = set()
    for item in items:
        covered.update(range(item.first, item.last + 1))
    lost = [number for number in code_lines(source) if number not in covered]
    return [Item(number, number, None, "", source.lines[number - 1].strip(), fault=_LOST) for number in lost]
