"""Lines in fixed form: which columns hold what, and how a statement goes on in further lines.

The rules are those of docs/LANGUAGE.md, "Lines": columns 1 to 5 hold a label, column 6 tells a continuation line, and
columns 7 to 72 hold the statement. Blanks mean nothing but in character constants.
"""

from __future__ import annotations

import re
from dataclasses import dataclass
from functools import cached_property
from typing import Iterator, List, Match, NamedTuple, Optional, Sequence, Tuple, Union, overload

FIRST_COLUMN = 7
LAST_COLUMN = 72

#: A whole character constant, in which two apostrophes are one, or another character that isn't blank.
_CHARACTER = re.compile(r"'(?:[^']|'')*(?:'|$)|[^ ]", re.DOTALL)
_PARENTHESIS = re.compile("[()]")


class Place(NamedTuple):
    """A line and a column of a text, both counted from 1."""

    line: int
    column: int


class Span(NamedTuple):
    """The places of the first and the last character of a part of a statement."""

    start: Place
    end: Place


@dataclass(frozen=True)
class Character:
    """A character of a statement, with the places of its first and its last byte.

    Letters are capitals. A whole character constant, with its apostrophes, is one of these.
    """

    text: str
    start: Place
    end: Place

    @property
    def is_constant(self) -> bool:
        """Whether this is a character constant."""
        return self.text[0] == "'"


class _Letters:
    """All characters of a statement, which its texts share; their places are found when they are asked for."""

    def __init__(self, columns: str, lines: Sequence[int]) -> None:
        #: Columns 7 to 72 of the lines, behind one another, and the numbers of these lines.
        self._columns = columns
        self._lines = lines
        #: Whether a character may be longer than a letter, or a capital longer than its letter.
        self._is_mixed = "'" in columns or not columns.isascii()
        self.letters = self._mixed_letters() if self._is_mixed else columns.replace(" ", "").upper()

    def _mixed_letters(self) -> str:
        return "".join(_capital(match.group())[0] for match in self._matches)

    @cached_property
    def _matches(self) -> List[Match[str]]:
        return list(_CHARACTER.finditer(self._columns))

    @cached_property
    def _offsets(self) -> List[int]:
        """Where each character stands, where none of them is a constant."""
        return [index for index, letter in enumerate(self._columns) if letter != " "]

    def start(self, index: int) -> Place:
        """The place of the first byte of a character."""
        return self._place(self._matches[index].start() if self._is_mixed else self._offsets[index])

    def end(self, index: int) -> Place:
        """The place of the last byte of a character."""
        return self._place(self._matches[index].end() - 1 if self._is_mixed else self._offsets[index])

    def text(self, first: int, letters: str) -> str:
        """What stands in the place of some letters, from the first one on."""
        if not self._is_mixed:
            return letters
        return "".join(_capital(match.group()) for match in self._matches[first:first + len(letters)])

    def _place(self, offset: int) -> Place:
        width = LAST_COLUMN - FIRST_COLUMN + 1
        return Place(self._lines[offset // width], FIRST_COLUMN + offset % width)


class Text(Sequence[Character]):
    """Characters of one statement, without the blanks that mean nothing."""

    __slots__ = ("_all", "_first", "letters")

    def __init__(self, characters: _Letters, first: int, letters: str) -> None:
        self._all = characters
        self._first = first
        #: One letter for each character, an apostrophe for a character constant.
        self.letters = letters

    @property
    def start(self) -> Place:
        """The place of the first byte."""
        return self._all.start(self._first)

    @property
    def end(self) -> Place:
        """The place of the last byte."""
        return self._all.end(self._first + len(self.letters) - 1)

    @property
    def span(self) -> Span:
        """Where the text stands."""
        return Span(self.start, self.end)

    @overload
    def __getitem__(self, index: int) -> Character: ...

    @overload
    def __getitem__(self, index: slice) -> Text: ...

    def __getitem__(self, index: Union[int, slice]) -> Union[Character, Text]:
        if isinstance(index, slice):
            return self.part(*index.indices(len(self.letters))[:2])
        place = self._first + range(len(self.letters))[index]
        text = self._all.text(place, self.letters[index])
        return Character(text, self._all.start(place), self._all.end(place))

    def part(self, first: int, last: Optional[int] = None) -> Text:
        """The characters from one index up to another one, or to the end: what a slice is, in less time."""
        return Text(self._all, self._first + first, self.letters[first:last])

    def __len__(self) -> int:
        return len(self.letters)

    def __str__(self) -> str:
        return self._all.text(self._first, self.letters)

    def split(self, separator: str) -> List[Text]:
        """The parts between the separators that stand outside parentheses."""
        parts = []
        begin = 0
        for index in self.outside_parentheses(separator):
            parts.append(self.part(begin, index))
            begin = index + 1
        parts.append(self.part(begin))
        return parts

    def outside_parentheses(self, letter: str) -> Iterator[int]:
        """The indices at which a letter, no parenthesis, stands outside parentheses."""
        letters = self.letters
        depth = begin = 0
        index = letters.find(letter)
        while index >= 0:
            depth += letters.count("(", begin, index) - letters.count(")", begin, index)
            if depth == 0:
                yield index
            begin = index
            index = letters.find(letter, index + 1)

    def closing(self, opening: int) -> int:
        """The index of the parenthesis that closes the one at an index; the text's end where there is none."""
        depth = 0
        for match in _PARENTHESIS.finditer(self.letters, opening):
            depth += 1 if match.group() == "(" else -1
            if depth == 0 and match.group() == ")":
                return match.start()
        return len(self)


@dataclass(frozen=True)
class Directive:
    """A directive `C$PED REJECT NAME`."""

    line: int
    name: str


@dataclass(frozen=True)
class WrittenStatement:
    """A statement as it is written: its lines, its label and its text."""

    first_line: int
    last_line: int
    label: Optional[int]
    text: Text
    directives: Tuple[Directive, ...]


def split_lines(text: str) -> List[str]:
    """The lines of a text; a line feed ends a line, and one carriage return before it is no part of the line."""
    lines = text.split("\n")
    if lines[-1] == "":
        lines.pop()
    return [line[:-1] if line.endswith("\r") else line for line in lines] if "\r" in text else lines


def is_comment(line: str) -> bool:
    """Whether a line is a comment: by its first column, or since it is blank up to column 72."""
    return line[:1] in ("C", "c", "*") or not line[:LAST_COLUMN].strip(" ")


def is_continuation(line: str) -> bool:
    """Whether a line that is no comment goes on with the statement before it."""
    return line[5:6] not in ("", " ", "0")


def read_statements(lines: Sequence[str]) -> List[WrittenStatement]:
    """The statements of a text that ped reads."""
    groups: List[Tuple[List[int], List[Directive]]] = []
    directives: List[Directive] = []
    for number, line in enumerate(lines, 1):
        if is_comment(line):
            name = _rejected_name(line)
            if name is not None:
                directives.append(Directive(number, name))
        elif is_continuation(line) and groups:
            groups[-1][0].append(number)
        else:
            groups.append(([number], directives))
            directives = []
    return [_statement(lines, numbers, before) for numbers, before in groups]


def _rejected_name(line: str) -> Optional[str]:
    """The name in a directive, none where the comment is no directive."""
    words = line[5:LAST_COLUMN].replace(" ", "").upper()
    if line[1:5].upper() == "$PED" and words.startswith("REJECT"):
        return words[len("REJECT"):]
    return None


def _statement(lines: Sequence[str], numbers: Sequence[int], directives: Sequence[Directive]) -> WrittenStatement:
    """The statement that stands on the lines with these numbers."""
    label = lines[numbers[0] - 1][:5].replace(" ", "")
    return WrittenStatement(
        first_line=numbers[0],
        last_line=numbers[-1],
        label=int(label) if label.isdecimal() else None,
        text=_joined(lines, numbers),
        directives=tuple(directives),
    )


def _joined(lines: Sequence[str], numbers: Sequence[int]) -> Text:
    """The text of a statement: its columns 7 to 72, joined; a shorter line counts as filled with blanks."""
    width = LAST_COLUMN - FIRST_COLUMN + 1
    columns = "".join(lines[number - 1][FIRST_COLUMN - 1:LAST_COLUMN].ljust(width) for number in numbers)
    characters = _Letters(columns.rstrip(" "), numbers)
    return Text(characters, 0, characters.letters)


def _capital(text: str) -> str:
    return text if text[0] == "'" else text.upper()
