"""The forms of statements: what each says, by its first letters.

The rules are those of docs/LANGUAGE.md, "Statements": a text that has the form of an assignment is one, whatever its
first letters are, and blanks mean nothing.
"""

from __future__ import annotations

import re
from dataclasses import dataclass
from typing import Callable, Dict, List, Optional, Tuple, Union

from .expressions import Element, Expression, NoExpression, Variable, read_expression
from .lines import Span, Text


@dataclass(frozen=True)
class Name:
    """A name with the characters that it was read from."""

    name: str
    source: Text

    @property
    def span(self) -> Span:
        """Where the name stands."""
        return self.source.span


@dataclass(frozen=True)
class Declarator:
    """A name in a declaration, with the bounds of its dimensions; none for a scalar."""

    name: str
    bounds: Tuple[str, ...]


@dataclass(frozen=True)
class ProgramName:
    """PROGRAM."""

    name: str


@dataclass(frozen=True)
class Declaration:
    """INTEGER or DIMENSION."""

    declarators: Tuple[Declarator, ...]


@dataclass(frozen=True)
class Parameter:
    """PARAMETER: names with their values."""

    values: Tuple[Tuple[str, Expression], ...]


@dataclass(frozen=True)
class Save:
    """SAVE; without names where it stands for all variables."""

    names: Tuple[str, ...]


@dataclass(frozen=True)
class Assignment:
    """An assignment."""

    target: Union[Variable, Element]
    value: Expression


@dataclass(frozen=True)
class LogicalIf:
    """An IF with one statement behind its condition."""

    condition: Expression
    text: Text


@dataclass(frozen=True)
class BlockIf:
    """IF with THEN."""

    condition: Expression


@dataclass(frozen=True)
class ElseIf:
    """ELSE IF with THEN."""

    condition: Expression


@dataclass(frozen=True)
class Do:
    """DO or PARALLEL DO."""

    label: Optional[int]
    variable: Name
    first: Expression
    last: Expression
    step: Optional[Expression]
    parallel: bool


@dataclass(frozen=True)
class Private:
    """PRIVATE."""

    names: Tuple[Name, ...]


@dataclass(frozen=True)
class Print:
    """PRINT: its word, and its items."""

    word: Text
    items: Tuple[Expression, ...]


@dataclass(frozen=True)
class Read:
    """READ: its word, and its items."""

    word: Text
    items: Tuple[Union[Variable, Element], ...]


@dataclass(frozen=True)
class Word:
    """A statement of one word: `ELSE`, `ENDIF`, `ENDDO`, `CONTINUE`, `STOP`, `END`."""

    word: str


@dataclass(frozen=True)
class Other:
    """A statement of which nothing more is looked at."""


Form = Union[
    ProgramName, Declaration, Parameter, Save, Assignment, LogicalIf, BlockIf, ElseIf, Do, Private, Print, Read, Word,
    Other,
]

#: The forms that have a statement number; STOP is a `Word`.
Numbered = Union[Assignment, BlockIf, Do, Print, Read, Word]

_WORDS = frozenset(["ELSE", "ENDIF", "ENDDO", "CONTINUE", "STOP", "END"])
_NAME = re.compile(r"[A-Z][A-Z0-9]*")
_DO = re.compile(r"(PARALLEL)?DO(?:([0-9]+),?)?(?=[A-Z])")


def read_form(text: Text) -> Form:
    """The form of a statement."""
    try:
        return _assignment(text) or _do(text) or _by_first_letters(text)
    except NoExpression:
        return Other()


def _assignment(text: Text) -> Optional[Assignment]:
    equals = next(text.outside_parentheses("="), None)
    if equals is None:
        return None
    value = text.part(equals + 1)
    if next(value.outside_parentheses(","), None) is not None:
        return None
    match = _NAME.match(text.letters)
    if match is None or not (match.end() == equals or text.closing(match.end()) == equals - 1):
        return None
    target = read_expression(text.part(0, equals))
    if not isinstance(target, (Variable, Element)):
        return None
    return Assignment(target, read_expression(value))


def _do(text: Text) -> Optional[Do]:
    match = _DO.match(text.letters)
    if match is None:
        return None
    equals = next(text.outside_parentheses("="), None)
    if equals is None or equals <= match.end():
        return None
    bounds = [read_expression(part) for part in text.part(equals + 1).split(",")]
    if len(bounds) not in (2, 3):
        return None
    return Do(
        label=int(match.group(2)) if match.group(2) else None,
        variable=_name(text.part(match.end(), equals)),
        first=bounds[0],
        last=bounds[1],
        step=bounds[2] if len(bounds) == 3 else None,
        parallel=match.group(1) is not None,
    )


def _by_first_letters(text: Text) -> Form:
    letters = text.letters
    if letters in _WORDS:
        return Word(letters)
    if letters.startswith(("IF(", "ELSEIF(")):
        return _if(text)
    for word, read in _READERS.items():
        if letters.startswith(word):
            return read(text, len(word))
    return Other()


def _if(text: Text) -> Form:
    opening = text.letters.index("(")
    closing = text.closing(opening)
    condition = read_expression(text[opening + 1:closing])
    rest = text[closing + 1:]
    if rest.letters != "THEN":
        return LogicalIf(condition, rest)
    return ElseIf(condition) if text.letters.startswith("ELSE") else BlockIf(condition)


def _program(text: Text, begin: int) -> Form:
    return ProgramName(text.letters[begin:])


def _declaration(text: Text, begin: int) -> Form:
    return Declaration(tuple(_declarator(part) for part in text[begin:].split(",")))


def _declarator(text: Text) -> Declarator:
    opening = text.letters.find("(")
    if opening < 0:
        return Declarator(text.letters, ())
    bounds = text[opening + 1:text.closing(opening)].split(",")
    return Declarator(text.letters[:opening], tuple(str(bound) for bound in bounds))


def _parameter(text: Text, begin: int) -> Form:
    values = []
    for part in text[begin + 1:text.closing(begin)].split(","):
        name, equals, _ = part.letters.partition("=")
        values.append((name, read_expression(part[len(name) + len(equals):])))
    return Parameter(tuple(values))


def _save(text: Text, begin: int) -> Form:
    return Save(tuple(part.letters for part in text[begin:].split(",") if part.letters))


def _private(text: Text, begin: int) -> Form:
    return Private(tuple(_name(part) for part in text[begin:].split(",")))


def _print(text: Text, begin: int) -> Form:
    return Print(text[:begin - 1], tuple(_items(text[begin:])))


def _read(text: Text, begin: int) -> Form:
    items = [item for item in _items(text[begin:]) if isinstance(item, (Variable, Element))]
    return Read(text[:begin - 1], tuple(items))


def _items(text: Text) -> List[Expression]:
    """The items behind `PRINT *` or `READ *`, with a comma before each."""
    if not text.letters:
        return []
    if text.letters[0] != ",":
        raise NoExpression(str(text))
    return [read_expression(part) for part in text[1:].split(",")]


def _name(text: Text) -> Name:
    if not _NAME.fullmatch(text.letters):
        raise NoExpression(str(text))
    return Name(text.letters, text)


_READERS: Dict[str, Callable[[Text, int], Form]] = {
    "PROGRAM": _program,
    "INTEGER": _declaration,
    "DIMENSION": _declaration,
    "PARAMETER": _parameter,
    "SAVE": _save,
    "PRIVATE": _private,
    "PRINT*": _print,
    "READ*": _read,
}
