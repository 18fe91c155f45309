"""Where in its line a refusal stands, and which name it is about, as far as that can be told.

ped names a line. The column is looked up here for the eye alone: where nothing is found, it is that of the first
letter of the statement.
"""

from __future__ import annotations

import re
from typing import Callable, Dict, Iterator, List, NamedTuple, Optional, Sequence, Tuple, Union

from .expressions import INTRINSICS, Expression, NoExpression, occurrences
from .lines import FIRST_COLUMN, LAST_COLUMN, Place, Span, WrittenStatement, read_statements
from .program import Program, Statement, read_program
from .statements import (
    Assignment, BlockIf, Declaration, Do, ElseIf, Form, LogicalIf, Name, Print, Private, Read, Save, read_form,
)

#: The first words of statements that list names.
_LISTS = ("INTEGER", "DIMENSION", "PARAMETER", "SAVE", "CALL", "SUBROUTINE")
_NAME = re.compile(r"[A-Z][A-Z0-9]*")
_FORBIDDEN = re.compile(r"[^A-Za-z0-9 =+\-*/(),.'$:]")


class Suspect(NamedTuple):
    """Where a refusal stands, and the name that it is about."""

    place: Place
    name: Optional[str] = None


#: A name that is used, with its place and the number of its subscripts.
_Use = Tuple[str, Place, int]


def suspect(lines: Sequence[str], number: int, line: int) -> Suspect:
    """What a refusal is about, by its number and its line."""
    if not 1 <= line <= len(lines):
        return Suspect(Place(max(line, 1), 1))
    if number <= 5:
        return Suspect(Place(line, _column(lines[line - 1], number)))
    find = _FINDERS.get(number)
    try:
        found = find(unit_of(lines, line), line) if find is not None else None
    except (NoExpression, LookupError, StopIteration):
        # The text is refused, so it may have any form. Then the column is the statement's.
        found = None
    return found or Suspect(Place(line, _first_letter(lines[line - 1])))


def unit_of(lines: Sequence[str], line: int) -> List[str]:
    """The lines with those blanked that belong to another program unit than a line; an END ends each unit."""
    ends = [statement.last_line for statement in read_statements(lines) if statement.text.letters == "END"]
    first = max((end for end in ends if end < line), default=0)
    last = min((end for end in ends if end >= line), default=len(lines))
    return [text if first < number <= last else "" for number, text in enumerate(lines, 1)]


def _column(text: str, number: int) -> int:
    """The column of a refusal of a line."""
    if number == 1:
        return text.index("\t") + 1 if "\t" in text else 1
    if number == 2:
        match = re.search(r"[^ 0-9]", text[:5]) or re.search(r"[^ ]", text[:5])
        return match.start() + 1 if match else 1
    if number == 5:
        match = _FORBIDDEN.search(text, FIRST_COLUMN - 1, LAST_COLUMN)
        return match.start() + 1 if match else _first_letter(text)
    return FIRST_COLUMN - 1


def _first_letter(text: str) -> int:
    rest = text[FIRST_COLUMN - 1:LAST_COLUMN]
    return FIRST_COLUMN + len(rest) - len(rest.lstrip(" ")) if rest.strip(" ") else 1


def _assigned_index(lines: Sequence[str], line: int) -> Optional[Suspect]:
    """The variable of a loop that is changed in it."""
    program = read_program(lines)
    for statement in _statements_at(program, line):
        variables = {loop.variable for loop in program.loops_round(statement.number)}
        for name, span in _targets(statement):
            if name in variables:
                return Suspect(span.start, name)
    return None


def _statements_at(program: Program, line: int) -> List[Statement]:
    """The statements at a line: two for a logical IF."""
    return [statement for statement in program.statements if statement.line == line]


def _targets(statement: Statement) -> Iterator[Tuple[str, Span]]:
    """What a statement assigns, reads into, or counts."""
    form = statement.form
    if isinstance(form, Assignment):
        yield form.target.name, form.target.span
    elif isinstance(form, Do):
        yield form.variable.name, form.variable.span
    elif isinstance(form, Read):
        for item in form.items:
            yield item.name, item.span


def _real_name(lines: Sequence[str], line: int) -> Optional[Suspect]:
    """The name that is REAL: undeclared, and not beginning with I to N. A SAVE without a list stands for all names."""
    statements = read_statements(lines)
    declared = {
        one.name
        for form in (read_form(one.text) for one in statements if one.text.letters.startswith("INTEGER"))
        if isinstance(form, Declaration) for one in form.declarators
    }
    here = next(one for one in statements if one.first_line == line)
    named = statements if read_form(here.text) == Save(()) else [here]
    for statement in named:
        for name, place in _named(statement):
            if name not in declared and not "I" <= name[0] <= "N":
                return Suspect(here.text.start if statement is not here else place, name)
    return None


def _named(statement: WrittenStatement) -> Iterator[Tuple[str, Place]]:
    """The names of variables, arrays and constants in a statement, as far as they are told from its words."""
    for directive in statement.directives:
        yield directive.name, statement.text.start
    letters = statement.text.letters
    form = read_form(statement.text)
    word = next((one for one in _LISTS if letters.startswith(one)), None)
    if word is None or isinstance(form, (Assignment, Do)):
        yield from ((name, place) for name, place, _ in _uses(form))
        return
    found = list(_NAME.finditer(letters, len(word)))
    # The name of a subroutine is none of a variable.
    for match in found[1:] if word in ("CALL", "SUBROUTINE") else found:
        if match.group() not in INTRINSICS:
            yield match.group(), statement.text[match.start()].start


def _rank(lines: Sequence[str], line: int) -> Optional[Suspect]:
    """The name with another number of subscripts than dimensions."""
    program = read_program(lines)
    forms = {statement.first_line: read_form(statement.text) for statement in read_statements(lines)}
    for name, place, count in _uses(forms[line]):
        if count != len(program.arrays.get(name, ())):
            return Suspect(place, name)
    return None


def _uses(form: Form) -> Iterator[_Use]:
    """The names in a statement behind the declarations, those of a logical IF's own statement among them."""
    for part in _parts(form):
        if isinstance(part, Name):
            yield part.name, part.span.start, 0
        else:
            yield from ((one.name, one.source.start, len(one.parts())) for one in occurrences(part))
    if isinstance(form, LogicalIf):
        yield from _uses(read_form(form.text))


def _parts(form: Form) -> Sequence[Union[Expression, Name]]:
    """The expressions and names of a statement, in the order in which they stand."""
    if isinstance(form, Assignment):
        return [form.target, form.value]
    if isinstance(form, (BlockIf, ElseIf, LogicalIf)):
        return [form.condition]
    if isinstance(form, Do):
        bounds = [form.first, form.last, form.step] if form.step is not None else [form.first, form.last]
        return [form.variable, *bounds]
    if isinstance(form, (Print, Read)):
        return list(form.items)
    if isinstance(form, Private):
        return list(form.names)
    return []


_FINDERS: Dict[int, Callable[[Sequence[str], int], Optional[Suspect]]] = {
    11: _assigned_index,
    14: _real_name,
    17: _rank,
}
