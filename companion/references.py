"""The references of a statement, numbered as the panes number them.

The rule is that of docs/PANES.md, "References". A reference is a use of a variable or an array; named constants are
none, and the variable of a DO is none in the body of that DO.
"""

from __future__ import annotations

from dataclasses import dataclass
from typing import Container, Iterator, Sequence, Tuple, Union

from .expressions import Element, Expression, Variable, occurrences
from .lines import Span, Text
from .statements import Assignment, BlockIf, Do, Name, Numbered, Print, Read

OUTPUT = "(OUT)"
INPUT = "(IN)"


@dataclass(frozen=True)
class Reference:
    """A reference: its statement, its number there, its name, whether it writes, and what it was read from."""

    statement: int
    number: int
    name: str
    writes: bool
    source: Text
    text: str
    subscripts: Tuple[Expression, ...] = ()

    @property
    def span(self) -> Span:
        """Where the reference stands."""
        return self.source.span

    @property
    def key(self) -> Tuple[int, int]:
        """The statement and the number, as the panes name the reference."""
        return self.statement, self.number


#: A use that has no number yet: the name, whether it writes, what it was read from, its text and its subscripts.
_Use = Tuple[str, bool, Text, str, Tuple[Expression, ...]]


def references_of(
    statement: int, form: Numbered, private: Sequence[Name], excluded: Container[str]
) -> Tuple[Reference, ...]:
    """The references of a statement in their order.

    `private` are the PRIVATE names of a DO. `excluded` are the names that are no references: the named constants and
    the variables of the loops round the statement.
    """
    uses = [use for use in _uses(form, private) if use[0] not in excluded]
    return tuple(Reference(statement, number, *use) for number, use in enumerate(uses, 1))


def _uses(form: Numbered, private: Sequence[Name]) -> Iterator[_Use]:
    if isinstance(form, Assignment):
        yield from _reads(form.value)
        yield from _write(form.target)
    elif isinstance(form, BlockIf):
        yield from _reads(form.condition)
    elif isinstance(form, Do):
        yield from _reads(form.first)
        yield from _reads(form.last)
        for name in private:
            yield name.name, True, name.source, name.name, ()
    elif isinstance(form, Print):
        for item in form.items:
            yield from _reads(item)
        yield OUTPUT, True, form.word, "PRINT", ()
    elif isinstance(form, Read):
        yield INPUT, True, form.word, "READ", ()
        for item in form.items:
            yield from _write(item)


def _reads(expression: Expression) -> Iterator[_Use]:
    for part in occurrences(expression):
        yield part.name, False, part.source, part.text, part.parts()


def _write(target: Union[Variable, Element]) -> Iterator[_Use]:
    """The reads of a target's subscripts, and its write."""
    for subscript in target.parts():
        yield from _reads(subscript)
    yield target.name, True, target.source, target.text, target.parts()
