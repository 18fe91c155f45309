"""Trees of units, made by hand for the tests of what comes after reading."""

from __future__ import annotations

import itertools
from typing import List, Optional, Sequence, Tuple, Union

from ..real import items, tree, units
from ..real.keywords import keyword_of, letters_of

_NUMBERS = itertools.count()

#: A statement with the text that it's written as; a text alone stands for one whose tree doesn't matter.
Said = Union[tree.Statement, Tuple[str, tree.Statement], str]


def written(said: Said, line: int = 1) -> units.Written:
    """A statement in its place."""
    if isinstance(said, str):
        said = (said, tree.Continue())
    text, statement = said if isinstance(said, tuple) else ("", said)
    item = items.Item(line, line, None, "", text or _text(statement))
    word = "INCLUDE" if isinstance(statement, tree.Include) else keyword_of(letters_of(item.text, "free"), "free")
    return units.Written(next(_NUMBERS), item, word, lambda *_: statement)


def _text(statement: tree.Statement) -> str:
    """A text with the names of a statement."""
    return " ".join(name for one in statement.expressions() for name in tree.names_in(one)) or type(statement).__name__


def unit(
    head: tree.Statement,
    *specification: Union[Said, units.TypeDefinition, units.InterfaceBlock],
    body: Sequence[Union[Said, units.Block]] = (),
    contained: Sequence[units.Unit] = (),
) -> units.Unit:
    """A unit with those that it contains."""
    assert isinstance(head, tree.Head)
    made = units.Unit(
        head.kind,
        head.name,
        written(head),
        tuple(_declared(one) for one in specification),
        tuple(one if isinstance(one, units.Block) else written(one) for one in body),
        written(tree.End(head.kind)),
        contained=tuple(contained),
    )
    for one in contained:
        one.host = made
    return made


def _declared(said: Union[Said, units.TypeDefinition, units.InterfaceBlock]) -> units.Declared:
    return said if isinstance(said, (units.TypeDefinition, units.InterfaceBlock)) else written(said)


def procedure(
    name: str,
    *specification: Said,
    arguments: Sequence[str] = (),
    body: Sequence[Union[Said, units.Block]] = (),
    contained: Sequence[units.Unit] = (),
) -> units.Unit:
    """A subroutine."""
    return unit(tree.Head("SUBROUTINE", name, tuple(arguments)), *specification, body=body, contained=contained)


def declare(type_: Union[str, tree.TypeSpec], *names: Union[str, tree.Entity], attributes: Sequence[str] = ()) -> Said:
    """A type declaration."""
    spec = tree.TypeSpec(type_) if isinstance(type_, str) else type_
    entities = tuple(tree.Entity(name) if isinstance(name, str) else name for name in names)
    return " ".join(entity.name for entity in entities), tree.TypeDeclaration(spec, frozenset(attributes), entities)


def array(name: str, *uppers: Union[int, str]) -> tree.Entity:
    """A name with explicit upper bounds; `:` is a bound that isn't written, `*` that of assumed size."""
    return tree.Entity(name, tuple(tree.Bound(None, _upper(upper)) for upper in uppers))


def _upper(upper: Union[int, str]) -> Optional[tree.Expression]:
    if upper == ":":
        return None
    return tree.Star() if upper == "*" else expression(upper)


def expression(value: Union[int, str]) -> tree.Expression:
    """A literal or a name."""
    return tree.Name(value) if isinstance(value, str) else tree.Literal("INTEGER", str(value))


def operation(operator: str, *operands: Union[int, str, tree.Expression]) -> tree.Operation:
    """An operator with its operands."""
    return tree.Operation(
        operator, tuple(one if isinstance(one, tree.Expression) else expression(one) for one in operands)
    )


def reference(name: str, *arguments: Union[int, str, tree.Expression]) -> tree.Reference:
    """A name with arguments."""
    return tree.Reference(
        tree.Name(name), tuple(one if isinstance(one, tree.Expression) else expression(one) for one in arguments)
    )


def parameter(name: str, value: tree.Expression) -> Said:
    """PARAMETER."""
    return name, tree.Parameter(((name, value),))


def attribute(word: str, *names: Union[str, tree.Entity]) -> Said:
    """A statement that gives an attribute."""
    entities = tuple(tree.Entity(name) if isinstance(name, str) else name for name in names)
    return " ".join(entity.name for entity in entities), tree.AttributeDeclaration(word, entities)


def block(kind: str, head: Said, *body: Union[Said, units.Block]) -> units.Block:
    """A block with one branch."""
    first = written(head)
    nodes: List[units.Node] = [one if isinstance(one, units.Block) else written(one) for one in body]
    return units.Block(kind, first, (units.Branch(first, tuple(nodes)),), written(tree.End(kind)))
