"""Parts of designators and of arguments, and expressions with other parts."""

from __future__ import annotations

from dataclasses import replace
from typing import Callable, Dict, List, Optional, Tuple

from . import tree


def chain_of(designator: tree.Expression) -> List[tree.Expression]:
    """The parts of a designator that are built on one another, its first name first."""
    parts = [designator]
    while isinstance(parts[-1], (tree.Reference, tree.Component)):
        parts.append(parts[-1].base)
    return parts[::-1]


def first_subscripts(designator: tree.Expression) -> Optional[Tuple[tree.Expression, ...]]:
    """The subscripts of a designator's first name, none where it has no parentheses."""
    chain = chain_of(designator)
    first = chain[1] if len(chain) > 1 else None
    return first.arguments if isinstance(first, tree.Reference) else None


def value_of(argument: tree.Expression) -> tree.Expression:
    """An argument without its keyword."""
    return argument.value if isinstance(argument, tree.Keyword) else argument


def substituted(expression: tree.Expression, values: Dict[str, tree.Expression]) -> tree.Expression:
    """An expression with values, each in parentheses, in the place of names."""
    if isinstance(expression, tree.Name):
        value = values.get(expression.name)
        return expression if value is None else tree.Parentheses(value)
    return _rebuilt(expression, lambda part: substituted(part, values))


def _rebuilt(
    expression: tree.Expression, change: Callable[[tree.Expression], tree.Expression]
) -> tree.Expression:
    """An expression with changed parts. The base of a reference stays a name."""
    changed: Dict[str, object] = {}
    for field, value in vars(expression).items():
        if field == "base" and isinstance(value, tree.Name):
            continue
        if isinstance(value, tree.Expression):
            changed[field] = change(value)
        elif isinstance(value, tuple) and value and all(isinstance(one, tree.Expression) for one in value):
            changed[field] = tuple(change(one) for one in value)
    return replace(expression, **changed) if changed else expression
