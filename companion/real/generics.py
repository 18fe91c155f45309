"""Which procedures of a generic name a call may mean, by the types, kinds and ranks of its arguments.

Those that a call certainly doesn't fit are left out. Where the program is right, one of the others is meant. If there
are several, the call may do what any of them does.
"""

from __future__ import annotations

from dataclasses import replace
from typing import Dict, List, Optional, Sequence, Tuple

from . import constants, tree
from .accesses import Called, Kind, is_variable
from .components import key_of
from .designators import value_of
from .procedures import is_elemental
from .recurrences import type_of
from .roles import Roles
from .summaries import dummies_of
from .symbols import Symbol, Symbols
from .units import Unit


def fitting(
    symbols: Symbols, roles: Roles, candidates: Sequence[Unit], arguments: Sequence[tree.Expression]
) -> List[Unit]:
    """The procedures that a call may fit."""
    return [one for one in candidates if _may_fit(symbols, roles, one, arguments)]


def _may_fit(symbols: Symbols, roles: Roles, target: Unit, arguments: Sequence[tree.Expression]) -> bool:
    own = symbols.of(target)
    names = dummies_of(target)
    given: Dict[str, tree.Expression] = {}
    for position, argument in enumerate(arguments):
        name = names[position] if position < len(names) else ""
        name = argument.keyword if isinstance(argument, tree.Keyword) else name
        if name not in names or name in given:
            return False
        given[name] = value_of(argument)
    if any(name not in given and "OPTIONAL" not in own.get(name).attributes for name in names):
        return False
    return all(_may_be(symbols, roles, own, name, one) for name, one in given.items())


def _may_be(symbols: Symbols, roles: Roles, own: Symbols, name: str, actual: tree.Expression) -> bool:
    """Whether an argument may be given to a dummy of a generic name: then type, kind and rank are the same."""
    dummy, has_any_rank = own.get(name), is_elemental(own.unit)
    type_, kind = _type_and_kind(symbols, roles, actual)
    if type_ and dummy.type and type_ != dummy.type and "CLASS" not in (type_, dummy.type):
        return False
    if type_ == dummy.type and type_ != "TYPE" and kind is not None and dummy.kind is not None and kind != dummy.kind:
        return False
    if type_ == "TYPE" and _is_other(own, roles, dummy, actual):
        return False
    rank = rank_of(symbols, roles, actual)
    has_any_rank = has_any_rank or any(bound.upper == tree.Name("..") for bound in dummy.bounds)
    return rank is None or rank == dummy.rank or has_any_rank and not dummy.rank


def _is_other(own: Symbols, roles: Roles, dummy: Symbol, actual: tree.Expression) -> bool:
    """Whether a structure has another type than a dummy, for certain."""
    key, other = roles.type_key(actual), key_of(own, dummy)
    return dummy.type == "TYPE" and key is not None and other is not None and key != other


def _type_and_kind(symbols: Symbols, roles: Roles, actual: tree.Expression) -> Tuple[str, Optional[int]]:
    """The type of an argument, empty where it isn't certain, and its kind, none where it isn't certain."""
    while isinstance(actual, tree.Parentheses):
        actual = actual.inner
    if isinstance(actual, tree.Literal):
        return actual.type if actual.type != "BOZ" else "", constants.literal_kind(actual, symbols)
    if tree.root_of(actual) and is_variable(actual, roles):
        found = symbols.designated(actual)
        return ("", None) if found is None else (found.type, found.kind)
    if isinstance(actual, tree.Name) and roles.kind_of(actual.name) is Kind.CONSTANT:
        found = symbols.get(actual.name)
        return found.type, found.kind
    return type_of(actual, roles), None


def rank_of(symbols: Symbols, roles: Roles, actual: tree.Expression) -> Optional[int]:
    """The rank of an argument; none where it isn't certain."""
    if isinstance(actual, tree.Literal):
        return 0
    if isinstance(actual, tree.Parentheses):
        return rank_of(symbols, roles, actual.inner)
    if isinstance(actual, tree.Operation):
        ranks = [rank_of(symbols, roles, one) for one in actual.operands]
        known = [one for one in ranks if one is not None]
        return max(known) if len(known) == len(ranks) and not actual.is_defined else None
    name = tree.root_of(actual)
    if not name or not is_variable(actual, roles):
        return 0 if isinstance(actual, tree.Name) and roles.kind_of(actual.name) is Kind.CONSTANT and \
            not symbols.get(actual.name).rank else None
    return _rank_of_variable(symbols, roles, actual)


def _rank_of_variable(symbols: Symbols, roles: Roles, actual: tree.Expression) -> Optional[int]:
    part = roles.part_of(actual)
    if part is not None:
        subscripts: Sequence[tree.Expression] = part.subscripts
    elif isinstance(actual, tree.Name):
        return symbols.get(actual.name).rank
    elif isinstance(actual, tree.Reference) and isinstance(actual.base, tree.Name):
        subscripts = actual.arguments if symbols.get(actual.base.name).rank else ()
    else:
        return None
    ranks = [1 if isinstance(one, tree.Section) else rank_of(symbols, roles, one) for one in subscripts]
    known = [one for one in ranks if one is not None]
    return sum(known) if len(known) == len(ranks) else None


def any_of(calls: Sequence[Called]) -> Called:
    """What a call does that may be one of several: all reads, and then all writes, perhaps."""
    if len(calls) == 1:
        return calls[0]
    accesses = [access for one in calls for access in one.accesses]
    reads = [access for access in accesses if not access.writes]
    writes = [replace(access, covers=False) for access in accesses if access.writes]
    assumes = frozenset(name for one in calls for name in one.assumes)
    return Called(tuple(dict.fromkeys([*reads, *writes])), assumes, any(one.reads_shared for one in calls))
