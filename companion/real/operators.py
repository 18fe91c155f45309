"""Operators and assignments of the user's between intrinsic types: a procedure is called where none seems to be.

An INTERFACE may define `+` for two LOGICALs, or an assignment of a CHARACTER to an INTEGER, since the language has
none. Where every procedure of such an INTERFACE has an argument of a derived type, only expressions with structures
call it, and nothing is said about these anyway. Any other may be called by a statement that looks like an ordinary one.
"""

from __future__ import annotations

from typing import TYPE_CHECKING, Dict, Iterator, List, Sequence

from . import tree, units

if TYPE_CHECKING:
    from .symbols import Symbols

#: The operators of the language as an INTERFACE may write them. An operator with a name is seen where it's used.
_GENERIC = frozenset(
    f"OPERATOR({operator})" for operator in [*tree.OPERATORS, "<", "<=", "==", "/=", ">", ">="]
) | {"ASSIGNMENT(=)"}


def hidden_calls(visible: Sequence[Symbols]) -> Iterator[units.Fault]:
    """The operators that some visible units define for intrinsic types."""
    procedures = _procedures(visible)
    for owner in visible:
        for declared in owner.unit.specification:
            head = declared.head.statement if isinstance(declared, units.InterfaceBlock) else None
            if not isinstance(declared, units.InterfaceBlock) or not isinstance(head, tree.Interface):
                continue
            generic, specifics = head.generic.replace(" ", ""), _specifics(owner, declared, procedures)
            if generic in _GENERIC and not all(map(_takes_structure, specifics)):
                words = f"{generic} of {owner.unit.path} may be meant between intrinsic types"
                yield units.Fault("function", declared.head.item.first, words)


def _procedures(visible: Sequence[Symbols]) -> Dict[str, List[Symbols]]:
    """The procedures that visible units contain, and those whose interfaces they have, by their names."""
    found: Dict[str, List[Symbols]] = {}
    for owner in visible:
        bodies = [
            body for declared in owner.unit.specification if isinstance(declared, units.InterfaceBlock)
            for body in declared.bodies
        ]
        for unit in (*owner.unit.contained, *bodies):
            found.setdefault(unit.name, []).append(owner.of(unit))
    return found


def _specifics(
    owner: Symbols, interface: units.InterfaceBlock, procedures: Dict[str, List[Symbols]]
) -> Iterator[List[Symbols]]:
    """For each procedure of an INTERFACE what it may be; nothing where it isn't in the files."""
    for body in interface.bodies:
        yield [owner.of(body)]
    for written in interface.names:
        statement = written.statement
        names = statement.names if isinstance(statement, (tree.ModuleProcedure, tree.ProcedureDeclaration)) else ("",)
        for name in names:
            yield procedures.get(name, [])


def _takes_structure(candidates: List[Symbols]) -> bool:
    """Whether a procedure has an argument of a derived type, whichever of some candidates it is."""
    return bool(candidates) and all(
        any(one.get(name).type in ("TYPE", "CLASS") for name in _dummies(one)) for one in candidates
    )


def _dummies(symbols: Symbols) -> List[str]:
    return [name for name, facts in symbols.declarations.names.items() if "DUMMY" in facts.attributes]
