"""Which procedure of the files a name means where it is called, and why that isn't certain.

A contained procedure comes before one of a module, and that before an external one, as the declarations of the unit say.
What is a dummy, a pointer, a generic name, an ENTRY or the name of an intrinsic procedure is never guessed at.
"""

from __future__ import annotations

from typing import Dict, FrozenSet, Iterable, Iterator, List, Optional, Set, Tuple, Union

from . import intrinsics, tree
from .specifications import Facts
from .symbols import Storage, Symbols
from .units import InterfaceBlock, Unit

_KINDS = ("SUBROUTINE", "FUNCTION")


class Procedures:
    """The procedures of some files. `of` has the names of each unit."""

    def __init__(self, all_units: Iterable[Unit]) -> None:
        units = list(all_units)
        self._external: Dict[str, List[Unit]] = {}
        self._entries: Set[str] = set()
        paths: Dict[str, int] = {}
        for unit in units:
            paths[unit.path] = paths.get(unit.path, 0) + 1
            if unit.host is None and unit.kind in _KINDS:
                self._external.setdefault(unit.name, []).append(unit)
            self._entries.update(_entries(unit))
        #: The paths that more than one unit has, so that they name none of them.
        self.doubled: FrozenSet[str] = frozenset(path for path, count in paths.items() if count > 1)

    def find(self, symbols: Symbols, name: str, is_function: bool) -> Union[Unit, str]:
        """The procedure that a unit means by a name; words where that isn't certain.

        The body of an INTERFACE is the answer where the procedure itself isn't in the files.
        """
        found = self._find(symbols, name, is_function)
        if isinstance(found, str):
            return found
        if (found.kind == "FUNCTION") != is_function:
            return f"{name} is a {found.kind}, and isn't used as one"
        return f"{found.path} is in the files more than once" if found.path in self.doubled else found

    def _find(self, symbols: Symbols, name: str, is_function: bool) -> Union[Unit, str]:
        facts = symbols.declarations.names.get(name)
        if name in symbols.statement_functions:
            return f"{name} is a statement function"
        if facts is not None and facts.is_own:
            return self._own(symbols, name, facts, is_function)
        other = symbols.from_elsewhere(name)
        if other is None:
            return self._from_outside(name, is_function, None, is_external=False)
        home = symbols.home_of(other)
        if other.storage is Storage.UNKNOWN or home is None or home is symbols:
            return f"what {name} is isn't known: {missing_words(symbols)}"
        return self._find(home, other.original, is_function)

    # --- Generic names -------------------------------------------------------------------------------------------

    def specifics(self, symbols: Symbols, name: str, is_function: bool) -> Union[List[Unit], str, None]:
        """The procedures that a generic name may mean; words where they aren't all known; none for any other name."""
        if name in symbols.statement_functions or "GENERIC" not in symbols.get(name).attributes:
            return None
        if symbols.missing_modules:
            return f"{name} is a generic name: {missing_words(symbols)}"
        if "TYPE" in symbols.get(name).attributes:
            return f"{name} is a derived type and a generic name"
        if name in (intrinsics.PURE | intrinsics.FURTHER if is_function else intrinsics.SUBROUTINES):
            return f"{name} is a generic name and that of an intrinsic procedure"
        found: Dict[Unit, None] = {}
        words = self._collect(symbols, name, is_function, found, set())
        return words or list(found) or f"{name} is a generic name without procedures"

    def _collect(
        self, symbols: Symbols, name: str, is_function: bool, found: Dict[Unit, None], seen: Set[Tuple[str, str]]
    ) -> str:
        """Adds the procedures of a generic name in a unit, its modules and its hosts; words where one isn't known."""
        if (symbols.unit.path, name) in seen:
            return ""
        seen.add((symbols.unit.path, name))
        for specific in _specifics_of(symbols.unit, name):
            one = self._specific(symbols, specific, is_function)
            if isinstance(one, str):
                return f"{name} is a generic name: {one}"
            found[one] = None
        nexts = list(symbols.used_as(name))
        if symbols.host is not None:
            nexts.append((symbols.host, name))
        return next(filter(None, (self._collect(one, other, is_function, found, seen) for one, other in nexts)), "")

    def _specific(self, symbols: Symbols, name: str, is_function: bool) -> Union[Unit, str]:
        """A procedure that a generic name has; it may have the name itself."""
        contained = [one for one in symbols.unit.contained if one.name == name]
        if len(contained) == 1 and contained[0].kind in _KINDS and contained[0].path not in self.doubled:
            fits = (contained[0].kind == "FUNCTION") == is_function
            return contained[0] if fits else f"{name} is a {contained[0].kind}"
        return self.find(symbols, name, is_function)

    def _own(self, symbols: Symbols, name: str, facts: Facts, is_function: bool) -> Union[Unit, str]:
        """A name that a unit declares itself."""
        for attribute, words in _UNCERTAIN:
            if attribute in facts.attributes:
                return f"{name} is {words}"
        if facts.bounds or facts.block:
            return f"{name} is a variable"
        contained = [one for one in symbols.unit.contained if one.name == name]
        if contained:
            return contained[0] if len(contained) == 1 and contained[0].kind in _KINDS else f"{name} isn't certain"
        if symbols.unit.kind in _KINDS and symbols.unit.name == name:
            return symbols.unit
        if name in _entries(symbols.unit):
            return f"{name} is an ENTRY"
        body = _interface_of(symbols.unit, name)
        if body is not None and "MODULE" in _prefixes(body):
            return f"the body of {name} is in a submodule"
        is_external = body is not None or bool(facts.attributes & {"EXTERNAL", "PROCEDURE"})
        return self._from_outside(name, is_function, body, is_external)

    def _from_outside(self, name: str, is_function: bool, body: Optional[Unit], is_external: bool) -> Union[Unit, str]:
        """An external procedure. `is_external` means that the unit says that it is one."""
        if not is_external and name in intrinsics.SUBROUTINES | intrinsics.PURE | intrinsics.FURTHER:
            return f"{name} is the name of an intrinsic procedure"
        kind = "FUNCTION" if is_function else "SUBROUTINE"
        if name in self._entries:
            return f"{name} is an ENTRY"
        found = self._external.get(name, [])
        if len(found) > 1:
            return f"{kind} {name} is in the files more than once"
        if found:
            return found[0]
        return f"{kind} {name} isn't in the files" if body is None else body


#: The attributes of names that may mean another procedure in each run, or in each call.
_UNCERTAIN = (
    ("DUMMY", "a dummy argument"), ("POINTER", "a pointer to a procedure"), ("GENERIC", "a generic name"),
    ("INTRINSIC", "an intrinsic procedure"), ("TYPE", "a derived type"), ("RESULT", "the function's own result"),
    ("PARAMETER", "a constant"), ("VOLATILE", "VOLATILE"),
)


def missing_words(symbols: Symbols) -> str:
    """That something is in a module that isn't in the files, perhaps."""
    missing = symbols.missing_modules
    return f"module {missing[0]} isn't in the files, and may have it" if missing else "a module may have it"


def _specifics_of(unit: Unit, name: str) -> Iterator[str]:
    """The procedures that the INTERFACEs of a unit put under a generic name."""
    for declared in unit.specification:
        head = declared.head.statement if isinstance(declared, InterfaceBlock) else None
        if not isinstance(declared, InterfaceBlock) or not isinstance(head, tree.Interface) or head.generic != name:
            continue
        yield from (body.name for body in declared.bodies)
        for written in declared.names:
            statement = written.statement
            known = isinstance(statement, (tree.ModuleProcedure, tree.ProcedureDeclaration))
            yield from statement.names if known else ("",)  # type: ignore[attr-defined]


def is_interface(unit: Unit) -> bool:
    """Whether a unit is the body of an INTERFACE, which says nothing of what the procedure does."""
    return unit.host is not None and unit not in unit.host.contained


def is_pure(unit: Unit) -> bool:
    """Whether a procedure is said to be PURE, or ELEMENTAL without IMPURE."""
    prefixes = _prefixes(unit)
    return "PURE" in prefixes or "ELEMENTAL" in prefixes and "IMPURE" not in prefixes


def is_elemental(unit: Unit) -> bool:
    """Whether a procedure is said to be ELEMENTAL."""
    return "ELEMENTAL" in _prefixes(unit)


def has_interface(symbols: Symbols, target: Unit) -> bool:
    """Whether a compiler that compiles a unit sees the dummies of a procedure that it calls.

    It does for procedures of modules and for contained ones. Of an external one an INTERFACE says them.
    """
    if target.host is not None:
        return True
    above: Optional[Symbols] = symbols
    while above is not None:
        if _interface_of(above.unit, target.name) is not None:
            return True
        above = above.host
    return False


def _interface_of(unit: Unit, name: str) -> Optional[Unit]:
    """The body of an INTERFACE in a unit for a name."""
    for declared in unit.specification:
        if isinstance(declared, InterfaceBlock):
            for body in declared.bodies:
                if body.name == name:
                    return body
    return None


def _prefixes(unit: Unit) -> FrozenSet[str]:
    head = unit.head.statement if unit.head is not None else None
    return head.prefixes if isinstance(head, tree.Head) else frozenset()


def _entries(unit: Unit) -> FrozenSet[str]:
    """The names of the ENTRY statements of a unit."""
    found = (written.statement for written in unit.statements() if written.word == "ENTRY")
    return frozenset(one.name for one in found if isinstance(one, tree.Entry))
