"""The questions of `accesses` about names, answered by the symbols of a unit."""

from __future__ import annotations

from typing import FrozenSet, List, Optional, Protocol, Sequence, Tuple, Union

from . import components, tree
from .accesses import Called, Kind, StatementFunction, Trouble
from .components import TypeComponents
from .symbols import Storage, Symbol, Symbols

#: What a name is by its storage, where it's no variable and no procedure.
_KINDS = {Storage.CONSTANT: Kind.CONSTANT, Storage.TYPE: Kind.TYPE, Storage.UNKNOWN: Kind.UNKNOWN}

#: The parts of a COMPLEX and the properties of a variable that have the form of a component.
_PARTS = frozenset(["RE", "IM", "KIND", "LEN"])


class Procedures(Protocol):
    """What is known of the procedures of some files."""

    def called(
        self, symbols: Symbols, name: str, arguments: Sequence[tree.Expression], is_function: bool
    ) -> Union[Called, Trouble]:
        """What a procedure does that a unit calls, in the unit's names; why that isn't known."""

    def function_type(self, symbols: Symbols, name: str) -> str:
        """The type of the value of a function that a unit refers to, empty where it isn't in the files."""

    def function_key(self, symbols: Symbols, name: str) -> Optional[Tuple[str, str]]:
        """Where the type of a function's value is defined, if that is a structure, and its name there."""


class Roles:
    """What the names of a unit are for its statements: `accesses.Names`. Without `procedures` nobody looks into them."""

    def __init__(self, symbols: Symbols, procedures: Optional[Procedures] = None) -> None:
        self._symbols = symbols
        self._procedures = procedures

    def kind_of(self, name: str) -> Kind:
        """What a name is."""
        symbol = self._symbols.get(name)
        if symbol.storage in _KINDS:
            return _KINDS[symbol.storage]
        if symbol.storage is Storage.PROCEDURE:
            if name in self._symbols.statement_functions:
                return Kind.STATEMENT_FUNCTION
            return Kind.INTRINSIC if "INTRINSIC" in symbol.attributes else Kind.PROCEDURE
        return Kind.ARRAY if symbol.bounds else Kind.SCALAR

    def is_intrinsic(self, name: str) -> bool:
        """Whether a name before parentheses is that of an intrinsic function, if there is one of this name."""
        return self._symbols.is_intrinsic(name)

    def type_of(self, name: str) -> str:
        """The type of a name, empty where it isn't known."""
        return self._symbols.get(name).type

    def attributes_of(self, name: str) -> FrozenSet[str]:
        """The attributes of a variable."""
        return self._symbols.get(name).attributes

    def statement_function(self, name: str) -> Optional[StatementFunction]:
        """A statement function by its name."""
        found = self._symbols.statement_functions.get(name)
        return None if found is None else StatementFunction(found.arguments, found.value)

    def is_reached_by_calls(self, name: str) -> bool:
        """Whether a procedure may read or write a variable that it hasn't got as an argument."""
        return self._symbols.get(name).is_reached_by_calls

    def outlives_unit(self, name: str) -> bool:
        """Whether a variable's value may be needed when the unit has ended."""
        return self._symbols.is_live_at_end(name)

    def is_kept(self, name: str) -> bool:
        """Whether the next run of the unit may need a variable's value, and nothing else outside this run can."""
        return self._symbols.is_kept(name)

    def may_share_storage(self, name: str) -> bool:
        """Whether another name of the unit may stand for the same storage."""
        symbol = self._symbols.get(name)
        return symbol.is_pointer or bool(symbol.group) or bool(symbol.attributes & {"VOLATILE", "ASYNCHRONOUS"})

    def called(
        self, name: str, arguments: Sequence[tree.Expression], is_function: bool
    ) -> Union[Called, Trouble, None]:
        """What a procedure does that is called with these arguments; none where nobody looks into procedures."""
        return None if self._procedures is None else self._procedures.called(self._symbols, name, arguments, is_function)

    def function_type(self, name: str) -> str:
        """The type of the value of a function whose body was read; empty for all other names."""
        return "" if self._procedures is None else self._procedures.function_type(self._symbols, name)

    def structure_trouble(self, designator: tree.Expression) -> Optional[Trouble]:
        """Why nothing is said about a designator of a derived type; none where it is plain data."""
        symbol: Optional[Symbol] = self._symbols.get(tree.root_of(designator))
        home = self._symbols
        for component in _components(designator):
            assert symbol is not None
            if symbol.type not in ("TYPE", "CLASS"):
                return None if component in _PARTS else Trouble("function", f"{component} is no component")
            found = self._type(symbol, home)
            if isinstance(found, Trouble):
                return found
            symbol, home = found.component(component), found.home
            if symbol is None and not found.is_complete:
                return Trouble("use", f"not all components of {found.name} are known")
            if symbol is None:
                return Trouble("function", f"{component} is no data of the type {found.name}")
            if "POINTER" in symbol.attributes:
                return Trouble("pointer", f"{component} of the type {found.name} is a POINTER")
        if symbol is not None and symbol.type in ("TYPE", "CLASS"):
            return Trouble("function", f"{designator} is a structure as a whole")
        return None

    def component_type(self, designator: tree.Expression) -> str:
        """The type of a component of a structure, as `type_of` has it; empty where it isn't plain data."""
        components = _components(designator)
        if not components or self.structure_trouble(designator) is not None:
            return ""
        symbol, home = self._symbols.get(tree.root_of(designator)), self._symbols
        for component in components:
            found = home.components(symbol)
            inner = None if found is None else found.component(component)
            if found is None or inner is None:
                return ""
            symbol, home = inner, found.home
        return symbol.type

    def part_of(self, designator: tree.Expression) -> Optional[components.Part]:
        """The part of a structure that a designator is; none where it's none, or its type isn't known."""
        return components.part_of(self._symbols, designator)

    def is_constructor(self, name: str) -> bool:
        """Whether the name of a derived type before parentheses makes a structure of values, and is no function."""
        home = self._symbols.home_of(self._symbols.get(name))
        facts = None if home is None else home.declarations.names.get(self._symbols.get(name).original)
        return facts is not None and "GENERIC" not in facts.attributes and not self._symbols.missing_modules

    def copied(
        self, target: tree.Expression, value: tree.Expression
    ) -> Union[Tuple[components.Leaf, ...], Trouble, None]:
        """The components that an assignment of a structure assigns; none where the target is no structure as a whole."""
        part = self.part_of(target)
        if part is None or not part.is_structure:
            return None
        try:
            components.check_assignment(self._symbols, part)
            leaves = components.leaves_of(part.home, part.symbol)
        except components.NotPlain as error:
            return Trouble("function", f"{target} {error.words}")
        key = components.key_of(part.home, part.symbol)
        if key is None or self.type_key(value) != key:
            return Trouble("function", f"{target} and {value} may have different types")
        return leaves

    def type_key(self, value: tree.Expression) -> Optional[Tuple[str, str]]:
        """Where the type of a structure is defined, and its name there; none where that isn't certain."""
        while isinstance(value, tree.Parentheses):
            value = value.inner
        name = value.base.name if isinstance(value, tree.Reference) and isinstance(value.base, tree.Name) else ""
        if name and self.kind_of(name) is Kind.TYPE and self.is_constructor(name):
            known = self._symbols.derived_type(name)
            return None if known is None else (known.home.unit.path, known.name)
        if name and self.kind_of(name) is Kind.PROCEDURE:
            return None if self._procedures is None else self._procedures.function_key(self._symbols, name)
        part = self.part_of(value)
        return None if part is None else components.key_of(part.home, part.symbol)

    def _type(self, symbol: Symbol, home: Symbols) -> Union[TypeComponents, Trouble]:
        """The components of a variable's type, which is seen where the variable is declared."""
        if symbol.type == "CLASS" and symbol.derived == "*":
            return Trouble("function", f"{symbol.name} may have any type")
        found = home.components(symbol)
        if found is None:
            return Trouble("use", f"the type {symbol.derived} isn't in the files")
        return found


def _components(designator: tree.Expression) -> List[str]:
    """The names of the components of a designator, the first one first."""
    found: List[str] = []
    part: tree.Expression = designator
    while True:
        if isinstance(part, tree.Component):
            found.append(part.component)
            part = part.base
        elif isinstance(part, tree.Reference):
            part = part.base
        else:
            break
    return found[::-1]
