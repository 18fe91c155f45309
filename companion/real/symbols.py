"""What the names of a unit stand for.

`Scopes` knows the units of some files; `Scopes.of(unit)` has the `Symbols` of a unit, which answers for each name,
also for those that nothing declares, and those of hosts and modules. What can't be known is said to be so:
`Storage.UNKNOWN` for a name that a module may have that isn't in the files, and `Symbols.faults` where the
declarations of a unit, or of a host of it, aren't all there.
"""

from __future__ import annotations

from dataclasses import dataclass, replace
from enum import Enum
from typing import Dict, FrozenSet, Iterable, Iterator, List, Mapping, Optional, Set, Tuple

from . import constants, tree, units
from .components import TypeComponents, component_symbol
from .constants import Integer
from .keywords import DECLARATIONS
from .operators import hidden_calls
from .sharing import Sharing
from .specifications import Declarations, Facts, read_declarations


class Storage(Enum):
    """What a name stands for, and whose it is."""

    #: A variable of the unit.
    LOCAL = "local"
    #: A dummy argument that is a variable.
    DUMMY = "dummy"
    #: The result of the function, or of an ENTRY of it.
    RESULT = "result"
    #: A variable of a common block, also by EQUIVALENCE.
    COMMON = "common"
    #: A variable of the procedure or the main program that contains the unit.
    HOST = "host"
    #: A variable of a module, the unit's own or another.
    MODULE = "module"
    #: A named constant.
    CONSTANT = "constant"
    #: A procedure, a pointer to one, or a generic name.
    PROCEDURE = "procedure"
    #: A derived type, and so its constructor.
    TYPE = "type"
    #: A component of a derived type.
    COMPONENT = "component"
    #: It may be anything: a module that isn't in the files may have it, or nothing declares it below IMPLICIT NONE.
    UNKNOWN = "unknown"


#: A lower and an upper bound, none where its value isn't constant or isn't known.
Extent = Tuple[Optional[int], Optional[int]]


@dataclass(frozen=True)
class Symbol:
    """What a name stands for.

    `name` is its name in the unit that asks. `home` is the path of the unit that declares it, and `original` its name
    there, which a USE may change. `type` is
    `INTEGER`, `REAL`, `COMPLEX`, `LOGICAL`, `CHARACTER`, `TYPE`, `CLASS`, and empty where it isn't known; DOUBLE
    PRECISION is REAL. `kind` is none where it isn't known. `bounds` are as they are written, empty for a scalar;
    `extents` are their values; a lower bound that isn't written is 1, but for a deferred shape, where none is known.

    `attributes` are those of `tree.TypeDeclaration`, and `SAVE` also for a name with a value in DATA or after `=`,
    which has `INITIAL`, too; `NAMELIST`, and `GROUP` for the name of its group; `CRAY POINTER` and `CRAY POINTEE`;
    `CODIMENSION`; `CAPTURED` for a name that a contained procedure may use.

    `group` is the same for names that may share storage, and empty where no other name does: by EQUIVALENCE, by two
    COMMON statements that are both in force, by ENTRY of a function, by two names of a USE. `block` is the common
    block, `/NAME/`, where a COMMON statement names the variable itself.
    """

    name: str
    type: str = ""
    kind: Optional[int] = None
    bounds: Tuple[tree.Bound, ...] = ()
    storage: Storage = Storage.LOCAL
    attributes: FrozenSet[str] = frozenset()
    group: str = ""
    block: str = ""
    derived: str = ""
    extents: Tuple[Extent, ...] = ()
    value: Optional[tree.Expression] = None
    home: str = ""
    original: str = ""

    @property
    def rank(self) -> int:
        """How many dimensions an array has, 0 for a scalar."""
        return len(self.bounds)

    @property
    def is_variable(self) -> bool:
        """Whether it is a variable for certain."""
        return self.storage in _VARIABLES

    @property
    def is_pointer(self) -> bool:
        """Whether it may share its storage by pointers: POINTER, TARGET, and Cray pointees."""
        return bool(self.attributes & {"POINTER", "TARGET", "CRAY POINTEE"})

    @property
    def is_reached_by_calls(self) -> bool:
        """Whether a procedure may read or write it that hasn't got it as an argument.

        A saved variable is so, since the procedure may be the unit itself once more. Variables in a NAMELIST are so,
        since I/O reads and writes them without naming them.
        """
        return self.storage in _GLOBAL or self.is_pointer or bool(self.attributes & {"CAPTURED", "SAVE", "NAMELIST"})

    @property
    def outlives_unit(self) -> bool:
        """Whether its value may be used after RETURN or END; that of a dummy with INTENT(IN) or VALUE isn't."""
        if self.storage is Storage.DUMMY:
            return not self.attributes & {"INTENT(IN)", "VALUE"}
        return self.storage is Storage.RESULT or self.storage in _GLOBAL or self.is_pointer or "SAVE" in self.attributes

    @property
    def is_kept(self) -> bool:
        """Whether a run of the unit finds the value of the run before it, and only the unit's own statements can.

        So that value is needed only where a run may read the variable before it assigns it.
        """
        is_seen = self.is_pointer or bool(self.group) or bool(self.attributes & {"CAPTURED", "NAMELIST", "VOLATILE"})
        return self.storage is Storage.LOCAL and "SAVE" in self.attributes and not is_seen


_GLOBAL = frozenset([Storage.COMMON, Storage.HOST, Storage.MODULE, Storage.UNKNOWN])
_VARIABLES = frozenset([
    Storage.LOCAL, Storage.DUMMY, Storage.RESULT, Storage.COMMON, Storage.HOST, Storage.MODULE, Storage.COMPONENT,
])


@dataclass(frozen=True)
class StatementFunction:
    """`name(arguments) = value` before the first executable statement."""

    name: str
    arguments: Tuple[str, ...]
    value: tree.Expression


class Scopes:
    """The units of some files, and what their names stand for. Of two modules with one name neither is known."""

    def __init__(self, all_units: Iterable[units.Unit]) -> None:
        self._symbols: Dict[units.Unit, Symbols] = {}
        self._modules: Dict[Tuple[str, str], Optional[units.Unit]] = {}
        self._functions: Set[str] = set()
        self._paths: Dict[str, Optional[units.Unit]] = {}
        for unit in all_units:
            self._paths[unit.path] = None if unit.path in self._paths else unit
            if unit.kind == "FUNCTION" and unit.host is None:
                self._functions.add(unit.name)
            if unit.kind in ("MODULE", "SUBMODULE") and unit.host is None:
                key = (unit.kind, unit.name)
                self._modules[key] = None if key in self._modules else unit

    def of(self, unit: units.Unit) -> Symbols:
        """The names of a unit."""
        if unit not in self._symbols:
            self._symbols[unit] = Symbols(unit, self)
            self._symbols[unit].prepare()
        return self._symbols[unit]

    def has_function(self, name: str) -> bool:
        """Whether an external function of the files has a name."""
        return name in self._functions

    def at(self, path: str) -> Optional[Symbols]:
        """The names of the unit with a path; none where there isn't one."""
        unit = self._paths.get(path)
        return None if unit is None else self.of(unit)

    def module(self, name: str, kind: str = "MODULE") -> Optional[Symbols]:
        """The names of a module, or of a SUBMODULE; none where it isn't in the files."""
        unit = self._modules.get((kind, name))
        return None if unit is None else self.of(unit)


class Symbols:
    """The names of a unit. It answers the questions of `constants.Names`, too."""

    def __init__(self, unit: units.Unit, scopes: Scopes) -> None:
        self.unit = unit
        self._scopes = scopes
        #: The unit whose names are visible here, where the unit itself hasn't got them; none for most units.
        self.host: Optional[Symbols] = None
        #: The name of a parent module that isn't in the files, empty for most units.
        self.missing_parent = ""
        self.declarations = Declarations()
        self._known: Dict[str, Symbol] = {}
        #: The names that are being looked up: a name that depends on itself isn't known.
        self._open: Set[Tuple[str, str]] = set()
        self._groups: Optional[Dict[Tuple[str, str], str]] = None
        self._captured: Optional[FrozenSet[str]] = None
        self._functions: Optional[Dict[str, StatementFunction]] = None
        self._words: Optional[FrozenSet[str]] = None
        self._seen: Optional[List[Symbols]] = None
        self._faults: Optional[Tuple[units.Fault, ...]] = None
        #: The blocks with names of their own round statements, by the numbers of these.
        self._rounds: Optional[Dict[int, units.Block]] = None

    def prepare(self) -> None:
        """Finds the unit's host and its declarations, once."""
        self._find_host()
        self.declarations = read_declarations(self.unit, self._separate_interface())

    def _find_host(self) -> None:
        unit = self.unit
        if unit.host is not None:
            self.host = self._scopes.of(unit.host)
        head = unit.head.statement if unit.head is not None else None
        if isinstance(head, tree.Head) and head.parent:
            ancestors = head.parent.split(":")
            host = self._scopes.module(ancestors[-1], "MODULE" if len(ancestors) == 1 else "SUBMODULE")
            above = host
            while above is not None and above is not self:
                above = above.host
            self.host = host if above is None else None
            self.missing_parent = ancestors[-1] if self.host is None else ""

    def _separate_interface(self) -> Optional[units.Unit]:
        """The interface of a MODULE PROCEDURE of a submodule."""
        host = self.host if self.unit.kind == "PROCEDURE" else None
        while host is not None:
            for declared in host.unit.specification:
                if isinstance(declared, units.InterfaceBlock):
                    for body in declared.bodies:
                        if body.name == self.unit.name:
                            return body
            host = host.host
        return None

    # --- What is asked -------------------------------------------------------------------------------------------

    @property
    def faults(self) -> Tuple[units.Fault, ...]:
        """Why nothing may be said of the unit's loops.

        Its declarations or those of a host aren't all known, or operators may be the user's.
        """
        if self._faults is None:
            self._faults = (*self.declaration_faults, *hidden_calls(self._visible()))
        return self._faults

    @property
    def declaration_faults(self) -> Tuple[units.Fault, ...]:
        """Why the declarations of the unit, or those of a host, aren't all known."""
        own = [*self.unit.faults, *self.declarations.faults]
        if self.unit.kind == "PROCEDURE" and self._separate_interface() is None:
            words = f"the interface of {self.unit.name} isn't in the files"
            own.append(units.Fault("use", self.unit.first_line, words))
        return tuple(dict.fromkeys([*own, *(() if self.host is None else self.host.declaration_faults)]))

    def of(self, unit: units.Unit) -> Symbols:
        """The names of another unit of the files."""
        return self._scopes.of(unit)

    def from_elsewhere(self, name: str) -> Optional[Symbol]:
        """What a name stands for that a host or a module has; none where none of them has it."""
        facts = self.declarations.names.get(name)
        return None if facts is not None and facts.is_own else self._foreign(name)

    def used_as(self, name: str) -> Iterator[Tuple[Symbols, str]]:
        """The modules of the files from which a USE brings a name, each with the name there."""
        for use in self.declarations.uses:
            module = None if use.intrinsic else self._scopes.module(use.module)
            for original in _originals(use, name) if module is not None and module is not self else ():
                if module is not None and module.public(original) is not None:
                    yield module, original

    def home_of(self, symbol: Symbol) -> Optional[Symbols]:
        """The names of the unit that declares a symbol; none where that isn't visible."""
        return self._home(symbol)

    def get(self, name: str) -> Symbol:
        """What a name stands for; it always answers.

        A name with a colon or a slash is that of a variable that only procedures see which the unit calls; `P%X` is a
        component as a variable of its own.
        """
        if name in self._known:
            return self._known[name]
        if ":" in name or "/" in name:
            return self._hidden(name)
        if "%" in name:
            found = component_symbol(self, name)
            return Symbol(name, storage=Storage.UNKNOWN, home=name, original=name) if found is None else found
        if ("get", name) in self._open:
            return Symbol(name, storage=Storage.UNKNOWN, home=self.unit.path, original=name)
        self._open.add(("get", name))
        try:
            symbol = self._found(name)
        finally:
            self._open.discard(("get", name))
        self._known[name] = replace(symbol, name=name, group=self._group(symbol))
        return self._known[name]

    def _hidden(self, name: str) -> Symbol:
        """A variable that only procedures see, as the unit has it that declares it."""
        path, _, original = name.rpartition(":")
        home = self._scopes.at(path)
        if home is None or home is self:
            return Symbol(name, storage=Storage.MODULE, home=name, original=name)
        return replace(home.get(original), name=name, storage=Storage.MODULE)

    def is_live_at_end(self, name: str) -> bool:
        """Whether the value of a name may be used after RETURN or END; in a main program none is."""
        return self.unit.kind != "PROGRAM" and self.get(name).outlives_unit

    def is_kept(self, name: str) -> bool:
        """Whether the next run of the unit, and nothing else, may use the value of a name."""
        return self.unit.kind in ("SUBROUTINE", "FUNCTION") and self.get(name).is_kept

    def declares(self, name: str) -> bool:
        """Whether the unit's own declarations make a name one of the unit."""
        facts = self.declarations.names.get(name)
        return facts is not None and facts.is_own or name in self.statement_functions

    @property
    def uses_modules(self) -> bool:
        """Whether the unit, or one that contains it, has names of modules."""
        return bool(self.declarations.uses) or self.host is not None and self.host.uses_modules

    @property
    def missing_modules(self) -> Tuple[str, ...]:
        """The modules that aren't in the files, or not wholly, of this unit and its hosts, in order of text."""
        hosts = () if self.host is None else self.host.missing_modules
        own = [use.module for use in self.declarations.uses if self._is_missing(use, frozenset())]
        return tuple(dict.fromkeys([*hosts, *own, *([self.missing_parent] if self.missing_parent else [])]))

    @property
    def statement_functions(self) -> Mapping[str, StatementFunction]:
        """The statement functions of the unit."""
        if self._functions is None:
            self._functions = {}
            self._functions.update((function.name, function) for _, function in self.leading_functions())
        return self._functions

    def leading_functions(self) -> Iterator[Tuple[units.Written, StatementFunction]]:
        """The statements of the body that are statement functions: they aren't executable."""
        for node in self.unit.body:
            if isinstance(node, units.Written) and node.word in DECLARATIONS:
                continue
            statement = node.statement if isinstance(node, units.Written) else None
            function = self._statement_function(statement)
            if function is None or not isinstance(node, units.Written):
                return
            yield node, function

    def components(self, symbol: Symbol) -> Optional[TypeComponents]:
        """The components of a variable of a derived type; none where the type isn't in the files.

        Those of CLASS are those of its declared type: any other type that it may have extends it.
        """
        home = self._home(symbol)
        return None if home is None or symbol.type not in ("TYPE", "CLASS") else home.derived_type(symbol.derived)

    def derived_type(self, name: str) -> Optional[TypeComponents]:
        """The components of a derived type; none where it isn't in the files."""
        home = self._home_of_type(name)
        if home is None or ("type", name) in self._open:
            return None
        self._open.add(("type", name))
        try:
            return home[0].components_of(home[1])
        finally:
            self._open.discard(("type", name))

    def is_intrinsic(self, name: str) -> bool:
        """Whether a name before parentheses may be an intrinsic function: whether nothing declares it otherwise.

        A declaration of its type alone, or INTRINSIC, leaves it what it is. A module that isn't in the files and may
        have the name does so as well; one whose USE names it doesn't. Where the files have a function of this name, it
        depends on the compiler which of the two is meant, so it's taken for no intrinsic one.
        """
        facts = self.declarations.names.get(name)
        if facts is not None and "INTRINSIC" in facts.attributes:
            return True
        if self._scopes.has_function(name):
            return False
        if facts is not None and facts.is_own or name in self.statement_functions:
            return facts is not None and _says_type_alone(facts) and name not in self.statement_functions
        symbol = self._foreign(name)
        if symbol is None:
            return facts is None
        if symbol.storage is Storage.UNKNOWN:
            return "USED" not in symbol.attributes
        home = self._home(symbol)
        return home is not None and home is not self and home.is_intrinsic(symbol.original)

    def type_and_kind(self, name: str) -> Tuple[str, Optional[int]]:
        """The type of a name, empty where it isn't known, and its kind, none where it isn't known."""
        symbol = self.get(name)
        return symbol.type, symbol.kind

    def type_and_kind_of_component(self, designator: tree.Component) -> Tuple[str, Optional[int]]:
        """The type of `A(I)%X`, empty where it isn't known, and its kind, none where it isn't known."""
        symbol = self.designated(designator)
        return ("", None) if symbol is None else (symbol.type, symbol.kind)

    def designated(self, designator: tree.Expression) -> Optional[Symbol]:
        """The variable or component that a designator's last name is; none where it isn't known."""
        if isinstance(designator, tree.Name):
            return self.get(designator.name)
        if isinstance(designator, tree.Reference):
            return self.designated(designator.base)
        if not isinstance(designator, tree.Component):
            return None
        base = self.designated(designator.base)
        known = None if base is None else self.components(base)
        return None if known is None else known.component(designator.component)

    def value(self, name: str) -> Optional[Integer]:
        """The value of a named constant; none where it isn't an INTEGER one, or its value isn't known."""
        return self._value(name, self.get(name))

    def constant(self, expression: tree.Expression) -> Optional[int]:
        """The value of a constant INTEGER expression in this unit; none where it isn't certain."""
        return constants.value(expression, self)

    def block_round(self, written: units.Written) -> Optional[units.Block]:
        """The innermost ASSOCIATE, BLOCK or SELECT TYPE round a statement; none for most.

        Names in it may stand for other things than in the unit, so nothing may be said of its loops.
        """
        if self._rounds is None:
            self._rounds = dict(units.blocks_with_names(self.unit.body, None))
        return self._rounds.get(written.number)

    # --- Names of the unit itself --------------------------------------------------------------------------------

    def _found(self, name: str) -> Symbol:
        facts = self.declarations.names.get(name)
        if facts is not None and facts.is_own:
            return self._declared(name, facts)
        symbol = self._foreign(name)
        if symbol is None:
            symbol = self._declared(name, facts or Facts())
            if not symbol.type and symbol.storage is Storage.LOCAL:
                symbol = replace(symbol, storage=Storage.UNKNOWN)
        elif facts is not None:
            symbol = replace(symbol, attributes=symbol.attributes | facts.attributes)
        return symbol

    def _declared(self, name: str, facts: Facts) -> Symbol:
        """The symbol of a name of this unit, without its group."""
        spec = facts.type or self._implicit(name)
        if "CRAY POINTER" in facts.attributes:
            spec = _CRAY_POINTER
        attributes = frozenset(facts.attributes | self._further_attributes(name, facts))
        kind = None if spec is None else facts.bytes or constants.spec_kind(spec, self)
        return Symbol(
            name=name,
            type="" if spec is None else _TYPES.get(spec.name, spec.name),
            kind=kind,
            bounds=facts.bounds,
            storage=self._storage(name, facts),
            attributes=attributes,
            block=facts.block,
            derived="" if spec is None or spec.derived is None else spec.derived,
            extents=tuple(self._extent(bound, attributes) for bound in facts.bounds),
            value=facts.value,
            home=self.unit.path,
            original=name,
        )

    def _further_attributes(self, name: str, facts: Facts) -> Set[str]:
        """The attributes of a name that no declaration of this name says."""
        further: Set[str] = set()
        is_argument = facts.attributes & {"DUMMY", "RESULT", "PARAMETER", "PROCEDURE"}
        if self.declarations.saves_all and not is_argument:
            further.add("SAVE")
        if self.unit.kind in ("MODULE", "SUBMODULE") and not is_argument:
            further.add("SAVE")
        if name in self.captured:
            further.add("CAPTURED")
        return further

    def _storage(self, name: str, facts: Facts) -> Storage:
        attributes = facts.attributes
        if "PARAMETER" in attributes:
            return Storage.CONSTANT
        if "TYPE" in attributes:
            return Storage.TYPE
        if attributes & {"PROCEDURE", "EXTERNAL", "INTRINSIC"} or name in self.statement_functions:
            return Storage.PROCEDURE
        if "DUMMY" in attributes:
            return Storage.DUMMY
        if "RESULT" in attributes:
            return Storage.RESULT
        if facts.block or self._is_equivalenced_to_common(name):
            return Storage.COMMON
        return Storage.MODULE if self.unit.kind in ("MODULE", "SUBMODULE") else Storage.LOCAL

    def _is_equivalenced_to_common(self, name: str) -> bool:
        reached, grew = {name}, True
        while grew:
            before = len(reached)
            reached.update(*(group for group in self.declarations.equivalences if group & reached))
            grew = len(reached) > before
        return any(self.declarations.names[one].block for one in reached if one in self.declarations.names)

    def _implicit(self, name: str) -> Optional[tree.TypeSpec]:
        """The type that a name has without a declaration; none below IMPLICIT NONE."""
        declarations = self.declarations
        if name[:1] in declarations.letters:
            return declarations.letters[name[:1]]
        if declarations.has_implicit_none:
            return None
        if self.host is not None and not self._is_interface:
            return self.host._implicit(name)
        return tree.TypeSpec("INTEGER" if name[:1] in "IJKLMN" else "REAL")

    @property
    def _is_interface(self) -> bool:
        """Whether the unit is the body of an INTERFACE, which sees no names of its host but those of IMPORT."""
        return self.unit.host is not None and self.unit not in self.unit.host.contained

    def _extent(self, bound: tree.Bound, attributes: FrozenSet[str]) -> Extent:
        """The bounds of a dimension. Those of a deferred shape are what ALLOCATE or a pointer assignment makes them."""
        if bound.upper is None and attributes & {"ALLOCATABLE", "POINTER"}:
            return None, None
        lower = 1 if bound.lower is None else constants.value(bound.lower, self)
        return lower, None if bound.upper is None else constants.value(bound.upper, self)

    def _value(self, name: str, symbol: Symbol) -> Optional[Integer]:
        if symbol.storage is not Storage.CONSTANT or symbol.type != "INTEGER" or symbol.kind is None or symbol.bounds:
            return None
        if symbol.home.startswith(_INTRINSIC_HOME):
            return Integer(constants.MODULE_CONSTANTS[symbol.home[len(_INTRINSIC_HOME):]][symbol.original], symbol.kind)
        home = self._home(symbol)
        return None if home is None else home.own_value(symbol)

    def own_value(self, symbol: Symbol) -> Optional[Integer]:
        """The value of a constant that this unit declares."""
        name = symbol.original
        if ("value", name) in self._open:
            return None
        self._open.add(("value", name))
        try:
            computed = self._enumerated(name) if "ENUMERATOR" in symbol.attributes else (
                None if symbol.value is None else constants.value(symbol.value, self)
            )
        finally:
            self._open.discard(("value", name))
        found = None if computed is None or symbol.kind is None else Integer(computed, symbol.kind)
        return found if found is not None and found.is_in_range else None

    def _enumerated(self, name: str) -> Optional[int]:
        """The value of an enumerator: what is written, or that of the one before it and 1."""
        ahead = 0
        while name:
            expression, before = self.declarations.enumerators[name]
            if expression is not None:
                first = constants.value(expression, self)
                return None if first is None else first + ahead
            name, ahead = before, ahead + 1
        return ahead - 1

    def _statement_function(self, statement: Optional[tree.Statement]) -> Optional[StatementFunction]:
        """The statement function that an assignment is; none where it's an assignment indeed, or may be one."""
        target = statement.target if isinstance(statement, tree.Assignment) else None
        if not isinstance(statement, tree.Assignment) or not isinstance(target, tree.Reference):
            return None
        arguments = [one.name for one in target.arguments if isinstance(one, tree.Name)]
        if not isinstance(target.base, tree.Name) or len(arguments) != len(target.arguments):
            return None
        name = target.base.name
        facts = self.declarations.names.get(name, Facts())
        if facts.bounds or facts.attributes & _NO_FUNCTION or facts.block:
            return None
        if not facts.is_own and self._foreign(name) is not None:
            return None
        return StatementFunction(name, tuple(arguments), statement.value)

    # --- Names of hosts and modules ------------------------------------------------------------------------------

    def _foreign(self, name: str) -> Optional[Symbol]:
        """The symbol of a name of a module or a host; none where there is none."""
        may_be_used = bool(self.missing_parent)
        for use in self.declarations.uses:
            for original in _originals(use, name):
                symbol = self._from_module(use, original)
                if symbol is not None:
                    return symbol
                if any(local == name for local, _ in use.names):
                    return self._unknown(name, "USED")
                may_be_used = may_be_used or self._may_have(use, original)
        if may_be_used:
            return self._unknown(name)
        if self.host is None or self._is_interface:
            return None
        return self.host.seen_from_inside(name)

    def _unknown(self, name: str, *attributes: str) -> Symbol:
        spec = self._implicit(name)
        type_ = "" if spec is None or "USED" in attributes else _TYPES.get(spec.name, spec.name)
        return Symbol(name, type_, None, (), Storage.UNKNOWN, frozenset(attributes), home=self.unit.path, original=name)

    def seen_from_inside(self, name: str) -> Optional[Symbol]:
        """What a contained procedure sees of a name; none where this unit doesn't have it."""
        if not self.declares(name):
            symbol = self._foreign(name)
            if symbol is not None:
                return symbol
            if self.unit.kind in ("MODULE", "SUBMODULE") or name not in self.words:
                return None
        symbol = self.get(name)
        return replace(symbol, storage=Storage.HOST) if symbol.storage in _HOSTED else symbol

    @property
    def words(self) -> FrozenSet[str]:
        """All words of the unit's own statements, and so at least all names that it has."""
        if self._words is None:
            self._words = frozenset().union(*(one.names for one in self.unit.statements()))
        return self._words

    @property
    def captured(self) -> FrozenSet[str]:
        """At least all names of this unit that procedures contained in it use."""
        if self._captured is None:
            found: Set[str] = set()
            for contained in self.unit.contained:
                inner = self._scopes.of(contained)
                own = {name for name, facts in inner.declarations.names.items() if facts.is_own}
                found.update((inner.words | inner.captured) - own)
            self._captured = frozenset(found)
        return self._captured

    def _from_module(self, use: tree.Use, original: str) -> Optional[Symbol]:
        """The symbol of a name of a module; none where the module hasn't got it, or isn't in the files."""
        module = None if use.intrinsic else self._scopes.module(use.module)
        if module is not None:
            return module.public(original) if module is not self else None
        if original in constants.MODULE_CONSTANTS.get(use.module, {}):
            home = _INTRINSIC_HOME + use.module
            return Symbol(original, "INTEGER", 4, storage=Storage.CONSTANT, home=home, original=original)
        return None

    def public(self, name: str) -> Optional[Symbol]:
        """The symbol of a public name of this module; none where it hasn't got one."""
        facts = self.declarations.names.get(name)
        attributes = facts.attributes if facts is not None else set()
        if "PRIVATE" in attributes or self.declarations.is_private and "PUBLIC" not in attributes:
            return None
        if facts is not None and facts.is_own:
            return self.get(name)
        if ("public", name) in self._open:
            return None
        self._open.add(("public", name))
        try:
            symbol = self._foreign(name)
        finally:
            self._open.discard(("public", name))
        return None if symbol is not None and symbol.storage is Storage.UNKNOWN else symbol

    def _may_have(self, use: tree.Use, original: str) -> bool:
        """Whether a module that isn't wholly known may have a name."""
        if use.intrinsic or self._scopes.module(use.module) is None:
            return constants.module_has(use.module, original) is not False
        return self._is_missing(use, frozenset())

    def _is_missing(self, use: tree.Use, seen: FrozenSet[str]) -> bool:
        """Whether the names of a module aren't all known; `seen` are the modules that were looked at."""
        module = None if use.intrinsic else self._scopes.module(use.module)
        if module is None:
            return constants.module_has(use.module, "") is None
        if module is self or use.module in seen:
            return False
        seen = seen | {use.module}
        return bool(module.declaration_faults) or any(module._is_missing(one, seen) for one in module.declarations.uses)

    # --- Storage that names share --------------------------------------------------------------------------------

    def _group(self, symbol: Symbol) -> str:
        if self._groups is None:
            self._groups = Sharing(self._visible()).groups()
        return self._groups.get((symbol.home, symbol.original), "")

    def seen_units(self) -> List[units.Unit]:
        """This unit, its hosts, and the modules of the files that they use, each once."""
        return [one.unit for one in self._visible()]

    def _visible(self) -> List[Symbols]:
        """This unit, its hosts, and the modules that they use, each once."""
        if self._seen is not None:
            return self._seen
        found: List[Symbols] = []
        waiting: List[Symbols] = [self]
        while waiting:
            one = waiting.pop()
            if one in found:
                continue
            found.append(one)
            if one.host is not None and not one._is_interface:
                waiting.append(one.host)
            for use in one.declarations.uses:
                module = None if use.intrinsic else self._scopes.module(use.module)
                if module is not None:
                    waiting.append(module)
        self._seen = found
        return found

    def _home(self, symbol: Symbol) -> Optional[Symbols]:
        """The names of the unit that declares a symbol."""
        return next((one for one in self._visible() if one.unit.path == symbol.home), None)

    def originals(self) -> Iterator[Tuple[str, str]]:
        """The names of other units that have another name here by USE, each with the unit's path."""
        for use in self.declarations.uses:
            for local, original in use.names:
                symbol = self._from_module(use, original) if local != original else None
                if symbol is not None:
                    yield symbol.home, symbol.original

    # --- Derived types -------------------------------------------------------------------------------------------

    def _home_of_type(self, name: str) -> Optional[Tuple[Symbols, str]]:
        """The unit that defines a derived type, and its name there."""
        if name in self.declarations.types:
            return self, name
        symbol = self.get(name)
        home = self._home(symbol) if symbol.storage is Storage.TYPE else None
        return None if home is None else (home, symbol.original)

    def components_of(self, name: str) -> TypeComponents:
        """The components of a type that this unit defines."""
        definition = self.declarations.types[name]
        head = definition.head.statement
        found: Dict[str, Symbol] = {}
        bindings = definition.bindings
        extends = head.extends if isinstance(head, tree.DerivedType) else ""
        is_complete = definition.end is not None and not (
            isinstance(head, tree.DerivedType) and "PARAMETERS" in head.attributes
        )
        if extends:
            parent = self.derived_type(extends)
            found.update({} if parent is None else parent.components)
            found[extends] = Symbol(
                extends, "TYPE", storage=Storage.COMPONENT, derived=extends, home=self.unit.path,
                attributes=frozenset(["PARENT"]),
            )
            bindings = bindings if parent is None else (*parent.bindings, *bindings)
            is_complete = is_complete and parent is not None and parent.is_complete
        for written in definition.components:
            statement = written.statement
            is_complete = is_complete and not isinstance(statement, (tree.Unreadable, tree.Include))
            if isinstance(statement, tree.TypeDeclaration):
                found.update({entity.name: self._component(statement, entity) for entity in statement.entities})
        return TypeComponents(name, found, is_complete, self, bindings)

    def _component(self, statement: tree.TypeDeclaration, entity: tree.Entity) -> Symbol:
        facts = Facts(True, statement.type, None, entity.bounds, set(statement.attributes))
        symbol = self._declared(entity.name, facts)
        return replace(symbol, storage=Storage.COMPONENT, attributes=statement.attributes)


#: The type of a Cray pointer: an address, whatever is declared.
_CRAY_POINTER = tree.TypeSpec("INTEGER", bytes=8)

#: What is put before the name of an intrinsic module in `Symbol.home`, since a user's may have the same name.
_INTRINSIC_HOME = "intrinsic "

#: The names of types that have another name in a `Symbol`.
_TYPES: Mapping[str, str] = {"DOUBLE PRECISION": "REAL", "DOUBLE COMPLEX": "COMPLEX"}

#: What becomes a host's variable in a contained procedure.
_HOSTED = frozenset([Storage.LOCAL, Storage.DUMMY, Storage.RESULT])

#: The attributes that a statement function can't have.
_NO_FUNCTION = frozenset([
    "DUMMY", "RESULT", "PARAMETER", "PROCEDURE", "EXTERNAL", "INTRINSIC", "POINTER", "ALLOCATABLE", "TARGET", "TYPE",
    "CRAY POINTER", "CRAY POINTEE", "SAVE", "INITIAL",
])


def _says_type_alone(facts: Facts) -> bool:
    """Whether declarations say no more of a name than its type, as they may of an intrinsic function."""
    return not facts.bounds and not facts.block and not facts.attributes - {"PUBLIC", "PRIVATE"}


def _originals(use: tree.Use, name: str) -> Iterator[str]:
    """The names in a module that a USE makes visible by this name."""
    renamed = [original for local, original in use.names if local == name]
    yield from renamed
    if not use.only and not renamed and all(original != name for _, original in use.names):
        yield name
