"""What a call does, in the names of the unit that calls: the summary of the procedure with its arguments put in.

A dummy that is a scalar is the argument itself. An array given as a whole keeps the subscripts that the procedure uses
where both have the same rank, and the same extents in all dimensions but the last. An element given to an array may be
any element of its array, a section is all of its elements. Variables of common blocks, modules and hosts get the
names that the calling unit has for them. One without a name there gets one of its own, with a colon or a slash.
"""

from __future__ import annotations

from dataclasses import replace
from functools import cached_property
from typing import Dict, FrozenSet, Iterable, Iterator, List, NamedTuple, Optional, Sequence, Set, Tuple, Union

from . import constants, tree
from .accesses import ANYWHERE, Access, Called, Kind, Trouble, is_variable
from .commons import Commons, Shared
from .components import Part, key_of
from .designators import first_subscripts, value_of
from .facts import Facts
from .generics import any_of, fitting
from .procedures import Procedures, has_interface, is_interface
from .recurrences import type_of
from .roles import Roles
from .summaries import WHOLE, Cell, Cells, Summaries, Summary, Unknown, Use, as_operand, dummies_of
from .symbols import Scopes, Storage, Symbol, Symbols
from .units import File, Unit

#: Subscripts of an access; none for a scalar or a whole array.
_Subscripts = Optional[Tuple[tree.Expression, ...]]
_GLOBAL = (Storage.MODULE, Storage.HOST)


class Calls:
    """Looks into the procedures of some files: `roles.Procedures`. The first file is the one that is asked about."""

    def __init__(self, scopes: Scopes, files: Sequence[File]) -> None:
        self._units = [unit for file in files for unit in file.all_units()]
        self.scopes = scopes
        self.procedures = Procedures(self._units)
        self.summaries = Summaries(
            scopes, files, self.procedures, lambda: self.commons, lambda symbols: Roles(symbols, self)
        )
        self._views: Dict[Unit, View] = {}
        self._unwritten: Dict[Unit, FrozenSet[str]] = {}

    @cached_property
    def commons(self) -> Commons:
        """The common blocks of all files. Only units with COMMON are read for it."""
        having = (unit for unit in self._units if any(one.word == "COMMON" for one in unit.statements()))
        return Commons(map(self.scopes.of, having))

    def called(
        self, symbols: Symbols, name: str, arguments: Sequence[tree.Expression], is_function: bool, exactly: bool = True
    ) -> Union[Called, Trouble]:
        """What a procedure does that a unit calls; why that isn't known.

        Without `exactly` all elements of arrays may be used.
        """
        reason = "function" if is_function else "call"
        specifics = self.procedures.specifics(symbols, name, is_function)
        if isinstance(specifics, str):
            return Trouble(reason, specifics)
        if specifics is not None:
            return self._any_called(symbols, name, arguments, specifics, is_function, exactly)
        target = self.procedures.find(symbols, name, is_function)
        if isinstance(target, str):
            more = "; --with FILE names more" if target.endswith("isn't in the files") else ""
            return Trouble(reason, target + more)
        return self._called(symbols, target, name, arguments, _Way(is_function, exactly))

    def _any_called(
        self, symbols: Symbols, name: str, arguments: Sequence[tree.Expression], specifics: Sequence[Unit],
        is_function: bool, exactly: bool,
    ) -> Union[Called, Trouble]:
        """What a generic name does: what any of the procedures does that the call may fit."""
        found: List[Called] = []
        for target in fitting(symbols, Roles(symbols, self), specifics, arguments):
            one = self._called(symbols, target, target.name, arguments, _Way(is_function, exactly, True))
            if isinstance(one, Trouble):
                return Trouble(one.reason, f"{name} may be {target.name}: {one.words}")
            found.append(one)
        if not found:
            reason = "function" if is_function else "call"
            return Trouble(reason, f"{name} is a generic name, and none of its procedures fits")
        return any_of(found)

    def _called(
        self, symbols: Symbols, target: Unit, name: str, arguments: Sequence[tree.Expression], way: _Way
    ) -> Union[Called, Trouble]:
        reason = "function" if way.is_function else "call"
        summary = self.summaries.of(target)
        if isinstance(summary, str):
            return Trouble(reason, f"{name} {summary}")
        try:
            return _Mapping(self, symbols, target, summary, way).called(name, arguments)
        except Unknown as unknown:
            return Trouble(reason, f"{name} {unknown.words}")

    def function_type(self, symbols: Symbols, name: str) -> str:
        """The type of the value of a function that a unit refers to, empty where it isn't a scalar in the files."""
        results = [result_of(self.scopes.of(target)) for target in self._functions(symbols, name)]
        types = {"" if one.rank else one.type for one in results}
        return types.pop() if len(types) == 1 else ""

    def function_key(self, symbols: Symbols, name: str) -> Optional[Tuple[str, str]]:
        """Where the type of a function's value is defined, if that is a structure, and its name there."""
        found = [self.scopes.of(target) for target in self._functions(symbols, name)]
        keys = {key_of(own, result_of(own)) for own in found}
        return keys.pop() if len(keys) == 1 else None

    def _functions(self, symbols: Symbols, name: str) -> List[Unit]:
        """The functions that a name may mean; none where they aren't all known."""
        specifics = self.procedures.specifics(symbols, name, True)
        if specifics is not None:
            return [] if isinstance(specifics, str) else specifics
        target = self.procedures.find(symbols, name, True)
        return [] if isinstance(target, str) else [target]

    def view(self, symbols: Symbols) -> View:
        """The variables of a unit that procedures may share."""
        if symbols.unit not in self._views:
            self._views[symbols.unit] = View(symbols, self.commons)
        return self._views[symbols.unit]

    def is_fixed(self, symbols: Symbols, expression: tree.Expression) -> bool:
        """Whether a bound of an array has the value that it had when the unit's run began, for certain."""
        if not isinstance(expression, tree.Name):
            return False
        if symbols.unit not in self._unwritten:
            facts = Facts(symbols.unit, Roles(symbols, _Roughly(self)))
            effects = [facts.effects(one) for one in symbols.unit.statements() if one.word not in ("FORMAT", "DATA")]
            written = {access.name for found in effects for access in found.writes}
            self._unwritten[symbols.unit] = symbols.words - written
        symbol = symbols.get(expression.name)
        is_own = symbol.storage in (Storage.DUMMY, Storage.LOCAL) and not symbol.group and not symbol.is_pointer
        is_own = is_own and not symbol.attributes & {"CAPTURED", "SAVE", "NAMELIST", "VOLATILE", "ASYNCHRONOUS"}
        return is_own and symbol.home == symbols.unit.path and expression.name in self._unwritten[symbols.unit]


def result_of(symbols: Symbols) -> Symbol:
    """The variable that holds the value of a function."""
    head = symbols.unit.head.statement if symbols.unit.head is not None else None
    return symbols.get(head.result or head.name if isinstance(head, tree.Head) else "")


class _Roughly:
    """The same procedures, with all elements of arrays in place of certain ones."""

    def __init__(self, calls: Calls) -> None:
        self._calls = calls

    def called(
        self, symbols: Symbols, name: str, arguments: Sequence[tree.Expression], is_function: bool
    ) -> Union[Called, Trouble]:
        """What a procedure does at most."""
        return self._calls.called(symbols, name, arguments, is_function, exactly=False)

    def function_type(self, symbols: Symbols, name: str) -> str:
        """The type of a function's value."""
        return self._calls.function_type(symbols, name)

    def function_key(self, symbols: Symbols, name: str) -> Optional[Tuple[str, str]]:
        """Where the type of a function's value is defined."""
        return self._calls.function_key(symbols, name)


class View:
    """The names that a unit has for variables that procedures may share."""

    def __init__(self, symbols: Symbols, commons: Commons) -> None:
        self._names: Dict[str, List[Tuple[str, Shared]]] = {}
        for name in sorted(symbols.words):
            symbol = symbols.get(name)
            if symbol.storage is Storage.COMMON:
                for shared in commons.shared(symbols, symbol):
                    self._names.setdefault(shared.home, []).append((name, shared))
            elif symbol.is_variable and (symbol.storage in _GLOBAL or symbol.home == symbols.unit.path):
                self._names.setdefault(symbol.home, []).append((name, Shared(symbol.home, symbol.original)))

    def names(self, shared: Shared) -> List[Tuple[str, Shared]]:
        """The names that may have storage in common with a variable."""
        return [(name, one) for name, one in self._names.get(shared.home, []) if one.overlaps(shared)]


class _Way(NamedTuple):
    """How a procedure is called: as a function, by a generic name; `exactly` is as in `Calls.called`."""

    is_function: bool
    exactly: bool
    is_generic: bool = False


class _Touched(NamedTuple):
    """A variable of the calling unit that a procedure uses: as an argument, or under a name of its own."""

    name: str
    reads: bool
    writes: bool
    is_argument: bool


class _Mapping:
    """Puts the arguments of one call into a summary."""

    def __init__(self, calls: Calls, symbols: Symbols, target: Unit, summary: Summary, way: _Way) -> None:
        self._calls = calls
        self._symbols = symbols
        self._roles = Roles(symbols, calls)
        self._target = calls.scopes.of(target)
        self._summary = summary
        self._is_function = way.is_function
        self._exactly = way.exactly
        self._has_interface = way.is_generic or has_interface(symbols, target)
        #: Whether a compiler compares the arguments with the dummies of the body itself.
        self._is_checked = target.host is not None and not is_interface(target)
        self._assumes: Set[str] = set(summary.assumes)
        self._first: List[Access] = []
        self._writes: List[Access] = []
        self._last: List[Access] = []
        self._touched: List[_Touched] = []
        #: What is given to dummies that are scalar INTEGERs.
        self._values: Dict[str, tree.Expression] = {}

    def called(self, name: str, arguments: Sequence[tree.Expression]) -> Called:
        """What the call of this name does. Raises Unknown."""
        given = self._given(arguments)
        if self._is_function and self._target.unit.host is None and not self._has_interface:
            self._check_result(name)
        self._values = {dummy: actual for dummy, actual in given.items() if self._is_index(dummy, actual)}
        for place, use in self._summary.formals:
            dummy = place.partition("%")[0]
            if dummy in given:
                self._argument(self._target.get(dummy), place[len(dummy):], use, given[dummy])
        for shared, use in self._summary.shared:
            self._share(shared, use)
        self._check_overlaps()
        accesses = (*self._first, *self._writes, *self._last)
        return Called(accesses, frozenset(self._assumes), self._summary.reads_shared)

    def _check_result(self, name: str) -> None:
        """Raises Unknown where a function has another type for the unit than it has itself."""
        own, result = self._symbols.get(name), result_of(self._target)
        if (own.type, own.kind) != (result.type, result.kind) or not own.type or own.kind is None or result.rank:
            raise Unknown(f"is {_type_of(own)} here, and {_type_of(result)} itself")

    # --- Arguments -----------------------------------------------------------------------------------------------

    def _given(self, arguments: Sequence[tree.Expression]) -> Dict[str, tree.Expression]:
        """The arguments by the names of the dummies."""
        names = dummies_of(self._target.unit)
        found: Dict[str, tree.Expression] = {}
        for position, argument in enumerate(arguments):
            if isinstance(argument, tree.AlternateReturn):
                raise Unknown("may return to another place")
            if isinstance(argument, tree.Keyword) and not self._is_checked:
                raise Unknown("has arguments by keyword whose names aren't certain")
            name = names[position] if position < len(names) else ""
            if isinstance(argument, tree.Keyword):
                name = argument.keyword
            if name not in names or name in found:
                raise Unknown(f"takes {len(names)} arguments, and not these")
            found[name] = value_of(argument)
        for name in names:
            if name not in found and "OPTIONAL" not in self._target.get(name).attributes:
                raise Unknown(f"isn't given its argument {name}")
        return found

    def _argument(self, dummy: Symbol, part: str, use: Use, actual: tree.Expression) -> None:
        """What is done to an argument, or to a component of it."""
        needs_interface = bool(dummy.attributes & {"OPTIONAL", "VALUE"}) or any(
            bound.upper is None for bound in dummy.bounds
        )
        if needs_interface and not self._has_interface:
            raise Unknown(f"has an argument {dummy.name} that only an INTERFACE explains")
        if "VALUE" in dummy.attributes:
            use = Use(WHOLE)
        if not is_variable(actual, self._roles):
            self._check_value(dummy, use, actual)
            return
        self._check_form(dummy, use, actual)
        found = self._argument_part(actual)
        whole = part if found is None else found.name + part
        self._touched.append(_Touched(tree.root_of(actual) + whole, bool(use.reads), bool(use.writes), True))
        is_certain = use.is_certain and self._is_whole_scalar(dummy, actual)
        comes_last = is_certain and not use.is_exposed
        for subscripts in self._elements(dummy, part, actual, use.reads):
            access = self._of_argument(actual, False, whole, subscripts)
            (self._last if comes_last else self._first).append(access)
        for subscripts in self._elements(dummy, part, actual, use.writes):
            self._writes.append(replace(self._of_argument(actual, True, whole, subscripts), covers=is_certain))

    def _argument_part(self, actual: tree.Expression) -> Optional[Part]:
        """The part of a structure that is given, also a structure as a whole; none for any other variable."""
        found = self._roles.part_of(actual)
        if found is None and self._symbols.get(tree.root_of(actual)).type in ("TYPE", "CLASS"):
            raise Unknown(f"is given {actual}, whose type isn't known")
        return found

    def _of_argument(self, actual: tree.Expression, writes: bool, part: str, subscripts: _Subscripts) -> Access:
        """An access of an argument."""
        name = tree.root_of(actual)
        if not part:
            return Access(name, writes, actual, subscripts, by_call=True)
        first = (subscripts or ())[:self._symbols.get(name).rank]
        return Access(
            name, writes, actual, first or None, by_call=True, part=part, part_subscripts=subscripts or (),
        )

    def _check_value(self, dummy: Symbol, use: Use, actual: tree.Expression) -> None:
        """Raises Unknown where what is given is no value, or is assigned."""
        if isinstance(actual, tree.Name) and self._roles.kind_of(actual.name) is not Kind.CONSTANT:
            raise Unknown(f"is given {actual}, which is no variable")
        if use.writes:
            raise Unknown(f"may assign its argument {dummy.name}, and {actual} is no variable")
        if dummy.type == "TYPE" and self._roles.type_key(actual) != key_of(self._target, dummy):
            raise Unknown(f"is given {actual}, which may be of another type")

    def _check_form(self, dummy: Symbol, use: Use, actual: tree.Expression) -> None:
        """Raises Unknown where an argument isn't of its dummy's type or rank."""
        symbol = self._symbols.designated(actual)
        if symbol is None or not symbol.type:
            raise Unknown(f"is given {actual}, whose type isn't known")
        trouble = self._roles.structure_trouble(actual) if symbol.type != "TYPE" else None
        if trouble is not None and isinstance(actual, (tree.Reference, tree.Component)):
            raise Unknown(f"is given {actual}: {trouble.words}")
        if "TYPE" in (symbol.type, dummy.type) or "CLASS" in (symbol.type, dummy.type):
            key = key_of(self._target, dummy)
            if key is None or self._roles.type_key(actual) != key:
                raise Unknown(f"is given {actual}, which may be of another type")
            self._check_rank(dummy, actual, symbol)
            return
        self._check_rank(dummy, actual, symbol)
        if self._is_checked:
            return
        if symbol.type != dummy.type or symbol.kind != dummy.kind or symbol.kind is None:
            raise Unknown(f"takes {dummy.name} for {_type_of(dummy)}, and {actual} is {_type_of(symbol)}")
        if dummy.type == "CHARACTER" and use.writes and not self._takes_length(dummy):
            raise Unknown(f"takes {dummy.name} for a CHARACTER of another length, perhaps")

    def _check_rank(self, dummy: Symbol, actual: tree.Expression, symbol: Symbol) -> None:
        """Raises Unknown where a scalar is given to an array."""
        if isinstance(actual, (tree.Name, tree.Component)) and dummy.rank and not symbol.rank:
            raise Unknown(f"takes {dummy.name} for an array, and {actual} is none")

    def _takes_length(self, dummy: Symbol) -> bool:
        """Whether a CHARACTER has the length of its argument."""
        facts = self._target.declarations.names.get(dummy.name)
        return facts is not None and facts.type is not None and isinstance(facts.type.length, tree.Star)

    def _is_whole_scalar(self, dummy: Symbol, actual: tree.Expression) -> bool:
        """Whether a write of a scalar dummy writes all of a scalar variable."""
        if self._is_function or dummy.rank or not isinstance(actual, tree.Name):
            return False
        symbol = self._symbols.get(actual.name)
        return not symbol.rank and (dummy.type != "CHARACTER" or self._takes_length(dummy))

    # --- Elements ------------------------------------------------------------------------------------------------

    def _elements(
        self, dummy: Symbol, part: str, actual: tree.Expression, cells: Cells
    ) -> Iterator[_Subscripts]:
        """The subscripts of the argument's elements that are used, with those of its components."""
        found = self._argument_part(actual)
        symbol = self._symbols.designated(actual)
        assert symbol is not None
        if cells and dummy.rank and (symbol.rank or found is not None):
            self._assumes.add("A2")
        is_whole = isinstance(actual, (tree.Name, tree.Component)) and symbol.rank > 0
        shifts = self._shifts(dummy, symbol) if is_whole and dummy.rank and self._exactly else None
        if found is None:
            yield from dict.fromkeys(self._plain_elements(dummy, actual, cell, shifts) for cell in cells)
            return
        rank = self._target.get(f"{dummy.name}{part}").rank - dummy.rank
        for cell in cells:
            first, last = (None, None) if cell is None else (cell[:dummy.rank], cell[dummy.rank:])
            base = self._part_elements(dummy, found, is_whole, first, shifts)
            yield (*base, *([ANYWHERE] * rank if last is None or not self._exactly else self._put_in(last)))

    def _plain_elements(
        self, dummy: Symbol, actual: tree.Expression, cell: Cell, shifts: Optional[Sequence[int]]
    ) -> _Subscripts:
        """The subscripts of elements of an argument that is no structure."""
        if isinstance(actual, tree.Name):
            return self._element(cell, shifts)
        subscripts = first_subscripts(actual)
        is_section = any(isinstance(one, tree.Section) for one in subscripts or ())
        # An element given to an array stands for it and all after it.
        return None if dummy.rank and not is_section else subscripts

    def _part_elements(
        self, dummy: Symbol, found: Part, is_whole: bool, cell: Cell, shifts: Optional[Sequence[int]]
    ) -> Tuple[tree.Expression, ...]:
        """The subscripts of elements of a structure or of its component, by those of the dummy itself."""
        if not dummy.rank:
            return found.subscripts
        before, own = found.subscripts[:len(found.subscripts) - found.last], found.subscripts[-found.last:]
        if is_whole:
            return (*before, *(self._element(cell, shifts) or [ANYWHERE] * found.last))
        # An element given to an array stands for it and all after it; a section is all of its elements.
        is_section = any(isinstance(one, tree.Section) for one in found.subscripts)
        return found.subscripts if is_section else (*before, *[ANYWHERE] * len(own))

    def _element(self, cell: Cell, shifts: Optional[Sequence[int]]) -> _Subscripts:
        """An element by the dummies as one by the arguments."""
        if cell is None or shifts is None:
            return None
        return tuple(one if one is ANYWHERE else _moved(one, shift) for one, shift in zip(self._put_in(cell), shifts))

    def _put_in(self, cell: Sequence[Optional[tree.Expression]]) -> Tuple[tree.Expression, ...]:
        """Subscripts by the dummies with the arguments put in."""
        return tuple(
            ANYWHERE if one is None or any(name not in self._values for name in tree.names_in(one))
            else _put(one, self._values)
            for one in cell
        )

    def _is_index(self, name: str, actual: tree.Expression) -> bool:
        """Whether an argument is a scalar INTEGER of 4 bytes without elements and functions."""
        dummy = self._target.get(name)
        if dummy.rank or (dummy.type, dummy.kind) != ("INTEGER", 4) or _has_references(actual):
            return False
        if any(self._roles.kind_of(one) not in (Kind.SCALAR, Kind.CONSTANT) for one in tree.names_in(actual)):
            return False
        return type_of(actual, self._roles) == "INTEGER" and constants.wide_part(actual, self._symbols) is None

    def _shifts(self, dummy: Symbol, symbol: Symbol) -> Optional[List[int]]:
        """What is added to the dummy's subscripts to get the argument's; none where the elements lie otherwise."""
        is_deferred = bool(symbol.attributes & {"ALLOCATABLE", "POINTER"})
        if dummy.rank != symbol.rank or is_deferred:
            return None
        shifts: List[int] = []
        for position in range(dummy.rank):
            lower, other = dummy.extents[position][0], symbol.extents[position][0]
            if lower is None or other is None:
                return None
            if position < dummy.rank - 1 and not self._has_same_extent(dummy, symbol, position):
                return None
            shifts.append(other - lower)
        return shifts

    def _has_same_extent(self, dummy: Symbol, symbol: Symbol, position: int) -> bool:
        """Whether a dimension has as many elements for the dummy as for the argument, whose lower bounds are known."""
        (lower, upper), (other_lower, other_upper) = dummy.extents[position], symbol.extents[position]
        assert lower is not None and other_lower is not None
        if dummy.bounds[position].upper is None:
            return True
        if upper is not None and other_upper is not None:
            return upper - lower == other_upper - other_lower
        bound, other = dummy.bounds[position].upper, symbol.bounds[position].upper
        is_own = symbol.home == self._symbols.unit.path
        if lower != other_lower or not isinstance(bound, tree.Name) or other is None or not is_own:
            return False
        actual = self._values.get(bound.name)
        if other_upper is not None:
            return actual is not None and self._symbols.constant(actual) == other_upper
        return actual == other and self._calls.is_fixed(self._symbols, other)

    # --- Shared variables ----------------------------------------------------------------------------------------

    def _share(self, shared: Shared, use: Use) -> None:
        """What is done to a shared variable."""
        names = self._calls.view(self._symbols).names(shared)
        is_named = shared.is_part_of([one for _, one in names])
        if use.writes and not is_named and self._symbols.missing_modules:
            raise Unknown(f"assigns {shared.name or shared.home}, which a module that isn't in the files may have")
        for name, one in names:
            symbol = self._symbols.get(name + shared.part)
            is_same = one.is_same(shared) and self._exactly
            self._touched.append(_Touched(name + shared.part, bool(use.reads), bool(use.writes), False))
            self._access(shared, name, *(
                {self._shared_element(cell, symbol) if is_same else None for cell in cells}
                for cells in (use.reads, use.writes)
            ))
        if not is_named:
            self._share_hidden(shared, use)

    def _share_hidden(self, shared: Shared, use: Use) -> None:
        """What is done to a shared variable of which the unit has no name."""
        if shared.is_common:
            hidden = self._calls.commons.hidden_name(shared)
            self._access(shared, hidden, *({None} if cells else set() for cells in (use.reads, use.writes)))
            return
        hidden = f"{shared.home}:{shared.name}{shared.part}"
        symbol = self._symbols.get(hidden)
        self._access(shared, hidden, *(
            {self._shared_element(cell, symbol) if self._exactly else None for cell in cells}
            for cells in (use.reads, use.writes)
        ))

    def _shared_element(self, cell: Cell, symbol: Symbol) -> _Subscripts:
        if cell is None or len(cell) != symbol.rank or not symbol.rank:
            return None
        return self._element(cell, [0] * symbol.rank)

    def _access(
        self, shared: Shared, name: str, reads: Iterable[_Subscripts], writes: Iterable[_Subscripts]
    ) -> None:
        """Accesses of a shared variable."""
        for subscripts in sorted(reads, key=str):
            self._first.append(self._of_shared(shared, name, False, subscripts))
        for subscripts in sorted(writes, key=str):
            self._writes.append(self._of_shared(shared, name, True, subscripts))

    def _of_shared(self, shared: Shared, name: str, writes: bool, subscripts: _Subscripts) -> Access:
        """An access of a shared variable, or of a component of it."""
        access = Access(name, writes, tree.Name(name), subscripts, by_call=True, shared=shared)
        if not shared.part or ":" in name:
            return access
        symbol = self._symbols.get(name)
        indices = subscripts or (ANYWHERE,) * self._symbols.get(name + shared.part).rank
        return replace(access, subscripts=indices[:symbol.rank] or None, part=shared.part, part_subscripts=indices)

    # --- Names for one variable ----------------------------------------------------------------------------------

    def _check_overlaps(self) -> None:
        """Raises Unknown where a scalar is given twice, or the procedure has a further name for it, and it's written.

        The standard forbids that. Of two names for an array all elements count, by the array's name, so it only cites
        that no element has two names.
        """
        for index, one in enumerate(self._touched):
            for other in self._touched[:index]:
                if not self._may_overlap(one, other) or not (one.writes or other.writes):
                    continue
                if self._symbols.get(one.name).rank and self._symbols.get(other.name).rank:
                    self._assumes.add("A1")
                else:
                    raise Unknown(f"has two names for {one.name}, and assigns it")

    def _may_overlap(self, one: _Touched, other: _Touched) -> bool:
        if not (one.is_argument or other.is_argument):
            return False
        group = self._symbols.get(one.name).group
        if one.name == other.name or one.name.startswith(f"{other.name}%") or other.name.startswith(f"{one.name}%"):
            return True
        is_apart = one.name.partition("%")[0] == other.name.partition("%")[0]
        return not is_apart and bool(group) and group == self._symbols.get(other.name).group


def _put(expression: tree.Expression, values: Dict[str, tree.Expression]) -> tree.Expression:
    """A subscript by the dummies with values in their places."""
    if isinstance(expression, tree.Name):
        return values[expression.name]
    if isinstance(expression, tree.Parentheses):
        return as_operand(_put(expression.inner, values))
    if isinstance(expression, tree.Operation):
        return tree.Operation(expression.operator, tuple(as_operand(_put(one, values)) for one in expression.operands))
    return expression


def _moved(expression: tree.Expression, shift: int) -> tree.Expression:
    """An expression with a number added."""
    if not shift:
        return expression
    number = tree.Literal("INTEGER", str(abs(shift)))
    return tree.Operation("+" if shift > 0 else "-", (as_operand(expression), number))


def _has_references(expression: tree.Expression) -> bool:
    """Whether an expression has parentheses after a name, or anything else than operators and names."""
    if isinstance(expression, (tree.Operation, tree.Parentheses)):
        return any(map(_has_references, expression.parts()))
    return not isinstance(expression, (tree.Name, tree.Literal))


def _type_of(symbol: Symbol) -> str:
    return symbol.type if symbol.kind is None else f"{symbol.type}({symbol.kind})"
