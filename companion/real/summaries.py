"""What procedures of the files do to their arguments, and to the variables that they share with others.

A summary says of each dummy argument and of each variable of a common block, a module or a host which elements may be
read and which may be written, and of a scalar whether each run assigns it. It is found from the bodies, the called
procedures first. Procedures that call one another in a circle may do anything to their arguments.

Of a procedure that does input or output, may end the run, keeps a value of its own from one run to the next, or isn't
wholly understood, nothing is known but why.
"""

from __future__ import annotations

from dataclasses import dataclass, replace
from typing import Callable, Dict, FrozenSet, Iterator, List, Optional, Sequence, Set, Tuple, Union

from . import tree
from .accesses import Access, Called, Trouble, reads_of
from .commons import Commons, Shared
from .components import Leaf, NotPlain, has_final, leaves_of
from .facts import Facts
from .keywords import words_of
from .procedures import Procedures, is_interface, is_pure
from .roles import Roles
from .source import Mark
from .survey import has_intrinsic
from .symbols import Scopes, Storage, Symbol, Symbols
from .units import File, Unit, Written

#: The subscripts of an element, by the procedure's dummies; a position is none where it may be any. None for the whole.
Cell = Optional[Tuple[Optional[tree.Expression], ...]]
#: Elements that may be used.
Cells = FrozenSet[Cell]

NOTHING: Cells = frozenset()
WHOLE: Cells = frozenset([None])

#: Of more elements than these the whole array is said.
_MOST_CELLS = 8
#: So often the procedures of a circle are looked at again.
_MOST_ROUNDS = 50
_GREATEST = 2**31 - 1
_SHARED = (Storage.HOST, Storage.MODULE)
_STRANGE = frozenset(["VOLATILE", "ASYNCHRONOUS", "CODIMENSION"])


@dataclass(frozen=True)
class Use:
    """What a procedure does to a variable: the cells that it may read, and those that it may write.

    `is_exposed` means that it may read the value from before its run, `is_certain` that each run assigns the scalar.
    """

    reads: Cells = NOTHING
    writes: Cells = NOTHING
    is_exposed: bool = True
    is_certain: bool = False

    def with_writes(self) -> Use:
        """The same with all elements written, perhaps."""
        return replace(self, writes=WHOLE)


#: What may be done to a variable at worst.
ANYTHING = Use(WHOLE, WHOLE)


@dataclass(frozen=True)
class Summary:
    """What a procedure does: to its dummies, in their order, and to shared variables.

    A dummy that is a structure is in `formals` by its components: `P%X`. `assumes` are the assumptions that this rests
    on. With `reads_shared` it may read all shared variables.
    """

    formals: Tuple[Tuple[str, Use], ...]
    shared: Tuple[Tuple[Shared, Use], ...] = ()
    assumes: FrozenSet[str] = frozenset()
    reads_shared: bool = False


class Unknown(Exception):
    """Why nothing is known of a procedure, in words that follow its name."""

    def __init__(self, words: str) -> None:
        super().__init__(words)
        self.words = words


class Summaries:
    """The summaries of the procedures of some files. `roles` has what the names of a unit are, with its procedures."""

    def __init__(
        self, scopes: Scopes, files: Sequence[File], procedures: Procedures, commons: Callable[[], Commons],
        roles: Callable[[Symbols], Roles],
    ) -> None:
        self.scopes = scopes
        self.commons = commons
        self.roles = roles
        self._procedures = procedures
        self._files: Dict[Unit, File] = {unit: file for file in files for unit in file.all_units()}
        self._first = files[0].path if files else ""
        #: The words of directives that give each thread a copy of a variable.
        self.copied: FrozenSet[str] = frozenset().union(*(
            words_of(mark.text[mark.text.find("$") + 1:]) for file in files for mark in file.marks
            if mark.kind == "directive" and "THREADPRIVATE" in mark.text.upper()
        ))
        self._known: Dict[Unit, Union[Summary, str]] = {}
        self._calls: Dict[Unit, FrozenSet[Unit]] = {}

    def of(self, unit: Unit) -> Union[Summary, str]:
        """The summary of a procedure, or words that follow its name and say why it isn't known."""
        if unit not in self._known:
            circle = self._circle(unit)
            if circle:
                self._find_circle(circle)
            else:
                self._known[unit] = self._found(unit)
        return self._known[unit]

    def _found(self, unit: Unit) -> Union[Summary, str]:
        try:
            if is_interface(unit):
                return _by_interface(self.scopes.of(unit))
            self._check(unit)
            return _Reading(self, unit).summary()
        except Unknown as unknown:
            return unknown.words

    def place(self, unit: Unit, line: int) -> str:
        """A line of a unit, with the name of its file where that isn't the first one."""
        path = self._files[unit].path
        return f"line {line}" if path == self._first else f"line {line} of {path}"

    # --- Procedures that call one another ------------------------------------------------------------------------

    def _circle(self, unit: Unit) -> List[Unit]:
        """The procedures that call a procedure and are called by it, itself among them; none for most."""
        reached = self._reached(unit)
        return [one for one in reached if one is unit or unit in self._reached(one)] if unit in reached else []

    def _reached(self, unit: Unit) -> List[Unit]:
        """All procedures that a run of one may call."""
        found: Dict[Unit, None] = {}
        waiting = [unit]
        while waiting:
            for one in sorted(self._called_by(waiting.pop()), key=lambda other: other.path):
                if one not in found:
                    found[one] = None
                    waiting.append(one)
        return list(found)

    def _called_by(self, unit: Unit) -> FrozenSet[Unit]:
        if unit not in self._calls:
            listener = _Listener(self._procedures)
            if not is_interface(unit):
                symbols = self.scopes.of(unit)
                facts = Facts(unit, Roles(symbols, listener))
                for written in _executable(unit):
                    facts.effects(written)
            self._calls[unit] = frozenset(listener.found)
        return self._calls[unit]

    def _find_circle(self, circle: Sequence[Unit]) -> None:
        """The summaries of procedures that call one another: found again until they no longer grow."""
        for unit in circle:
            symbols = self.scopes.of(unit)
            try:
                formals = tuple((place, _at_worst(_dummy_of(symbols, place))) for place in _places(symbols))
                self._known[unit] = Summary(formals)
            except Unknown as unknown:
                self._known[unit] = unknown.words
        for _ in range(_MOST_ROUNDS):
            found = {unit: _loosened(self._found(unit), self.scopes.of(unit)) for unit in circle}
            if all(_is_same(self._known[unit], one) for unit, one in found.items()):
                return
            self._known.update(found)
        self._known.update({unit: "calls itself in a way that isn't understood" for unit in circle})

    # --- Units ---------------------------------------------------------------------------------------------------

    def _check(self, unit: Unit) -> None:
        """Raises Unknown where the declarations or the lines of a unit may mean something else."""
        symbols = self.scopes.of(unit)
        for fault in symbols.faults:
            raise Unknown(f"isn't understood: {fault.words} ({self.place(unit, fault.line)})")
        if "*" in dummies_of(unit):
            raise Unknown("may return to another place")
        for mark in self._files[unit].marks:
            is_here = mark.file in unit.files if mark.file else (
                mark.first <= unit.last_line and mark.last >= unit.first_line
            )
            if is_here or _defines(mark) and (mark.file or mark.first <= unit.last_line):
                raise Unknown(f"has a line that may change it: {mark.text.strip()} ({self.place(unit, mark.first)})")
        host = unit.host
        while host is not None:
            for mark in self._files[unit].marks:
                if mark.kind == "conditional" and mark.first <= host.last_line and mark.last >= host.first_line:
                    raise Unknown(f"is in {host.name}, which has a line with !$ ({self.place(unit, mark.first)})")
            host = host.host
        for name in dummies_of(unit):
            _check_dummy(symbols, symbols.get(name))
        _check_ends(symbols)


def _defines(mark: Mark) -> bool:
    return mark.kind == "preprocessor" and ("define" in mark.text or "undef" in mark.text)


def _check_dummy(symbols: Symbols, symbol: Symbol) -> None:
    """Raises Unknown where a dummy is more than a plain variable, or a structure of such."""
    strange = symbol.attributes & (_STRANGE | {"ALLOCATABLE", "POINTER", "TARGET", "CRAY POINTEE", "CRAY POINTER"})
    if strange:
        raise Unknown(f"has a dummy argument {symbol.name} that is {min(strange)}")
    if symbol.storage is not Storage.DUMMY:
        raise Unknown(f"has a procedure {symbol.name} as its argument")
    if not symbol.type:
        raise Unknown(f"has an argument {symbol.name} whose type isn't known")
    if any(bound.upper == tree.Name("..") for bound in symbol.bounds):
        raise Unknown(f"has an argument {symbol.name} of any rank")
    leaves = _leaves(symbols, symbol)
    if "INTENT(OUT)" in symbol.attributes and any("ALLOCATABLE" in leaf.attributes for leaf in leaves):
        raise Unknown(f"has an argument {symbol.name} with INTENT(OUT), whose components it deallocates")


def _check_ends(symbols: Symbols) -> None:
    """Raises Unknown where a type has FINAL: then a procedure is called where nothing says so."""
    for name, facts in symbols.declarations.names.items():
        spec = facts.type
        known = None if spec is None or spec.name not in ("TYPE", "CLASS") else symbols.derived_type(spec.derived or "")
        if known is not None and has_final(known):
            raise Unknown(f"has a variable {name} of the type {known.name}, which has FINAL")


def _leaves(symbols: Symbols, symbol: Symbol) -> Tuple[Leaf, ...]:
    """The components of a dummy that is a structure; none for any other. Raises Unknown."""
    if symbol.type not in ("TYPE", "CLASS"):
        return ()
    try:
        return leaves_of(symbols, symbol)
    except NotPlain as error:
        raise Unknown(f"has a structure as its argument {symbol.name}, which {error.words}") from error


def _places(symbols: Symbols) -> List[str]:
    """The dummies of a procedure in order; those that are structures by their components. Raises Unknown."""
    found: List[str] = []
    for name in dummies_of(symbols.unit):
        symbol = symbols.get(name)
        is_structure = symbol.type in ("TYPE", "CLASS")
        found.extend([f"{name}{leaf.name}" for leaf in _leaves(symbols, symbol)] if is_structure else [name])
    return found


def _dummy_of(symbols: Symbols, place: str) -> Symbol:
    """The dummy that a place is, or is a component of."""
    return symbols.get(place.partition("%")[0])


def _at_worst(symbol: Symbol, use: Use = Use()) -> Use:
    """What may be done to a dummy of a procedure that calls itself: with INTENT(IN) it's read, if it seems so."""
    return Use(WHOLE) if "INTENT(IN)" in symbol.attributes and not use.writes else ANYTHING


def _is_same(before: Union[Summary, str], after: Union[Summary, str]) -> bool:
    """Whether nothing new was found about a procedure; words about what isn't known may go on growing."""
    return before == after or isinstance(before, str) and isinstance(after, str)


def _loosened(found: Union[Summary, str], symbols: Symbols) -> Union[Summary, str]:
    """A summary of a procedure that may call itself: of its arguments nothing is excluded."""
    if isinstance(found, str):
        return found
    shared = tuple(
        (one, Use(WHOLE if use.reads else NOTHING, WHOLE if use.writes else NOTHING)) for one, use in found.shared
    )
    formals = tuple((place, _at_worst(_dummy_of(symbols, place), use)) for place, use in found.formals)
    return replace(found, formals=formals, shared=shared)


def _by_interface(symbols: Symbols) -> Summary:
    """What INTENT and PURE say of a procedure whose body isn't in the files."""
    if not is_pure(symbols.unit):
        raise Unknown("isn't in the files")
    for fault in symbols.declaration_faults:
        raise Unknown(f"isn't understood: {fault.words}")
    uses = []
    for name in dummies_of(symbols.unit):
        _check_dummy(symbols, symbols.get(name))
    for place in _places(symbols):
        reads_alone = bool(_dummy_of(symbols, place).attributes & {"INTENT(IN)", "VALUE"})
        uses.append((place, Use(WHOLE) if reads_alone else ANYTHING))
    return Summary(tuple(uses), (), frozenset(["A10"]), reads_shared=True)


class _Listener:
    """Notes the procedures that statements call, and says nothing of them."""

    def __init__(self, procedures: Procedures) -> None:
        self._procedures = procedures
        self.found: Set[Unit] = set()

    def called(
        self, symbols: Symbols, name: str, arguments: Sequence[tree.Expression], is_function: bool
    ) -> Union[Called, Trouble]:
        """Notes a procedure."""
        specifics = self._procedures.specifics(symbols, name, is_function)
        found = self._procedures.find(symbols, name, is_function) if specifics is None else name
        self.found.update(specifics if isinstance(specifics, list) else [])
        if isinstance(found, Unit):
            self.found.add(found)
        return Trouble("call", name)

    def function_type(self, symbols: Symbols, name: str) -> str:
        """Nothing is known of types."""
        return ""

    def function_key(self, symbols: Symbols, name: str) -> Optional[Tuple[str, str]]:
        """Nothing is known of types."""
        return None


class _Reading:
    """Reads the body of one procedure."""

    def __init__(self, summaries: Summaries, unit: Unit) -> None:
        self._summaries = summaries
        self._unit = unit
        self._symbols = summaries.scopes.of(unit)
        self._roles = summaries.roles(self._symbols)
        self._facts = Facts(unit, self._roles)
        self._assumes: Set[str] = set()
        self._accesses: List[Access] = []
        self._reads_shared = False
        self._shared: Dict[Shared, Use] = {}
        self._formals: Dict[str, Use] = {place: Use(is_exposed=False) for place in _places(self._symbols)}
        #: The dummies that the procedure assigns nowhere.
        self._fixed: FrozenSet[str] = frozenset()

    def summary(self) -> Summary:
        """The summary."""
        for written in _executable(self._unit):
            self._statement(written)
        if self._facts.graph.is_open:
            raise Unknown("jumps to a place that isn't there")
        specification = self._specification()
        written_names = {access.name for access in self._accesses if access.writes}
        self._fixed = frozenset(name for name in dummies_of(self._unit) if name not in written_names)
        for access in (*specification, *self._accesses):
            self._take(access)
        exposed = self._facts.liveness.exposed_at_entry | {access.name for access in specification}
        for name, use in self._formals.items():
            self._formals[name] = self._with_intent(name, replace(
                use, is_exposed=name.partition("%")[0] in exposed,
                is_certain=name in self._facts.liveness.always_assigned,
            ))
        self._check_copies()
        return Summary(
            tuple(self._formals.items()), tuple(sorted(self._shared.items(), key=lambda one: str(one[0]))),
            frozenset(self._assumes | self._assumed()), self._reads_shared,
        )

    # --- Statements ----------------------------------------------------------------------------------------------

    def _statement(self, written: Written) -> None:
        found = self._facts.effects(written)
        where = self._summaries.place(self._unit, written.item.first)
        for trouble in found.troubles:
            raise Unknown(f"{_about(trouble)} ({where})")
        if found.calls or found.reads_all:
            raise Unknown(f"isn't understood ({where})")
        self._assumes |= found.assumes
        self._reads_shared |= found.reads_shared
        self._accesses += found.accesses
        if any(has_intrinsic(self._roles, expression) for expression in written.statement.expressions()):
            self._assumes.add("A6")

    def _specification(self) -> List[Access]:
        """What the bounds and lengths in the declarations read, when a run begins."""
        found: List[Access] = []
        for expression in self._declared_expressions():
            if isinstance(expression, (tree.Star, tree.Section)):
                continue
            effects = reads_of(expression, self._roles)
            for trouble in effects.troubles:
                raise Unknown(f"has a bound that isn't known: {trouble.words}")
            if effects.side_writes:
                raise Unknown("has a bound whose function writes")
            found += effects.accesses
            self._reads_shared |= effects.reads_shared
            self._assumes |= effects.assumes
        return found

    def _declared_expressions(self) -> Iterator[tree.Expression]:
        """The bounds of arrays and the lengths of CHARACTERs."""
        for facts in self._symbols.declarations.names.values():
            for bound in facts.bounds:
                yield from tree.written(bound.lower, bound.upper)
            if facts.type is not None:
                yield from tree.written(facts.type.length)
        for written in self._unit.statements():
            if written.word == "TYPE DECLARATION" and isinstance(written.statement, tree.TypeDeclaration):
                for entity in written.statement.entities:
                    yield from tree.written(entity.length)

    def _assumed(self) -> FrozenSet[str]:
        """The assumptions about where the body comes from."""
        found: Set[str] = set()
        if self._unit.host is None or self._symbols.uses_modules:
            found.add("A5")
        if self._symbols.missing_modules:
            found.add("A6")
        return frozenset(found)

    def _with_intent(self, name: str, use: Use) -> Use:
        """A dummy with INTENT(OUT) has no value when the procedure begins, so all of it is written in a way."""
        return use.with_writes() if "INTENT(OUT)" in _dummy_of(self._symbols, name).attributes else use

    def _check_copies(self) -> None:
        """Raises Unknown where threads have copies of a shared variable."""
        for shared in self._shared:
            if {shared.name, shared.home.strip("/")} & self._summaries.copied:
                raise Unknown(f"uses {shared.name or shared.home}, which is THREADPRIVATE")

    # --- Variables -----------------------------------------------------------------------------------------------

    def _take(self, access: Access) -> None:
        """Notes a read or a write."""
        shared = access.shared
        if isinstance(shared, Shared) and shared.home != self._unit.path:
            self._share(shared, access)
            return
        symbol = self._symbols.get(access.name)
        self._check(symbol)
        if symbol.storage is Storage.DUMMY:
            if access.place not in self._formals:
                raise Unknown(f"uses {access.name} as a whole")
            self._formals[access.place] = self._joined(self._formals[access.place], access)
        elif symbol.storage is Storage.COMMON:
            for one in self._summaries.commons().shared(self._symbols, symbol):
                self._share(one, replace(access, part=""))
        elif symbol.storage in _SHARED:
            if symbol.group:
                raise Unknown(f"uses {access.name}, which shares its storage")
            if symbol.type in ("TYPE", "CLASS") and not access.part:
                raise Unknown(f"uses {access.name} as a whole")
            self._share(Shared(symbol.home, symbol.original, part=access.part), access)
        elif symbol.storage not in (Storage.LOCAL, Storage.RESULT):
            raise Unknown(f"uses {access.name}, of which nothing is known")
        elif access.writes and self._is_kept(symbol):
            raise Unknown(f"keeps {access.name} from one run to the next (SAVE)")

    def _check(self, symbol: Symbol) -> None:
        if symbol.is_pointer or symbol.attributes & _STRANGE:
            raise Unknown(f"uses {symbol.name}, which is {min(symbol.attributes & (_STRANGE | _POINTING))}")
        if symbol.storage is Storage.RESULT and symbol.attributes & {"ALLOCATABLE", "POINTER"}:
            raise Unknown("has a result that is ALLOCATABLE or a POINTER")

    def _is_kept(self, symbol: Symbol) -> bool:
        """Whether a local variable, or one with which it shares its storage, has SAVE."""
        if "SAVE" in symbol.attributes:
            return True
        others = self._symbols.declarations.names if symbol.group else ()
        return any(
            "SAVE" in other.attributes for other in map(self._symbols.get, others) if other.group == symbol.group
        )

    def _share(self, shared: Shared, access: Access) -> None:
        self._shared[shared] = self._joined(self._shared.get(shared, Use()), access)

    def _joined(self, use: Use, access: Access) -> Use:
        """A use with a further access."""
        cells = frozenset([self._cell(access)])
        if access.writes:
            return replace(use, writes=_union(use.writes, cells))
        return replace(use, reads=_union(use.reads, cells))

    def _cell(self, access: Access) -> Cell:
        """The element of an access, by the dummies."""
        if "/" in access.name:
            return None
        indices, rank = access.indices, self._symbols.get(access.place).rank
        if not indices or len(indices) != rank:
            return None
        return tuple(self._index(one, access.bound) for one in indices)

    def _index(self, expression: tree.Expression, bound: FrozenSet[str]) -> Optional[tree.Expression]:
        """A subscript of constants and of dummies that keep their values; none for any other."""
        value = self._symbols.constant(expression)
        if value is not None:
            return _literal(value) if abs(value) <= _GREATEST else None
        if isinstance(expression, tree.Parentheses):
            return self._index(expression.inner, bound)
        if isinstance(expression, tree.Name):
            return expression if expression.name in self._fixed - bound and self._is_index(expression.name) else None
        if not isinstance(expression, tree.Operation) or expression.operator not in ("+", "-", "*"):
            return None
        if expression.operator == "*" and all(self._symbols.constant(one) is None for one in expression.operands):
            return None
        operands = [self._index(one, bound) for one in expression.operands]
        known = tuple(as_operand(one) for one in operands if one is not None)
        return tree.Operation(expression.operator, known) if len(known) == len(operands) else None

    def _is_index(self, name: str) -> bool:
        """Whether a dummy is a scalar INTEGER of 4 bytes that is always there."""
        symbol = self._symbols.get(name)
        is_plain = not symbol.rank and "OPTIONAL" not in symbol.attributes
        return is_plain and (symbol.type, symbol.kind) == ("INTEGER", 4)


_POINTING = frozenset(["POINTER", "TARGET", "CRAY POINTEE"])


def _about(trouble: Trouble) -> str:
    """What a trouble in its body says of a procedure."""
    if trouble.reason == "io":
        return f"does input or output: {trouble.words}"
    if trouble.reason == "exit":
        return f"may end the run: {trouble.words}"
    if trouble.reason in ("call", "function"):
        return f"calls what isn't known: {trouble.words}"
    return f"isn't understood: {trouble.reason}: {trouble.words}"


def as_operand(expression: tree.Expression) -> tree.Expression:
    """An expression as an operand, in parentheses where it isn't a name, a number or in parentheses already."""
    is_one = isinstance(expression, (tree.Name, tree.Literal, tree.Parentheses))
    return expression if is_one else tree.Parentheses(expression)


def _literal(value: int) -> tree.Expression:
    number = tree.Literal("INTEGER", str(abs(value)))
    return number if value >= 0 else tree.Operation("-", (number,))


def _union(left: Cells, right: Cells) -> Cells:
    """Elements of both; the whole where they are too many."""
    found = left | right
    return WHOLE if None in found or len(found) > _MOST_CELLS else found


def dummies_of(unit: Unit) -> Tuple[str, ...]:
    """The dummies of a procedure in order, `*` among them for an alternate return."""
    head = unit.head.statement if unit.head is not None else None
    return head.arguments if isinstance(head, tree.Head) else ()


def _executable(unit: Unit) -> Iterator[Written]:
    """The statements of a unit that may do something."""
    for written in unit.statements():
        if written.word not in ("FORMAT", "DATA"):
            yield written
