"""What a statement reads and writes, in the order of its run, and why nothing is said about it.

An assignment reads its right side, then the subscripts of its target, and writes the target. A DO reads its bounds
and writes its variable. A function that isn't a pure intrinsic or a statement function, a CALL, input and output are
`Trouble`: they may read and write more than is listed. `Effects` says what is missing.

Where the body of a procedure was read, `Called` has what a CALL or a reference to it reads and writes, in the names of
the unit that has it. Then there is no trouble.

What a name is comes from `Names`, which the symbols of a unit satisfy.
"""

from __future__ import annotations

from dataclasses import dataclass, replace
from enum import Enum
from typing import Callable, Dict, FrozenSet, List, Optional, Protocol, Sequence, Tuple, Type, Union

from . import intrinsics, tree
from .components import ALL, Leaf, Part
from .designators import chain_of, first_subscripts, substituted, value_of
from .transfers import Internal, goes_on_after_errors, internal

#: How deep statement functions may refer to each other. In a right program each refers to earlier ones alone.
_DEEPEST = 20

_NONE: FrozenSet[str] = frozenset()

#: A subscript that may have any value within the bounds.
ANYWHERE = tree.Section(None, None, tree.Star())


class Kind(Enum):
    """What a name of a unit is."""

    SCALAR = "a variable without dimensions"
    ARRAY = "a variable with dimensions"
    CONSTANT = "a named constant"
    INTRINSIC = "an intrinsic procedure"
    STATEMENT_FUNCTION = "a statement function"
    PROCEDURE = "any other procedure"
    TYPE = "a derived type"
    #: The name may be one of a module that isn't there.
    UNKNOWN = "an unknown name"


@dataclass(frozen=True)
class Trouble:
    """Why nothing is said about a statement: a class of refusals, and words."""

    reason: str
    words: str


@dataclass(frozen=True)
class StatementFunction:
    """A statement function: its dummies and its value."""

    dummies: Tuple[str, ...]
    value: tree.Expression


class Names(Protocol):
    """What the names of a unit are. All names are in capitals."""

    def kind_of(self, name: str) -> Kind:
        """What a name is. An intrinsic's name that nothing declares is a scalar: without parentheses it is one."""

    def is_intrinsic(self, name: str) -> bool:
        """Whether a name before parentheses is that of an intrinsic function, if there is one of this name."""

    def type_of(self, name: str) -> str:
        """`INTEGER`, `REAL`, `COMPLEX`, `LOGICAL`, `CHARACTER`, `TYPE` or `CLASS`; empty where it isn't known.

        DOUBLE PRECISION is REAL here.
        """

    def attributes_of(self, name: str) -> FrozenSet[str]:
        """The attributes of a variable, as words of `tree.TypeDeclaration`: `ALLOCATABLE`, `POINTER`, `TARGET`, .."""

    def structure_trouble(self, designator: tree.Expression) -> Optional[Trouble]:
        """Why nothing is said about a designator whose first name has a derived type, none where it is plain data.

        A structure as a whole, a POINTER on the way, a binding and a type that isn't known are such reasons.
        """

    def component_type(self, designator: tree.Expression) -> str:
        """The type of a component of a structure, as `type_of` has it; empty where it isn't plain data."""

    def part_of(self, designator: tree.Expression) -> Optional[Part]:
        """The part of a structure that a designator is; none where it's none, or its type isn't known."""

    def is_constructor(self, name: str) -> bool:
        """Whether the name of a derived type before parentheses makes a structure of values, and is no function."""

    def copied(self, target: tree.Expression, value: tree.Expression) -> Union[Tuple[Leaf, ...], Trouble, None]:
        """The components that an assignment of a structure assigns; none where the target is no structure as a whole."""

    def statement_function(self, name: str) -> Optional[StatementFunction]:
        """A statement function by its name."""

    def is_reached_by_calls(self, name: str) -> bool:
        """Whether a procedure may read or write a variable that it hasn't got as an argument.

        Variables of COMMON, of modules and of hosts are such, and those that a contained procedure may name.
        """

    def outlives_unit(self, name: str) -> bool:
        """Whether a variable's value may be needed when the unit has ended."""

    def is_kept(self, name: str) -> bool:
        """Whether the next run of the unit may need a variable's value, and nothing else outside this run can."""

    def may_share_storage(self, name: str) -> bool:
        """Whether another name of the unit may stand for the same storage: EQUIVALENCE, POINTER, TARGET."""

    def called(
        self, name: str, arguments: Sequence[tree.Expression], is_function: bool
    ) -> Union[Called, Trouble, None]:
        """What a procedure does that is called with these arguments; why that isn't known; none where nobody looks."""

    def function_type(self, name: str) -> str:
        """The type of the value of a function whose body was read, as `type_of` has it; empty for all other names."""


@dataclass(frozen=True)
class Access:
    """One read or write of a variable by a statement.

    `designator` is what is written, with components and substrings. `subscripts` are those of its first part alone,
    none where it has no parentheses: `A(I)%X(J)` has I. `covers` means that a write assigns all of the variable, and
    does so whenever the statement is carried out. `within` is the designator in whose subscripts the access is, none
    where it isn't in any. Names in `bound` are variables of a FORALL, a DO CONCURRENT or an implied DO around the
    access: in its subscripts they aren't the unit's variables.

    With `by_call` a procedure reads or writes it. Then `designator` is the argument as it's written, and `subscripts`
    are those of the elements that the procedure uses; `ANYWHERE` may be among them. `shared` is what the procedure has
    under a name of its own (a `commons.Shared`), so that it knows nothing of a copy that a thread has.

    `part` is the component of a structure, `%X%Y`, empty for a structure as a whole and for anything else. Then
    `part_subscripts` are those of all its dimensions.
    """

    name: str
    writes: bool
    designator: tree.Expression
    subscripts: Optional[Tuple[tree.Expression, ...]] = None
    covers: bool = False
    within: Optional[tree.Expression] = None
    bound: FrozenSet[str] = _NONE
    by_call: bool = False
    shared: Optional[object] = None
    part: str = ""
    part_subscripts: Tuple[tree.Expression, ...] = ()

    @property
    def place(self) -> str:
        """The variable, or the component of it as a variable of its own: `P%X`."""
        return self.name + self.part

    @property
    def indices(self) -> Optional[Tuple[tree.Expression, ...]]:
        """The subscripts of the place; none where they aren't written."""
        return self.part_subscripts if self.part else self.subscripts


@dataclass(frozen=True)
class Called:
    """What a procedure does that is called, in the names of the unit that calls it.

    `accesses` are in the order of its run: what it may read of values from before the call, what it writes, and what it
    reads only after it has written it. `assumes` are the assumptions that this rests on. With `reads_shared` it may read
    all variables that procedures share.
    """

    accesses: Tuple[Access, ...] = ()
    assumes: FrozenSet[str] = _NONE
    reads_shared: bool = False


@dataclass(frozen=True)
class Effects:
    """What a statement reads and writes, in order.

    `troubles` say why a loop with this statement gets no verdict. `calls` means that a procedure is called: it may read
    and write all variables that it reaches. `reads_all` means that any variable may be read.

    `procedures` are those with bodies that were read; what these do is among the accesses. `assumes` and `reads_shared`
    are as in `Called`.
    """

    accesses: Tuple[Access, ...] = ()
    troubles: Tuple[Trouble, ...] = ()
    calls: bool = False
    reads_all: bool = False
    procedures: FrozenSet[str] = _NONE
    assumes: FrozenSet[str] = _NONE
    reads_shared: bool = False

    @property
    def reads(self) -> Tuple[Access, ...]:
        """The reads alone."""
        return tuple(access for access in self.accesses if not access.writes)

    @property
    def writes(self) -> Tuple[Access, ...]:
        """The writes alone."""
        return tuple(access for access in self.accesses if access.writes)

    @property
    def side_writes(self) -> Tuple[Access, ...]:
        """What procedures may write."""
        return tuple(access for access in self.accesses if access.writes and access.by_call)


def effects(statement: tree.Statement, names: Names, bound: FrozenSet[str] = _NONE) -> Effects:
    """What a statement reads and writes. Names in `bound` are variables of constructs round it."""
    run = _Run(names, bound)
    run.carry_out(statement)
    return run.effects()


def reads_of(expression: tree.Expression, names: Names, bound: FrozenSet[str] = _NONE) -> Effects:
    """What an expression reads."""
    run = _Run(names, bound)
    run.read(expression)
    return run.effects()


def is_variable(expression: tree.Expression, names: Names) -> bool:
    """Whether an argument, without its keyword, is a variable or a part of one, which a procedure may assign."""
    name = tree.root_of(expression)
    kind = names.kind_of(name) if name else None
    return kind is Kind.ARRAY or kind is Kind.SCALAR and not _is_function(expression, names)


def _is_function(expression: tree.Expression, names: Names) -> bool:
    """Whether a scalar's name has parentheses without being a substring, so that it is a function."""
    if not isinstance(expression, tree.Reference) or not isinstance(expression.base, tree.Name):
        return False
    is_substring = len(expression.arguments) == 1 and isinstance(expression.arguments[0], tree.Section)
    return names.type_of(expression.base.name) != "CHARACTER" or not is_substring


def _can_substitute(found: StatementFunction) -> bool:
    """Whether a statement function's value has dummies only as plain names, and no implied DO."""
    waiting = [found.value]
    while waiting:
        part = waiting.pop()
        if isinstance(part, tree.ImpliedDo):
            return False
        if not isinstance(part, tree.Name) and tree.root_of(part) in found.dummies:
            return False
        waiting.extend(part.parts())
    return True


class _Run:
    """The run of one statement: its accesses and troubles so far."""

    def __init__(self, names: Names, bound: FrozenSet[str]) -> None:
        self.names = names
        self.bound = bound
        self.accesses: List[Access] = []
        self.troubles: List[Trouble] = []
        self.calls = False
        self.reads_all = False
        self.procedures: List[str] = []
        self.assumes: FrozenSet[str] = _NONE
        self.reads_shared = False
        #: Whether the statement may be carried out without the part that is looked at.
        self._is_optional = False
        self._within: Optional[tree.Expression] = None
        self._depth = 0

    def effects(self) -> Effects:
        """All that was found."""
        return Effects(
            tuple(self.accesses), tuple(self.troubles), self.calls, self.reads_all, frozenset(self.procedures),
            self.assumes, self.reads_shared,
        )

    # --- Statements ---

    def carry_out(self, statement: tree.Statement) -> None:
        """All accesses of a statement."""
        action = _ACTIONS.get(type(statement))
        if action is not None:
            action(self, statement)
        elif not isinstance(statement, _WITHOUT_EFFECT):
            self.trouble("parse", f"{type(statement).__name__} can't be read")

    def trouble(self, reason: str, words: str) -> None:
        """Notes why nothing is said."""
        found = Trouble(reason, words)
        if found not in self.troubles:
            self.troubles.append(found)

    def read_all(self, statement: tree.Statement) -> None:
        """Reads the expressions of a statement that has no other effect."""
        for expression in statement.expressions():
            self.read(expression)

    def assign(self, statement: tree.Assignment) -> None:
        """An assignment, which may be a statement function."""
        root = tree.root_of(statement.target)
        if root and self.names.kind_of(root) is Kind.STATEMENT_FUNCTION:
            return
        leaves = self.names.copied(statement.target, statement.value)
        if isinstance(leaves, tuple):
            self._copy(statement, leaves)
            return
        if leaves is not None:
            self.trouble(leaves.reason, leaves.words)
        self.read(statement.value)
        self.write(statement.target)

    def _copy(self, statement: tree.Assignment, leaves: Sequence[Leaf]) -> None:
        """An assignment of a structure as a whole: that of each of its components."""
        value, target = statement.value, statement.target
        if is_variable(value, self.names):
            self._subscripts(value)
            self._add_leaves(value, leaves, False)
        else:
            self.read(value)
        self._subscripts(target)
        self._add_leaves(target, leaves, True)

    def _add_leaves(self, designator: tree.Expression, leaves: Sequence[Leaf], writes: bool) -> None:
        """The read or the write of each component of a structure as a whole."""
        part = self.names.part_of(designator)
        assert part is not None
        for leaf in leaves:
            subscripts = (*part.subscripts, *[ALL] * leaf.rank)
            self._add(Access(
                tree.root_of(designator), writes, designator, first_subscripts(designator),
                part=part.name + leaf.name, part_subscripts=subscripts,
            ))

    def point(self, statement: tree.PointerAssignment) -> None:
        """A pointer assignment."""
        self.trouble("pointer", f"{statement.target} is pointed to another place")
        self._touch(statement.value)
        self._touch(statement.target)

    def test(self, statement: tree.LogicalIf) -> None:
        """A logical IF with its action, which may be left out."""
        self.read(statement.condition)
        self._optionally(statement.action)

    def count(self, statement: tree.Do) -> None:
        """The header of a DO, as it begins."""
        control = statement.control
        if isinstance(control, tree.Counted):
            for bound in (control.first, control.last, control.step):
                if bound is not None:
                    self.read(bound)
            self.write(control.variable)
        elif isinstance(control, tree.While):
            self.read(control.condition)
        elif isinstance(control, tree.Concurrent):
            self._ranges(control.ranges, control.mask)

    def where(self, statement: tree.Where) -> None:
        """A WHERE; its assignment may leave each element alone."""
        self.read(statement.mask)
        if statement.assignment is not None:
            self._optionally(statement.assignment)

    def forall(self, statement: tree.Forall) -> None:
        """A FORALL; its variables are its own."""
        before = self.bound
        self._ranges(statement.ranges, statement.mask)
        if statement.assignment is not None:
            self.bound = before | {one.variable for one in statement.ranges}
            self._optionally(statement.assignment)
        self.bound = before

    def call(self, statement: tree.Call) -> None:
        """A CALL: each argument may be read and written, where the procedure isn't known."""
        found = None
        if isinstance(statement.procedure, tree.Name):
            found = self._called(statement.procedure.name, statement.arguments, False)
        if isinstance(found, Called):
            return
        self.calls = True
        self.trouble("call", f"what {statement.procedure} does isn't known" if found is None else found.words)
        for expression in statement.expressions():
            self._touch(expression)

    def _called(
        self, name: str, arguments: Sequence[tree.Expression], is_function: bool
    ) -> Union[Called, Trouble, None]:
        """What a procedure does, which is noted where it's known."""
        found = self.names.called(name, arguments, is_function)
        if not isinstance(found, Called):
            return found
        self.procedures.append(name)
        self.assumes |= found.assumes
        self.reads_shared |= found.reads_shared
        for argument in arguments:
            value = value_of(argument)
            if is_variable(value, self.names):
                self._subscripts(value)
            else:
                self.read(value)
        for access in found.accesses:
            self._add(replace(access, covers=access.covers and not self._is_optional))
        return found

    def transfer(self, statement: tree.InputOutput) -> None:
        """Input and output: each item and each control may be read, and written where it is a variable."""
        found = internal(statement, self.names)
        if found is not None and self.names.kind_of(tree.root_of(found.unit)) in (Kind.SCALAR, Kind.ARRAY):
            self._internal(found)
            return
        self.trouble("io", statement.word)
        for control in statement.controls:
            self._touch(control)
        self._optionally_where(goes_on_after_errors(statement), lambda: self._items(statement.items, self._touch))
        # A name may be that of a group of NAMELIST.
        self.calls |= any(isinstance(value_of(one), tree.Name) for one in statement.controls)

    def _internal(self, found: Internal) -> None:
        """READ and WRITE of an internal unit: the items or the unit are written, and the variables of its controls."""
        unit = found.unit
        if found.format is not None:
            self.read(found.format)
        if found.reads:
            self.read(unit)
            # A null value of a list-directed READ leaves its item as it was.
            may_be_left = found.is_list_directed or not found.is_certain
            self._optionally_where(may_be_left, lambda: self._items(found.items, self.write))
        else:
            self._items(found.items, self.read)
            self._optionally_where(not found.is_certain, lambda: self.write(unit))
        if found.status is not None:
            self.write(found.status)
        if found.message is not None:
            self._write_maybe(found.message)

    def _write_maybe(self, variable: tree.Expression) -> None:
        self._optionally_where(True, lambda: self.write(variable))

    def _items(self, items: Sequence[tree.Expression], take: Callable[[tree.Expression], None]) -> None:
        """The items of input and output. The variable of an implied DO is the unit's here, and is assigned."""
        for item in items:
            if not isinstance(item, tree.ImpliedDo):
                take(item)
                continue
            for bound in item.parts()[len(item.items):]:
                self.read(bound)
            is_scalar = self.names.kind_of(item.variable) is Kind.SCALAR
            if not is_scalar or item.variable in self.bound:
                self.trouble("index", f"{item.variable} counts an implied DO")
            covers = is_scalar and not self._is_optional
            self._add(Access(item.variable, True, tree.Name(item.variable), covers=covers))
            before = self.bound, self._is_optional
            self.bound, self._is_optional = self.bound | {item.variable}, True
            self._items(item.items, take)
            self.bound, self._is_optional = before

    def allocate(self, statement: tree.Allocation) -> None:
        """ALLOCATE and its like."""
        self.trouble("allocate", statement.word)
        for expression in statement.expressions():
            self._touch(expression)

    def stop(self, statement: tree.Stop) -> None:
        """STOP and PAUSE."""
        self.trouble("io" if statement.word == "PAUSE" else "exit", statement.word)
        self.read_all(statement)

    def jump(self, statement: tree.AssignedGoTo) -> None:
        """An assigned GO TO."""
        self.trouble("goto", "an assigned GO TO")
        self.read(tree.Name(statement.variable))

    def label(self, statement: tree.AssignLabel) -> None:
        """ASSIGN gives a variable a place in the text, which is no value."""
        self.trouble("goto", "ASSIGN")
        self.write(tree.Name(statement.variable))

    def select_type(self, statement: tree.SelectType) -> None:
        """SELECT TYPE and SELECT RANK: the alias may be written below."""
        self.trouble("select", "SELECT RANK" if statement.rank else "SELECT TYPE")
        self._touch(statement.selector)

    def construct(self, statement: tree.Construct) -> None:
        """ASSOCIATE, BLOCK, CRITICAL: other names may be written below."""
        self.trouble("associate", statement.word)
        for expression in statement.expressions():
            self._touch(expression)

    def enter(self, statement: tree.Entry) -> None:
        """An ENTRY among the statements."""
        self.trouble("entry", f"ENTRY {statement.name}")

    def give_up(self, statement: tree.Unreadable) -> None:
        """A statement that can't be read."""
        self.trouble(statement.reason, statement.words)
        self.calls = True
        self.reads_all = True

    def _optionally(self, action: tree.Statement) -> None:
        self._optionally_where(True, lambda: self.carry_out(action))

    def _optionally_where(self, is_optional: bool, take: Callable[[], None]) -> None:
        """Takes a part that may be left out where that is said, or where the whole may be."""
        before, self._is_optional = self._is_optional, self._is_optional or is_optional
        take()
        self._is_optional = before

    def _ranges(self, ranges: Sequence[tree.Range], mask: Optional[tree.Expression]) -> None:
        """The header of a FORALL or a DO CONCURRENT."""
        for one in ranges:
            for expression in one.parts():
                self.read(expression)
        if mask is not None:
            before, self.bound = self.bound, self.bound | {one.variable for one in ranges}
            self.read(mask)
            self.bound = before

    # --- Designators that are written ---

    def write(self, target: tree.Expression) -> None:
        """The write of a target, after the reads of its subscripts."""
        name = tree.root_of(target)
        kind = self.names.kind_of(name) if name else Kind.UNKNOWN
        if kind is Kind.UNKNOWN:
            self.trouble("use", f"what {name or target} is isn't known")
        elif kind not in (Kind.SCALAR, Kind.ARRAY):
            self.trouble("function" if kind is Kind.PROCEDURE else "parse", f"{name} is {kind.value}")
        if name in self.bound:
            self.trouble("index", f"{name} counts, and is assigned")
        subscripts = self._subscripts(target)
        self._check_structure(target)
        is_part = not isinstance(target, tree.Name)
        if is_part and kind is Kind.SCALAR:
            self._check_substring(target)
            part = self.names.part_of(target)
            if part is None or part.symbol.type == "CHARACTER":
                self._add(Access(name, False, target, subscripts))
        covers = kind is Kind.SCALAR and not is_part and not self._is_optional
        self._add(Access(name, True, target, subscripts, covers))

    def _touch(self, expression: tree.Expression) -> None:
        """The reads of an expression, and a write that may be left out, where it is a variable."""
        expression = value_of(expression)
        name = tree.root_of(expression)
        kind = self.names.kind_of(name) if name else None
        if kind is Kind.PROCEDURE and isinstance(expression, tree.Name):
            return
        self.read(expression)
        if kind in (Kind.SCALAR, Kind.ARRAY, Kind.UNKNOWN) and name not in self.bound:
            self._add(Access(name, True, expression, first_subscripts(expression)))

    # --- Expressions ---

    def read(self, expression: tree.Expression) -> None:
        """The reads of an expression, from left to right."""
        if isinstance(expression, tree.Name):
            self._name(expression)
        elif isinstance(expression, tree.Reference):
            self._reference(expression)
        elif isinstance(expression, tree.Component):
            self._designator(expression)
        elif isinstance(expression, tree.ImpliedDo):
            self._implied(expression)
        elif isinstance(expression, _WITH_PARTS):
            if isinstance(expression, tree.Operation) and expression.is_defined:
                self.trouble("function", f"the operator {expression.operator} is a function")
            for part in expression.parts():
                self.read(part)
        else:
            self.trouble("parse", f"{expression} can't be read")

    def _name(self, expression: tree.Name) -> None:
        """A name without parentheses."""
        name = expression.name
        if name in self.bound:
            return
        kind = self.names.kind_of(name)
        if kind in (Kind.SCALAR, Kind.ARRAY):
            self._check_structure(expression)
            self._add(Access(name, False, expression))
        elif kind is Kind.UNKNOWN:
            if self._within is not None:
                self.trouble("use", f"what {name} is isn't known")
            self._add(Access(name, False, expression))
        elif kind is not Kind.CONSTANT:
            self.trouble("function", f"{name} is {kind.value}")

    def _reference(self, expression: tree.Reference) -> None:
        """A name with parentheses, whatever it is."""
        base = expression.base
        if isinstance(base, tree.Literal):
            self._arguments(expression)
            return
        if not isinstance(base, tree.Name):
            self._designator(expression)
            return
        kind = self.names.kind_of(base.name)
        if self._is_pure_intrinsic(base.name, expression.arguments):
            self._intrinsic(base.name, expression.arguments)
        elif kind is Kind.SCALAR and _is_function(expression, self.names):
            self._function("function", f"{base.name} has parentheses and is no array", expression)
        elif kind in (Kind.ARRAY, Kind.SCALAR):
            self._designator(expression)
        elif kind is Kind.STATEMENT_FUNCTION:
            self._statement_function(base.name, expression)
        elif kind is Kind.CONSTANT:
            self._arguments(expression)
        elif kind is Kind.TYPE and self.names.is_constructor(base.name):
            for argument in expression.arguments:
                self.read(argument)
        elif kind is Kind.UNKNOWN:
            self._function("use", f"what {base.name} is isn't known", expression)
        else:
            self._function("function", f"what {base.name} does isn't known", expression)

    def _is_pure_intrinsic(self, name: str, arguments: Sequence[tree.Expression]) -> bool:
        """Whether a name with parentheses is a pure intrinsic: no array of this name, no substring."""
        is_substring = any(isinstance(argument, tree.Section) for argument in arguments)
        return name in intrinsics.PURE and not is_substring and self.names.is_intrinsic(name)

    def _function(self, reason: str, words: str, expression: tree.Reference) -> None:
        """A function that may do anything, where it isn't known."""
        found = None
        if isinstance(expression.base, tree.Name) and reason == "function":
            found = self._called(expression.base.name, expression.arguments, True)
        if isinstance(found, Called):
            return
        self.trouble(reason, words if found is None else found.words)
        self.calls = True
        for argument in expression.arguments:
            self._touch(argument)

    def _intrinsic(self, name: str, arguments: Sequence[tree.Expression]) -> None:
        """A pure intrinsic: its arguments' reads. An inquiry reads only a variable whose form may change."""
        for argument in arguments:
            value = value_of(argument)
            root = tree.root_of(value)
            if root and argument is arguments[0] and name in intrinsics.INQUIRIES and self._has_fixed_form(value):
                self._subscripts(value)
            else:
                self.read(value)

    def _has_fixed_form(self, designator: tree.Expression) -> bool:
        """Whether no statement but ALLOCATE changes what an inquiry answers about a variable."""
        name = tree.root_of(designator)
        if any(isinstance(part, tree.Component) for part in chain_of(designator)):
            return False
        if self.names.kind_of(name) not in (Kind.SCALAR, Kind.ARRAY, Kind.CONSTANT):
            return False
        return not self.names.attributes_of(name) & {"ALLOCATABLE", "POINTER"}

    def _statement_function(self, name: str, expression: tree.Reference) -> None:
        """A statement function: the reads of its value, with the arguments for the dummies."""
        found = self.names.statement_function(name)
        is_known = found is not None and len(found.dummies) == len(expression.arguments) and _can_substitute(found)
        if found is None or not is_known or self._depth == _DEEPEST:
            self._function("function", f"what {name} does isn't known", expression)
            return
        values = dict(zip(found.dummies, expression.arguments))
        # An argument whose dummy the value doesn't need is evaluated as well.
        for argument in expression.arguments:
            self.read(argument)
        self._depth += 1
        self.read(substituted(found.value, values))
        self._depth -= 1

    def _implied(self, expression: tree.ImpliedDo) -> None:
        """An implied DO: its bounds, then its items with its variable bound."""
        for part in expression.parts()[len(expression.items):]:
            self.read(part)
        before, self.bound = self.bound, self.bound | {expression.variable}
        for item in expression.items:
            self.read(item)
        self.bound = before

    def _designator(self, expression: tree.Expression) -> None:
        """A variable with subscripts, components or a substring."""
        name = tree.root_of(expression)
        if not name:
            self.trouble("function", f"{expression} is a component of a value")
            return
        kind = self.names.kind_of(name)
        subscripts = self._subscripts(expression)
        self._check_structure(expression)
        if kind is Kind.SCALAR:
            self._check_substring(expression)
        elif kind is Kind.UNKNOWN:
            self.trouble("use", f"what {name} is isn't known")
        elif kind is not Kind.ARRAY and kind is not Kind.CONSTANT:
            self.trouble("function", f"{name} is {kind.value}")
        if kind is not Kind.CONSTANT:
            self._add(Access(name, False, expression, subscripts))

    def _subscripts(self, designator: tree.Expression) -> Optional[Tuple[tree.Expression, ...]]:
        """Reads all subscripts of a designator, from left to right. The answer are those of its first part."""
        before, self._within = self._within, designator
        for part in chain_of(designator):
            if isinstance(part, tree.Reference):
                for argument in part.arguments:
                    self.read(argument)
        self._within = before
        return first_subscripts(designator)

    def _arguments(self, expression: tree.Reference) -> None:
        before, self._within = self._within, expression
        for argument in expression.arguments:
            self.read(argument)
        self._within = before

    def _check_structure(self, designator: tree.Expression) -> None:
        """Notes what is wrong with a designator of a derived type."""
        name = tree.root_of(designator)
        has_component = any(isinstance(part, tree.Component) for part in chain_of(designator))
        if has_component or self.names.type_of(name) in ("TYPE", "CLASS"):
            found = self.names.structure_trouble(designator)
            if found is not None:
                self.trouble(found.reason, found.words)

    def _check_substring(self, designator: tree.Expression) -> None:
        """Notes a scalar with parentheses that is no substring: it must be a function."""
        if _is_function(designator, self.names):
            self.trouble("function", f"{tree.root_of(designator)} has parentheses and is no array")
            self.calls = True

    def _add(self, access: Access) -> None:
        part = None
        if not access.by_call and not access.part and isinstance(access.designator, (tree.Component, tree.Reference)):
            part = self.names.part_of(access.designator)
        if part is not None and not part.is_structure:
            access = replace(access, part=part.name, part_subscripts=part.subscripts)
        self.accesses.append(replace(access, within=self._within, bound=self.bound))


#: Expressions that read what their parts read.
_WITH_PARTS = (
    tree.Literal, tree.ComplexLiteral, tree.Section, tree.Keyword, tree.Star, tree.AlternateReturn, tree.Operation,
    tree.Parentheses, tree.ArrayConstructor, tree.Range,
)

#: What is done for a statement of each class that has accesses or troubles.
_ACTIONS: Dict[Type[tree.Statement], Callable[..., None]] = {
    tree.Assignment: _Run.assign,
    tree.PointerAssignment: _Run.point,
    tree.LogicalIf: _Run.test,
    tree.ArithmeticIf: _Run.read_all,
    tree.IfThen: _Run.read_all,
    tree.ElseIf: _Run.read_all,
    tree.SelectCase: _Run.read_all,
    tree.Case: _Run.read_all,
    tree.ComputedGoTo: _Run.read_all,
    tree.Return: _Run.read_all,
    tree.ElseWhere: _Run.read_all,
    tree.Do: _Run.count,
    tree.Where: _Run.where,
    tree.Forall: _Run.forall,
    tree.Call: _Run.call,
    tree.InputOutput: _Run.transfer,
    tree.Allocation: _Run.allocate,
    tree.Stop: _Run.stop,
    tree.AssignedGoTo: _Run.jump,
    tree.AssignLabel: _Run.label,
    tree.SelectType: _Run.select_type,
    tree.Construct: _Run.construct,
    tree.Entry: _Run.enter,
    tree.Unreadable: _Run.give_up,
}

#: Statements without accesses: where the run goes on after them is for `flow` to say.
_WITHOUT_EFFECT = (
    tree.Continue, tree.GoTo, tree.Cycle, tree.Exit, tree.End, tree.Else, tree.Format, tree.TypeGuard, tree.Data,
    tree.TypeDeclaration, tree.AttributeDeclaration, tree.Parameter, tree.Common, tree.Equivalence, tree.Implicit,
    tree.Use, tree.Import, tree.CrayPointers, tree.Include, tree.Namelist, tree.Enumerator, tree.ProcedureDeclaration,
    tree.Head, tree.DerivedType, tree.Interface, tree.ModuleProcedure, tree.Word,
)
