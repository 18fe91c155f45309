"""What statements say: the trees of expressions and statements, and all that the rest of the package sees of them.

Names, keywords and operators are in capitals and without blanks. A tree has no places: `items.Item` says on which
lines a statement is. Two trees are equal where they say the same. `str` of an expression is its text in capitals
without blanks, so it finds the expression in a line, and serves as a key.

A form `NAME(..)` is always a `Reference`. Whether NAME is an array, a function, a statement function, an intrinsic, a
derived type or a CHARACTER variable with a substring is for the symbols of its unit to say. In the same way a statement
function is an `Assignment` here.

A statement that isn't understood is `Unreadable`. No class is a guess.
"""

from __future__ import annotations

from dataclasses import dataclass
from typing import FrozenSet, Optional, Tuple, Union

from .terms import (
    AlternateReturn, ArrayConstructor, Bound, ComplexLiteral, Component, Designator, Entity, Expression, ImpliedDo,
    Keyword, Literal, Name, OPERATORS, Operation, Parentheses, Range, Reference, Section, Star, TypeSpec, names_in,
    root_of, written,
)

#: The names of `terms` are those of this module, too.
__all__ = [
    "Allocation", "AlternateReturn", "ArithmeticIf", "ArrayConstructor", "AssignLabel", "AssignedGoTo", "Assignment",
    "AttributeDeclaration", "Bound", "Call", "Case", "Common", "ComplexLiteral", "Component", "ComputedGoTo",
    "Concurrent", "Construct", "Continue", "Counted", "CrayPointers", "Cycle", "Data", "DerivedType", "Designator",
    "Do", "Else", "ElseIf", "ElseWhere", "End", "Entity", "Entry", "Enumerator", "Equivalence", "Exit", "Expression",
    "Forall", "Format", "GoTo", "Head", "IfThen", "Implicit", "ImpliedDo", "Import", "Include", "InputOutput",
    "Interface", "Keyword", "Literal", "LogicalIf", "ModuleProcedure", "Name", "Namelist", "OPERATORS", "Operation",
    "Parameter", "Parentheses", "PointerAssignment", "ProcedureDeclaration", "Range", "Reference", "Return",
    "Section", "SelectCase", "SelectType", "Star", "Statement", "Stop", "TypeDeclaration", "TypeGuard", "TypeSpec",
    "Unreadable", "Use", "Where", "While", "Word", "names_in", "root_of", "written",
]

# --- Statements ----------------------------------------------------------------------------------------------------


@dataclass(frozen=True)
class Statement:
    """What a statement says."""

    def expressions(self) -> Tuple[Expression, ...]:
        """The expressions of an executable statement, from left to right, those of the action of a logical IF too.

        It's empty for declarations. Labels and names of constructs are no expressions.
        """
        return ()


@dataclass(frozen=True)
class Unreadable(Statement):
    """A statement that couldn't be read; `text` is what is written, `words` why it couldn't.

    `reason` is the class of the refusal: `coarray` where an object of another image is in it (`A[2]`), else `parse`.
    """

    text: str
    words: str
    reason: str = "parse"


@dataclass(frozen=True)
class Assignment(Statement):
    """`target = value`; before the first executable statement it may be a statement function."""

    target: Expression
    value: Expression

    def expressions(self) -> Tuple[Expression, ...]:
        return (self.target, self.value)


@dataclass(frozen=True)
class PointerAssignment(Statement):
    """`target => value`."""

    target: Expression
    value: Expression

    def expressions(self) -> Tuple[Expression, ...]:
        return (self.target, self.value)


@dataclass(frozen=True)
class LogicalIf(Statement):
    """`IF (condition) action`."""

    condition: Expression
    action: Statement

    def expressions(self) -> Tuple[Expression, ...]:
        return (self.condition, *self.action.expressions())


@dataclass(frozen=True)
class ArithmeticIf(Statement):
    """`IF (value) 10, 20, 30`: the labels for a negative value, 0, a positive one."""

    value: Expression
    labels: Tuple[int, ...]

    def expressions(self) -> Tuple[Expression, ...]:
        return (self.value,)


@dataclass(frozen=True)
class IfThen(Statement):
    """`IF (condition) THEN`."""

    condition: Expression

    def expressions(self) -> Tuple[Expression, ...]:
        return (self.condition,)


@dataclass(frozen=True)
class ElseIf(Statement):
    """`ELSE IF (condition) THEN`."""

    condition: Expression

    def expressions(self) -> Tuple[Expression, ...]:
        return (self.condition,)


@dataclass(frozen=True)
class Else(Statement):
    """`ELSE` of an IF."""


@dataclass(frozen=True)
class Counted:
    """The control `variable = first, last, step`; the variable is a `Name` in all but wrong programs."""

    variable: Expression
    first: Expression
    last: Expression
    step: Optional[Expression] = None


@dataclass(frozen=True)
class While:
    """The control `WHILE (condition)`."""

    condition: Expression


@dataclass(frozen=True)
class Concurrent:
    """The control `CONCURRENT (ranges, mask)`; `has_type` says that a type is written before the ranges."""

    ranges: Tuple[Range, ...]
    mask: Optional[Expression]
    has_type: bool = False


@dataclass(frozen=True)
class Do(Statement):
    """DO. `label` is that of `DO 10 ..`; `control` is none for a DO that only a jump leaves."""

    label: Optional[int]
    control: Union[Counted, While, Concurrent, None]

    def expressions(self) -> Tuple[Expression, ...]:
        control = self.control
        if isinstance(control, Counted):
            return written(control.variable, control.first, control.last, control.step)
        if isinstance(control, While):
            return (control.condition,)
        return () if control is None else (*control.ranges, *written(control.mask))


@dataclass(frozen=True)
class SelectCase(Statement):
    """`SELECT CASE (selector)`."""

    selector: Expression

    def expressions(self) -> Tuple[Expression, ...]:
        return (self.selector,)


@dataclass(frozen=True)
class Case(Statement):
    """`CASE (values)`: expressions and `Section`s; none for CASE DEFAULT."""

    values: Optional[Tuple[Expression, ...]]

    def expressions(self) -> Tuple[Expression, ...]:
        return self.values or ()


@dataclass(frozen=True)
class SelectType(Statement):
    """`SELECT TYPE (alias => selector)`, and SELECT RANK, where `rank` is true; an `alias` may be missing: empty."""

    alias: str
    selector: Expression
    rank: bool = False

    def expressions(self) -> Tuple[Expression, ...]:
        return (self.selector,)


@dataclass(frozen=True)
class TypeGuard(Statement):
    """`TYPE IS`, `CLASS IS`, `CLASS DEFAULT` or `RANK ..` in a SELECT TYPE or SELECT RANK: its text."""

    text: str


@dataclass(frozen=True)
class Where(Statement):
    """`WHERE (mask)`: with an assignment the whole statement, without one the first line of a block."""

    mask: Expression
    assignment: Optional[Statement] = None

    def expressions(self) -> Tuple[Expression, ...]:
        return (self.mask, *(() if self.assignment is None else self.assignment.expressions()))


@dataclass(frozen=True)
class ElseWhere(Statement):
    """`ELSEWHERE (mask)`, or `ELSEWHERE`, where `mask` is none."""

    mask: Optional[Expression]

    def expressions(self) -> Tuple[Expression, ...]:
        return written(self.mask)


@dataclass(frozen=True)
class Forall(Statement):
    """`FORALL (ranges, mask)`: with an assignment the whole statement, without one the first line of a block."""

    ranges: Tuple[Range, ...]
    mask: Optional[Expression]
    assignment: Optional[Statement] = None

    def expressions(self) -> Tuple[Expression, ...]:
        inner = () if self.assignment is None else self.assignment.expressions()
        return (*self.ranges, *written(self.mask), *inner)


@dataclass(frozen=True)
class Construct(Statement):
    """The first line of ASSOCIATE, BLOCK or CRITICAL.

    `associations` are the names of ASSOCIATE and what they stand for.
    """

    word: str
    associations: Tuple[Tuple[str, Expression], ...] = ()

    def expressions(self) -> Tuple[Expression, ...]:
        return tuple(selector for _, selector in self.associations)


@dataclass(frozen=True)
class End(Statement):
    """An END. `word` is what is written after END, empty where there is nothing.

    Of blocks: `DO`, `IF`, `SELECT`, `WHERE`, `FORALL`, `ASSOCIATE`, `BLOCK`, `CRITICAL`. Of units: `PROGRAM`,
    `SUBROUTINE`, `FUNCTION`, `MODULE`, `SUBMODULE`, `BLOCK DATA`, `PROCEDURE`. Of declarations: `TYPE`, `INTERFACE`,
    `ENUM`. `name` is the name after it, empty where there is none.
    """

    word: str
    name: str = ""


@dataclass(frozen=True)
class Continue(Statement):
    """CONTINUE."""


@dataclass(frozen=True)
class GoTo(Statement):
    """`GO TO 10`."""

    label: int


@dataclass(frozen=True)
class ComputedGoTo(Statement):
    """`GO TO (10, 20), selector`; with another value of the selector nothing is done."""

    labels: Tuple[int, ...]
    selector: Expression

    def expressions(self) -> Tuple[Expression, ...]:
        return (self.selector,)


@dataclass(frozen=True)
class AssignedGoTo(Statement):
    """`GO TO variable, (10, 20)`; `labels` are empty where none are written."""

    variable: str
    labels: Tuple[int, ...] = ()


@dataclass(frozen=True)
class AssignLabel(Statement):
    """`ASSIGN 10 TO variable`."""

    label: int
    variable: str


@dataclass(frozen=True)
class Cycle(Statement):
    """CYCLE, of the construct `name`, of the innermost DO where it's empty."""

    name: str = ""


@dataclass(frozen=True)
class Exit(Statement):
    """EXIT, from the construct `name`, from the innermost DO where it's empty."""

    name: str = ""


@dataclass(frozen=True)
class Call(Statement):
    """CALL: the procedure is a `Name` or, for a component or a type-bound procedure, a `Component`.

    `arguments` are expressions, among them `Keyword` and `AlternateReturn`.
    """

    procedure: Expression
    arguments: Tuple[Expression, ...] = ()

    def expressions(self) -> Tuple[Expression, ...]:
        base = () if isinstance(self.procedure, Name) else (self.procedure,)
        return (*base, *self.arguments)


@dataclass(frozen=True)
class Return(Statement):
    """RETURN; `value` chooses an alternate return, none where it isn't written."""

    value: Optional[Expression] = None

    def expressions(self) -> Tuple[Expression, ...]:
        return written(self.value)


@dataclass(frozen=True)
class Stop(Statement):
    """`STOP`, `ERROR STOP` or `PAUSE`, which `word` says, with its code."""

    word: str
    code: Optional[Expression] = None

    def expressions(self) -> Tuple[Expression, ...]:
        return written(self.code)


@dataclass(frozen=True)
class Allocation(Statement):
    """`ALLOCATE`, `DEALLOCATE` or `NULLIFY`, which `word` says: its objects, and its options as `Keyword`s."""

    word: str
    objects: Tuple[Expression, ...]
    options: Tuple[Keyword, ...] = ()

    def expressions(self) -> Tuple[Expression, ...]:
        return (*self.objects, *self.options)


@dataclass(frozen=True)
class InputOutput(Statement):
    """A statement of input or output; `word` is `READ`, `WRITE`, `PRINT`, `OPEN`, `CLOSE`, `INQUIRE`, `REWIND`, ..

    `controls` are what is in the parentheses, or before the items of PRINT and `READ format`: expressions, `Star`s
    and `Keyword`s. `ERR=10` is a Keyword with a `Literal`; `jumps` are its labels. `items` may hold `ImpliedDo`s.
    """

    word: str
    controls: Tuple[Expression, ...] = ()
    items: Tuple[Expression, ...] = ()

    @property
    def jumps(self) -> Tuple[int, ...]:
        """The labels of ERR=, END= and EOR=."""
        found = []
        for control in self.controls:
            if isinstance(control, Keyword) and control.keyword in ("ERR", "END", "EOR"):
                value = control.value.value if isinstance(control.value, Literal) else None
                found.append(-1 if value is None else value)
        return tuple(found)

    def expressions(self) -> Tuple[Expression, ...]:
        return (*self.controls, *self.items)


@dataclass(frozen=True)
class Format(Statement):
    """FORMAT; what it says matters nowhere."""


# --- Declarations --------------------------------------------------------------------------------------------------


@dataclass(frozen=True)
class TypeDeclaration(Statement):
    """`type, attributes :: entities`, in units and for the components of a derived type.

    `attributes` are words such as `ALLOCATABLE`, `POINTER`, `TARGET`, `SAVE`, `PARAMETER`, `OPTIONAL`, `VALUE`,
    `VOLATILE`, `EXTERNAL`, `INTRINSIC`, `CONTIGUOUS`, `ASYNCHRONOUS`, `PROTECTED`, `PUBLIC`, `PRIVATE`, and
    `INTENT(IN)`, `INTENT(OUT)`, `INTENT(INOUT)`. DIMENSION and CODIMENSION are put into the entities.
    """

    type: TypeSpec
    attributes: FrozenSet[str]
    entities: Tuple[Entity, ...]


@dataclass(frozen=True)
class AttributeDeclaration(Statement):
    """A statement that gives one attribute to names: `DIMENSION A(10)`, `SAVE A`, `INTENT(IN) :: B`, `EXTERNAL F`.

    `attribute` is a word as in `TypeDeclaration`, or `DIMENSION`, `CODIMENSION`, `BIND`. `SAVE`, `PRIVATE` and `PUBLIC`
    without names have no entities and mean all (in a derived type: all components). A common block in SAVE or BIND is
    named `/NAME/`.
    """

    attribute: str
    entities: Tuple[Entity, ...]


@dataclass(frozen=True)
class Parameter(Statement):
    """PARAMETER: names with their values."""

    values: Tuple[Tuple[str, Expression], ...]


@dataclass(frozen=True)
class Common(Statement):
    """COMMON: blocks with their names in order; the name is empty for blank COMMON."""

    blocks: Tuple[Tuple[str, Tuple[Entity, ...]], ...]


@dataclass(frozen=True)
class Equivalence(Statement):
    """EQUIVALENCE: groups of designators that share storage."""

    groups: Tuple[Tuple[Expression, ...], ...]


@dataclass(frozen=True)
class Implicit(Statement):
    """IMPLICIT: types with their letters. `rules` are none for IMPLICIT NONE, empty for IMPLICIT NONE (EXTERNAL)."""

    rules: Optional[Tuple[Tuple[TypeSpec, FrozenSet[str]], ...]]


@dataclass(frozen=True)
class Use(Statement):
    """USE: `names` are pairs of a local name and the name in the module, equal where it isn't renamed.

    With `only` nothing else is visible; without it all other names of the module are, too. OPERATOR(..) and
    ASSIGNMENT(..) are among the names as they are written. `intrinsic` is true for `USE, INTRINSIC`.
    """

    module: str
    only: bool
    names: Tuple[Tuple[str, str], ...]
    intrinsic: bool = False


@dataclass(frozen=True)
class Import(Statement):
    """IMPORT: names of the host; empty for all."""

    names: Tuple[str, ...]


@dataclass(frozen=True)
class CrayPointers(Statement):
    """`POINTER (pointer, pointee), ..`: pairs of the integer's name and the pointee."""

    pairs: Tuple[Tuple[str, Entity], ...]


@dataclass(frozen=True)
class Data(Statement):
    """DATA: all names outside its values, those of constants in subscripts too, but no variables of implied DOs."""

    names: Tuple[str, ...]


@dataclass(frozen=True)
class Include(Statement):
    """An INCLUDE whose file wasn't found; a file that was found takes the place of its line."""

    file: str


@dataclass(frozen=True)
class Namelist(Statement):
    """NAMELIST: groups with their variables."""

    groups: Tuple[Tuple[str, Tuple[str, ...]], ...]


@dataclass(frozen=True)
class Enumerator(Statement):
    """ENUMERATOR: names with their values, none where no value is written."""

    values: Tuple[Tuple[str, Optional[Expression]], ...]


@dataclass(frozen=True)
class ProcedureDeclaration(Statement):
    """`PROCEDURE(interface), attributes :: names`: procedures and procedure pointers, and bindings of derived types.

    In a derived type after CONTAINS: bindings by PROCEDURE, GENERIC and FINAL. All are names of procedures.
    """

    attributes: FrozenSet[str]
    names: Tuple[str, ...]


# --- Heads of units, types and interfaces -------------------------------------------------------------------------


@dataclass(frozen=True)
class Head(Statement):
    """The first statement of a unit.

    `kind` is `PROGRAM`, `SUBROUTINE`, `FUNCTION`, `MODULE`, `SUBMODULE`, `BLOCK DATA` or `PROCEDURE` (MODULE PROCEDURE
    in a submodule). `name` is empty for BLOCK DATA without one. `arguments` are the dummies, `*` among them for an
    alternate return. `prefixes` are `PURE`, `ELEMENTAL`, `RECURSIVE`, `IMPURE`, `MODULE`. `type` is that before
    FUNCTION, `result` the name of RESULT(..), empty where there is none. `parent` is what a submodule extends.
    """

    kind: str
    name: str
    arguments: Tuple[str, ...] = ()
    prefixes: FrozenSet[str] = frozenset()
    type: Optional[TypeSpec] = None
    result: str = ""
    parent: str = ""


@dataclass(frozen=True)
class Entry(Statement):
    """ENTRY, with its dummies and the name of RESULT(..), empty where there is none."""

    name: str
    arguments: Tuple[str, ...] = ()
    result: str = ""


@dataclass(frozen=True)
class DerivedType(Statement):
    """The first line of a derived type.

    `attributes` are `PUBLIC`, `PRIVATE`, `ABSTRACT`, `BIND(C)`, and `PARAMETERS` where it has some; `extends` is the name
    of another type or empty.
    """

    name: str
    attributes: FrozenSet[str] = frozenset()
    extends: str = ""


@dataclass(frozen=True)
class Interface(Statement):
    """The first line of an INTERFACE; `generic` is its name, `OPERATOR(+)` or `ASSIGNMENT(=)`, or empty."""

    generic: str = ""
    abstract: bool = False


@dataclass(frozen=True)
class ModuleProcedure(Statement):
    """`MODULE PROCEDURE names` or `PROCEDURE names` in an INTERFACE."""

    names: Tuple[str, ...]


@dataclass(frozen=True)
class Word(Statement):
    """A statement of one word: `CONTAINS`, `SEQUENCE`, `ENUM`."""

    word: str
