"""Expressions, types and declared names: the parts of statements, as trees.

`tree` has all of these names, too, and says what trees are.
"""

from __future__ import annotations

from dataclasses import dataclass
from typing import FrozenSet, Iterator, Optional, Tuple, Union


# --- Expressions ---------------------------------------------------------------------------------------------------


@dataclass(frozen=True)
class Expression:
    """A part of an expression. `str` prints it in capitals without blanks, with the parentheses that are written."""

    def parts(self) -> Tuple[Expression, ...]:
        """The expressions that this one is made of, from left to right."""
        return ()


@dataclass(frozen=True)
class Literal(Expression):
    """A literal constant, without its sign, which is an `Operation`.

    `type` is `INTEGER`, `REAL`, `LOGICAL`, `CHARACTER` or `BOZ` (`Z'FF'`); `text` is what is written, without the kind;
    it's in capitals, except for CHARACTER, where the quotes belong to it. `1.5D0` is REAL. `kind` is the text of the
    kind (`8`, `INT64`), none where there is none.
    """

    type: str
    text: str
    kind: Optional[str] = None

    @property
    def value(self) -> Optional[int]:
        """The value of an INTEGER, none for all others."""
        return int(self.text) if self.type == "INTEGER" else None

    def __str__(self) -> str:
        if self.kind is None:
            return self.text
        return f"{self.kind}_{self.text}" if self.type == "CHARACTER" else f"{self.text}_{self.kind}"


@dataclass(frozen=True)
class ComplexLiteral(Expression):
    """`(1.0,2.0)`. Each part is a `Literal`, a signed one or a `Name`."""

    real: Expression
    imaginary: Expression

    def parts(self) -> Tuple[Expression, ...]:
        return (self.real, self.imaginary)

    def __str__(self) -> str:
        return f"({self.real},{self.imaginary})"


@dataclass(frozen=True)
class Name(Expression):
    """A name without parentheses: a scalar, a whole array, a constant, a procedure, a function without arguments."""

    name: str

    @property
    def root(self) -> str:
        """The name itself, as for all designators."""
        return self.name

    def __str__(self) -> str:
        return self.name


@dataclass(frozen=True)
class Component(Expression):
    """`base%component`. For `A(I)%X(J)%Y`: Component(Reference(Component(Reference(A, I), X), J), Y)."""

    base: Expression
    component: str

    @property
    def root(self) -> str:
        """The first name: `A` of `A(I)%X`; empty where the base is no designator."""
        return root_of(self.base)

    def parts(self) -> Tuple[Expression, ...]:
        return (self.base,)

    def __str__(self) -> str:
        return f"{self.base}%{self.component}"


@dataclass(frozen=True)
class Reference(Expression):
    """`base(arguments)`: an element, a section, a function, a substring, a structure.

    `base` is a `Name` or a `Component`; for a second pair of parentheses (`A(I)(1:2)`, a substring of an element) it is
    a `Reference`; for a substring of a constant it is a `Literal`. `arguments` are expressions, among them `Section`
    and `Keyword`. They are empty for `F()`.
    """

    base: Expression
    arguments: Tuple[Expression, ...]

    @property
    def root(self) -> str:
        """The first name: `A` of `A(I)(1:2)`; empty for a substring of a constant."""
        return root_of(self.base)

    def parts(self) -> Tuple[Expression, ...]:
        base = () if isinstance(self.base, Name) else (self.base,)
        return (*base, *self.arguments)

    def __str__(self) -> str:
        return f"{self.base}({','.join(map(str, self.arguments))})"


@dataclass(frozen=True)
class Section(Expression):
    """`first:last:step` among the arguments of a `Reference`, or in CASE; what isn't written is none."""

    first: Optional[Expression]
    last: Optional[Expression]
    step: Optional[Expression] = None

    def parts(self) -> Tuple[Expression, ...]:
        return written(self.first, self.last, self.step)

    def __str__(self) -> str:
        step = "" if self.step is None else f":{self.step}"
        return f"{_text(self.first)}:{_text(self.last)}{step}"


@dataclass(frozen=True)
class Keyword(Expression):
    """`keyword=value` among arguments, or among the controls of ALLOCATE and I/O."""

    keyword: str
    value: Expression

    def parts(self) -> Tuple[Expression, ...]:
        return (self.value,)

    def __str__(self) -> str:
        return f"{self.keyword}={self.value}"


@dataclass(frozen=True)
class Star(Expression):
    """`*` where an expression might be: a unit or a format of I/O, the length of a CHARACTER."""

    def __str__(self) -> str:
        return "*"


@dataclass(frozen=True)
class AlternateReturn(Expression):
    """`*label` among the arguments of a CALL: a place to which the call may return."""

    label: int

    def __str__(self) -> str:
        return f"*{self.label}"


@dataclass(frozen=True)
class Operation(Expression):
    """An operator between two operands, or before one.

    `operator` is one of `+ - * / ** //`, `.LT. .LE. .EQ. .NE. .GT. .GE.` (for `<`, `<=`, .., too), `.NOT. .AND. .OR.
    .EQV. .NEQV.`, or `.NAME.`, which is the user's own. Any of them may be the user's for operands of a derived type.
    """

    operator: str
    operands: Tuple[Expression, ...]

    @property
    def is_defined(self) -> bool:
        """Whether the operator has a name of the user's."""
        return self.operator not in OPERATORS

    def parts(self) -> Tuple[Expression, ...]:
        return self.operands

    def __str__(self) -> str:
        if len(self.operands) == 1:
            return f"{self.operator}{self.operands[0]}"
        return f"{self.operands[0]}{self.operator}{self.operands[1]}"


@dataclass(frozen=True)
class Parentheses(Expression):
    """`(inner)`: a value, never a variable."""

    inner: Expression

    def parts(self) -> Tuple[Expression, ...]:
        return (self.inner,)

    def __str__(self) -> str:
        return f"({self.inner})"


@dataclass(frozen=True)
class ArrayConstructor(Expression):
    """`[items]` or `(/ items /)`. `type` is what is written before `::`, none where there is nothing."""

    type: Optional[TypeSpec]
    items: Tuple[Expression, ...]

    def parts(self) -> Tuple[Expression, ...]:
        return self.items

    def __str__(self) -> str:
        type_ = "" if self.type is None else f"{self.type}::"
        return f"[{type_}{','.join(map(str, self.items))}]"


@dataclass(frozen=True)
class ImpliedDo(Expression):
    """`(items, variable = first, last, step)` in an array constructor, or among the items of I/O."""

    items: Tuple[Expression, ...]
    variable: str
    first: Expression
    last: Expression
    step: Optional[Expression] = None

    def parts(self) -> Tuple[Expression, ...]:
        return (*self.items, *written(self.first, self.last, self.step))

    def __str__(self) -> str:
        bounds = ",".join(map(str, written(self.first, self.last, self.step)))
        return f"({','.join(map(str, self.items))},{self.variable}={bounds})"


@dataclass(frozen=True)
class Range(Expression):
    """`variable = first:last:step` in the header of FORALL and DO CONCURRENT."""

    variable: str
    first: Expression
    last: Expression
    step: Optional[Expression] = None

    def parts(self) -> Tuple[Expression, ...]:
        return written(self.first, self.last, self.step)

    def __str__(self) -> str:
        return f"{self.variable}={':'.join(map(str, self.parts()))}"


#: The operators of the language.
OPERATORS: FrozenSet[str] = frozenset([
    "+", "-", "*", "/", "**", "//", ".LT.", ".LE.", ".EQ.", ".NE.", ".GT.", ".GE.", ".NOT.", ".AND.", ".OR.", ".EQV.",
    ".NEQV.",
])

#: What names a place or a value by a first name: the forms that have a `root`.
Designator = Union[Name, Component, Reference]


def root_of(expression: Expression) -> str:
    """The first name of a designator; empty for any other expression."""
    return expression.root if isinstance(expression, (Name, Component, Reference)) else ""


def names_in(expression: Expression) -> Iterator[str]:
    """The first names of all designators in an expression, from left to right; also of variables of implied DOs.

    Components and keywords of arguments aren't among them, kinds of literals neither.
    """
    if isinstance(expression, Name):
        yield expression.name
    elif isinstance(expression, Reference) and isinstance(expression.base, Name):
        yield expression.base.name
    elif isinstance(expression, ImpliedDo):
        yield expression.variable
    for part in expression.parts():
        yield from names_in(part)


def written(*expressions: Optional[Expression]) -> Tuple[Expression, ...]:
    """Those of some expressions that are there."""
    return tuple(expression for expression in expressions if expression is not None)


def _text(expression: Optional[Expression]) -> str:
    return "" if expression is None else str(expression)


# --- Types and declared names --------------------------------------------------------------------------------------


@dataclass(frozen=True)
class TypeSpec:
    """A type as it is written.

    `name` is `INTEGER`, `REAL`, `DOUBLE PRECISION`, `COMPLEX`, `DOUBLE COMPLEX`, `LOGICAL`, `CHARACTER`, `BYTE`,
    `TYPE` or `CLASS`. `kind` is the expression of the kind; `bytes` the number in `REAL*8` (`COMPLEX*16` has 16), which
    isn't a kind. `length` is that of a CHARACTER, a `Star` for `*`, and `Section(None, None)` for `:`. `derived` is the
    name of a derived type, `*` for CLASS(*).
    """

    name: str
    kind: Optional[Expression] = None
    bytes: Optional[int] = None
    length: Optional[Expression] = None
    derived: Optional[str] = None

    def __str__(self) -> str:
        if self.derived is not None:
            return f"{self.name}({self.derived})"
        if self.bytes is not None:
            return f"{self.name}*{self.bytes}"
        length = None if self.length is None else f"LEN={self.length}"
        kind = None if self.kind is None else f"KIND={self.kind}"
        inside = ",".join(part for part in (length, kind) if part is not None)
        return f"{self.name}({inside})" if inside else self.name


@dataclass(frozen=True)
class Bound:
    """The bounds of one dimension.

    `lower` is none where it isn't written, which is 1. `upper` is none for `:` and `lower:` (assumed shape, deferred
    shape), a `Star` for `*` and `lower:*` (assumed size), a `Name("..")` for `..` (assumed rank).
    """

    lower: Optional[Expression]
    upper: Optional[Expression]


@dataclass(frozen=True)
class Entity:
    """A name in a declaration, with what is written after it.

    `bounds` are empty for a name without any. Those of an attribute DIMENSION(..) before `::` are put in here, where
    the name has none of its own. `length` is that of `NAME*8`. `initial` is the expression after `=` or `=>`; the
    old form `/../` has a `Star`. `coarray` says that there are brackets, or an attribute CODIMENSION.
    """

    name: str
    bounds: Tuple[Bound, ...] = ()
    length: Optional[Expression] = None
    initial: Optional[Expression] = None
    coarray: bool = False
