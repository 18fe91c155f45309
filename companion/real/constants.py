"""Values of constant INTEGER expressions, and kinds.

A value is given only where it is certain: where every part is INTEGER and known, and no step on the way leaves the
range of its kind. For anything else there is none. That is never wrong: a constant without a value is a scalar that
nobody writes.

Kinds are those of gfortran and of most other compilers: the bytes of an INTEGER, a LOGICAL or a REAL, and of each
part of a COMPLEX. A default INTEGER has 4 bytes.
"""

from __future__ import annotations

from dataclasses import dataclass
from typing import Callable, Dict, Iterator, List, Mapping, Optional, Protocol, Sequence, Tuple

from . import tree

#: The kind of each type where none is written.
DEFAULT_KINDS: Mapping[str, int] = {"INTEGER": 4, "REAL": 4, "COMPLEX": 4, "LOGICAL": 4, "CHARACTER": 1}

#: The constants of intrinsic modules that have the same value with every compiler that is meant here. The others, such
#: as OUTPUT_UNIT and C_LONG, have no value that is known.
MODULE_CONSTANTS: Mapping[str, Mapping[str, int]] = {
    "ISO_FORTRAN_ENV": {
        "INT8": 1, "INT16": 2, "INT32": 4, "INT64": 8, "REAL32": 4, "REAL64": 8, "REAL128": 16,
    },
    "ISO_C_BINDING": {
        "C_INT": 4, "C_SHORT": 2, "C_SIGNED_CHAR": 1, "C_LONG_LONG": 8, "C_INT8_T": 1, "C_INT16_T": 2, "C_INT32_T": 4,
        "C_INT64_T": 8, "C_FLOAT": 4, "C_DOUBLE": 8, "C_FLOAT_COMPLEX": 4, "C_DOUBLE_COMPLEX": 8, "C_BOOL": 1,
        "C_CHAR": 1,
    },
}

#: All names of ISO_FORTRAN_ENV in Fortran 2018. Those of ISO_C_BINDING begin with `C_`.
_ENVIRONMENT = frozenset("""
    ATOMIC_INT_KIND ATOMIC_LOGICAL_KIND CHARACTER_KINDS CHARACTER_STORAGE_SIZE COMPILER_OPTIONS COMPILER_VERSION
    CURRENT_TEAM ERROR_UNIT EVENT_TYPE FILE_STORAGE_SIZE INITIAL_TEAM INPUT_UNIT INT8 INT16 INT32 INT64 INTEGER_KINDS
    IOSTAT_END IOSTAT_EOR IOSTAT_INQUIRE_INTERNAL_UNIT LOCK_TYPE LOGICAL_KINDS NUMERIC_STORAGE_SIZE OUTPUT_UNIT
    PARENT_TEAM REAL32 REAL64 REAL128 REAL_KINDS STAT_FAILED_IMAGE STAT_LOCKED STAT_LOCKED_OTHER_IMAGE
    STAT_STOPPED_IMAGE STAT_UNLOCKED STAT_UNLOCKED_FAILED_IMAGE TEAM_TYPE
""".split())


def module_has(module: str, name: str) -> Optional[bool]:
    """Whether an intrinsic module has a name; none where it isn't one of the modules known here."""
    if module == "ISO_FORTRAN_ENV":
        return name in _ENVIRONMENT
    if module == "ISO_C_BINDING":
        return name.startswith("C_")
    if module in ("IEEE_ARITHMETIC", "IEEE_EXCEPTIONS", "IEEE_FEATURES"):
        return name.startswith("IEEE_")
    return None


class Names(Protocol):
    """What names stand for in a scope, as far as values and kinds depend on it."""

    def value(self, name: str) -> Optional[Integer]:
        """The value of a named constant; none where it isn't an INTEGER one, or its value isn't known."""

    def type_and_kind(self, name: str) -> Tuple[str, Optional[int]]:
        """The type of a name, empty where it isn't known, and its kind, none where it isn't known."""

    def type_and_kind_of_component(self, designator: tree.Component) -> Tuple[str, Optional[int]]:
        """The type of `A(I)%X`, empty where it isn't known, and its kind, none where it isn't known."""

    def is_intrinsic(self, name: str) -> bool:
        """Whether a name before parentheses may be an intrinsic function: whether nothing declares it otherwise."""


@dataclass(frozen=True)
class Integer:
    """An INTEGER value and its kind."""

    value: int
    kind: int

    @property
    def is_in_range(self) -> bool:
        """Whether the value is one that the kind has."""
        return abs(self.value) < 2**(8 * self.kind - 1)


def integer(expression: tree.Expression, names: Names) -> Optional[Integer]:
    """The value of a constant INTEGER expression with its kind; none where it isn't certain."""
    found = _integer(expression, names)
    return found if found is not None and found.is_in_range else None


def value(expression: tree.Expression, names: Names) -> Optional[int]:
    """The value of a constant INTEGER expression; none where it isn't certain."""
    found = integer(expression, names)
    return None if found is None else found.value


def _integer(expression: tree.Expression, names: Names) -> Optional[Integer]:
    if isinstance(expression, tree.Literal):
        kind = literal_kind(expression, names)
        return None if expression.value is None or kind is None else Integer(expression.value, kind)
    if isinstance(expression, tree.Name):
        return names.value(expression.name)
    if isinstance(expression, tree.Parentheses):
        return integer(expression.inner, names)
    if isinstance(expression, tree.Operation):
        return _operation(expression, names)
    if isinstance(expression, tree.Reference) and isinstance(expression.base, tree.Name):
        if names.is_intrinsic(expression.base.name):
            return _intrinsic(expression.base.name, expression.arguments, names)
    return None


def _operation(expression: tree.Operation, names: Names) -> Optional[Integer]:
    operands = _integers(expression.operands, names)
    if operands is None:
        return None
    kind = max(operand.kind for operand in operands)
    values = [operand.value for operand in operands]
    if len(values) == 1:
        signs = {"-": -values[0], "+": values[0]}
        return Integer(signs[expression.operator], kind) if expression.operator in signs else None
    compute = _OPERATORS.get(expression.operator)
    computed = None if compute is None else compute(values[0], values[1])
    return None if computed is None else Integer(computed, kind)


def _integers(expressions: Sequence[tree.Expression], names: Names) -> Optional[List[Integer]]:
    """The values of some expressions; none where one of them has none."""
    found = []
    for expression in expressions:
        one = integer(expression, names)
        if one is None:
            return None
        found.append(one)
    return found


def _quotient(left: int, right: int) -> Optional[int]:
    """Division as in Fortran: the quotient without its fraction."""
    if right == 0:
        return None
    quotient = abs(left) // abs(right)
    return quotient if (left < 0) == (right < 0) else -quotient


def _power(base: int, exponent: int) -> Optional[int]:
    if base in (-1, 1):
        return base if exponent % 2 else 1
    if exponent < 0:
        return None if base == 0 else 0
    return base**exponent if exponent < 200 else None


def _remainder(left: int, right: int) -> Optional[int]:
    """MOD: it has the sign of its first argument."""
    quotient = _quotient(left, right)
    return None if quotient is None else left - quotient * right


_OPERATORS: Mapping[str, Callable[[int, int], Optional[int]]] = {
    "+": lambda left, right: left + right,
    "-": lambda left, right: left - right,
    "*": lambda left, right: left * right,
    "/": _quotient,
    "**": _power,
}


# --- Intrinsic functions -------------------------------------------------------------------------------------------


def _intrinsic(name: str, arguments: Sequence[tree.Expression], names: Names) -> Optional[Integer]:
    """The value of an intrinsic function; none for those that aren't known here."""
    if name in ("KIND", "SELECTED_INT_KIND", "SELECTED_REAL_KIND", "HUGE", "BIT_SIZE"):
        return _inquiry(name, arguments, names)
    operands = _integers(arguments, names)
    if not operands:
        return None
    kind = max(operand.kind for operand in operands)
    values = [operand.value for operand in operands]
    if name in ("MAX", "MAX0", "MIN", "MIN0") and len(values) >= 2:
        return Integer(max(values) if name.startswith("MAX") else min(values), kind)
    if name in ("ABS", "IABS", "INT") and len(values) == 1:
        return Integer(values[0] if name == "INT" else abs(values[0]), 4 if name == "INT" else kind)
    if name == "MOD" and len(values) == 2:
        remainder = _remainder(values[0], values[1])
        return None if remainder is None else Integer(remainder, kind)
    return None


def _inquiry(name: str, arguments: Sequence[tree.Expression], names: Names) -> Optional[Integer]:
    """The value of a function that asks for a kind or a range: a default INTEGER, but for HUGE and BIT_SIZE."""
    if name == "SELECTED_REAL_KIND":
        kind = _selected_real_kind(arguments, names)
        return None if kind is None else Integer(kind, 4)
    if len(arguments) != 1:
        return None
    argument = arguments[0].value if isinstance(arguments[0], tree.Keyword) else arguments[0]
    if name == "SELECTED_INT_KIND":
        digits = value(argument, names)
        return None if digits is None else Integer(selected_int_kind(digits), 4)
    type_, kind = type_and_kind(argument, names)
    if kind is None or name != "KIND" and type_ != "INTEGER":
        return None
    if name == "KIND":
        return Integer(kind, 4)
    return Integer(8 * kind if name == "BIT_SIZE" else 2**(8 * kind - 1) - 1, kind)


def selected_int_kind(digits: int) -> int:
    """The smallest kind of INTEGER with all numbers of so many digits; -1 where there is none."""
    return next((kind for most, kind in ((2, 1), (4, 2), (9, 4), (18, 8), (38, 16)) if digits <= most), -1)


def _selected_real_kind(arguments: Sequence[tree.Expression], names: Names) -> Optional[int]:
    """The kind of REAL with a precision and a range; none above 8, where compilers differ, and with a radix."""
    asked: Dict[str, int] = {}
    for position, argument in zip(("P", "R", "RADIX"), arguments):
        keyword = argument.keyword if isinstance(argument, tree.Keyword) else position
        number = value(argument.value if isinstance(argument, tree.Keyword) else argument, names)
        if number is None or keyword not in ("P", "R"):
            return None
        asked[keyword] = number
    precision, range_ = asked.get("P", 0), asked.get("R", 0)
    if not asked:
        return None
    if precision <= 6 and range_ <= 37:
        return 4
    return 8 if precision <= 15 and range_ <= 307 else None


# --- Kinds ---------------------------------------------------------------------------------------------------------


def literal_kind(literal: tree.Literal, names: Names) -> Optional[int]:
    """The kind of a literal; none where it isn't known."""
    if literal.kind is None:
        if literal.type == "REAL" and "D" in literal.text:
            return 8
        return DEFAULT_KINDS.get(literal.type)
    if literal.kind.isdigit():
        return int(literal.kind)
    named = names.value(literal.kind)
    return None if named is None else named.value


def spec_kind(spec: tree.TypeSpec, names: Names) -> Optional[int]:
    """The kind that a type has as it's written; none where it isn't known, and for derived types.

    The length of a name in `INTEGER N*8` isn't looked at here.
    """
    if spec.name in ("DOUBLE PRECISION", "DOUBLE COMPLEX"):
        return 8
    if spec.bytes is not None and spec.name != "CHARACTER":
        return spec.bytes // 2 if spec.name == "COMPLEX" else spec.bytes
    if spec.kind is not None:
        return value(spec.kind, names)
    return DEFAULT_KINDS.get(spec.name)


def type_and_kind(expression: tree.Expression, names: Names) -> Tuple[str, Optional[int]]:
    """The type and the kind of a literal or a variable, also of an element; of other forms neither is known."""
    if isinstance(expression, tree.Literal):
        return expression.type, literal_kind(expression, names)
    if isinstance(expression, tree.Parentheses):
        return type_and_kind(expression.inner, names)
    if isinstance(expression, tree.Name):
        return names.type_and_kind(expression.name)
    if isinstance(expression, tree.Component):
        return names.type_and_kind_of_component(expression)
    if isinstance(expression, tree.Operation) and len(expression.operands) == 1 and expression.operator in ("+", "-"):
        return type_and_kind(expression.operands[0], names)
    return "", None


def wide_part(expression: tree.Expression, names: Names) -> Optional[tree.Expression]:
    """The first part of an expression that may be an INTEGER of more than 4 bytes; none where there is none.

    It is meant for subscripts, bounds and increments. A part is a literal, a name, a reference or a component. One
    whose type is known and isn't INTEGER doesn't count. One whose kind isn't known does, and so does what converts to
    a kind: `INT(X,8)`, `INT8(X)`, `SIZE(A,KIND=8)`.
    """
    return next((part for part in _all_parts(expression) if _may_be_wide(part, names)), None)


def _all_parts(expression: tree.Expression) -> Iterator[tree.Expression]:
    yield expression
    for part in expression.parts():
        yield from _all_parts(part)


#: Intrinsic functions whose INTEGER result may have more than 4 bytes without wide arguments: by their name, or by an
#: argument KIND or the argument at this position, counted from 0.
_WIDE = frozenset(["INT8", "KIDINT", "KNINT", "LOC", "C_SIZEOF", "SIZEOF", "TIME8"])
_KIND_POSITION: Mapping[str, int] = {
    "INT": 1, "NINT": 1, "FLOOR": 1, "CEILING": 1, "SIZE": 2, "LBOUND": 2, "UBOUND": 2, "LEN": 1, "LEN_TRIM": 1,
    "ICHAR": 1, "IACHAR": 1, "INDEX": 3, "SCAN": 3, "VERIFY": 3, "COUNT": 2, "MAXLOC": 3, "MINLOC": 3, "SHAPE": 1,
    "TRANSFER": 1, "STORAGE_SIZE": 1, "FINDLOC": 4, "LCOBOUND": 2, "UCOBOUND": 2,
}


def _may_be_wide(part: tree.Expression, names: Names) -> bool:
    if isinstance(part, tree.Literal):
        kind = literal_kind(part, names)
        return part.type in ("INTEGER", "BOZ") and (kind is None or kind > 4)
    if isinstance(part, tree.Reference):
        return isinstance(part.base, tree.Name) and _reference_may_be_wide(part.base.name, part.arguments, names)
    if isinstance(part, (tree.Name, tree.Component)):
        return _is_wide(*type_and_kind(part, names))
    return False


def _is_wide(type_: str, kind: Optional[int]) -> bool:
    return type_ in ("INTEGER", "") and (kind is None or kind > 4)


def _reference_may_be_wide(name: str, arguments: Sequence[tree.Expression], names: Names) -> bool:
    if not names.is_intrinsic(name):
        return _is_wide(*names.type_and_kind(name))
    keywords = [argument for argument in arguments if isinstance(argument, tree.Keyword)]
    kinds = [argument.value for argument in keywords if argument.keyword == "KIND"]
    position = _KIND_POSITION.get(name)
    if position is not None and len(arguments) > position and not kinds:
        kinds = [arguments[position]]
    numbers = [value(kind, names) for kind in kinds]
    return name in _WIDE or any(number is None or number > 4 for number in numbers)
