"""Subscripts and bounds as a model has them.

An expression of constants, DO variables and scalars that is a sum stays what it is. One that has the same value in all
of the loop becomes a scalar that nobody writes, one for each text. `MIN`, `MAX` and elements stay. Anything else
becomes the product of two such scalars, of which ped never says that it is one value.
"""

from __future__ import annotations

from dataclasses import dataclass
from typing import Callable, Dict, FrozenSet, List, Mapping, Optional, Sequence, Set, Tuple

from . import constants, intrinsics, tree
from .accesses import Access, Kind, reads_of
from .roles import Roles
from .symbols import Symbols
from .naming import OPAQUE, Naming
from .writer import Origin, Piece, Use
from .units import Fault

#: Parts of an expression of a model, from left to right.
Pieces = Tuple[Piece, ...]

#: The least and the greatest value.
Range = Tuple[int, int]

#: The greatest literal of a model.
_GREATEST = 2**31 - 1
#: Functions whose value for an array is one number, whatever the array's rank.
_ONE_NUMBER = intrinsics.INQUIRIES - {"SHAPE", "LBOUND", "UBOUND"}
#: Functions that compute one value from each element, or from many: their value may be an array, or one number.
_REDUCING = frozenset("""
    ALL ANY COUNT CSHIFT DOT_PRODUCT EOSHIFT FINDLOC IALL IANY IPARITY MATMUL MAXLOC MAXVAL MINLOC MINVAL NORM2 PACK
    PARITY PRODUCT REDUCE RESHAPE SHAPE SPREAD SUM TRANSFER TRANSPOSE UNPACK
""".split())

_NONE: FrozenSet[str] = frozenset()
_NONE_AT: FrozenSet[Tuple[str, int, str]] = frozenset()


class Refused(Exception):
    """Why a loop gets no model."""

    def __init__(self, reason: str, line: int, words: str) -> None:
        super().__init__(words)
        self.fault = Fault(reason, line, words)


@dataclass(frozen=True)
class Site:
    """A place in the user's text: a unit, a line, its INCLUDEd file, and the variables of FORALL around it."""

    unit: str
    line: int
    file: str = ""
    bound: FrozenSet[str] = _NONE

    def origin(self, designator: tree.Expression, writes: bool) -> Origin:
        """The origin of a reference at this place."""
        return Origin(self.unit, self.line, str(designator), tree.root_of(designator), writes, self.file)


class Indices:
    """The subscripts and bounds of one loop.

    `changes` tells of a read whether the loop assigns its variable, also its DO variables. `counters` are the DO
    variables that count here and now, with what they are in the model; the model's body keeps it right.
    """

    def __init__(
        self, roles: Roles, symbols: Symbols, naming: Naming, changes: Callable[[Access], bool], grants: FrozenSet[str]
    ) -> None:
        self._roles = roles
        self._symbols = symbols
        self._names = naming
        self._changes = changes
        self._grants = grants
        self.counters: Dict[str, Pieces] = {}
        #: Induction variables whose step isn't known, with the number of their steps so far.
        self.strides: Dict[str, Pieces] = {}
        #: The positions of arrays in which such a variable stands alone in each reference of the loop.
        self.striding: FrozenSet[Tuple[str, int, str]] = _NONE_AT
        #: The values that a DO variable may have, where its bounds are constants.
        self.ranges: Dict[str, Range] = {}
        self.ranks: Dict[str, int] = {}
        self.assumed: Set[str] = set()

    # --- What is asked -------------------------------------------------------------------------------------------

    def index(self, expression: tree.Expression, site: Site) -> Pieces:
        """A subscript or a bound; the product of scalars that nobody writes where nothing better is certain."""
        found = self.certain(expression, site)
        return self.opaque if found is None else found

    def certain(self, expression: tree.Expression, site: Site) -> Optional[Pieces]:
        """A subscript or a bound that has the user's value, none where that isn't certain."""
        self._check_kind(expression, site)
        return self._plain(expression, site)

    @property
    def opaque(self) -> Pieces:
        """A value of which nothing is known."""
        return (f"{OPAQUE}*{OPAQUE}",)

    def invariant(self, expression: tree.Expression, site: Site) -> bool:
        """Whether an expression is one number that is the same in all of the loop."""
        if not self._is_one_number(expression):
            return False
        effects = reads_of(expression, self._roles, site.bound)
        if effects.troubles or effects.calls or effects.procedures or site.bound.intersection(tree.names_in(expression)):
            return False
        return not any(map(self._changes, effects.accesses))

    def enter(self, variable: str, value: Pieces, first: Optional[int], last: Optional[int]) -> None:
        """A DO begins to count a variable, which is `value` in the model. Its first and last value may be constants."""
        self.counters[variable] = value
        if first is not None and last is not None:
            self.ranges[variable] = (min(first, last), max(first, last))

    def leave(self, variable: str) -> None:
        """A DO ends."""
        del self.counters[variable]
        self.ranges.pop(variable, None)

    def subscripts_of(
        self, name: str, arguments: Optional[Sequence[tree.Expression]], site: Site, sections: Mapping[int, Pieces] = {}
    ) -> Pieces:
        """The subscripts of an array, in parentheses.

        A section leaves its position open where `sections` doesn't have it, and so does the array as a whole.
        """
        bounds = self._symbols.get(name).bounds
        if any(bound.upper == tree.Name("..") for bound in bounds):
            raise Refused("parse", site.line, f"the number of {name}'s dimensions isn't known")
        if arguments is not None and len(bounds) != len(arguments):
            words = f"{name} has {len(bounds)} dimensions, and {len(arguments)} subscripts here"
            raise Refused("parse", site.line, words)
        self.ranks[self._names.name(name)] = len(bounds)
        if arguments is None:
            return ("(", *joined([self.opaque] * len(bounds), ","), ")")
        pieces = [
            sections[position] if position in sections else self._subscript(name, position, one, site)
            for position, one in enumerate(arguments)
        ]
        return ("(", *joined(pieces, ","), ")")

    def _subscript(self, name: str, position: int, argument: tree.Expression, site: Site) -> Pieces:
        self._check_bounds(name, position, argument, site)
        if isinstance(argument, tree.Keyword):
            raise Refused("parse", site.line, f"{argument} can't be a subscript")
        if isinstance(argument, tree.Section):
            return self._section(argument, site)
        root = argument.name if isinstance(argument, tree.Name) else ""
        if root in self.strides and (name, position, root) in self.striding:
            self._check_kind(argument, site)
            return self.strides[root]
        return self.index(argument, site)

    # --- Expressions ---------------------------------------------------------------------------------------------

    def _section(self, section: tree.Section, site: Site) -> Pieces:
        for part in section.parts():
            self._check_kind(part, site)
        return self.opaque

    def _check_kind(self, expression: tree.Expression, site: Site) -> None:
        wide = constants.wide_part(expression, self._symbols)
        if wide is None:
            return
        if "A7" not in self._grants:
            raise Refused("kind", site.line, f"{wide} is, or may be, an INTEGER of more than 4 bytes")
        self.assumed.add("A7")

    def extent(self, name: str, position: int) -> Tuple[Optional[int], Optional[int]]:
        """The bounds of a dimension, none where they aren't known to be constants."""
        return self._symbols.get(name).extents[position]

    def _check_bounds(self, name: str, position: int, argument: tree.Expression, site: Site) -> None:
        """Refuses a subscript that evidently leaves a dimension, so that it may be an element of another column."""
        is_last = position == self._symbols.get(name).rank - 1 and position < self._own_rank(name)
        if is_last or isinstance(argument, tree.Section):
            return
        lower, upper = self.extent(name, position)
        values = self._range(argument, site)
        is_left = values is not None and (
            lower is not None and values[0] < lower or upper is not None and values[1] > upper
        )
        if is_left or values is None and lower is not None and lower == upper:
            words = f"{argument} leaves dimension {position + 1} of {name}, which is {lower}:{upper}"
            raise Refused("bounds", site.line, words)

    def _own_rank(self, name: str) -> int:
        """The number of dimensions of a variable itself, without those of its component: after them come others."""
        return self._symbols.get(name.partition("%")[0]).rank

    def _range(self, expression: tree.Expression, site: Site) -> Optional[Range]:
        """The values that an expression of constants and DO variables may have."""
        value = self._symbols.constant(expression)
        if value is not None:
            return value, value
        if isinstance(expression, tree.Name):
            return None if expression.name in site.bound else self.ranges.get(expression.name)
        if isinstance(expression, tree.Parentheses):
            return self._range(expression.inner, site)
        if not isinstance(expression, tree.Operation) or expression.operator not in ("+", "-", "*"):
            return None
        ranges = [self._range(operand, site) for operand in expression.operands]
        known = [one for one in ranges if one is not None]
        return _computed(expression.operator, known) if len(known) == len(ranges) else None

    def _plain(self, expression: tree.Expression, site: Site) -> Optional[Pieces]:
        affine = self._affine(expression, site)
        if affine is not None:
            return affine
        if self.invariant(expression, site):
            # A component as an array has the name without parentheses.
            is_component = "%" in str(expression) and not isinstance(expression, tree.Operation)
            return (self._names.name(f"({expression})" if is_component else str(expression)),)
        return self._function(expression, site) or self._element(expression, site)

    def _affine(self, expression: tree.Expression, site: Site) -> Optional[Pieces]:
        value = self._symbols.constant(expression)
        if value is not None:
            return _literal(value)
        if isinstance(expression, tree.Parentheses):
            inner = self._plain(expression.inner, site)
            return None if inner is None else ("(", *inner, ")")
        if isinstance(expression, tree.Name):
            return self._name(expression, site)
        if isinstance(expression, tree.Operation):
            return self._operation(expression, site)
        return None

    def _name(self, name: tree.Name, site: Site) -> Optional[Pieces]:
        if name.name in site.bound or name.name in self.strides:
            return None
        if name.name in self.counters:
            return self.counters[name.name]
        symbol = self._symbols.get(name.name)
        if self._roles.kind_of(name.name) is not Kind.SCALAR or symbol.type != "INTEGER":
            return None
        return (Use((self._names.name(name.name),), site.origin(name, False)),)

    def _operation(self, expression: tree.Operation, site: Site) -> Optional[Pieces]:
        operator = expression.operator
        if operator == "/":
            quotient = self._quotient(expression)
            return None if quotient is None else self._plain(quotient, site)
        if operator not in ("+", "-", "*"):
            return None
        if operator == "*" and all(self._symbols.constant(one) is None for one in expression.operands):
            return None
        if not all(map(self._is_integer, expression.operands)):
            return None
        operands = []
        for operand in expression.operands:
            pieces = self._plain(operand, site)
            if pieces is None:
                return None
            operands.append(pieces)
        last = as_operand(operands[-1])
        if len(operands) == 1:
            return ("(", operator, *last, ")")
        first = as_operand(operands[0]) if operator == "*" else operands[0]
        return (*first, operator, *last)

    def _quotient(self, expression: tree.Operation) -> Optional[tree.Expression]:
        """What an INTEGER division computes without a remainder whatever its variables are: I for `2*I/2`."""
        divisor = self._symbols.constant(expression.operands[1])
        if not divisor or not all(map(self._is_integer, expression.operands)):
            return None
        return self._divided(expression.operands[0], divisor)

    def _divided(self, dividend: tree.Expression, divisor: int) -> Optional[tree.Expression]:
        """A multiple of a number, divided by it; none where it isn't a multiple for certain."""
        value = self._symbols.constant(dividend)
        if value is not None:
            return _constant(value // divisor) if value % divisor == 0 else None
        if isinstance(dividend, tree.Parentheses):
            inner = self._divided(dividend.inner, divisor)
            return None if inner is None else tree.Parentheses(inner)
        if not isinstance(dividend, tree.Operation) or dividend.operator not in ("+", "-", "*"):
            return None
        parts = [self._divided(operand, divisor) for operand in dividend.operands]
        known = [part for part in parts if part is not None]
        if dividend.operator != "*":
            return tree.Operation(dividend.operator, tuple(known)) if len(known) == len(parts) else None
        if not known:
            return None
        at = next(index for index, part in enumerate(parts) if part is not None)
        factors = [tree.Parentheses(known[0]) if index == at else one for index, one in enumerate(dividend.operands)]
        return tree.Operation("*", tuple(factors))

    def _function(self, expression: tree.Expression, site: Site) -> Optional[Pieces]:
        """MIN and MAX of such expressions."""
        if not isinstance(expression, tree.Reference) or not isinstance(expression.base, tree.Name):
            return None
        name = {"MIN": "MIN", "MIN0": "MIN", "MAX": "MAX", "MAX0": "MAX"}.get(expression.base.name)
        if name is None or not self._is_pure_intrinsic(expression.base.name):
            return None
        if not all(map(self._is_integer, expression.arguments)):
            return None
        parts = [self._plain(argument, site) for argument in expression.arguments]
        found = [part for part in parts if part is not None]
        return (name, "(", *joined(found, ","), ")") if len(found) == len(parts) >= 2 else None

    def _element(self, expression: tree.Expression, site: Site) -> Optional[Pieces]:
        """An element of an INTEGER array, whose value isn't known, but from where it is read."""
        if not isinstance(expression, tree.Reference) or not isinstance(expression.base, tree.Name):
            return None
        name = expression.base.name
        if self._roles.kind_of(name) is not Kind.ARRAY or self._symbols.get(name).type != "INTEGER":
            return None
        if not self._is_one_number(expression):
            return None
        subscripts = self.subscripts_of(name, expression.arguments, site)
        return (Use((self._names.name(name), *subscripts), site.origin(expression, False)),)

    def _is_integer(self, expression: tree.Expression) -> bool:
        """Whether an expression is INTEGER for certain."""
        if isinstance(expression, tree.Literal):
            return expression.type == "INTEGER"
        if isinstance(expression, tree.Name):
            return self._roles.type_of(expression.name) == "INTEGER"
        if isinstance(expression, (tree.Operation, tree.Parentheses)):
            return all(map(self._is_integer, expression.parts()))
        if not isinstance(expression, tree.Reference) or not isinstance(expression.base, tree.Name):
            return self._roles.component_type(expression) == "INTEGER"
        name = expression.base.name
        if self._roles.kind_of(name) in (Kind.ARRAY, Kind.STATEMENT_FUNCTION, Kind.CONSTANT):
            return self._roles.type_of(name) == "INTEGER"
        if not self._is_pure_intrinsic(name):
            return False
        first = expression.arguments[:1]
        takes_type = name in intrinsics.SAME_TYPE | intrinsics.FIRST_TYPE
        return name in intrinsics.INTEGERS or takes_type and bool(first) and all(map(self._is_integer, first))

    def _is_pure_intrinsic(self, name: str) -> bool:
        """Whether a name before parentheses is that of an intrinsic function that computes a value alone."""
        return name in intrinsics.PURE and self._roles.is_intrinsic(name)

    def _is_one_number(self, expression: tree.Expression) -> bool:
        """Whether the value of an expression is no array, for certain."""
        if isinstance(expression, tree.Literal):
            return True
        if isinstance(expression, tree.Name):
            kind = self._roles.kind_of(expression.name)
            return kind in (Kind.SCALAR, Kind.CONSTANT) and self._symbols.get(expression.name).rank == 0
        if isinstance(expression, (tree.Operation, tree.Parentheses)):
            return all(map(self._is_one_number, expression.parts()))
        if isinstance(expression, tree.Reference) and isinstance(expression.base, tree.Name):
            return self._is_one_number_called(expression.base.name, expression.arguments)
        part = self._roles.part_of(expression)
        return part is not None and not part.is_structure and all(map(self._is_one_number, part.subscripts))

    def _is_one_number_called(self, name: str, arguments: Tuple[tree.Expression, ...]) -> bool:
        kind = self._roles.kind_of(name)
        if kind not in (Kind.ARRAY, Kind.STATEMENT_FUNCTION) and self._is_pure_intrinsic(name):
            if name in _ONE_NUMBER:
                return True
            if name in ("LBOUND", "UBOUND"):
                return len(arguments) >= 2 and not isinstance(arguments[1], tree.Keyword)
            return name not in _REDUCING and all(map(self._is_one_number, arguments))
        if kind is Kind.ARRAY and self._symbols.get(name).rank != len(arguments):
            return False
        return kind in (Kind.ARRAY, Kind.STATEMENT_FUNCTION) and all(map(self._is_one_number, arguments))


def _computed(operator: str, operands: Sequence[Range]) -> Range:
    """The values of a sum, a difference or a product."""
    if len(operands) == 1:
        low, high = operands[0]
        return (-high, -low) if operator == "-" else (low, high)
    compute = {"+": int.__add__, "-": int.__sub__, "*": int.__mul__}[operator]
    values = [compute(left, right) for left in operands[0] for right in operands[1]]
    return min(values), max(values)


def joined(parts: Sequence[Pieces], between: str) -> Pieces:
    """Pieces with a text between each two."""
    found: List[Piece] = []
    for index, part in enumerate(parts):
        found.extend([between] if index else [])
        found.extend(part)
    return tuple(found)


def as_operand(pieces: Pieces) -> Pieces:
    """An operand, in parentheses where it is more than one name, number or reference."""
    is_one = len(pieces) == 1 and (isinstance(pieces[0], Use) or pieces[0].isalnum() or pieces[0][0] == "(")
    return pieces if is_one else ("(", *pieces, ")")


def _literal(value: int) -> Optional[Pieces]:
    if abs(value) > _GREATEST:
        return None
    return (str(value),) if value >= 0 else (f"({value})",)


def _constant(value: int) -> tree.Expression:
    """An INTEGER constant as it would be written."""
    literal = tree.Literal("INTEGER", str(abs(value)))
    return literal if value >= 0 else tree.Parentheses(tree.Operation("-", (literal,)))
