"""Scalars that each iteration of a DO changes in a known way: reductions and induction variables.

A reduction gathers a value over the iterations by one operator, and nothing else in the loop reads it. An induction
variable grows by the same amount in each iteration, at one place that every iteration passes once.
"""

from __future__ import annotations

from dataclasses import dataclass
from typing import Callable, Dict, FrozenSet, Iterable, Iterator, List, Mapping, Optional, Sequence, Set, Tuple

from . import intrinsics, tree
from .accesses import Effects, Kind, Names, reads_of
from .units import Block, Branch, Written

#: The operators of OpenMP's clause REDUCTION for the operators and functions of Fortran that gather.
_GATHERING: Mapping[str, str] = {
    "+": "+", "-": "+", "*": "*", ".AND.": ".AND.", ".OR.": ".OR.", ".EQV.": ".EQV.", ".NEQV.": ".NEQV.",
}
_FUNCTIONS: Mapping[str, str] = {
    "MAX": "MAX", "MAX0": "MAX", "AMAX1": "MAX", "DMAX1": "MAX", "MIN": "MIN", "MIN0": "MIN", "AMIN1": "MIN",
    "DMIN1": "MIN", "IAND": "IAND", "IOR": "IOR", "IEOR": "IEOR",
}

#: For each relation the same one with its operands exchanged.
_EXCHANGED: Mapping[str, str] = {".GT.": ".LT.", ".GE.": ".LE.", ".LT.": ".GT.", ".LE.": ".GE."}

#: The types that a variable may have for each operator of the clause.
_TYPES: Mapping[str, FrozenSet[str]] = {
    "+": frozenset(["INTEGER", "REAL", "COMPLEX"]), "*": frozenset(["INTEGER", "REAL", "COMPLEX"]),
    "MAX": frozenset(["INTEGER", "REAL"]), "MIN": frozenset(["INTEGER", "REAL"]),
    "IAND": frozenset(["INTEGER"]), "IOR": frozenset(["INTEGER"]), "IEOR": frozenset(["INTEGER"]),
    ".AND.": frozenset(["LOGICAL"]), ".OR.": frozenset(["LOGICAL"]),
    ".EQV.": frozenset(["LOGICAL"]), ".NEQV.": frozenset(["LOGICAL"]),
}


@dataclass(frozen=True)
class Reduction:
    """A scalar that gathers values by `operator`, as the clause REDUCTION names it, at the statements `numbers`.

    For an IF around an assignment both are among them. `type` is the scalar's: sums and products of REAL and COMPLEX
    depend on their order in the last digits, and MAX and MIN of REAL where a value is no number.
    """

    name: str
    operator: str
    type: str
    numbers: FrozenSet[int]

    @property
    def is_exact(self) -> bool:
        """Whether the order of the iterations doesn't matter at all."""
        return self.type in ("INTEGER", "LOGICAL")


@dataclass(frozen=True)
class Induction:
    """An INTEGER scalar that grows by `step` in each iteration, or falls by it where `falls` is true.

    `number` is the assignment. K0 is the value at the loop's beginning, and T the number of iterations before this one.
    Then the scalar is K0+step*T at the statements before the assignment, and K0+step*(T+1) at those after it.
    """

    name: str
    step: tree.Expression
    falls: bool
    number: int

    @property
    def is_constant(self) -> bool:
        """Whether the step is a literal that isn't 0."""
        return isinstance(self.step, tree.Literal) and bool(self.step.value)

    def has_grown(self, number: int) -> bool:
        """Whether a statement of the loop comes after the assignment."""
        return number > self.number


class Loop:
    """A DO with the accesses of all its statements, which `effects` gives."""

    def __init__(self, block: Block, names: Names, effects: Callable[[Written], Effects]) -> None:
        self.block = block
        self.names = names
        self.effects: Dict[int, Effects] = {written.number: effects(written) for written in block.statements()}
        self.statements: Dict[int, Written] = {written.number: written for written in block.statements()}
        #: The names that the loop may assign, with its variable and those of inner DOs.
        self.assigned = frozenset(access.name for found in self.effects.values() for access in found.writes)
        #: Whether a statement calls a procedure, and whether one may read and write any name.
        self.calls = any(found.calls for found in self.effects.values())
        self.reads_all = any(found.reads_all for found in self.effects.values())
        #: The names that procedures use which the loop calls, under names of their own.
        self.reached = frozenset(
            access.name for found in self.effects.values() for access in found.accesses if access.shared is not None
        )

    def places(self, name: str) -> FrozenSet[int]:
        """The statements that read or write a name."""
        return frozenset(
            number for number, found in self.effects.items() if any(access.name == name for access in found.accesses)
        )

    def writers(self, name: str) -> FrozenSet[int]:
        """The statements that may write a name."""
        return frozenset(
            number for number, found in self.effects.items() if any(access.name == name for access in found.writes)
        )

    def is_plain_scalar(self, name: str) -> bool:
        """Whether a name is a scalar of the unit that no other name and no procedure in the loop reaches."""
        if self.names.kind_of(name) is not Kind.SCALAR or self.names.may_share_storage(name) or name in self.reached:
            return False
        # An OPTIONAL dummy that isn't present has no storage that a clause could copy.
        if self.names.attributes_of(name) & {"VOLATILE", "ASYNCHRONOUS", "ALLOCATABLE", "OPTIONAL"}:
            return False
        return not self.reads_all and not (self.calls and self.names.is_reached_by_calls(name))


# --- Reductions ----------------------------------------------------------------------------------------------------


def reductions(loop: Loop) -> Tuple[Reduction, ...]:
    """The reductions of a DO, by name."""
    found = (_reduction(loop, name) for name in sorted(loop.assigned))
    return tuple(one for one in found if one is not None)


def _reduction(loop: Loop, name: str) -> Optional[Reduction]:
    """What a scalar gathers, where all statements that have its name gather by one operator."""
    type_ = loop.names.type_of(name)
    if not type_ or not loop.is_plain_scalar(name):
        return None
    operators: Set[str] = set()
    numbers: Set[int] = set()
    for gathering in _gatherings(loop, name):
        operators.add(gathering.operator)
        numbers.update(gathering.numbers)
        if type_ not in _TYPES[gathering.operator]:
            return None
        if not all(_keeps_type(type_, value, loop.names) for value in gathering.values):
            return None
    if len(operators) != 1 or frozenset(numbers) != loop.places(name):
        return None
    if any(loop.effects[number].side_writes for number in numbers):
        return None
    return Reduction(name, operators.pop(), type_, frozenset(numbers))


@dataclass(frozen=True)
class _Gathering:
    """A statement, or an IF with one, that gathers `values` by an operator of the clause."""

    operator: str
    values: Tuple[tree.Expression, ...]
    numbers: Tuple[int, ...]


def _gatherings(loop: Loop, name: str) -> Iterator[_Gathering]:
    """All places of a loop at which a name gathers."""
    for written in loop.statements.values():
        statement = written.statement
        action = statement.action if isinstance(statement, tree.LogicalIf) else statement
        if not isinstance(action, tree.Assignment) or action.target != tree.Name(name):
            continue
        found = _gathered(action.value, name, loop.names)
        if found is not None and not (action is not statement and _has(statement.expressions()[0], name)):
            yield _Gathering(found[0], found[1], (written.number,))
        elif isinstance(statement, tree.LogicalIf):
            yield from _compared(statement.condition, action, name, (written.number,))
    for head, inside in _single_ifs(loop.block):
        test, action = head.statement, inside.statement
        if isinstance(test, tree.IfThen) and isinstance(action, tree.Assignment) and action.target == tree.Name(name):
            yield from _compared(test.condition, action, name, (head.number, inside.number))


def _gathered(value: tree.Expression, name: str, names: Names) -> Optional[Tuple[str, Tuple[tree.Expression, ...]]]:
    """The operator and the values, where an expression is a scalar and further values, gathered by one operator."""
    operator = _operator(value, names)
    if operator is None:
        return None
    parts = list(_operands(value, operator, names))
    alone = [index for index, (_, part) in enumerate(parts) if part == tree.Name(name)]
    if len(alone) != 1 or parts[alone[0]][0]:
        return None
    others = tuple(part for index, (_, part) in enumerate(parts) if index != alone[0])
    return None if any(_has(part, name) for part in others) else (operator, others)


def _operator(value: tree.Expression, names: Names) -> Optional[str]:
    """The operator of the clause for the outermost operator or function of an expression."""
    if isinstance(value, tree.Parentheses):
        return _operator(value.inner, names)
    if isinstance(value, tree.Operation):
        return _GATHERING.get(value.operator) if len(value.operands) == 2 else None
    if isinstance(value, tree.Reference) and isinstance(value.base, tree.Name) and len(value.arguments) >= 2:
        name = value.base.name
        has_keyword = any(isinstance(argument, tree.Keyword) for argument in value.arguments)
        is_array = names.kind_of(name) is Kind.ARRAY or not names.is_intrinsic(name)
        return None if is_array or has_keyword else _FUNCTIONS.get(name)
    return None


def _operands(
    value: tree.Expression, operator: str, names: Names, is_taken: bool = False
) -> Iterator[Tuple[bool, tree.Expression]]:
    """The operands of one operator in one another, each with whether it is taken away."""
    inner = value.inner if isinstance(value, tree.Parentheses) else value
    if isinstance(inner, tree.Parentheses):
        yield from _operands(inner, operator, names, is_taken)
    elif isinstance(inner, tree.Operation) and _operator(inner, names) == operator:
        yield from _operands(inner.operands[0], operator, names, is_taken)
        yield from _operands(inner.operands[1], operator, names, is_taken != (inner.operator == "-"))
    elif isinstance(inner, tree.Reference) and _operator(inner, names) == operator:
        for argument in inner.arguments:
            yield from _operands(argument, operator, names, is_taken)
    else:
        yield is_taken, inner


def _compared(
    condition: tree.Expression, action: tree.Assignment, name: str, numbers: Tuple[int, ...]
) -> Iterator[_Gathering]:
    """The gathering of `IF (value .GT. name) name = value`, in all its forms."""
    test = condition
    while isinstance(test, tree.Parentheses):
        test = test.inner
    if not isinstance(test, tree.Operation) or test.operator not in _EXCHANGED:
        return
    left, right = test.operands
    relation = test.operator
    if left == tree.Name(name):
        left, right, relation = right, left, _EXCHANGED[relation]
    if right == tree.Name(name) and left == action.value and not _has(left, name):
        yield _Gathering("MAX" if relation in (".GT.", ".GE.") else "MIN", (left,), numbers)


def _single_ifs(block: Block) -> Iterator[Tuple[Written, Written]]:
    """The IFs of a block that have one branch with one statement: their heads and those statements."""
    waiting: List[Branch] = list(block.branches)
    while waiting:
        for node in waiting.pop().body:
            if not isinstance(node, Block):
                continue
            waiting.extend(node.branches)
            body = node.body
            if node.kind == "IF" and len(node.branches) == 1 and len(body) == 1 and isinstance(body[0], Written):
                yield node.head, body[0]


# --- Types ---------------------------------------------------------------------------------------------------------


def _keeps_type(type_: str, value: tree.Expression, names: Names) -> bool:
    """Whether a value may be gathered in a variable of a type without a conversion of what was gathered so far.

    `K = K + X` with INTEGER K and REAL X drops the fraction at each step, so it is no sum. A REAL
    variable may take INTEGER values.
    """
    found = type_of(value, names)
    return found == type_ or (type_, found) in (("REAL", "INTEGER"), ("COMPLEX", "INTEGER"), ("COMPLEX", "REAL"))


def type_of(value: tree.Expression, names: Names) -> str:
    """The type of an expression, empty where it isn't certain. DOUBLE PRECISION is REAL."""
    if isinstance(value, tree.Literal):
        return value.type if value.type in ("INTEGER", "REAL", "LOGICAL", "CHARACTER") else ""
    if isinstance(value, tree.ComplexLiteral):
        return "COMPLEX"
    if isinstance(value, tree.Parentheses):
        return type_of(value.inner, names)
    if isinstance(value, tree.Name):
        is_known = names.kind_of(value.name) in (Kind.SCALAR, Kind.ARRAY, Kind.CONSTANT)
        return names.type_of(value.name) if is_known else ""
    if isinstance(value, tree.Operation):
        return _operation_type(value, names)
    if isinstance(value, tree.Reference) and isinstance(value.base, tree.Name):
        return _reference_type(value.base.name, value.arguments, names)
    return names.component_type(value) if isinstance(value, (tree.Reference, tree.Component)) else ""


def _operation_type(value: tree.Operation, names: Names) -> str:
    types = [type_of(operand, names) for operand in value.operands]
    if not all(types) or value.is_defined:
        return ""
    if value.operator in ("+", "-", "*", "/", "**"):
        return _wider(types)
    is_relation = value.operator in (".EQ.", ".NE.", *_EXCHANGED)
    return "LOGICAL" if is_relation or set(types) == {"LOGICAL"} else ""


def _reference_type(name: str, arguments: Sequence[tree.Expression], names: Names) -> str:
    if names.kind_of(name) in (Kind.ARRAY, Kind.CONSTANT, Kind.STATEMENT_FUNCTION):
        return names.type_of(name)
    if names.kind_of(name) in (Kind.SCALAR, Kind.PROCEDURE) and not names.is_intrinsic(name):
        return names.function_type(name)
    if not names.is_intrinsic(name) or any(isinstance(argument, tree.Section) for argument in arguments):
        return ""
    for found, functions in _RESULTS:
        if name in functions:
            return found
    if not arguments:
        return ""
    types = [type_of(argument, names) for argument in arguments]
    if name in intrinsics.SAME_TYPE:
        return types[0] if len(set(types)) == 1 else ""
    if name in intrinsics.FIRST_TYPE:
        return "REAL" if name == "ABS" and types[0] == "COMPLEX" else types[0]
    return "REAL" if name in intrinsics.REALS and set(types) <= {"REAL"} else ""


#: Functions by the type of their value, whatever their arguments are.
_RESULTS: Sequence[Tuple[str, FrozenSet[str]]] = (
    ("INTEGER", intrinsics.INTEGERS), ("LOGICAL", intrinsics.LOGICALS), ("REAL", intrinsics.ALWAYS_REAL),
    ("COMPLEX", intrinsics.COMPLEXES),
)


def _wider(types: Iterable[str]) -> str:
    """The type of an arithmetic operation; empty where an operand is no number."""
    found = set(types)
    if not found <= {"INTEGER", "REAL", "COMPLEX"}:
        return ""
    return next(one for one in ("COMPLEX", "REAL", "INTEGER") if one in found)


# --- Induction variables -------------------------------------------------------------------------------------------


def inductions(loop: Loop, always: FrozenSet[int]) -> Tuple[Induction, ...]:
    """The induction variables of a DO, by name. `always` are the statements that each iteration carries out once."""
    found = (_induction(loop, name, always) for name in sorted(loop.assigned))
    return tuple(one for one in found if one is not None)


def _induction(loop: Loop, name: str, always: FrozenSet[int]) -> Optional[Induction]:
    """An induction variable: each iteration makes its one assignment once, and the step is invariant."""
    writers = loop.writers(name)
    if len(writers) != 1 or not writers <= always or not loop.is_plain_scalar(name):
        return None
    number = min(writers)
    statement = loop.statements[number].statement
    if loop.names.type_of(name) != "INTEGER" or not isinstance(statement, tree.Assignment):
        return None
    grown = _grown(statement.value, name)
    if grown is None or statement.target != tree.Name(name):
        return None
    step, falls = grown
    if type_of(step, loop.names) != "INTEGER" or not is_invariant(step, loop):
        return None
    return Induction(name, step, falls, number)


def _grown(value: tree.Expression, name: str) -> Optional[Tuple[tree.Expression, bool]]:
    """The step of `name + step`, `step + name` or `name - step`, and whether it is taken away."""
    while isinstance(value, tree.Parentheses):
        value = value.inner
    if not isinstance(value, tree.Operation) or value.operator not in ("+", "-") or len(value.operands) != 2:
        return None
    left, right = value.operands
    if left == tree.Name(name):
        return right, value.operator == "-"
    return (left, False) if right == tree.Name(name) and value.operator == "+" else None


def is_invariant(expression: tree.Expression, loop: Loop) -> bool:
    """Whether an expression has the same value in all iterations: it reads nothing that the loop may assign.

    All its functions are pure intrinsics and statement functions. The loop's variable is assigned by the loop.
    """
    found = reads_of(expression, loop.names)
    if found.troubles or found.calls or found.reads_all or loop.reads_all or found.procedures:
        return False
    for access in found.accesses:
        if access.name in loop.assigned:
            return False
        if loop.names.may_share_storage(access.name) or "VOLATILE" in loop.names.attributes_of(access.name):
            return False
        if loop.calls and loop.names.is_reached_by_calls(access.name):
            return False
    return True


def _has(expression: tree.Expression, name: str) -> bool:
    return name in tree.names_in(expression)
