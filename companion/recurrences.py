"""What a scalar is that a loop carries: a sum, a maximum, a product, an induction variable, a value wanted after it.

It is looked up in the text alone, with what a user can do by an edit. Whether a step is carried out is ped's answer.
"""

from __future__ import annotations

from enum import Enum
from typing import Iterator, List, Optional, Sequence, Tuple

from .closed_forms import Induction, induction
from .expressions import Call, Expression, Operation, Variable, names_in
from .messages import listed
from .program import Loop, Program, Statement
from .statements import Assignment, BlockIf

#: For each relation the same one with its operands exchanged.
_EXCHANGED = {".GT.": ".LT.", ".GE.": ".LE.", ".LT.": ".GT.", ".LE.": ".GE."}


class Kind(Enum):
    """What a scalar gathers over the iterations of a loop."""

    SUM = "a sum"
    MAXIMUM = "a maximum"
    MINIMUM = "a minimum"
    PRODUCT = "a product"


#: What is to be stored in an array for each kind, and what the loop of its own does then.
_GATHERED = {
    Kind.SUM: ("the terms", "add them up"),
    Kind.MAXIMUM: ("the values that are compared", "take the maximum"),
    Kind.MINIMUM: ("the values that are compared", "take the minimum"),
    Kind.PRODUCT: ("the factors", "multiply them"),
}


def about_scalar(program: Program, loop: Loop, name: str) -> str:
    """What a scalar is that a loop carries, and what can be done about it by an edit."""
    found = induction(program, loop, name)
    if found is not None:
        return _about_induction(found)
    writers = _writers(program, loop, name)
    kind = gathered(program, loop, name)
    if kind is None:
        return _about_value(program, loop, name, writers)
    readers = [one for one in _others(program, loop, name) if one not in writers]
    if readers:
        return (
            f"{name} is {kind.value} that {_statements(readers)} read{'s' if len(readers) == 1 else ''} on the way: it "
            f"stays in order; the rest of the loop can be taken apart from it"
        )
    what, how = _GATHERED[kind]
    return f"{name} is {kind.value}: store {what} in an array, and {how} in a loop of its own"


def gathered(program: Program, loop: Loop, name: str) -> Optional[Kind]:
    """What a scalar gathers over the iterations, by all statements of the body that assign it; none otherwise."""
    if name in [inner.variable for inner in program.inner_loops(loop)]:
        return None
    kinds = {_kind_of(program, program.statement(number), name) for number in _writers(program, loop, name)}
    return kinds.pop() if len(kinds) == 1 else None


def _writers(program: Program, loop: Loop, name: str) -> List[int]:
    """The statements of a loop's body that write a scalar."""
    return sorted({one.statement for one in program.uses_in(loop, name) if one.writes})


def _others(program: Program, loop: Loop, name: str) -> Iterator[int]:
    """The statements of a loop's body that read a scalar, but for an IF that compares it with a new extremum."""
    for number in sorted({one.statement for one in program.uses_in(loop, name) if not one.writes}):
        if number == loop.last or _compared(program, number + 1, name) is None:
            yield number


def _kind_of(program: Program, statement: Statement, name: str) -> Optional[Kind]:
    """What one statement that writes a scalar gathers in it."""
    form = statement.form
    if not isinstance(form, Assignment) or form.target.text != name:
        return None
    value = form.value
    if isinstance(value, Call) and value.name[:3] in ("MAX", "MIN"):
        kind = Kind.MAXIMUM if value.name.startswith("MAX") else Kind.MINIMUM
        return kind if _stands_once(list(_compared_values(value)), name) else None
    if isinstance(value, Operation) and value.operator in ("+", "-") and len(value.operands) == 2:
        terms = list(_operands(value, ("+", "-")))
        return Kind.SUM if _stands_once([term for _, term in terms], name, [one for one, _ in terms]) else None
    if isinstance(value, Operation) and value.operator == "*":
        return Kind.PRODUCT if _stands_once([part for _, part in _operands(value, ("*",))], name) else None
    return _compared(program, statement.number, name)


def _compared(program: Program, number: int, name: str) -> Optional[Kind]:
    """Whether a statement and the IF before it take the greater or the less of a scalar and a value."""
    statement = program.statement(number)
    form = statement.form
    if program.else_parts.get(number - 1) == number or statement.ifs[-1:] != (number - 1,):
        return None
    if not isinstance(form, Assignment) or form.target.text != name:
        return None
    test = program.statement(number - 1).form
    condition = test.condition if isinstance(test, BlockIf) else None
    if not isinstance(condition, Operation) or condition.operator not in _EXCHANGED or name in names_in(form.value):
        return None
    left, right = condition.operands
    relation = condition.operator
    if _is_alone(left, name):
        left, right, relation = right, left, _EXCHANGED[relation]
    if not _is_alone(right, name) or left.text != form.value.text:
        return None
    return Kind.MAXIMUM if relation in (".GT.", ".GE.") else Kind.MINIMUM


def _stands_once(parts: Sequence[Expression], name: str, taken_away: Sequence[bool] = ()) -> bool:
    """Whether a scalar is one of some parts, not one that is taken away, and stands in no other one."""
    alone = [index for index, part in enumerate(parts) if _is_alone(part, name)]
    if len(alone) != 1 or alone[0] < len(taken_away) and taken_away[alone[0]]:
        return False
    return all(index == alone[0] or name not in names_in(part) for index, part in enumerate(parts))


def _operands(
    operation: Operation, operators: Tuple[str, ...], is_taken: bool = False
) -> Iterator[Tuple[bool, Expression]]:
    """The operands of operations in one another, each with whether it is taken away."""
    for index, part in enumerate(operation.operands):
        is_away = is_taken != (operation.operator == "-" and (index == 1 or len(operation.operands) == 1))
        if isinstance(part, Operation) and part.operator in operators:
            yield from _operands(part, operators, is_away)
        else:
            yield is_away, part


def _compared_values(call: Call) -> Iterator[Expression]:
    """The arguments of MAX, or of MIN, in one another."""
    for part in call.arguments:
        if isinstance(part, Call) and part.name[:3] == call.name[:3]:
            yield from _compared_values(part)
        else:
            yield part


def _is_alone(part: Expression, name: str) -> bool:
    return isinstance(part, Variable) and part.name == name


def _about_induction(found: Induction) -> str:
    name, growth = found.name, found.growth
    statements = _statements([number for number, _ in found.increments])
    words = f"{name} {'falls' if growth.falls else 'grows'} by {growth.words} in each iteration, at {statements}"
    forms = [f"{form} for it in {_statements(numbers)}" for form, numbers in found.readers.items()]
    if not forms:
        return f"{words}: compute it from {found.loop.variable} where it is read, and take {statements} out"
    words = f"{words}: write {listed(forms)}, and take {statements} out"
    if name not in found.program.saved and not readers_after(found.program, found.loop, name):
        return words
    last = found.last_value
    if last is None:
        return f"{words}; after the loop give {name} the value that it has there now"
    return f"{words}; after the loop put {name} = {last}"


def _about_value(program: Program, loop: Loop, name: str, writers: Sequence[int]) -> str:
    """What can be done about a scalar that gathers nothing."""
    block = next((one for one in map(lambda number: _block_round(program, loop, number), writers) if one), None)
    if block is not None:
        return f"{name} is assigned in the CALL of statement {block}: `inline {block}` says if each iteration does"
    readers = list(_others(program, loop, name))
    first = min(readers, default=loop.last + 1)
    if any(number < first and _is_always_done(program, loop, number) for number in writers):
        return f"the value of {name} is wanted after the loop: assign it there once more, as the last iteration does"
    if not readers:
        return (
            f"the last iteration that assigns {name} says what is wanted after the loop: find out in a loop of its own "
            f"which one that is, and assign {name} after it"
        )
    return (
        f"{_statements([first])} may read what an earlier iteration has left in {name}: where none of them wants that, "
        f"assign {name} at the front of the body; else compute it anew from {loop.variable}"
    )


def _block_round(program: Program, loop: Loop, number: int) -> Optional[int]:
    """The IF in a loop whose condition is that of the block of a CALL, and in which a statement of the loop stands."""
    for outer in program.statement(number).ifs:
        form = program.statement(outer).form
        if outer in loop and isinstance(form, BlockIf) and form.condition.text == "0.EQ.0":
            return outer
    return None


def _is_always_done(program: Program, loop: Loop, number: int) -> bool:
    """Whether each iteration carries out a statement of the body, and once."""
    statement = program.statement(number)
    return statement.loops == loop.nest and statement.ifs == program.statement(loop.number).ifs


def readers_after(program: Program, loop: Loop, name: str) -> List[int]:
    """The statements that may read a scalar after a loop: those further on, and those of a loop round it."""
    outermost = program.loops[loop.nest[0]]
    return [
        one.statement for one in program.uses(name)
        if not one.writes and one.statement not in loop and (one.statement > loop.last or one.statement in outermost)
    ]


def _statements(numbers: Sequence[int]) -> str:
    return f"statement{'' if len(numbers) == 1 else 's'} {listed([str(number) for number in numbers])}"
