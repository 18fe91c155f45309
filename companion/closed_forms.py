"""Closed forms of induction variables: what a scalar holds in an iteration, by the variable of the loop.

A scalar that each iteration changes by the same amount holds, in the iteration with N iterations before it, what it
held before the loop and N times that amount. N is `(I-M1)/M3` in `DO I = M1, M2, M3`, and this quotient is exact.
"""

from __future__ import annotations

from dataclasses import dataclass
from typing import Dict, FrozenSet, List, Optional, Sequence, Tuple

from .expressions import Expression, Operation, Variable, names_in, value_of
from .program import Loop, Program, Statement
from .statements import Assignment
from .subscripts import assigned_in, iterations, step_of

#: A longer initial value isn't written in the place of the scalar.
_LONGEST_START = 20
#: How many statements before the loop are looked through for it.
_FURTHEST = 200


@dataclass(frozen=True)
class Amount:
    """A value that the loop doesn't change: a number, or a text that takes its place with a sign before it."""

    value: Optional[int]
    text: str = ""
    is_negative: bool = False

    @property
    def words(self) -> str:
        """The amount without its sign."""
        return str(abs(self.value)) if self.value is not None else self.text

    @property
    def falls(self) -> bool:
        """Whether the amount is taken away, and not added."""
        return self.value < 0 if self.value is not None else self.is_negative


@dataclass(frozen=True)
class Induction:
    """A scalar that grows by the same amount in each iteration of a loop."""

    program: Program
    loop: Loop
    name: str
    #: The statements that change it, each once in each iteration, and by how much.
    increments: Tuple[Tuple[int, Amount], ...]

    @property
    def growth(self) -> Amount:
        """By how much it grows in an iteration."""
        return _total([amount for _, amount in self.increments])

    @property
    def readers(self) -> Dict[str, List[int]]:
        """For each closed form the statements that read the scalar there; nothing where there is no closed form."""
        forms: Dict[str, List[int]] = {}
        changing = [number for number, _ in self.increments]
        using = {one.statement for one in self.program.uses_in(self.loop, self.name)}
        for number in sorted(using.difference(changing)):
            form = self._form_at(number)
            if form is None:
                return {}
            forms.setdefault(form, []).append(number)
        return forms

    @property
    def last_value(self) -> Optional[str]:
        """What the scalar holds after the loop; none where there is no closed form."""
        first, last = self.loop.form.first, self.loop.form.last
        if not self._is_invariant(first) or not self._is_invariant(last):
            return None
        count = iterations(self.program, self.loop)
        start, growth = self._start(), self.growth
        if count is None:
            return _joined([start, *_times(growth, self._count())])
        if growth.value is None:
            return _joined([start, *_times(growth, str(count))]) if count else _joined([start])
        total, known = count * growth.value, _number_of(start)
        return str(known + total) if known is not None else _joined([start, *_number(total)])

    def _count(self) -> str:
        """How many iterations the loop has, where its bounds aren't constant."""
        first, last = self.loop.form.first, self.loop.form.last
        step = step_of(self.program, self.loop)
        if step == -1:
            first, last = last, first
        initial = value_of(first, self.program.constants)
        size = abs(step) if step == -1 else step
        taken = _number(size - initial) if initial is not None else [(True, _factor(first)), *_number(size)]
        return f"MAX(0,{_divided(_joined([(False, last.text), *taken]), size)})"

    def _form_at(self, number: int) -> Optional[str]:
        """The closed form of the scalar in a statement of the body."""
        if not self._is_invariant(self.loop.form.first):
            return None
        done = [amount for statement, amount in self.increments if statement < number]
        growth, partial = self.growth, _total(done)
        step = step_of(self.program, self.loop)
        initial = value_of(self.loop.form.first, self.program.constants)
        start = self._start()
        if growth.value is not None and partial.value is not None and initial is not None and growth.value % step == 0:
            factor = growth.value // step
            return self._linear(start, factor, partial.value - factor * initial)
        is_after = len(done) == len(self.increments)
        terms = [start, *_times(growth, self._finished(initial, step, 1 if is_after else 0))]
        if done and not is_after:
            terms.extend(_number(partial.value) if partial.value is not None else [(partial.falls, partial.words)])
        return _joined(terms)

    def _linear(self, start: Tuple[bool, str], factor: int, constant: int) -> str:
        """A start, and a multiple of the loop's variable and a number."""
        known = _number_of(start)
        size = "" if abs(factor) == 1 else f"{abs(factor)}*"
        variable = [(factor < 0, f"{size}{self.loop.variable}")] if factor else []
        if known is None:
            return _joined([start, *variable, *_number(constant)])
        number = _number(known + constant)
        return _joined([*number, *variable] if factor < 0 < known + constant else [*variable, *number])

    def _finished(self, initial: Optional[int], step: int, more: int) -> str:
        """How many iterations there are before one, and some more."""
        variable = self.loop.variable
        if initial is not None:
            if step == -1:
                return _joined([*_number(initial + more), (True, variable)])
            return _divided(_joined([(False, variable), *_number(more * step - initial)]), step)
        first = self.loop.form.first
        if step == -1:
            return _joined([(False, first.text), (True, variable), *_number(more)])
        return _divided(_joined([(False, variable), (True, _factor(first)), *_number(more * step)]), step)

    def _start(self) -> Tuple[bool, str]:
        """What the scalar holds before the loop: the value that was assigned to it there, or its name."""
        start = _assigned_before(self.program, self.loop, self.name)
        if start is None or not self._is_invariant(start):
            return False, self.name
        value = value_of(start, self.program.constants)
        text = str(value) if value is not None else start.text
        return (False, text) if len(text) <= _LONGEST_START else (False, self.name)

    def _is_invariant(self, expression: Expression) -> bool:
        return _is_invariant(expression, assigned_in(self.program, self.loop))


def induction(program: Program, loop: Loop, name: str) -> Optional[Induction]:
    """A scalar as an induction variable of a loop; none where it is no one that is read in the body."""
    uses = program.uses_in(loop, name)
    changing = sorted({one.statement for one in uses if one.writes})
    if not changing or all(one.statement in changing for one in uses):
        return None
    if name in [inner.variable for inner in program.inner_loops(loop)]:
        return None
    assigned = assigned_in(program, loop)
    increments: List[Tuple[int, Amount]] = []
    for statement in (program.statement(number) for number in changing):
        amount = _increment(program, statement, name, assigned)
        is_once = statement.loops == loop.nest and statement.ifs == program.statement(loop.number).ifs
        if amount is None or not is_once:
            return None
        increments.append((statement.number, amount))
    return Induction(program, loop, name, tuple(increments))


def _increment(program: Program, statement: Statement, name: str, assigned: FrozenSet[str]) -> Optional[Amount]:
    """By how much a statement `K = K+c`, `K = c+K` or `K = K-c` changes K, where the loop doesn't change c."""
    form = statement.form
    if not isinstance(form, Assignment) or not isinstance(form.target, Variable):
        return None
    value = form.value
    if not isinstance(value, Operation) or value.operator not in ("+", "-") or len(value.operands) != 2:
        return None
    left, right = value.operands
    if value.operator == "+" and isinstance(right, Variable) and right.name == name:
        left, right = right, left
    if not isinstance(left, Variable) or left.name != name or not _is_invariant(right, assigned):
        return None
    number = value_of(right, program.constants)
    if number is not None:
        return Amount(-number if value.operator == "-" else number)
    return Amount(None, _factor(right), value.operator == "-")


def _is_invariant(expression: Expression, assigned: FrozenSet[str]) -> bool:
    return assigned.isdisjoint(names_in(expression))


def _assigned_before(program: Program, loop: Loop, name: str) -> Optional[Expression]:
    """What a scalar was assigned before a loop, where that is certain: by a statement of the same list, outside IFs."""
    here = program.statement(loop.number)
    if here.ifs:
        return None
    between: List[str] = []
    for statement in reversed(program.statements[max(loop.number - 1 - _FURTHEST, 0):loop.number - 1]):
        if statement.loops[:len(here.loops)] != here.loops or statement.number in here.loops:
            return None
        written = [one.name for one in statement.references if one.writes]
        if statement.number in program.loops:
            written.append(program.loops[statement.number].variable)
        if name in written:
            form = statement.form
            is_plain = statement.loops == here.loops and not statement.ifs and isinstance(form, Assignment)
            if not is_plain or not isinstance(form, Assignment) or name in names_in(form.value):
                return None
            return form.value if set(between).isdisjoint(names_in(form.value)) else None
        between.extend(written)
    return None


def _total(amounts: Sequence[Amount]) -> Amount:
    """The sum of some amounts."""
    values = [amount.value for amount in amounts]
    if None not in values:
        return Amount(sum(value for value in values if value is not None))
    if len(amounts) == 1:
        return amounts[0]
    terms = [term for one in amounts for term in (_number(one.value) if one.value is not None else [_signed(one)])]
    return Amount(None, f"({_joined(terms)})")


def _signed(amount: Amount) -> Tuple[bool, str]:
    return amount.falls, amount.words


def _number(value: Optional[int]) -> List[Tuple[bool, str]]:
    """A number as a term; 0 is none."""
    return [(value < 0, str(abs(value)))] if value else []


def _times(growth: Amount, times: str) -> List[Tuple[bool, str]]:
    """A product of a number of iterations and an amount, as a term."""
    factor = times if times.isalnum() or times.startswith("MAX(") else f"({times})"
    if growth.value is not None and abs(growth.value) == 1:
        # A quotient binds more tightly than the sum that it stands in, and so does a name.
        is_sum = any(sign in times.strip("-") for sign in "+-") and "/" not in times and not times.startswith("MAX(")
        return [(growth.falls, f"({times})" if is_sum else times)]
    return [(growth.falls, f"{factor}*{growth.words}")]


def _divided(text: str, step: int) -> str:
    """A text that an increment divides; by -1 it changes its sign."""
    if step == 1:
        return text
    dividend = text if text.isalnum() else f"({text})"
    return f"{dividend}/{step}" if step > 0 else f"{dividend}/({step})"


def _factor(expression: Expression) -> str:
    """An expression as a factor, or after a sign."""
    return f"({expression.text})" if isinstance(expression, Operation) else expression.text


def _joined(terms: Sequence[Tuple[bool, str]]) -> str:
    """A sum of terms with their signs; a first one that is 0 is left out."""
    rest = [term for term in terms if term[1] != "0"]
    text = "".join(f"{'-' if is_negative else '+'}{term}" for is_negative, term in rest)
    return text[1:] if text.startswith("+") else text or "0"


def _number_of(term: Tuple[bool, str]) -> Optional[int]:
    """The number that a term is; none where it is another text."""
    is_negative, text = term
    if not text.lstrip("-").isdigit():
        return None
    return -int(text) if is_negative else int(text)
