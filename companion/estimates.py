"""How many statements an entry of a loop executes, as a formula in names that have a value before it.

The formula is an estimate. It counts each branch of an IF, and takes a loop whose bounds depend on the variable of
another one with the mean of that variable. It counts one iteration of a loop whose bounds aren't known before the nest:
they are assigned in it, have no value for certain, or aren't sums and products.
"""

from __future__ import annotations

from dataclasses import dataclass
from fractions import Fraction
from math import ceil, floor
from typing import Dict, List, Mapping, NamedTuple, Optional, Tuple

from .expressions import Call, Expression, Operation, Variable, value_of
from .program import Loop, Program
from .statements import Do
from .subscripts import assigned_in

#: From here on a number is no default INTEGER.
_BEYOND = 2**31
#: So many terms, and names in a term, are written at most.
_MOST_TERMS = 20
_MOST_FACTORS = 8


@dataclass(frozen=True)
class Formula:
    """A sum of products: the factor of each product of names."""

    terms: Mapping[Tuple[str, ...], Fraction]

    def __add__(self, other: Formula) -> Formula:
        terms = dict(self.terms)
        for names, factor in other.terms.items():
            terms[names] = terms.get(names, Fraction(0)) + factor
        return Formula({names: factor for names, factor in terms.items() if factor})

    def __mul__(self, other: Formula) -> Formula:
        product = Formula({})
        for names, factor in self.terms.items():
            for others, by in other.terms.items():
                product += Formula({tuple(sorted(names + others)): factor * by})
        return product

    @property
    def value(self) -> Optional[Fraction]:
        """The value of a constant; none of other formulas."""
        return self.terms.get((), Fraction(0)) if not any(self.terms) else None

    def limit(self, bound: int) -> Optional[Tuple[str, str, int]]:
        """Where it has one name: that name, GE or LE, and the value from which on the formula is at least so much."""
        single = [one for one in self.terms if one]
        if len(single) != 1 or len(single[0]) != 1:
            return None
        factor = self.terms[single[0]]
        limit = (bound - self.terms.get((), Fraction(0))) / factor
        rounded = ceil(limit) if factor > 0 else floor(limit)
        return (single[0][0], "GE" if factor > 0 else "LE", rounded) if abs(rounded) < _BEYOND else None

    @property
    def is_short(self) -> bool:
        """Whether it may be written: it is no long text, and its value is far from the end of DOUBLE PRECISION."""
        small = all(abs(factor) < 10**30 and len(names) <= _MOST_FACTORS for names, factor in self.terms.items())
        return small and len(self.terms) <= _MOST_TERMS

    def text(self, names: Mapping[str, str]) -> str:
        """The sum, the longest products first. The first factor is DOUBLE PRECISION, so each operation is."""
        text = ""
        for product, factor in sorted(self.terms.items(), key=lambda term: (-len(term[0]), term[0])):
            sign = "-" if factor < 0 else "+" if text else ""
            written = [names.get(name, name) for name in product]
            if abs(factor) != 1 or len(written) != 1 or not text:
                written.insert(0, _double(abs(factor)))
            text += sign + "*".join(written)
        return text


def _double(number: Fraction) -> str:
    """A constant of DOUBLE PRECISION, with at most six digits after the point."""
    if number.denominator == 1:
        return f"{number.numerator}D0"
    return f"{float(number):.6f}".rstrip("0") + "D0"


def _constant(value: Fraction) -> Formula:
    return Formula({(): value} if value else {})


_ONE = _constant(Fraction(1))


def _product(left: Formula, right: Formula) -> Optional[Formula]:
    """A product, where it is short."""
    if len(left.terms) * len(right.terms) > _MOST_TERMS**2:
        return None
    product = left * right
    return product if product.is_short else None


class Condition(NamedTuple):
    """The condition under which an entry of a loop is estimated to have enough statements."""

    work: Formula
    #: How many statements are enough.
    least: int
    #: The iterations of loops that have loops in them: the product of two negative numbers would count.
    iterations: Tuple[Tuple[Formula, int], ...] = ()

    def text(self, names: Mapping[str, str]) -> str:
        """It in FORTRAN, with new names for some."""
        limits: Dict[Tuple[str, str], int] = {}
        long: List[str] = []
        for formula, bound in [*self.iterations, (self.work, self.least)]:
            found = formula.limit(bound)
            if found is None:
                long.append(f"{formula.text(names)}.GE.{bound}")
            else:
                name, operator, limit = found
                known = limits.get((name, operator), limit)
                limits[name, operator] = max(known, limit) if operator == "GE" else min(known, limit)
        short = [f"{names.get(name, name)}.{operator}.{limit}" for (name, operator), limit in limits.items()]
        return ".AND.".join(dict.fromkeys([*short, *long]))


class Estimate(NamedTuple):
    """What is known of a loop before it: the statements of an iteration, and of an entry where that is known."""

    each: Formula
    entry: Optional[Formula]
    iterations: Tuple[Tuple[Formula, int], ...]
    #: Whether the iterations of all loops in it are known.
    whole: bool


def estimate_of(program: Program, loop: Loop) -> Estimate:
    """The estimate for a loop."""
    return _Estimator(program, loop).estimate()


class _Estimator:
    """Adds up the statements of a loop, and of the loops in it."""

    def __init__(self, program: Program, loop: Loop) -> None:
        self._program = program
        self._loop = loop
        self._assigned = assigned_in(program, loop)
        #: The means of the variables of the loops round a statement, where they are known.
        self._means: Dict[str, Optional[Formula]] = {}
        self._iterations: List[Tuple[Formula, int]] = []
        self._whole = True

    def estimate(self) -> Estimate:
        """The estimate."""
        found, mean = self._bounds(self._loop)
        self._means[self._loop.variable] = mean
        each = self._each(self._loop)
        entry = _product(found, each) if found is not None else None
        if found is None or entry is None:
            return Estimate(each, None, (), self._whole)
        if each.value is None:
            self._iterations.insert(0, (found, 2))
        guards = tuple((found, bound) for found, bound in self._iterations if found.value is None)
        return Estimate(each, entry, guards, self._whole)

    def _each(self, loop: Loop) -> Formula:
        """The statements of an iteration."""
        count = Formula({})
        for number in range(loop.number + 1, loop.last + 1):
            if self._program.statement(number).loops == loop.nest:
                count += _ONE
                if number in self._program.loops:
                    count += self._entry(self._program.loops[number])
        return count

    def _entry(self, loop: Loop) -> Formula:
        """The statements of an entry of a loop in the nest."""
        found, self._means[loop.variable] = self._bounds(loop)
        each = self._each(loop)
        del self._means[loop.variable]
        entry = _product(found, each) if found is not None else None
        if found is None or entry is None:
            self._whole = False
            return each
        if each.value is None:
            self._iterations.append((found, 1))
        return entry

    def _bounds(self, loop: Loop) -> Tuple[Optional[Formula], Optional[Formula]]:
        """The iterations of an entry, and the mean of the variable, as far as they are known."""
        form = loop.form
        step = value_of(form.step, self._program.constants) if form.step is not None else 1
        if not step:
            return None, None
        own = loop is self._loop
        firsts = self._formulas(form.first, "MAX" if step > 0 else "MIN", own)
        lasts = self._formulas(form.last, "MIN" if step > 0 else "MAX", own)
        by = _constant(Fraction(1, step))
        pairs = [(first, last, (last + first * _constant(Fraction(-1))) * by + _ONE)
                 for first in firsts for last in lasts]
        if not pairs:
            return None, None
        first, last, found = min(pairs, key=lambda pair: pair[2].value is None)
        if found.value is not None:
            found = _constant(Fraction(max(floor(found.value), 0)))
        return found, (first + last) * _constant(Fraction(1, 2))

    def _formulas(self, expression: Expression, choice: str, own: bool) -> List[Formula]:
        """The formulas of a bound; of a MAX or a MIN that bounds the iterations each argument will do."""
        wide = isinstance(expression, Call) and expression.name.startswith(choice)
        found = [self._formula(one, own) for one in (expression.parts() if wide else (expression,))]
        return [one for one in found if one is not None]

    def _formula(self, expression: Expression, own: bool) -> Optional[Formula]:
        """An expression as a formula of names that have a value before the loop; none where it isn't one."""
        value = value_of(expression, self._program.constants)
        if value is not None:
            return _constant(Fraction(value))
        if isinstance(expression, Variable):
            return self._named(expression.name, own)
        if not isinstance(expression, Operation) or expression.operator not in ("+", "-", "*"):
            return None
        parts = [self._formula(part, own) for part in expression.parts()]
        left, right = parts[0], parts[-1]
        if left is None or right is None:
            return None
        if expression.operator == "*":
            return _product(left, right)
        if expression.operator == "-":
            right = right * _constant(Fraction(-1))
        total = left + right if len(parts) == 2 else right
        return total if total.is_short else None

    def _named(self, name: str, own: bool) -> Optional[Formula]:
        """A variable in a bound: the nest's own header reads it anyway, and the means of loops are known."""
        if not own:
            if name in self._means:
                return self._means[name]
            if name in self._assigned or not _has_value(self._program, self._loop, name):
                return None
        return Formula({(name,): Fraction(1)})


def _has_value(program: Program, loop: Loop, name: str) -> bool:
    """Whether a scalar is certain to have a value before a loop, as the variable of a loop round it, or by a statement.

    This has to read or assign it, and to be carried out before the loop in any case: as the header of the loop or of
    one round it, or outside of IFs, and of loops that aren't round it.
    """
    if any(name == outer.variable for outer in program.loops_round(loop.number)):
        return True
    for use in program.uses(name):
        statement = program.statement(use.statement)
        if isinstance(statement.form, Do) and use.writes or statement.number > loop.number:
            continue
        if statement.number in loop.nest:
            return True
        if not statement.ifs and statement.loops == loop.nest[:len(statement.loops)]:
            return True
    return False
