"""A run in order of a program of the profile, and the accesses that it makes, by the rules of docs/RUNS.md.

ped runs programs, and what it says of a run is proved; but it doesn't list accesses. So they are found here. Whoever
uses them compares what this run shows with what ped shows of the same run.
"""

from __future__ import annotations

import operator
import re
from functools import partial
from itertools import product
from typing import Callable, Collection, Dict, Iterator, List, NamedTuple, Optional, Sequence, Tuple, Union

from .expressions import Constant, Element, Expression, Number, Operation, Variable, read_expression, result_of, value_of
from .lines import FIRST_COLUMN, LAST_COLUMN, read_statements
from .program import Loop, Program, Statement
from .statements import Assignment, BlockIf, Do, Print, Read

#: How many statements and iterations a run may have here.
MOST_STEPS = 1_000_000
#: What a variable may hold, and what a bound of a DO may be.
_STORED, _BOUND = range(-2**31, 2**31), range(-2**62, 2**62 + 1)

_DATUM = re.compile(r"[+-]?[0-9]+(?![^ \t,])")
_BLANKS = " \t"
_RELATIONS: Dict[str, Callable[[int, int], bool]] = {
    ".LT.": operator.lt, ".LE.": operator.le, ".EQ.": operator.eq, ".NE.": operator.ne, ".GT.": operator.gt,
    ".GE.": operator.ge, ".AND.": operator.and_, ".OR.": operator.or_,
}


class Faulted(Exception):
    """The run meets a fault."""


class TooLong(Exception):
    """The run takes more steps than are waited for."""


class _Stopped(Exception):
    """The run has come to STOP."""


class Cell(NamedTuple):
    """A scalar or an element: its name and its subscripts, and whose copy it is."""

    name: str
    subscripts: Tuple[int, ...] = ()
    #: The loop each of whose iterations has a copy, 0 where none has; and the iterations of the loops down to it.
    owner: int = 0
    iterations: Tuple[int, ...] = ()


class Access(NamedTuple):
    """An access that a reference of the program makes."""

    #: The statement and the number of the reference.
    reference: Tuple[int, int]
    cell: Cell
    #: The iterations of the loops round the statement, counted from 1, the outermost first.
    iterations: Tuple[int, ...]


_Value = Callable[[], int]
_Step = Callable[[], None]
#: The bounds of each dimension of an array.
_Bounds = Tuple[range, ...]


class Run:
    """A run of a program in order. It tells each access to one of some names."""

    def __init__(
        self, program: Program, data: Sequence[str], names: Collection[str], tell: Callable[[Access], None]
    ) -> None:
        self.program = program
        self.names = names
        self.tell = tell
        self.data = _Data(data)
        self.bounds = {name: _bounds(program, written) for name, written in program.arrays.items()}
        self.cells: Dict[Cell, int] = {}
        #: The values of the variables of the open loops, by the numbers of the loops, and their iterations.
        self.values: Dict[int, int] = {}
        self.iterations: Tuple[int, ...] = ()
        self.printed: List[str] = []
        self._steps = 0

    def rows(self) -> List[str]:
        """Runs the program, and returns the rows that ped's `run` shows. Raises Faulted and TooLong."""
        body = _block(self, self.program.statements, (), ())
        try:
            body()
        except _Stopped:
            pass
        return [*self.printed, "ended", *self._live_rows()]

    def _live_rows(self) -> Iterator[str]:
        for name in sorted(self.program.saved):
            values = [self.cells.get(Cell(name, place)) for place in _elements(self.bounds.get(name, ()))]
            yield " ".join(["live", name, *("?" if value is None else str(value) for value in values)])

    def count(self) -> None:
        """Counts a statement or an iteration."""
        self._steps += 1
        if self._steps > MOST_STEPS:
            raise TooLong


def _block(run: Run, statements: Sequence[Statement], loops: Tuple[int, ...], ifs: Tuple[int, ...]) -> _Step:
    """Those of some statements that stand in these loops and these IFs and in no further ones."""
    steps = [_statement(run, one) for one in statements if one.loops == loops and one.ifs == ifs]

    def step() -> None:
        for part in steps:
            run.count()
            part()

    return step


def _statement(run: Run, statement: Statement) -> _Step:
    form, reader = statement.form, _Reader(run, statement)
    if isinstance(form, Do):
        return _loop(run, statement, form, reader)
    if isinstance(form, BlockIf):
        return _choice(run, statement, form, reader)
    if isinstance(form, Assignment):
        return reader.store(reader.value(form.value), form.target)
    if isinstance(form, Print):
        return _print(run, [reader.item(one) for one in form.items])
    if isinstance(form, Read):
        reader.number()  # The data are the first reference.
        return _read(run, [reader.store(run.data.number, one) for one in form.items])
    return _stop


def _stop() -> None:
    raise _Stopped


def _print(run: Run, items: Sequence[Callable[[], str]]) -> _Step:
    def step() -> None:
        run.printed.append("| " + " ".join([item() for item in items]))

    return step


def _read(run: Run, items: Sequence[_Step]) -> _Step:
    def step() -> None:
        run.data.begin()
        for item in items:
            item()

    return step


def _choice(run: Run, statement: Statement, form: BlockIf, reader: _Reader) -> _Step:
    condition = reader.value(form.condition)
    ifs = (*statement.ifs, statement.number)
    inside = []
    for one in run.program.statements[statement.number:]:
        if one.ifs[:len(ifs)] != ifs:
            break
        inside.append(one)
    middle = run.program.else_parts.get(statement.number, statement.number + len(inside) + 1) - statement.number - 1
    parts = [_block(run, part, statement.loops, ifs) for part in (inside[:middle], inside[middle:])]

    def step() -> None:
        parts[0 if condition() else 1]()

    return step


def _loop(run: Run, statement: Statement, form: Do, reader: _Reader) -> _Step:
    program, number = run.program, statement.number
    loop = program.loops[number]
    first, last = reader.bound(form.first), reader.bound(form.last)
    increment = (value_of(form.step, program.constants) if form.step is not None else None) or 1
    body = _block(run, program.statements[number:loop.last], (*statement.loops, number), statement.ifs)
    private = [reader.write(one.name) for one in loop.private]
    variable, undefined = reader.named(loop.variable), list(_copied(program, loop))
    outside = [reader.named(name) for name in undefined]

    def step() -> None:
        begin = first()
        count = max((last() - begin + increment) // increment, 0)
        for index in range(count):
            run.count()
            run.values[number] = begin + index * increment
            run.iterations += (index + 1,)
            body()
            for name in undefined:
                run.cells.pop(Cell(name, (), number, run.iterations), None)
            run.iterations = run.iterations[:-1]
        run.cells[variable()] = begin + count * increment
        for cell in outside:
            run.cells.pop(cell(), None)
        for write in private:
            write(())

    return step


def _copied(program: Program, loop: Loop) -> Iterator[str]:
    """The names of which each iteration of a loop has copies."""
    yield from (name.name for name in loop.private)
    if loop.form.parallel:
        yield loop.variable
        yield from (inner.variable for inner in program.inner_loops(loop))


class _Reader:
    """Reads a statement, whose references are numbered as they come."""

    def __init__(self, run: Run, statement: Statement) -> None:
        self._run = run
        self._statement = statement
        self._number = 0
        self._loops = run.program.loops_round(statement.number)

    def number(self) -> int:
        """The number of the next reference."""
        self._number += 1
        return self._number

    def value(self, expression: Expression) -> _Value:
        """The value of an expression, or of a condition: 0 or 1."""
        if isinstance(expression, Number):
            constant = expression.value
            return lambda: constant
        if isinstance(expression, (Variable, Element)):
            return self._variable(expression)
        parts = [self.value(part) for part in expression.parts()]
        if isinstance(expression, Operation) and expression.operator.startswith("."):
            return _test(expression.operator, parts)

        def value() -> int:
            result = result_of(expression, [part() for part in parts])
            if result is None:
                raise Faulted
            return result

        return value

    def _variable(self, expression: Union[Variable, Element]) -> _Value:
        run, name = self._run, expression.name
        if isinstance(expression, Variable) and name in run.program.constants:
            constant = run.program.constants[name]
            return lambda: constant
        for loop in self._loops:
            if loop.variable == name:
                return partial(run.values.__getitem__, loop.number)
        place = self._place(expression)
        touch = self._touch(name)

        def value() -> int:
            content = run.cells.get(touch(place()))
            if content is None:
                raise Faulted
            return content

        return value

    def bound(self, expression: Expression) -> _Value:
        """The value of a bound of a DO."""
        value = self.value(expression)
        return lambda: _checked(value(), _BOUND)

    def item(self, expression: Expression) -> Callable[[], str]:
        """The text of an item of PRINT."""
        if isinstance(expression, Constant):
            text = expression.text[1:-1].replace("''", "'")
            return lambda: text
        value = self.value(expression)
        return lambda: str(value())

    def store(self, value: _Value, target: Union[Variable, Element]) -> _Step:
        """Stores a value, which comes before the subscripts of its target."""
        place, write = self._place(target), self.write(target.name)

        def step() -> None:
            new = value()
            subscripts = place()
            _checked(new, _STORED)
            self._run.cells[write(subscripts)] = new

        return step

    def _place(self, variable: Union[Variable, Element]) -> Callable[[], Tuple[int, ...]]:
        """The subscripts of a variable or an element, none for a variable."""
        subscripts = [self.value(part) for part in variable.parts()]
        bounds = self._run.bounds.get(variable.name, ())

        def place() -> Tuple[int, ...]:
            values = tuple([subscript() for subscript in subscripts])
            for value, dimension in zip(values, bounds):
                _checked(value, dimension)
            return values

        return place

    def write(self, name: str) -> Callable[[Tuple[int, ...]], Cell]:
        """A write of a name, by the next reference."""
        return self._touch(name)

    def _touch(self, name: str) -> Callable[[Tuple[int, ...]], Cell]:
        """The cell that the next reference touches at some subscripts; the access is told."""
        run, reference = self._run, (self._statement.number, self.number())
        owner, level = self._owner(name)
        if name not in run.names:
            return lambda place: Cell(name, place, owner, run.iterations[:level])

        def touch(place: Tuple[int, ...]) -> Cell:
            cell = Cell(name, place, owner, run.iterations[:level])
            run.tell(Access(reference, cell, run.iterations))
            return cell

        return touch

    def named(self, name: str) -> Callable[[], Cell]:
        """The cell of a scalar, which isn't touched by a reference."""
        owner, level = self._owner(name)
        return lambda: Cell(name, (), owner, self._run.iterations[:level])

    def _owner(self, name: str) -> Tuple[int, int]:
        """The innermost loop round the statement whose iterations have copies of a name, and its level."""
        owners = [loop for loop in self._loops if name in _copied(self._run.program, loop)]
        return (owners[-1].number, owners[-1].level) if owners else (0, 0)


def _test(relation: str, parts: Sequence[_Value]) -> _Value:
    """A relation of two values, or a logical operator."""
    if len(parts) == 1:
        return lambda: 1 - parts[0]()
    holds, (left, right) = _RELATIONS[relation], parts
    return lambda: int(holds(left(), right()))


def _checked(value: int, allowed: range) -> int:
    if value not in allowed:
        raise Faulted
    return value


def _bounds(program: Program, written: Sequence[str]) -> _Bounds:
    """The dimensions of an array, from what is written in its declaration."""
    dimensions = []
    for text in written:
        low, colon, high = text.rpartition(":")
        begin = _constant(program, low) if colon else 1
        dimensions.append(range(begin, _constant(program, high) + 1))
    return tuple(dimensions)


def _constant(program: Program, text: str) -> int:
    """The value of a constant expression."""
    width = LAST_COLUMN - FIRST_COLUMN + 1
    pieces = [text[first:first + width] for first in range(0, len(text), width)]
    lines = [("     &" if index else "      ") + piece for index, piece in enumerate(pieces)]
    value = value_of(read_expression(read_statements(lines)[0].text), program.constants)
    if value is None:
        raise Faulted
    return value


def _elements(bounds: _Bounds) -> Iterator[Tuple[int, ...]]:
    """The subscripts of an array's elements in storage order, the first one fastest."""
    return (place[::-1] for place in product(*reversed(bounds)))


class _Data:
    """The data, from which READ takes numbers."""

    def __init__(self, lines: Sequence[str]) -> None:
        self._lines = iter(lines)
        self._rest = ""
        #: Whether a number of this line was taken, so that a comma may come.
        self._goes_on = False

    def begin(self) -> None:
        """Goes to the next line."""
        line: Optional[str] = next(self._lines, None)
        if line is None:
            raise Faulted
        self._rest, self._goes_on = line.lstrip(_BLANKS), False

    def number(self) -> int:
        """The next number, of this line or of a later one."""
        if self._goes_on and self._rest.startswith(","):
            self._rest = self._rest[1:].lstrip(_BLANKS)
        while not self._rest:
            self.begin()
        match = _DATUM.match(self._rest)
        if match is None:
            raise Faulted
        self._rest, self._goes_on = self._rest[match.end():].lstrip(_BLANKS), True
        return int(match.group())
