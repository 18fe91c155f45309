"""Runs subroutines of INTEGERs, statement by statement, and notes what each iteration of a loop reads and writes.

It knows nothing of models: it looks at the trees of statements alone. So it tells whether a verdict misses something.
Arrays have no bounds here: each element that is asked for is there.

A component of a structure is a cell with the name `P%X`, and with the indices of all parts.

Procedures get their arguments by reference. What they read and write is noted at the line of the CALL, or of the
statement with the function, under the names of the unit that is run. A variable of a common block or a module that this
unit doesn't name is called after its block or its module.
"""

from __future__ import annotations

import operator
import random
from collections import defaultdict
from typing import Callable, DefaultDict, Dict, Iterator, List, NamedTuple, Optional, Sequence, Set, Tuple

from ..real import tree
from ..real.designators import chain_of
from ..real.symbols import Scopes, Symbol, Symbols
from ..real.units import Block, Node, Unit, Written

#: An element, or a scalar, whose indices are empty.
Cell = Tuple[str, Tuple[int, ...]]


class Event(NamedTuple):
    """Whether a cell is written, the cell, and the line of the statement.

    `is_reached` means that a procedure used it under a name of its own.
    """

    writes: bool
    cell: Cell
    line: int
    is_reached: bool = False


class Endless(Exception):
    """A run that takes too long, or that leaves the bounds of a section, so that it shows nothing."""


class _Jump(Exception):
    """GO TO, CYCLE and EXIT: `word` is a label, `CYCLE` or `EXIT`."""

    def __init__(self, word: object) -> None:
        super().__init__()
        self.word = word


class _Return(Exception):
    """RETURN."""


class Frame(NamedTuple):
    """The names of one run of a procedure: where its scalars are, and where the elements of its arrays are.

    `globals` are the names of what it hasn't got as an argument.
    """

    unit: Unit
    scalars: Dict[str, Cell]
    arrays: Dict[str, Callable[[Tuple[int, ...]], Cell]]
    globals: Set[str]


class Run:
    """One run of a unit. `iterations` has the events of each iteration, for each time that a loop is carried out.

    `after` are the events from the end of each such time on.
    """

    def __init__(
        self, unit: Unit, arrays: Sequence[str], values: Dict[str, int], seed: int, scopes: Optional[Scopes] = None,
        procedures: Sequence[Unit] = (),
    ) -> None:
        self._unit = unit
        self._arrays = frozenset(arrays)
        self._scopes = scopes
        self._procedures = {one.name: one for one in procedures}
        self._frames: List[Frame] = []
        self._calls = 0
        self._memory: Dict[Cell, int] = {(name, ()): value for name, value in values.items()}
        self._random = random.Random(seed)
        self._events: List[Event] = []
        self._line = 0
        self._steps = 0
        self._element: Optional[int] = None
        self.iterations: DefaultDict[int, List[List[List[Event]]]] = defaultdict(list)
        self.after: DefaultDict[int, List[int]] = defaultdict(list)

    @property
    def events(self) -> Sequence[Event]:
        """All events of the run."""
        return self._events

    def carry_out(self) -> None:
        """Runs the unit."""
        if self._scopes is not None:
            own = self._frame(self._unit, {}, {})
            self._frames.append(own)
        try:
            self._body(self._unit.body)
        except _Return:
            pass

    def _body(self, nodes: Sequence[Node]) -> None:
        index = 0
        while index < len(nodes):
            try:
                self._node(nodes[index])
                index += 1
            except _Jump as jump:
                labels = [(one.head if isinstance(one, Block) else one).item.label for one in nodes]
                if jump.word not in labels or not isinstance(jump.word, int):
                    raise
                index = labels.index(jump.word)

    def _node(self, node: Node) -> None:
        self._steps += 1
        if self._steps > 20000:
            raise Endless
        if isinstance(node, Written):
            self._at(node)
            self._statement(node.statement)
        elif node.kind == "DO":
            self._loop(node)
        elif node.kind == "IF":
            self._if(node)
        else:
            self._select(node)

    def _at(self, written: Written) -> None:
        """Notes the line of a statement of the unit that is run."""
        if len(self._frames) < 2:
            self._line = written.item.first

    def _if(self, block: Block) -> None:
        for branch in block.branches:
            statement = branch.head.statement
            self._at(branch.head)
            if not isinstance(statement, (tree.IfThen, tree.ElseIf)) or self.value(statement.condition):
                self._body(branch.body)
                return

    def _select(self, block: Block) -> None:
        statement = block.head.statement
        assert isinstance(statement, tree.SelectCase)
        self._at(block.head)
        value = self.value(statement.selector)
        for branch in block.branches:
            case = branch.head.statement
            assert isinstance(case, tree.Case)
            if case.values is None or any(self.value(one) == value for one in case.values):
                self._body(branch.body)
                return

    def _loop(self, block: Block) -> None:
        statement = block.head.statement
        assert isinstance(statement, tree.Do)
        is_outer = len(self._frames) < 2
        control, line = statement.control, block.head.item.first if is_outer else self._line
        times: List[List[Event]] = []
        if is_outer:
            self.iterations[line].append(times)
        for _ in self._counted(control, line) if isinstance(control, tree.Counted) else self._while(control, line):
            first = len(self._events)
            try:
                self._body(block.body)
            except _Jump as jump:
                if jump.word == "EXIT":
                    break
                if jump.word != "CYCLE":
                    raise
            finally:
                times.append(self._events[first:])
        if is_outer:
            self.after[line].append(len(self._events))

    def _counted(self, control: tree.Counted, line: int) -> Iterator[None]:
        self._line = line
        first, last = self.value(control.first), self.value(control.last)
        step = 1 if control.step is None else self.value(control.step)
        variable = control.variable
        count = max((last - first + step) // step, 0)
        for number in range(count):
            self._memory[self._cell(variable)] = first + number * step
            self._events.append(Event(True, self._cell(variable), line, self._is_reached(variable)))
            yield None
        self._line = line
        self._write(variable, first + count * step)

    def _while(self, control: object, line: int) -> Iterator[None]:
        assert isinstance(control, tree.While)
        for _ in range(9):
            self._line = line
            if not self.value(control.condition):
                return
            yield None

    def _statement(self, statement: tree.Statement) -> None:
        if isinstance(statement, tree.Assignment):
            self._assign(statement)
        elif isinstance(statement, tree.LogicalIf):
            if self.value(statement.condition):
                self._statement(statement.action)
        elif isinstance(statement, tree.GoTo):
            raise _Jump(statement.label)
        elif isinstance(statement, (tree.Cycle, tree.Exit)):
            raise _Jump(type(statement).__name__.upper())
        elif isinstance(statement, tree.Call):
            self._call(tree.root_of(statement.procedure), statement.arguments)
        elif isinstance(statement, tree.Return):
            raise _Return

    def _assign(self, statement: tree.Assignment) -> None:
        if self._is_structure(statement.target):
            self._copy(statement)
            return
        section = next((one for one in _arguments(statement.target) if isinstance(one, tree.Section)), None)
        if section is None:
            value = self.value(statement.value)
            self._write(statement.target, value)
            return
        assert section.first is not None and section.last is not None
        count = self.value(section.last) - self.value(section.first) + 1
        values = []
        for self._element in range(count):
            values.append(self.value(statement.value))
        for self._element, value in enumerate(values):
            self._write(statement.target, value)

    def _designated(self, designator: tree.Expression) -> Optional[Symbol]:
        """The variable or component that a designator names."""
        if self._scopes is None or not tree.root_of(designator):
            return None
        return self._scopes.of(self._frames[-1].unit).designated(designator)

    def _is_structure(self, designator: tree.Expression) -> bool:
        found = self._designated(designator)
        return found is not None and found.type == "TYPE"

    def _copy(self, statement: tree.Assignment) -> None:
        """An assignment of a structure whose components are X and Y."""
        values = [self.value(tree.Component(statement.value, name)) for name in "XY"]
        for name, value in zip("XY", values):
            self._write(tree.Component(statement.target, name), value)

    def _write(self, target: tree.Expression, value: int) -> None:
        if abs(value) > 10**9:
            raise Endless
        cell = self._cell(target)
        self._memory[cell] = value
        self._events.append(Event(True, cell, self._line, self._is_reached(target)))

    def _is_reached(self, designator: tree.Expression) -> bool:
        """Whether a procedure has a variable otherwise than as an argument."""
        return len(self._frames) > 1 and tree.root_of(designator) in self._frames[-1].globals

    def _cell(self, designator: tree.Expression) -> Cell:
        chain = chain_of(designator)
        frame, name = self._frames[-1] if self._frames else None, tree.root_of(designator)
        at = 2 if len(chain) > 1 and isinstance(chain[1], tree.Reference) else 1
        if at == 1:
            found = (name, ()) if frame is None else frame.scalars.get(name, (name, ()))
        else:
            array, indices = None if frame is None else frame.arrays.get(name), self._indices(chain[1])
            found = (name, indices) if array is None else array(indices)
        for part in chain[at:]:
            if isinstance(part, tree.Component):
                found = (f"{found[0]}%{part.component}", found[1])
            else:
                found = (found[0], found[1] + self._indices(part))
        return found

    def _indices(self, reference: tree.Expression) -> Tuple[int, ...]:
        """The subscripts of an element; in a section those of the element that is worked on."""
        indices = []
        for argument in _arguments(reference):
            if isinstance(argument, tree.Section):
                assert argument.first is not None and self._element is not None
                step = 1 if argument.step is None else self.value(argument.step)
                indices.append(self.value(argument.first) + step * self._element)
            else:
                indices.append(self.value(argument))
        return tuple(indices)

    # --- Procedures ----------------------------------------------------------------------------------------------

    def _call(self, name: str, arguments: Sequence[tree.Expression]) -> int:
        """Runs a procedure, and answers what a function's result is then."""
        assert self._scopes is not None
        unit = self._procedures[name if name in self._procedures else self._specific(name, arguments[0])]
        head = unit.head.statement if unit.head is not None else None
        assert isinstance(head, tree.Head)
        self._calls += 1
        if self._calls > 300 or len(self._frames) > 20:
            raise Endless
        scalars: Dict[str, Cell] = {}
        arrays: Dict[str, Callable[[Tuple[int, ...]], Cell]] = {}
        symbols = self._scopes.of(unit)
        for dummy, actual in zip(head.arguments, arguments):
            symbol = symbols.get(dummy)
            if symbol.rank:
                arrays[dummy] = self._array(actual, symbol)
            else:
                scalars[dummy] = self._scalar(actual)
        frame = self._frame(unit, scalars, arrays)
        self._frames.append(frame)
        # Bounds are evaluated when the run begins.
        for dummy in arrays:
            for bound in symbols.get(dummy).bounds:
                for one in (bound.lower, bound.upper):
                    if isinstance(one, tree.Name):
                        self.value(one)
        try:
            self._body(unit.body)
        except _Return:
            pass
        finally:
            self._frames.pop()
        return self._memory.get(frame.scalars.get(head.name, ("", ())), 0)

    def _specific(self, name: str, actual: tree.Expression) -> str:
        """The procedure of a generic name: one for scalars, one for arrays, one for structures."""
        symbol = self._designated(actual)
        is_array = symbol is not None and symbol.rank and not isinstance(actual, tree.Reference)
        return name + ("P" if self._is_structure(actual) else "A" if is_array else "I")

    def _scalar(self, actual: tree.Expression) -> Cell:
        """The place of a scalar argument; that of a value is nobody else's."""
        is_known = isinstance(actual, tree.Name) or tree.root_of(actual) in self._known_arrays() or any(
            isinstance(part, tree.Component) for part in chain_of(actual)
        )
        if is_known and tree.root_of(actual):
            return self._cell(actual)
        value = self.value(actual)
        cell = (f"value {len(self._events)} {self._calls} {actual}", ())
        self._memory[cell] = value
        return cell

    def _known_arrays(self) -> Set[str]:
        return set(self._frames[-1].arrays) | (set(self._arrays) if len(self._frames) == 1 else set())

    def _array(self, actual: tree.Expression, dummy: Symbol) -> Callable[[Tuple[int, ...]], Cell]:
        """Where the elements of an array dummy are."""
        outer, symbol = self._outer(actual)
        given = [(1, None) if lower is None else (lower, upper) for lower, upper in symbol.extents]
        own = [(1, None) if lower is None else (lower, upper) for lower, upper in dummy.extents]
        own = [
            (lower, self._upper(dummy, place) if upper is None else upper) for place, (lower, upper) in enumerate(own)
        ]
        begin = [lower for lower, _ in given]
        steps: List[Tuple[int, int, int]] = []
        for place, argument in enumerate(_arguments(actual)):
            if isinstance(argument, tree.Section):
                step = 1 if argument.step is None else self.value(argument.step)
                begin[place] = given[place][0] if argument.first is None else self.value(argument.first)
                last = begin[place] if argument.last is None else self.value(argument.last)
                steps.append((place, step, (last - begin[place] + step) // step))
            else:
                begin[place] = self.value(argument)
        if steps:
            return _section(outer, begin, steps, own)
        extents = [None if upper is None else upper - lower + 1 for lower, upper in given]
        sizes = [None if upper is None else upper - lower + 1 for lower, upper in own]
        if not _arguments(actual) and len(given) == len(own) and extents[:-1] == sizes[:-1]:
            return lambda indices: outer(tuple(
                index - lower + first for index, (lower, _), first in zip(indices, own, begin)
            ))
        return lambda indices: outer(_unfolded(
            _folded([index - lower for index, (lower, _) in zip(indices, own)], sizes)
            + _folded([index - lower for index, (lower, _) in zip(begin, given)], extents),
            extents, [lower for lower, _ in given],
        ))

    def _outer(self, actual: tree.Expression) -> Tuple[Callable[[Tuple[int, ...]], Cell], Symbol]:
        """Where the elements of an array are that is given, and its bounds."""
        whole = actual.base if isinstance(actual, tree.Reference) else actual
        symbol = self._designated(whole)
        assert symbol is not None
        if isinstance(whole, tree.Name):
            return self._frames[-1].arrays[whole.name], symbol
        name, first = self._cell(whole)
        return lambda indices: (name, first + indices), symbol

    def _upper(self, dummy: Symbol, place: int) -> Optional[int]:
        """An upper bound that is another dummy; it isn't asked for of the last dimension."""
        return 9999 if place < dummy.rank - 1 else None

    def _frame(
        self, unit: Unit, scalars: Dict[str, Cell], arrays: Dict[str, Callable[[Tuple[int, ...]], Cell]]
    ) -> Frame:
        """The names of a run: its arguments, its common blocks, what its host and modules have, and its own."""
        assert self._scopes is not None
        symbols, top = self._scopes.of(unit), self._scopes.of(self._unit)
        found: Set[str] = set()
        for name in sorted(symbols.words):
            symbol = symbols.get(name)
            if name in scalars or name in arrays or not symbol.is_variable:
                continue
            if unit is self._unit and not symbol.block and symbol.home == unit.path:
                if symbol.rank:
                    arrays[name] = _named(name)
                continue
            cells = self._outside(symbols, top, symbol)
            if cells is None:
                scalars[name] = (f"{unit.path} {self._calls} {name}", ())
                continue
            found.add(name)
            if symbol.rank:
                arrays[name] = cells
            else:
                scalars[name] = cells(())
        return Frame(unit, scalars, arrays, found)

    def _outside(
        self, symbols: Symbols, top: Symbols, symbol: Symbol
    ) -> Optional[Callable[[Tuple[int, ...]], Cell]]:
        """Where a variable of a common block, a module or the host is; none for one of the unit itself."""
        if symbol.block:
            offset = _offset(symbols, symbol)
            return lambda indices: _common(top, symbol.block, offset + (indices[0] - 1 if indices else 0))
        if symbol.home == self._unit.path and symbol.home != symbols.unit.path:
            return _named(symbol.original)
        if symbol.home != symbols.unit.path:
            seen = [name for name in sorted(top.words) if _is_one(top.get(name), symbol)]
            return _named(seen[0] if seen else f"{symbol.home}:{symbol.original}")
        return None

    def value(self, expression: tree.Expression) -> int:
        """The value of an expression, whose reads are noted."""
        if isinstance(expression, tree.Literal):
            return int(expression.text)
        if isinstance(expression, tree.Parentheses):
            return self.value(expression.inner)
        if isinstance(expression, tree.Operation):
            return int(_COMPUTE[expression.operator](*map(self.value, expression.operands)))
        if isinstance(expression, tree.Reference) and isinstance(expression.base, tree.Name) and \
                expression.root in self._procedures:
            return self._call(expression.root, expression.arguments)
        if isinstance(expression, tree.Reference) and expression.root in _CALL:
            return int(_CALL[expression.root](*map(self.value, expression.arguments)))
        cell = self._cell(expression)
        if cell not in self._memory:
            self._memory[cell] = self._random.randint(-2, 9)
        self._events.append(Event(False, cell, self._line, self._is_reached(expression)))
        return self._memory[cell]


def _is_one(left: Symbol, right: Symbol) -> bool:
    """Whether two units mean one variable."""
    return (left.home, left.original) == (right.home, right.original)


def _named(name: str) -> Callable[[Tuple[int, ...]], Cell]:
    return lambda indices: (name, indices)


def _section(
    outer: Callable[[Tuple[int, ...]], Cell], begin: Sequence[int], steps: Sequence[Tuple[int, int, int]],
    own: Sequence[Tuple[int, Optional[int]]],
) -> Callable[[Tuple[int, ...]], Cell]:
    """The elements of a section as those of a dummy with its own lower bounds."""
    def cell(indices: Tuple[int, ...]) -> Cell:
        found = list(begin)
        for (place, step, count), index, (lower, _) in zip(steps, indices, own):
            if not 0 <= index - lower < count:
                raise Endless
            found[place] += (index - lower) * step
        return outer(tuple(found))
    return cell


def _folded(offsets: Sequence[int], sizes: Sequence[Optional[int]]) -> int:
    """How many elements come before one, whose offsets from the first one are given."""
    count, factor = 0, 1
    for offset, size in zip(offsets, sizes):
        count += offset * factor
        factor *= size or 1
    return count


def _unfolded(count: int, sizes: Sequence[Optional[int]], lowers: Sequence[int]) -> Tuple[int, ...]:
    """The indices of the element that so many others come before."""
    found = []
    for size, lower in zip(sizes[:-1], lowers):
        count, rest = divmod(count, size or 1)
        found.append(rest + lower)
    return (*found, count + lowers[-1])


def _offset(symbols: Symbols, symbol: Symbol) -> int:
    """How many INTEGERs come before a variable in its block."""
    offset = 0
    for name in symbols.declarations.blocks[symbol.block]:
        if name == symbol.original:
            break
        offset += _length(symbols.get(name))
    return offset


def _length(symbol: Symbol) -> int:
    length = 1
    for lower, upper in symbol.extents:
        assert lower is not None and upper is not None
        length *= upper - lower + 1
    return length


def _common(top: Symbols, block: str, offset: int) -> Cell:
    """A place of a block, by the name that the unit has for it which is run."""
    before = 0
    for name in top.declarations.blocks.get(block, []):
        length = _length(top.get(name))
        if before <= offset < before + length:
            if name not in top.words:
                break
            return name, (offset - before + 1,) if top.get(name).rank else ()
        before += length
    return block, (offset,)


def _arguments(designator: tree.Expression) -> Tuple[tree.Expression, ...]:
    return designator.arguments if isinstance(designator, tree.Reference) else ()


def _divided(left: int, right: int) -> int:
    quotient = abs(left) // abs(right) if right else 0
    return quotient if (left < 0) == (right < 0) else -quotient


def _taken(left: int, right: Optional[int] = None) -> int:
    return -left if right is None else left - right


_COMPUTE: Dict[str, Callable[..., int]] = {
    "+": operator.add, "*": operator.mul, "/": _divided, ".GT.": operator.gt, ".LT.": operator.lt, ".EQ.": operator.eq,
    "-": _taken,
}
_CALL: Dict[str, Callable[..., int]] = {"MIN": min, "MAX": max}


def conflicts(iterations: Sequence[Sequence[Event]]) -> Set[Tuple[str, int, int, str]]:
    """Name, lines and kind of each two events of different iterations at one cell, one of them a write."""
    found: Set[Tuple[str, int, int, str]] = set()
    known: DefaultDict[Cell, Set[Tuple[bool, int]]] = defaultdict(set)
    for events in iterations:
        for writes, cell, line, _ in events:
            for wrote, before in known[cell]:
                if writes or wrote:
                    kind = "output" if writes and wrote else "anti" if writes else "flow"
                    found.add((cell[0], before, line, kind))
        for writes, cell, line, _ in events:
            known[cell].add((writes, line))
    return found


def reads_first(events: Sequence[Event], name: str) -> bool:
    """Whether a scalar is read before it is written."""
    return next((not event.writes for event in events if event.cell == (name, ())), False)
