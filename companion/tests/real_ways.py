"""Random programs with jumps, run by an interpreter that knows blocks and jumps alone, and no graph.

What a run does must be possible by the graph, the shapes and the sets of live names. A condition is true by chance.
"""

import random
import unittest
from dataclasses import dataclass, field
from typing import Dict, List, Sequence, Set, Tuple

from ..real import tree, units
from ..real.flow import END, Flow, step_of
from ..real.shape import shape_of
from .real_programs import Program
from .real_shape import _matched

SCALARS = ("S", "T", "U", "V")


class _Text:
    """Writes a subroutine of nested blocks; all jumps lead forward, inside the outermost DO."""

    def __init__(self, numbers: random.Random) -> None:
        self.numbers = numbers
        self.lines: List[str] = []
        self.label = 0
        self.loops: List[str] = []

    def program(self) -> str:
        """The text of a subroutine."""
        self.assignments(2)
        self.loop([], 0)
        self.assignments(2)
        return "\n".join(["SUBROUTINE WORK", *self.lines, "END", ""])

    def assignments(self, count: int) -> None:
        for _ in range(count):
            self.lines.append(self.assignment())

    def assignment(self) -> str:
        left, right = self.numbers.choice(SCALARS), self.numbers.choice((*SCALARS, "1"))
        return f"{left} = {right}"

    def condition(self) -> str:
        return f"({self.numbers.choice(SCALARS)} > 0)"

    def body(self, labels: List[int], depth: int) -> None:
        """Some statements; the label of one of them may be jumped to from those before it."""
        own = []
        if self.numbers.random() < 0.7:
            self.label += 10
            own = [self.label]
        count = self.numbers.randint(1, 4)
        for _ in range(count):
            self.statement([*labels, *own], depth)
        if own:
            self.lines.append(f"{own[0]} {self.assignment()}")
            self.statement(labels, depth)

    def statement(self, labels: List[int], depth: int) -> None:
        kind = self.numbers.choice(("=", "=", "=", "if", "jump", "jump", "block", "loop", "select"))
        if kind == "block" and depth < 4:
            self.block(labels, depth + 1)
        elif kind == "loop" and len(self.loops) < 3:
            self.loop(labels, depth + 1)
        elif kind == "select" and depth < 4:
            self.select(labels, depth + 1)
        elif kind == "jump":
            self.jump(labels)
        else:
            self.lines.append(self.assignment() if kind == "=" else f"IF {self.condition()} {self.assignment()}")

    def jump(self, labels: List[int]) -> None:
        jumps = ["CYCLE", f"CYCLE {self.numbers.choice(self.loops)}"]
        if len(self.loops) > 1:
            jumps += ["EXIT", f"EXIT {self.numbers.choice(self.loops[1:])}"]
        jumps += [f"GO TO {label}" for label in labels]
        jump = self.numbers.choice(jumps)
        kind = self.numbers.random()
        if kind < 0.6:
            self.lines.append(f"IF {self.condition()} {jump}")
        elif kind < 0.7:
            self.lines.append(jump)
        elif labels:
            chosen = ", ".join(str(self.numbers.choice(labels)) for _ in range(3))
            self.lines.append(f"GO TO ({chosen}), K" if kind < 0.85 else f"IF (S) {chosen}")

    def block(self, labels: List[int], depth: int) -> None:
        self.lines.append(f"IF {self.condition()} THEN")
        self.body(labels, depth)
        for _ in range(self.numbers.choice((0, 0, 1, 2))):
            self.lines.append(f"ELSE IF {self.condition()} THEN")
            self.body(labels, depth)
        if self.numbers.random() < 0.5:
            self.lines.append("ELSE")
            self.body(labels, depth)
        self.lines.append("END IF")

    def select(self, labels: List[int], depth: int) -> None:
        self.lines.append("SELECT CASE (K)")
        for value in range(self.numbers.randint(1, 3)):
            self.lines.append(f"CASE ({value})")
            self.body(labels, depth)
        if self.numbers.random() < 0.5:
            self.lines.append("CASE DEFAULT")
            self.body(labels, depth)
        self.lines.append("END SELECT")

    def loop(self, labels: List[int], depth: int) -> None:
        name = f"L{len(self.lines)}"
        self.loops.append(name)
        self.lines.append(f"{name}: DO {'IJK'[len(self.loops) - 1]}X = 1, N")
        self.body(labels, depth)
        self.lines.append(f"END DO {name}")
        self.loops.pop()


class _Jump(Exception):
    def __init__(self, label: int) -> None:
        super().__init__()
        self.label = label


class _Left(Exception):
    def __init__(self, statement: tree.Statement) -> None:
        super().__init__()
        self.name = statement.name if isinstance(statement, (tree.Cycle, tree.Exit)) else ""
        self.is_exit = isinstance(statement, tree.Exit)


class _TooLong(Exception):
    pass


@dataclass
class _Iteration:
    """An iteration: the statements at its level, the events of all its statements, and whether it came to its end."""

    head: int
    visited: List[int] = field(default_factory=list)
    first: int = 0
    last: int = 0
    is_whole: bool = True


class _Interpreter:
    """Runs a unit. `nodes` are the nodes of the graph in the order of the run, `events` the reads and writes."""

    def __init__(self, made: Program, numbers: random.Random) -> None:
        self.made = made
        self.numbers = numbers
        self.nodes: List[int] = []
        self.events: List[Tuple[bool, str]] = []
        self.iterations: List[_Iteration] = []
        self.exits: List[Tuple[units.Block, int]] = []
        self._open: List[_Iteration] = []

    def visit(self, number: int) -> None:
        self.nodes.append(number)
        if len(self.nodes) > 3000:
            raise _TooLong
        if self._open and number >= 0:
            self._open[-1].visited.append(number)

    def read(self, expression: tree.Expression) -> None:
        self.events += [(False, name) for name in tree.names_in(expression)]

    def body(self, nodes: Sequence[units.Node]) -> None:
        index = 0
        while index < len(nodes):
            try:
                node = nodes[index]
                self.block(node) if isinstance(node, units.Block) else self.statement(node)
                index += 1
            except _Jump as jump:
                places = [place for place, node in enumerate(nodes) if _label(node) == jump.label]
                if not places:
                    raise
                index = places[0]

    def statement(self, written: units.Written) -> None:
        self.visit(written.number)
        statement = written.statement
        if isinstance(statement, tree.LogicalIf):
            self.read(statement.condition)
            if self.numbers.random() < 0.5:
                return
            statement = statement.action
        self.action(statement)

    def action(self, statement: tree.Statement) -> None:
        if isinstance(statement, tree.Assignment):
            self.read(statement.value)
            self.events.append((True, str(statement.target)))
        elif isinstance(statement, tree.GoTo):
            raise _Jump(statement.label)
        elif isinstance(statement, (tree.Cycle, tree.Exit)):
            raise _Left(statement)
        elif isinstance(statement, tree.ArithmeticIf):
            self.read(statement.value)
            raise _Jump(self.numbers.choice(statement.labels))
        elif isinstance(statement, tree.ComputedGoTo):
            self.read(statement.selector)
            chosen = self.numbers.randint(0, len(statement.labels))
            if chosen < len(statement.labels):
                raise _Jump(statement.labels[chosen])

    def block(self, block: units.Block) -> None:
        if block.kind == "DO":
            self.loop(block)
            return
        self.visit(block.head.number)
        for expression in block.head.statement.expressions():
            self.read(expression)
        if block.kind == "IF":
            self.branches(block)
        else:
            chosen = self.numbers.randint(0, len(block.branches) - (1 if _has_default(block) else 0))
            if chosen < len(block.branches):
                self.visit(block.branches[chosen].head.number)
                self.body(block.branches[chosen].body)
        assert block.end is not None
        self.visit(block.end.number)

    def branches(self, block: units.Block) -> None:
        for branch in block.branches:
            if branch.head is not block.head:
                self.visit(branch.head.number)
                for expression in branch.head.statement.expressions():
                    self.read(expression)
            if isinstance(branch.head.statement, tree.Else) or self.numbers.random() < 0.5:
                self.body(branch.body)
                return

    def loop(self, block: units.Block) -> None:
        head, control = block.head.number, block.head.statement
        assert isinstance(control, tree.Do) and isinstance(control.control, tree.Counted) and block.end is not None
        self.visit(head)
        self.read(control.control.last)
        self.events.append((True, str(control.control.variable)))
        self.visit(step_of(head))
        depth = len(self._open)
        try:
            for _ in range(self.numbers.choice((0, 1, 1, 2, 3))):
                self.iteration(block)
                self.visit(step_of(head))
        except _Left as left:
            if not left.is_exit or left.name not in ("", block.name):
                raise
        finally:
            del self._open[depth:]
            self.exits.append((block, len(self.events)))

    def iteration(self, block: units.Block) -> None:
        found = _Iteration(block.head.number, first=len(self.events), is_whole=False)
        self._open.append(found)
        self.iterations.append(found)
        try:
            self.body(block.body)
            assert block.end is not None
            self.visit(block.end.number)
            found.is_whole = True
        except _Left as left:
            if left.is_exit or left.name not in ("", block.name):
                raise
            found.is_whole = True
        finally:
            found.last = len(self.events)
            self._open.pop()


def _label(node: units.Node) -> int:
    written = node.head if isinstance(node, units.Block) else node
    return -1 if written.item.label is None else written.item.label


def _has_default(block: units.Block) -> bool:
    statement = block.branches[-1].head.statement
    return isinstance(statement, tree.Case) and statement.values is None


class Ways(unittest.TestCase):
    def test_random_programs(self) -> None:
        numbers = random.Random(710)
        runs = 0
        for _ in range(20):
            text = _Text(numbers).program()
            made = Program(text)
            self.assertEqual(made.unit.faults, (), text)
            self.assertEqual(made.body().faults, (), text)
            shapes = self.shapes(made)
            for _ in range(15):
                runs += self.run_once(made, numbers, shapes, text)
        self.assertGreater(runs, 200)

    def shapes(self, made: Program) -> Dict[int, Tuple[object, Set[int]]]:
        """The shape of each DO's iteration, with the statements that it has."""
        found: Dict[int, Tuple[object, Set[int]]] = {}
        for block in made.loops:
            is_outer = block is made.loops[0]
            body = Flow(made.unit).body(block) if is_outer else Flow(made.unit).inner_body(block)
            found[block.head.number] = (shape_of(body), set(body.nodes))
        return found

    def run_once(
        self, made: Program, numbers: random.Random, shapes: Dict[int, Tuple[object, Set[int]]], text: str
    ) -> int:
        run = _Interpreter(made, numbers)
        try:
            run.body(made.unit.body)
        except _TooLong:
            return 0
        graph = made.facts.graph
        for node, following in zip([*run.nodes], [*run.nodes[1:], END]):
            self.assertIn(following, graph.successors[node], (text, node, following))
        self.check_live(made, run, text)
        for one in run.iterations:
            self.check_iteration(made, run, one, shapes, text)
        return 1

    def check_live(self, made: Program, run: _Interpreter, text: str) -> None:
        """Each name that is read after a DO before it's assigned is live there."""
        for block, place in run.exits:
            read = _exposed(run.events[place:])
            self.assertLessEqual(read, made.facts.liveness.live_after(block), (text, block.head))

    def check_iteration(
        self, made: Program, run: _Interpreter, one: _Iteration, shapes: Dict[int, Tuple[object, Set[int]]], text: str
    ) -> None:
        events = run.events[one.first:one.last]
        block = next(block for block in made.loops if block.head.number == one.head)
        known = made.facts.liveness.iteration(block)
        self.assertLessEqual(_exposed(events), known.exposed, text)
        self.assertLessEqual({name for writes, name in events if writes}, known.assigned, text)
        if one.is_whole:
            self.assertLessEqual(known.always, {name for writes, name in events if writes}, text)
        shape, nodes = shapes[one.head]
        statements = {written.number: written.statement for written in block.statements()}
        way = [number for number in one.visited if number in nodes and not isinstance(statements[number], _SILENT)]
        self.assertIn(len(way), _matched(shape, way, {0}), (text, block.head, way))  # type: ignore[arg-type]


_SILENT = (tree.Continue, tree.GoTo, tree.Cycle, tree.Exit, tree.End, tree.Else, tree.Case)


def _exposed(events: Sequence[Tuple[bool, str]]) -> Set[str]:
    """The names that are read before they are assigned."""
    assigned: Set[str] = set()
    found: Set[str] = set()
    for writes, name in events:
        if writes:
            assigned.add(name)
        elif name not in assigned:
            found.add(name)
    return found
