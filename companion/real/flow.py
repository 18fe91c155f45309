"""Where the run of a unit, or of one iteration of a DO, goes on after each statement.

A node of a graph is the number of a statement. A DO has a second node, its step, where the next iteration begins or the
DO ends; a DO WHILE evaluates its condition there. `END` is the end of the unit, or of the iteration. Each edge that may
be taken is there. Some edges can't be taken.
"""

from __future__ import annotations

from dataclasses import dataclass, field
from typing import Callable, Dict, FrozenSet, Iterable, Iterator, List, Mapping, Optional, Sequence, Set, Tuple

from . import tree
from .units import Block, Fault, Node, Unit, Written

#: The end of a unit, or of an iteration.
END = -1

Successors = Mapping[int, Tuple[int, ...]]


#: Words in the text of output that may jump or write further variables: then its text alone says too little.
_BEYOND_OUTPUT = frozenset(["ERR", "END", "EOR", "IOSTAT", "IOMSG", "SIZE", "ID", "NML"])

_CONTINUE = tree.Continue()


def is_plain_output(written: Written) -> bool:
    """Whether a statement is output that doesn't jump, by its words alone: the library needn't read it."""
    return written.word in ("PRINT", "WRITE") and not written.names & _BEYOND_OUTPUT


def step_of(head: int) -> int:
    """The node where the next iteration of a DO is begun or the DO is left."""
    return -2 - head


@dataclass
class Graph:
    """The flow graph of a unit.

    `statements` are those of all nodes; a step has the statement of its DO. `bound` are the variables of FORALL and DO
    CONCURRENT around a statement. `aliased` has an entry for each statement in ASSOCIATE, BLOCK and SELECT TYPE: the
    names that have another name there. Such a statement may assign another variable than it seems. The run of a unit
    begins at `entry`, or at an ENTRY, which is among `further_entries`. `is_open` means that edges may be missing: an
    assigned GO TO without labels, a label that isn't there.
    """

    entry: int = END
    statements: Dict[int, Written] = field(default_factory=dict)
    successors: Dict[int, Tuple[int, ...]] = field(default_factory=dict)
    bound: Dict[int, FrozenSet[str]] = field(default_factory=dict)
    aliased: Dict[int, FrozenSet[str]] = field(default_factory=dict)
    is_open: bool = False
    further_entries: Tuple[int, ...] = ()

    @property
    def entries(self) -> Tuple[int, ...]:
        """All nodes at which a run of the unit may begin."""
        return (self.entry, *self.further_entries)

    def members(self, loop: Block) -> FrozenSet[int]:
        """The nodes of a DO: its head, its step, all its statements with their steps."""
        numbers = {written.number for written in loop.statements()}
        return frozenset(numbers | {step_of(number) for number in numbers if step_of(number) in self.statements})


@dataclass
class Body:
    """The graph of one iteration of a DO, without cycles.

    A node is a statement, or an inner DO, WHERE or FORALL as a whole. All edges lead forward in the text. `first` is
    where an iteration begins. `faults` are jumps that such a graph can't have; with any of them it must not be used.
    """

    first: int
    nodes: Dict[int, Node]
    successors: Dict[int, Tuple[int, ...]]
    faults: Tuple[Fault, ...] = ()


class Flow:
    """The flow of a unit. Its statements are read where a graph or a body is asked for."""

    def __init__(self, unit: Unit) -> None:
        self.unit = unit
        self._labels: Dict[int, int] = {
            written.item.label: written.number for written in unit.statements()
            if written.item.label is not None and written.word != "FORMAT"
        }
        self._graph: Optional[Graph] = None
        self._jumps: Optional[List[Tuple[Written, Tuple[int, ...]]]] = None

    @property
    def graph(self) -> Graph:
        """The flow graph of the unit's body."""
        if self._graph is None:
            builder = _Builder(self._labels)
            builder.graph.entry = builder.sequence(self.unit.body, END)
            builder.graph.further_entries = tuple(
                number for number, written in builder.graph.statements.items() if written.word == "ENTRY"
            )
            self._graph = builder.graph
        return self._graph

    def body(self, loop: Block) -> Body:
        """The graph of an iteration of a loop that gets a verdict, with the faults of jumps in it and into it."""
        inner = _jump_faults(loop, self._labels)
        return _body(self._labels, loop, (*inner, *self._faults_from_outside(loop)))

    def inner_body(self, loop: Block) -> Body:
        """The graph of an iteration of a DO inside such a loop: each jump out of it leads to the end of the iteration.

        So does EXIT: whether more iterations follow is left open. It has no faults of its own.
        """
        return _body(self._labels, loop, ())

    def _faults_from_outside(self, loop: Block) -> Iterator[Fault]:
        """Jumps into a loop from other statements of its unit, and labels in it that a variable may hold."""
        numbers = {written.number for written in loop.statements()} - {loop.head.number}
        for written, labels in self._all_jumps():
            if written.number in numbers and not isinstance(_action(written.statement), tree.AssignLabel):
                continue
            for label in labels:
                if self._labels.get(label, END) in numbers:
                    yield Fault("goto", written.item.first, f"label {label} in the loop is jumped to from outside")

    def _all_jumps(self) -> List[Tuple[Written, Tuple[int, ...]]]:
        """The statements with labels to which they jump, or which they assign to a variable."""
        if self._jumps is None:
            found = [(written, _named_labels(_read(written))) for written in self.unit.statements()]
            self._jumps = [(written, labels) for written, labels in found if labels]
        return self._jumps


def dominators(entry: int, successors: Successors) -> Dict[int, int]:
    """The immediate dominator of each node that can be reached from the entry, whose own is itself.

    It is the way of Cooper, Harvey and Kennedy: the nodes in reverse postorder, until nothing changes.
    """
    order = _reverse_postorder(entry, successors)
    position = {node: index for index, node in enumerate(order)}
    predecessors = reversed_edges({node: successors.get(node, ()) for node in order})
    found = {entry: entry}
    changed = True
    while changed:
        changed = False
        for node in order[1:]:
            known = [one for one in predecessors[node] if one in found]
            nearest = known[0]
            for one in known[1:]:
                nearest = _common(nearest, one, found, position)
            if found.get(node) != nearest:
                found[node] = nearest
                changed = True
    return found


def postdominators(successors: Successors) -> Dict[int, int]:
    """The immediate postdominator of each node from which `END` can be reached; that of `END` is itself."""
    return dominators(END, reversed_edges(successors))


def reversed_edges(successors: Successors) -> Dict[int, Tuple[int, ...]]:
    """The edges the other way round."""
    found: Dict[int, List[int]] = {node: [] for node in successors}
    for node, nexts in successors.items():
        for following in dict.fromkeys(nexts):
            found.setdefault(following, []).append(node)
    return {node: tuple(nodes) for node, nodes in found.items()}


def has_iteration(control: tree.Counted, value_of: Callable[[tree.Expression], Optional[int]]) -> bool:
    """Whether the bounds of a DO are constants, by `value_of`, and give at least one iteration."""
    first, last = value_of(control.first), value_of(control.last)
    step = 1 if control.step is None else value_of(control.step)
    if first is None or last is None or not step:
        return False
    return first <= last if step > 0 else first >= last


def _common(left: int, right: int, found: Mapping[int, int], position: Mapping[int, int]) -> int:
    while left != right:
        if position[left] > position[right]:
            left = found[left]
        else:
            right = found[right]
    return left


def _reverse_postorder(entry: int, successors: Successors) -> List[int]:
    order: List[int] = []
    seen = {entry}
    waiting: List[Tuple[int, Iterator[int]]] = [(entry, iter(successors.get(entry, ())))]
    while waiting:
        node, nexts = waiting[-1]
        following = next((one for one in nexts if one not in seen), None)
        if following is None:
            order.append(node)
            waiting.pop()
        else:
            seen.add(following)
            waiting.append((following, iter(successors.get(following, ()))))
    return order[::-1]


# --- Jumps ---------------------------------------------------------------------------------------------------------


@dataclass(frozen=True)
class _Jumps:
    """Where a statement may go besides the next one.

    `leaves` means that the run of the unit ends, `anywhere` that the place isn't known.
    """

    labels: Tuple[int, ...] = ()
    leaves: bool = False
    goes_on: bool = True
    anywhere: bool = False


_NO_JUMPS = _Jumps()


def _jumps(statement: tree.Statement) -> _Jumps:
    """The jumps of a statement, but for CYCLE and EXIT."""
    if isinstance(statement, tree.GoTo):
        return _Jumps((statement.label,), goes_on=False)
    if isinstance(statement, tree.ComputedGoTo):
        return _Jumps(statement.labels)
    if isinstance(statement, tree.ArithmeticIf):
        return _Jumps(statement.labels, goes_on=False)
    if isinstance(statement, tree.AssignedGoTo):
        # Its variable has one of the labels where they are written (ANSI X3.9-1978, 11.3).
        return _Jumps(statement.labels, goes_on=False, anywhere=not statement.labels)
    if isinstance(statement, tree.Return) or isinstance(statement, tree.Stop) and statement.word != "PAUSE":
        return _Jumps(leaves=True, goes_on=False)
    if isinstance(statement, tree.LogicalIf):
        action = _jumps(statement.action)
        return _Jumps(action.labels, action.leaves, True, action.anywhere)
    if isinstance(statement, tree.InputOutput):
        return _Jumps(tuple(label for label in statement.jumps if label > 0), anywhere=-1 in statement.jumps)
    if isinstance(statement, tree.Call):
        return _Jumps(tuple(one.label for one in statement.arguments if isinstance(one, tree.AlternateReturn)))
    if isinstance(statement, tree.Unreadable):
        return _Jumps(leaves=True, anywhere=True)
    return _NO_JUMPS


def _read(written: Written) -> tree.Statement:
    """What a statement says; CONTINUE for those that needn't be read, as they don't jump."""
    return _CONTINUE if is_plain_output(written) or written.word in ("FORMAT", "DATA") else written.statement


def _action(statement: tree.Statement) -> tree.Statement:
    """The action of a logical IF, any other statement itself."""
    return statement.action if isinstance(statement, tree.LogicalIf) else statement


def _named_labels(statement: tree.Statement) -> Tuple[int, ...]:
    """The labels to which a statement jumps, or which it assigns to a variable."""
    action = _action(statement)
    return (action.label,) if isinstance(action, tree.AssignLabel) else _jumps(statement).labels


def _jump_faults(loop: Block, labels: Mapping[int, int]) -> Iterator[Fault]:
    """Jumps of a loop that the graph of an iteration doesn't have: out of the loop, backward, into an inner DO."""
    statements = list(loop.statements())
    numbers = {written.number for written in statements} - {loop.head.number}
    rounds = _loops_round(loop)
    for written in statements:
        line = written.item.first
        jumps = _jumps(written.statement)
        if jumps.leaves and not isinstance(written.statement, tree.Unreadable):
            yield Fault("exit", line, "the run may leave the loop")
        if jumps.anywhere and not isinstance(written.statement, tree.Unreadable):
            yield Fault("goto", line, "where the run goes on isn't known")
        for label in jumps.labels:
            target = labels.get(label, END)
            if target not in numbers:
                yield Fault("exit", line, f"a jump to {label} leaves the loop")
            elif target <= written.number:
                yield Fault("goto", line, f"a jump to {label} goes back")
            elif not rounds[target] <= rounds[written.number]:
                yield Fault("goto", line, f"a jump to {label} goes into a DO")
        if _leaves_by_name(_action(written.statement), loop, rounds[written.number]):
            yield Fault("exit", line, f"{type(_action(written.statement)).__name__.upper()} leaves the loop")


def _loops_round(loop: Block) -> Dict[int, FrozenSet[int]]:
    """For each statement of a loop the DOs inside it that hold the statement, by the numbers of their heads.

    An END DO is held by its DO, since a jump to it begins the next iteration; a head isn't.
    """
    found: Dict[int, FrozenSet[int]] = {written.number: frozenset() for written in loop.statements()}
    waiting: List[Tuple[Node, FrozenSet[int]]] = [(node, frozenset()) for node in _inside(loop)]
    while waiting:
        node, heads = waiting.pop()
        if isinstance(node, Written):
            found[node.number] = heads
            continue
        found[node.head.number] = heads
        inside = heads | {node.head.number} if node.kind == "DO" else heads
        for written in node.statements():
            if written is not node.head:
                found[written.number] = inside
        waiting.extend((one, inside) for one in _inside(node))
    return found


def _holds_end(block: Block) -> bool:
    """Whether the last statement of a labelled DO is in its body, or in that of a DO at its end."""
    last: Optional[Node] = block
    while isinstance(last, Block) and last.kind == "DO":
        last = last.body[-1] if last.body else None
    return last is block.end


def _inside(block: Block) -> Iterator[Node]:
    yield from block.lead
    for branch in block.branches:
        yield from branch.body


def _leaves_by_name(statement: tree.Statement, loop: Block, inner: FrozenSet[int]) -> bool:
    """Whether CYCLE or EXIT leads out of a loop. `inner` are the DOs in it that hold the statement."""
    if not isinstance(statement, (tree.Cycle, tree.Exit)):
        return False
    if not statement.name:
        return not inner and isinstance(statement, tree.Exit)
    if statement.name == loop.name:
        return isinstance(statement, tree.Exit)
    return statement.name not in _names_inside(loop)


def _names_inside(loop: Block) -> Set[str]:
    """The names of the constructs in a loop."""
    return {written.item.name for written in loop.statements() if written is not loop.head and written.item.name}


# --- Graphs --------------------------------------------------------------------------------------------------------


@dataclass(frozen=True)
class _Place:
    """A construct round a statement: where CYCLE goes on, none where it is no DO, and where EXIT does."""

    name: str
    cycle: Optional[int]
    leave: int


class _Builder:
    """Makes the graph of some nodes, from the last one to the first."""

    def __init__(self, labels: Mapping[int, int], places: Sequence[_Place] = ()) -> None:
        self.labels = labels
        self.graph = Graph()
        self._places: List[_Place] = list(places)
        self._bound: FrozenSet[str] = frozenset()
        self._aliased: Optional[FrozenSet[str]] = None

    def sequence(self, nodes: Sequence[Node], following: int) -> int:
        """Adds nodes that are carried out one after the other. The answer is the first one's number."""
        for node in reversed(nodes):
            following = self.block(node, following) if isinstance(node, Block) else self.statement(node, following)
        return following

    def statement(self, written: Written, following: int) -> int:
        """Adds a statement that is no head of a block."""
        self.add(written, self.targets(_read(written), following))
        return written.number

    def add(self, written: Written, successors: Iterable[int], is_step: bool = False) -> None:
        """Adds a node."""
        number = step_of(written.number) if is_step else written.number
        self.graph.statements[number] = written
        self.graph.successors[number] = tuple(dict.fromkeys(successors))
        if self._bound:
            self.graph.bound[number] = self._bound
        if self._aliased is not None:
            self.graph.aliased[number] = self._aliased

    def targets(self, statement: tree.Statement, following: int) -> List[int]:
        """Where the run may go on after a statement."""
        action = _action(statement)
        if isinstance(action, (tree.Cycle, tree.Exit)):
            found = [self._left_by(action)]
            return found if action is statement else [*found, following]
        jumps = _jumps(statement)
        found = [self._target(label) for label in jumps.labels]
        if jumps.anywhere:
            self.graph.is_open |= isinstance(action, tree.AssignedGoTo)
            found += self.labels.values()
        if jumps.leaves:
            found.append(END)
        return [*found, following] if jumps.goes_on else found

    def _target(self, label: int) -> int:
        target = self.labels.get(label)
        if target is None:
            self.graph.is_open = True
            return END
        return target

    def _left_by(self, action: tree.Statement) -> int:
        """Where CYCLE or EXIT goes on."""
        assert isinstance(action, (tree.Cycle, tree.Exit))
        for place in reversed(self._places):
            if place.name == action.name if action.name else place.cycle is not None:
                target = place.cycle if isinstance(action, tree.Cycle) else place.leave
                return END if target is None else target
        self.graph.is_open = True
        return END

    def block(self, block: Block, following: int) -> int:
        """Adds a block. The answer is its head's number."""
        if block.kind == "DO":
            return self.loop(block, following)
        self._places.append(_Place(block.name, None, following))
        end = self._end(block, following)
        if block.kind == "IF":
            self._if(block, end)
        elif block.kind == "SELECT":
            self._select(block, end)
        else:
            self._straight(block, end)
        self._places.pop()
        return block.head.number

    def _end(self, block: Block, following: int) -> int:
        """Adds the last statement of a block, where it has one that no body holds."""
        if block.end is None or _holds_end(block):
            return following
        self.add(block.end, [following])
        return block.end.number

    def _if(self, block: Block, end: int) -> None:
        other = end
        for branch in reversed(block.branches[1:]):
            body = self.sequence(branch.body, end)
            self.add(branch.head, [body] if isinstance(branch.head.statement, tree.Else) else [body, other])
            other = branch.head.number
        self.add(block.head, [self.sequence(block.body, end), other])

    def _select(self, block: Block, end: int) -> None:
        before = self._aliased
        selected = block.head.statement
        if not isinstance(selected, tree.SelectCase):
            self._aliased = (before or frozenset()) | _mentioned(selected)
        heads = [branch.head for branch in block.branches]
        for branch in block.branches:
            self.add(branch.head, [self.sequence(branch.body, end)])
        successors = [head.number for head in heads]
        if not any(isinstance(head.statement, tree.Case) and head.statement.values is None for head in heads):
            successors.append(end)
        self._aliased = before
        self.add(block.head, [*successors, *([self.sequence(block.lead, end)] if block.lead else [])])

    def _straight(self, block: Block, end: int) -> None:
        """WHERE and FORALL, whose parts are carried out one after the other, and ASSOCIATE, BLOCK, CRITICAL."""
        before = self._bound, self._aliased
        statement = block.head.statement
        if isinstance(statement, tree.Forall):
            self._bound |= {one.variable for one in statement.ranges}
        if block.kind in ("ASSOCIATE", "BLOCK"):
            self._aliased = (self._aliased or frozenset()) | _mentioned(statement)
        for branch in reversed(block.branches):
            end = self.sequence(branch.body, end)
            if branch.head is not block.head:
                self.add(branch.head, [end])
                end = branch.head.number
        self._bound, self._aliased = before
        self.add(block.head, [end])

    def loop(self, block: Block, following: int) -> int:
        """Adds a DO with its step."""
        statement = block.head.statement
        control = statement.control if isinstance(statement, tree.Do) else None
        step = step_of(block.head.number)
        before = self._bound
        if isinstance(control, tree.Concurrent):
            self._bound |= {one.variable for one in control.ranges}
        self._places.append(_Place(block.name, step, following))
        body = self.sequence(block.body, self._end(block, step))
        self._places.pop()
        self._bound = before
        is_endless = isinstance(statement, tree.Do) and control is None
        self.add(block.head, [body] if is_endless else [body, following], is_step=True)
        self.add(block.head, [step])
        return block.head.number


class _BodyBuilder(_Builder):
    """Makes the graph of an iteration: an inner DO, WHERE or FORALL is one node."""

    def __init__(self, labels: Mapping[int, int], places: Sequence[_Place] = ()) -> None:
        super().__init__(labels, places)
        self.nodes: Dict[int, Node] = {}

    def add(self, written: Written, successors: Iterable[int], is_step: bool = False) -> None:
        super().add(written, successors, is_step)
        self.nodes[written.number] = written

    def block(self, block: Block, following: int) -> int:
        if block.kind not in ("DO", "WHERE", "FORALL"):
            return super().block(block, following)
        whole = _Builder(self.labels, self._places)
        whole.block(block, following)
        left = (one for nexts in whole.graph.successors.values() for one in nexts if one not in whole.graph.successors)
        self.add(block.head, [following, *left])
        self.nodes[block.head.number] = block
        return block.head.number


def _body(labels: Mapping[int, int], loop: Block, faults: Tuple[Fault, ...]) -> Body:
    builder = _BodyBuilder(labels, [_Place(loop.name, END, END)])
    first = builder.sequence(loop.body, END)
    successors = {}
    for number, nexts in builder.graph.successors.items():
        inside = (one if one in builder.nodes and one > number else END for one in nexts)
        successors[number] = tuple(dict.fromkeys(inside))
    return Body(first, builder.nodes, successors, faults)


def _mentioned(statement: tree.Statement) -> FrozenSet[str]:
    """All names in a statement's expressions."""
    return frozenset(name for expression in statement.expressions() for name in tree.names_in(expression))
