"""Which variables' values are needed after a DO, and what an iteration reads that it hasn't assigned.

A name is live at a place where some way through the unit's flow graph leads from it to a read of the name, without an
assignment to the whole variable on the way. All that isn't known makes more names live: calls, names that share
storage, statements that can't be read. Only scalars stop being live; an array is never assigned as a whole here.
"""

from __future__ import annotations

import re
from dataclasses import dataclass
from functools import cached_property
from typing import Callable, Dict, FrozenSet, Iterable, Mapping, Optional, Set, Tuple

from . import tree
from .accesses import Effects, Names, reads_of
from .flow import END, Graph, is_plain_output, reversed_edges, step_of
from .units import Block, Written

#: What may be the variable of an implied DO in output: such a statement assigns it.
_IMPLIED = re.compile(r", *(?!(?:FMT|REC|POS|UNIT|ADVANCE|DECIMAL|SIGN) *=)[A-Z]\w* *=[^=]", re.IGNORECASE)


@dataclass(frozen=True)
class Use:
    """What a node of the flow graph does to variables.

    `reads` are the names that may be read before the node has assigned them, `assigns` those of scalars that it assigns
    for certain, `may_assign` all others that it may assign.
    """

    reads: FrozenSet[str]
    assigns: FrozenSet[str] = frozenset()
    may_assign: FrozenSet[str] = frozenset()
    calls: bool = False
    reads_all: bool = False


@dataclass(frozen=True)
class Iteration:
    """What one iteration of a DO does to variables, beginning after the assignment to the DO's variable.

    `exposed` are the names that it may read before it has assigned them. `always` are the scalars that it assigns
    whichever way it goes, `assigned` all names that it may assign.
    """

    exposed: FrozenSet[str]
    always: FrozenSet[str]
    assigned: FrozenSet[str]


class Liveness:
    """Live names of a unit, by its flow graph."""

    def __init__(self, graph: Graph, names: Names, effects: Callable[[Written], Effects]) -> None:
        self._graph = graph
        self._names = names
        self._effects = effects
        self.uses: Dict[int, Use] = {number: self._use(number) for number in graph.statements}
        found = {name for use in self.uses.values() for name in use.reads | use.assigns | use.may_assign}
        self._bits = {name: 1 << index for index, name in enumerate(sorted(found))}
        self._all = (1 << len(self._bits)) - 1
        self._shared = self._mask(name for name in found if names.is_reached_by_calls(name))
        #: Names that are live everywhere.
        self._always = self._all if graph.is_open else self._mask(filter(names.may_share_storage, found))
        self._at_end = self._mask(filter(names.outlives_unit, found))
        #: Saved variables: only a further run of the unit may read what they have at its end, or at a call.
        self._kept = self._mask(filter(names.is_kept, found)) & ~self._always
        self._needed = 0
        self._live: Optional[Dict[int, int]] = None
        self._iterations: Dict[int, Iteration] = {}

    def live_after(self, loop: Block) -> FrozenSet[str]:
        """The names whose values may be needed after a DO.

        For a DO in another one that is also the outer one's next iteration.
        """
        members = self._graph.members(loop)
        exits = {
            following for node in members for following in self._graph.successors.get(node, ())
            if following not in members
        }
        return self._live_at(exits)

    def wants_variable(self, loop: Block) -> bool:
        """Whether the value of a DO's variable may be needed after the DO.

        If so, the DO isn't the only reader of its variable, whose last value depends on the number of iterations.
        """
        statement = loop.head.statement
        control = statement.control if isinstance(statement, tree.Do) else None
        return isinstance(control, tree.Counted) and tree.root_of(control.variable) in self.live_after(loop)

    def live_before(self, loop: Block) -> FrozenSet[str]:
        """The names whose values before a DO may be needed in its header, in its iterations or after it."""
        return self._live_at([loop.head.number])

    @cached_property
    def live_at_entry(self) -> FrozenSet[str]:
        """The names whose values from before the unit's run may be wanted in it."""
        return self._live_at(self._graph.entries)

    @cached_property
    def exposed_at_entry(self) -> FrozenSet[str]:
        """The names that the unit may read before it has assigned them. An array is one of them if it's read at all."""
        assigns = {node: self._mask(self.uses[node].assigns) for node in self._graph.successors}

        def transfer(node: int, after: int) -> int:
            return self._reads(node) | after & ~assigns[node]

        found = _fixed_point(self._graph.successors, {END: 0}, transfer)
        return self._named(_union(found, [self._graph.entry]))

    @cached_property
    def always_assigned(self) -> FrozenSet[str]:
        """The scalars that each run of the unit assigns, whichever way it goes to its end."""
        entry, start = self._graph.entry, min([END, *self._graph.statements]) - 1
        before = {node: ones for node, ones in reversed_edges(self._graph.successors).items() if node != END}
        ends = reversed_edges(self._graph.successors).get(END, ()) if entry != END else (start,)
        before[entry] = (*before.get(entry, ()), start)
        assigns = {node: self._mask(self.uses[node].assigns) for node in self._graph.successors}

        def transfer(node: int, mask: int) -> int:
            return mask & ~assigns.get(node, 0)

        unassigned = _union(_fixed_point(before, {start: self._all}, transfer), ends)
        return self._named(_union(assigns, assigns) & ~unassigned)

    def iteration(self, loop: Block) -> Iteration:
        """What an iteration reads and assigns."""
        known = self._iterations.get(loop.head.number)
        if known is None:
            known = self._iterations[loop.head.number] = self._iteration(loop)
        return known

    def _iteration(self, loop: Block) -> Iteration:
        step = step_of(loop.head.number)
        members = self._graph.members(loop) - {loop.head.number, step}
        unassigned = self._unassigned(loop, members)
        exposed = _union({node: self._reads(node) & mask for node, mask in unassigned.items() if node != step}, members)
        may_assign = [self.uses[node].assigns | self.uses[node].may_assign for node in members]
        if any(self.uses[node].calls for node in members):
            may_assign.append(self._named(self._shared))
        always = self._named(self._all & ~unassigned.get(step, 0))
        assigned = frozenset(name for names in may_assign for name in names)
        return Iteration(self._named(exposed), always & assigned, assigned)

    # --- Uses of nodes ---

    def _use(self, number: int) -> Use:
        written = self._graph.statements[number]
        if number < END:
            return self._step_use(written, number)
        if is_plain_output(written) and not _IMPLIED.search(written.item.text):
            # A function among the items may read what other procedures reach, and an internal unit is written.
            return Use(written.names, may_assign=written.names, calls=True)
        control = written.statement.control if isinstance(written.statement, tree.Do) else None
        if isinstance(control, tree.While):
            return Use(frozenset())
        if isinstance(written.statement, tree.Unreadable):
            return Use(written.names, frozenset(), written.names, True, True)
        return self._from_effects(self._effects(written), number)

    def _step_use(self, written: Written, number: int) -> Use:
        """The step of a DO: it counts, or evaluates the condition of DO WHILE."""
        control = written.statement.control if isinstance(written.statement, tree.Do) else None
        if isinstance(control, tree.Counted):
            variable = frozenset([tree.root_of(control.variable)])
            return Use(variable, frozenset(), variable)
        if isinstance(control, tree.While):
            return self._from_effects(reads_of(control.condition, self._names), number)
        return Use(frozenset())

    def _from_effects(self, found: Effects, number: int) -> Use:
        reads: Set[str] = set()
        assigns: Set[str] = set()
        may_assign: Set[str] = set()
        aliased = self._graph.aliased.get(number)
        for access in found.accesses:
            if not access.writes:
                # A procedure may read what it has assigned. Any other statement is taken to read first: input may read an
                # index after that.
                if access.name not in assigns or not access.by_call:
                    reads.add(access.name)
            elif access.covers and aliased is None:
                assigns.add(access.name)
            else:
                may_assign.add(access.name)
        reads |= aliased or frozenset()
        calls = found.calls or found.reads_shared
        return Use(frozenset(reads), frozenset(assigns), frozenset(may_assign), calls, found.reads_all)

    # --- Sets of names as bits ---

    def _mask(self, names: Iterable[str]) -> int:
        mask = 0
        for name in names:
            mask |= self._bits.get(name, 0)
        return mask

    def _named(self, mask: int) -> FrozenSet[str]:
        return frozenset(name for name, bit in self._bits.items() if mask & bit)

    def _reads(self, node: int) -> int:
        use = self.uses[node]
        if use.reads_all:
            return self._all
        return self._mask(use.reads) | (self._without_idle(self._shared) if use.calls else 0)

    def _without_idle(self, mask: int) -> int:
        """Names without those saved ones that no further run of the unit reads before it assigns them."""
        return mask & ~self._kept | mask & self._needed

    def _live_at(self, nodes: Iterable[int]) -> FrozenSet[str]:
        """The names that are live at the begin of some nodes, found backward until nothing changes."""
        if self._live is None:
            self._live = self._found_live()
            # What a run may read of the one before it is needed at the end, which may make it read more.
            while self._kept & ~self._needed & _union(self._live, self._graph.entries):
                self._needed |= self._kept & _union(self._live, self._graph.entries)
                self._live = self._found_live()
        return self._named(self._always | _union(self._live, nodes))

    def _found_live(self) -> Dict[int, int]:
        """What is live at the begin of each node, with what is needed at the end."""
        successors = self._graph.successors
        reads = {node: self._reads(node) for node in successors}
        assigns = {node: self._mask(self.uses[node].assigns) for node in successors}

        def transfer(node: int, after: int) -> int:
            return reads[node] | after & ~assigns[node]

        return _fixed_point(successors, {END: self._without_idle(self._at_end)}, transfer)

    def _unassigned(self, loop: Block, members: FrozenSet[int]) -> Dict[int, int]:
        """What an iteration may have left unassigned at the begin of each of its nodes, and at its end, the step.

        A node that no iteration reaches has nothing unassigned.
        """
        head, step = loop.head.number, step_of(loop.head.number)
        edges = {node: self._graph.successors[node] for node in members}
        edges[head] = tuple(node for node in self._graph.successors[step] if node in members or node == step)
        before = {node: ones for node, ones in reversed_edges(edges).items() if node in members or node == step}
        assigns = {node: self._mask(self.uses[node].assigns) for node in members}

        def transfer(node: int, mask: int) -> int:
            return mask & ~assigns.get(node, 0)

        after = _fixed_point(before, {head: self._all & ~self._mask(self.uses[head].assigns)}, transfer)
        return {node: _union(after, ones) for node, ones in before.items()}


def _fixed_point(
    edges: Mapping[int, Tuple[int, ...]], given: Mapping[int, int], transfer: Callable[[int, int], int]
) -> Dict[int, int]:
    """The least sets that `transfer` agrees with: from the union of the sets of the nodes to which edges lead."""
    values = {**{node: 0 for node in edges}, **given}
    dependents = reversed_edges(edges)
    waiting = dict.fromkeys(sorted(edges, key=_place))
    while waiting:
        node, _ = waiting.popitem()
        found = transfer(node, _union(values, edges[node]))
        if found != values[node]:
            values[node] = found
            waiting.update(dict.fromkeys(one for one in dependents[node] if one in edges))
    return values


def _union(values: Mapping[int, int], nodes: Iterable[int]) -> int:
    mask = 0
    for node in nodes:
        mask |= values.get(node, 0)
    return mask


def _place(node: int) -> int:
    """The order of the text, a step with its DO."""
    return step_of(node) if node < END else node
