"""An iteration as IFs in one another and parts that may be left out, so that it has no jumps.

Each way through the graph of an iteration is a way through its shape, with the same statements in the same order. The
shape may have more ways than the graph. So what holds on all ways of the shape holds on all ways of the iteration.
"""

from __future__ import annotations

from dataclasses import dataclass
from typing import Dict, FrozenSet, List, Optional, Sequence, Set, Tuple, Union

from . import tree
from .flow import END, Body, postdominators, reversed_edges
from .units import Block, Node, Written

#: How deep choices may be in one another. What is deeper is taken apart into single statements that may be left out.
_DEEPEST = 60


@dataclass(frozen=True)
class Single:
    """A statement, or an inner block as a whole, that is carried out once."""

    node: Node


@dataclass(frozen=True)
class Choice:
    """One of several branches is carried out.

    `head` is the statement that chooses, and is carried out before. It's none where an inner DO with jumps out of it
    chooses; that DO comes before as a `Single`. For an IF the first branch is that of a true condition. Other heads
    choose among more branches, and any of them may be taken.
    """

    head: Optional[Written]
    branches: Tuple[Tuple[Part, ...], ...]


@dataclass(frozen=True)
class Maybe:
    """Parts that are carried out one after the other, or are left out together."""

    parts: Tuple[Part, ...]


@dataclass(frozen=True)
class Action:
    """The action of a logical IF, where its condition is known to hold. `shape_of` makes none of these."""

    head: Written


@dataclass(frozen=True)
class Tested:
    """The condition of an IF alone, where it's known what comes of it. `shape_of` makes none of these."""

    head: Written


Part = Union[Single, Choice, Maybe, Action, Tested]

#: Actions of a logical IF that are no parts: where the run goes on is in the shape.
JUMPS = (tree.GoTo, tree.Cycle, tree.Exit, tree.Continue)
#: Actions of a logical IF that do something and may jump: more than its condition chooses.
BUSY = (tree.InputOutput, tree.Call)


def shape_of(body: Body) -> Tuple[Part, ...]:
    """The shape of an iteration, without statements that do nothing. Raises ValueError where the graph has faults."""
    if body.faults:
        raise ValueError("an iteration with faults has no shape")
    return tuple(_Shaper(body).sequence(body.first, END))


class _Shaper:
    """Takes the graph of an iteration apart."""

    def __init__(self, body: Body) -> None:
        self._nodes = body.nodes
        self._successors = _reached(body)
        self._nearest = postdominators(self._successors)
        self._predecessors = reversed_edges(self._successors)
        self._depth = 0

    def sequence(self, first: int, stop: int) -> List[Part]:
        """The parts from a node up to one that is on all ways from it."""
        parts: List[Part] = []
        node = first
        while node != stop:
            node = self._add(node, parts)
        return parts

    def _add(self, node: int, parts: List[Part]) -> int:
        """Adds a node, and what lies between it and the next node on all ways from it, which is the answer."""
        nexts = self._successors[node]
        if len(nexts) == 1:
            parts.extend(self._single(node))
            return nexts[0]
        stop = self._nearest[node]
        regions = [self._between(one, stop) for one in nexts]
        if self._are_branches(node, regions):
            self._choose(node, stop, parts)
        else:
            parts.extend(self._single(node))
            parts.extend(self._loose(frozenset().union(*regions)))
        return stop

    def _choose(self, node: int, stop: int, parts: List[Part]) -> None:
        """Adds a choice whose branches end at a node."""
        written = self._nodes[node]
        head = written if isinstance(written, Written) else None
        if head is None:
            parts.append(Single(written))
        self._depth += 1
        parts.append(Choice(head, tuple(tuple(self.sequence(one, stop)) for one in self._successors[node])))
        self._depth -= 1

    def _loose(self, region: FrozenSet[int]) -> List[Part]:
        """The nodes of a region that has no branches, in order of the text, each a part that may be left out.

        Nodes that are only carried out together with the one before are in one part with it.
        """
        parts: List[Part] = []
        placed: Set[int] = set()
        for node in sorted(region):
            if node not in placed:
                found: List[Part] = []
                placed |= self._run(node, region, found)
                if found:
                    parts.append(Maybe(tuple(found)))
        return parts

    def _run(self, node: int, region: FrozenSet[int], parts: List[Part]) -> Set[int]:
        """Adds a node and those that follow it on all ways and are entered from it alone; returns all of them."""
        inside: Set[int] = set()
        while node in region and inside.issuperset(self._predecessors[node] if inside else ()):
            inside.add(node)
            nexts = self._successors[node]
            if len(nexts) == 1:
                parts.extend(self._single(node))
                node = nexts[0]
                continue
            stop = self._nearest[node]
            regions = [self._between(one, stop) for one in nexts]
            if not self._are_branches(node, regions):
                parts.extend(self._single(node))
                break
            self._choose(node, stop, parts)
            inside.update(*regions)
            node = stop
        return inside

    def _between(self, first: int, stop: int) -> FrozenSet[int]:
        """The nodes on the ways from a node to another one, without the latter."""
        found: Set[int] = set()
        waiting = [first]
        while waiting:
            node = waiting.pop()
            if node != stop and node not in found:
                found.add(node)
                waiting.extend(self._successors[node])
        return frozenset(found)

    def _are_branches(self, node: int, regions: Sequence[FrozenSet[int]]) -> bool:
        """Whether the regions after a node are entered from this node alone.

        Then they have no node in common: the first common one in the text would be entered from another region.
        """
        if self._depth >= _DEEPEST:
            return False
        heads = set(self._successors[node])
        return all(
            one in region or one == node and inner in heads
            for region in regions for inner in region for one in self._predecessors[inner]
        )

    def _single(self, node: int) -> List[Part]:
        """A node as a part, nothing where it does nothing."""
        found = self._nodes[node]
        return [] if isinstance(found, Written) and isinstance(found.statement, _EMPTY) else [Single(found)]


def _reached(body: Body) -> Dict[int, Tuple[int, ...]]:
    """The edges from nodes that an iteration can reach."""
    found: Dict[int, Tuple[int, ...]] = {}
    waiting = [body.first]
    while waiting:
        node = waiting.pop()
        if node != END and node not in found:
            found[node] = body.successors[node]
            waiting.extend(found[node])
    return found


#: Statements that read and write nothing: where the run goes on is in the shape. The values of a CASE are constants.
_EMPTY = (
    tree.Continue, tree.GoTo, tree.Cycle, tree.Exit, tree.End, tree.Else, tree.Case, tree.TypeGuard, tree.Format,
    tree.Data,
)


def inner_blocks(parts: Sequence[Part]) -> List[Block]:
    """The inner DOs, WHEREs and FORALLs of a shape, in order of the text."""
    found: List[Block] = []
    for part in parts:
        if isinstance(part, Single):
            found += [part.node] if isinstance(part.node, Block) else []
        elif isinstance(part, Choice):
            for branch in part.branches:
                found += inner_blocks(branch)
        elif isinstance(part, Maybe):
            found += inner_blocks(part.parts)
    return found


def bare_statements(parts: Sequence[Part]) -> FrozenSet[int]:
    """The statements that each iteration carries out exactly once, by number: not those of IFs and inner blocks."""
    return frozenset(
        part.node.number for part in parts
        if isinstance(part, Single) and isinstance(part.node, Written)
    )
