"""What is found about a unit's statements and DOs. Each fact is found when it is first asked for, and kept."""

from __future__ import annotations

from typing import Dict, FrozenSet, Optional, Tuple

from .accesses import Effects, Names, effects
from .flow import Body, Flow, Graph
from .liveness import Liveness
from .recurrences import Induction, Loop, Reduction, inductions, reductions
from .shape import Part, bare_statements, shape_of
from .units import Block, Unit, Written

_NONE: FrozenSet[str] = frozenset()


class Facts:
    """The facts of a unit, by what its names are."""

    def __init__(self, unit: Unit, names: Names) -> None:
        self.unit = unit
        self.names = names
        self._flow = Flow(unit)
        self._effects: Dict[int, Effects] = {}
        self._bodies: Dict[int, Body] = {}
        self._loops: Dict[int, Loop] = {}
        self._liveness: Optional[Liveness] = None

    @property
    def graph(self) -> Graph:
        """The flow graph of the unit."""
        return self._flow.graph

    @property
    def liveness(self) -> Liveness:
        """The live names of the unit."""
        if self._liveness is None:
            self._liveness = Liveness(self.graph, self.names, self.effects)
        return self._liveness

    def effects(self, written: Written) -> Effects:
        """What a statement reads and writes."""
        found = self._effects.get(written.number)
        if found is None:
            bound = self.graph.bound.get(written.number, _NONE)
            found = self._effects[written.number] = effects(written.statement, self.names, bound)
        return found

    def body(self, block: Block) -> Body:
        """The graph of an iteration of a DO that gets a verdict, with the faults of its jumps."""
        found = self._bodies.get(block.head.number)
        if found is None:
            found = self._bodies[block.head.number] = self._flow.body(block)
        return found

    def shape(self, block: Block) -> Tuple[Part, ...]:
        """The shape of such an iteration. Raises ValueError where its jumps have faults."""
        return shape_of(self.body(block))

    def inner_shape(self, block: Block) -> Tuple[Part, ...]:
        """The shape of an iteration of a DO inside the one that gets a verdict."""
        return shape_of(self._flow.inner_body(block))

    def loop(self, block: Block) -> Loop:
        """A DO with the accesses of its statements."""
        found = self._loops.get(block.head.number)
        if found is None:
            found = self._loops[block.head.number] = Loop(block, self.names, self.effects)
        return found

    def reductions(self, block: Block) -> Tuple[Reduction, ...]:
        """The reductions of a DO, by name."""
        return reductions(self.loop(block))

    def inductions(self, block: Block) -> Tuple[Induction, ...]:
        """The induction variables of a DO, by name. Raises ValueError where its jumps have faults."""
        return inductions(self.loop(block), bare_statements(self.shape(block)))
