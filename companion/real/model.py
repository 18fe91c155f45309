"""A loop of the user's as a program of ped's profile, in which this loop is the outermost one.

What the loop doesn't assign has one value in the model, which is entered once. For each reference that an iteration
carries out the model has one, of the same name, in the iteration that stands for it. Subscripts that ped takes for
affine have the user's values; of all others nothing is excluded. Conditions aren't looked at: each way through an
iteration is one of the model.
"""

from __future__ import annotations

import copy
from dataclasses import dataclass
from functools import cached_property
from typing import Callable, Dict, FrozenSet, Optional, Sequence, Set, Tuple, Union

from . import tree
from .accesses import Access
from .bodies import MOST_LOOPS, BodyWriter, Plan
from .flow import has_iteration
from .indices import Indices, Pieces, Refused, Site
from .naming import Naming
from .recurrences import Induction, Reduction
from .survey import (
    Scene, Survey, assumptions_of, control_of, counting, own_variable, surveyed, variable_of,
)
from .units import Block, Fault, Written, depth_of, loops_of
from .writer import TooLong, Writer
from .writer import Written as Sheet

#: With more DOs in one another nothing is said about a unit.
_DEEPEST_UNIT = 100
#: The same of blocks of any kind: flow and shape of an iteration take a time that grows with the square of it.
_DEEPEST_NESTING = 200
#: Attributes with which a scalar has no copies.
_NO_COPIES = frozenset(["ALLOCATABLE", "POINTER", "TARGET", "OPTIONAL", "ASYNCHRONOUS", "CRAY POINTER"])


@dataclass(frozen=True, eq=False)
class Model:
    """A loop as a program for ped. Names are those of the model, but in `reductions`, `inductions`, `last_variable` and
    `needed_value`.

    `candidates` are the scalars that may be private, `live` the names whose values are needed after the loop.
    `assumes` are the assumptions that it rests on, `might_help` those that aren't granted and might make the loop
    parallel. `last_variable` is the loop's variable where its value is needed after the loop, and is certain there;
    `needed_value` is the same where the value isn't certain.
    """

    line: int
    writer: Writer
    ranks: Tuple[Tuple[str, int], ...]
    names: Naming
    candidates: Tuple[str, ...]
    live: FrozenSet[str]
    assumes: FrozenSet[str]
    might_help: FrozenSet[str] = frozenset()
    reductions: Tuple[Reduction, ...] = ()
    inductions: Tuple[Induction, ...] = ()
    last_variable: str = ""
    needed_value: str = ""
    heading: str = ""
    #: Whether a scalar may have its value from the last iteration after the loop; not for a DO CONCURRENT.
    has_last: bool = True
    #: Makes the model in which inner DOs are counted from their last values; none where that isn't another one.
    turned: Optional[Callable[[], Model]] = None

    @cached_property
    def second(self) -> Optional[Model]:
        """Another model of the same loop, right by itself, that excludes other pairs; none for most."""
        return None if self.turned is None else self.turned()

    @property
    def text(self) -> str:
        """The program, as it is shown."""
        return self.sheet(sorted(self.live)).text

    def sheet(self, saved: Sequence[str], read_at_end: Sequence[str] = ()) -> Sheet:
        """The program with these names in SAVE; the names in `read_at_end` are read at the end of the loop's body."""
        writer = copy.deepcopy(self.writer)
        for name in read_at_end:
            writer.reads([name])
        writer.end("END DO")
        return writer.finish(self.heading, dict(self.ranks), saved)


def model_of(scene: Scene, loop: Block, granted: FrozenSet[str]) -> Union[Model, Fault]:
    """The model of a loop, or why there is none. `granted` are the assumptions that may be made."""
    if scene.depth > _DEEPEST_UNIT:
        return Fault("limit", loop.first_line, f"its unit has {scene.depth} DOs in one another")
    if scene.nesting > _DEEPEST_NESTING:
        return Fault("limit", loop.first_line, f"its unit has {scene.nesting} blocks in one another")
    if depth_of((loop,)) > MOST_LOOPS:
        return Fault("limit", loop.first_line, f"there are more than {MOST_LOOPS} DOs in one another")
    try:
        return _Making(scene, loop, granted).model()
    except Refused as refused:
        return refused.fault
    except RecursionError:
        return Fault("limit", loop.first_line, "an expression of the loop is nested too deep")
    except TooLong:
        return Fault("limit", loop.first_line, "a statement of the loop is too long for ped")


class _Making:
    """Makes the model of one loop."""

    def __init__(self, scene: Scene, loop: Block, granted: FrozenSet[str], downward: bool = False) -> None:
        self._downward = downward
        self._scene = scene
        self._loop = loop
        self._granted = granted
        self._survey: Survey = surveyed(scene, loop)
        self._names = Naming()
        self._live = scene.facts.liveness.live_after(loop)
        self._might_help: Set[str] = set()
        self._assumes: Set[str] = set(assumptions_of(scene, self._survey))
        self._parts = scene.facts.shape(loop)
        self._own = own_variable(loop)
        self._indices = Indices(scene.roles, scene.symbols, self._names, self._changes, granted)

    def model(self) -> Model:
        """The model."""
        reductions, inductions = self._recurrences()
        plan = Plan(
            self._scene, self._survey, self._indices, self._names, reductions, inductions, self._outside(),
            self._downward, frozenset([self._own] if self._own else []),
        )
        writer = BodyWriter(plan)
        variable = self._own or variable_of(self._loop)
        header = self._header(plan, variable)
        self._start(plan, writer)
        writer.writer.begin(*header)
        writer.masked(self._loop, self._parts)
        self._assumes |= self._indices.assumed
        candidates = self._candidates(reductions, inductions, plan.outside)
        live = frozenset(
            self._names.name(name) for name in self._survey.changed if name.partition("%")[0] in self._live
        )
        last_variable, needed_value = ("", "") if self._own else self._variable_after(variable)
        return Model(
            self._loop.first_line, writer.writer, tuple(sorted(writer.ranks.items())), self._names, candidates,
            live - {self._names.name(variable)}, frozenset(self._assumes), frozenset(self._might_help), reductions,
            inductions, last_variable, needed_value, has_last=not self._own,
            turned=self._turned if plan.may_turn and not self._downward else None,
            heading=f"DO {variable} OF LINE {self._loop.first_line}: A MODEL FOR PED. NOT TO BE RUN",
        )

    def _turned(self) -> Model:
        return _Making(self._scene, self._loop, self._granted, downward=True).model()

    def _changes(self, access: Access) -> bool:
        """Whether the loop assigns what is read."""
        return access.name == self._own or self._survey.place(access) in self._survey.changed

    # --- Recurrences ---------------------------------------------------------------------------------------------

    def _recurrences(self) -> Tuple[Tuple[Reduction, ...], Tuple[Induction, ...]]:
        """The reductions and induction variables for which all assumptions are granted."""
        facts = self._scene.facts
        if self._own:
            return (), ()
        reductions = tuple(one for one in facts.reductions(self._loop) if self._is_granted(one))
        gathered = {one.name for one in reductions}
        inductions = tuple(
            one for one in facts.inductions(self._loop) if one.name not in gathered and self._steps(one)
        )
        return reductions, inductions

    def _is_granted(self, reduction: Reduction) -> bool:
        if reduction.is_exact:
            return True
        if "A9" not in self._granted:
            self._might_help.add("A9")
            return False
        self._assumes.add("A9")
        return True

    def _steps(self, induction: Induction) -> bool:
        """Whether the step of an induction variable isn't 0, for certain or by A8."""
        value = self._scene.symbols.constant(induction.step)
        if value is not None:
            return value != 0
        if "A8" not in self._granted:
            self._might_help.add("A8")
            return False
        self._assumes.add("A8")
        return True

    # --- Variables -----------------------------------------------------------------------------------------------

    def _outside(self) -> FrozenSet[str]:
        """The DO variables of inner loops that are read outside their DOs, or needed after the loop."""
        found = {name for name in self._survey.inner_variables if name in self._live}
        inside: Dict[str, Set[int]] = {}
        for inner in loops_of(self._loop.body):
            held = inside.setdefault(variable_of(inner), set())
            for node in inner.body:
                held.update(one.number for one in ([node] if isinstance(node, Written) else node.statements()))
        for written, access in self._survey.accesses():
            name = access.name
            if name in self._survey.inner_variables and not access.writes and written.number not in inside[name]:
                found.add(name)
        return frozenset(found)

    def _candidates(
        self, reductions: Sequence[Reduction], inductions: Sequence[Induction], outside: FrozenSet[str]
    ) -> Tuple[str, ...]:
        """The scalars that may be private: those of which each iteration may have a copy of its own."""
        left_out = {one.name for one in reductions} | {one.name for one in inductions} | {variable_of(self._loop)}
        left_out |= self._survey.inner_variables - outside | self._survey.reached
        found = []
        for name in sorted(self._survey.written - left_out):
            symbol = self._scene.symbols.get(name)
            may_have_copies = not symbol.rank and not symbol.group and not symbol.attributes & _NO_COPIES
            if may_have_copies and symbol.is_variable and symbol.type not in ("", "TYPE", "CLASS"):
                found.append(self._names.name(name))
        return tuple(found)

    def _variable_after(self, variable: str) -> Tuple[str, str]:
        """The loop's variable where it is needed after the loop: with a certain value, and without one."""
        if variable not in self._live:
            return "", ""
        control = control_of(self._loop)
        if isinstance(control, tree.Counted) and has_iteration(control, self._scene.symbols.constant):
            return variable, ""
        if "A13" not in self._granted:
            self._might_help.add("A13")
            return "", variable
        self._assumes.add("A13")
        return variable, ""

    # --- The header ----------------------------------------------------------------------------------------------

    def _header(self, plan: Plan, variable: str) -> Pieces:
        """The DO of the loop itself; it is counted from 0 by 1 where induction variables are counted with it."""
        control = counting(self._loop)
        assert control is not None
        site = Site(self._scene.unit.path, self._loop.head.item.first, self._loop.head.item.file)
        count = plan.count(control, site, normalised=bool(plan.inductions), is_inner=False)
        constant = self._scene.symbols.constant
        self._indices.enter(variable, count.value, constant(control.first), constant(control.last))
        plan.iteration = count.counter
        return count.header

    def _start(self, plan: Plan, writer: BodyWriter) -> None:
        """Has the induction variables be what they are where an iteration begins."""
        self._indices.striding = _striding(self._survey)
        for induction in plan.inductions.values():
            writer.grow(induction, 0)


def _striding(survey: Survey) -> FrozenSet[Tuple[str, int, str]]:
    """The positions of arrays in which one name stands alone in each reference of a loop: array, position, name."""
    found: Dict[Tuple[str, int], Set[str]] = {}
    ranks: Dict[str, Set[int]] = {}
    for _, access in survey.accesses():
        arguments, place = survey.indices(access) or (), survey.place(access)
        ranks.setdefault(place, set()).add(len(arguments))
        for position, argument in enumerate(arguments):
            name = argument.name if isinstance(argument, tree.Name) and argument.name not in access.bound else ""
            found.setdefault((place, position), set()).add(name)
    return frozenset(
        (name, position, next(iter(names))) for (name, position), names in found.items()
        if len(names) == 1 and len(ranks[name]) == 1 and "" not in names
    )
