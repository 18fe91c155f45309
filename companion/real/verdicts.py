"""What is said about each DO of a file: parallel with its clauses, what it carries, or why nothing is said.

A verdict cites the assumptions that it rests on. `would` has what another assumption would make of it.
"""

from __future__ import annotations

from dataclasses import dataclass, replace
from typing import FrozenSet, Iterator, List, Optional, Sequence, Tuple, Union

from ..ped import Ped
from . import tree
from .asking import Answer, Carried, Pair, answers
from .assumptions import ASSUMPTIONS, in_order
from .calls import Calls
from .directives import Clauses
from .model import Model, model_of
from .survey import Scene, control_of, own_variable, variable_of
from .symbols import Scopes, Storage
from .units import Block, Branch, Fault, File, Node, Unit
from .writer import Origin

PARALLEL, CARRIED, REFUSED = "parallel", "carried", "refused"

#: The kind of what a loop carries where its variable's value is needed after it.
VALUE = "value"


@dataclass(frozen=True)
class Would:
    """What the verdict would be with further assumptions, and the clauses then."""

    assumed: Tuple[str, ...]
    word: str
    clauses: Clauses


@dataclass(frozen=True, eq=False)
class Place:
    """A DO in its file, with the number of DOs around it and itself."""

    scene: Scene
    block: Block
    level: int

    @property
    def line(self) -> int:
        """The line on which the DO begins."""
        return self.block.head.item.first

    @property
    def last_line(self) -> int:
        """The line on which the loop ends."""
        end = self.block.end
        return end.item.last if end is not None and end.item.file == self.file else self.block.last_line

    @property
    def file(self) -> str:
        """The INCLUDEd file that has the loop; empty for the file itself."""
        return self.block.head.item.file

    @property
    def variable(self) -> str:
        """The DO variable, also that of a DO CONCURRENT over one range; empty where there is none."""
        return own_variable(self.block) or variable_of(self.block)

    @property
    def header(self) -> str:
        """The header as reports show it."""
        control = control_of(self.block)
        if isinstance(control, tree.Counted):
            bounds = [control.first, control.last, *([] if control.step is None else [control.step])]
            return f"DO {control.variable} = {', '.join(map(str, bounds))}"
        if isinstance(control, tree.While):
            return f"DO WHILE ({control.condition})"
        if isinstance(control, tree.Concurrent):
            parts = [*control.ranges, *([] if control.mask is None else [control.mask])]
            return f"DO CONCURRENT ({', '.join(map(str, parts))})"
        return "DO"


@dataclass(frozen=True, eq=False)
class Verdict:
    """What is said about a DO.

    `word` is `parallel`, `carried` or `refused`; `refusal` is there for the last alone. `assumes` are in order.
    """

    place: Place
    word: str
    clauses: Clauses = Clauses()
    carried: Tuple[Carried, ...] = ()
    refusal: Optional[Fault] = None
    assumes: Tuple[str, ...] = ()
    would: Tuple[Would, ...] = ()
    model: Optional[Model] = None
    answer: Optional[Answer] = None


def places_of(file: File, scopes: Scopes, others: Sequence[File] = ()) -> List[Place]:
    """All DOs of a file, outer ones before inner ones, in order of text.

    `scopes` has the units of the file, and those of `others`, which have procedures that it calls.
    """
    found: List[Place] = []
    calls = Calls(scopes, [file, *others])
    for unit in file.all_units():
        found.extend(places_in(file, unit, scopes, calls))
    return found


def places_in(file: File, unit: Unit, scopes: Scopes, calls: Calls) -> List[Place]:
    """All DOs of a unit of a file, in the same order; `calls` looks into the procedures that are known."""
    scene = Scene(file, unit, scopes.of(unit), calls)
    return [Place(scene, block, level) for block, level in _nested(unit.body, 1)]


def _nested(nodes: Sequence[Node], level: int) -> Iterator[Tuple[Block, int]]:
    for node in nodes:
        if isinstance(node, Block):
            is_loop = node.kind == "DO"
            if is_loop:
                yield node, level
            branches = [Branch(node.head, node.lead), *node.branches]
            for branch in branches:
                yield from _nested(branch.body, level + is_loop)


def verdicts(
    ped: Ped, places: Sequence[Place], granted: FrozenSet[str], conditional: bool = False
) -> List[Verdict]:
    """The verdicts about some DOs. `conditional` allows LASTPRIVATE(CONDITIONAL:..), which OpenMP 5.0 has."""
    found = _judged(ped, [(place, granted) for place in places], conditional)
    further = [
        (index, more) for index, verdict in enumerate(found) for more in _further(verdict, granted)
    ]
    asked = [(found[index].place, granted | set(more)) for index, more in further]
    for (index, more), other in zip(further, _judged(ped, asked, conditional)):
        verdict = found[index]
        if other.word == PARALLEL:
            would = Would(more, other.word, other.clauses)
            found[index] = replace(verdict, would=(*verdict.would, would))
    return found


def _further(verdict: Verdict, granted: FrozenSet[str]) -> List[Tuple[str, ...]]:
    """The assumptions, or groups of them, that might make a loop parallel."""
    if verdict.word == PARALLEL:
        return []
    wanted = set(verdict.model.might_help) if verdict.model is not None else set()
    wanted |= set(verdict.assumes) - granted
    if verdict.refusal is not None and verdict.refusal.reason == "kind":
        wanted.add("A7")
    names = in_order(wanted)
    return [(name,) for name in names] + ([tuple(names)] if len(names) > 1 else [])


def _judged(
    ped: Ped, asked: Sequence[Tuple[Place, FrozenSet[str]]], conditional: bool
) -> List[Verdict]:
    """The verdicts about some DOs, each with the assumptions that are granted for it."""
    models = [model_of(place.scene, place.block, granted) for place, granted in asked]
    answered = iter(answers(ped, [model for model in models if isinstance(model, Model)], conditional))
    found = []
    for (place, granted), model in zip(asked, models):
        if isinstance(model, Fault):
            found.append(Verdict(place, REFUSED, refusal=model))
        else:
            found.append(_verdict(place, granted, model, next(answered)))
    return found


def _verdict(place: Place, granted: FrozenSet[str], model: Model, answer: Union[Answer, Fault]) -> Verdict:
    if isinstance(answer, Fault):
        return Verdict(place, REFUSED, refusal=answer, model=model)
    clauses = _clauses(place, model, answer)
    assumes = set(model.assumes) | _by_return(place, clauses)
    carried = answer.carried
    if model.needed_value:
        carried = (*carried, _value(place, model.needed_value))
    verdict = Verdict(place, CARRIED, clauses, carried, None, tuple(in_order(assumes)), (), model, answer)
    if not answer.is_parallel and not carried:
        return replace(verdict, word=REFUSED, refusal=Fault("limit", place.line, "ped refuses to make it parallel"))
    if not answer.is_parallel or carried:
        return verdict
    missing = in_order(assumes - granted)
    if missing:
        words = f"the loop is parallel if {missing[0]} holds, which isn't granted: {ASSUMPTIONS[missing[0]].words}"
        return replace(verdict, word=REFUSED, refusal=Fault("assumption", place.line, words))
    return replace(verdict, word=PARALLEL)


def _clauses(place: Place, model: Model, answer: Answer) -> Clauses:
    inductions = tuple((one.name, f"-{one.step}" if one.falls else str(one.step)) for one in model.inductions)
    return Clauses(
        answer.private, answer.last, (model.last_variable,) if model.last_variable else (), answer.conditional,
        tuple((one.operator, one.name) for one in model.reductions), inductions,
    )


def _by_return(place: Place, clauses: Clauses) -> FrozenSet[str]:
    """A11, where a name is private only since the unit's end takes its value away."""
    scene = place.scene
    at_entry = scene.facts.liveness.live_at_entry
    for name in clauses.private:
        symbol = scene.symbols.get(name)
        if symbol.storage is Storage.LOCAL and "SAVE" not in symbol.attributes and name in at_entry:
            return frozenset(["A11"])
    return frozenset()


def _value(place: Place, name: str) -> Carried:
    """The value of a loop's variable that is needed after the loop."""
    origin = Origin(place.scene.unit.path, place.line, name, name, True, place.file)
    return Carried(name, (Pair(origin, origin, VALUE, "pending"),))
