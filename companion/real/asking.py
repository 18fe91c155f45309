"""What ped says about models: which dependences their loop carries, and which scalars may be private to an iteration.

A model is a program of ped's profile whose outermost loop stands for a loop of the user's. ped finds its dependences
and accepts or refuses `privatise` and `parallel`; nothing is decided here. What is done: rows become pairs of places in
the user's text, and scalars whose values are needed after the loop are found by two further sessions.
"""

from __future__ import annotations

import re
from concurrent.futures import ThreadPoolExecutor
from dataclasses import dataclass, field
from typing import Dict, FrozenSet, Iterable, List, Mapping, Optional, Sequence, Tuple, Union

from ..lines import Place, split_lines
from ..panes import KINDS, Dependence, read_dependences
from ..ped import Ped
from ..program import Program, read_program
from ..replies import Reply
from ..statuses import CompanionError, ProgramRefused, Status
from .model import Model
from .naming import Naming
from .units import Fault
from .writer import Origin

#: ped is a process of its own, so some sessions at a time use several processors.
_AT_A_TIME = 4
_NONE: FrozenSet[str] = frozenset()
#: The refusal of a scalar that an iteration assigns before it reads it, and that is needed after the loop.
_NEEDED = re.compile(r"rule 12 \w+ at 1")


@dataclass(frozen=True, eq=False)
class Found:
    """A row of ped's, the model that it is about as a program, and the model's names."""

    row: Dependence
    program: Program
    names: Naming


@dataclass(frozen=True)
class Pair:
    """Two references in different iterations of the loop that may touch the same place, one of them writing.

    `found` is the row that says so; none for a value that is needed after the loop.
    """

    source: Origin
    sink: Origin
    kind: str
    mark: str
    found: Optional[Found] = field(default=None, compare=False, repr=False)


@dataclass(frozen=True)
class Carried:
    """What a loop carries of one name; a pair of kind `value` is a value that is needed after the loop."""

    name: str
    pairs: Tuple[Pair, ...]

    @property
    def kinds(self) -> Tuple[str, ...]:
        """The kinds of the pairs, in the order of the pane."""
        known = [kind for kind in KINDS if any(pair.kind == kind for pair in self.pairs)]
        return tuple(known) or tuple(dict.fromkeys(pair.kind for pair in self.pairs))

    @property
    def lines(self) -> Tuple[Tuple[int, int], ...]:
        """The lines of the pairs, without those that occur twice."""
        return tuple(dict.fromkeys((pair.source.line, pair.sink.line) for pair in self.pairs))


@dataclass(frozen=True)
class Answer:
    """What ped says about a loop. Names are the user's.

    `private` are the scalars that each iteration assigns before it reads them, and that nothing needs after the loop.
    `last` are those that are needed there and that each iteration assigns; `conditional` those that only some
    iterations assign, which `carried` still has where they aren't allowed. `is_parallel` means that ped accepts the
    loop as a PARALLEL DO when all these are private.
    """

    private: Tuple[str, ...]
    last: Tuple[str, ...]
    conditional: Tuple[str, ...]
    carried: Tuple[Carried, ...]
    is_parallel: bool


def answers(ped: Ped, models: Sequence[Model], conditional: bool = False) -> List[Union[Answer, Fault]]:
    """For each model what ped says about it."""
    with ThreadPoolExecutor(_AT_A_TIME) as pool:
        return list(pool.map(lambda model: answer(ped, model, conditional), models))


def answer(ped: Ped, model: Model, conditional: bool = False) -> Union[Answer, Fault]:
    """What ped says about a model; a `Fault` where the model passes a limit of ped's.

    With `conditional` a scalar that is needed after the loop may be one that only some iterations assign.
    """
    try:
        return _Asking(ped, model, conditional).answer()
    except ProgramRefused as refused:
        words = f"ped refuses the model of this loop: {refused.message}"
        return Fault("limit", model.line, words)


@dataclass(frozen=True)
class _Session:
    """What one session says.

    `private` are the scalars that became so. `needed` are those that are refused only because they are needed after the
    loop. `rows` are the pairs that are left.
    """

    private: FrozenSet[str]
    needed: FrozenSet[str]
    rows: Tuple[Pair, ...]
    is_parallel: bool


class _Asking:
    """The sessions about one model."""

    def __init__(self, ped: Ped, model: Model, conditional: bool) -> None:
        self._ped = ped
        self._model = model
        self._conditional = conditional

    def answer(self) -> Answer:
        """Asks the model, and where something is needed after the loop, what each iteration assigns."""
        model = self._model
        final = first = self._session(model, model.live, model.candidates)
        needed = first.needed if model.has_last else _NONE
        last = self._assigned_always(sorted(needed)) if needed else _NONE
        unsaved = needed if self._conditional else last
        if unsaved:
            names = sorted(first.private | unsaved)
            final = self._session(model, model.live - unsaved, names)
            if final.private != frozenset(names):
                raise CompanionError(Status.NO_PED, f"ped contradicts itself about {', '.join(names)}")
        rows, is_parallel = self._with_second(model, final, first.private | unsaved, unsaved)
        user = model.names.key
        return Answer(
            private=tuple(sorted(map(user, first.private))), last=tuple(sorted(map(user, last))),
            conditional=tuple(sorted(map(user, needed - last))),
            carried=grouped(rows), is_parallel=is_parallel,
        )

    def _with_second(
        self, model: Model, first: _Session, private: FrozenSet[str], last: FrozenSet[str]
    ) -> Tuple[Tuple[Pair, ...], bool]:
        """The pairs that both models have. Each model is right by itself, so one that is parallel is enough."""
        second = model.second
        if first.is_parallel or second is None:
            return first.rows, first.is_parallel
        # The two models may have different names for one of the user's.
        wanted = frozenset(second.names.name(model.names.key(name)) for name in private)
        unsaved = frozenset(second.names.name(model.names.key(name)) for name in last)
        found = self._session(second, second.live - unsaved, sorted(wanted))
        if found.private != wanted:
            return first.rows, False
        if found.is_parallel:
            return (), True
        keys = {_key(pair) for pair in found.rows}
        return tuple(pair for pair in first.rows if _key(pair) in keys), False

    def _session(self, model: Model, saved: Iterable[str], candidates: Sequence[str]) -> _Session:
        """Has ped make scalars private, show what is left, and make the loop parallel."""
        sheet = model.sheet(sorted(saved))
        script = [f"privatise 1 {name}" for name in candidates] + ["deps", "parallel 1"]
        replies = self._ped.session(sheet.text, "".join(line + "\n" for line in script))
        private, needed = _privatised(replies, candidates)
        rows = read_dependences(replies[len(candidates)].rows)
        pairs = _pairs(rows, read_program(split_lines(sheet.text)), sheet.origins, model.names)
        return _Session(private, needed, pairs, replies[-1].accepted)

    def _assigned_always(self, names: Sequence[str]) -> FrozenSet[str]:
        """Those scalars that each iteration assigns.

        They are read at the end of the body in a model after which nothing is needed: `privatise` is then refused just
        where an iteration may leave the scalar unassigned.
        """
        sheet = self._model.sheet([], names)
        script = "".join(f"privatise 1 {name}\n" for name in names)
        private, _ = _privatised(self._ped.session(sheet.text, script), names)
        return private


def _privatised(replies: Sequence[Reply], names: Sequence[str]) -> Tuple[FrozenSet[str], FrozenSet[str]]:
    """The names that were made private, and those that are refused only because they are needed after the loop."""
    private = frozenset(name for name, reply in zip(names, replies) if reply.accepted)
    needed = frozenset(
        name for name, reply in zip(names, replies) if reply.refusal is not None and _NEEDED.fullmatch(reply.refusal)
    )
    return private, needed


def _pairs(
    rows: Sequence[Dependence], program: Program, origins: Mapping[Place, Origin], names: Naming
) -> Tuple[Pair, ...]:
    """The pairs of the rows that the outermost loop carries, in their order."""
    found: Dict[Tuple[Origin, Origin, str], Pair] = {}
    for row in rows:
        if row.level == 1:
            source, sink = (_origin(program, origins, key, row) for key in (row.source, row.sink))
            pair = Pair(source, sink, row.kind, row.mark, Found(row, program, names))
            known = found.get(_key(pair))
            if known is None or known.mark != "proven":
                found[_key(pair)] = pair
    return tuple(found.values())


def _origin(program: Program, origins: Mapping[Place, Origin], key: Tuple[int, int], row: Dependence) -> Origin:
    """The user's reference that a reference of the model stands for."""
    found: Optional[Origin] = None
    if program.has_reference(key, row.name):
        found = origins.get(program.reference(key).span.start)
    if found is None:
        raise CompanionError(Status.NO_PED, f"ped numbers statements or references otherwise than pedx: {row.row}")
    return found


def _key(pair: Pair) -> Tuple[Origin, Origin, str]:
    return pair.source, pair.sink, pair.kind


def grouped(pairs: Sequence[Pair]) -> Tuple[Carried, ...]:
    """Pairs by the user's names, in alphabetical order."""
    names = sorted({pair.source.name for pair in pairs})
    return tuple(Carried(name, tuple(pair for pair in pairs if pair.source.name == name)) for name in names)
