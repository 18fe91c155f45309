"""Random nests of loops, and what must be true of the Systems of their references: those of a run meet them.

A nest has triangular bounds, MAX and MIN, steps from -2 to 3, and scalars that are read. Each two accesses of a run to
one element are put into the System that ped prints for their directions. Each row has to hold, and no search may refute
it.
"""

from __future__ import annotations

from dataclasses import dataclass, field
from random import Random
from typing import Dict, Iterator, List, Optional, Sequence, Set, Tuple

from ..evidence.checking import refutes
from ..evidence.forbidding import STEPS, forbidding
from ..evidence.limits import Purse
from ..evidence.proving import Kind, Proof, Prover, search
from ..evidence.systems import System, question, read_system
from ..ped import Ped
from ..program import Program
from ..progress import Progress
from ..questions import ask_in_turn
from ..runs import Access, Cell, Run
from ..views import View, view_of_panes

_VARIABLES = ["I", "J", "K"]
_SYMBOLS = ["M", "N"]

#: A reference that touches an element, and the values of the variables of the loops round it.
_Touch = Tuple[Tuple[int, int], Tuple[int, ...]]


def program(seed: str) -> str:
    """The program of a seed."""
    return "".join(f"      {line}\n" for line in _Maker(Random(seed)).lines())


class _Maker:
    """Makes one program: some nests over one array with one dimension, and one with two."""

    def __init__(self, random: Random) -> None:
        self._random = random
        self._dimensions = random.choice([1, 1, 2])

    def lines(self) -> Iterator[str]:
        bounds = ",".join(["-40:60"] * self._dimensions)
        yield f"INTEGER A({bounds})"
        yield "SAVE A"
        names = _VARIABLES[:self._dimensions]
        for name in names:
            yield f"DO {name} = -40, 60"
        yield f"A({','.join(names)}) = 1"
        for _ in names:
            yield "END DO"
        for name in _SYMBOLS:
            yield f"{name} = {self._random.randint(1, 5)}"
        for _ in range(self._random.randint(1, 2)):
            yield from self._nest([], self._random.randint(1, 3))
        yield "END"

    def _nest(self, around: List[str], depth: int) -> Iterator[str]:
        variable = _VARIABLES[len(around)]
        yield f"DO {variable} = {self._header(around)}"
        inside = [*around, variable]
        if depth > 1:
            if self._random.random() < 0.3:
                yield self._assignment(inside)
            yield from self._nest(inside, depth - 1)
            if self._random.random() < 0.3:
                yield self._assignment(inside)
        else:
            for _ in range(self._random.randint(1, 2)):
                yield self._assignment(inside)
        yield "END DO"

    def _header(self, around: List[str]) -> str:
        random = self._random
        step = random.choice([1, 1, 1, 1, 2, -1, 3, -2])
        low, high = self._bound(around, 1), self._bound(around, 6)
        if random.random() < 0.2:
            high = f"MIN({high},{self._bound(around, 5)})"
        if random.random() < 0.2:
            low = f"MAX({low},{self._bound(around, 2)})"
        ends = (low, high) if step > 0 else (high, low)
        return ", ".join([*ends, *([str(step)] if step != 1 else [])])

    def _bound(self, around: List[str], near: int) -> str:
        random = self._random
        kind = random.random()
        if around and kind < 0.45:
            return f"{random.choice(around)}{random.choice(['', '+1', '-1', '+2'])}"
        if kind < 0.6:
            return f"{random.choice(_SYMBOLS)}{random.choice(['', '+1', '+3'])}"
        if kind < 0.65:
            return f"{random.choice(_SYMBOLS)}/2+{near}"
        return str(near + random.randint(-1, 1))

    def _assignment(self, inside: List[str]) -> str:
        right = self._element(inside) + (f"+{self._element(inside)}" if self._random.random() < 0.4 else "+1")
        return f"{self._element(inside)} = {right}"

    def _element(self, inside: List[str]) -> str:
        return f"A({','.join(self._subscript(inside) for _ in range(self._dimensions))})"

    def _subscript(self, inside: List[str]) -> str:
        random = self._random
        parts = [random.choice(["", "", "", "2*", "-", "3*"]) + random.choice(inside)]
        if random.random() < 0.3:
            parts.append(random.choice(inside))
        if random.random() < 0.25:
            parts.append(random.choice(["", "-"]) + random.choice(_SYMBOLS))
        if random.random() < 0.5:
            parts.append(str(random.randint(-3, 3)))
        return "".join(part if part.startswith("-") or not place else f"+{part}" for place, part in enumerate(parts))


@dataclass
class Found:
    """What was seen: how many pairs of accesses met their Systems, and what came of the vectors of the pane."""

    pairs: int = 0
    refuted: int = 0
    others: int = 0
    steps: int = 0
    #: What must never be.
    faults: List[str] = field(default_factory=list)


class Watched:
    """A program of a seed, with what its run touches."""

    def __init__(self, ped: Ped, source: str) -> None:
        self.ped = ped
        self.view: View = view_of_panes(ped.show(source))
        self.symbols: Dict[str, int] = {}
        #: For each element the references that touch it, at which values of the variables.
        self.touches: Dict[Cell, Set[_Touch]] = {}
        printed = self.view.printed
        self._run = Run(printed, [], set(printed.arrays), self._see)
        self._run.rows()
        self.symbols = {name: self._run.cells.get(Cell(name), 0) for name in _SYMBOLS}

    def _see(self, access: Access) -> None:
        loops = self.view.printed.statement(access.reference[0]).loops
        values = tuple(self._run.values[loop] for loop in loops)
        self.touches.setdefault(access.cell, set()).add((access.reference, values))

    def meetings(self) -> Dict[str, List[Tuple[int, ...]]]:
        """For each question about a System the values of indices that a run puts into it: those of two accesses."""
        found: Dict[str, Dict[Tuple[int, ...], None]] = {}
        program = self.view.printed
        for touched in self.touches.values():
            for first in touched:
                for second in touched:
                    vector = _directions(program, first, second)
                    if vector:
                        text = question(first[0], second[0], vector)
                        found.setdefault(text, {})[(*first[1], *second[1])] = None
        return {text: list(values) for text, values in found.items()}


def _directions(program: Program, first: _Touch, second: _Touch) -> Tuple[str, ...]:
    """The directions of two accesses; nothing where they don't conflict, or share no loop."""
    ends = (program.reference(first[0]), program.reference(second[0]))
    if first == second or not any(end.writes for end in ends):
        return ()
    loops = [program.statement(end.statement).loops for end in ends]
    common = [number for number in loops[0] if number in loops[1]]
    signs = []
    for place, number in enumerate(common):
        step = program.loops[number].form.step
        falls = step is not None and step.text.startswith("-")
        before, behind = first[1][place], second[1][place]
        signs.append("=" if before == behind else "<" if (before < behind) != falls else ">")
    return tuple(signs)


def check(ped: Ped, seed: str) -> Found:
    """What is found at the program of a seed."""
    watched = Watched(ped, program(seed))
    found = Found()
    meetings = watched.meetings()
    systems = _systems(watched, list(meetings))
    for text, values in meetings.items():
        _compare(watched, systems.get(text), text, values, found)
    _search_all(watched, meetings, found)
    _try_steps(watched, meetings, found)
    return found


def _systems(watched: Watched, questions: Sequence[str]) -> Dict[str, System]:
    answers = ask_in_turn(watched.ped, watched.view.panes.lines, [[one] for one in questions], Progress(), "")
    return {text: read_system(reply.rows) for text, (reply,) in zip(questions, answers) if reply.refusal is None}


def _compare(
    watched: Watched, system: Optional[System], text: str, values: Sequence[Tuple[int, ...]], found: Found
) -> None:
    """Puts the values of a run into a System, and searches it."""
    if system is None:
        found.faults.append(f"{text}: there is no system")
        return
    for indices in values:
        found.pairs += 1
        point = _completed(system, indices, watched.symbols)
        if point is None or not all(row.holds(point) for row in system.rows):
            found.faults.append(f"{text}: {indices} doesn't meet the rows")
    if search(system, Purse().budget()).claim is not None:
        found.faults.append(f"{text}: refuted, and it occurs")


def _completed(system: System, indices: Sequence[int], symbols: Dict[str, int]) -> Optional[Tuple[int, ...]]:
    """The values of all unknowns: those of the quotients follow from the equations in which they stand."""
    names = system.unknowns
    point = [*indices, *(symbols.get(name, 0) for name in names[len(indices):])]
    for place, name in enumerate(names):
        if name.startswith("#"):
            row = next(row for row in system.rows if row.coefficients[place] and row.is_equation)
            quotient, rest = divmod(-row.value(point), row.coefficients[place])
            if rest:
                return None
            point[place] = quotient
    return tuple(point)


def _search_all(watched: Watched, meetings: Dict[str, List[Tuple[int, ...]]], found: Found) -> None:
    """Searches all Systems of the rows of the pane, vector by vector: what occurs must not be refuted."""
    view = watched.view
    questions: Dict[str, None] = {}
    for loop in view.program.loops.values():
        for one in forbidding(view, loop, "parallel"):
            if one.row.name in view.program.arrays:
                questions.update((question(one.row.source, one.row.sink, vector), None) for vector in one.vectors)
    for text, system in _systems(watched, list(questions)).items():
        done = search(system, Purse().budget())
        if done.claim is None:
            found.others += 1
            continue
        found.refuted += 1
        if text in meetings or not refutes(system.rows, done.claim.steps):
            found.faults.append(f"{text}: wrongly refuted")


def _try_steps(watched: Watched, meetings: Dict[str, List[Tuple[int, ...]]], found: Found) -> None:
    """Looks for evidence for each step at each loop: a row that is disproved must not occur in the run."""
    view = watched.view
    for step in STEPS:
        for proof in Prover(watched.ped, view, Purse()).prove(list(view.program.loops.values()), step):
            found.steps += proof.is_accepted and bool(proof.lines)
            _look_at(proof, meetings, found)


def _look_at(proof: Proof, meetings: Dict[str, List[Tuple[int, ...]]], found: Found) -> None:
    for finding in proof.findings:
        if finding.kind is Kind.NOT_FOUND and finding.words.startswith("ped doesn't take"):
            found.faults.append(f"{finding.forbidding.row.row}: ped doesn't take the evidence")
        if finding.kind is Kind.DISPROVED:
            row = finding.forbidding.row
            for vector in finding.forbidding.vectors:
                if question(row.source, row.sink, vector) in meetings:
                    found.faults.append(f"{row.row}: disproved, and it occurs")
