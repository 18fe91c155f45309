"""What to try at a loop: steps that ped accepts there, and other ways to be rid of what the loop carries.

Of the steps that want no more than a loop ped itself tells by `advise`; those that take a scalar are tried.
"""

from __future__ import annotations

from typing import Dict, Iterator, List, Sequence, Tuple

from .blocks import blocks_of
from .doubts import may_reject
from .evidence.offers import freed, offer
from .evidence.proving import Proof
from .messages import listed
from .outline import outline_of
from .panes import Dependence
from .ped import Ped
from .program import Loop, Program
from .progress import Progress
from .recurrences import about_scalar, readers_after
from .references import INPUT, OUTPUT
from .refusals import cause_of, refused
from .replies import Advised
from .statements import Do, Print, Read
from .sums import reduction, sums_of
from .trials import Answers, Outcome, Trial, ask, carried_names
from .tuning import Parts, parts
from .views import View

#: The steps that take a scalar.
_SCALAR_STEPS = ("privatise", "expand")
#: Of the steps that `advise` tells those that lead to parallel loops, the most wanted first.
_LEADING = ("parallel", "distribute", "fuse", "interchange")
#: Of these those behind which another loop stands at the number of this one.
_FORMING = ("fuse", "interchange")


class Adviser:
    """Says of the loops of a program what to try there."""

    def __init__(
        self, view: View, ped: Ped, loops: Sequence[Loop], tries: bool, progress: Progress = Progress()
    ) -> None:
        self._view = view
        self._answers = Answers({}, {})
        #: For each loop and each scalar the steps that were tried for it alone, and for each loop those for several.
        self._scalar: Dict[Tuple[int, str], List[Trial]] = {}
        self._joined: Dict[int, List[Trial]] = {}
        self._summing: Dict[int, List[Trial]] = {}
        self._inlining: Dict[int, List[Trial]] = {}
        self._blocks = blocks_of(view.panes.source) if tries else {}
        self._parts: Dict[int, Parts] = {}
        self._freed: Dict[int, Proof] = {}
        if tries:
            self._ask(ped, loops, progress)

    def _ask(self, ped: Ped, loops: Sequence[Loop], progress: Progress) -> None:
        """Asks ped what it advises, and tries steps; what is tried last depends on what came of the others."""
        for loop in loops:
            for trial in self._trials(loop):
                if trial.scalar is not None:
                    self._scalar.setdefault((loop.number, trial.scalar), []).append(trial)
                else:
                    self._summing[loop.number] = [trial]
        trials = [trial for tried in (*self._scalar.values(), *self._summing.values()) for trial in tried]
        self._answers = ask(ped, self._view, [loop.number for loop in loops], trials, progress)
        self._joined = {loop.number: list(self._joined_trials(loop)) for loop in loops}
        self._inlining = {loop.number: list(self._inlining_trials(loop)) for loop in loops}
        further = [
            trial for loop in loops
            for trial in (*self._joined[loop.number], *self._forming(loop), *self._inlining[loop.number])
        ]
        self._answers.outcomes.update(ask(ped, self._view, [], further, progress).outcomes)
        outline = outline_of(self._view.panes.source)
        divided = [outline.loops[loop.number] for loop in loops if self._is_divided(loop)]
        self._parts = parts(ped, self._view, divided, progress)
        self._freed = freed(ped, self._view, loops, progress)

    def _is_divided(self, loop: Loop) -> bool:
        """Whether ped accepts `distribute` of a loop that carries something."""
        accepted = [one.word for one in self.advised(loop) if one.refusal is None]
        return "distribute" in accepted and bool(carried_names(self._view.carried_by(loop)))

    def about_name(self, loop: Loop, name: str, rows: Sequence[Dependence]) -> List[str]:
        """What to try against the rows of a name that a loop carries."""
        program = self._view.program
        if name in (INPUT, OUTPUT):
            return list(_about_lines(program, loop, name))
        if name in program.arrays:
            return [] if loop.number in self._freed else list(_about_array(program, loop, name, rows))
        outcomes = self._outcomes_of(loop, name)
        advice = self._about_outcomes(outcomes)
        if outcomes and not any(one.accepted for one in outcomes) and not self._is_summed(loop, name):
            advice.append(about_scalar(program, loop, name))
        return advice

    def about_loop(self, loop: Loop) -> List[str]:
        """What to try at a loop as a whole."""
        advice = [*self.about_scalars(loop), *self.about_evidence(loop)]
        told = sorted((one for one in self.advised(loop) if self._is_told(loop, one)), key=place_of)
        advice.extend(self.about_step(loop, one) for one in told)
        if not self._answers.advised and not loop.form.parallel and not carried_names(self._view.carried_by(loop)):
            advice.extend(_about_variables(self._view.program, loop))
        advice.extend(self.about_blocks(loop))
        others = [f"`{one.command}`" for one in self.advised(loop) if one not in told and one.refusal is None]
        if others:
            advice.append(f"ped accepts {listed(others)}")
        return advice

    def about_evidence(self, loop: Loop) -> List[str]:
        """That evidence frees a loop, where it does."""
        proof = self._freed.get(loop.number)
        return [f"try {offer(proof)}"] if proof is not None else []

    def about_blocks(self, loop: Loop) -> List[str]:
        """What to try where a loop can't be taken apart, since a CALL is one statement."""
        return [
            f"try `{outcome.trial.steps[0]}`: ped accepts it, and the CALL is no longer one statement, which "
            f"`distribute` keeps whole"
            for outcome in self._outcomes(self._inlining.get(loop.number, [])) if outcome.accepted
        ]

    def about_step(self, loop: Loop, advised: Advised) -> str:
        """What ped advises of a step, in words."""
        if advised.refusal is None:
            return f"try `{advised.command}`: ped accepts it{self._effect(loop, advised)}"
        return f"`{advised.command}`: {refused(advised.refusal, advised.word)}"

    def _effect(self, loop: Loop, advised: Advised) -> str:
        """What a step does, where its word alone doesn't say with which loop, or into what."""
        outcome = self._answers.outcomes.get(Trial((advised.command,), loop.number, loop.level))
        if advised.word == "distribute":
            made = self._parts.get(loop.number)
            return f", and {made.words}" if made is not None else ", and takes the loop apart"
        if advised.word not in _FORMING:
            return ""
        words = f", and makes one of loops {loop.number} and {loop.last + 1}"
        if advised.word == "interchange":
            words = f", and puts DO {self._view.program.loops[loop.number + 1].variable} outside"
        return words if outcome is None else f"{words}, which then carries {_names(outcome)}"

    def about_scalars(self, loop: Loop) -> List[str]:
        """What came of a step for each of several scalars that a loop carries, and of that for its sums."""
        joined = self._joined.get(loop.number, [])
        return self._about_outcomes(self._outcomes([*joined, *self._summing.get(loop.number, [])]))

    def advised(self, loop: Loop) -> Tuple[Advised, ...]:
        """What ped advises at a loop; nothing where it wasn't asked."""
        return self._answers.advised.get(loop.number, ())

    def _is_told(self, loop: Loop, advised: Advised) -> bool:
        """Whether more is told of a step than that ped accepts it.

        What leads to a loop that carries nothing is told, and which dependence forbids it. A rule that stands against a
        step says no more than that it isn't meant for this loop, but for `parallel` where the loop carries nothing.
        """
        carries = bool(carried_names(self._view.carried_by(loop)))
        if advised.word == "parallel":
            return not loop.form.parallel and not carries
        if advised.word == "distribute" and advised.refusal is None:
            return carries
        outcome = self._answers.outcomes.get(Trial((advised.command,), loop.number, loop.level))
        is_better = outcome is not None and outcome.accepted and not outcome.names
        return advised.word in _FORMING and (advised.is_forbidden or is_better)

    def _about_outcomes(self, outcomes: Sequence[Outcome]) -> List[str]:
        """Outcomes in words; those that are refused for one cause together."""
        alike: Dict[str, List[Outcome]] = {}
        for outcome in outcomes:
            if outcome.refusal is not None:
                alike.setdefault(outcome.refusal, []).append(outcome)
        advice = [_accepted(outcome) for outcome in outcomes if outcome.accepted]
        advice.extend(self._refused(refusal, together) for refusal, together in alike.items())
        return advice

    def _refused(self, refusal: str, outcomes: Sequence[Outcome]) -> str:
        steps = listed([f"`{step}`" for outcome in outcomes for step in outcome.trial.steps])
        cause = _about_reads(self._view.program, outcomes[0]) or cause_of(refusal)
        return f"{steps}: refused {refusal}" + (f": {cause}" if cause else "")

    def _outcomes(self, trials: Sequence[Trial]) -> List[Outcome]:
        return [self._answers.outcomes[trial] for trial in trials if trial in self._answers.outcomes]

    def _outcomes_of(self, loop: Loop, name: str) -> List[Outcome]:
        """What came of the steps for one scalar."""
        return self._outcomes(self._scalar.get((loop.number, name), []))

    def _is_summed(self, loop: Loop, name: str) -> bool:
        """Whether ped accepts a step that says that a loop sums up this scalar."""
        trials = [*self._summing.get(loop.number, []), *self._joined.get(loop.number, [])]
        return any(
            one.accepted and one.trial.sums and name in one.trial.steps[-1].split()[2:]
            for one in self._outcomes(trials)
        )

    def _trials(self, loop: Loop) -> Iterator[Trial]:
        if loop.form.parallel:
            return
        carried = self._view.carried_by(loop)
        names = carried_names(carried)
        for name in names:
            if name not in (INPUT, OUTPUT) and name not in self._view.program.arrays:
                # These steps take away the rows of the scalar, and no other ones.
                rest = tuple(other for other in names if other != name)
                for step in _SCALAR_STEPS:
                    yield Trial((f"{step} {loop.number} {name}",), loop.number, loop.level, name, rest)
        sums = sums_of(self._view.program, carried)
        if sums and sums == names:
            yield Trial((reduction(loop.number, sums),), loop.number, loop.level)

    def _joined_trials(self, loop: Loop) -> Iterator[Trial]:
        """For a loop that carries several scalars, an accepted step for each, all in one trial.

        Those that are left may be what the loop sums up; then the step for them comes last.
        """
        carried = self._view.carried_by(loop)
        steps: List[str] = []
        left: List[str] = []
        for name in carried_names(carried):
            accepted = [one.trial.steps[0] for one in self._outcomes_of(loop, name) if one.accepted]
            steps.extend(accepted[:1])
            left.extend([] if accepted else [name])
        sums = sums_of(self._view.program, carried)
        if steps and left and all(name in sums for name in left):
            steps.append(reduction(loop.number, left))
        if len(steps) > 1:
            yield Trial(tuple(steps), loop.number, loop.level)

    def _inlining_trials(self, loop: Loop) -> Iterator[Trial]:
        """For a loop that carries something and can't be taken apart, `inline` of each CALL in it."""
        is_whole = any(
            one.word == "distribute" and (one.refusal or "").startswith("rule 11 ") for one in self.advised(loop)
        )
        if not is_whole or not carried_names(self._view.carried_by(loop)):
            return
        last = 0
        for block in self._blocks.values():
            # A block in another one goes with that.
            if block.number in loop and block.first_line > last:
                last = block.last_line
                yield Trial((f"inline {block.number}",), loop.number, loop.level, rest=("",))

    def _forming(self, loop: Loop) -> Iterator[Trial]:
        """Those steps that ped accepts and that put another loop in the place of this one, which may be better."""
        words = ("fuse", "interchange") if carried_names(self._view.carried_by(loop)) else ("fuse",)
        for one in self.advised(loop):
            if one.refusal is None and one.word in words:
                yield Trial((one.command,), loop.number, loop.level)


def place_of(advised: Advised) -> int:
    """The place of a step among those that lead to parallel loops; the others come last."""
    return _LEADING.index(advised.word) if advised.word in _LEADING else len(_LEADING)


def _accepted(outcome: Outcome) -> str:
    """What an accepted trial leads to."""
    steps = listed([f"`{step}`" for step in outcome.trial.steps])
    is_one = len(outcome.trial.steps) == 1
    words = f"try {steps}: ped accepts {'it' if is_one else 'them'}"
    if outcome.trial.sums:
        return f"{words}, and the iterations may then be done in any order"
    if is_one and outcome.names:
        return words
    return f"{words}, and the loop then carries {_names(outcome)}"


def _names(outcome: Outcome) -> str:
    return listed(list(outcome.names)) or "nothing"


def _about_reads(program: Program, outcome: Outcome) -> str:
    """What rule 12 says of a scalar, by the place of the statement that it names; nothing for other rules."""
    name, number = outcome.trial.scalar, outcome.named_statement
    if name is None or number is None or not (outcome.refusal or "").startswith("rule 12 "):
        return ""
    loop = program.loops[outcome.trial.loop]
    if number in loop:
        return f"statement {number} may read {name} before the iteration assigns it"
    if number == loop.number and name in program.saved:
        return f"{name} is in SAVE, and the step would lose its value"
    return f"statement {number} may read {name} after the loop, and the step would lose its value"


def _about_variables(program: Program, loop: Loop) -> Iterator[str]:
    """Warns of a variable that a PARALLEL DO would leave without a value where something may read it."""
    for variable in dict.fromkeys([loop.variable, *(inner.variable for inner in program.inner_loops(loop))]):
        readers = readers_after(program, loop, variable)
        if readers:
            yield f"statement {readers[0]} may read {variable}, which has no value after a PARALLEL DO"
        elif variable in program.saved:
            yield f"{variable} is in SAVE, and has no value after a PARALLEL DO"


def _about_lines(program: Program, loop: Loop, name: str) -> Iterator[str]:
    forms = [program.statement(number).form for number in range(loop.number + 1, loop.last + 1)]
    if all(isinstance(form, (Do, Read if name == INPUT else Print)) for form in forms):
        return
    if name == INPUT:
        yield "READ takes its lines in order: read into an array, in a loop of its own"
    else:
        yield "PRINT keeps its lines in order: store the values in an array, and print them in a loop of their own"


def _about_array(program: Program, loop: Loop, name: str, rows: Sequence[Dependence]) -> Iterator[str]:
    if may_reject(program, rows):
        yield f"where you know that no two iterations use one element: C$PED REJECT {name} before the loop"
    if all(row.kind == "anti" for row in rows):
        yield f"only old values are read: copy {name} into another array before the loop, and read that one"
    distances = {row.distances[loop.level - 1] for row in rows}
    known = [distance for distance in distances if distance is not None]
    if len(known) == len(distances) and min(known) > 1:
        yield f"iterations that are fewer than {min(known)} apart don't depend on each other"
