"""Looks for evidence against the rows that forbid a step: asks ped for their Systems, and searches each."""

from __future__ import annotations

from dataclasses import dataclass
from enum import Enum
from typing import Dict, Iterator, List, Optional, Sequence, Tuple

from ..messages import listed
from ..ped import Ped
from ..program import Loop
from ..progress import Progress
from ..questions import ask_in_turn
from ..references import INPUT, OUTPUT
from ..replies import Reply
from ..statuses import CompanionError, Status
from ..views import View
from .certificates import Claim
from .facts import Fact, conditions, facts_of, sentence, split_words, unread_subscripts, used, values_text
from .forbidding import Forbidding, Vector, forbidding, step_with_evidence
from .limits import Budget, Exceeded, Purse
from .points import point
from .search import find
from .systems import System, question, read_system

#: A question to which ped answers without a System, where it has the command.
_PROBE = "system 0.0 0.0 (*)"

#: How many Systems are asked for before they are searched.
_TOGETHER = 64

_UNKNOWN = "this ped has no command `system`, so no evidence can be looked for; a later ped has it"


class Kind(Enum):
    """What came of the search against a row."""

    DISPROVED = "disproved"
    REAL = "real"
    NOT_FOUND = "not found"
    FIRM = "stays"


@dataclass(frozen=True)
class Finding:
    """What came of the search against a row: the lines of evidence, and what is said of it."""

    forbidding: Forbidding
    kind: Kind
    words: str
    claims: Tuple[Claim, ...] = ()

    @property
    def text(self) -> str:
        """What is said of the row, with the kind before it."""
        return f"{self.kind.value}: {self.words}"


@dataclass(frozen=True)
class Proof:
    """What came of the search at a loop, and what ped says of the step with the evidence."""

    loop: Loop
    step: str
    findings: Tuple[Finding, ...]
    #: The cause why ped refuses the step; none where it accepts it, or wasn't asked.
    refusal: Optional[str] = None

    @property
    def lines(self) -> Tuple[str, ...]:
        """The lines of evidence."""
        return tuple(dict.fromkeys(claim.text for finding in self.findings for claim in finding.claims))

    @property
    def left(self) -> int:
        """How many rows still forbid the step."""
        return sum(finding.kind is not Kind.DISPROVED for finding in self.findings)

    @property
    def is_accepted(self) -> bool:
        """Whether ped accepts the step with the evidence."""
        return not self.left and self.refusal is None

    @property
    def script(self) -> Tuple[str, ...]:
        """The step with its evidence, as a script has it."""
        return step_with_evidence(self.step, self.loop.number, self.lines)


def knows_evidence(ped: Ped, view: View) -> bool:
    """Whether this ped has the commands for evidence."""
    return ask_in_turn(ped, view.panes.lines, [[_PROBE]], Progress(), "")[0][0].refusal != "BadCommand"


def require_evidence(ped: Ped, view: View) -> None:
    """Ends the call where this ped doesn't have the commands for evidence."""
    if not knows_evidence(ped, view):
        raise CompanionError(Status.NO_PED, _UNKNOWN)


@dataclass
class _Search:
    """A search in a System: its steps, or values that meet all rows, or why there is neither."""

    system: Optional[System]
    claim: Optional[Claim] = None
    values: Optional[Sequence[int]] = None
    words: str = "no sum of the facts was found that can't hold, and no small values that meet them"


def search(system: System, budget: Budget) -> _Search:
    """Searches for a certificate of a System, or for values that meet it."""
    found = _Search(system)
    try:
        steps = find(system.rows, budget, depth=0)
        if steps is None:
            found.values = point(system.rows, budget)
        if steps is None and found.values is None:
            steps = find(system.rows, budget)
        if steps is not None:
            found.claim = Claim(system.source, system.sink, system.pattern, steps)
    except Exceeded as exceeded:
        found.words = exceeded.words
    return found


class Prover:
    """Looks for evidence in the program of a view. The ped has to have the commands for it."""

    def __init__(self, ped: Ped, view: View, purse: Purse, progress: Progress = Progress()) -> None:
        self._ped = ped
        self._view = view
        self._purse = purse
        self._progress = progress
        self._searches: Dict[str, _Search] = {}

    def prove(self, loops: Sequence[Loop], step: str) -> List[Proof]:
        """Searches against all rows that forbid a step at each of some loops, and has ped judge what was found."""
        rows = {loop.number: forbidding(self._view, loop, step) for loop in loops}
        wanted = [one for found in rows.values() for one in found if self._firmness(one) is None]
        self._ask([(one, one.pattern) for one in wanted])
        open_rows = [one for one in wanted if self._is_open(one)]
        self._ask([(one, vector) for one in open_rows for vector in one.vectors])
        proofs = [Proof(loop, step, tuple(map(self._finding, rows[loop.number]))) for loop in loops]
        return list(self._judged(proofs))

    def _firmness(self, one: Forbidding) -> Optional[str]:
        """Why nothing can disprove a row; none where evidence may."""
        if one.row.name in (INPUT, OUTPUT):
            return "lines are read and printed in their order"
        if one.row.name not in self._view.program.arrays:
            return f"{one.row.name} is a scalar, and evidence speaks of elements alone"
        if one.row.mark == "proven":
            return "it is proven, so the tests are exact"
        return None

    def _ask(self, wanted: Sequence[Tuple[Forbidding, Vector]]) -> None:
        """Has ped print the Systems of some rows and patterns, and searches those that are new."""
        questions = list(dict.fromkeys(_question(one, pattern) for one, pattern in wanted))
        new = [text for text in questions if text not in self._searches]
        for first in range(0, len(new), _TOGETHER):
            part = new[first:first + _TOGETHER]
            for text, reply in zip(part, self._systems(part)):
                self._searches[text] = self._searched(reply)
            self._progress.show(f"evidence: {first + len(part)} of {len(new)} systems are searched")

    def _systems(self, questions: Sequence[str]) -> List[Optional[Reply]]:
        """What ped answers to some questions; nothing where the time is over."""
        if self._purse.is_empty:
            return [None] * len(questions)
        scripts = [[text] for text in questions]
        answers = ask_in_turn(self._ped, self._view.panes.lines, scripts, self._progress, "systems")
        return [reply for reply, in answers]

    def _searched(self, reply: Optional[Reply]) -> _Search:
        if reply is None or self._purse.is_empty:
            return _Search(None, words="the time of the command is over")
        if reply.refusal is not None:
            return _Search(None, words=f"ped refuses the system: {reply.refusal}")
        return search(read_system(reply.rows), self._purse.budget())

    def _is_open(self, one: Forbidding) -> bool:
        """Whether a row has to be searched vector by vector: neither is it disproved as a whole, nor is it real."""
        whole = self._searches[_question(one, one.pattern)]
        return whole.claim is None and whole.values is None and one.vectors != (one.pattern,)

    def _finding(self, one: Forbidding) -> Finding:
        firmness = self._firmness(one)
        if firmness is not None:
            return Finding(one, Kind.FIRM, firmness)
        whole = self._searches[_question(one, one.pattern)]
        if whole.claim is not None:
            return self._disproved(one, [whole])
        parts = [self._searches[_question(one, vector)] for vector in one.vectors] if self._is_open(one) else [whole]
        if all(part.claim is not None for part in parts):
            return self._disproved(one, parts)
        real = next((part for part in parts if part.values is not None), None)
        claims = tuple(part.claim for part in parts if part.claim is not None)
        if real is not None and real.system is not None and real.values is not None:
            return self._real(one, real.system, real.values, claims)
        left = next(part for part in parts if part.claim is None)
        unread = unread_subscripts(self._view.program, one.row.source, one.row.sink)
        words = "; ".join([*unread, left.words])
        return Finding(one, Kind.NOT_FOUND, words, claims)

    def _disproved(self, one: Forbidding, parts: Sequence[_Search]) -> Finding:
        facts: List[Fact] = []
        cases: List[str] = []
        for part in parts:
            assert part.system is not None and part.claim is not None
            told = facts_of(self._view.program, part.system)
            facts.extend(told[number - 1] for number in used(part.system, part.claim))
            cases.extend(split_words(part.system, part.claim))
        words = "; ".join([sentence(facts), *dict.fromkeys(cases)])
        return Finding(one, Kind.DISPROVED, words, tuple(part.claim for part in parts if part.claim is not None))

    def _real(self, one: Forbidding, system: System, values: Sequence[int], claims: Tuple[Claim, ...]) -> Finding:
        """What is said of a row whose System whole numbers meet."""
        unread = unread_subscripts(self._view.program, one.row.source, one.row.sink)
        words = values_text(system, values)
        if unread:
            return Finding(one, Kind.NOT_FOUND, f"{'; '.join(unread)}; the rest allows {words}", claims)
        unless = conditions(self._view.program, one.row.source, one.row.sink)
        if unless:
            words += f", unless {listed(unless, 'or')} prevents it"
        return Finding(one, Kind.REAL, words, claims)

    def _judged(self, proofs: Sequence[Proof]) -> Iterator[Proof]:
        """Has ped judge the lines, and the steps that have all of them."""
        asked = [proof for proof in proofs if proof.lines or not proof.findings]
        scripts = [["\n".join(proof.script), "undo"] for proof in asked]
        answers = ask_in_turn(self._ped, self._view.panes.lines, scripts, self._progress, "evidence")
        replies = {(proof.loop.number, proof.step): reply for proof, (reply, _) in zip(asked, answers)}
        for proof in proofs:
            reply = replies.get((proof.loop.number, proof.step))
            yield proof if reply is None else _with_answer(proof, reply)


def _question(one: Forbidding, pattern: Vector) -> str:
    return question(one.row.source, one.row.sink, pattern)


def _with_answer(proof: Proof, reply: Reply) -> Proof:
    """What came of a search, by what ped says of it: a line that it finds idle proves nothing."""
    idle = {proof.lines[line - reply.command.line - 1] for line in reply.idle}
    findings = tuple(
        Finding(one.forbidding, Kind.NOT_FOUND, "ped doesn't take the evidence that pedx found")
        if any(claim.text in idle for claim in one.claims) else one for one in proof.findings
    )
    return Proof(proof.loop, proof.step, findings, reply.refusal)
