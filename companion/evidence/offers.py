"""The loops that evidence frees, for the commands that say what to try."""

from __future__ import annotations

from dataclasses import replace
from typing import Dict, Sequence

from ..panes import Dependence
from ..ped import Ped
from ..program import Loop
from ..progress import Progress
from ..views import View
from .facts import is_told
from .forbidding import STEPS, is_doubtful, may_be_disproved
from .limits import Purse
from .proving import Kind, Proof, Prover, knows_evidence

#: How long is searched for an offer, in seconds.
_SECONDS = 10.0


def freed(ped: Ped, view: View, loops: Sequence[Loop], progress: Progress = Progress()) -> Dict[int, Proof]:
    """For those of some loops that become parallel by evidence what was found; nothing where this ped takes none."""
    doubtful = [loop for loop in loops if not loop.form.parallel and is_doubtful(view, loop)]
    if not doubtful or not knows_evidence(ped, view):
        return {}
    proofs = Prover(ped, view, Purse(_SECONDS), progress).prove(doubtful, STEPS[0])
    return {proof.loop.number: proof for proof in proofs if proof.is_accepted}


def with_evidence(ped: Ped, view: View, progress: Progress = Progress(), seconds: float = _SECONDS) -> View:
    """A view whose PARALLEL DO loops don't carry the rows that evidence disproves, where this ped takes evidence.

    Evidence isn't kept with a program. So it is looked for once more, and ped judges it.
    """
    doubtful = [loop for loop in view.program.loops.values() if loop.form.parallel and is_doubtful(view, loop)]
    if not doubtful or not knows_evidence(ped, view):
        return view
    proofs = Prover(ped, view, Purse(seconds), progress).prove(doubtful, STEPS[0])
    findings = [finding for proof in proofs for finding in proof.findings]
    return replace(view, disproved=tuple(one.forbidding.row for one in findings if one.kind is Kind.DISPROVED))


def offer(proof: Proof) -> str:
    """That evidence frees a loop, in words."""
    number = proof.loop.number
    return f"`pedx prove FILE {number}`: with its evidence ped accepts `{proof.step} {number}`"


def may_help(view: View, row: Dependence) -> bool:
    """Whether evidence is worth being looked for: a loop carries the row, and a subscript tells of its elements."""
    return row.level is not None and may_be_disproved(view, row) and is_told(view.program, row.source, row.sink)
