"""Evidence for the present loop: what was found row by row."""

from __future__ import annotations

from typing import List

from ..evidence.forbidding import STEPS
from ..evidence.limits import Purse
from ..evidence.proving import Proof, Prover, require_evidence
from ..refusals import refused
from .session import Session


def proved(session: Session, number: int) -> Proof:
    """What comes of the search for evidence that a loop may be parallel. Ends where this ped takes no evidence."""
    view = session.present.view
    require_evidence(session.ped, view)
    return Prover(session.ped, view, Purse()).prove([view.program.loops[number]], STEPS[0])[0]


def evidence_lines(proof: Proof) -> List[str]:
    """What was found row by row, in lines."""
    lines: List[str] = []
    for finding in proof.findings:
        lines.extend([finding.forbidding.row.row, f"    {finding.text}", ""])
    if proof.refusal is not None and not proof.left:
        lines.append(f"`{proof.step} {proof.loop.number}` is {refused(proof.refusal, proof.step)}")
    return lines
