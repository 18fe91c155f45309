"""`pedx prove`: evidence that the rows which forbid a step aren't there, row by row, and the step with it."""

from __future__ import annotations

import os
from typing import Iterator, List, Optional, Sequence, Tuple

from ..evidence.forbidding import STEPS, is_doubtful
from ..evidence.limits import Purse
from ..evidence.proving import Finding, Kind, Proof, Prover, require_evidence
from ..messages import counted
from ..ped import Ped, read_file, shown
from ..program import Loop
from ..progress import Progress
from ..refusals import refused
from ..scripts import weave
from ..statuses import CompanionError, Status
from ..views import View
from .loops import find_loop


def prove(
    view: View, ped: Ped, numbers: Sequence[int], step: str, progress: Progress = Progress()
) -> Tuple[str, List[Tuple[str, ...]]]:
    """What came of the search at loops, and the steps that ped accepts with the evidence.

    Without numbers these are the loops at which nothing but pending rows of elements forbids the step.
    """
    chosen = [find_loop(view, number) for number in numbers]
    require_evidence(ped, view)
    if not numbers:
        chosen = [loop for loop in view.program.loops.values() if is_open(loop, step) and is_doubtful(view, loop, step)]
    if not chosen:
        return f"no loop where only pending rows of elements forbid `{step}`\n", []
    proofs = Prover(ped, view, Purse(), progress).prove(chosen, step)
    rows = [row for proof in proofs for row in _about(view, proof)]
    if len(proofs) > 1:
        rows.append(_total(proofs))
    steps = [proof.script for proof in proofs if proof.is_accepted]
    return "".join(row + "\n" for row in rows), steps


def is_open(loop: Loop, step: str) -> bool:
    """Whether a step may still be done at a loop: only a DO becomes parallel."""
    return step != STEPS[0] or not loop.form.parallel


def _about(view: View, proof: Proof) -> Iterator[str]:
    loop, step = proof.loop, f"`{proof.step} {proof.loop.number}`"
    line = view.program.statement(loop.number).line
    yield f"loop {loop.number} (DO {loop.variable}, line {line}): {_forbidden(step, len(proof.findings))}"
    for finding in proof.findings:
        yield f"  {finding.forbidding.row.row}"
        yield f"      {finding.text}"
    yield from _answered(proof, step)


def _forbidden(step: str, count: int) -> str:
    if count == 0:
        return f"no row forbids {step}"
    return f"{counted(count, 'row')} {'forbids' if count == 1 else 'forbid'} {step}"


def _answered(proof: Proof, step: str) -> Iterator[str]:
    """What ped says, and the step with its evidence where ped accepts it."""
    if proof.left:
        yield f"  {counted(proof.left, 'row')} {'stays' if proof.left == 1 else 'stay'}, so {step} stays refused"
    elif proof.refusal is not None:
        yield f"  {step} is {refused(proof.refusal, proof.step)}"
    else:
        yield f"  ped accepts {step}{' with this evidence' if proof.lines else ''}:"
        yield from proof.script


def _total(proofs: Sequence[Proof]) -> str:
    """How many of the pending rows are disproved, and at how many loops."""
    findings: List[Finding] = [finding for proof in proofs for finding in proof.findings]
    disproved = sum(finding.kind is Kind.DISPROVED for finding in findings)
    accepted = sum(proof.is_accepted for proof in proofs)
    rows, loops = counted(len(findings), "row"), counted(len(proofs), "loop")
    return f"disproved: {disproved} of {rows}; accepted at {accepted} of {loops}"


def appended(script: Optional[str], out: str, steps: Sequence[Sequence[str]]) -> str:
    """The script that was looked at, with further steps behind it; it is to be written to a file.

    Another script isn't written over: its changes would be lost, and these steps may not fit behind them.
    """
    if os.path.exists(out) and (script is None or not os.path.samefile(script, out)):
        raise CompanionError(Status.BAD_WORDS, f"{shown(out)} is there; --script {shown(out)} goes on behind it")
    old = read_file(script) if script is not None else ""
    return weave(old, lambda command: (), [line for step in steps for line in step]).text
