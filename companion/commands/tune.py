"""`pedx tune`: what stands in the way of each loop, and which single step removes it."""

from __future__ import annotations

from dataclasses import dataclass
from typing import Dict, Iterator, List, Optional, Sequence

from ..doubts import may_reject
from ..evidence.offers import freed, offer
from ..evidence.proving import Proof
from ..messages import listed
from ..outline import outline_of
from ..panes import Dependence
from ..ped import Ped
from ..program import Loop
from ..progress import Progress
from ..recurrences import about_scalar
from ..references import INPUT, OUTPUT
from ..refusals import cause_of
from ..trials import carried_names, rows_by_name
from ..tuning import Attempt, Parts, Result, attempts, division, parts, results
from ..views import View
from .loops import find_loop, header, summary

_INDENT = " " * 14
_UNPROMISED = "ped then promises nothing"


def tune(view: View, ped: Ped, numbers: Sequence[int], progress: Progress = Progress()) -> str:
    """For the loops, or for those with these statement numbers, what to do that they become parallel."""
    chosen = [find_loop(view, number) for number in numbers] or list(view.program.loops.values())
    if not chosen:
        return "no loops\n"
    width = max([len(header(loop)) for loop in chosen] + [len("loop")])
    rows = [f"{'S':>4} {'line':>5}  {'loop':{width}}  in the way"]
    found = _found(view, ped, chosen, progress)
    proofs = freed(ped, view, chosen, progress)
    for loop in chosen:
        rows.extend(_about(view, loop, width, found.get(loop.number), proofs.get(loop.number)))
    return "".join(row.rstrip() + "\n" for row in rows)


@dataclass(frozen=True)
class _Found:
    """What came of the steps that were tried for a loop: of none at all, of each step, and of `distribute`."""

    first: Result
    others: Sequence[Result]
    apart: Optional[Parts]


def _found(view: View, ped: Ped, loops: Sequence[Loop], progress: Progress) -> Dict[int, _Found]:
    """What comes of the steps for those of some loops that aren't PARALLEL DO."""
    outline = outline_of(view.panes.source)
    tried: Dict[int, List[Attempt]] = {}
    for loop in loops:
        if not loop.form.parallel:
            tried[loop.number] = list(attempts(view, outline, outline.loops[loop.number]))
            names = tuple(carried_names(view.carried_by(loop)))
            if names:
                tried[loop.number].append(division(loop.number, loop.level, names))
    answers = iter(results(ped, view, [one for attempted in tried.values() for one in attempted], progress))
    by_loop = {number: [next(answers) for _ in attempted] for number, attempted in tried.items()}
    divided = [
        outline.loops[number] for number, came in by_loop.items()
        if any(one.attempt.divides and one.refusal is None for one in came)
    ]
    apart = parts(ped, view, divided, progress)
    return {
        number: _Found(came[0], [one for one in came[1:] if not one.attempt.divides], apart.get(number))
        for number, came in by_loop.items()
    }


def _about(view: View, loop: Loop, width: int, found: Optional[_Found], proof: Optional[Proof]) -> Iterator[str]:
    line = view.program.statement(loop.number).line
    front = f"{loop.number:4} {line:5}  {header(loop):{width}}  "
    if found is None:
        yield f"{front}nothing: it is a PARALLEL DO"
        return
    rows = rows_by_name(view.carried_by(loop))
    if rows:
        yield front + "; ".join(f"{name}: {summary(mine)}" for name, mine in rows.items())
    else:
        yield front + ("nothing" if found.first.frees else _cause(found.first))
    if proof is not None:
        yield _INDENT + offer(proof)
    yield from (_INDENT + words for words in _ways(view, loop, found, is_freed=proof is not None))


def _cause(first: Result) -> str:
    """Why `parallel` is refused at a loop that carries nothing."""
    refusal = first.hindrance or ""
    return f"{refusal}: {cause_of(refusal)}"


def _ways(view: View, loop: Loop, found: _Found, is_freed: bool) -> Iterator[str]:
    """The steps that lead on, the best first; where evidence frees the loop, only those that free it, too."""
    if found.first.frees:
        yield f"`parallel {loop.number}`: ped accepts it"
    freeing = [result for result in found.others if result.frees]
    for result in freeing:
        step, number = result.attempt.step, result.attempt.place.number
        then = "the iterations may be done in any order" if result.attempt.sums else f"ped accepts `parallel {number}`"
        yield f"`{step}`{_where(loop, result)}: then {then}"
    is_parted = found.apart is not None and bool(found.apart.free)
    if found.apart is not None and is_parted:
        yield f"`distribute {loop.number}` {found.apart.words}"
    rows = rows_by_name(view.carried_by(loop))
    if freeing or not rows or is_parted or is_freed:
        return
    lessening = [result for result in found.others if result.refusal is None and len(result.names) < len(rows)]
    for result in lessening:
        yield f"`{result.attempt.step}` takes a part away; the loop then carries {listed(list(result.names))}"
    yield from _otherwise(view, loop, rows, bool(lessening))


def _where(loop: Loop, result: Result) -> str:
    """Where the loop stands behind a step, if that is somewhere else."""
    if not (result.attempt.step or "").startswith("interchange"):
        return ""
    return " makes it the inner loop" if result.attempt.place.number > loop.number else " makes it the outer loop"


def _otherwise(view: View, loop: Loop, rows: Dict[str, List[Dependence]], is_lessened: bool) -> Iterator[str]:
    """What is left where no single step frees a loop."""
    found = False
    for name, mine in rows.items():
        if may_reject(view.program, mine):
            yield f"`reject {loop.number} {name}`, where you know that no two iterations use one element; {_UNPROMISED}"
        elif name not in view.program.arrays and name not in (INPUT, OUTPUT):
            yield about_scalar(view.program, loop, name)
        else:
            continue
        found = True
    if not found and not is_lessened:
        yield f"no single step removes it; `pedx why FILE --loop {loop.number}` tells why"
