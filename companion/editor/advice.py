"""What to try at the present loop.

What is advised comes from `advised` alone. It asks the command `advise` of ped for the steps that want no more than a
loop, and has the others tried in sessions, as `pedx loops` and `pedx tune` do.
"""

from __future__ import annotations

import re
from dataclasses import dataclass
from typing import Dict, Iterator, List, Sequence, Tuple

from ..advice import Adviser, place_of
from ..calls import Calls
from ..messages import listed
from ..outline import Outline, outline_of
from ..ped import Ped
from ..program import Loop
from ..progress import Progress
from ..refusals import refused
from ..replies import Advised
from ..trials import carried_names, rows_by_name
from ..tuning import attempts, results
from ..views import View
from .keys import PROVE
from .pages import KEYS, Listed

_ACCEPTED = re.compile(r"try (`[^`]*`(?:(?:,| and) `[^`]*`)*): ped accepts")
_STEP = re.compile(r"`([^`]*)`")
_REJECT = "C$PED REJECT"


@dataclass(frozen=True)
class Advice:
    """A piece of advice: its words, and the steps that ped has accepted, none where there is nothing to carry out."""

    words: str
    steps: Tuple[str, ...] = ()


def advised(ped: Ped, view: View, loop: Loop) -> List[Advice]:
    """What to try at a loop: what ped accepts, the most wanted first, and then what it refuses, with the cause."""
    adviser = Adviser(view, ped, [loop], tries=True)
    steps = adviser.advised(loop)
    accepted = [one for one in sorted(steps, key=place_of) if one.refusal is None]
    words = [*_about_names(adviser, view, loop), *adviser.about_blocks(loop)]
    if adviser.about_evidence(loop):
        words.append(f"with evidence ped accepts `parallel {loop.number}`: the key {PROVE} does that")
    words.extend(adviser.about_step(loop, one) for one in accepted if one.word == "parallel")
    words.extend(_freeing(ped, view, loop, [one.command for one in accepted]))
    told = {step for one in words for step in _accepted(one)}
    words.extend(adviser.about_step(loop, one) for one in accepted if one.command not in told)
    words.extend(_refused(adviser, loop))
    return sorted([Advice(one, _accepted(one)) for one in words], key=lambda one: not one.steps)


def _about_names(adviser: Adviser, view: View, loop: Loop) -> List[str]:
    """What to try against what a loop carries, name by name, and for several scalars at once."""
    words: List[str] = []
    for name, rows in rows_by_name(view.carried_by(loop)).items():
        words.extend(adviser.about_name(loop, name, rows))
    return [*words, *adviser.about_scalars(loop)]


def _freeing(ped: Ped, view: View, loop: Loop, accepted: Sequence[str]) -> Iterator[str]:
    """The steps of a loop, or of the one round it, behind which the loop may be parallel."""
    if loop.form.parallel:
        return
    outline = outline_of(view.panes.source)
    outer = f"interchange {loop.nest[-2]}" if loop.level > 1 else ""
    tried = [one for one in attempts(view, outline, outline.loops[loop.number]) if one.step in (*accepted, outer)]
    for result in results(ped, view, tried, Progress()):
        if result.frees:
            then = f"and then `parallel {result.attempt.place.number}`"
            yield f"try `{result.attempt.step}`: ped accepts it, {then}"


def _refused(adviser: Adviser, loop: Loop) -> Iterator[str]:
    """What ped refuses; that a DO can't become serial needn't be told."""
    together: Dict[str, List[Advised]] = {}
    for one in adviser.advised(loop):
        if one.refusal is not None and (loop.form.parallel or one.word != "serial"):
            together.setdefault(one.refusal, []).append(one)
    for refusal, alike in together.items():
        yield adviser.about_step(loop, alike[0]) if len(alike) == 1 else _refused_together(alike, refusal)


def _refused_together(steps: Sequence[Advised], refusal: str) -> str:
    commands = listed([f"`{one.command}`" for one in steps])
    if steps[0].is_forbidden:
        return f"{commands}: refused {refusal}: this dependence forbids them"
    return f"{commands}: {refused(refusal)}"


def advice_page(view: View, loop: Loop, advice: List[Advice]) -> Listed:
    """The advice as a list; what can be carried out has a key."""
    names = carried_names(view.carried_by(loop))
    page = Listed([f"Loop {loop.number} carries {listed(names) or 'nothing'}.", ""], [], [])
    keys = iter(KEYS)
    for one in advice:
        if one.steps:
            page.chosen.append(", ".join(one.steps))
            page.places.append(len(page.lines))
        page.lines.append(f"{next(keys, ''):>3}  {one.words}" if one.steps else f"  -  {one.words}")
    if any(_REJECT in one.words for one in advice):
        page.lines.append("     (the key j does that)")
    if not advice:
        page.lines.append("There is nothing that can be tried here by itself.")
    return page


def calls_page(calls: Calls, outline: Outline) -> Listed:
    """The CALLs as a list, each with a key that inlines it, and what depends on them."""
    page = Listed([], [], [])
    keys = iter(KEYS)
    for number, call in calls.calls.items():
        page.chosen.append(f"inline {number}")
        page.places.append(len(page.lines))
        page.lines.append(f"{next(keys, ''):>3}  {number} {call}")
        page.lines.extend(f"       {words}" for words in calls.about(number, outline.nests))
    return page if page.lines else Listed(["The program has no CALL."], [], [])


def _accepted(words: str) -> Tuple[str, ...]:
    """The steps that a piece of advice says ped accepts."""
    match = _ACCEPTED.match(words)
    return tuple(_STEP.findall(match.group(1))) if match else ()
