"""Verdicts as text: one line for each DO, what it carries below it, and the assumptions at the end."""

from __future__ import annotations

from typing import Dict, Iterator, List, Sequence, Tuple

from ..messages import counted, listed
from ..panes import MARKS
from . import assumptions
from .asking import Carried
from .directives import Clauses
from .units import File
from .verdicts import CARRIED, PARALLEL, REFUSED, VALUE, Verdict, Would

#: Where the assumptions are explained.
PAGE = "docs/REAL.md"
#: A header is at least so wide, and at most.
_NARROWEST, _WIDEST = 16, 48
#: So many pairs of lines are named of one name.
_MOST_LINES = 4
#: Units without statements of their own that could be loops.
_WITHOUT_BODY = ("MODULE", "SUBMODULE", "BLOCK DATA")


def report(name: str, file: File, verdicts: Sequence[Verdict]) -> str:
    """The table of the loops of a file, which messages call by a name."""
    rows = [_summary(name, file, verdicts)]
    if verdicts:
        rows.extend(_table(verdicts))
    cited = {one for verdict in verdicts if verdict.word != REFUSED for one in verdict.assumes}
    if cited:
        rows.append(f"assumed: {assumptions.cited(cited)} ({PAGE})")
    return "".join(row.rstrip() + "\n" for row in rows)


def _summary(name: str, file: File, verdicts: Sequence[Verdict]) -> str:
    units = sum(unit.kind not in _WITHOUT_BODY for unit in file.all_units())
    counts = {word: sum(verdict.word == word for verdict in verdicts) for word in (PARALLEL, CARRIED, REFUSED)}
    carry = "carries" if counts[CARRIED] == 1 else "carry"
    return (
        f"{name}: {counted(units, 'unit')}, {counted(len(verdicts), 'loop')}: {counts[PARALLEL]} parallel, "
        f"{counts[CARRIED]} {carry}, {counts[REFUSED]} refused"
    )


def _table(verdicts: Sequence[Verdict]) -> Iterator[str]:
    headers = [_header(verdict) for verdict in verdicts]
    width = max(_NARROWEST, *map(len, headers))
    yield f"{'line':>7}  {'loop':{width}}  verdict"
    before = ""
    for verdict, header in zip(verdicts, headers):
        unit = verdict.place.scene.unit
        if unit.path != before or before == "":
            before = unit.path
            yield " " * 9 + (", ".join(filter(None, unit.path.split(":"))) or "main program")
        yield f"{verdict.place.line:7}  {header:{width}}  {said(verdict)}"
        for remark in remarks(verdict):
            yield " " * 11 + remark


def _header(verdict: Verdict) -> str:
    text = "  " * (verdict.place.level - 1) + verdict.place.header
    return text if len(text) <= _WIDEST else text[:_WIDEST - 2] + ".."


def said(verdict: Verdict) -> str:
    """A verdict in a line; of a loop in an INCLUDEd file also the file that the lines are of."""
    where = f" (in {verdict.place.file})" if verdict.place.file else ""
    return _said(verdict) + where


def _said(verdict: Verdict) -> str:
    if verdict.refusal is not None:
        fault = verdict.refusal
        return f"refused: {fault.reason}: {fault.words} (line {fault.line})"
    if verdict.word == CARRIED:
        return f"carries {listed([one.name for one in verdict.carried])}"
    clauses = clauses_said(verdict.clauses)
    return f"parallel: {clauses}" if clauses else "parallel"


def clauses_said(clauses: Clauses) -> str:
    """Clauses as OpenMP has them, with commas between them."""
    last = [*clauses.last, *clauses.last_alone]
    found = [
        _clause("PRIVATE", clauses.private), _clause("FIRSTPRIVATE", clauses.last), _clause("LASTPRIVATE", last),
        _clause("LASTPRIVATE", clauses.conditional, "CONDITIONAL:"),
        *(_clause("REDUCTION", names, f"{operator}:") for operator, names in by_operator(clauses)),
        *(f"LINEAR({name}:{step})" for name, step in clauses.inductions),
    ]
    return ", ".join(filter(None, found))


def by_operator(clauses: Clauses) -> List[Tuple[str, List[str]]]:
    """The operators of reductions, each with its names."""
    found: Dict[str, List[str]] = {}
    for operator, name in clauses.reductions:
        found.setdefault(operator, []).append(name)
    return list(found.items())


def _clause(word: str, names: Sequence[str], front: str = "") -> str:
    return f"{word}({front}{','.join(names)})" if names else ""


def remarks(verdict: Verdict) -> List[str]:
    """What a loop carries, by names, and what a further assumption would make of it."""
    would = _shortest(verdict.would)
    steps = _steps(would)
    rows = [
        _about(verdict, carried) for carried in verdict.carried if carried.name not in steps
    ]
    if would:
        rows.append(_helped(would[0], steps))
    return rows


def _about(verdict: Verdict, carried: Carried) -> str:
    """What is carried of one name."""
    if carried.kinds == (VALUE,):
        return f"{carried.name}: its value is used after the loop, which may have no iteration"
    rows = counted(len(carried.pairs), "row")
    lines = [f"line {first} with line {second}" for first, second in carried.lines]
    more = f" and {len(lines) - _MOST_LINES} more" if len(lines) > _MOST_LINES else ""
    where = ", ".join(lines[:_MOST_LINES]) + more
    text = f"{carried.name}: {', '.join(carried.kinds)} ({rows}), {_marks(carried)}: {where}"
    if carried.name in verdict.clauses.conditional:
        text += "; its last value is used after the loop, and not every iteration assigns it"
    return text


def _marks(carried: Carried) -> str:
    counts = [(sum(pair.mark == mark for pair in carried.pairs), mark) for mark in MARKS]
    present = [(count, mark) for count, mark in counts if count]
    return present[0][1] if len(present) == 1 else listed([f"{count} {mark}" for count, mark in present])


def _shortest(would: Sequence[Would]) -> List[Would]:
    """The one with the fewest assumptions, where there is one."""
    return sorted(would, key=lambda one: len(one.assumed))[:1]


def _steps(would: Sequence[Would]) -> Dict[str, str]:
    """The induction variables that an assumption makes, with their steps."""
    found: Dict[str, str] = {}
    for one in would:
        if "A8" in one.assumed:
            found.update(one.clauses.inductions)
    return found


def helped(verdict: Verdict) -> str:
    """What is said of a further assumption, or of the fewest, with which a loop is parallel; there has to be one."""
    would = _shortest(verdict.would)
    return _helped(would[0], _steps(would))


def _helped(would: Would, steps: Dict[str, str]) -> str:
    """What is said of a further assumption."""
    words: List[Tuple[str, str]] = []
    for name in would.assumed:
        summary = assumptions.ASSUMPTIONS[name].summary
        if name == "A8":
            values = list(dict.fromkeys(step.lstrip("-") for step in steps.values()))
            summary = f"{', '.join(values)} {'isn' if len(values) == 1 else 'aren'}'t 0"
        words.append((name, summary))
    front = f"{', '.join(steps)}: induction variable{'s' if len(steps) > 1 else ''}; " if steps else ""
    options = " ".join(f"--assume {name} ({summary})" for name, summary in words)
    return f"{front}with {options} the loop is parallel"
