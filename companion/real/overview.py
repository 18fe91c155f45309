"""What is said about several files: a table, the loops that pay first, what refuses most, and what would help."""

from __future__ import annotations

from collections import Counter
from dataclasses import dataclass
from typing import Iterator, List, Optional, Sequence, Tuple

from ..messages import counted
from . import assumptions, report
from .costs import NEVER, Cost, Costs
from .project import Done, Seen
from .verdicts import CARRIED, PARALLEL, REFUSED

#: So many rows are shown of a list that may be long.
_MOST_ROWS = 12
_MOST_WORDS = 3
_WIDEST = 40


def overview(names: Sequence[str], done: Sequence[Done], costs: Optional[Costs] = None, each: bool = False) -> str:
    """The whole report about some files."""
    loops = [loop for one in done for loop in one.loops]
    rows = [_summary(names, done, loops), *_table(names, done)]
    if costs is not None:
        rows += ["", *_paying(names, loops, costs)]
    rows += _refusals(loops)
    rows += _help(loops)
    if each:
        for name, one in zip(names, done):
            rows += ["", *_each(name, one)]
    cited = {one for loop in loops if loop.word != REFUSED for one in loop.assumes}
    if cited:
        rows += ["", f"assumed: {assumptions.cited(cited)} ({report.PAGE})"]
    return "".join(row.rstrip() + "\n" for row in rows)


def _count(loops: Sequence[Seen], word: str) -> int:
    return sum(loop.word == word for loop in loops)


def _summary(names: Sequence[str], done: Sequence[Done], loops: Sequence[Seen]) -> str:
    units = sum(len(one.units) for one in done)
    carried = _count(loops, CARRIED)
    return (
        f"{counted(len(names), 'file')}, {counted(units, 'unit')}, {counted(len(loops), 'loop')}: "
        f"{_count(loops, PARALLEL)} parallel, {carried} {'carries' if carried == 1 else 'carry'}, "
        f"{_count(loops, REFUSED)} refused; {_models(loops)} with a model"
    )


def _models(loops: Sequence[Seen]) -> int:
    return sum(loop.has_model for loop in loops)


def _table(names: Sequence[str], done: Sequence[Done]) -> Iterator[str]:
    width = max(map(len, [*names, "file"]))
    yield f"{'file':{width}}  {'loops':>5}  {'model':>5}  {'parallel':>8}  {'carry':>5}  {'refused':>7}"
    for name, one in zip(names, done):
        loops = one.loops
        counts = (len(loops), _models(loops), _count(loops, PARALLEL), _count(loops, CARRIED), _count(loops, REFUSED))
        numbers = "  ".join(f"{number:{size}}" for number, size in zip(counts, (5, 5, 8, 5, 7)))
        yield f"{name:{width}}  {numbers}  {_classes(loops)}"


def _classes(loops: Sequence[Seen]) -> str:
    classes = Counter(loop.reason for loop in loops if loop.word == REFUSED)
    return ", ".join(f"{count} {reason}" for reason, count in _most(classes))


def _most(counts: "Counter[str]") -> List[Tuple[str, int]]:
    return sorted(counts.items(), key=lambda one: (-one[1], one[0]))


# --- Loops that pay --------------------------------------------------------------------------------------------------


def place_of(names: Sequence[str], loop: Seen) -> str:
    """The file and the line of a loop."""
    return f"{loop.included or names[loop.file]}:{loop.line}"


def _paying(names: Sequence[str], loops: Sequence[Seen], costs: Costs) -> Iterator[str]:
    """The loops that a run has carried out, the most expensive first; of parallel ones the outermost alone."""
    having = [
        loop for loop in loops
        if not loop.included and not loop.is_inside and costs.get((loop.file, loop.line), NEVER).entries
    ]
    having.sort(key=lambda loop: -costs[loop.file, loop.line].share)
    parallel = [loop for loop in having if loop.word == PARALLEL]
    others = [loop for loop in having if loop.word != PARALLEL]
    yield from _costly("parallel loops that pay first:", names, parallel, costs)
    if others:
        yield ""
        yield from _costly("other loops, by what they cost:", names, others, costs)


#: The headings of the columns of costs.
COSTS = f"{'share':>6}  {'entries':>9}  {'iterations':>11}"


def cost_columns(cost: Cost) -> str:
    """The costs of a loop, in columns."""
    iterations = "not counted" if cost.iterations < 0 else f"{cost.iterations:,}"
    return f"{cost.share:5.1f}%  {cost.entries:9,}  {iterations:>11}"


def _costly(title: str, names: Sequence[str], loops: Sequence[Seen], costs: Costs) -> Iterator[str]:
    yield title if loops else f"{title} none was entered"
    if loops:
        yield from _rows(names, loops[:_MOST_ROWS], costs)
    if len(loops) > _MOST_ROWS:
        yield f"and {len(loops) - _MOST_ROWS} more"


def _rows(names: Sequence[str], shown: Sequence[Seen], costs: Costs) -> Iterator[str]:
    """A table of loops with what they cost."""
    places = [place_of(names, loop) for loop in shown]
    headers = [_header(loop) for loop in shown]
    left, middle = max(map(len, places)), max(map(len, headers))
    yield f"{COSTS}  {'loop':{left + middle + 2}}  verdict"
    for loop, place, header in zip(shown, places, headers):
        columns = cost_columns(costs[loop.file, loop.line])
        yield f"{columns}  {place:{left}}  {header:{middle}}  {loop.said}"


def profile(names: Sequence[str], done: Sequence[Done], costs: Costs) -> str:
    """All loops that a run has entered, the most expensive first."""
    loops = [loop for one in done for loop in one.loops]
    having = [loop for loop in loops if not loop.included and costs.get((loop.file, loop.line), NEVER).entries]
    having.sort(key=lambda loop: -costs[loop.file, loop.line].share)
    rows = [f"{counted(len(names), 'file')}, {counted(len(loops), 'loop')}, {len(having)} of them entered"]
    rows += _rows(names, having, costs) if having else []
    return "".join(row.rstrip() + "\n" for row in rows)


def _header(loop: Seen) -> str:
    return loop.header if len(loop.header) <= _WIDEST else loop.header[:_WIDEST - 2] + ".."


# --- Refusals, and what would help -----------------------------------------------------------------------------------


def _refusals(loops: Sequence[Seen]) -> Iterator[str]:
    """The classes of refusals, each with the words that occur most."""
    refused = [loop for loop in loops if loop.word == REFUSED]
    if not refused:
        return
    yield ""
    yield "refused, by reason:"
    for reason, count in _most(Counter(loop.reason for loop in refused)):
        words = _most(Counter(loop.words for loop in refused if loop.reason == reason))
        yield f"{count:7}  {reason}: {_with_count(words[0])}"
        for one in words[1:_MOST_WORDS]:
            yield f"{'':9}{'':{len(reason)}}  {_with_count(one)}"
        if len(words) > _MOST_WORDS:
            yield f"{'':9}{'':{len(reason)}}  and {len(words) - _MOST_WORDS} more"


def _with_count(words: Tuple[str, int]) -> str:
    return words[0] if words[1] == 1 else f"{words[0]} ({words[1]} loops)"


@dataclass(frozen=True)
class Help:
    """What would help some loops: assumptions that make them parallel, or names that a further file has to have."""

    loops: int
    assumed: Tuple[str, ...] = ()
    missing: Tuple[str, ...] = ()

    @property
    def words(self) -> str:
        """What is to be done, and what it does."""
        these = "this loop" if self.loops == 1 else "these loops"
        if self.missing:
            which = "it" if len(self.missing) == 1 else "them"
            return f"--with a file that has {' and '.join(self.missing)}: nothing but {which} is missing in {these}"
        options = " ".join(f"--assume {one}" for one in self.assumed)
        summary = "; ".join(assumptions.ASSUMPTIONS[one].summary for one in self.assumed)
        return f"{options} ({summary}): {these} would be parallel"


def helps(loops: Sequence[Seen]) -> List[Help]:
    """What would help, that for most loops first."""
    missing = Counter(loop.missing for loop in loops if loop.missing)
    assumed = Counter(loop.would for loop in loops if loop.would)
    found = [Help(count, missing=names) for names, count in missing.items()]
    found += [Help(count, assumed=names) for names, count in assumed.items()]
    return sorted(found, key=lambda one: (-one.loops, one.missing, one.assumed))


def _help(loops: Sequence[Seen]) -> Iterator[str]:
    found = helps(loops)
    if not found:
        return
    yield ""
    yield "what would help most:"
    for one in found[:_MOST_ROWS]:
        yield f"{one.loops:7}  {one.words}"
    if len(found) > _MOST_ROWS:
        yield f"         and {len(found) - _MOST_ROWS} more"


# --- Each file -------------------------------------------------------------------------------------------------------


def _each(name: str, done: Done) -> Iterator[str]:
    """The table of the loops of a file."""
    yield f"{name}: {counted(len(done.loops), 'loop')}"
    headers = ["  " * (loop.level - 1) + _header(loop) for loop in done.loops]
    width = max(map(len, headers), default=0)
    before: Optional[str] = None
    for loop, header in zip(done.loops, headers):
        if loop.unit != before:
            before = loop.unit
            yield " " * 9 + (", ".join(filter(None, loop.unit.split(":"))) or "main program")
        yield f"{loop.line:7}  {header:{width}}  {loop.said}"
        for remark in loop.remarks:
            yield " " * 11 + remark
