"""`pedx why` on real Fortran: why a loop carries what it does, or why it is parallel, in the user's own lines."""

from __future__ import annotations

from dataclasses import dataclass
from typing import Dict, Iterator, List, Mapping, Optional, Sequence, Tuple

from ..doubts import why_untested
from ..messages import Mark, excerpt, listed
from ..panes import Dependence
from ..program import Loop
from ..subscripts import Position, Test, iterations, positions
from . import assumptions, tree
from .asking import Carried, Found, Pair
from .directives import Clauses
from .locating import span_of
from .report import PAGE, clauses_said, helped
from .units import File, Written
from .verdicts import CARRIED, VALUE, Verdict
from .writer import Origin

#: The columns of a mark that goes over several lines, by the form of a file.
_COLUMNS = {"fixed": (7, 72), "free": (1, 132)}


@dataclass(frozen=True)
class Wanted:
    """Which rows are wanted; where a list is empty, all that it is about."""

    names: Sequence[str] = ()
    kinds: Sequence[str] = ()
    marks: Sequence[str] = ()

    @property
    def is_all(self) -> bool:
        """Whether everything is wanted."""
        return not (self.names or self.kinds or self.marks)

    def has(self, carried: Carried, pair: Pair) -> bool:
        """Whether a row is wanted."""
        return (
            (not self.names or carried.name in self.names)
            and (not self.kinds or pair.kind in self.kinds)
            and (not self.marks or pair.mark in self.marks)
        )


class Explainer:
    """Explains verdicts about the loops of a file. `included` has the lines of its INCLUDEd files."""

    def __init__(self, name: str, file: File, columns: int, included: Mapping[str, Sequence[str]]) -> None:
        self._name = name
        self._file = file
        self._columns = columns
        self._included = included

    def explained(self, verdict: Verdict, wanted: Wanted = Wanted()) -> List[str]:
        """A verdict in lines."""
        if verdict.word != CARRIED:
            return [f"{self._at(verdict, verdict.place.line)}: {self._headline(verdict)}", *self._reasons(verdict)]
        rows: List[str] = []
        for carried in verdict.carried:
            for pair in carried.pairs:
                if wanted.has(carried, pair):
                    rows += [*([""] if rows else []), *self._row(verdict, pair)]
        if rows and verdict.would:
            rows.append("      " + helped(verdict))
        return rows

    def _at(self, verdict: Verdict, line: int) -> str:
        return f"{verdict.place.file or self._name}:{line}"

    # --- Loops that carry nothing, and those of which nothing is said ---

    @staticmethod
    def _headline(verdict: Verdict) -> str:
        if verdict.refusal is not None:
            fault = verdict.refusal
            return f"{verdict.place.header} is refused: {fault.reason}: {fault.words} (line {fault.line})"
        clauses = clauses_said(verdict.clauses)
        return f"{verdict.place.header} is parallel" + (f": {clauses}" if clauses else "")

    def _reasons(self, verdict: Verdict) -> Iterator[str]:
        if verdict.refusal is not None:
            if verdict.would:
                yield "      " + helped(verdict)
            return
        yield from _about_clauses(verdict.clauses)
        arrays = self._assigned_arrays(verdict)
        if arrays:
            yield f"      {listed(arrays)}: no two iterations use one element that one of them assigns"
        yield f"      assumed: {assumptions.cited(verdict.assumes)} ({PAGE})"

    @staticmethod
    def _assigned_arrays(verdict: Verdict) -> List[str]:
        """The arrays that a loop assigns elements of."""
        place = verdict.place
        written = {
            access.place for one in place.block.statements() for access in place.scene.facts.effects(one).writes
        }
        return sorted(name for name in written - set(verdict.clauses.names) if place.scene.symbols.get(name).rank)

    # --- Rows ---

    def _row(self, verdict: Verdict, pair: Pair) -> Iterator[str]:
        """A row in a sentence, its references marked in their lines, and why it isn't excluded."""
        place = verdict.place
        carrier = f"DO {place.variable} of line {place.line}"
        if pair.kind == VALUE:
            yield f"{self._at(verdict, place.line)}: {pair.source.name} is needed after {carrier}, which counts it"
            yield "      a loop without an iteration gives it another value than the last iteration would"
            return
        ends = f"from line {pair.source.line} to line {pair.sink.line}"
        at = f"{pair.source.file or self._name}:{pair.source.line}"
        yield f"{at}: {pair.kind} of {pair.source.name} {ends}, carried by {carrier}, {pair.mark}"
        yield from self._marked(verdict, pair)
        found = pair.found
        if found is None:
            return
        for reason in _why(found, pair):
            yield f"      {reason}"
        if pair.mark == "pending":
            for cause in _pending(verdict, found):
                yield f"      pending: {cause}"
        if pair.source.name in verdict.clauses.conditional:
            yield "      its last value is needed after the loop, and not every iteration assigns it"

    def _marked(self, verdict: Verdict, pair: Pair) -> Iterator[str]:
        """The lines of both references, with marks below them."""
        found = pair.found
        when = f", {_when(found, verdict)}" if found is not None else ""
        first = self._mark(verdict, pair.source, "^", _verb(pair.source))
        second = self._mark(verdict, pair.sink, "~", _verb(pair.sink) + when)
        columns = _COLUMNS[self._file.form]
        if pair.source.file == pair.sink.file:
            yield from excerpt(self._lines(pair.source), [first, second], columns)
        else:
            yield from excerpt(self._lines(pair.source), [first], columns)
            yield from excerpt(self._lines(pair.sink), [second], columns)

    def _lines(self, origin: Origin) -> Sequence[str]:
        return self._included.get(origin.file, ()) if origin.file else self._file.lines

    def _mark(self, verdict: Verdict, origin: Origin, sign: str, words: str) -> Mark:
        last = max([one.item.last for one in self._statements(verdict, origin)], default=origin.line)
        span = span_of(self._lines(origin), self._file.form, self._columns, origin.line, last, origin)
        return Mark(span, sign, words)

    @staticmethod
    def _statements(verdict: Verdict, origin: Origin) -> Iterator[Written]:
        """The statements of a loop on a line."""
        for one in verdict.place.block.statements():
            if one.item.first == origin.line and one.item.file == origin.file:
                yield one


def _about_clauses(clauses: Clauses) -> Iterator[str]:
    """Why each name may be in its clause."""
    first = "each iteration assigns it before it reads it, and"
    for names, words in [
        (clauses.private, f"{first} nothing needs its value after the loop"),
        (clauses.last, f"{first} the last value is needed after the loop"),
        (clauses.conditional, "no iteration reads it before it assigns it; the last value is needed after the loop"),
        (clauses.last_alone, "the loop counts it, and its value is needed after the loop"),
    ]:
        for name in names:
            yield f"      {name}: {words}"
    for operator, name in clauses.reductions:
        yield f"      {name}: {operator} alone changes it, so each thread may gather a part of it"
    for name, step in clauses.inductions:
        yield f"      {name}: grows by {step} in each iteration, so each iteration knows its value"


def _verb(origin: Origin) -> str:
    return "writes" if origin.writes else "reads"


def _when(found: Found, verdict: Verdict) -> str:
    """In which iteration of the loop the sink comes, seen from the source."""
    name = f"DO {verdict.place.variable}"
    distance = found.row.distances[0]
    # A model may count the iterations, or the values of the variable; ped counts iterations in both.
    if not isinstance(distance, int) or not _step(verdict):
        return f"in a later iteration of {name}"
    return f"{abs(distance)} iteration{'' if abs(distance) == 1 else 's'} of {name} later"


def _step(verdict: Verdict) -> Optional[int]:
    """The loop's step, none where it isn't constant: then the model has other iterations than the user's loop."""
    statement = verdict.place.block.head.statement
    control = statement.control if isinstance(statement, tree.Do) else None
    if not isinstance(control, tree.Counted):
        return None
    return 1 if control.step is None else verdict.place.scene.symbols.constant(control.step)


def _why(found: Found, pair: Pair) -> Iterator[str]:
    """Why the tests don't exclude a row."""
    if found.row.name not in found.program.arrays:
        yield f"{pair.source.name} is one variable, and all iterations use it"
        return
    source, sink = found.program.reference(found.row.source), found.program.reference(found.row.sink)
    both = positions(found.program, source, sink)
    texts = list(zip(_arguments(pair.source, len(both)), _arguments(pair.sink, len(both))))
    carrier = found.program.loops_round(found.row.source[0])[0]
    decisive = next((one for one in both if one.test is Test.STRONG_SIV and carrier.number in one.indices), None)
    for position, (ours, theirs) in zip(both, texts):
        decides = " decides" if position is decisive else ""
        yield f"subscript {position.number}{decides}: {ours} against {theirs}{_about_position(found, position)}"
    if both and all(one.test is not Test.NONE and carrier.number not in one.indices for one in both):
        variable = found.names.counted_by(carrier.variable) or "the loop's variable"
        yield f"{variable} occurs in no subscript: all its iterations use the same elements"


def _arguments(origin: Origin, count: int) -> Sequence[str]:
    """The subscripts of a reference in the user's text; for a whole array or the like the text itself."""
    parts: List[str] = []
    depth, begin = 0, 0
    text = origin.text
    for index, letter in enumerate(text):
        if letter == "(":
            depth += 1
            begin = index + 1 if depth == 1 else begin
        elif letter == ")" or letter == "," and depth == 1:
            if depth == 1:
                parts.append(text[begin:index])
                begin = index + 1
            depth -= letter == ")"
            if depth == 0:
                break
    return parts if len(parts) == count else [text] * count


def _about_position(found: Found, position: Position) -> str:
    if position.test is Test.NONE:
        return f": {found.names.put_back(_untested(position))}, so nothing is excluded"
    if position.test is Test.GCD_AND_BANERJEE:
        return ": the GCD test and Banerjee's inequality don't exclude it"
    if position.test is Test.ZIV:
        return ", ZIV: the same in each iteration"
    loop = found.program.loops[min(position.indices)]
    variable = found.names.counted_by(loop.variable)
    where = f" in DO {variable}" if variable else ""
    if position.test is not Test.STRONG_SIV:
        return f", {position.test.value}: the same in some iterations{where}"
    if position.distance is None:
        return f", strong SIV: no whole number of steps{where}"
    return f", strong SIV, distance {position.distance}{where}"


def _untested(position: Position) -> str:
    """Why a position has no test; the model's own scalars aren't named."""
    words = why_untested(position)
    return "a subscript isn't affine" if "OPQ" in words else words


def _pending(verdict: Verdict, found: Found) -> Iterator[str]:
    """What keeps the tests from proving a row."""
    program = found.program
    rounds: Dict[int, Loop] = {}
    for number in (found.row.source[0], found.row.sink[0]):
        rounds.update((loop.number, loop) for loop in program.loops_round(number))
    named: List[str] = []
    for _, loop in sorted(rounds.items()):
        variable = verdict.place.variable if loop.level == 1 else found.names.counted_by(loop.variable)
        if variable and variable not in named and iterations(program, loop) is None:
            named.append(variable)
    if named:
        yield f"the bounds of DO {listed(named)} aren't constant"
    if any(program.statement(number).ifs for number in _ends(found.row)):
        yield "one of the references may be passed by, on a condition"
    if found.row.name in program.arrays:
        both = positions(program, program.reference(found.row.source), program.reference(found.row.sink))
        numbers = [str(one.number) for one in both if one.test not in (Test.ZIV, Test.STRONG_SIV)]
        if numbers:
            yield f"no test tells a distance at subscript {listed(numbers)}"


def _ends(row: Dependence) -> Tuple[int, int]:
    return row.source[0], row.sink[0]
