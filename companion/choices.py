"""Which parallel loops get a directive for OpenMP: by the counts of a run, or by the places of the loops alone.

To start the threads of a loop and to wait for them takes as long as thousands of statements. So a directive pays only
where an entry of the loop executes many statements, and where there are iterations for each thread. Whether it does is
an estimate: it changes how long the program takes, and never what it computes.
"""

from __future__ import annotations

from typing import Dict, Iterable, Iterator, List, Mapping, Optional

from .counting import Counts
from .estimates import Condition, estimate_of
from .messages import counted, listed
from .openmp import Choice, Sums, Wishes, directed_loops
from .program import Loop, Program
from .ranges import iterations_of, most_executed, most_in_iteration

#: Fewer statements of an entry take less time than its threads. docs/PERFORMANCE.md has the measurement.
LEAST_WORK = 10_000
#: So many iterations of an entry are enough for some threads.
ENOUGH = 4


def choice_of(program: Program, sums: Sums, wishes: Wishes, counts: Optional[Counts] = None) -> Choice:
    """The choice for a printed program: by counts where there are some, else by the text."""
    loops = directed_loops(program, sums, wishes.every)
    if wishes.every or not wishes.paying:
        return Choice(loops)
    if counts is None:
        return _by_text(program, loops)
    return _Chooser(program, directed_loops(program, sums, every=True), counts).choice(loops.values())


def _by_text(program: Program, loops: Mapping[int, Loop]) -> Choice:
    """Of these loops those that may pay as far as the text tells, and under which condition."""
    by_text = _ByText(program)
    for loop in loops.values():
        by_text.take(loop)
    return by_text.choice()


class _ByText:
    """Chooses among the parallel loops of a program by its text."""

    def __init__(self, program: Program) -> None:
        self._program = program
        self._chosen: Dict[int, Loop] = {}
        self._least: Dict[int, int] = {}
        self._conditions: Dict[int, Condition] = {}
        self._small: Dict[int, int] = {}
        self._remarks: List[str] = []

    def choice(self) -> Choice:
        """The choice among the loops that were taken."""
        remarks = self._remarks
        if self._small:
            names = f"loop{'' if len(self._small) == 1 else 's'} {listed([str(number) for number in self._small])}"
            words = f"{names}: {_at_most(max(self._small.values()))} an entry, so threads don't pay"
            remarks = [words, *remarks]
        return Choice(self._chosen, self._least, tuple(remarks), self._conditions)

    def take(self, loop: Loop) -> None:
        """Chooses whether a loop gets a directive."""
        most, each = most_executed(self._program, loop), most_in_iteration(self._program, loop)
        if most is None and each == 0:
            most = 0
        if most is not None and most < LEAST_WORK:
            self._small[loop.number] = most
        elif most is not None:
            self._chosen[loop.number] = loop
        elif each is not None:
            self._from(loop, each, f"{_at_most(each)} an iteration")
        else:
            self._estimated(loop)

    def _estimated(self, loop: Loop) -> None:
        """Chooses for a loop in which there are loops with open bounds."""
        estimate = estimate_of(self._program, loop)
        entry, once = estimate.entry, "" if estimate.whole else ", if loops of unknown length have one iteration"
        if entry is None:
            each = int(estimate.each.value or loop.last - loop.number)
            self._from(loop, each, "each loop of open length in it counts as one iteration")
        elif entry.value is None:
            self._chosen[loop.number] = loop
            self._conditions[loop.number] = Condition(entry, LEAST_WORK, estimate.iterations)
            self._remark(loop, f"threads start from some {LEAST_WORK} statements an entry on{once}")
        elif entry.value >= LEAST_WORK:
            self._chosen[loop.number] = loop
        elif estimate.whole:
            self._small[loop.number] = int(entry.value)
        else:
            self._remark(loop, "what an entry executes isn't known before it, so there is no directive without --all")

    def _from(self, loop: Loop, each: int, why: str) -> None:
        """Has threads start from as many iterations on as have enough statements."""
        self._chosen[loop.number] = loop
        self._least[loop.number] = max(2, -(-LEAST_WORK // each))
        self._remark(loop, f"{why}, so threads start from {self._least[loop.number]} on")

    def _remark(self, loop: Loop, words: str) -> None:
        self._remarks.append(f"{_name(loop)}: {words}")


def _at_most(count: int) -> str:
    return f"at most {counted(count, 'statement')}"


class _Chooser:
    """Chooses among the parallel loops of a program by the counts of a run."""

    def __init__(self, program: Program, candidates: Mapping[int, Loop], counts: Counts) -> None:
        self._program = program
        self._candidates = candidates
        self._counts = counts
        self._loops: Dict[int, Loop] = {}
        self._least: Dict[int, int] = {}
        self._remarks: List[str] = []

    def choice(self, outermost: Iterable[Loop]) -> Choice:
        """The choice among the outermost parallel loops and those in them."""
        for loop in outermost:
            self._take(loop)
        return Choice(dict(sorted(self._loops.items())), self._least, tuple(self._remarks))

    def _take(self, loop: Loop) -> None:
        """Chooses in a nest whose outermost parallel loop this is."""
        tally = self._counts.loops[loop.number]
        if not tally.entries:
            self._loops[loop.number] = loop
            self._remark(loop, "not entered in the counted run, so nothing is known of it")
            return
        picked = list(self._picked(loop))
        self._loops.update({one.number: one for one in picked})
        did = f"{counted(tally.entries, 'entry')} with {counted(tally.executed // tally.entries, 'statement')} each"
        if not picked:
            self._leave(loop, f"{did} don't pay for threads")
        elif picked != [loop]:
            inner = listed([_name(one) for one in picked])
            words = counted(tally.iterations // tally.entries, "iteration")
            reason = did if tally.executed < LEAST_WORK * tally.entries else f"{words} an entry are few for threads"
            self._remark(loop, f"{reason}, so {inner} in it has its directive")

    def _picked(self, loop: Loop) -> Iterator[Loop]:
        """The outermost loops of a nest that pay: an entry has iterations and statements enough."""
        tally = self._counts.loops[loop.number]
        pays = tally.entries > 0 and tally.executed >= LEAST_WORK * tally.entries
        if pays and tally.iterations >= ENOUGH * tally.entries:
            yield loop
            return
        inner = [one for child in self._next(loop) for one in self._picked(child)]
        if not inner and pays and tally.iterations >= 2 * tally.entries:
            yield loop
        yield from inner

    def _next(self, loop: Loop) -> Iterator[Loop]:
        """The outermost parallel loops inside a loop."""
        for inner in self._program.inner_loops(loop):
            between = inner.nest[len(loop.nest):-1]
            if inner.number in self._candidates and not any(number in self._candidates for number in between):
                yield inner

    def _leave(self, loop: Loop, why: str) -> None:
        """Has a loop that does little start threads only where it has more iterations than in the counted run."""
        tally = self._counts.loops[loop.number]
        most = most_executed(self._program, loop)
        if iterations_of(self._program, loop) is not None or most is not None and most < LEAST_WORK:
            self._remark(loop, f"{why}, so there is no directive")
            return
        each = tally.executed / tally.iterations if tally.executed else max(loop.last - loop.number, 1)
        self._least[loop.number] = max(2, -int(-LEAST_WORK // each))
        self._loops[loop.number] = loop
        self._remark(loop, f"{why}, so they start from {self._least[loop.number]} iterations on")

    def _remark(self, loop: Loop, words: str) -> None:
        self._remarks.append(f"{_name(loop)}: {words}")


def _name(loop: Loop) -> str:
    return f"loop {loop.number}, DO {loop.variable}"
