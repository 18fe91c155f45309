"""Verdicts about random loops against what their runs read and write."""

from __future__ import annotations

import random
import unittest
from typing import Dict, List, Sequence, Set, Tuple

from ..real.units import loops_of
from ..real.survey import variable_of
from ..real.verdicts import REFUSED, Verdict
from .real_loops import Loops
from .real_random import ARRAYS, Subroutine
from .real_running import Endless, Event, Run, conflicts, reads_first

#: The random subroutines of each call of the tests; others have been run by hand.
_FIRST, _COUNT, _RUNS = 0, 40, 3


def runs_of(loops: Loops, number: int) -> List[Run]:
    """Some runs of a subroutine, each with other values."""
    found = []
    for further in range(_RUNS):
        chosen = random.Random(number * _RUNS + further)
        values = {name: chosen.randint(1, most) for name, most in (("N", 7), ("M", 6), ("L", 3))}
        values.update({name: chosen.randint(0, 4) for name in ("K", "T", "U", "I", "J", "JJ")})
        run = Run(loops.file.units[0], ARRAYS, values, number)
        try:
            run.carry_out()
        except Endless:
            continue
        found.append(run)
    return found


class Checked:
    """A verdict, and what it says of the runs of its loop."""

    def __init__(self, verdict: Verdict) -> None:
        clauses = verdict.clauses
        self.verdict = verdict
        self.pairs: Set[Tuple[str, int, int, str]] = {
            (carried.name, pair.source.line, pair.sink.line, pair.kind)
            for carried in verdict.carried for pair in carried.pairs
        }
        carried = {one.name for one in verdict.carried}
        counters = {variable_of(block) for block in [verdict.place.block, *loops_of(verdict.place.block.body)]}
        #: The names of which a loop's iterations have copies, or which a clause gathers.
        self.excused = set(clauses.names) | counters
        # The order of the iterations isn't known where the step isn't.
        self.by_name = carried if verdict.place.header.endswith(", L") else set()
        self.copies = [*clauses.private, *clauses.last, *clauses.conditional]

    def missing(self, times: Sequence[Sequence[Event]]) -> Set[Tuple[str, int, int, str]]:
        """The conflicts between iterations of which the verdict says nothing."""
        return {
            found for found in conflicts(times)
            if found[0] not in self.excused and found not in self.pairs and found[0] not in self.by_name
        }

    def wrong_copies(self, times: Sequence[Sequence[Event]], after: Sequence[Event]) -> List[str]:
        """The scalars that may not be private, or have no last value, as a run shows."""
        clauses = self.verdict.clauses
        wrong = [name for name in self.copies if any(reads_first(events, name) for events in times)]
        wrong += [name for name in clauses.private if reads_first(after, name)]
        for name in clauses.last:
            wrong += [name for events in times if all(not one.writes or one.cell != (name, ()) for one in events)]
        return wrong


class RandomLoops(unittest.TestCase):
    """No conflict between iterations is missing."""

    def test_conflicts(self) -> None:
        words: Dict[str, int] = {}
        for number in range(_FIRST, _FIRST + _COUNT):
            text = Subroutine(number).text
            loops = Loops(text, assume=["A8"] * (number % 2) + ["A13"] * (number % 3 == 0))
            runs = runs_of(loops, number)
            for line, verdict in loops.by_line(conditional=number % 5 == 0).items():
                words[verdict.word] = words.get(verdict.word, 0) + 1
                if verdict.word != REFUSED:
                    with self.subTest(number=number, line=line, text=text):
                        self._check(Checked(verdict), runs, line)
        self.assertEqual(set(words), {"parallel", "carried", "refused"})

    def _check(self, checked: Checked, runs: Sequence[Run], line: int) -> None:
        for run in runs:
            for index, times in enumerate(run.iterations[line]):
                ends = run.after[line]
                after = run.events[ends[index]:] if index < len(ends) else ()
                self.assertEqual(checked.missing(times), set())
                self.assertEqual(checked.wrong_copies(times, after), [])


if __name__ == "__main__":
    unittest.main()
