"""Verdicts about random loops with calls against what their runs read and write, in procedures, too.

More are run by hand: `python3 -m companion.tests.real_call_runs FIRST COUNT`, with a module and structures by `modules`
as a third word.
"""

from __future__ import annotations

import random
import sys
import unittest
from typing import Dict, List, Sequence, Set, Tuple, Type

from ..real.verdicts import REFUSED
from .real_loops import Loops
from .real_random import ARRAYS
from .real_random_calls import CallingSubroutine
from .real_random_modules import ModularSubroutine
from .real_running import Endless, Event, Run, conflicts
from .test_real_running import Checked

_FIRST, _COUNT, _RUNS = 0, 25, 10
_RUNS_BY_HAND = 200
_HIDDEN = ("/BLK/", "MO:", "TY:")


def runs_of(loops: Loops, number: int, count: int = _RUNS) -> List[Run]:
    """Some runs of a subroutine, each with other values."""
    found = []
    units = list(loops.file.all_units())
    top = next(unit for unit in units if unit.name == "S")
    procedures = [unit for unit in units if unit.kind in ("SUBROUTINE", "FUNCTION")]
    for further in range(count):
        chosen = random.Random(number * count + further)
        values = {name: chosen.randint(1, most) for name, most in (("N", 7), ("M", 6), ("L", 3))}
        values.update({name: chosen.randint(0, 4) for name in ("K", "T", "U", "I", "J", "JJ")})
        run = Run(top, ARRAYS, values, number, loops.scopes, procedures)
        try:
            run.carry_out()
        except Endless:
            continue
        found.append(run)
    return found


class CheckedCalls(Checked):
    """A verdict about a loop with calls."""

    def missing(self, times: Sequence[Sequence[Event]]) -> Set[Tuple[str, int, int, str]]:
        """The conflicts of which the verdict says nothing. Variables that the unit doesn't name may be one for it."""
        hidden = {pair[0] for pair in self.pairs if pair[0].startswith(_HIDDEN)}
        return {
            found for found in super().missing(times)
            if not found[0].startswith(_HIDDEN) or found[0].split(":")[0] not in {name.split(":")[0] for name in hidden}
        }

    def wrong_copies(self, times: Sequence[Sequence[Event]], after: Sequence[Event]) -> List[str]:
        """The names in clauses that may not be there: also those that procedures have under names of their own."""
        names = set(self.verdict.clauses.names)
        reached = {one.cell[0] for events in times for one in events if one.is_reached and one.cell[0] in names}
        return [*super().wrong_copies(times, after), *sorted(reached)]


def differences(
    number: int, words: Dict[str, int], count: int = _RUNS, kind: Type[CallingSubroutine] = CallingSubroutine
) -> List[str]:
    """What the runs of a random subroutine show and no verdict says. The verdicts and the conflicts are counted."""
    text = kind(number).text
    loops = Loops(text, assume=["A8"] * (number % 2) + ["A13"] * (number % 3 == 0))
    runs = runs_of(loops, number, count)
    found = []
    for verdict in loops.verdicts(conditional=number % 5 == 0):
        if verdict.place.scene.unit.name != "S":
            continue
        words[verdict.word] = words.get(verdict.word, 0) + 1
        if verdict.word == REFUSED:
            continue
        line = verdict.place.line
        checked = CheckedCalls(verdict)
        for run in runs:
            for index, times in enumerate(run.iterations[line]):
                words["conflicts"] = words.get("conflicts", 0) + len(conflicts(times))
                ends = run.after[line]
                after = run.events[ends[index]:] if index < len(ends) else ()
                wrong = [*checked.missing(times), *checked.wrong_copies(times, after)]
                if wrong:
                    found.append(f"{number}, line {line}: {wrong}\n{text}")
    return found


class RandomCalls(unittest.TestCase):
    """No conflict between iterations is missing."""

    def test_conflicts(self) -> None:
        words: Dict[str, int] = {}
        for number in range(_FIRST, _FIRST + _COUNT):
            self.assertEqual(differences(number, words), [])
        self.assertGreater(words["conflicts"], 900)
        self.assertLess(words[REFUSED], words["carried"] + words["parallel"])


    def test_conflicts_with_a_module(self) -> None:
        words: Dict[str, int] = {}
        for number in range(_FIRST, _FIRST + _COUNT):
            self.assertEqual(differences(number, words, kind=ModularSubroutine), [])
        self.assertGreater(words["conflicts"], 600)
        self.assertLess(words[REFUSED], words["carried"] + words["parallel"])


def _by_hand(first: int, count: int, kind: Type[CallingSubroutine]) -> None:
    words: Dict[str, int] = {}
    for number in range(first, first + count):
        for row in differences(number, words, _RUNS_BY_HAND, kind)[:1]:
            print(row, flush=True)
        if number % 10 == 9:
            print(number, words, flush=True)


if __name__ == "__main__":
    if len(sys.argv) >= 3 and sys.argv[1].isdigit():
        _by_hand(int(sys.argv[1]), int(sys.argv[2]), ModularSubroutine if "modules" in sys.argv else CallingSubroutine)
    else:
        unittest.main()
