"""What a run costs in each loop."""

from __future__ import annotations

from dataclasses import dataclass
from typing import Dict, Tuple

from ..choices import ENOUGH, LEAST_WORK


@dataclass(frozen=True)
class Cost:
    """What a run has done of a loop: entries, iterations, the statements in it, and their share of all, in hundredths.

    Those of procedures that the loop calls count as well. `iterations` is -1 where nothing counts them.
    """

    entries: int
    iterations: int
    executed: int
    share: float

    @property
    def pays(self) -> bool:
        """Whether an entry has work for threads, which take time to start."""
        has_iterations = self.iterations < 0 or self.iterations >= ENOUGH * self.entries
        return self.entries > 0 and has_iterations and self.executed >= LEAST_WORK * self.entries


#: The costs of loops, by the number of their file and by their line.
Costs = Dict[Tuple[int, int], Cost]

#: The cost of a loop that no run enters.
NEVER = Cost(0, 0, 0, 0.0)
