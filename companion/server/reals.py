"""What the server knows of a text of real Fortran: what pedx says of each loop, and why."""

from __future__ import annotations

from dataclasses import dataclass
from typing import Dict, List, Sequence, Tuple

from ..commands.real import Opened, Reading, opened
from ..ped import Ped
from ..progress import Progress
from ..real import assumptions, exporting, report
from ..real.explaining import Explainer, Wanted
from ..real.verdicts import Verdict as RealVerdict
from .programs import Verdict


@dataclass
class RealProgram:
    """A text of real Fortran with the verdicts about its loops."""

    opened: Opened
    found: List[RealVerdict]

    @property
    def verdicts(self) -> List[Verdict]:
        """What is said above each loop of the file itself."""
        return [Verdict(one.place.line, report.said(one)) for one in self.found if not one.place.file]

    def told_at(self, line: int) -> str:
        """Why the loops of a line carry what they do, or why they are parallel; nothing where it begins none."""
        explainer = Explainer(self.opened.name, self.opened.file, self.opened.reading.columns, _NOTHING)
        here = [one for one in self.found if not one.place.file and one.place.line == line]
        return "\n".join(row.rstrip() for one in here for row in explainer.explained(one, Wanted()))

    def exported(self) -> Tuple[str, Sequence[str]]:
        """The text with OpenMP directives, and what that assumes."""
        one = self.opened
        chosen = exporting.chosen(one.file, self.found, one.reading.openmp)
        cited = {name for verdict in chosen.verdicts for name in verdict.assumes}
        words = [f"assumed: {assumptions.cited(cited)} ({report.PAGE})"] if cited else []
        return exporting.exported(one.text, one.file, chosen.verdicts), words


_NOTHING: Dict[str, List[str]] = {}


def read_real(ped: Ped, path: str, text: str, reading: Reading) -> RealProgram:
    """Reads a text of real Fortran, and asks ped about its loops."""
    one = opened(path, reading, text)
    return RealProgram(one, one.judged(ped, one.places, Progress()))
