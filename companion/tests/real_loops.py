"""Loops of real Fortran from text: their models, and the verdicts about them."""

from __future__ import annotations

import unittest
from typing import Dict, FrozenSet, List, Optional, Sequence, Union

from ..real import assumptions, blocks, library, symbols, units
from ..real.model import Model, model_of
from ..real.verdicts import Place, Verdict, places_of, verdicts
from .support import ped


class Loops:
    """The loops of a text. `granted` are the assumptions that may be made."""

    def __init__(self, text: str, path: str = "r.f90", assume: Sequence[str] = (), deny: Sequence[str] = ()) -> None:
        try:
            self.file = blocks.read_file(path, text)
        except library.LibraryMissing as error:
            raise unittest.SkipTest(str(error)) from error
        self.scopes = symbols.Scopes(self.file.all_units())
        self.places: List[Place] = places_of(self.file, self.scopes)
        self.granted: FrozenSet[str] = assumptions.granted(assume, deny)

    def model(self, index: int = 0) -> Union[Model, units.Fault]:
        """The model of a loop, or why there is none."""
        place = self.places[index]
        return model_of(place.scene, place.block, self.granted)

    def body(self, index: int = 0) -> List[str]:
        """The statements of a model without its declarations, each without blanks at its front."""
        model = self.model(index)
        assert isinstance(model, Model), model
        lines = [line.strip() for line in model.text.splitlines() if not line.startswith("C")]
        first = next(number for number, line in enumerate(lines) if line.startswith("DO "))
        return lines[first:-1]

    def reason(self, index: int = 0) -> Optional[str]:
        """The class for which a loop has no model, none where it has one."""
        model = self.model(index)
        return model.reason if isinstance(model, units.Fault) else None

    def verdicts(self, conditional: bool = False) -> List[Verdict]:
        """The verdicts about all loops."""
        return verdicts(ped(), self.places, self.granted, conditional)

    def by_line(self, conditional: bool = False) -> Dict[int, Verdict]:
        """The verdicts by the lines of the loops."""
        return {verdict.place.line: verdict for verdict in self.verdicts(conditional)}


def subroutine(*lines: str, declarations: str = "", **options: Sequence[str]) -> Loops:
    """The loops of a subroutine with some dummies: line 1 is its head, 2 and 3 declare, the lines begin with line 4."""
    head = "SUBROUTINE S(A, B, C, IX, N, M, K, L, X, Y, Z, JX)"
    known = "REAL A(N), B(N), C(N,N), X, Y, Z; INTEGER IX(N), JX(N), N, M, K, L, I, J"
    return Loops("\n".join([head, known, declarations, *lines, "END"]) + "\n", **options)  # type: ignore[arg-type]
