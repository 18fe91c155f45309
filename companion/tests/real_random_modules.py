"""Programs at random whose loops use a module: its types, its variables, also renamed, and its procedures.

Structures have scalars, arrays, a structure and an array of structures. They are given to procedures as a whole, by
elements and by components, assigned as a whole, and used by contained procedures and by those of the module. A generic
name has a procedure for scalars, one for arrays and one for structures.
"""

from __future__ import annotations

import random
from typing import List, Sequence

from .real_random import HEAD
from .real_random_calls import CallingSubroutine

_TYPES = """MODULE TY
INTEGER M1, M2(-900:900)
TYPE PT
INTEGER X, Y
END TYPE
TYPE GR
INTEGER N, H(-900:900), W(-900:900)
TYPE(PT) Q, R(-900:900)
END TYPE
TYPE(GR) MG
TYPE(PT) MP(-900:900)
INTERFACE GEN
MODULE PROCEDURE GENI, GENA, GENP
END INTERFACE
CONTAINS
"""
#: What a unit sees of it, with what else is called so.
_USE = "USE TY, ONLY: PT, GR, GEN, MG, RN => M2, M1"
_DECLARED = ["TYPE(GR) D, E", "TYPE(PT) PS(-900:900), Q1"]


class _StructureBody:
    """The body of a procedure of the module. `callees` are those that it may call."""

    def __init__(self, chosen: random.Random, callees: Sequence[str]) -> None:
        self._random = chosen
        self._callees = callees
        self.lines: List[str] = []
        for _ in range(chosen.randint(1, 3)):
            self._statement(0)

    def _one_of(self, *words: str) -> str:
        return self._random.choice(words)

    def _subscript(self) -> str:
        return self._one_of("II", "II", "II+1", "II-1", "2", "V", "G%N", "J9")

    def _element(self) -> str:
        at = self._subscript()
        return self._one_of(
            "P%X", "P%Y", f"G%H({at})", f"G%W({at})", "G%Q%X", f"G%R({at})%X", f"G%R({at})%Y", "V", f"M2({at})", "M1",
            f"MG%H({at})", f"MP({at})%X",
        )

    def _structure(self) -> str:
        at = self._subscript()
        return self._one_of("P", "G%Q", f"G%R({at})", f"MP({at})")

    def _statement(self, depth: int) -> None:
        kind = self._random.choices(
            ["assign", "copy", "test", "leave", "loop", "call"], [45, 8, 10, 4, 10 * (depth < 1), 16]
        )[0]
        value = f"{self._element()} {self._one_of('+', '-')} {self._one_of('1', 'II', self._element())}"
        if kind == "copy":
            self.lines.append(f"{self._structure()} = {self._structure()}")
        elif kind == "test":
            self.lines.append(f"IF ({value} > 2) {self._element()} = {self._element()}")
        elif kind == "leave":
            self.lines.append(f"IF ({value} > 3) RETURN")
        elif kind == "loop":
            self.lines.append(f"DO J9 = {self._one_of('1', 'II')}, {self._one_of('3', 'G%N')}")
            self._statement(depth + 1)
            self.lines.append("END DO")
        elif kind == "call" and self._callees:
            scalar = self._one_of("V", "V", f"G%W({self._subscript()})")
            structure = self._one_of("P", "P", "G%Q", f"G%R({self._subscript()})")
            self.lines.append(f"CALL {self._one_of(*self._callees)}({structure}, G, {scalar}, {self._one_of('II', '2')})")
        else:
            self.lines.append(f"{self._element()} = {value}")


class ModularSubroutine(CallingSubroutine):
    """A subroutine whose loops use a module."""

    def __init__(self, number: int) -> None:
        chosen = random.Random(number + 900000)
        self._own = chosen
        self._structured: List[str] = []
        self._module = _TYPES
        self._make_generic(chosen)
        for index in range(chosen.randint(1, 3)):
            self._make_structured(f"Q{index + 2}", chosen)
        super().__init__(number)

    @property
    def text(self) -> str:
        """The text of all of it in free form: the subroutine is `S`."""
        text = super().text
        head, _, rest = text.partition(HEAD[0] + "\n")
        lines = rest.splitlines()
        at = lines.index(HEAD[1]) + 1
        use = ["USE TY, ONLY: " + ", ".join([*self._structured, "F9"]), _USE]
        own = [HEAD[0], *use, *lines[:at], *_DECLARED, *lines[at:]]
        return f"{self._module}END MODULE\n{head}" + "".join(line + "\n" for line in own)

    # --- Procedures of the module ---

    def _make_generic(self, chosen: random.Random) -> None:
        bodies = {
            "I": ("INTEGER V", ["V = V + 1", "V = M1", "M1 = V"]),
            "A": ("INTEGER V(:)", ["V(II) = V(II) + 1", "V(II) = V(II+1)", "M2(II) = V(II)", "V(2) = II"]),
            "P": ("TYPE(PT) V", ["V%X = V%Y + 1", "V%Y = II", "M2(II) = V%X", "V = MP(II)"]),
        }
        for letter, (declared, statements) in bodies.items():
            self._module += (
                f"SUBROUTINE GEN{letter}(V, II)\n{declared}\nINTEGER II\n{chosen.choice(statements)}\nEND SUBROUTINE\n"
            )
        value = chosen.choice(["P%X", "P%X + P%Y", "P%Y + M2(II)", "P%X + MG%H(II)"])
        self._module += f"INTEGER FUNCTION F9(P, II)\nTYPE(PT) P\nINTEGER II\nF9 = {value}\nEND FUNCTION\n"

    def _make_structured(self, name: str, chosen: random.Random) -> None:
        lines = _StructureBody(chosen, self._structured).lines
        if chosen.random() < 0.1:
            lines = ["IF (II > 1) CALL " + name + "(P, G, V, II-1)", *lines]
        head = f"RECURSIVE SUBROUTINE {name}(P, G, V, II)\nTYPE(PT) P\nTYPE(GR) G\nINTEGER V, II, J9\nJ9 = 2\n"
        self._module += head + "".join(line + "\n" for line in lines) + "END SUBROUTINE\n"
        self._structured.append(name)

    def _words(self, place: str, chosen: random.Random) -> List[str]:
        if place == "contained" and chosen.random() < 0.5:
            return chosen.choice([["Q1%X", "PS(II)%Y"], ["D%H(II)", "D%N"], ["RN(II)", "M1"], ["MG%H(II)", "E%R(II)%X"]])
        return super()._words(place, chosen)

    # --- Statements of the subroutine ---

    def _place_of(self, counters: Sequence[str]) -> str:
        chosen = self._own
        at = self._subscript(counters)
        return chosen.choice([
            f"D%H({at})", f"D%H({at})", f"D%W({at})", f"D%R({at})%X", f"D%R({at})%Y", "D%Q%X", "D%N", f"PS({at})%X",
            f"PS({at})%Y", "Q1%X", "Q1%Y", f"RN({at})", "M1", f"MG%H({at})", f"MG%W({at})", f"E%H({at})",
        ])

    def _structure_of(self, counters: Sequence[str]) -> str:
        at = self._subscript(counters)
        return self._own.choice([f"PS({at})", f"PS({at})", "Q1", "D%Q", f"D%R({at})", f"E%R({at})"])

    def _simple(self, kind: str, counters: Sequence[str]) -> str:
        chosen = self._own
        if kind in ("jump", "grow") or chosen.random() < 0.3:
            return super()._simple(kind, counters)
        word = chosen.choices(["place", "value", "copy", "call", "generic"], [40, 10, 10, 25, 15])[0]
        if word == "place":
            return f"{self._place_of(counters)} = {self._place_of(counters)} + {chosen.choice(['1', *counters])}"
        if word == "value":
            found = chosen.choice([self._place_of(counters), f"F9({self._structure_of(counters)}, {counters[0]})"])
            return f"{self._target(counters)} = {found}"
        if word == "copy":
            return f"{self._structure_of(counters)} = {self._structure_of(counters)}"
        counter = chosen.choice(list(counters))
        if word == "generic":
            argument = chosen.choice([
                "D%H", "E%W", "RN", "T", "D%N", self._place_of(counters), self._structure_of(counters),
            ])
            return f"CALL GEN({argument}, {counter})"
        structure, grid = self._structure_of(counters), chosen.choice(["D", "D", "E", "MG"])
        scalar = chosen.choice(["T", "T", "K", self._place_of(counters)])
        return f"CALL {chosen.choice(self._structured)}({structure}, {grid}, {scalar}, {chosen.choice([counter, 'K'])})"

    def _bound(self, counters: Sequence[str]) -> str:
        return self._own.choice(["D%N", "E%N"]) if self._own.random() < 0.2 else super()._bound(counters)
