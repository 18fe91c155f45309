"""Programs at random whose loops call procedures: external and contained ones, those of a module, and functions.

Their dummies are arrays of one and of two dimensions with all kinds of bounds, scalars that are read and written, an
index and a number. They share a common block with several layouts, variables of a module and of the host.
"""

from __future__ import annotations

import random
from typing import List, Sequence

from .real_random import HEAD, Subroutine

#: The layouts of the common block in procedures: the same for the first two, others overlap them.
_LAYOUTS = ("G1, G2(5)", "G1, G2(5)", "G2(5), G1", "G1, H1, G2(4)", "G2(6)")
#: How an array is declared that has one dimension, or two.
_FLAT = ("X(*)", "X(*)", "X(0:*)", "X(NN)", "X(2:*)")
_SQUARE = ("Y(9999,*)", "Y(9999,*)", "Y(0:9998,*)", "Y(7,*)")


class _Body:
    """The body of a procedure. `callees` are subroutines that it may call, `functions` functions."""

    def __init__(
        self, chosen: random.Random, callees: Sequence[str], functions: Sequence[str], words: Sequence[str],
        has_square: bool = True,
    ) -> None:
        self._random = chosen
        self._callees = callees
        self._functions = functions
        self._words = list(words)
        self._has_square = has_square
        self.lines: List[str] = []
        for _ in range(chosen.randint(1, 4)):
            self._statement(0, [])

    def _one_of(self, *words: str) -> str:
        return self._random.choice(words)

    def _subscript(self, counters: Sequence[str]) -> str:
        last = "NN-II" if self._has_square else "3"
        return self._one_of("II", "II", "II", "II+1", "II-1", "2", "2*II", "V", last, *counters)

    def _element(self, counters: Sequence[str]) -> str:
        flat = f"X({self._subscript(counters)})"
        if not self._has_square:
            return flat
        return self._one_of(flat, flat, f"Y({self._subscript(counters)},{self._subscript(counters)})")

    def _expression(self, counters: Sequence[str]) -> str:
        first = self._one_of(self._element(counters), self._element(counters), "V", "II", "3", *self._words, *counters)
        calls = [f"{name}(X, V, {self._one_of('II', '2', 'II+1')})" for name in self._functions]
        second = self._one_of(self._element(counters), "V", "1", *self._words, *calls)
        return f"{first} {self._one_of('+', '-')} {second}"

    def _target(self, counters: Sequence[str]) -> str:
        element = self._element(counters)
        return self._one_of(element, element, element, "V", "V", *self._words)

    def _statement(self, depth: int, counters: Sequence[str]) -> None:
        kind = self._random.choices(
            ["assign", "test", "leave", "loop", "choose", "call"], [45, 12, 4, 12 * (depth < 1), 8 * (depth < 2), 16]
        )[0]
        condition = f"{self._expression(counters)} > {self._random.randint(0, 4)}"
        if kind == "call" and self._callees:
            self.lines.append(self._call(counters))
        elif kind == "test":
            self.lines.append(f"IF ({condition}) {self._target(counters)} = {self._expression(counters)}")
        elif kind == "leave":
            self.lines.append(f"IF ({condition}) RETURN")
        elif kind == "loop" and not counters:
            last = "NN" if self._has_square else "3"
            self._part(f"DO J9 = {self._one_of('1', 'II')}, {last}", depth, ["J9"], "END DO")
        elif kind == "choose":
            self._part(f"IF ({condition}) THEN", depth, counters, "END IF")
        else:
            self.lines.append(f"{self._target(counters)} = {self._expression(counters)}")

    def _part(self, first: str, depth: int, counters: Sequence[str], last: str) -> None:
        self.lines.append(first)
        for _ in range(self._random.randint(1, 2)):
            self._statement(depth + 1, counters)
        self.lines.append(last)

    def _call(self, counters: Sequence[str]) -> str:
        index = self._subscript(counters)
        flat = self._one_of("X", "X", f"X({index})", f"X({index}:99)" if self._has_square else "X")
        square = self._one_of("Y", "Y", f"Y(1,{index})")
        scalar = self._one_of("V", "V", f"X({self._subscript(counters)})", *self._words)
        return f"CALL {self._one_of(*self._callees)}({flat}, {square}, {scalar}, {self._one_of('II', 'II+1', '2')}, NN)"


class CallingSubroutine(Subroutine):
    """A subroutine whose loops call procedures, with these."""

    def __init__(self, number: int) -> None:
        chosen = random.Random(number + 500000)
        self._calls = chosen
        self._functions: List[str] = []
        self._subroutines: List[str] = []
        self._parts = {"external": "", "contained": "", "module": ""}
        self._uses_common = chosen.random() < 0.5
        self._uses_module = chosen.random() < 0.5
        self._names = ["G1"] * self._uses_common + ["G3"] * (self._uses_module and chosen.random() < 0.5)
        for index in range(chosen.randint(0, 2)):
            self._make_function(f"F{index}", chosen)
        for index in range(chosen.randint(1, 4)):
            self._make_subroutine(f"P{index}", chosen)
        super().__init__(number)

    @property
    def text(self) -> str:
        """The text of all of it in free form: the subroutine is `S`."""
        use = ["USE MO"] if self._uses_module else []
        common = ["COMMON /BLK/ G1, G2(5)", "INTEGER G1, G2"] if self._uses_common else []
        # What is contained or in a module is known there; a function of its own has to be declared.
        external = [name for name in self._functions if f"FUNCTION {name}(" in self._parts["external"]]
        declared = [f"INTEGER {', '.join(external)}"] if external else []
        contained = "CONTAINS\n" + self._parts["contained"] if self._parts["contained"] else ""
        module = f"MODULE MO\nINTEGER G3, G4(-900:900)\nCONTAINS\n{self._parts['module']}END MODULE\n"
        body = "".join(line + "\n" for line in [HEAD[0], *use, HEAD[1], *common, *declared, *self._lines])
        return (module if self._uses_module else "") + body + contained + "END\n" + self._parts["external"]

    # --- Procedures ---

    def _place(self, chosen: random.Random) -> str:
        return chosen.choice(["external", "external", "contained"] + ["module"] * self._uses_module)

    def _reach(self, place: str) -> List[str]:
        """The procedures that one in this place may call."""
        return [name for name in (*self._subroutines, *self._functions) if any(
            f" {name}(" in self._parts[other] for other in {"external", place}
        )]

    def _words(self, place: str, chosen: random.Random) -> List[str]:
        if place == "module":
            return ["G3", "G4(II)"]
        if place == "contained":
            return chosen.choice([["T"], ["U", "A(II)"], ["K"], []])
        return chosen.choice([["G1"], ["G1", "G2(2)"], ["G2(3)"], []])

    def _declarations(self, place: str, words: Sequence[str], chosen: random.Random, functions: Sequence[str]) -> str:
        lines = ["INTEGER J9"]
        if place == "external" and words:
            layout = chosen.choice([one for one in _LAYOUTS if all(word[:2] in one for word in words)] or _LAYOUTS[:1])
            lines += [f"COMMON /BLK/ {layout}", "INTEGER G1, G2, H1"]
        external = [name for name in functions if f"FUNCTION {name}(" in self._parts["external"]]
        return "".join(line + "\n" for line in [*lines, *(f"INTEGER {name}" for name in external)])

    def _make_function(self, name: str, chosen: random.Random) -> None:
        place = self._place(chosen)
        words = self._words(place, chosen)
        functions = [one for one in self._functions if one in self._reach(place)] if chosen.random() < 0.3 else []
        body = _Body(chosen, [], functions, words if chosen.random() < 0.4 else [], has_square=False)
        if chosen.random() < 0.7:
            # Most functions change nothing.
            body.lines = [f"J9 = {body._expression([])}"]
        declared = self._declarations(place, words, chosen, functions)
        text = f"INTEGER FUNCTION {name}(X, V, II)\nINTEGER {chosen.choice(_FLAT[:3])}, V, II\n{declared}"
        lines = [f"{name} = 0", "J9 = 1", *body.lines, f"{name} = X(II) + V + J9", "END FUNCTION"]
        self._parts[place] += text + "".join(line + "\n" for line in lines)
        self._functions.append(name)

    def _make_subroutine(self, name: str, chosen: random.Random) -> None:
        place = self._place(chosen)
        words = self._words(place, chosen)
        reach = self._reach(place)
        callees = [one for one in self._subroutines if one in reach]
        functions = [one for one in self._functions if one in reach]
        is_recursive = chosen.random() < 0.08
        body = _Body(chosen, callees, functions, words)
        lines = body.lines
        if is_recursive:
            lines = ["J9 = NN - 1", f"IF (J9 > 0) CALL {name}(X, Y, V, II, J9)", *lines]
        declared = self._declarations(place, words, chosen, functions)
        head = f"{'RECURSIVE ' * is_recursive}SUBROUTINE {name}(X, Y, V, II, NN)"
        dummies = f"INTEGER NN, {chosen.choice(_FLAT)}, {chosen.choice(_SQUARE)}, V, II"
        lines = [head, dummies + "\n" + declared + "J9 = 2", *lines, "END SUBROUTINE"]
        self._parts[place] += "".join(line + "\n" for line in lines)
        self._subroutines.append(name)

    # --- Statements with calls ---

    def _simple(self, kind: str, counters: Sequence[str]) -> str:
        chosen = self._calls
        if kind not in ("jump", "grow") and chosen.random() < 0.4:
            call = self._called(counters)
            return f"IF ({self._condition(counters)}) {call}" if chosen.random() < 0.1 else call
        return super()._simple(kind, counters)

    def _called(self, counters: Sequence[str]) -> str:
        chosen, counter = self._calls, self._calls.choice(list(counters))
        flat = chosen.choice([
            "A", "A", "A", "B", f"A({counter})", f"A({counter}:99)", f"C(1,{counter})", f"C({counter}:99,{counter})",
            f"C(1:99,{counter})", "B(1:99:2)",
        ])
        square = chosen.choice(["C", "C", "C", f"C(1,{counter})", f"C({counter},1)", f"C(1:99,{counter}:99)"])
        scalar = chosen.choice(["T", "T", "U", "K", f"A({counter})", f"B({counter}+1)", f"C(1,{counter})", *self._names])
        index = chosen.choice([counter, counter, counter, f"{counter}+1", "K", "2", f"IX({counter})", f"2*{counter}"])
        number = chosen.choice(["N", "M", "L", "3"])
        return f"CALL {chosen.choice(self._subroutines)}({flat}, {square}, {scalar}, {index}, {number})"

    def _expression(self, counters: Sequence[str], depth: int = 0) -> str:
        chosen = self._calls
        if self._functions and chosen.random() < 0.12:
            scalar = chosen.choice(["T", "K", f"A({chosen.choice(list(counters))})", "B(2)", *self._names])
            index = chosen.choice([*counters, "2", "K"])
            return f"{chosen.choice(self._functions)}({chosen.choice('AB')}, {scalar}, {index})"
        return super()._expression(counters, depth)
