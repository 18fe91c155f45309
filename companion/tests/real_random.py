"""Subroutines of INTEGERs at random: nested DOs, IFs, jumps, sections, and all kinds of subscripts."""

from __future__ import annotations

import random
from typing import List, Sequence

HEAD = [
    "SUBROUTINE S(A, B, C, IX, N, M, L, K, T)",
    "INTEGER A(*), B(*), C(9999,*), IX(*), N, M, L, K, T, U, I, J, JJ",
]
ARRAYS = ("A", "B", "C", "IX")
_VARIABLES = ("I", "J", "JJ")


class Subroutine:
    """A subroutine that a number chooses."""

    def __init__(self, number: int) -> None:
        self._random = random.Random(number)
        self._lines: List[str] = []
        self._label = 0
        for _ in range(self._random.randint(1, 2)):
            self._loop([], 0)
        if self._random.random() < 0.5:
            self._lines.append(f"B(1) = {self._one_of('T', 'U', 'K', *_VARIABLES)}")

    @property
    def text(self) -> str:
        """Its text in free form."""
        return "".join(line + "\n" for line in [*HEAD, *self._lines, "END"])

    def _one_of(self, *words: str) -> str:
        return self._random.choice(words)

    def _weighted(self, **weights: float) -> str:
        return self._random.choices(list(weights), list(weights.values()))[0]

    # --- Expressions ---

    def _expression(self, counters: Sequence[str], depth: int = 0) -> str:
        counter = self._random.choice(counters)
        operation = "" if depth > 1 else (
            f"{self._expression(counters, depth + 1)}{self._one_of('+', '-', '*')}"
            f"({self._expression(counters, depth + 1)})"
        )
        return self._one_of(
            counter, counter, str(self._random.randint(0, 4)), self._element(counters), self._element(counters),
            *"TUKNL", f"MIN({counter},{self._one_of('N', 'M', 'K')})", operation or counter, operation or counter,
        )

    def _element(self, counters: Sequence[str]) -> str:
        name = self._one_of("A", "A", "B", "C")
        subscripts = [self._subscript(counters) for _ in range(2 if name == "C" else 1)]
        return f"{name}({','.join(subscripts)})"

    def _subscript(self, counters: Sequence[str]) -> str:
        one, other = self._random.choice(counters), self._random.choice(counters)
        number = self._random.randint(1, 3)
        return self._one_of(
            one, one, one, f"{one}+{number}", f"{one}-{number}", f"{one}-{number}", f"{number}*{one}-{other}",
            f"{one}+{other}", str(number), f"IX({one})", "K", "T", "J", f"N-{one}", f"L-{one}", f"{one}*L",
            f"{one}+N*L", f"{one}+L/2", f"MAX({one},3)", f"{one}/2", f"K+{one}",
        )

    def _bound(self, counters: Sequence[str]) -> str:
        counter = self._random.choice(counters) if counters else "1"
        return self._one_of(
            str(self._random.randint(1, 4)), "N", "M", "L", counter, f"{counter}+1", f"{counter}-1", "N-1", "M-2", "K",
            "IX(2)", "N*2", "T",
        )

    def _condition(self, counters: Sequence[str]) -> str:
        return f"{self._expression(counters, 1)} {self._one_of('>', '<', '==')} {self._random.randint(0, 4)}"

    def _target(self, counters: Sequence[str]) -> str:
        element = self._element(counters)
        return self._one_of(element, element, element, element, f"IX({self._subscript(counters)})", *"TUK")

    # --- Statements ---

    def _loop(self, counters: Sequence[str], depth: int) -> None:
        free = [name for name in _VARIABLES if name not in counters]
        name = self._random.choice(free)
        first = self._one_of("1", "1", "2", self._bound(counters), self._bound(counters))
        step = self._one_of("", "", "", "", ", 2", ", -1", ", -2", ", L")
        self._lines.append(f"DO {name} = {first}, {self._bound(counters)}{step}")
        self._body([*counters, name], depth + 1)
        self._lines.append("END DO")

    def _body(self, counters: Sequence[str], depth: int) -> None:
        for _ in range(self._random.randint(1, 3)):
            self._statement(counters, depth)

    def _statement(self, counters: Sequence[str], depth: int) -> None:
        kind = self._weighted(
            assign=45, grow=5, gather=7, test=6, jump=5, section=4, choose=12, select=2, skip=2, loop=15
        )
        if depth > 3 or kind == "loop" and len(counters) == len(_VARIABLES):
            kind = "assign"
        if kind in ("choose", "select", "skip"):
            self._block(kind, counters, depth)
        elif kind == "loop":
            self._loop(counters, depth)
        else:
            self._lines.append(self._simple(kind, counters))

    def _simple(self, kind: str, counters: Sequence[str]) -> str:
        value = self._expression(counters)
        if kind == "grow":
            return f"K = K + {self._one_of('1', '2', 'L')}"
        if kind == "gather":
            return self._one_of(f"T = T + {value}", f"T = T - ({value})", f"U = MAX(U, {value})")
        if kind == "jump":
            words = ["CYCLE"] + ["EXIT"] * (len(counters) > 1)
            return f"IF ({self._condition(counters)}) {self._one_of(*words)}"
        if kind == "section":
            first, other = self._one_of(*counters, "1"), self._one_of(*counters)
            target = self._one_of(f"A({first}:N)", f"C({first}:M,{other})", f"C({other},{first}:L)")
            return f"{target} = {self._one_of(f'A({other}:9)', f'C({first}:9,{other})', 'T', 'B(2:20:2)')} + 1"
        assignment = f"{self._target(counters)} = {value}"
        return f"IF ({self._condition(counters)}) {assignment}" if kind == "test" else assignment

    def _block(self, kind: str, counters: Sequence[str], depth: int) -> None:
        condition = self._condition(counters)
        if kind == "choose":
            self._part(f"IF ({condition}) THEN", counters, depth)
            further = f"ELSE IF ({self._condition(counters)}) THEN"
            for line in self._random.sample([further], self._random.randint(0, 1)):
                self._part(line, counters, depth)
            for line in self._random.sample(["ELSE"], self._random.randint(0, 1)):
                self._part(line, counters, depth)
            self._lines.append("END IF")
        elif kind == "select":
            self._lines.append(f"SELECT CASE ({self._expression(counters, 1)})")
            self._part("CASE (1)", counters, depth)
            for line in self._random.sample(["CASE DEFAULT"], self._random.randint(0, 1)):
                self._part(line, counters, depth)
            self._lines.append("END SELECT")
        else:
            self._label += 10
            label = self._label
            self._part(f"IF ({condition}) GO TO {label}", counters, depth)
            self._lines.append(f"{label} CONTINUE")

    def _part(self, line: str, counters: Sequence[str], depth: int) -> None:
        self._lines.append(line)
        self._body(counters, depth + 1)
