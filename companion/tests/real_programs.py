"""Units of real Fortran that are read from text, with all that the tests ask about them."""

from __future__ import annotations

import unittest
from functools import lru_cache
from typing import FrozenSet, List, Optional, Tuple

from ..real import accesses, blocks, facts, flow, library, liveness, recurrences, roles, shape, symbols, units


class Program:
    """The first unit of a text, or the one with a name, and what is found about it."""

    def __init__(self, text: str, name: str = "") -> None:
        try:
            self.file = blocks.read_file("program.f90", text)
        except library.LibraryMissing as error:
            raise unittest.SkipTest(str(error)) from error
        self.unit = next(unit for unit in self.file.all_units() if name in ("", unit.name))
        self.names = roles.Roles(symbols.Scopes(self.file.all_units()).of(self.unit))
        self.facts = facts.Facts(self.unit, self.names)
        self.loops: List[units.Block] = list(self.unit.loops())

    def written(self, line: int) -> units.Written:
        """The first statement on a line."""
        return next(one for one in self.unit.statements() if one.item.first == line)

    def effects(self, line: int) -> accesses.Effects:
        """What the statement on a line reads and writes."""
        return self.facts.effects(self.written(line))

    def live_after(self, index: int = 0) -> FrozenSet[str]:
        """The live names after a DO, that of the given index in the text."""
        return self.facts.liveness.live_after(self.loops[index])

    def iteration(self, index: int = 0) -> liveness.Iteration:
        """What an iteration of a DO does."""
        return self.facts.liveness.iteration(self.loops[index])

    def body(self, index: int = 0) -> flow.Body:
        """The graph of an iteration."""
        return self.facts.body(self.loops[index])

    def faults(self, index: int = 0) -> List[Tuple[str, int]]:
        """The reasons and lines of the jumps that no iteration's graph has."""
        return [(fault.reason, fault.line) for fault in self.body(index).faults]

    def shape(self, index: int = 0) -> Tuple[shape.Part, ...]:
        """The shape of an iteration."""
        return self.facts.shape(self.loops[index])

    def loop(self, index: int = 0) -> recurrences.Loop:
        """A DO with the accesses of its statements."""
        return self.facts.loop(self.loops[index])


@lru_cache(maxsize=None)
def program(*lines: str, name: str = "") -> Program:
    """A program of lines in free form. The first one has the number 1."""
    return Program("\n".join(lines) + "\n", name)


def subroutine(*lines: str, declarations: Optional[str] = None) -> Program:
    """A subroutine without dummies: line 1 is its head, line 2 declarations, and the lines begin with line 3."""
    return program("SUBROUTINE WORK", declarations or "REAL A(9), B(9), C(9,9)", *lines, "END")


def outline(program_: Program, parts: Tuple[shape.Part, ...]) -> str:
    """A shape as text: statements by their lines, `?(..|..)` a choice with its head, `[..]` what may be left out."""
    words = []
    for part in parts:
        if isinstance(part, shape.Single):
            node = part.node
            words.append(str((node.head if isinstance(node, units.Block) else node).item.first))
        elif isinstance(part, shape.Maybe):
            words.append(f"[{outline(program_, part.parts)}]")
        else:
            assert isinstance(part, shape.Choice)
            head = "" if part.head is None else str(part.head.item.first)
            words.append(f"{head}?({'|'.join(outline(program_, branch) for branch in part.branches)})")
    return " ".join(words)
