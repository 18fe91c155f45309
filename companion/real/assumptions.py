"""What verdicts on real Fortran assume: no assumption is silent.

Each verdict names the assumptions that it rests on. Most are granted unless a user denies them, since the standard, or
every compiler that is meant here, has them. The others are granted by `--assume` alone.
"""

from __future__ import annotations

import re
from dataclasses import dataclass
from typing import Dict, FrozenSet, Iterable, List, Sequence

#: What the standard's sections mean: those of ISO/IEC 1539-1:2018.
_STANDARD = "Fortran 2018"


@dataclass(frozen=True)
class Assumption:
    """An assumption: `A` and its number, a few words for a list, a sentence, and whether it's granted by default.

    `cited` says which verdicts rest on it.
    """

    name: str
    summary: str
    words: str
    granted: bool
    cited: str


_ALL = (
    Assumption(
        "A1", "no other name for what is changed",
        "What the loop changes through a dummy argument or a global variable has no other name "
        f"({_STANDARD}, 15.5.2.13).",
        True, "two dummy arguments, or one and a global variable, of which one is assigned; an array that a procedure "
        "has by two names",
    ),
    Assumption(
        "A2", "subscripts within bounds",
        f"Each subscript is within the declared bounds of its dimension ({_STANDARD}, 9.5.3.1).",
        True, "arrays of rank 2 or more; an array that is given to a procedure",
    ),
    Assumption(
        "A3", "32 bits",
        "Subscripts, bounds and numbers of iterations stay within 32 bits, also while they are computed. A default "
        "INTEGER has 4 bytes.",
        True, "always",
    ),
    Assumption(
        "A4", "DO variables change by their DO alone",
        "A DO variable is changed by its DO alone, also by procedures that are called.",
        True, "a procedure that may assign a DO variable that it's given",
    ),
    Assumption(
        "A5", "included files, modules and procedures are those that the compiler reads",
        "INCLUDEd files, modules and external procedures are those that the compiler reads. A statement outside the "
        "loop that can't be read doesn't jump into the loop.",
        True, "an INCLUDEd file, a module or an external procedure was read, or there is such a statement",
    ),
    Assumption(
        "A6", "intrinsics",
        "The name of an intrinsic function without EXTERNAL is the intrinsic function, also where a USE names a module "
        "that isn't in the files. Such a module defines no operator and no assignment between intrinsic types.",
        True, "an intrinsic function, or a USE of a module that isn't in the files",
    ),
    Assumption(
        "A7", "wide integers within 32 bits",
        "Integers of 8 bytes in subscripts and bounds have values within 32 bits.",
        False, "such an integer",
    ),
    Assumption(
        "A8", "no increment is 0",
        "The increment of an induction variable isn't 0.",
        False, "an increment that isn't constant",
    ),
    Assumption(
        "A9", "grouping of REAL reductions",
        "Sums and products of REALs may be grouped in another way, and MAX and MIN meet no NaN.",
        True, "a reduction of REALs",
    ),
    Assumption(
        "A10", "INTENT and PURE hold",
        "INTENT and PURE hold for a procedure whose body isn't in the files.",
        True, "a call of such a procedure",
    ),
    Assumption(
        "A11", "no value after RETURN without SAVE",
        "A local variable without SAVE has no value after RETURN.",
        True, "a variable that is PRIVATE for this reason",
    ),
    Assumption(
        "A12", "no errors",
        "No iteration of the run ends in an error or a trap.",
        True, "always",
    ),
    Assumption(
        "A13", "the loop has an iteration",
        "The loop has at least one iteration.",
        False, "the loop's variable is used after it, and its bounds aren't constant",
    ),
)

#: All assumptions by their names, in order.
ASSUMPTIONS: Dict[str, Assumption] = {one.name: one for one in _ALL}

#: What every verdict rests on.
ALWAYS: FrozenSet[str] = frozenset(one.name for one in _ALL if one.cited == "always")

_NAME = re.compile(r"A?([0-9]+)", re.IGNORECASE)


class NoAssumption(Exception):
    """A word that names no assumption."""


def assumption(word: str) -> Assumption:
    """The assumption that a word names: `A8`, `a8` or `8`. Raises NoAssumption."""
    match = _NAME.fullmatch(word.strip())
    found = ASSUMPTIONS.get(f"A{int(match.group(1))}") if match is not None else None
    if found is None:
        raise NoAssumption(f"{word} is no assumption; they are {_ALL[0].name} to {_ALL[-1].name}")
    return found


def granted(assumed: Sequence[str] = (), denied: Sequence[str] = (), exact: bool = False) -> FrozenSet[str]:
    """The names of the assumptions that are granted, for what `--assume`, `--deny` and `--exact` say.

    `--exact` denies A9. Raises NoAssumption for a word that names none, and for one that is both assumed and denied.
    """
    more = {assumption(word).name for word in assumed}
    less = {assumption(word).name for word in denied} | ({"A9"} if exact else set())
    both = in_order(more & less)
    if both:
        raise NoAssumption(f"{both[0]} can't be both assumed and denied")
    return frozenset(one.name for one in _ALL if one.granted) - less | more


def in_order(names: Iterable[str]) -> List[str]:
    """Names of assumptions in the order of their numbers."""
    wanted = set(names)
    return [one.name for one in _ALL if one.name in wanted]


def cited(names: Iterable[str]) -> str:
    """The line of a report that names the assumptions that its verdicts rest on."""
    return "; ".join(f"{name} {ASSUMPTIONS[name].summary}" for name in in_order(names))
