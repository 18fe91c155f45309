"""The keys of the editor: the steps of ped, and all else that a user does."""

from __future__ import annotations

from enum import Enum
from typing import Dict, List, NamedTuple, Sequence, Tuple


class Asks(Enum):
    """What a step wants to know besides the loop."""

    NOTHING = ""
    SCALAR = "which scalar?"
    SUMS = "which scalars does it sum up?"
    VARIABLE = "whose pending dependences aren't there?"
    FACTOR = "by which factor?"
    SIZE = "how many iterations in a strip?"
    ITERATION = "which iteration, first or last?"


class Step(NamedTuple):
    """A step of ped at the present loop: its word in a script, and what it is to do."""

    word: str
    asks: Asks
    about: str


PRIVATISE, EXPAND, REDUCE = "v", "x", "+"

#: The steps by their keys, as docs/COMMANDS.md tells them.
STEPS: Dict[str, Step] = {
    "p": Step("parallel", Asks.NOTHING, "make it a PARALLEL DO"),
    "s": Step("serial", Asks.NOTHING, "make it a DO again"),
    PRIVATISE: Step("privatise", Asks.SCALAR, "each has its own scalar"),
    EXPAND: Step("expand", Asks.SCALAR, "an array for a scalar"),
    REDUCE: Step("reduce", Asks.SUMS, "sums in any order"),
    "i": Step("interchange", Asks.NOTHING, "swap with the inner one"),
    "r": Step("reverse", Asks.NOTHING, "go the other way"),
    "k": Step("skew", Asks.FACTOR, "shift the inner bounds"),
    "t": Step("strip", Asks.SIZE, "do it in strips"),
    "l": Step("peel", Asks.ITERATION, "first or last iteration"),
    "d": Step("distribute", Asks.NOTHING, "take the loop apart"),
    "f": Step("fuse", Asks.NOTHING, "join it with the next"),
    "j": Step("reject", Asks.VARIABLE, "say: no such dependence"),
}

#: The steps at the block of a CALL.
BLOCK_STEPS: Dict[str, Step] = {
    "I": Step("inline", Asks.NOTHING, "the CALL at the line"),
}

NEXT_LOOP, PREVIOUS_LOOP, OUTER_LOOP = "n", "b", "o"
ADVICE, CALLS, PROVE, AUTO, EDIT, UNDO, REDO = "a", "c", "P", "A", "e", "u", "y"
LOOPS, VARIABLES, CHANGES, SEARCH, GO = "g", "V", "H", "/", ":"
LEVEL, KIND, MARK, NAME, NO_FILTERS, ORDER = "L", "K", "M", "N", "0", "S"
RUN, RACES, DATA = "R", "C", "D"
SAVE, WRITE, OPENMP = "w", "W", "O"
HELP, QUIT = "?", "q"

#: Headings with the keys below them.
_LOOKING: Tuple[Tuple[str, str], ...] = (
    ("Moving", ""),
    ("arrows", "and pages: lines, dependences"),
    (f"{NEXT_LOOP} {PREVIOUS_LOOP} {OUTER_LOOP}", "next, previous, outer loop"),
    (LOOPS, "all loops, to go to one"),
    (f"{SEARCH} {GO}", "find a text, go to a line"),
    ("Tab Esc", "into the dependences, back"),
    ("mouse", "click: go, choose; wheel too"),
    ("Looking", ""),
    (ADVICE, "advice: what ped accepts"),
    (VARIABLES, "variables, with keys v x +"),
    ("Enter", "why a dependence is there"),
    (CALLS, "CALLs, what depends on them"),
    (f"{LEVEL} {KIND} {MARK} {NAME}", "filter: level kind mark name"),
    (f"{NO_FILTERS} {ORDER}", "no filters; sort the rows"),
    ("Running", ""),
    (f"{RUN} {RACES} {DATA}", "run; find races; choose data"),
    ("Saving", ""),
    (f"{SAVE} {WRITE}", "save script; write program"),
    (OPENMP, "OpenMP: write, compile, run"),
    (f"{HELP} {QUIT}", "these keys; quit"),
    ("While ped works, keys that move are", ""),
    ("served; Esc or Ctrl-C gives it up", ""),
)
_OTHER_CHANGES: Tuple[Tuple[str, str], ...] = (
    (PROVE, "parallel, with evidence"),
    (AUTO, "auto: make loops parallel"),
    (EDIT, "edit the program in $EDITOR"),
    ("Back and forth", ""),
    (f"{UNDO} {REDO}", "undo, redo"),
    (CHANGES, "all changes, to go to one"),
)
#: The width of one of two columns, and the least width of a terminal that has both.
_COLUMN, _WIDE = 40, 80


def help_lines(width: int) -> List[str]:
    """The keys, in two columns where there is room: then 24 lines show them all."""
    left = [_row(keys, about) for keys, about in _LOOKING]
    steps = [(key, f"{step.word:11} {step.about}") for key, step in {**STEPS, **BLOCK_STEPS}.items()]
    right = ["Changing the present loop", *(_row(keys, about, 3) for keys, about in (*steps, *_OTHER_CHANGES))]
    if width < _WIDE:
        return [*left, *right]
    return [f"{one:{_COLUMN}}{other}".rstrip() for one, other in zip(*_as_long(left, right))]


def _row(keys: str, about: str, width: int = 7) -> str:
    return f" {keys:{width}} {about}" if about else keys


def _as_long(left: Sequence[str], right: Sequence[str]) -> Tuple[List[str], List[str]]:
    """Two columns of one length."""
    length = max(len(left), len(right))
    return [*left, *[""] * (length - len(left))], [*right, *[""] * (length - len(right))]
