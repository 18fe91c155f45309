"""Certificates: steps that refute a System, and the lines of evidence in which they stand.

A step is a cut, a divisor that misses a constant, or a split. Rows are counted from 1: those of the System, and then
each row that a step adds. docs/COMMANDS.md says what a line of evidence is.
"""

from __future__ import annotations

import re
from dataclasses import dataclass
from typing import List, NamedTuple, Optional, Tuple, Union

from .systems import Place, pattern_text, place_text

#: The greatest size of a number, and of steps in a line and parts in a step.
MOST_NUMBER = 999_999_999
MOST_STEPS = 500
MOST_PARTS = 500

_NUMBER = "(?:0|[1-9][0-9]{0,8})"
_FACTOR = f"-?{_NUMBER}"
_PLACE = re.compile(rf"({_NUMBER})\.({_NUMBER})")
_PATTERN = re.compile(r"\(([<=>*](?:,[<=>*])*)\)")
_PART = re.compile(rf"({_NUMBER}):({_FACTOR})")
_END = re.compile(rf"([/%])({_NUMBER})")
_SPLIT = re.compile(rf"({_NUMBER})\?({_FACTOR})")

#: The number of a row, and what it is multiplied by.
Part = Tuple[int, int]


class Cut(NamedTuple):
    """The sum of some rows, divided by a number that divides its coefficients; its constant is rounded down."""

    parts: Tuple[Part, ...]
    divisor: int

    @property
    def text(self) -> str:
        """The step as it stands in a line."""
        return f"{_parts_text(self.parts)} /{self.divisor}"


class Gcd(NamedTuple):
    """The sum of some equations, whose coefficients a number divides, but not its constant."""

    parts: Tuple[Part, ...]
    divisor: int

    @property
    def text(self) -> str:
        """The step as it stands in a line."""
        return f"{_parts_text(self.parts)} %{self.divisor}"


class Split(NamedTuple):
    """Two cases: an unknown is at most a bound, and it is more."""

    unknown: int
    bound: int

    @property
    def text(self) -> str:
        """The step as it stands in a line."""
        return f"{self.unknown}?{self.bound}"


Step = Union[Cut, Gcd, Split]


def _parts_text(parts: Tuple[Part, ...]) -> str:
    return " ".join(f"{row}:{factor}" for row, factor in parts)


@dataclass(frozen=True)
class Claim:
    """A line of evidence: that the System of two references and a pattern is refuted by some steps."""

    source: Place
    sink: Place
    pattern: Tuple[str, ...]
    steps: Tuple[Step, ...]

    @property
    def text(self) -> str:
        """The line."""
        steps = " ".join(step.text for step in self.steps)
        return f"{place_text(self.source)} {place_text(self.sink)} {pattern_text(self.pattern)} {steps}"

    def fits(self, vector: Tuple[str, ...]) -> bool:
        """Whether the line speaks of a direction vector."""
        return len(vector) == len(self.pattern) and all(
            wanted in ("*", sign) for wanted, sign in zip(self.pattern, vector)
        )


def read_claim(line: str) -> Optional[Claim]:
    """The line of evidence of a text; none where it isn't of the form."""
    words = re.findall(r"[^ \t]+", line)
    if len(words) < 4:
        return None
    source, sink = _PLACE.fullmatch(words[0]), _PLACE.fullmatch(words[1])
    pattern = _PATTERN.fullmatch(words[2])
    steps = _read_steps(words[3:])
    if source is None or sink is None or pattern is None or steps is None:
        return None
    return Claim(
        (int(source[1]), int(source[2])), (int(sink[1]), int(sink[2])), tuple(pattern[1].split(",")), tuple(steps)
    )


def _read_steps(words: List[str]) -> Optional[List[Step]]:
    steps: List[Step] = []
    parts: List[Part] = []
    for word in words:
        part, end, split = _PART.fullmatch(word), _END.fullmatch(word), _SPLIT.fullmatch(word)
        if part is not None:
            parts.append((int(part[1]), int(part[2])))
        elif end is not None and parts and int(end[2]) >= 1:
            steps.append(Cut(tuple(parts), int(end[2])) if end[1] == "/" else Gcd(tuple(parts), int(end[2])))
            parts = []
        elif split is not None and not parts:
            steps.append(Split(int(split[1]), int(split[2])))
        else:
            return None
        if len(parts) > MOST_PARTS or len(steps) > MOST_STEPS:
            return None
    return steps if steps and not parts else None


def is_writable(steps: Tuple[Step, ...]) -> bool:
    """Whether the steps keep to the limits of a line."""
    return len(steps) <= MOST_STEPS and all(_is_short(step) for step in steps)


def _is_short(step: Step) -> bool:
    if isinstance(step, Split):
        return max(step.unknown, abs(step.bound)) <= MOST_NUMBER
    numbers = [step.divisor, *(abs(number) for part in step.parts for number in part)]
    return len(step.parts) <= MOST_PARTS and max(numbers) <= MOST_NUMBER
