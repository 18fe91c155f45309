"""The edits of real/mutants.txt and real/mutants-calls.txt, each of which has to make a test fail."""

from __future__ import annotations

from dataclasses import dataclass
from typing import List, Tuple

from .support import TOP

TABLES = [TOP / "companion" / "tests" / "real" / name for name in (
    "mutants.txt", "mutants-calls.txt", "mutants-structures.txt",
)]
FOLDER = TOP / "companion" / "real"


@dataclass(frozen=True)
class Mutant:
    """An edit of a file of companion/real/: what it breaks, the tests that fail with it, and both texts."""

    words: str
    file: str
    tests: Tuple[str, ...]
    old: str
    new: str

    def applied(self, text: str) -> str:
        """The edited text. Raises ValueError where the old text isn't there exactly once."""
        if text.count(self.old) != 1:
            raise ValueError(f"{self.file}: the old text of {self.words!r} is there {text.count(self.old)} times")
        return text.replace(self.old, self.new)


def mutants() -> List[Mutant]:
    """All edits, in order."""
    parts = [part for table in TABLES for part in table.read_text().split("\n== ")[1:]]
    return [_mutant(part.splitlines()) for part in parts]


def _mutant(lines: List[str]) -> Mutant:
    file, _, tests = lines[1].partition(":")
    old = [line[1:] for line in lines[2:] if line.startswith("-")]
    new = [line[1:] for line in lines[2:] if line.startswith("+")]
    return Mutant(lines[0], file, tuple(tests.split()), "\n".join(old), "\n".join(new))
