"""`pedx omp` on real Fortran: which parallel loops get a directive, and the user's text with the directives in it."""

from __future__ import annotations

from dataclasses import dataclass
from typing import Dict, List, Optional, Sequence, Tuple

from .directives import directive_lines, directive_text, indentation_of, obstacle, outermost, with_directives
from .units import File
from .verdicts import PARALLEL, Verdict

#: Has the environment choose how iterations are dealt out to threads; without it OMP_SCHEDULE means nothing.
RUNTIME = "RUNTIME"


@dataclass(frozen=True)
class Left:
    """A parallel loop that gets no directive, and why."""

    verdict: Verdict
    words: str


@dataclass(frozen=True)
class Chosen:
    """The loops of a file that get directives, in order of text, and those that are left out."""

    verdicts: Tuple[Verdict, ...]
    left: Tuple[Left, ...] = ()


def chosen(file: File, verdicts: Sequence[Verdict], openmp: str) -> Chosen:
    """The outermost of the parallel loops that may have a directive; others inside them aren't spoken of."""
    hindered: Dict[int, str] = {}
    for verdict in verdicts:
        if verdict.word == PARALLEL:
            words = hindrance(file, verdict, openmp)
            if words is not None:
                hindered[id(verdict)] = words
    free = [one for one in verdicts if one.word == PARALLEL and id(one) not in hindered]
    blocks = {id(block) for block in outermost([one.place.block for one in free])}
    taken = tuple(one for one in free if id(one.place.block) in blocks)
    left = tuple(
        Left(one, hindered[id(one)]) for one in verdicts if id(one) in hindered and not is_inside(one, taken)
    )
    return Chosen(taken, left)


def hindrance(file: File, verdict: Verdict, openmp: str) -> Optional[str]:
    """Why a parallel loop gets no directive; none where it may have one."""
    place = verdict.place
    return obstacle(place.block, file, place.scene.symbols, verdict.clauses, openmp)


def is_inside(verdict: Verdict, others: Sequence[Verdict]) -> bool:
    """Whether a loop is in one of some others."""
    inner = verdict.place
    return any(
        inner.file == one.place.file and one.place.block is not inner.block
        and any(written is inner.block.head for written in one.place.block.statements())
        for one in others
    )


def exported(text: str, file: File, verdicts: Sequence[Verdict], schedule: str = "") -> str:
    """A text with the directives of some loops. Without their lines it is the same, byte for byte."""
    rows: Dict[int, List[str]] = {}
    for verdict in verdicts:
        rows[verdict.place.line] = lines_for(file, verdict, schedule)
    return with_directives(text, rows)


def lines_for(file: File, verdict: Verdict, schedule: str = "") -> List[str]:
    """The lines of a loop's directive."""
    margin = indentation_of(file.lines[verdict.place.line - 1])
    return directive_lines(verdict.clauses, file.form, margin, schedule)


def written_for(file: File, verdict: Verdict) -> str:
    """A loop's directive in one line, as notes show it."""
    return directive_text(verdict.clauses, file.form)
