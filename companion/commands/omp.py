"""`pedx omp`: the program as FORTRAN with OpenMP directives."""

from __future__ import annotations

from typing import NamedTuple, Optional, Tuple

from ..counting import counts_of
from ..exports import export_of
from ..messages import ERROR
from ..openmp import Wishes, has_directive
from ..ped import Ped
from ..statuses import Status
from ..timing import Differs, timed
from ..views import View


_NOTHING = "no loop has a directive, so there is nothing to compare\n"


class Work(NamedTuple):
    """What is to be done besides: write nothing unless all is sure, choose by the counts of a run, take times."""

    strict: bool = False
    counts: bool = False
    times: bool = False


class Answer(NamedTuple):
    """The text of the translated program, none where it isn't to be written; the messages about it; the status.

    `table` has the times, where they were taken.
    """

    text: Optional[str]
    messages: Tuple[str, ...]
    status: Status
    table: Optional[str] = None


def omp(view: View, ped: Ped, wishes: Wishes, work: Work, data: Optional[str]) -> Answer:
    """Translates a program. Where the data are for counts or for times, ped looks for no race: they may be many."""
    counts = counts_of(view, data) if work.counts else None
    export = export_of(ped, view, wishes, None if work.counts or work.times else data, counts)
    if work.strict and export.doubts:
        return _nothing(export.doubts, "since not all is sure of it", Status.DOUBTFUL)
    if not work.times:
        return Answer(export.text, export.doubts, Status.DONE)
    if not has_directive(export.text):
        return Answer(export.text, export.doubts, Status.DONE, _NOTHING)
    try:
        times = timed(export.text, export.options, data)
    except Differs as error:
        rows = str(error).splitlines()
        return _nothing((*export.doubts, f"pedx: {ERROR}: {rows[0]}", *rows[1:]), "", Status.DIFFERS)
    rows = [*times.rows(), "all runs print the same"]
    return Answer(export.text, export.doubts, Status.DONE, "".join(f"{row}\n" for row in rows))


def _nothing(messages: Tuple[str, ...], why: str, status: Status) -> Answer:
    """No program is written, and why."""
    words = f"pedx: {ERROR}: nothing is written{f', {why}' if why else ''}"
    return Answer(None, (*messages, words), status)
