"""Several files at once: which they are, and what is said about all their loops.

Each file is read once, and the procedures and modules of all of them are known to each. The loops are judged by several
processes, which share what was read: a process passes on plain data about its loops, and nothing of what it has read.
"""

from __future__ import annotations

import multiprocessing
import os
import re
import signal
from concurrent.futures import Future, ProcessPoolExecutor, as_completed
from concurrent.futures.process import BrokenProcessPool
from dataclasses import dataclass, field, replace
from typing import Dict, FrozenSet, Iterator, List, Optional, Sequence, Tuple, Union

from ..ped import Ped
from ..progress import Progress
from ..statuses import CompanionError, Status
from . import exporting, report
from .calls import Calls
from .costs import NEVER, Costs
from .document import Value, loop_value, unit_value
from .symbols import Scopes
from .units import File, Unit
from .verdicts import PARALLEL, REFUSED, Verdict, places_in, verdicts

#: The suffixes of sources, in small letters.
SUFFIXES = (".f", ".for", ".ftn", ".f77", ".f90", ".f95", ".f03", ".f08", ".f18")
#: A process judges at least so many loops in one go; those of a unit are never divided.
_LOOPS_AT_LEAST = 40
#: More processes than these gain nothing.
_MOST_PROCESSES = 16

_MISSING = re.compile(r"\b(SUBROUTINE|FUNCTION|module|type) (\w+) isn't in the files")
_PERHAPS = re.compile(r"\ba module that isn't in the files may have|\bwhat \w+ is isn't known$")


def sources(folder: str) -> List[str]:
    """The sources in a folder and in those inside it, in order of their names. Hidden folders are left out."""
    found: List[str] = []
    for place, folders, names in os.walk(folder):
        folders[:] = sorted(one for one in folders if not one.startswith("."))
        found.extend(os.path.join(place, one) for one in sorted(names) if is_source(one))
    return found


def is_source(name: str) -> bool:
    """Whether a name is that of a Fortran source."""
    base = os.path.basename(name)
    return os.path.splitext(base)[1].lower() in SUFFIXES and not base.startswith(".")


@dataclass(frozen=True)
class Seen:
    """What is said about a loop.

    `missing` names what isn't in the files, where nothing else refuses the loop. `would` are the further assumptions,
    each time the fewest, with which it is parallel. `is_inside` tells that it is in another parallel loop.
    """

    file: int
    line: int
    last: int
    included: str
    unit: str
    level: int
    header: str
    word: str
    said: str
    remarks: Tuple[str, ...]
    has_model: bool
    reason: str
    words: str
    missing: Tuple[str, ...]
    would: Tuple[str, ...]
    assumes: Tuple[str, ...]
    value: Dict[str, Value] = field(compare=False, repr=False)
    is_inside: bool = False
    #: The lines of its directive, and the same in one line; where it is parallel and gets none, why.
    directive: Tuple[str, ...] = ()
    note: str = ""
    left: str = ""


@dataclass(frozen=True)
class Task:
    """Some neighbouring units of a file, which one process judges."""

    file: int
    first: int
    last: int
    loops: int


@dataclass(frozen=True)
class Done:
    """What has become of a task: the units as JSON has them, and the loops."""

    units: Tuple[Dict[str, Value], ...]
    loops: Tuple[Seen, ...]


@dataclass(eq=False)
class Project:
    """Files that are asked about, and `others` that have procedures and modules of theirs.

    With `writes` the loops that may have a directive get one; where there are costs, those alone that it pays for.
    """

    files: Sequence[File]
    others: Sequence[File]
    granted: FrozenSet[str]
    openmp: str = "4.5"
    writes: bool = False
    costs: Optional[Costs] = None
    scopes: Scopes = field(init=False)
    calls: Calls = field(init=False)
    units: List[List[Unit]] = field(init=False)

    def __post_init__(self) -> None:
        every = [*self.files, *self.others]
        self.scopes = Scopes([unit for one in every for unit in one.all_units()])
        self.calls = Calls(self.scopes, every)
        self.units = [list(one.all_units()) for one in self.files]

    def tasks(self) -> List[Task]:
        """The units of all files, divided."""
        found: List[Task] = []
        for index, units in enumerate(self.units):
            first = loops = 0
            for number, unit in enumerate(units, 1):
                loops += sum(1 for _ in unit.loops())
                if loops >= _LOOPS_AT_LEAST or number == len(units):
                    found.append(Task(index, first, number, loops))
                    first, loops = number, 0
        return found

    def done(self, ped: Ped, task: Task) -> Done:
        """Carries out a task."""
        file, units = self.files[task.file], self.units[task.file][task.first:task.last]
        places = [place for unit in units for place in places_in(file, unit, self.scopes, self.calls)]
        judged = verdicts(ped, places, self.granted, self.openmp >= "5.0")
        seen = [_seen(task.file, verdict) for verdict in judged]
        loops = tuple(self._directed(file, seen, judged) if self.writes else seen)
        return Done(tuple(unit_value(unit, self.scopes) for unit in units), loops)

    def _directed(self, file: File, seen: Sequence[Seen], judged: Sequence[Verdict]) -> Iterator[Seen]:
        """The loops of some units with their directives."""
        paying = [verdict for one, verdict in zip(seen, judged) if self._pays(one)]
        chosen = exporting.chosen(file, paying, self.openmp)
        taken = {id(verdict) for verdict in chosen.verdicts}
        left = {id(one.verdict): one.words for one in chosen.left}
        for one, verdict in zip(seen, judged):
            if id(verdict) in taken:
                lines = exporting.lines_for(file, verdict)
                one = replace(one, directive=tuple(lines), note=exporting.written_for(file, verdict))
            elif id(verdict) in left:
                one = replace(one, left=left[id(verdict)])
            yield one

    def _pays(self, loop: Seen) -> bool:
        if self.costs is None:
            return True
        return not loop.included and self.costs.get((loop.file, loop.line), NEVER).pays


def _seen(file: int, verdict: Verdict) -> Seen:
    place, refusal = verdict.place, verdict.refusal
    would = sorted(verdict.would, key=lambda one: len(one.assumed))[:1]
    return Seen(
        file=file, line=place.line, last=place.last_line, included=place.file, unit=place.scene.unit.path,
        level=place.level, header=place.header, word=verdict.word, said=report.said(verdict),
        remarks=tuple(report.remarks(verdict)), has_model=verdict.model is not None,
        reason="" if refusal is None else refusal.reason, words="" if refusal is None else refusal.words,
        missing=missing_of(verdict), would=would[0].assumed if would else (), assumes=verdict.assumes,
        value=loop_value(verdict, False),
    )


# --- What is missing -------------------------------------------------------------------------------------------------


def missing_of(verdict: Verdict) -> Tuple[str, ...]:
    """The procedures, modules and types that aren't in the files, where nothing else is known to refuse a loop."""
    if verdict.word != REFUSED or verdict.refusal is None:
        return ()
    scene = verdict.place.scene
    effects = [scene.facts.effects(written) for written in verdict.place.block.statements()]
    troubles = [trouble.words for one in effects for trouble in one.troubles]
    faults = [fault.words for fault in scene.symbols.faults]
    if verdict.refusal.words not in (*troubles, *faults):
        return ()
    found: Dict[str, None] = {}
    for words in (*faults, *troubles):
        names = _missing_in(words, scene.symbols.missing_modules)
        if not names:
            return ()
        found.update(dict.fromkeys(names))
    return tuple(sorted(found))


def _missing_in(words: str, modules: Sequence[str]) -> List[str]:
    """What words of a refusal say to be missing. For something of a module the missing modules are the answer."""
    match = _MISSING.search(words)
    if match is not None and match.group(1) != "type":
        return [f"{match.group(1)} {match.group(2)}"]
    if match is not None or _PERHAPS.search(words):
        return [f"module {one}" for one in modules]
    return []


# --- Processes ---------------------------------------------------------------------------------------------------

#: What processes share that are forked: the project and the program ped. It is set before they are.
_SHARED: List[Tuple[Project, Ped]] = []


def default_processes() -> int:
    """As many processes as there are processors for this call."""
    try:
        count = len(os.sched_getaffinity(0))
    except AttributeError:
        count = os.cpu_count() or 1
    return max(1, min(count, _MOST_PROCESSES))


def judged(project: Project, ped: Ped, processes: int, progress: Progress = Progress()) -> List[Done]:
    """What is said about all loops, a `Done` for each file."""
    tasks = project.tasks()
    if len(tasks) > 1:
        ped = ped.direct()
    if processes > 1 and len(tasks) > 1 and "fork" in multiprocessing.get_all_start_methods():
        done = _by_processes(project, ped, tasks, processes, progress)
    else:
        done = []
        for task in tasks:
            _show(progress, tasks, done)
            done.append(project.done(ped, task))
    found = [Done((), ()) for _ in project.files]
    for task, one in zip(tasks, done):
        before = found[task.file]
        found[task.file] = Done((*before.units, *one.units), (*before.loops, *one.loops))
    return [Done(one.units, tuple(_with_outer(one.loops))) for one in found]


def _show(progress: Progress, tasks: Sequence[Task], done: Sequence[Done]) -> None:
    progress.show(f"{sum(len(one.loops) for one in done)} of {sum(task.loops for task in tasks)} loops")


def _by_processes(
    project: Project, ped: Ped, tasks: Sequence[Task], processes: int, progress: Progress
) -> List[Done]:
    """Has processes carry out the tasks, those with most loops first."""
    order = sorted(range(len(tasks)), key=lambda index: -tasks[index].loops)
    found: Dict[int, Done] = {}
    _SHARED.append((project, ped))
    futures: Dict["Future[Union[Done, Tuple[Status, str]]]", int] = {}
    try:
        with ProcessPoolExecutor(
            min(processes, len(tasks)), multiprocessing.get_context("fork"), initializer=_as_worker
        ) as pool:
            try:
                futures = {pool.submit(_carried_out, tasks[index]): index for index in order}
                for future in as_completed(futures):
                    answer = future.result()
                    if not isinstance(answer, Done):
                        raise CompanionError(*answer)
                    found[futures[future]] = answer
                    _show(progress, tasks, list(found.values()))
            finally:
                for future in futures:
                    future.cancel()
    except BrokenProcessPool as error:
        message = "a process of pedx was ended from outside, perhaps for lack of memory; --jobs 1 needs less"
        raise CompanionError(Status.NO_MEMORY, message) from error
    finally:
        _SHARED.pop()
    return [found[index] for index in range(len(tasks))]


def _as_worker() -> None:
    """Ctrl-C ends a process at once, and without words: the call itself has them."""
    signal.signal(signal.SIGINT, signal.SIG_DFL)


def _carried_out(task: Task) -> Union[Done, Tuple[Status, str]]:
    """What a process makes of a task; an error as its status and its words."""
    project, ped = _SHARED[-1]
    try:
        return project.done(ped, task)
    except CompanionError as error:
        return error.status, error.message


def _with_outer(loops: Sequence[Seen]) -> Iterator[Seen]:
    """The loops of a file with what is known of those around them. They are in order of text, outer ones first."""
    unit: Optional[str] = None
    around: List[bool] = []
    for loop in loops:
        if loop.unit != unit:
            unit, around = loop.unit, []
        del around[loop.level - 1:]
        yield replace(loop, is_inside=any(around))
        around.append(loop.word == PARALLEL)
