"""`pedx loops` on several files of real Fortran, or on all in a folder."""

from __future__ import annotations

import json as notation
import os
from dataclasses import dataclass
from typing import Dict, Iterator, List, NamedTuple, Optional, Sequence, Set, Tuple

from ..lines import split_lines
from ..messages import NOTE, counted
from ..ped import ENCODING, Ped, cause, read_file, shown
from ..progress import Progress
from ..real import assumptions, blocks, library
from ..real.counted import Run, costs_of
from ..real.document import SCHEMA, Value, readable
from ..real.costs import Costs
from ..real.directives import with_directives
from ..real.overview import helps, overview, profile
from ..real.report import PAGE
from ..real.project import Done, Project, default_processes, judged, sources
from ..real.units import File
from ..statuses import CompanionError, Status
from .real import Answer, Reading, is_other_language


__all__ = ["Asked", "default_processes", "loops", "omp", "opened"]


@dataclass(frozen=True)
class Asked:
    """What is asked of a project.

    `jobs` processes judge. `each` shows each loop, too, and `is_profile` those that a run enters, and nothing else.
    With `counts` the program is run on the text of `data` in a copy of `folder`.
    """

    jobs: int = 1
    each: bool = False
    as_json: bool = False
    counts: bool = False
    is_profile: bool = False
    data: Optional[str] = None
    folder: Optional[str] = None


def paths_of(words: Sequence[str]) -> List[str]:
    """The sources that are named; those in folders in order of their names. None occurs twice."""
    found: Dict[Tuple[int, int], str] = {}
    for word in words:
        inside = sources(word) if os.path.isdir(word) else [word]
        if not inside:
            raise CompanionError(Status.NOT_READ, f"there is no Fortran source in {shown(word)}")
        for path in inside:
            found.setdefault(_identity(path), path)
    return list(found.values())


def _identity(path: str) -> Tuple[int, int]:
    """What tells a file from any other."""
    try:
        status = os.stat(path)
    except OSError as error:
        raise CompanionError(Status.NOT_READ, f"cannot read {shown(path)}: {error.strerror}") from error
    return status.st_dev, status.st_ino


class Opened(NamedTuple):
    """A project with the names of its files, and notes."""

    project: Project
    names: List[str]
    reading: Reading
    notes: List[str]


def opened(words: Sequence[str], reading: Reading, progress: Progress) -> Opened:
    """Reads the files, each once. A file of a folder that another one INCLUDEs is no source of its own."""
    paths = paths_of(words)
    for path in paths:
        if is_other_language(path):
            raise CompanionError(Status.BAD_WORDS, f"{shown(path)} is no Fortran source; --with takes it along")
    try:
        granted = assumptions.granted(reading.assume, reading.deny, reading.exact)
        note = library.statement_classes().note
    except assumptions.NoAssumption as error:
        raise CompanionError(Status.BAD_WORDS, str(error)) from error
    except library.LibraryMissing as error:
        raise CompanionError(Status.NO_LIBRARY, str(error)) from error
    files = list(_read(paths, reading, progress))
    included = {os.path.realpath(one) for file in files for one in file.included}
    named = set(words)
    kept = [file for file in files if file.path in named or os.path.realpath(file.path) not in included]
    others = list(_read(_others(reading.others, paths), reading, progress))
    notes = [] if note is None else [f"pedx: {NOTE}: {note}"]
    project = Project(kept, others, granted, reading.openmp)
    return Opened(project, [shown(file.path) for file in kept], reading, notes)


def _others(words: Sequence[str], paths: Sequence[str]) -> List[str]:
    """The further Fortran sources of `--with`, without those that are asked about."""
    known = set(map(_identity, paths))
    return [one for one in paths_of(words) if not is_other_language(one) and _identity(one) not in known]


def _read(paths: Sequence[str], reading: Reading, progress: Progress) -> Iterator[File]:
    for number, path in enumerate(paths):
        progress.show(f"{number} of {len(paths)} files")
        text = read_file(path)
        yield blocks.read_file(path, text, reading.form, reading.columns, reading.folders, reading.macros)


def loops(one: Opened, ped: Ped, asked: Asked, progress: Progress) -> Answer:
    """The report about all loops of a project."""
    costs = _costs(one, asked, progress) if asked.counts or asked.is_profile else None
    done = judged(one.project, ped, asked.jobs, progress)
    if asked.as_json:
        text = document(one, done, costs)
    elif asked.is_profile:
        text = profile(one.names, done, costs or {})
    else:
        text = overview(one.names, done, costs, asked.each)
    return Answer(text, tuple(one.notes))


def _costs(one: Opened, asked: Asked, progress: Progress) -> Costs:
    """What a run costs in each loop."""
    progress.announce("gfortran compiles and runs the program")
    others = [word for word in one.reading.others if is_other_language(word)]
    data = read_file(asked.data) if asked.data is not None else None
    reading = one.reading
    run = Run(reading.form, reading.columns, reading.folders, others, data, asked.folder, reading.macros.flags)
    return costs_of(one.project, run)


# --- omp -------------------------------------------------------------------------------------------------------------


def omp(one: Opened, ped: Ped, words: Sequence[str], output: str, asked: Asked, progress: Progress) -> Answer:
    """Writes all files with directives into a folder, which has nothing in it yet."""
    targets = _targets(one, words, output)
    one.project.writes = True
    one.project.costs = _costs(one, asked, progress) if asked.counts else None
    done = judged(one.project, ped, asked.jobs, progress)
    texts = [_with_directives(file, part) for file, part in zip(one.project.files, done)]
    for target, text in zip(targets, texts):
        _write(target, text)
    return Answer(None, (*one.notes, *_notes(one, done, output)))


def _targets(one: Opened, words: Sequence[str], output: str) -> List[str]:
    """Where the files go: those of a folder to their places in it, others to their own names."""
    if os.path.exists(output) and not (os.path.isdir(output) and not os.listdir(output)):
        message = f"-o {shown(output)} is there already; it has to be a new folder, or an empty one"
        raise CompanionError(Status.BAD_WORDS, message)
    folders = [word for word in words if os.path.isdir(word)]
    found: Dict[str, str] = {}
    for file in one.project.files:
        inside = [os.path.relpath(file.path, folder) for folder in folders if _is_in(file.path, folder)]
        target = os.path.join(output, inside[0] if inside else os.path.basename(file.path))
        if target in found:
            raise CompanionError(
                Status.BAD_WORDS, f"{shown(found[target])} and {shown(file.path)} would both be {shown(target)}"
            )
        found[target] = file.path
    return list(found)


def _is_in(path: str, folder: str) -> bool:
    """Whether a file was found in a folder."""
    return os.path.commonpath([os.path.abspath(path), os.path.abspath(folder)]) == os.path.abspath(folder)


def _with_directives(file: File, done: Done) -> str:
    """The text of a file with its directives; all other bytes are as they were."""
    text = read_file(file.path)
    if tuple(split_lines(text)) != tuple(file.lines):
        raise CompanionError(Status.NOT_READ, f"{shown(file.path)} has changed meanwhile, so nothing is written")
    return with_directives(text, {loop.line: loop.directive for loop in done.loops if loop.directive})


def _write(target: str, text: str) -> None:
    """Writes a new file."""
    try:
        os.makedirs(os.path.dirname(target), exist_ok=True)
        with open(target, "xb") as stream:
            stream.write(text.encode(ENCODING))
    except OSError as error:
        raise CompanionError(Status.NOT_READ, f"cannot write {shown(target)}: {cause(error)}") from error


def _notes(one: Opened, done: Sequence[Done], output: str) -> Iterator[str]:
    """What was written, and what that assumes."""
    cited: Set[str] = set()
    count = files = 0
    for name, part in zip(one.names, done):
        taken = [loop for loop in part.loops if loop.directive]
        count, files = count + len(taken), files + bool(taken)
        for loop in part.loops:
            if loop.directive:
                cited.update(loop.assumes)
                yield f"{name}:{loop.line}: {NOTE}: {loop.note} (assumes {', '.join(loop.assumes)})"
            elif loop.left:
                yield f"{loop.included or name}:{loop.line}: {NOTE}: parallel, but gets no directive: {loop.left}"
    if cited:
        yield f"pedx: {NOTE}: assumed: {assumptions.cited(cited)} ({PAGE})"
    words = "no directives" if not count else counted(count, "directive")
    yield f"pedx: {NOTE}: {shown(output)}: {words} in {files} of {counted(len(done), 'file')}"


# --- JSON ------------------------------------------------------------------------------------------------------------


def document(one: Opened, done: Sequence[Done], costs: Optional[Costs] = None) -> str:
    """The report as JSON: the documents of the files, and what would help."""
    if costs is not None:
        for loop in (loop for part in done for loop in part.loops):
            cost = None if loop.included else costs.get((loop.file, loop.line))
            loop.value["cost"] = None if cost is None else {
                "entries": cost.entries, "iterations": max(cost.iterations, -1), "share": round(cost.share, 2),
            }
    files = [_document(name, file, part) for name, file, part in zip(one.names, one.project.files, done)]
    found = [
        {"loops": each.loops, "assume": list(each.assumed), "missing": list(each.missing)}
        for each in helps([loop for part in done for loop in part.loops])
    ]
    cited = assumptions.in_order({name for part in done for loop in part.loops for name in loop.assumes})
    value: Dict[str, Value] = {
        "schema": SCHEMA, "kind": "fortran project", "files": files, "helps": found,
        "assumes": {name: assumptions.ASSUMPTIONS[name].words for name in cited},
    }
    return notation.dumps(value, indent=1) + "\n"


def _document(name: str, file: File, done: Done) -> Dict[str, Value]:
    return {
        "file": readable(name), "form": file.form, "units": list(done.units),
        "loops": [loop.value for loop in done.loops],
    }
