"""A run that counts the loops of a project: copies of all files with marks, compiled in a folder of their own."""

from __future__ import annotations

import array
import os
import re
import shutil
import subprocess
import tempfile
from contextlib import suppress
from dataclasses import dataclass
from pathlib import Path
from typing import Dict, FrozenSet, List, Optional, Sequence, Set

from ..compilers import wanted_compiler
from ..lines import split_lines
from ..ped import ENCODING, argument, cause, shown
from ..statuses import CompanionError, Status
from . import tree
from .compiled import with_stack
from .costs import Costs
from .marking import Marks, costs_by, counter_text, marked, marks_for, module_text
from .project import Project
from .units import File, Written

#: How many seconds compiler and run may take.
_COMPILING, _RUNNING = 600, 1200
#: So many lines of a compiler's message are shown.
_MOST_LINES = 12
#: Without optimisation each call stays where it is.
_FLAGS = ("-O0", "-w", "-std=legacy")
_VARIABLE = "PEDX_COUNTS"
_RUNTIME = re.compile(r"(?:At line (\d+) of file (.*)\n)?Fortran runtime error: (.*)")


@dataclass(frozen=True)
class Run:
    """How the run is made. It runs in a copy of `folder`. `others` are sources in other languages."""

    form: Optional[str] = None
    columns: int = 72
    folders: Sequence[str] = ()
    others: Sequence[str] = ()
    data: Optional[str] = None
    folder: Optional[str] = None
    macros: Sequence[str] = ()


def costs_of(project: Project, run: Run) -> Costs:
    """What a run costs in each loop."""
    compiler = wanted_compiler("counting")
    files = [*project.files, *project.others]
    if not any(unit.kind == "PROGRAM" for file in files for unit in file.units):
        raise CompanionError(Status.BAD_WORDS, "none of the files has a main program, so there is nothing to run")
    marks = marks_for(files)
    with tempfile.TemporaryDirectory(prefix="pedx-") as name:
        work = _Work(Path(name), compiler, files, project, run)
        work.compile(marks)
        return costs_by(marks, work.values(marks))


class _Work:
    """One counted run, in its folder."""

    def __init__(
        self, folder: Path, compiler: Sequence[str], files: Sequence[File], project: Project, run: Run
    ) -> None:
        self._folder = folder
        self._compiler = compiler
        self._files = files
        self._project = project
        self._run = run

    def compile(self, marks: Marks) -> None:
        """Makes the program."""
        paths = []
        for index in in_order_of_modules(self._files):
            file = self._files[index]
            place = self._folder / f"{index + 1:04}"
            place.mkdir()
            path = place / os.path.basename(file.path)
            lines = marked(file, index, self._project.scopes, marks)
            path.write_bytes("".join(f"{line}\n" for line in lines).encode(ENCODING))
            paths.append(str(path))
        own = [self._folder / "marks.f90", self._folder / "counter.f90"]
        own[0].write_text(module_text(marks), "ascii")
        own[1].write_text(counter_text(marks, _VARIABLE), "ascii")
        self._call([*self._compiler, "-O2", "-w", "-c", *map(str, own)])
        folders = dict.fromkeys([os.path.dirname(os.path.abspath(one.path)) for one in self._files])
        folders.update(dict.fromkeys(os.path.abspath(one) for one in self._run.folders))
        included = [f"-I{folder}" for folder in folders]
        others = [argument(os.path.abspath(one)) for one in self._run.others]
        self._call([
            *self._compiler, *_FLAGS, *self._run.macros, *self._layout(), *included, *paths, *others, "marks.o", "counter.o", "-o", "run",
        ])

    def _layout(self) -> List[str]:
        form = [] if self._run.form is None else [f"-f{self._run.form}-form"]
        return [*form, f"-ffixed-line-length-{self._run.columns}"]

    def _call(self, command: Sequence[str]) -> None:
        try:
            done = subprocess.run(
                command, cwd=self._folder, stdin=subprocess.DEVNULL, stdout=subprocess.PIPE, stderr=subprocess.STDOUT,
                timeout=_COMPILING, check=False,
            )
        except subprocess.TimeoutExpired as error:
            message = f"{shown(command[0])} takes longer than {_COMPILING} seconds"
            raise CompanionError(Status.NO_COMPILER, message) from error
        except OSError as error:
            raise CompanionError(Status.NO_COMPILER, f"cannot start {shown(command[0])}: {cause(error)}") from error
        if done.returncode != 0:
            said = self._without_folder(done.stdout.decode(ENCODING))
            rows = [f"  {row}" for row in split_lines(said)[:_MOST_LINES]]
            message = "\n".join([f"{shown(command[0])} doesn't compile the program with marks:", *rows])
            raise CompanionError(Status.NO_COMPILER, message)

    def _without_folder(self, said: str) -> str:
        return re.sub(re.escape(str(self._folder) + os.sep) + r"(\d{4}/)?", "", said)

    def values(self, marks: Marks) -> Sequence[int]:
        """What the run has counted."""
        counted = self._folder / "counts"
        place = self._folder / "place"
        if self._run.folder is None:
            place.mkdir()
        else:
            _copy(self._run.folder, place)
        environment = {**os.environ, _VARIABLE: str(counted)}
        try:
            done = subprocess.run(
                [str(self._folder / "run")], cwd=place, input=(self._run.data or "").encode(ENCODING),
                stdout=subprocess.DEVNULL, stderr=subprocess.PIPE, env=environment, timeout=_RUNNING, check=False,
                preexec_fn=with_stack,
            )
        except subprocess.TimeoutExpired as error:
            raise CompanionError(Status.FAULT, f"the run takes longer than {_RUNNING} seconds") from error
        if done.returncode != 0:
            said = _about_fault(done.returncode, self._without_folder(done.stderr.decode(ENCODING)))
            raise CompanionError(Status.FAULT, f"the run ends with a fault, so nothing is counted: {said}")
        values = array.array("q")
        with suppress(OSError):
            values.frombytes(counted.read_bytes())
        if len(values) != 1 + marks.places + marks.contexts:
            message = "the run has counted nothing: it comes by no statement, or ends in a strange way"
            raise CompanionError(Status.FAULT, message)
        return values


def _copy(folder: str, place: Path) -> None:
    """Copies a folder for a run, with what its links name."""
    try:
        shutil.copytree(folder, place)
    except (OSError, shutil.Error) as error:
        raise CompanionError(Status.NOT_READ, f"cannot copy {shown(folder)}: {cause(error)}") from error


def _about_fault(status: int, said: str) -> str:
    match = _RUNTIME.search(said)
    if match is not None and match.group(3).startswith("End of file"):
        return "data are missing; --data names a file that holds them, and --in a folder with the program's files"
    if match is not None:
        return match.group(3).strip()
    last = (split_lines(said) or [""])[-1].strip()
    ended = f"signal {-status} ends it" if status < 0 else f"it ends with status {status}"
    return f"{ended}: {last}" if last else ended


def in_order_of_modules(files: Sequence[File]) -> List[int]:
    """The numbers of files, each after those that have the modules that it uses; otherwise in their order."""
    homes: Dict[str, int] = {}
    for index, file in enumerate(files):
        for unit in file.units:
            if unit.kind in ("MODULE", "SUBMODULE"):
                homes.setdefault(unit.name, index)
    needed = [frozenset(homes[one] for one in _modules_of(file) if one in homes) for file in files]
    found: Dict[int, None] = {}
    for index in range(len(files)):
        _put(index, needed, found, set())
    return list(found)


def _put(index: int, needed: Sequence[FrozenSet[int]], found: Dict[int, None], open_ones: Set[int]) -> None:
    """Puts a file behind those that it needs. Files that need one another stay in their order."""
    if index in found or index in open_ones:
        return
    open_ones.add(index)
    for other in sorted(needed[index]):
        _put(other, needed, found, open_ones)
    found[index] = None


def _modules_of(file: File) -> Set[str]:
    """The modules that a file uses or extends."""
    found: Set[str] = set()
    for unit in file.all_units():
        head = unit.head.statement if unit.head is not None else None
        if isinstance(head, tree.Head) and head.parent:
            found.update(head.parent.split(":"))
        for declared in unit.specification:
            if isinstance(declared, Written) and isinstance(declared.statement, tree.Use):
                found.add(declared.statement.module)
    return found
