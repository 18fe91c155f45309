"""`pedx omp --check`: the file with directives is compiled and run, and compared with the run of the user's own file.

All is done in a folder of its own: what the program writes there is compared, too, and nothing of the user's changes.
"""

from __future__ import annotations

import os
import re
import subprocess
import tempfile
from contextlib import suppress
from dataclasses import dataclass
from pathlib import Path
from typing import Dict, Iterator, List, Optional, Sequence, Tuple

from ..ped import ENCODING, argument

try:
    import resource
except ImportError:  # Only Unix has it.
    resource = None  # type: ignore[assignment]

#: Threads and schedules of the compared runs. Each loop gets SCHEDULE(RUNTIME): else OMP_SCHEDULE does nothing.
WAYS: Tuple[Tuple[int, str], ...] = ((1, "static"), (2, "static"), (4, "static,1"), (4, "dynamic"), (3, "guided"))
#: How many seconds a compiler and a run may take.
_COMPILING, _RUNNING = 300, 300
#: So many lines of a compiler's message are shown.
_MOST_LINES = 12
_MOST_WIDTH = 60
#: How far REAL values may be apart where sums are grouped otherwise.
_RELATIVE, _ABSOLUTE = 1e-5, 1e-30
_FLAGS = ("-O2", "-ffp-contract=off", "-w")

_NUMBER = re.compile(r"[-+]?(?:\d+\.?\d*|\.\d+)(?:[EDQedq][-+]?\d+|[-+]\d{3})?")


class CheckFails(Exception):
    """What is wrong with a file with directives, or why it can't be checked; in lines."""


@dataclass(frozen=True)
class Job:
    """What is checked.

    `text` is the user's, `written` has the directives, and `running` has them with SCHEDULE(RUNTIME). `others` are
    sources that are compiled before it. `is_exact` tells that no REAL reduction may change last digits. `macros` are the
    compiler's words for names of the preprocessor.
    """

    path: str
    form: str
    columns: int
    text: str
    written: str
    running: str
    has_main: bool
    is_exact: bool
    folders: Sequence[str] = ()
    others: Sequence[str] = ()
    data: Optional[str] = None
    macros: Sequence[str] = ()


@dataclass(frozen=True)
class _Ran:
    """How a run has ended, what it has printed, and the files that it has left."""

    status: int
    out: bytes
    files: Dict[str, bytes]


def checked(job: Job, compiler: str) -> str:
    """What was found, where all is well. Raises `CheckFails`, and OSError where the compiler can't be started."""
    with tempfile.TemporaryDirectory(prefix="pedx-") as folder:
        return _Checking(job, compiler, Path(folder)).carried_out()


class _Checking:
    """One check, in its folder."""

    def __init__(self, job: Job, compiler: str, folder: Path) -> None:
        self._job = job
        self._compiler = compiler
        self._folder = folder
        self._made = 0

    def carried_out(self) -> str:
        """Compiles, runs and compares."""
        job, name = self._job, os.path.basename(self._compiler)
        serial = self._compiled(job.text, [], f"{name} doesn't compile the file without directives")
        self._compiled(job.written, ["-fopenmp", "-fsyntax-only"], f"{name} -fopenmp doesn't compile the result")
        parallel = self._compiled(job.running, ["-fopenmp"], f"{name} -fopenmp doesn't compile the result")
        compiles = f"{name} -fopenmp compiles it"
        if not job.has_main:
            return f"{compiles}; the file has no main program, so nothing was run (--with SOURCE brings one)"
        wanted, varying = self._wanted(serial)
        self._check_bounds(wanted)
        for threads, schedule in WAYS:
            found = self._run(parallel, threads, schedule)
            self._compare(wanted, found, varying, f"with {threads} threads and OMP_SCHEDULE={schedule}")
        left_out = f"; {len(varying)} lines that differ between serial runs were left out" if varying else ""
        return f"{compiles}; {len(WAYS)} runs with up to 4 threads agree with the serial run{left_out}"

    # --- Compiling ---

    def _compiled(self, text: str, flags: Sequence[str], words: str) -> Path:
        """A program, or an object where there is no main program, made of a text."""
        self._made += 1
        place = self._folder / str(self._made)
        place.mkdir()
        source = place / os.path.basename(self._job.path)
        source.write_bytes(text.encode(ENCODING))
        target = place / "a.out"
        output = [] if "-fsyntax-only" in flags else ["-o", str(target)]
        linking = [] if self._job.has_main or output == [] else ["-c"]
        others = [argument(os.path.abspath(one)) for one in self._job.others] if self._job.has_main else []
        command = [
            self._compiler, *_FLAGS, *self._job.macros, *flags, *linking, *self._layout(), f"-J{place}",
            *(f"-I{folder}" for folder in self._included()), *others, str(source), *output,
        ]
        try:
            done = subprocess.run(
                command, stdin=subprocess.DEVNULL, stdout=subprocess.PIPE, stderr=subprocess.STDOUT, check=False,
                cwd=place, timeout=_COMPILING,
            )
        except subprocess.TimeoutExpired as error:
            raise CheckFails(f"the compiler takes longer than {_COMPILING} seconds") from error
        if done.returncode:
            said = done.stdout.decode(ENCODING).replace(str(place) + os.sep, "").splitlines()
            raise CheckFails("\n".join([f"{words}:", *(f"  {line}" for line in said[:_MOST_LINES])]))
        return target

    def _layout(self) -> List[str]:
        """The options for the form of the source; other sources go by their suffixes."""
        if self._job.others:
            return []
        form = [f"-f{self._job.form}-form"]
        return form + ([f"-ffixed-line-length-{self._job.columns}"] if self._job.form == "fixed" else [])

    def _included(self) -> Iterator[str]:
        for folder in [str(Path(self._job.path).parent), *self._job.folders]:
            yield os.path.abspath(folder)

    # --- Running ---

    def _run(self, program: Path, threads: int, schedule: str) -> _Ran:
        """A run in a new folder."""
        self._made += 1
        place = self._folder / str(self._made)
        place.mkdir()
        environment = {
            **os.environ, "OMP_NUM_THREADS": str(threads), "OMP_SCHEDULE": schedule, "OMP_DYNAMIC": "false",
            # Threads that wait don't spin: on a machine with other work a run would take minutes.
            "OMP_STACKSIZE": "64M", "OMP_WAIT_POLICY": "passive",
        }
        try:
            done = subprocess.run(
                [str(program)], input=(self._job.data or "").encode(ENCODING), stdout=subprocess.PIPE,
                stderr=subprocess.DEVNULL, check=False, cwd=place, timeout=_RUNNING, env=environment,
                preexec_fn=with_stack,
            )
        except subprocess.TimeoutExpired as error:
            raise CheckFails(f"a run takes longer than {_RUNNING} seconds, so nothing is compared") from error
        files = {str(path.relative_to(place)): path.read_bytes() for path in sorted(place.rglob("*")) if path.is_file()}
        return _Ran(done.returncode, done.stdout, files)

    def _wanted(self, serial: Path) -> Tuple[_Ran, Dict[str, frozenset]]:
        """What the user's own file does, and the lines in which two such runs differ."""
        first, second = self._run(serial, 1, "static"), self._run(serial, 1, "static")
        if first.status != 0:
            raise CheckFails(f"the run without directives {_ended(first.status)}, so nothing is compared")
        return first, _varying(first, second)

    def _check_bounds(self, wanted: _Ran) -> None:
        """A2: no subscript leaves its dimension, in this run."""
        program = self._compiled(self._job.text, ["-fcheck=bounds"], "the file doesn't compile with -fcheck=bounds")
        found = self._run(program, 1, "static")
        if found.status != wanted.status:
            raise CheckFails(f"with -fcheck=bounds the run without directives {_ended(found.status)}: A2 doesn't hold")

    def _compare(self, wanted: _Ran, found: _Ran, varying: Dict[str, frozenset], words: str) -> None:
        if found.status != wanted.status:
            raise CheckFails(f"the run {words} {_ended(found.status)}, the serial one {_ended(wanted.status)}")
        if sorted(found.files) != sorted(wanted.files):
            raise CheckFails(f"the run {words} leaves other files than the serial one")
        outputs = [("standard output", wanted.out, found.out)]
        outputs += [(name, wanted.files[name], found.files[name]) for name in sorted(wanted.files)]
        for name, left, right in outputs:
            line = _first_difference(left, right, varying.get(name, frozenset()), self._job.is_exact)
            if line is not None:
                number, ours, theirs = line
                raise CheckFails(
                    f"the run {words} differs at line {number} of {name}:\n  serial:   {ours}\n  parallel: {theirs}"
                )


def with_stack() -> None:
    """Gives a run all the stack that it may have: with -fopenmp local arrays are on it."""
    if resource is None:
        return
    with suppress(ValueError, OSError):
        hard = resource.getrlimit(resource.RLIMIT_STACK)[1]
        resource.setrlimit(resource.RLIMIT_STACK, (hard, hard))


def _ended(status: int) -> str:
    return f"is ended by signal {-status}" if status < 0 else f"ends with status {status}"


def _varying(first: _Ran, second: _Ran) -> Dict[str, frozenset]:
    """The lines in which two serial runs differ, such as times."""
    found: Dict[str, frozenset] = {}
    pairs = [("standard output", first.out, second.out)]
    pairs += [(name, data, second.files.get(name, b"")) for name, data in first.files.items()]
    for name, left, right in pairs:
        lines, others = left.split(b"\n"), right.split(b"\n")
        if len(lines) != len(others):
            raise CheckFails(f"two runs without directives write different numbers of lines to {name}")
        numbers = frozenset(number for number, (one, other) in enumerate(zip(lines, others), 1) if one != other)
        if numbers:
            found[name] = numbers
    return found


def _first_difference(
    left: bytes, right: bytes, ignored: frozenset, is_exact: bool
) -> Optional[Tuple[int, str, str]]:
    """The first line in which two outputs differ, with its texts."""
    lines, others = left.decode(ENCODING).split("\n"), right.decode(ENCODING).split("\n")
    for number in range(1, max(len(lines), len(others)) + 1):
        ours = lines[number - 1] if number <= len(lines) else "(nothing)"
        theirs = others[number - 1] if number <= len(others) else "(nothing)"
        if number not in ignored and ours != theirs and (is_exact or not _are_close(ours, theirs)):
            return number, ours[:_MOST_WIDTH], theirs[:_MOST_WIDTH]
    return None


def _are_close(left: str, right: str) -> bool:
    """Whether two lines have the same words, and numbers that are nearly the same."""
    if "".join(_NUMBER.sub("#", left).split()) != "".join(_NUMBER.sub("#", right).split()):
        return False
    return all(map(_is_near, _NUMBER.findall(left), _NUMBER.findall(right)))


def _is_near(left: str, right: str) -> bool:
    if left == right:
        return True
    if left.lstrip("+-").isdigit() and right.lstrip("+-").isdigit():
        return False
    first, second = _value(left), _value(right)
    return abs(first - second) <= max(_RELATIVE * max(abs(first), abs(second)), _ABSOLUTE)


def _value(text: str) -> float:
    text = re.sub("[DQdq]", "E", text)
    return float(re.sub(r"(?<=[\d.])([-+]\d{3})$", r"E\1", text) if "E" not in text.upper() else text)
