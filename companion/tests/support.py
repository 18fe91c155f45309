"""What the tests share: the program ped, the examples, and the cases with the answers that are wanted of ped."""

from __future__ import annotations

import os
import shutil
import subprocess
import tempfile
from dataclasses import dataclass
from functools import lru_cache
from pathlib import Path
from typing import Dict, List, Optional, Sequence, Tuple

from ..lines import split_lines
from ..ped import ENCODING, Ped, read_file
from ..statuses import ProgramRefused
from ..views import Question, View, open_view, view_of_file

TOP = Path(__file__).resolve().parents[2]
EXAMPLES = TOP / "examples"

#: What `advise` answers at a loop with an increment of 2.
ADVICE = [
    "interchange ok", "reverse refused rule 8 StepShape at 1", "distribute refused rule 11 OneBlock at 1",
    "fuse refused rule 10 NoNeighbour at 1", "parallel ok", "serial refused rule 3 ParallelState at 1", "peel first ok",
    "peel last refused rule 9 Range at 1",
]


def ped_path() -> str:
    """The program ped. The launcher is never meant, which would begin to prove."""
    path = os.environ.get("PEDX_PED")
    if not path:
        raise RuntimeError("PEDX_PED has to name the built program ped")
    return path


def ped() -> Ped:
    """The program ped, to be called."""
    return Ped(ped_path())


@lru_cache(maxsize=None)
def example_view(name: str) -> View:
    """The view of an example in its own lines."""
    return open_view(ped(), Question(str(EXAMPLES / f"{name}.f")))


@lru_cache(maxsize=None)
def examples() -> Tuple[str, ...]:
    """The names of the examples that ped reads; each is `FOLDER/NAME`."""
    names = sorted(str(path.relative_to(EXAMPLES).with_suffix("")) for path in EXAMPLES.glob("**/*.f"))
    return tuple(name for name in names if _is_read(name))


def _is_read(name: str) -> bool:
    try:
        example_view(name)
    except ProgramRefused:
        return False
    return True


def has_subroutines(name: str) -> bool:
    """Whether an example has subroutines: it's then shown in the lines of its printed source, with a block for each CALL."""
    return any(line[6:].startswith("SUBROUTINE ") for line in split_lines(read_file(str(EXAMPLES / f"{name}.f"))))


def fortran(*statements: str) -> str:
    """A text with a statement on each line, from column 7 on; digits at the front of one are its label."""
    lines = []
    for statement in statements:
        label, _, rest = statement.partition(" ")
        lines.append(f"{label:>5} {rest}" if label.isdigit() else f"      {statement}")
    return "".join(line + "\n" for line in lines)


def view_of(source: str) -> View:
    """The view of a text, as ped shows it, under the name `p.f`."""
    return view_of_file(ped().show(source), source, Question("p.f"))


def is_wanted(compiled_rows: str, rows: Tuple[str, ...]) -> bool:
    """Whether a compiled program has printed what `run` shows.

    FORTRAN puts other blanks between the items of a PRINT than ped. What is undefined, `?`, may be any number.
    """
    lines = compiled_rows.splitlines()
    printed = "".join("".join(line.split()) for line in lines if not line.startswith(" live "))
    live = [word for line in lines if line.startswith(" live ") for word in line.split()]
    wanted = "".join("".join(row[2:].split()) for row in rows if row.startswith("| "))
    wanted_live = [word for row in rows if row.startswith("live ") for word in row.split()]
    return printed == wanted and len(live) == len(wanted_live) and all(
        wanted_word in ("?", word) for word, wanted_word in zip(live, wanted_live)
    )


@dataclass(frozen=True)
class Case:
    """A case: where it stands, its files, and its answers by their kinds."""

    name: str
    program: List[str]
    script: Optional[str]
    wanted: Dict[str, List[str]]


@lru_cache(maxsize=None)
def cases() -> Sequence[Case]:
    """The cases that ped is checked with, of those themes that show panes, printed programs and sessions."""
    themes = ("dependences", "forms", "printed", "sessions")
    files = sorted(path for theme in themes for path in (TOP / "cases" / theme).glob("*.cases"))
    folder = tempfile.mkdtemp(prefix="pedx-cases-")
    try:
        words = ["awk", "-v", f"work={folder}", "-f", str(TOP / "tools" / "cases.awk"), "--", *map(str, files)]
        subprocess.run(words, check=True, stdout=subprocess.DEVNULL, env={**os.environ, "LC_ALL": "C"})
        return [_case(path) for path in sorted(Path(folder).iterdir(), key=lambda path: int(path.name))]
    finally:
        shutil.rmtree(folder)


def _case(folder: Path) -> Case:
    script = folder / "script"
    return Case(
        name=(folder / "name").read_text(ENCODING).strip(),
        program=split_lines(read_file(str(folder / "program.f"))),
        script=read_file(str(script)) if script.exists() else None,
        wanted={path.suffix[1:]: split_lines(read_file(str(path))) for path in folder.glob("wanted.*")},
    )
