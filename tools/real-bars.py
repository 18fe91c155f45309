#!/usr/bin/env python3
"""Measures what docs/REAL.md says of the programs of companion/tests/real/.

    tools/real-bars.py --program PROGRAM

PROGRAM is the built program ped. Counted are the loops that get a model, of those that need none of what `pedx` doesn't
look into; and the DOs that `gfortran -O2 -ftree-parallelize-loops=4` runs in parallel, with the verdicts about them.
Then the loops, of these programs and of the sources in examples/lake/, in which a procedure is called, or a function
referred to, whose body is in the files, and those of them that get a model. All are listed where they are missed. A run
takes a minute, and isn't part of the gate.
"""

import argparse
import os
import re
import subprocess
import sys
import tempfile
from pathlib import Path
from typing import Iterator, List, Sequence, Set, Tuple

TOP = Path(__file__).resolve().parents[1]
sys.path.insert(0, str(TOP))

from companion.ped import read_file  # noqa: E402
from companion.real import blocks, tree  # noqa: E402
from companion.real.assumptions import granted  # noqa: E402
from companion.real.calls import Calls  # noqa: E402
from companion.real.model import model_of  # noqa: E402
from companion.real.symbols import Scopes  # noqa: E402
from companion.real.units import Fault  # noqa: E402
from companion.real.verdicts import PARALLEL, Place, places_of, verdicts  # noqa: E402
from companion.tests.real_corpora import corpora  # noqa: E402
from companion.tests.real_loops import Loops  # noqa: E402
from companion.tests.support import ped  # noqa: E402

#: The classes of refusals that the first count leaves out.
_BEYOND = frozenset(["call", "function", "io", "pointer", "use"])
_FOUND = re.compile(r":(\d+):\d+: optimized: parallelizing (?:inner|outer) loop")


def by_gfortran(path: Path) -> Set[int]:
    """The lines of what gfortran runs in parallel."""
    with tempfile.TemporaryDirectory() as folder:
        words = ["gfortran", "-w", "-O2", "-ftree-parallelize-loops=4", "-fopt-info-loop-optimized", f"-J{folder}",
                 "-c", str(path), "-o", f"{folder}/x.o"]
        done = subprocess.run(
            words, check=True, stdout=subprocess.PIPE, stderr=subprocess.STDOUT, universal_newlines=True,
        )
    return {int(number) for number in _FOUND.findall(done.stdout)}


def calls_known(place: Place, calls: Calls) -> bool:
    """Whether a loop has a call of a procedure, or of a generic name, whose body is in the files."""
    scene = place.scene
    for written in place.block.statements():
        statement = written.statement
        if isinstance(statement, tree.LogicalIf) and isinstance(statement.action, tree.Call):
            statement = statement.action
        if isinstance(statement, tree.Call) and _is_known(tree.root_of(statement.procedure), False, place, calls):
            return True
        names = {name for one in written.statement.expressions() for name in _referred(one)}
        if any(scene.symbols.get(name).storage.value == "procedure" and _is_known(name, True, place, calls)
               for name in names):
            return True
    return False


def _referred(expression: tree.Expression) -> Iterator[str]:
    """The names before parentheses in an expression."""
    if isinstance(expression, tree.Reference) and isinstance(expression.base, tree.Name):
        yield expression.base.name
    for part in expression.parts():
        yield from _referred(part)


def _is_known(name: str, is_function: bool, place: Place, calls: Calls) -> bool:
    symbols = place.scene.symbols
    specifics = calls.procedures.specifics(symbols, name, is_function)
    return isinstance(specifics, list) or not isinstance(calls.procedures.find(symbols, name, is_function), str)


def called(groups: Sequence[Sequence[Path]]) -> Tuple[int, List[str]]:
    """How many loops have such calls, and those without a model, in some programs of one file or more."""
    count, missed = 0, []
    for paths in groups:
        files = [blocks.read_file(str(path), read_file(str(path))) for path in paths]
        scopes = Scopes([unit for file in files for unit in file.all_units()])
        calls = Calls(scopes, files)
        for path, file in zip(paths, files):
            others = [one for one in files if one is not file]
            for place in places_of(file, scopes, others):
                if not calls_known(place, calls):
                    continue
                count += 1
                model = model_of(place.scene, place.block, granted())
                missed += [said(path, place, f"{model.reason}: {model.words}")] if isinstance(model, Fault) else []
    return count, missed


def said(path: Path, place: Place, words: str) -> str:
    """A line about a loop that is missed."""
    return f"  {path.name}:{place.line}: {place.header}: {words}"


def main() -> None:
    """Counts, and prints what is missed."""
    parser = argparse.ArgumentParser(description=__doc__, formatter_class=argparse.RawDescriptionHelpFormatter)
    parser.add_argument("--program", required=True)
    os.environ["PEDX_PED"] = os.path.abspath(parser.parse_args().program)
    loops = modelled = beyond = fast = found = 0
    missed: List[str] = []
    slower: List[str] = []
    for path in corpora():
        read = Loops(read_file(str(path)), str(path))
        fast_lines = by_gfortran(path)
        for index, place in enumerate(read.places):
            loops += 1
            model = read.model(index)
            if not isinstance(model, Fault):
                modelled += 1
            elif model.reason in _BEYOND:
                beyond += 1
            else:
                missed.append(said(path, place, f"{model.reason}: {model.words}"))
            if place.line in fast_lines:
                fast += 1
                word = verdicts(ped(), [place], read.granted)[0].word
                found += word == PARALLEL
                slower += [] if word == PARALLEL else [said(path, place, word)]
    print(f"{loops} loops, {beyond} of them with CALL, functions, input and output, POINTER or USE")
    print(f"{modelled} of the other {loops - beyond} get a model; without one are", *missed, sep="\n")
    print(f"{found} of the {fast} DOs that gfortran runs in parallel are found; the others are", *slower, sep="\n")
    lake = sorted((TOP / "examples" / "lake").glob("*.f90"))
    count, without = called([*([path] for path in corpora()), lake])
    print(f"{count - len(without)} of {count} loops with calls get a model; without one are", *without, sep="\n")


if __name__ == "__main__":
    main()
