#!/usr/bin/env python3
"""Runs the edits of companion/tests/real/mutants.txt: each of them has to make a test of the companion fail.

    tools/real-mutants.py --program PROGRAM [--jobs N] [--all] [NUMBER ..]

PROGRAM is the built program ped. An edit is applied to a copy of the companion, and the tests that the table names for
it are run there, up to the first that fails; with --all every test of real Fortran. NUMBERs choose edits, counted from
1. The status is 0 only where each edit made a test fail. Nothing here is part of the gate, which checks only that
each edit applies: a run takes some minutes.
"""

import argparse
import os
import shutil
import subprocess
import sys
import tempfile
from concurrent.futures import ThreadPoolExecutor
from pathlib import Path
from typing import List, Tuple

TOP = Path(__file__).resolve().parents[1]
sys.path.insert(0, str(TOP))

from companion.tests.mutants import Mutant, mutants  # noqa: E402

#: A test that runs for longer than this is taken to fail: an edit may make a loop endless.
_SECONDS = 900


def outcome(mutant: Mutant, program: str, all_tests: bool) -> Tuple[bool, str]:
    """Whether a test fails with an edit, and what is said of it."""
    with tempfile.TemporaryDirectory() as folder:
        top = Path(folder)
        shutil.copytree(TOP / "companion", top / "companion", ignore=shutil.ignore_patterns("__pycache__"))
        for other in TOP.iterdir():
            if other.name not in ("companion", ".git"):
                (top / other.name).symlink_to(other)
        target = top / "companion" / "real" / mutant.file
        target.write_text(mutant.applied(target.read_text()))
        environment = {**os.environ, "PEDX_PED": program, "PYTHONDONTWRITEBYTECODE": "1"}
        for words in [["discover", "-s", "companion/tests", "-t", ".", "-p", "*real_*.py"]] if all_tests else [
            [f"companion.tests.{test}"] for test in mutant.tests
        ]:
            try:
                done = subprocess.run(
                    [sys.executable, "-m", "unittest", "-f", *words], cwd=folder, env=environment, timeout=_SECONDS,
                    stdout=subprocess.PIPE, stderr=subprocess.STDOUT, universal_newlines=True, check=False,
                )
            except subprocess.TimeoutExpired:
                return True, f"{' '.join(words)} doesn't end"
            if done.returncode:
                return True, f"{words[0]} fails: {_last_line(done.stdout)}"
    return False, "no test fails"


def _last_line(text: str) -> str:
    found: List[str] = [line for line in text.splitlines() if "Error" in line]
    return found[-1][:90] if found else ""


def main() -> int:
    """Runs the edits that are asked for."""
    parser = argparse.ArgumentParser(description=__doc__, formatter_class=argparse.RawDescriptionHelpFormatter)
    parser.add_argument("--program", required=True)
    parser.add_argument("--jobs", type=int, default=4)
    parser.add_argument("--all", action="store_true")
    parser.add_argument("numbers", nargs="*", type=int)
    words = parser.parse_args()
    program = os.path.abspath(words.program)
    chosen = [(number, one) for number, one in enumerate(mutants(), 1) if not words.numbers or number in words.numbers]
    survivors = 0
    with ThreadPoolExecutor(words.jobs) as pool:
        said = pool.map(lambda pair: outcome(pair[1], program, words.all), chosen)
        for (number, mutant), (fails, text) in zip(chosen, said):
            survivors += not fails
            print(f"{number:3} {'ok      ' if fails else 'SURVIVES'} {mutant.file}: {mutant.words} {text}", flush=True)
    print(f"{len(chosen)} edits, {survivors} without a test that fails")
    return 1 if survivors else 0


if __name__ == "__main__":
    sys.exit(main())
