"""Exports of random programs, compiled by gfortran and run, compared with what ped's `run` shows.

Each program goes through a session, is translated, compiled, and run with 1, 2 and 4 threads. A program that has a race
on its data is run with one thread alone, and one that meets a fault is only compiled. By hand:

    PEDX_PED=PROGRAM python3 -m companion.tests.random_exports --seed 7 --count 1000

Most programs are compiled together, as subroutines of one program: that takes a fifth of the time. Where such a bundle
isn't compiled, or prints something else, each of its programs is compared alone, and this decides.
"""

from __future__ import annotations

import argparse
import os
import subprocess
import sys
import tempfile
from collections import Counter
from concurrent.futures import ThreadPoolExecutor
from pathlib import Path
from random import Random
from typing import Dict, Iterator, List, NamedTuple, Optional, Sequence, Set, Tuple

from ..exports import Export, export_of
from ..lines import split_lines
from ..openmp import Wishes
from ..panes import read_panes
from ..ped import ENCODING
from ..statuses import ProgramRefused
from ..views import view_of_panes
from .random_programs import Sample, sample
from .support import fortran, is_wanted, ped

_ENVIRONMENT = {"OMP_WAIT_POLICY": "passive", "OMP_DYNAMIC": "false"}
_SECONDS = 300
_THREADS = (1, 2, 4)
_SHIM = Path(__file__).with_name("threads.c")
#: How many programs are compiled together. Every one of so many is compiled alone besides, with its own options.
_BUNDLE = 20
_ALONE = 10


class How(NamedTuple):
    """How programs are compared: further options of gfortran, and the object file of `threads.c` for the sanitizer."""

    options: Sequence[str] = ()
    sanitizer: Optional[str] = None


class Outcome(NamedTuple):
    """What came of a sample: a word for it, and what is wrong, with the program; nothing where all is well."""

    seed: str
    word: str
    complaint: str = ""


class Prepared(NamedTuple):
    """A sample after its session: a word for its run, the rows of the run, and its export."""

    seed: str
    made: Sample
    word: str
    rows: Tuple[str, ...]
    export: Export

    @property
    def threads(self) -> Sequence[int]:
        """With how many threads it is to be run."""
        return {"fine": _THREADS, "race": _THREADS[:1]}.get(self.word, ())


def prepared(seed: str) -> Prepared:
    """Makes the sample of a seed, carries its script out, and translates what comes of it."""
    made = sample(seed)
    *_, shown, run, races = ped().session(made.program, made.script + "show\nrun\nraces\n", made.data)
    view = view_of_panes(read_panes(shown.rows))
    export = export_of(ped(), view, Wishes(live=True, every=Random(seed).random() < 0.3))
    word = "fault" if run.fault is not None else "fine" if races.race is None else "race"
    return Prepared(seed, made, word, run.rows, export)


def outcomes(seeds: Sequence[str], how: How, jobs: int) -> Iterator[Outcome]:
    """Compares the samples of some seeds, bundle by bundle."""
    bundles = [seeds[at:at + _BUNDLE] for at in range(0, len(seeds), _BUNDLE)]
    with ThreadPoolExecutor(jobs) as pool:
        for bundle in pool.map(lambda bundle: list(_compared(bundle, how)), bundles):
            yield from bundle


def _compared(seeds: Sequence[str], how: How) -> Iterator[Outcome]:
    ready: List[Prepared] = []
    for seed in seeds:
        try:
            ready.append(prepared(seed))
        except ProgramRefused as refusal:
            yield Outcome(seed, "refused", f"{refusal.message}\n{refusal.source}")
    agreeing = _agreeing(ready, how) if how.sanitizer is None else set()
    for number, one in enumerate(ready):
        if one.seed in agreeing and number % _ALONE:
            yield Outcome(one.seed, one.word)
        else:
            yield compared(one, how if number % _ALONE else how._replace(options=()))


# One program alone

def compared(one: Prepared, how: How) -> Outcome:
    """Compares the runs of one program."""
    with tempfile.TemporaryDirectory(prefix="pedx-test-") as folder:
        complaint = "".join(_complaints(folder, one, how))
    if complaint:
        complaint += f"\n{one.made.program}\n{one.made.script}\n{one.export.text}"
    return Outcome(one.seed, one.word, complaint)


def _complaints(folder: str, one: Prepared, how: How) -> Iterator[str]:
    Path(folder, "p.f").write_bytes(one.export.text.encode(ENCODING))
    complaint = compiled(folder, [*one.export.options, *how.options, "-o", "p", "p.f"])
    if complaint:
        yield complaint
        return
    for count in one.threads:
        printed = executed(folder, one.made.data, count)
        if not is_wanted(printed, one.rows):
            yield f"{count} threads:\n{printed}\nped:\n" + "\n".join(one.rows)
            return
    if how.sanitizer is not None and len(one.threads) > 1:
        yield _sanitized(folder, one, how.sanitizer)


def compiled(folder: str, words: Sequence[str]) -> str:
    """Compiles, and answers what the compiler says where it refuses the program."""
    done = subprocess.run(
        ["gfortran", *words], cwd=folder, stdout=subprocess.PIPE, stderr=subprocess.STDOUT, check=False
    )
    return done.stdout.decode(ENCODING) if done.returncode != 0 else ""


def executed(folder: str, data: str, threads: int) -> str:
    """What the compiled program prints, on standard error too."""
    done = subprocess.run(
        ["./p"], cwd=folder, input=data.encode(ENCODING), stdout=subprocess.PIPE, stderr=subprocess.STDOUT, check=False,
        env={**os.environ, **_ENVIRONMENT, "OMP_NUM_THREADS": str(threads)}, timeout=_SECONDS,
    )
    return done.stdout.decode(ENCODING)


# Many programs together

def _agreeing(ready: Sequence[Prepared], how: How) -> Set[str]:
    """The seeds of those programs that print what ped shows, compiled together."""
    with tempfile.TemporaryDirectory(prefix="pedx-test-") as folder:
        options = sorted({option for one in ready for option in one.export.options})
        for number, one in enumerate(ready):
            Path(folder, f"{number}.data").write_text(one.made.data)
        Path(folder, "p.f").write_bytes(_bundle(ready).encode(ENCODING))
        if compiled(folder, [*options, *how.options, "-o", "p", "p.f"]):
            return set()
        agreeing = {one.seed for one in ready}
        for count in _THREADS:
            printed = _parts(executed(folder, "", count))
            agreeing.difference_update(
                one.seed for number, one in enumerate(ready)
                if count in one.threads and not is_wanted(printed.get(number, ""), one.rows)
            )
        return agreeing


def _bundle(ready: Sequence[Prepared]) -> str:
    """The programs as subroutines, each with its own file of data, and a program that calls them."""
    calls = ["INTEGER OMP_GET_MAX_THREADS", "N = OMP_GET_MAX_THREADS()"]
    units = []
    for number, one in enumerate(ready):
        units.append(_subroutine(f"ZZQ{number}", one.export.text))
        if one.threads:
            calls += [f"IF (N.LE.{one.threads[-1]}) THEN", f"PRINT *, '== {number}'"]
            calls += [f"OPEN (5, FILE='{number}.data')", f"CALL ZZQ{number}", "END IF"]
    return fortran(*calls, "END") + "".join(units)


def _subroutine(name: str, text: str) -> str:
    """A program as a subroutine."""
    lines = split_lines(text)
    first = next(index for index, line in enumerate(lines) if line.startswith(" "))
    if lines[first].split()[0] == "PROGRAM" and "=" not in lines[first]:
        del lines[first]
    return "".join(line + "\n" for line in [f"      SUBROUTINE {name}", *lines])


def _parts(printed: str) -> Dict[int, str]:
    """What each of the subroutines has printed, by its number."""
    parts: Dict[int, List[str]] = {}
    number = -1
    for line in printed.splitlines():
        if line.startswith(" == "):
            number = int(line[4:])
        else:
            parts.setdefault(number, []).append(line)
    return {number: "\n".join(lines) for number, lines in parts.items()}


# The thread sanitizer

def _sanitized(folder: str, one: Prepared, sanitizer: str) -> str:
    """What the thread sanitizer says of a run with four threads."""
    complaint = linked_for_sanitizer(folder, one.export.options, sanitizer)
    printed = complaint or executed(folder, one.made.data, _THREADS[-1])
    return f"the thread sanitizer:\n{printed}" if complaint or "ThreadSanitizer" in printed else ""


def linked_for_sanitizer(folder: str, options: Sequence[str], sanitizer: str) -> str:
    """Compiles and links for the sanitizer, and answers what the compiler says where it refuses the program."""
    complaint = compiled(folder, [*options, "-O1", "-g", "-fsanitize=thread", "-c", "-o", "p.o", "p.f"])
    return complaint or compiled(folder, ["-fsanitize=thread", "-o", "p", "p.o", sanitizer])


def sanitizer_in(folder: str) -> str:
    """Compiles `threads.c` into an object file in a folder."""
    target = str(Path(folder, "threads.o"))
    subprocess.run(["gcc", "-O1", "-g", "-fsanitize=thread", "-c", "-o", target, str(_SHIM)], check=True)
    return target


def main() -> int:
    """Compares as many samples as are wished; the status is 1 where one of them differs."""
    parser = argparse.ArgumentParser(description="Compares exports of random programs with ped's run.")
    parser.add_argument("--seed", type=int, default=1)
    parser.add_argument("--first", type=int, default=0, help="the number of the first sample")
    parser.add_argument("--count", type=int, default=100)
    parser.add_argument("--jobs", type=int, default=1)
    parser.add_argument("--options", default="", help="further options of gfortran, as -O0")
    parser.add_argument("--sanitize", action="store_true", help="run under the thread sanitizer, too")
    options = parser.parse_args()
    words: Counter[str] = Counter()
    seeds = [f"{options.seed}/{number}" for number in range(options.first, options.first + options.count)]
    with tempfile.TemporaryDirectory(prefix="pedx-test-") as folder:
        how = How(options.options.split(), sanitizer_in(folder) if options.sanitize else None)
        for number, outcome in enumerate(outcomes(seeds, how, options.jobs), 1):
            words[outcome.word] += 1
            if outcome.complaint:
                words["DIFFERENT"] += 1
                print(f"== {outcome.seed}: {outcome.word}\n{outcome.complaint}", flush=True)
            if number % 100 == 0 or number == len(seeds):
                print(f"seed {options.seed}: {number} of {len(seeds)}: {dict(sorted(words.items()))}", flush=True)
    return 1 if words["DIFFERENT"] else 0


if __name__ == "__main__":
    sys.exit(main())
