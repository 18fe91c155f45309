#!/usr/bin/env python3
"""Measures what steps gain or cost, and whether directives make a program slower. Nothing of this is part of the gate.

    tools/gains.py            the programs of tools/gains/ with each of their scripts, as the table of docs/PERFORMANCE.md
    tools/gains.py regions    what starting the threads of a loop costs
    tools/gains.py examples   the programs of examples/ and of their scripts: without OpenMP and with it

The program ped is that of PEDX_PED, or the one beside pedx. It wants gfortran, and gcov for the examples. A time is that of a whole
run, the least of several: the runs take turns, so that other work slows all of them alike. `examples` uses the threads of
OMP_NUM_THREADS, or as many as there are processors, and ends with status 1 where a program is slower by more than a tenth (and a
millisecond, in which OpenMP is loaded).
"""
import os
import pathlib
import sys
import tempfile

TOP = pathlib.Path(__file__).resolve().parent.parent
sys.path.insert(0, str(TOP))

from companion.compilers import make, run, wanted_compiler  # noqa: E402: the path is set before
from companion.counting import counts_of  # noqa: E402
from companion.exports import export_of  # noqa: E402
from companion.openmp import Wishes, has_directive  # noqa: E402
from companion.ped import Ped, find_ped, read_file  # noqa: E402
from companion.statuses import CompanionError  # noqa: E402
from companion.tests.test_openmp import DATA  # noqa: E402
from companion.timing import timed  # noqa: E402
from companion.views import Question, open_view  # noqa: E402

#: Runs of each program of the examples, which take a few milliseconds.
RUNS = 40
#: A time counts as longer from here on, as a part of the shorter one, and with the seconds that loading OpenMP takes.
TENTH = 1.1
LOADING = 0.001

#: What `pedx omp` wishes where nothing else is said.
PAYING = Wishes(paying=True)

REGIONS = """\
      INTEGER A(1000000)
      READ *, N, M
      DO 10 I = 1, 1000000
   10 A(I) = I
      DO 20 K = 1, M
      PARALLEL DO 20 I = 1, N
   20 A(I) = A(I)*3+K
      PRINT *, A(1), A(N)
      END
"""


def exported(ped, question, wishes=Wishes(), counts=False, data=None):
    """The export of a program, or of the end of a script; by the counts of a run where these are wanted."""
    view = open_view(ped, question)
    return export_of(ped, view, wishes, None, counts_of(view, data) if counts else None)


def gains(ped):
    """The table of the programs of tools/gains/."""
    print("| Program | Steps | Before | After | 1 thread | 2 threads | 4 threads | Gain with 2 |")
    print("|---|---|---|---|---|---|---|---|")
    for path in sorted((TOP / "tools" / "gains").glob("*.f")):
        plain = exported(ped, Question(str(path)))
        before = timed(plain.text, plain.options, None, ()).serial
        for script in sorted(path.parent.glob(f"{path.stem}*.script")):
            export = exported(ped, Question(str(path), str(script)))
            times = timed(export.text, export.options, None)
            steps = ", ".join(f"`{line}`" for line in script.read_text().splitlines())
            threads = [f"{times.threads[count]:.2f}" if count in times.threads else "" for count in (1, 2, 4)]
            gain = f"{before / times.threads[2]:.1f}" if 2 in times.threads else ""
            cells = [path.stem, steps, f"{before:.2f}", f"{times.serial:.2f}", *threads, gain]
            print(f"| {' | '.join(cells)} |", flush=True)


def regions(ped):
    """What an entry of a parallel loop takes, by its statements."""
    print("| Statements an entry | Without OpenMP, us | 1 thread | 2 threads | 4 threads |")
    print("|---|---|---|---|---|")
    with tempfile.TemporaryDirectory() as folder:
        path = pathlib.Path(folder, "regions.f")
        path.write_text(REGIONS)
        export = exported(ped, Question(str(path)))
    for size in (100, 1000, 3000, 10000, 30000, 100000):
        count = min(100_000_000 // size, 50_000)
        times = timed(export.text, export.options, f"{size} {count}\n")
        row = [seconds / count * 1e6 for seconds in (times.serial, *times.threads.values())]
        print(f"| {size} | {' | '.join(f'{one:.1f}' for one in row)} |", flush=True)


def samples():
    """The examples, and the ends of their scripts, each with the data of its run."""
    for path in sorted((TOP / "examples").glob("*/*.f")):
        given = path.with_suffix(".data")
        data = str(given) if given.exists() else None
        yield Question(str(path)), data
        script = path.with_suffix(".script")
        if script.exists():
            yield Question(str(path), str(script), data), data


def least(words, exports, data):
    """The least time of each of some exports: of the first without OpenMP, of the others with it; none where a run fails."""
    with tempfile.TemporaryDirectory() as name:
        folders = [pathlib.Path(name, str(at)) for at in range(len(exports))]
        for folder, export in zip(folders, exports):
            folder.mkdir()
            options = [one for one in export.options if folder is not folders[0] or one != "-fopenmp"]
            make(words, options, folder, export.text)
        found = [9e9] * len(folders)
        for _ in range(RUNS):
            for at, folder in enumerate(folders):
                ran = run(folder, data, {})
                if ran.status != 0:
                    return None
                found[at] = min(found[at], ran.seconds)
    return found


def examples(ped):
    """Reports the examples that are slower with directives than without by more than a tenth.

    An export without directives is the program without OpenMP, compiled with the same options, so it isn't run.
    """
    words = wanted_compiler("this check")
    slower = looked = same = 0
    for question, data in samples():
        name = os.path.relpath(question.script or question.file, TOP)
        text = read_file(data) if data is not None else DATA.get(name[len("examples/"):-len(".f")])
        try:
            exports = [exported(ped, question, PAYING), exported(ped, question, PAYING, counts=True, data=text)]
        except CompanionError as error:
            print(f"{name}: passed over: {error.message.splitlines()[0]}")
            continue
        looked += 1
        directed = [one for one in exports if has_directive(one.text)]
        same += not directed
        found = least(words, [exports[0], *directed], text) if directed else [1.0]
        if found is None:
            print(f"{name}: passed over: the run ends with a fault")
        elif max(found) > TENTH * found[0] + LOADING:
            slower += 1
            times = ", ".join(f"{one*1000:.2f}" for one in found)
            print(f"{name}: in ms, without OpenMP and with it: {times}", flush=True)
    print(f"gains: {looked} programs, {same} without directives, {slower} slower with directives")
    return 1 if slower else 0


def main(words):
    kinds = {"": gains, "regions": regions, "examples": examples}
    kind = words[0] if words else ""
    if len(words) > 1 or kind not in kinds:
        print(__doc__)
        return 2
    return kinds[kind](Ped(find_ped(None))) or 0


if __name__ == "__main__":
    sys.exit(main(sys.argv[1:]))
