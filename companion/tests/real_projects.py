"""Several files at once: what is read, what is said of it, what would help, and what is written."""

import json
import os
import re
import shutil
import subprocess
from pathlib import Path
from typing import Dict, List

from ..ped import read_file as read_text
from ..real.blocks import read_file
from ..real.counted import in_order_of_modules
from ..real.project import Project, judged, sources
from ..statuses import Status
from .calling import CallingInside as Calling
from .support import TOP, ped

LAKE = "examples/lake"

MAIN = """\
program main
  use tools
  real :: a(40), b(40)
  call fill(a, 40)
  do i = 1, 40
    call work(a(i), b(i))
  end do
  do i = 1, 40
    call other(a(i))
    call work(a(i), b(i))
  end do
  do i = 1, 40
    call other(a(i))
    print *, a(i)
  end do
  print *, a(3), b(4)
end program main
"""
TOOLS = """\
module tools
contains
  subroutine fill(x, n)
    integer, intent(in) :: n
    real, intent(out) :: x(n)
    do i = 1, n
      x(i) = i
    end do
  end subroutine fill
end module tools
"""
WORK = "subroutine work(x, y)\nreal, intent(in) :: x\nreal, intent(out) :: y\ny = x * 2\nend subroutine work\n"
OTHER = "subroutine other(x)\nreal, intent(inout) :: x\nx = x + 1\nend subroutine other\n"


class Projects(Calling):
    """Calls on a folder of the test's own."""

    def project(self, **texts: str) -> str:
        """A folder with these files."""
        folder = Path(self.folder, "source")
        folder.mkdir(exist_ok=True)
        for name, text in texts.items():
            (folder / f"{name}.f90").write_text(text)
        return str(folder)

    def rows(self, *words: str) -> List[str]:
        """What `loops` prints, without what is below the table and its heading."""
        return self.ends(Status.DONE, ["loops", *words]).splitlines()


class Files(Projects):
    """Which files are read."""

    def test_a_folder(self) -> None:
        folder = self.project(main=MAIN, tools=TOOLS)
        inner = Path(folder, "inner")
        (inner / ".git").mkdir(parents=True)
        for name in ("a.F", "b.for", "c.inc", "d.c", ".e.f90", ".git/f.f90"):
            (inner / name).write_text("      END\n")
        wanted = ["main.f90", "tools.f90", "inner/a.F", "inner/b.for"]
        self.assertEqual([os.path.relpath(one, folder) for one in sources(folder)], wanted)

    def test_a_file_counts_once(self) -> None:
        folder = self.project(main=MAIN, tools=TOOLS)
        rows = self.rows(folder, folder + "/main.f90", "--with", folder)
        self.assertEqual(rows[0][:30], "2 files, 3 units, 4 loops: 1 p")

    def test_an_included_file_is_no_source_of_its_own(self) -> None:
        text = "subroutine s(a)\nreal a(9)\ninclude 'part.f90'\nend\n"
        folder = self.project(a=text, part="do i = 1, 9\na(i) = 0\nend do\n")
        rows = self.rows(folder)
        self.assertEqual(rows[0][:31], "1 file, 1 unit, 1 loop: 1 paral")

    def test_bad_words(self) -> None:
        folder = self.project(main=MAIN, tools=TOOLS)
        empty = str(Path(self.folder, "empty"))
        os.mkdir(empty)
        code = self.file("x.c", "int x;\n")
        for status, words, said in (
            (Status.NOT_READ, ["loops", empty], f"there is no Fortran source in {empty}"),
            (Status.NOT_READ, ["loops", folder, "none.f90"], "cannot read none.f90: No such file"),
            (Status.BAD_WORDS, ["loops", folder, code], f"{code} is no Fortran source; --with takes it along"),
            (Status.BAD_WORDS, ["loops", folder, "12"], "takes no numbers of loops, as 12"),
            (Status.BAD_WORDS, ["loops", folder, "--no-trials"], "takes no --no-trials"),
            (Status.BAD_WORDS, ["loops", folder, "--profile"], "takes no --profile"),
            (Status.BAD_WORDS, ["loops", folder, "--in", empty], "takes no --in"),
            (Status.BAD_WORDS, ["loops", folder, "--data", code], "takes no --data"),
            (Status.BAD_WORDS, ["loops", folder, "--jobs", "0"], "--jobs 0 leaves nobody to work"),
            (Status.BAD_WORDS, ["loops", folder, "--assume", "A99"], "A99 is no assumption"),
            (Status.BAD_WORDS, ["omp", folder], "wants -o DIR"),
            (Status.BAD_WORDS, ["omp", folder, "-o", empty, "--check"], "takes no --check"),
            (Status.BAD_WORDS, ["omp", folder, "-o", folder], "is there already"),
            (Status.BAD_WORDS, ["profile", folder + "/main.f90:5"], "as a whole"),
            (Status.NOT_READ, ["why", folder], "cannot read"),
        ):
            self.ends(status, words, said)

    def test_order_of_modules(self) -> None:
        texts = {"a": MAIN, "b": "module upper\nuse tools\nend module\n", "c": TOOLS, "d": "use none\nend\n"}
        files = [read_file(f"{name}.f90", text) for name, text in texts.items()]
        self.assertEqual(in_order_of_modules(files), [2, 0, 1, 3])
        circle = [read_file(f"{one}.f90", f"module {one}\nuse {two}\nend module\n") for one, two in (("x", "y"), ("y", "x"))]
        self.assertEqual(sorted(in_order_of_modules(circle)), [0, 1])


class Reports(Projects):
    """What is said."""

    def test_what_is_missing(self) -> None:
        folder = self.project(main=MAIN, tools=TOOLS)
        rows = self.rows(folder)
        self.assertEqual(rows[0], "2 files, 3 units, 4 loops: 1 parallel, 0 carry, 3 refused; 1 with a model")
        self.assertRegex(rows[2], r"source/main.f90 +3 +0 +0 +0 +3  3 call$")
        self.assertIn("      3  call: SUBROUTINE OTHER isn't in the files; --with FILE names more (2 loops)", rows)
        at = rows.index("what would help most:")
        self.assertEqual(rows[at + 1:at + 3], [
            "      1  --with a file that has SUBROUTINE OTHER and SUBROUTINE WORK: nothing but them is missing in this "
            "loop",
            "      1  --with a file that has SUBROUTINE WORK: nothing but it is missing in this loop",
        ])
        work = self.file("work.f90", WORK)
        rows = self.rows(folder, "--with", work)
        self.assertEqual(rows[0], "2 files, 3 units, 4 loops: 2 parallel, 0 carry, 2 refused; 2 with a model")
        self.file("other.f90", OTHER)
        rows = self.rows(folder, "--with", work, "--with", str(Path(self.folder, "other.f90")))
        self.assertEqual(rows[0][-41:], "3 parallel, 0 carry, 1 refused; 3 with a model"[-41:])
        self.assertNotIn("what would help most:", rows)

    def test_a_missing_module(self) -> None:
        text = "subroutine s(a)\nuse grids\nreal a(9)\ndo i = 1, 9\na(i) = b(i)\nend do\nend\n"
        rows = self.rows(self.project(a=text, tools=TOOLS))
        self.assertIn("      1  --with a file that has module GRIDS: nothing but it is missing in this loop", rows)

    def test_assumptions_that_help(self) -> None:
        text = read_text(str(TOP / "examples/real/daxpy.f"))
        rows = self.rows(self.file("daxpy.f", text), self.file("tools.f90", TOOLS))
        self.assertIn("      1  --assume A8 (no increment is 0): this loop would be parallel", rows)

    def test_each_loop(self) -> None:
        folder = self.project(main=MAIN, tools=TOOLS)
        rows = self.rows(folder, "--each")
        at = rows.index(f"{folder}/tools.f90: 1 loop")
        self.assertEqual(rows[at + 1:at + 3], ["         TOOLS, FILL", "      6  DO I = 1, N  parallel"])

    def test_processes_say_what_one_does(self) -> None:
        words = ["loops", "companion/tests/real/tricky.f90", "companion/tests/real/blas1.f", LAKE, "--json"]
        one = self.ends(Status.DONE, [*words, "--jobs", "1"])
        self.assertEqual(one, self.ends(Status.DONE, [*words, "--jobs", "3"]))
        found = json.loads(one)
        self.assertEqual(found["kind"], "fortran project")
        single = json.loads(self.ends(Status.DONE, ["loops", words[1], "--json"]))
        self.assertEqual(
            [loop["verdict"] for loop in found["files"][0]["loops"]], [loop["verdict"] for loop in single["loops"]]
        )

    def test_an_error_in_a_process_is_the_callers(self) -> None:
        fake = self.fake("what is this", 3)
        self.ends(Status.NO_PED, ["loops", LAKE, "--jobs", "2", "--ped", fake], "ended with status 3")

    def test_loops_in_parallel_ones(self) -> None:
        path = str(TOP / LAKE / "forces.f90")
        others = [read_file(str(one), read_text(str(one))) for one in sorted((TOP / LAKE).glob("[ks]*.f90"))]
        granted = frozenset(f"A{number}" for number in range(1, 13))
        project = Project([read_file(path, read_text(path))], others, granted)
        loops = judged(project, ped(), 1)[0].loops
        self.assertEqual([loop.is_inside for loop in loops], [False, True] * 3)


class Exports(Projects):
    """`omp` on several files."""

    def test_bytes_are_those_of_the_user(self) -> None:
        folder = self.project(main=MAIN, work=WORK.replace("\n", "\r\n"), other=OTHER)
        tools = Path(folder, "inner", "tools.f90")
        tools.parent.mkdir()
        tools.write_bytes(TOOLS.replace("x(i) = i\n", "x(i) = i ! \xe9\n").encode("latin-1"))
        out = str(Path(self.folder, "out"))
        self.ends(Status.DONE, ["omp", folder, "-o", out], "out: 3 directives in 2 of 4 files")
        for name in ("main.f90", "work.f90", "other.f90", "inner/tools.f90"):
            written = Path(out, name).read_bytes()
            lines = [line for line in written.splitlines(True) if not line.lstrip().startswith(b"!$omp")]
            self.assertEqual(b"".join(lines), Path(folder, name).read_bytes(), name)
        self.assertEqual(len(re.findall(rb"!\$omp parallel do", Path(out, "main.f90").read_bytes())), 2)

    def test_two_files_of_one_name(self) -> None:
        folder = self.project(tools=TOOLS)
        other = Path(self.folder, "tools.f90")
        other.write_text(WORK)
        words = ["omp", str(other), folder + "/tools.f90", "-o", str(Path(self.folder, "out"))]
        self.ends(Status.BAD_WORDS, words, "would both be")
        self.assertFalse(Path(self.folder, "out").exists())

    def test_the_lake_runs_as_before(self) -> None:
        if shutil.which("gfortran") is None:
            self.skipTest("gfortran isn't there")
        out = str(Path(self.folder, "out"))
        self.ends(Status.DONE, ["omp", LAKE, "-o", out, "--counts", "--data", self.file("data", "STEPS 4\nEND\n")])
        said = [self.run_lake(str(TOP / LAKE), "serial", []), self.run_lake(out, "parallel", ["-fopenmp"])]
        self.assertEqual(said[0], said[1])

    def run_lake(self, folder: str, name: str, options: List[str]) -> Dict[str, List[str]]:
        """What the lake prints and writes; the last digits of sums may differ."""
        place = Path(self.folder, name)
        place.mkdir()
        files = [read_file(path, read_text(path)) for path in sources(folder)]
        paths = [files[index].path for index in in_order_of_modules(files)]
        subprocess.run(["gfortran", "-O1", *options, *paths, "-o", "lake"], cwd=place, check=True)
        done = subprocess.run(
            ["./lake"], cwd=place, check=True, input="STEPS 20\nEND\n", stdout=subprocess.PIPE, universal_newlines=True,
            env={**os.environ, "OMP_NUM_THREADS": "3", "OMP_WAIT_POLICY": "passive"},
        )
        return {"out": done.stdout.splitlines(), "rows": (place / "lake.txt").read_text().splitlines()}
