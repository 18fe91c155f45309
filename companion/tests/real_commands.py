"""Calls of pedx on real Fortran: words, statuses, tables, explanations, directives; nothing of a user's is lost."""

import json
import os
import shutil
import stat
import unittest
from pathlib import Path
from typing import List

from ..ped import ENCODING
from ..statuses import Status
from .calling import CallingInside as Calling
from .support import TOP, ped

HEAT = "examples/real/heat.f90"
DAXPY = "examples/real/daxpy.f"
LEGACY = "examples/real/legacy.f"

FREE = """\
program p
  integer :: i, n = 9
  real :: a(9), s
  s = 0
  do i = 1, n
    a(i) = i
    s = s + a(i)
  end do
  do i = 2, n
    a(i) = a(i - 1)
  end do
  print *, s, a
end program p
"""


def without_directives(text: str) -> str:
    """A text without the lines that `omp` has put in."""
    return "".join(line for line in text.splitlines(True) if not line.lstrip(" ").upper().startswith("!$OMP"))


class Tables(Calling):
    """`loops` and `json`."""

    def test_a_file_in_free_form(self) -> None:
        rows = self.ends(Status.DONE, ["loops", HEAT]).splitlines()
        self.assertEqual(rows[0], f"{HEAT}: 3 units, 6 loops: 3 parallel, 3 carry, 0 refused")
        self.assertEqual(rows[7], "     25  DO J = 1, M       parallel: PRIVATE(D), REDUCTION(MAX:DIFF)")
        self.assertEqual(rows[-1][:18], "assumed: A1 no oth")

    def test_a_file_that_ped_refuses(self) -> None:
        note = f"pedx: note: {DAXPY} is no program of ped's profile (7 Syntax at 1), so it is read as Fortran; --profile"
        rows = self.ends(Status.DONE, ["loops", DAXPY], note).splitlines()
        self.assertEqual(rows[0], f"{DAXPY}: 1 unit, 3 loops: 2 parallel, 1 carries, 0 refused")

    def test_a_program_of_the_profile_as_fortran(self) -> None:
        out = self.ends(Status.DONE, ["loops", "examples/panes/recurrence.f", "--real"])
        self.assertIn("     4  DO I = 2, 10      carries A\n", out)

    def test_what_is_no_program_at_all(self) -> None:
        name = self.file("notes.txt", "# Notes\n\nThis is no program.\n")
        self.ends(Status.PROGRAM_REFUSED, ["loops", name], f"{name}:1:1: error: 2 BadLabel")

    def test_chosen_loops(self) -> None:
        for words in (["loops", HEAT + ":27"], ["loops", HEAT, "27"]):
            rows = self.ends(Status.DONE, words).splitlines()
            self.assertEqual([row[:7].strip() for row in rows[1:4]], ["line", "", "26"], words)
        words = ["loops", HEAT, "3"]
        self.ends(Status.BAD_WORDS, words, f"line 3 of {HEAT} is in no DO; the nearest are at 11, 25, 26")
        name = self.file("p.f90", "end\n")
        self.ends(Status.BAD_WORDS, ["loops", name + ":1"], "is in no DO; the file has none")

    def test_words(self) -> None:
        for words, said in (
            (["--script", HEAT], "takes no --script"), (["--printed"], "takes no --printed"),
            (["--no-trials"], "takes no --no-trials"), (["--assume", "A99"], "A99 is no assumption"),
            (["--assume", "1", "--deny", "A1"], "A1 can't be both assumed and denied"), (["--columns", "99"], "usage"),
        ):
            self.ends(Status.BAD_WORDS, ["loops", HEAT, *words], said)
        self.ends(Status.BAD_WORDS, ["omp", HEAT, "--all"], "takes no --all")
        self.ends(Status.BAD_WORDS, ["omp", HEAT, "--live"], "takes no --live")
        self.ends(Status.BAD_WORDS, ["why", HEAT, "--statement", "1"], "takes no --statement")
        self.ends(Status.NOT_READ, ["loops", "none.f90"], "cannot read none.f90")
        self.ends(Status.NOT_READ, ["loops", "none.f90:3"], "cannot read none.f90")

    def test_assumptions(self) -> None:
        out = self.ends(Status.DONE, ["loops", DAXPY, "--assume", "A8"])
        self.assertIn("     12  DO I = 1, N       parallel: LINEAR(IX:INCX), LINEAR(IY:INCY)\n", out)
        self.assertIn("A8 no increment is 0", out)
        out = self.ends(Status.DONE, ["loops", DAXPY + ":20", "--deny", "A1"])
        self.assertIn("refused: assumption: the loop is parallel if A1 holds, which isn't granted", out)
        out = self.ends(Status.DONE, ["loops", HEAT + ":25", "--exact"])
        self.assertIn("carries DIFF\n", out)

    def test_forms(self) -> None:
        name = self.file("p.txt", FREE)
        self.assertIn("2 loops", self.ends(Status.DONE, ["loops", name, "--real", "--form", "free"]))
        long = " " * 6 + "A(I) = B(I)" + " " * 60 + "+ A(I-1)\n"
        text = "      SUBROUTINE S(A, B)\n      REAL A(9), B(9)\n      DO I = 2, 9\n" + long + "      END DO\n      END\n"
        name = self.file("q.f", text)
        self.assertIn("parallel", self.ends(Status.DONE, ["loops", name + ":3"]))
        self.assertIn("carries A", self.ends(Status.DONE, ["loops", name + ":3", "--columns", "132"]))

    def test_included_files(self) -> None:
        name = self.file("p.f90", "subroutine s(a)\ninclude 'decl.inc'\ndo i = 1, n\na(i) = 0\nend do\nend\n")
        self.assertIn("refused: include", self.ends(Status.DONE, ["loops", name]))
        folder = Path(self.folder, "inc")
        folder.mkdir()
        (folder / "decl.inc").write_text("parameter (n = 9)\nreal a(n)\n")
        out = self.ends(Status.DONE, ["loops", name, "-I", str(folder)])
        self.assertIn("parallel", out)
        self.assertIn("A5", out)

    def test_json(self) -> None:
        short = json.loads(self.ends(Status.DONE, ["loops", "--json", HEAT]))
        self.assertEqual((short["kind"], short["form"], short["file"]), ("fortran", "free", HEAT))
        self.assertEqual([one["line"] for one in short["loops"]], [11, 25, 26, 32, 42, 43])
        self.assertNotIn("model", short["loops"][1])
        full = json.loads(self.ends(Status.DONE, ["json", HEAT]))
        self.assertIn("DO J = 1, M", full["loops"][1]["model"])
        self.assertEqual(full["loops"][4]["rows"][0]["name"], "U")
        target = str(Path(self.folder, "out.json"))
        self.ends(Status.DONE, ["json", HEAT, "-o", target])
        self.assertEqual(json.loads(Path(target).read_text()), full)

    def test_bytes_of_other_encodings(self) -> None:
        path = Path(self.folder, "p.f90")
        path.write_bytes(FREE.replace("program p\n", "program p ! caf\xe9\n", 1).encode("latin-1"))
        self.assertIn("2 loops", self.ends(Status.DONE, ["loops", str(path)]))


class Explanations(Calling):
    """`why` and `model`."""

    maxDiff = None

    def test_a_loop_that_carries(self) -> None:
        out = self.ends(Status.DONE, ["why", HEAT + ":42", "--kind", "flow"])
        self.assertEqual(out, f"""\
{HEAT}:44: flow of U from line 44 to line 44, carried by DO J of line 42, pending
   44 |         u(i, j) = 0.25*(u(i-1, j) + u(i+1, j) + u(i, j-1) + u(i, j+1))
      |         ^^^^^^^ writes
      |                                                 ~~~~~~~~~ reads, 1 iteration of DO J later
      subscript 1: I against I, strong SIV, distance 0 in DO I
      subscript 2 decides: J against J-1, strong SIV, distance 1 in DO J
      pending: the bounds of DO J and I aren't constant
""")

    def test_a_parallel_loop(self) -> None:
        out = self.ends(Status.DONE, ["why", HEAT + ":25"])
        self.assertEqual(out.splitlines()[:4], [
            f"{HEAT}:25: DO J = 1, M is parallel: PRIVATE(D), REDUCTION(MAX:DIFF)",
            "      D: each iteration assigns it before it reads it, and nothing needs its value after the loop",
            "      DIFF: MAX alone changes it, so each thread may gather a part of it",
            "      W: no two iterations use one element that one of them assigns",
        ])
        self.assertIn("assumed: A1 no other name for what is changed; A2", out)

    def test_a_refused_loop(self) -> None:
        out = self.ends(Status.DONE, ["why", LEGACY + ":6"])
        self.assertEqual(
            out, f"{LEGACY}:6: DO I = 1, MIN(N,50) is refused: equivalence: A and B share storage (line 4)\n"
        )

    def test_a_further_assumption(self) -> None:
        out = self.ends(Status.DONE, ["why", DAXPY + ":12", "--name", "dy", "--kind", "output"])
        self.assertIn("subscript 1: IY against IY: IY isn't affine, so nothing is excluded\n", out)
        self.assertIn("IX, IY: induction variables; with --assume A8 (INCX, INCY aren't 0) the loop is parallel\n", out)

    def test_no_row(self) -> None:
        self.assertEqual(self.ends(Status.DONE, ["why", HEAT, "--name", "none"]), f"{HEAT}: no such row\n")

    def test_all_loops(self) -> None:
        out = self.ends(Status.DONE, ["why", HEAT])
        for line in (12, 25, 26, 32, 44):
            self.assertIn(f"{HEAT}:{line}: ", out)

    def test_a_file_that_is_included(self) -> None:
        folder = Path(self.folder)
        (folder / "body.inc").write_text("a(i) = a(i - 1)\n")
        name = self.file("p.f90", "subroutine s(a, n)\nreal a(n)\ndo i = 2, n\ninclude 'body.inc'\nend do\nend\n")
        out = self.ends(Status.DONE, ["why", name + ":3"])
        self.assertIn(f"{folder / 'body.inc'}:1: flow of A from line 1 to line 1, carried by DO I of line 3", out)
        self.assertIn("    1 | a(i) = a(i - 1)\n      | ^^^^ writes\n", out)

    def test_models(self) -> None:
        out = self.ends(Status.DONE, ["model", HEAT + ":42"])
        self.assertIn("U(I,J) = U(I-1,J)+U(I+1,J)+U(I,J-1)+U(I,J+1)\n", out)
        self.assertTrue(ped().show(out).dependences)
        words = ["model", LEGACY, "6"]
        self.assertEqual(self.ends(Status.PROGRAM_REFUSED, words, f"{LEGACY}:6: error: the loop has no model: equi"), "")


class Directives(Calling):
    """`omp` without its check."""

    def test_all_but_the_directives_is_the_users(self) -> None:
        for name in (HEAT, DAXPY, LEGACY, "examples/real/dgefa.f", "examples/real/bodies.f90"):
            text = (TOP / name).read_text()
            out = self.ends(Status.DONE, ["omp", name])
            self.assertEqual(without_directives(out), text)
            self.assertNotEqual(out, text)

    def test_line_ends_and_bytes(self) -> None:
        for text in (FREE, FREE.replace("\n", "\r\n"), FREE.rstrip("\n"), FREE.replace("p\n", "p ! \xe9\xff\n", 1)):
            path = Path(self.folder, "p.f90")
            path.write_bytes(text.encode(ENCODING))
            target = Path(self.folder, "q.f90")
            self.ends(Status.DONE, ["omp", str(path), "-o", str(target)])
            written = target.read_bytes().decode(ENCODING)
            self.assertEqual(without_directives(written), text)
            end = "\r\n" if "\r" in text else "\n"
            self.assertIn(f"  !$omp parallel do reduction(+:s){end}  do i = 1, n", written)
            self.assertEqual(path.read_bytes().decode(ENCODING), text)

    def test_messages(self) -> None:
        name = self.file("p.f90", FREE)
        done = self.call("omp", name, "-o", os.devnull)
        self.assertEqual(done.stderr.splitlines(), [
            f"{name}:5: note: !$omp parallel do reduction(+:s) (assumes A3, A9, A12)",
            "pedx: note: assumed: A3 32 bits; A9 grouping of REAL reductions; A12 no errors (docs/REAL.md)",
            "pedx: note: /dev/null: 1 directive, for 1 of 2 loops",
        ])
        self.assertIn("no directives, for 0 of 2 loops", self.call("omp", name, "--exact").stderr)

    def test_in_place(self) -> None:
        name = self.file("p.f90", FREE)
        os.chmod(name, 0o640)
        wanted = self.ends(Status.DONE, ["omp", name])
        self.assertEqual(self.ends(Status.DONE, ["omp", name, "--in-place"]), "")
        self.assertEqual(Path(name).read_text(), wanted)
        self.assertEqual(stat.S_IMODE(os.stat(name).st_mode), 0o640)
        # A second call finds the directives and leaves all as it is.
        self.ends(Status.DONE, ["omp", name, "--in-place"], "no directive")
        self.assertEqual(Path(name).read_text(), wanted)

    def test_the_users_file_is_written_over_only_where_asked(self) -> None:
        name = self.file("p.f90", FREE)
        link = str(Path(self.folder, "link.f90"))
        os.symlink(name, link)
        for target in (name, link, os.path.join(self.folder, ".", "p.f90")):
            self.ends(Status.BAD_WORDS, ["omp", name, "-o", target], "names")
            self.assertEqual(Path(name).read_text(), FREE)
        self.ends(Status.BAD_WORDS, ["omp", name, "-o", "x", "--in-place"], "-o names another file")

    def test_chosen_loops(self) -> None:
        out = self.ends(Status.DONE, ["omp", HEAT, "--at", "26"])
        self.assertIn("      !$omp parallel do private(d) reduction(max:diff)\n      do i = 1, n", out)
        self.assertEqual(out.count("!$omp"), 1)
        self.ends(Status.BAD_WORDS, ["omp", HEAT, "--at", "42"], "the loop of line 42 gets no directive: carries U")
        self.ends(Status.BAD_WORDS, ["omp", HEAT, "--at", "26", "--at", "25"], "the loop of line 26 is inside another one")

    def test_loops_that_are_left_out(self) -> None:
        name = self.file("p.f90", "pure subroutine s(a)\nreal, intent(out) :: a(9)\ndo i = 1, 9\na(i) = 0\nend do\nend\n")
        out = self.ends(Status.DONE, ["omp", name], f"{name}:3: note: parallel, but gets no directive: its procedure is PURE")
        self.assertEqual(out, Path(name).read_text())
        self.ends(Status.BAD_WORDS, ["omp", name, "--at", "3"], "gets no directive: its procedure is PURE")

    def test_conditional_last_values(self) -> None:
        text = "subroutine s(a, t)\nreal a(9), t\ndo i = 1, 9\nif (a(i) > 0) t = a(i)\nend do\nend\n"
        name = self.file("p.f90", text)
        self.assertNotIn("!$omp", self.ends(Status.DONE, ["omp", name]))
        self.assertIn("lastprivate(conditional:t)", self.ends(Status.DONE, ["omp", name, "--openmp", "5.0"]))


@unittest.skipUnless(shutil.which("gfortran"), "gfortran isn't there")
class Checks(Calling):
    """`omp --check`: compiled programs before and after."""

    def test_a_program(self) -> None:
        said = "gfortran -fopenmp compiles it; 5 runs with up to 4 threads agree with the serial run"
        out = self.ends(Status.DONE, ["omp", HEAT, "--check"], said)
        # What is written has no SCHEDULE; only what is run has one.
        self.assertNotIn("schedule", out)

    def test_a_file_without_a_program(self) -> None:
        self.ends(Status.DONE, ["omp", DAXPY, "--check"], "the file has no main program, so nothing was run")
        main = self.file("main.f90", (
            "program m\ndouble precision x(99), y(99)\nx = 1\ny = 2\ncall daxpy(99, 3d0, x, 1, y, 1)\nprint *, y\nend\n"
        ))
        self.ends(Status.DONE, ["omp", DAXPY, "--check", "--with", main], "agree with the serial run")

    def fails(self, lines: List[str], said: str, *words: str) -> None:
        """A check fails, and nothing is written."""
        name = self.file("p.f90", "".join(line + "\n" for line in lines))
        target = Path(self.folder, "q.f90")
        self.assertEqual(self.ends(Status.DIFFERS, ["omp", name, "--check", "-o", str(target), *words], said), "")
        self.assertFalse(target.exists())

    def test_another_name_for_what_is_changed(self) -> None:
        """A1 doesn't hold: the dummies are one array, shifted by one."""
        self.fails([
            "program p", "integer :: a(0:4000)", "a = 0", "a(0) = 7", "call s(a(1:), a, 4000)", "print *, sum(a)",
            "contains", "subroutine s(x, y, n)", "integer :: n, i, x(n), y(n)", "do i = 1, n", "x(i) = y(i)", "end do",
            "end subroutine", "end program",
        ], "differs at line 1 of standard output")

    def test_subscripts_beyond_bounds(self) -> None:
        """A2 doesn't hold."""
        self.fails([
            "program p", "integer :: a(9, 9), i, k", "a = 0", "k = 12", "do i = 1, 2", "a(k, i) = i", "end do",
            "print *, a(1:3, 2)", "end program",
        ], "with -fcheck=bounds the run without directives ends with status 2: A2 doesn't hold")

    def test_programs_that_dont_compile(self) -> None:
        self.fails(["program p", "implicit none", "do i = 1, 2", "x(i) = 1", "end do", "end"], "doesn't compile the file")

    def test_programs_that_fail(self) -> None:
        self.fails(["program p", "stop 3", "end"], "ends with status 3, so nothing is compared")

    def test_data_and_files(self) -> None:
        """Standard input comes from --data, and the files that a program writes are compared, in a folder of their own."""
        name = self.file("p.f90", (
            "program p\ninteger :: a(100), i, n\nread *, n\ndo i = 1, 100\na(i) = i*n\nend do\n"
            "open (7, file='out.txt')\nwrite (7, *) a\nend\n"
        ))
        data = self.file("data", "3\n")
        self.ends(Status.DONE, ["omp", name, "--check", "--data", data], "agree with the serial run")
        self.ends(Status.DIFFERS, ["omp", name, "--check"], "so nothing is compared")
        self.assertFalse((TOP / "out.txt").exists())

    def test_lines_that_differ_anyway(self) -> None:
        name = self.file("p.f90", (
            "program p\ninteger(8) :: c\ninteger :: a(9)\ndo i = 1, 9\na(i) = i\nend do\ncall system_clock(c)\n"
            "print *, a\nprint *, c\nend\n"
        ))
        self.ends(Status.DONE, ["omp", name, "--check"], "1 line")

    def test_no_compiler(self) -> None:
        done = self.call("omp", HEAT, "--check", environment={"FC": "/nowhere/fc"})
        self.assertEqual(done.returncode, Status.DIFFERS)
        self.assertIn("pedx: error: cannot start /nowhere/fc: ", done.stderr)


if __name__ == "__main__":
    unittest.main()
