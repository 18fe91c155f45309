"""The counts of runs: of programs whose counts are derived by hand, and what is said where there are none."""

import os
import shutil
import unittest
from concurrent.futures import ThreadPoolExecutor
from typing import Dict, List, Optional, Tuple

from ..counting import Counts, Tally, counts_of, marked
from ..lines import split_lines
from ..panes import read_panes
from ..ranges import iterations_of, most_executed
from ..statuses import Status
from ..views import view_of_panes
from .calling import Calling
from .random_programs import sample
from .support import EXAMPLES, example_view, examples, fortran, ped, view_of

#: The loops of a program by their statements: entries, iterations, and statements executed in the body.
Wanted = Dict[int, Tuple[int, int, int]]

HAS_TOOLS = shutil.which("gfortran") is not None and shutil.which("gcov") is not None
NEEDS = "gfortran or gcov isn't there, so no run is counted"


def counted(*statements: str, data: Optional[str] = None) -> Counts:
    """The counts of a program's run."""
    return counts_of(view_of(fortran(*statements)), data)


@unittest.skipUnless(HAS_TOOLS, NEEDS)
class ByHand(unittest.TestCase):
    """Programs whose counts are derived in the comments. S1, S2 .. are the numbered statements."""

    def check(self, counts: Counts, total: int, loops: Wanted) -> None:
        """The counts of all statements and of the loops are those wanted."""
        self.assertEqual(counts.loops, {number: Tally(*tally) for number, tally in loops.items()})
        self.assertEqual(counts.total, total)

    def test_rectangle(self) -> None:
        # S1 K=0: 1. S2 DO I: entered once, 3 iterations. S3 DO J: entered in each of them, 3 times, with 4 iterations
        # each, 12 in all. S4 in it: 12. S5 behind it, in DO I: 3. So DO J executes 12 statements (S4), DO I executes
        # 3 (S3) + 12 (S4) + 3 (S5) = 18, and all is 1 (S1) + 1 (S2) + 18 = 20.
        counts = counted("K = 0", "DO I = 1, 3", "DO J = 1, 4", "K = K+J", "END DO", "K = K+I", "END DO", "END")
        self.check(counts, 20, {2: (1, 3, 18), 3: (3, 12, 12)})
        self.assertEqual([counts.loops[number].executed / counts.total for number in (2, 3)], [0.9, 0.6])

    def test_triangle(self) -> None:
        # S1 READ: 1, and N is 5. S2 DO I: once, 5 iterations. S3 DO J = I, N: entered 5 times, with 5, 4, 3, 2 and 1
        # iterations, 15 in all. S4 DO L = 1, J-I: entered 15 times; for I = 1 with 0 to 4 iterations, 10 in all, for
        # I = 2 with 0 to 3, 6, then 3, 1 and 0: 20 in all. S5: 20.
        # DO L executes 20, DO J 15 + 20 = 35, DO I 5 + 35 = 40, and all is 1 + 1 + 40 = 42.
        counts = counted(
            "READ *, N", "DO I = 1, N", "DO J = I, N", "DO L = 1, J-I", "K = L", "END DO", "END DO", "END DO", "END",
            data="5\n",
        )
        self.check(counts, 42, {2: (1, 5, 40), 3: (5, 15, 35), 4: (15, 20, 20)})

    def test_conditions(self) -> None:
        # Of 1 to 10, five are even; of the five others 3 and 9 are multiples of 3; 1, 5 and 7 are left, of which 7
        # alone is greater than 6. S1 DO I: once, 10 iterations. S2 IF: 10, S3 in it: 5. S4 ELSE IF: where the first
        # condition fails, 5; S5 in it: 2. S6 IF in the ELSE: 3, S7: 1.
        # All in the body: 10 + 5 + 5 + 2 + 3 + 1 = 26, and with S1 27.
        counts = counted(
            "DO I = 1, 10", "IF (MOD(I,2).EQ.0) THEN", "K = MAX(I,3)", "ELSE IF (MOD(I,3).EQ.0) THEN", "K = MIN(I,3)",
            "ELSE", "IF (I.GT.6) K = I", "END IF", "END DO", "END",
        )
        self.check(counts, 27, {1: (1, 10, 26)})

    def test_increments_and_empty_loops(self) -> None:
        # S1 DO I = 10, 1, -3: I is 10, 7, 4, 1, so 4 iterations. S2 DO J = 1, 0: entered 4 times, no iteration; S3: 0.
        # S4 DO J = 1, 7 without a body: entered 4 times, 28 iterations, no statement. S5 DO J = I, 10, 4: for 10, 7, 4
        # and 1 it has 1 (10), 1 (7), 2 (4, 8) and 3 (1, 5, 9) iterations, 7 in all. S6 IF: 7; S7: J > 8 for 10 and 9,
        # so 2. In S5: 7 + 2 = 9. In S1: 4 (S2) + 4 (S4) + 4 (S5) + 9 = 21. All: 22.
        counts = counted(
            "DO I = 10, 1, -3", "DO J = 1, 0", "K = 1", "END DO", "DO J = 1, 7", "END DO", "DO J = I, 10, 4",
            "IF (J.GT.8) K = 2", "END DO", "END DO", "END",
        )
        self.check(counts, 22, {1: (1, 4, 21), 2: (4, 0, 0), 4: (4, 28, 0), 5: (4, 7, 9)})

    def test_stop(self) -> None:
        # S1 K=0: 1. S2 DO I: once, 6 iterations. S3 DO J = 1, 2: entered 6 times, 12 iterations, S4: 12. S5 K=K+I: 6,
        # and K is 21 then. S6 IF: 1, S7 STOP: 1, and the run ends. S8, the DO S9 and S10 in it: 0.
        # In S3: 12. In S2: 6 + 12 + 6 = 24. All: 1 + 1 + 24 + 1 + 1 = 28.
        counts = counted(
            "K = 0", "DO I = 1, 6", "DO J = 1, 2", "L = J", "END DO", "K = K+I", "END DO", "IF (K.GT.20) STOP",
            "K = 0", "DO I = 1, 3", "K = K+I", "END DO", "END",
        )
        self.check(counts, 28, {2: (1, 6, 24), 3: (6, 12, 12), 9: (0, 0, 0)})

    def test_names_and_parallel_loops(self) -> None:
        # MAX is a scalar, K0 is in use; a PARALLEL DO runs in order. S1: 1. S2 PARALLEL DO: once, 8 iterations, S3 and
        # S4: 8 each. S5 PRINT: 1. In S2: 16. All: 1 + 1 + 16 + 1 = 19.
        counts = counted(
            "IMPLICIT INTEGER (A-Z)", "DIMENSION A(8)", "MAX = 2", "PARALLEL DO I = 1, 8", "PRIVATE K0",
            "K0 = MAX(I,MAX)", "A(I) = K0", "END DO", "PRINT *, A(1)", "END",
        )
        self.check(counts, 19, {2: (1, 8, 16)})

    def test_long_statements(self) -> None:
        # A DO over several lines, and a statement in it: S1: once, 4 iterations, S2: 4. All: 5.
        header = f"      DO I = 1, {'+'.join(['1'] * 4)}"
        long = "      K = " + "+".join(["I"] * 60)
        lines = [long[:72], *(f"     &{long[at:at + 66]}" for at in range(72, len(long), 66))]
        text = "\n".join([header, *lines, "      END DO", "      END", ""])
        self.check(counts_of(view_of(text), None), 5, {1: (1, 4, 4)})


class Marks(unittest.TestCase):
    def test_places(self) -> None:
        """Each statement has its mark before it, but for ELSE IF; each loop one at the front and one at the end."""
        text = fortran(
            "DO I = 1, 9", "IF (K0.EQ.I) THEN", "K0 = 1", "ELSE IF (K0.EQ.2) THEN", "END IF", "END DO", "END"
        )
        made = marked(split_lines(text))
        self.assertEqual([line.strip() for line in made.lines], [
            "K1 = 0", "DO I = 1, 9", "K1 = 0", "K1 = 0", "IF (K0.EQ.I) THEN", "K1 = 0", "K1 = 0", "K0 = 1",
            "ELSE IF (K0.EQ.2) THEN", "K1 = 0", "END IF", "K1 = 0", "END DO", "END",
        ])
        self.assertEqual((made.before, made.fronts), ({1: 1, 2: 4, 3: 7}, {1: 3}))
        self.assertEqual((made.chained, made.places), ({4: (2, 6)}, {1: 2, 2: 5, 3: 8, 4: 9}))
        self.assertEqual(made.executed({1: 1, 3: 9, 4: 9, 6: 2, 7: 2, 10: 1}), {1: 1, 2: 9, 3: 2, 4: 7})


class Called(Calling):
    """Calls of `pedx profile`, and of the commands that take counts."""

    def program(self, *statements: str) -> str:
        """A program in the folder of the test."""
        return self.file("p.f", fortran(*statements))

    @unittest.skipUnless(HAS_TOOLS, NEEDS)
    def test_table(self) -> None:
        name = self.program(
            "INTEGER A(2000)", "READ *, N", "DO 10 I = 1, N", "10 A(I) = I", "DO 20 K = 1, 9", "DO 20 I = 2, N",
            "20 A(I) = A(I)+A(I-1)", "END",
        )
        data = self.file("data", "2000\n")
        out = self.ends(Status.DONE, ["profile", name, "--data", data])
        # S1: 1. S2: 1, S3: 2000. S4: 1, S5: 9, S6: 9 * 1999 = 17,991. In all 20,003; in S4: 18,000.
        self.assertEqual(out.splitlines(), [
            f"{name}: 20,003 statements executed",
            "   S  line  loop               entries    iterations  share  verdict",
            "   4     5  DO K = 1, 9              1             9  90.0%  carries A",
            "   5     6    DO I = 2, N            9        17,991  89.9%  carries A",
            "   2     3  DO I = 1, N              1         2,000  10.0%  free: carries nothing",
        ])
        rows = self.ends(Status.DONE, ["loops", name, "2", "--counts", "--data", data, "--no-trials"]).splitlines()
        self.assertEqual(rows, [
            "   S  line  loop             entries    iterations  share  verdict",
            "   2     3  DO I = 1, N            1         2,000  10.0%  free: carries nothing",
        ])

    @unittest.skipUnless(HAS_TOOLS, NEEDS)
    def test_no_loops(self) -> None:
        name = self.program("K = 1", "PRINT *, K", "END")
        self.assertEqual(
            self.ends(Status.DONE, ["profile", name]), f"{name}: 2 statements executed, none of them in a loop\n"
        )

    @unittest.skipUnless(HAS_TOOLS, NEEDS)
    def test_script(self) -> None:
        """With a script, the program after it is counted."""
        script = self.file("script", "privatise 3 T\nparallel 3\n")
        out = self.ends(Status.DONE, ["profile", str(EXAMPLES / "steps" / "squares.f"), "--script", script])
        self.assertIn("<source>: 17 statements executed", out)
        self.assertIn("PARALLEL DO I = 1, 5            1             5  58.8%  parallel: carries nothing", out)

    def test_missing_tools(self) -> None:
        name = self.program("K = 1", "END")
        for words in (["profile", name], ["loops", name, "--counts"], ["omp", name, "--counts"]):
            self.ends(Status.NO_COMPILER, words, "none isn't there, which counting needs; $FC names another", FC="none")
        if HAS_TOOLS:
            said = "none isn't there, which counting needs; it comes with gcc"
            self.ends(Status.NO_COMPILER, ["profile", name], said, GCOV="none")
            self.ends(Status.NO_COMPILER, ["profile", name], "false tells no counts: status 1", GCOV="false")

    def test_program_that_is_not_compiled(self) -> None:
        fake = self.file("fc", "#!/bin/sh\necho 'Error: no'\nexit 1\n")
        os.chmod(fake, 0o755)
        if shutil.which("gcov"):
            words = ["profile", self.program("K = 1", "END")]
            self.ends(Status.NO_COMPILER, words, f"{fake} doesn't compile the program:\n  Error: no\n", FC=fake)

    @unittest.skipUnless(HAS_TOOLS, NEEDS)
    def test_faults(self) -> None:
        data = self.file("data", "3\n")
        wrong = self.file("wrong", "three\n")
        subscript = self.program("INTEGER A(2)", "READ *, K", "A(K) = 1", "END")
        said = "ends with a fault at line 3, so nothing is counted: Index '3' of dimension 1 of array 'a' above upper"
        words = ["profile", subscript, "--data", data]
        self.assertEqual(self.ends(Status.FAULT, words, f"the run of {subscript} {said}"), "")
        missing = "at line 2, so nothing is counted: data are missing; --data names a file that holds them"
        self.ends(Status.FAULT, ["profile", subscript], missing)
        self.ends(Status.FAULT, ["profile", subscript, "--data", wrong], "Bad integer for item 1 in list input")
        self.ends(Status.NOT_READ, ["profile", subscript, "--data", f"{data}.none"], f"cannot read {data}.none")
        division = self.program("READ *, K", "K = 3/(K-3)", "END")
        self.ends(Status.FAULT, ["profile", division, "--data", data], "so nothing is counted: a division by zero")

    def test_other_language(self) -> None:
        name = self.file("p.f90", "end\n")
        self.ends(Status.FAULT, ["profile", name], "the run has counted nothing")
        real = self.file("p.f", "      X = 1.5\n      END\n")
        self.assertIn("1 file, 0 loops", self.ends(Status.DONE, ["profile", real], "so it is read as Fortran"))


def disagreements(seed: str) -> List[str]:
    """The loops of a random program behind its script whose counts can't be right; none where the run has a fault."""
    made = sample(seed)
    *_, shown, run = ped().session(made.program, made.script + "show\nrun\n", made.data)
    if run.fault is not None:
        return []
    view = view_of_panes(read_panes(shown.rows))
    counts = counts_of(view, made.data)
    found = []
    for loop in view.printed.loops.values():
        tally = counts.loops[loop.number]
        known, most = iterations_of(view.printed, loop), most_executed(view.printed, loop)
        if tally.iterations != (tally.iterations if known is None else known * tally.entries):
            found.append(f"loop {loop.number}: {tally}, with {known} iterations each")
        if most is not None and tally.executed > most * tally.entries:
            found.append(f"loop {loop.number}: {tally}, with at most {most} statements each")
    return found


@unittest.skipUnless(HAS_TOOLS, NEEDS)
class Examples(unittest.TestCase):
    def test_known_iterations(self) -> None:
        """Where the bounds are constants, each entry has the iterations that these give."""
        names = [name for name in examples() if "READ" not in "".join(example_view(name).panes.lines)]
        with ThreadPoolExecutor(max_workers=os.cpu_count()) as pool:
            for name, counts in zip(names, pool.map(lambda name: counts_of(example_view(name), None), names)):
                program = example_view(name).printed
                for loop in program.loops.values():
                    known = iterations_of(program, loop)
                    tally = counts.loops[loop.number]
                    with self.subTest(name, loop=loop.number):
                        if known is not None:
                            self.assertEqual(tally.iterations, known * tally.entries)

    def test_random_programs(self) -> None:
        """The counts of random programs agree with what their texts tell: known iterations, and the most statements."""
        with ThreadPoolExecutor(max_workers=os.cpu_count()) as pool:
            for seed, complaints in enumerate(pool.map(disagreements, map(str, range(40)))):
                with self.subTest(seed):
                    self.assertEqual(complaints, [])

    def test_calls(self) -> None:
        """A program with CALLs is counted as the program that it expands to."""
        view = example_view("steps/columns")
        counts = counts_of(view, None)
        self.assertEqual(sorted(counts.loops), sorted(view.program.loops))
        self.assertTrue(all(tally.entries for tally in counts.loops.values()))


if __name__ == "__main__":
    unittest.main()
