"""`pedx check`: refusals, warnings, lines of scripts, faults and races."""

import tempfile
import unittest
from pathlib import Path
from typing import List, Optional, Tuple

from ..commands.check import check
from ..ped import ENCODING
from ..refusals import REFUSALS
from ..statuses import Status
from ..suspects import suspect
from ..views import Question
from .support import fortran, ped


class Check(unittest.TestCase):
    def check(
        self, source: str, script: Optional[str] = None, data: Optional[str] = None, runs: bool = False,
        strict: bool = False,
    ) -> Tuple[List[str], Status]:
        """What is said, without the folder in front of names, and the status."""
        with tempfile.TemporaryDirectory(prefix="pedx-test-") as folder:
            names = {}
            for name, text in (("p.f", source), ("script", script), ("data", data)):
                if text is not None:
                    names[name] = str(Path(folder, name))
                    Path(folder, name).write_bytes(text.encode(ENCODING))
            question = Question(names["p.f"], names.get("script"), names.get("data"))
            report = check(ped(), question, runs or script is not None or data is not None, strict)
            return report.text.replace(f"{folder}/", "").splitlines(), report.status


class Programs(Check):
    def test_nothing_to_say(self) -> None:
        self.assertEqual(self.check(fortran("K = 1", "END")), ([], Status.DONE))

    def test_refused(self) -> None:
        rows, status = self.check(fortran("DO 10 I = 1, 5", "10 I = I+1", "END"))
        self.assertIs(status, Status.PROGRAM_REFUSED)
        self.assertEqual(rows[0], f"p.f:2:7: error: 11 IndexAssigned: {REFUSALS[11].rule}: I")
        self.assertEqual(rows[1:3], ["    2 |    10 I = I+1", "      |       ^"])
        self.assertEqual(rows[3], f"p.f:2:7: note: {REFUSALS[11].instead}")

    def test_subroutines(self) -> None:
        rows, status = self.check(fortran("CALL S(5)", "END", "SUBROUTINE S(I)", "I = I+1", "END"))
        self.assertIs(status, Status.PROGRAM_REFUSED)
        self.assertEqual(rows[0], f"p.f:1:7: error: 22 Arguments: {REFUSALS[22].rule}")
        rows, status = self.check(fortran("CALL S(K)", "END", "SUBROUTINE S(I)", "I = 1", "END"))
        self.assertEqual((rows, status), ([], Status.DONE))

    def test_no_lines(self) -> None:
        rows, status = self.check("")
        self.assertIs(status, Status.PROGRAM_REFUSED)
        self.assertTrue(rows[0].startswith("p.f:1:1: error: 9 OpenBlock: "), rows)
        self.assertEqual(rows[2], "p.f: note: there is no main program: the file has no statement")

    def test_no_main_program(self) -> None:
        rows, _ = self.check(fortran("SUBROUTINE S(I)", "I = 1", "END"))
        self.assertEqual(rows[-1], (
            "p.f: note: there is no main program: the file begins with another unit; the main program comes first, and "
            "ends with END"
        ))
        rows, _ = self.check(fortran("SUBROUTINES = 1", "I = (1", "END"))
        self.assertNotIn("no main program", "\n".join(rows))

    def test_free_form(self) -> None:
        """Each line would be refused; the first one is enough."""
        rows, status = self.check("program p\ninteger :: a(5)\n! a\ndo i = 1, 5\n  a(i) = i\nend do\nend program\n")
        self.assertIs(status, Status.PROGRAM_REFUSED)
        self.assertEqual([row for row in rows if "error" in row], [rows[0]])
        self.assertTrue(rows[-1].startswith("p.f: note: this looks like free form; "), rows)
        comments = "C A & B &\nCALL OF ALL\n"
        for fixed in (" K = 1\n" + fortran("L = 2", "M = 3", "END"), comments + fortran("K = (1", "END")):
            rows, _ = self.check(fixed)
            self.assertNotIn("free form", "\n".join(rows))

    def test_past_column_72(self) -> None:
        source = "      K = 1" + " " * 61 + "+ 2\nC" + " " * 80 + "COMMENT\n      END\n"
        warning = "p.f:1:73: warning: text past column 72 isn't read: + 2"
        self.assertEqual(self.check(source), ([warning], Status.DONE))
        self.assertEqual(self.check(source, strict=True), ([warning], Status.WARNING))
        rows, status = self.check("      K = (1" + " " * 60 + ")\n      END\n")
        self.assertTrue(rows[0].startswith("p.f:1:73: warning: "))
        self.assertTrue(rows[1].startswith("p.f:1:7: error: 7 Syntax: "))
        self.assertIs(status, Status.PROGRAM_REFUSED)

    def test_all_refusals(self) -> None:
        """Those of lines come first, then those of statements, and those of names."""
        rows, _ = self.check(fortran(
            "INTEGER A(5)", "K = 1; L = 2", "DO 10 I = 1, 5", "I = 7", "10 A(I) = B", "B = A(1,2)", "GO TO 20", "C = B",
            "END",
        ))
        told = [row.split(": ")[0] + ":" + row.split(": ")[2] for row in rows if ": error: " in row]
        self.assertEqual(told, [
            "p.f:2:12:5 BadCharacter", "p.f:4:7:11 IndexAssigned", "p.f:7:7:8 NotInProfile", "p.f:5:14:14 RealName",
            "p.f:6:11:17 RankDiffers", "p.f:8:7:14 RealName",
        ])
        self.assertFalse([row for row in rows if "perhaps" in row])
        self.assertEqual(
            rows[-1], "p.f: note: ped names the first of these; the others come once those before are repaired"
        )

    def test_other_digits(self) -> None:
        """A raised 2 is a digit to Python, but no number."""
        rows, status = self.check(fortran("K = \xb2", "L = 10\xb2", "END") + " \xb9    M = 3\n")
        self.assertIs(status, Status.PROGRAM_REFUSED)
        self.assertTrue(rows[0].startswith("p.f:1:11: error: 5 BadCharacter: "), rows)

    def test_refusals_that_may_come_of_others(self) -> None:
        """`INTEGR` may be meant to declare A, and nothing else can tell."""
        rows, _ = self.check(fortran("INTEGR A(5)", "B = 1", "STOP", "END"))
        self.assertTrue(rows[0].startswith("p.f:1:7: error: 7 Syntax: "))
        self.assertTrue(rows[4].endswith(": B (perhaps only because of line 1)"), rows)

    def test_open_blocks(self) -> None:
        """What is open gets its end, so that names are looked at."""
        rows, _ = self.check(fortran("DO 10 I = 1, 5", "IF (I.EQ.2) THEN", "DO J = 1, 3", "X = I"))
        self.assertEqual([row.split(": ")[0] for row in rows if ": error: " in row], ["p.f:4:7"] * 2)
        self.assertIn("14 RealName", rows[-5])

    def test_tab(self) -> None:
        """Behind a tab the statement is looked at as compilers do that know tabs."""
        rows, _ = self.check("\tDO I = 1, 3\n\tI = 1\n\tEND DO\n\tEND\n")
        told = [row.split(": ")[0] + ":" + row.split(": ")[2] for row in rows if ": error: " in row]
        self.assertEqual(told, [f"p.f:{line}:1:1 Tab" for line in range(1, 5)] + ["p.f:2:7:11 IndexAssigned"])

    def test_real_names(self) -> None:
        """The name is told wherever it stands; a SAVE without a list stands for all names of its unit."""
        for lines, line, name in (
            (("SAVE", "K = 1", "X = Y", "END"), 1, "X"), (("SAVE L, XS", "K = 1", "END"), 1, "XS"),
            (("DIMENSION N(3), FIELD(9)", "END"), 1, "FIELD"), (("PARAMETER (N=3, SIZE=4)", "END"), 1, "SIZE"),
            (("INTEGER A(WIDE)", "END"), 1, "WIDE"), (("CALL A(N,R)", "END", "SUBROUTINE A(I,J)", "END"), 1, "R"),
            (("CALL A(N)", "END", "SUBROUTINE A(V)", "END"), 3, "V"),
            (("INTEGER X", "X = 1", "CALL S", "END", "SUBROUTINE S", "X = 2", "END"), 6, "X"),
        ):
            with self.subTest(lines):
                row, *_ = self.check(fortran(*lines))[0]
                self.assertTrue(row.startswith(f"p.f:{line}:") and row.endswith(f": {name}"), row)

    def test_second_real_name_of_save(self) -> None:
        rows, _ = self.check(fortran("SAVE", "X = Y", "END"))
        self.assertEqual([row.split(": ")[-1] for row in rows if ": error: " in row], ["X", "Y"])

    def test_limits(self) -> None:
        """Of too many statements the first one too many is enough."""
        rows, _ = self.check(fortran(*["K = 1"] * 4010, "END"))
        self.assertEqual(len([row for row in rows if ": error: " in row]), 1)
        self.assertEqual(rows[-1], "p.f: note: there may be more, which can't be told yet")

    def test_parallel_loops(self) -> None:
        rows, _ = self.check(fortran("INTEGER A(9)", "PARALLEL DO 10 I = 2, 9", "10 A(I) = A(I-1)", "END"))
        self.assertEqual(rows, [
            "p.f:2:7: warning: the iterations of this PARALLEL DO may race: it carries dependences of A"
        ])

    def test_untidy_loops(self) -> None:
        rows, _ = self.check(fortran(
            "INTEGER A(9)", "SAVE I", "PARALLEL DO 10 I = 1, 9", "J = I", "DO 10 J = 1, 5", "10 A(I) = J", "END"
        ))
        self.assertIn(
            "p.f:3:7: warning: this PARALLEL DO isn't tidy: statement 2 in it assigns J, the variable of a loop", rows
        )
        self.assertIn(
            "p.f:3:7: warning: this PARALLEL DO isn't tidy: I is in SAVE, and nothing after the loop assigns it", rows
        )
        rows, _ = self.check(fortran("SAVE I", "PARALLEL DO 10 I = 1, 9", "10 CONTINUE", "I = 5", "END"))
        self.assertEqual(rows, [])

    def test_idle_directives(self) -> None:
        rows, _ = self.check("      INTEGER A(9)\nC$PED REJECT A\n" + fortran("DO 10 I = 1, 9", "10 A(I) = I", "END"))
        self.assertEqual(rows, [
            "p.f:2:1: warning: this directive rejects nothing: loop 1 carries nothing pending of A"
        ])


class Runs(Check):
    def test_no_accident(self) -> None:
        rows, status = self.check(fortran("K = 1", "END"), runs=True)
        self.assertEqual(rows, ["p.f: note: the program runs without a fault and without a race"])
        self.assertIs(status, Status.DONE)

    def test_fault(self) -> None:
        rows, status = self.check(fortran("INTEGER A(3)", "READ *, K", "A(K) = 1", "END"), data="4\n")
        self.assertEqual(rows, [
            "p.f:3:7: error: fault 2 at statement 2: a subscript lies outside its bounds",
            "    3 |       A(K) = 1",
            "      |       ^^^^^^^^",
        ])
        self.assertIs(status, Status.FAULT)

    def test_no_data(self) -> None:
        rows, status = self.check(fortran("READ *, K", "END"), runs=True)
        self.assertEqual((rows, status), (["p.f: note: the program reads data, and none are given"], Status.DONE))

    def test_race(self) -> None:
        rows, status = self.check(fortran("PARALLEL DO 10 I = 1, 2", "10 K = I", "PRINT *, K", "END"), runs=True)
        self.assertEqual(rows[:3], [
            "p.f:2:7: error: race: two iterations of a PARALLEL DO use K, at statements 2 and 2",
            "    2 |    10 K = I",
            "      |       ^ statement 2",
        ])
        self.assertIs(status, Status.RACE)


class Scripts(Check):
    SOURCE = fortran("INTEGER A(3)", "K = 3", "A(K) = 1", "END")

    def test_refused_lines(self) -> None:
        rows, status = self.check(self.SOURCE, script="undo\nredo\nreplace 2 2\n      K = 2\n      X = 1\n.\n")
        self.assertEqual(rows[:3], [
            "script:1:1: error: refused NothingToUndo: there is no step back",
            "script:2:1: error: refused NothingToRedo: there is no step forward",
            "script:5:1: error: refused BadEdit 14 RealName at 3: in the program that the edit makes "
            + REFUSALS[14].rule,
        ])
        self.assertEqual(rows[3:], [
            "p.f: note: the last program of the script runs without a fault and without a race"
        ])
        self.assertIs(status, Status.LINE_REFUSED)

    def test_faults_of_runs(self) -> None:
        """A `run` that meets a fault is told with the lines of the program as it was then."""
        rows, status = self.check(self.SOURCE, script="replace 2 2\nC\n      K = 4\n.\nrun\nundo\nraces\n")
        self.assertEqual(rows, [
            "script:5:1: error: fault 2 at statement 2: a subscript lies outside its bounds",
            "    4 |       A(K) = 1",
            "      |       ^^^^^^^^",
            "p.f: note: the last program of the script runs without a fault and without a race",
        ])
        self.assertIs(status, Status.FAULT)

    def test_open_edit(self) -> None:
        rows, status = self.check(self.SOURCE, script="run\ninsert 2\n      K = 9\n")
        self.assertTrue(rows[0].startswith("script:2:1: error: refused BadCommand: "), rows)
        self.assertIs(status, Status.LINE_REFUSED)

    def test_race_behind_a_script(self) -> None:
        rows, status = self.check(
            fortran("DO 10 I = 1, 2", "10 K = I", "END"), script="replace 1 1\n      PARALLEL DO I = 1, 2\n.\n"
        )
        self.assertTrue(rows[0].startswith("<source>:2:9: error: race: "), rows)
        self.assertIs(status, Status.RACE)


class Rejected(Check):
    """Rejected dependences that occur in a run: here where N is less than 9."""

    SOURCE = fortran(
        "INTEGER A(9), B(9)", "SAVE A", "READ *, N", "DO 5 I = 1, 9", "A(I) = 0", "5 B(I) = MOD(I,N)+1"
    ) + "C$PED REJECT A\n" + fortran("DO 10 I = 1, 9", "10 A(B(I)) = I", "END")
    WORDS = "two iterations of the loop at statement 5 use A(2)"
    MARKS = ["      |       ^^^^^^^ statement 6", "      |       ~~~~~~~ statement 6"]

    def test_occurs(self) -> None:
        rows, status = self.check(self.SOURCE, data="3\n")
        self.assertEqual(rows, [
            "p.f: note: the program runs without a fault and without a race",
            f"p.f:9:7: error: a rejected dependence occurs: {self.WORDS}", "    9 |    10 A(B(I)) = I", *self.MARKS,
        ])
        self.assertIs(status, Status.OCCURS)

    def test_occurs_in_no_run(self) -> None:
        rows, status = self.check(self.SOURCE, data="9\n")
        self.assertEqual(rows[1:], ["p.f: note: no rejected dependence occurs in the run"])
        self.assertIs(status, Status.DONE)

    def test_programs_of_a_script(self) -> None:
        """Each program that the script passes is looked at; what it refuses makes none."""
        script = "peel 5 first\nparallel 6\nparallel 5\nundo\n"
        rows, _ = self.check(self.SOURCE, script=script, data="9\n")
        self.assertEqual(rows[-1], "p.f: note: no rejected dependence occurs in the runs of 4 programs")
        rows, status = self.check(self.SOURCE, script="insert 1\nC$PED REJECT A\n.\nparallel 5\n", data="3\n")
        self.assertIn(f"<source>:10:9: error: a rejected dependence occurs, after line 4 of script: {self.WORDS}", rows)
        self.assertIs(status, Status.RACE)

    def test_fault(self) -> None:
        """Of a run with a fault nothing more is said."""
        rows, status = self.check(self.SOURCE, data="0\n")
        self.assertEqual(
            rows[-1], "p.f: note: it can't be told whether a rejected dependence occurs: the run meets a fault"
        )
        self.assertIs(status, Status.FAULT)


class Suspects(unittest.TestCase):
    """The column and the name of a refusal."""

    def test_places(self) -> None:
        for number, line, texts, column, name in (
            (1, 1, ["\tK = 1"], 1, None),
            (2, 1, [" L = 2"], 2, None),
            (3, 2, ["      K = 1", "     &+1"], 6, None),
            (5, 1, ["      K = 1; L = 2"], 12, None),
            (7, 1, ["        K = "], 9, None),
            (11, 2, ["      DO 10 I = 1, 2", "      READ *, J, I"], 18, "I"),
            (14, 1, ["      K = TOTAL+1"], 11, "TOTAL"),
            (14, 2, ["      INTEGER TOTAL", "      IF (TOTAL.GT.REST) K = 1"], 20, "REST"),
            (14, 1, ["      DO 10 X = 1, 2"], 13, "X"),
            (17, 2, ["      INTEGER A(3,3)", "      K = A(1)"], 11, "A"),
            (17, 1, ["      K = L(1)"], 11, "L"),
            (9, 9, ["      K = 1"], 1, None),
        ):
            place, found = suspect(texts, number, line)
            self.assertEqual((place.column, found), (column, name), texts)


if __name__ == "__main__":
    unittest.main()
