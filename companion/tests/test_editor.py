"""`pedx edit`, played by a user at a pseudo-terminal. What is wanted on the screen is known by hand."""

import shutil
import signal
import subprocess
import sys
import tempfile
import unittest
from pathlib import Path
from typing import List, Optional

from ..evidence.proving import knows_evidence
from ..ped import read_file
from .evidence_programs import PROGRAMS
from .screens import BACKSPACE, DOWN, ENTER, ESCAPE, INTERRUPT, TAB, Player, has_terminal
from .support import EXAMPLES, TOP, fortran, ped, view_of

#: Two loops: the scalar T keeps the second one from being parallel.
TWICE = fortran(
    "INTEGER A(5), B(5), T", "SAVE B", "DO I = 1, 5", "A(I) = I", "END DO",
    "DO I = 1, 5", "T = A(I)", "B(I) = 2*T", "END DO", "END",
)
#: Each element is that before it, and one more.
CHAIN = fortran("INTEGER A(9)", "SAVE A", "A(1) = 1", "DO I = 2, 9", "A(I) = A(I-1)+1", "END DO", "END")
#: The data say which elements are written.
SCATTER = fortran(
    "INTEGER A(9), L(2)", "SAVE A", "DO I = 1, 2", "READ *, L(I)", "END DO",
    "DO I = 1, 2", "A(L(I)) = I", "END DO", "END",
)

#: An editor of files: its arguments are a text, what comes in its place, and the file.
_EDITOR = """\
import pathlib, sys
file = pathlib.Path(sys.argv[-1])
text = file.read_text()
turns = pathlib.Path(__file__).with_suffix(".turns")
old, new, *rest = turns.read_text().splitlines()
turns.write_text("".join(line + "\\n" for line in rest))
file.write_text(text.replace(old, new))
"""


@unittest.skipUnless(has_terminal(), "the library curses is not there, or knows no VT100")
class Played(unittest.TestCase):
    """Sessions at the terminal, in a folder of their own."""

    def setUp(self) -> None:
        self.folder = tempfile.mkdtemp(prefix="pedx-test-")
        self.addCleanup(shutil.rmtree, self.folder)
        self.players: List[Player] = []

    def tearDown(self) -> None:
        for player in self.players:
            player.close()

    def path(self, name: str) -> Path:
        return Path(self.folder, name)

    def play(self, source: str, *words: str, height: int = 24, width: int = 80) -> Player:
        """Begins to edit a program."""
        self.path("p.f").write_text(source)
        player = Player(["edit", "p.f", *words], self.folder, height, width, {"EDITOR": self._editor()})
        self.players.append(player)
        player.wait("? keys")
        return player

    def _editor(self) -> str:
        self.path("editor.py").write_text(_EDITOR)
        return f"{sys.executable} {self.path('editor.py')}"

    def will_edit(self, *turns: str) -> None:
        """Says what the editor of files puts in the place of what, one turn after the other."""
        self.path("editor.turns").write_text("".join(turn + "\n" for turn in turns))

    def quit(self, player: Player) -> None:
        player.press("q")
        self.assertEqual(player.wait_for_end(), 0)

    def lines_behind(self, script: str, source: Optional[str] = None) -> List[str]:
        """The program behind a script that was saved, as ped tells it."""
        text = read_file(str(self.path(script))) + "print\n"
        replies = ped().session(source or read_file(str(self.path("p.f"))), text)
        self.assertTrue(all(reply.accepted for reply in replies[:-1]))
        return list(replies[-1].rows)


class Steps(Played):
    def test_screen(self) -> None:
        rows = self.play(TWICE).screen.rows
        self.assertEqual(rows[0].split(), ["p.f:", "0", "changes", "pedx", "edit"])
        self.assertEqual(rows[3:9], [
            "    1 >      DO I = 1, 5",
            "    2 |        A(I) = I",
            "      |      END DO",
            "    3        DO I = 1, 5",
            "    4          T = A(I)",
            "    5          B(I) = 2*T",
        ])
        self.assertTrue(rows[13].startswith(" loop 1, DO I = 1, 5: free, carries nothing"))

    def test_lists_and_places(self) -> None:
        player = self.play(TWICE)
        player.press("g")
        player.wait("2  *    3 DO I = 1, 5: carries T")
        player.press("2")
        player.wait("loop 3, DO I = 1, 5: carries T")
        player.press("V")
        player.wait("T  carried   v x  the loop carries it in 3 rows")
        player.press("v")
        player.wait("privatise 3 T: ok; loop 3 carries nothing; p makes it parallel")
        for key in ("/", "a(i) =", ENTER):
            player.press(key)
        player.wait("loop 1, DO I = 1, 5: free, carries nothing")
        for key in (":", "8", ENTER):
            player.press(key)
        player.wait("loop 3, DO I = 1, 5: free, carries nothing")
        player.press("S")
        player.wait("dependences: level=carried, by source")

    def test_advice_to_parallel(self) -> None:
        player = self.play(TWICE)
        player.press("n")
        player.wait("loop 3, DO I = 1, 5: carries T")
        self.assertEqual(player.screen.rows[14:17], [
            "   4.2  4.2  T  output  1  (<)  (*)  proven",
            "   4.2  5.1  T  flow    1  (<)  (*)  proven",
            "   5.1  4.2  T  anti    1  (<)  (*)  proven",
        ])
        player.press("a")
        player.wait("1  try `privatise 3 T`: ped accepts it")
        player.press("1")
        player.wait("privatise 3 T: ok; loop 3 carries nothing; p makes it parallel")
        player.press("p")
        player.wait("parallel 3: ok; loop 3 carries nothing")
        player.press("w")
        player.wait("save the script as p.script")
        player.press(ENTER)
        player.wait("p.script holds 2 changes and replays to this program")
        self.quit(player)
        self.assertEqual(self.path("p.script").read_text(), "privatise 3 T\nparallel 3\n")
        self.assertEqual(self.lines_behind("p.script")[5:8], [
            "      PARALLEL DO I = 1, 5", "        PRIVATE T", "        T = A(I)",
        ])

    def test_refused_step(self) -> None:
        player = self.play(CHAIN)
        player.press("p")
        rows = player.wait("parallel 2: refused edge 3.2 3.1 A flow 1 (<) (1) proven")
        self.assertIn("*   3 |        A(I) = A(I-1)+1", rows)
        player.press("v")
        player.wait("privatise 2: which scalar?")
        player.press("A", ENTER)
        player.wait("refused rule 13 NotScalar at 2")
        player.press("f")
        player.wait("fuse 2: refused")
        self.quit(player)

    def test_sums(self) -> None:
        """All scalars that the loop carries are offered first."""
        player = self.play(fortran("DO I = 1, 8", "K = K+I", "L = L-I", "END DO", "PRINT *, K, L", "END"))
        player.press("+")
        player.wait("reduce 1: which scalars does it sum up? K L")
        player.press(ENTER)
        rows = player.wait("reduce 1 K L: ok; the iterations of loop 1 may be done in any order")
        self.assertIn("C$REDUCE K", "\n".join(rows))
        player.press("u")
        player.wait("undone: reduce 1 K L")
        self.quit(player)

    def test_automatic_steps(self) -> None:
        """Each step is a change of its own."""
        player = self.play(fortran(
            "INTEGER A(8)", "DO I = 1, 8", "K = I*I", "A(I) = K", "END DO", "DO I = 2, 8", "A(I) = A(I-1)", "END DO",
            "END",
        ))
        player.press("A")
        rows = player.wait("auto: 2 steps; loop 4 left")
        self.assertIn("PRIVATE K", "\n".join(rows))
        player.press("u")
        player.wait("undone: parallel 1")
        player.press("u")
        player.wait("undone: privatise 1 K")
        self.quit(player)

    def test_evidence(self) -> None:
        """K stands in one iteration, and I is greater; a ped without the commands for evidence is told."""
        player = self.play(PROGRAMS["triangular"].source)
        player.press("n")
        player.wait("loop 2, DO I = K+1, 9: carries A")
        player.press("P")
        if not knows_evidence(ped(), view_of(PROGRAMS["triangular"].source)):
            player.wait("this ped has no command `system`")
            self.quit(player)
            return
        player.wait("parallel 2 by 2 lines of evidence: ok")
        player.press("b", "P")
        player.wait("real: K=1, I=3, K'=2, I'=3")
        player.press(ESCAPE)
        player.press("w")
        player.wait("save the script as p.script")
        player.press(ENTER)
        player.wait("p.script holds 1 change and replays to this program")
        self.quit(player)
        self.assertEqual(self.path("p.script").read_text().split("\n")[0], "parallel 2 by")

    def test_refused_fuse(self) -> None:
        """The one loop would read an element before it is written; this row isn't in the pane yet."""
        player = self.play(fortran(
            "INTEGER A(9), B(9)", "DO I = 1, 8", "A(I) = I", "END DO", "DO I = 1, 8", "B(I) = A(I+1)", "END DO", "END"
        ))
        player.press("f")
        rows = player.wait("fuse 1: refused edge 4.1 2.1 A anti 1 (<) (1) proven")
        self.assertIn("!   2 |        A(I) = I", rows)
        self.assertIn("!   4          B(I) = A(I+1)", rows)
        player.press("a")
        player.wait("-  `fuse 1`: refused edge 4.1 2.1 A anti 1 (<) (1) proven")
        player.press(ESCAPE)
        player.wait("? keys")
        self.quit(player)

    def test_distribute_and_fuse_by_advice(self) -> None:
        """A sum in the loop keeps it from being parallel; taken apart, the rest is free. Fused, it is as it was."""
        player = self.play(fortran(
            "INTEGER A(9), B(9)", "SAVE B", "DO I = 2, 9", "A(I) = A(I-1)+1", "B(I) = 2*A(I)", "END DO", "END"
        ))
        player.press("a")
        rows = player.wait("1  try `distribute 1`: ped accepts it, and makes 2 loops of it, of which 3")
        self.assertIn("     carries nothing", rows)
        player.press("1")
        player.wait("distribute 1: ok")
        player.press("a")
        player.wait("1  try `fuse 1`: ped accepts it, and makes one of loops 1 and 3, which then")
        player.press("1")
        player.wait("fuse 1: ok; loop 1 carries A")

    def test_advice_that_moves_the_loop(self) -> None:
        """Iteration 1 alone writes what all read; behind `peel` the loop has another number."""
        player = self.play(fortran("INTEGER A(9)", "DO I = 1, 9", "A(I) = A(1)+1", "END DO", "END"))
        player.press("a")
        player.wait("1  try `peel 1 first`: ped accepts it, and then `parallel 2`")
        player.press("1")
        player.wait("peel 1 first: ok; loop 2 carries nothing; p makes it parallel")
        player.press("p")
        player.wait("parallel 2: ok; loop 2 carries nothing")

    def test_steps_that_ask(self) -> None:
        player = self.play(CHAIN)
        player.press("t")
        player.wait("how many iterations in a strip? 32")
        player.press("4", ENTER)
        player.wait("strip 2 4: ok")
        player.press("u")
        player.wait("undone: strip 2 4")
        player.press("l")
        player.wait("first or last? first")
        player.press(TAB, ENTER)
        rows = player.wait("peel 2 last: ok")
        self.assertIn("    4        A(9) = A(8)+1", rows)
        player.press("k")
        player.wait("by which factor? 1")
        player.press(ESCAPE)
        player.wait("nothing was done")
        player.press("q")
        player.wait("the changes aren't saved")
        player.press("q")
        self.assertEqual(player.wait_for_end(), 0)

    def test_undo_and_redo(self) -> None:
        player = self.play(TWICE)
        player.press("u")
        player.wait("there is nothing to undo")
        player.press("p")
        player.wait("parallel 1: ok")
        player.press("r")
        player.wait("refused rule 3 ParallelState at 1")
        player.press("u")
        player.wait("undone: parallel 1")
        player.press("y")
        player.wait("done again: parallel 1")
        player.press("y")
        player.wait("there is nothing to redo")
        player.press("u")
        player.wait("undone: parallel 1")
        self.quit(player)


class Looking(Played):
    def test_filters_and_why(self) -> None:
        player = self.play(TWICE)
        player.press("n")
        player.wait("3 rows, level=carried")
        player.press("L")
        player.wait("4 rows, all")
        player.press("K")
        player.wait("2 of 4 rows, kind=flow")
        player.press("N")
        player.wait("which name?")
        player.press("t", ENTER)
        player.wait("2 of 4 rows, kind=flow name=T")
        player.press("M")
        player.wait("2 of 4 rows, kind=flow mark=proven name=T")
        player.press("0", TAB, DOWN)
        rows = player.wait("3 rows, level=carried")
        self.assertIn("^   4 |        T = A(I)", rows)
        self.assertIn("~   5 |        B(I) = 2*T", rows)
        player.press(ENTER)
        player.wait("4.2 writes")
        player.wait("T is a scalar, and all iterations use the same one")
        player.press(ESCAPE)
        player.wait("? keys")
        self.quit(player)

    def test_help_takes_keys(self) -> None:
        player = self.play(TWICE)
        player.press("?")
        player.wait("parallel    make it a PARALLEL DO")
        player.press("p")
        player.wait("parallel 1: ok")

    def test_resize(self) -> None:
        player = self.play(TWICE)
        player.resize(12, 40)
        rows = player.wait("? keys")
        self.assertEqual(len(rows), 12)
        self.assertIn("    1 >      DO I = 1, 5", rows)
        player.resize(5, 20)
        player.wait("the window is too")
        player.press("p")
        player.resize(40, 120)
        rows = player.wait("parallel 1: ok")
        self.assertIn("    1 >      PARALLEL DO I = 1, 5", rows)
        player.press("?")
        player.wait("The keys of pedx edit")
        player.resize(24, 80)
        player.wait("The keys of pedx edit")

    def test_program_without_loops(self) -> None:
        player = self.play(fortran("K = 1", "END"))
        player.press("p")
        player.wait("parallel wants a loop")
        player.press("n")
        player.wait("the program has no loops")
        player.press("a")
        player.wait("stand on a loop")
        self.quit(player)


class Editing(Played):
    def test_edit(self) -> None:
        player = self.play(CHAIN)
        self.will_edit("A(I) = A(I-1)+1", "A(I) = I")
        player.press("e")
        player.wait("replace 5 5: ok")
        player.press("p")
        player.wait("parallel 2: ok")
        player.press("w")
        player.wait("save the script as")
        player.press(ENTER)
        player.wait("replays to this program")
        self.assertEqual(self.path("p.script").read_text(), "replace 5 5\n        A(I) = I\n.\nparallel 2\n")
        self.quit(player)

    def test_broken_line(self) -> None:
        player = self.play(CHAIN)
        self.will_edit("A(I-1)+1", "A(I-1+1", "A(I-1+1", "A(I-1)+2")
        player.press("e")
        player.wait("line 5: 7 Syntax")
        player.press("e")
        player.wait("replace 5 5: ok")
        self.will_edit("END DO", "ENDE")
        player.press("e")
        player.wait("edit on, write the text to a file, or drop it?")
        player.press("d")
        player.wait("the edit was dropped")
        rows = player.screen.rows
        self.assertIn("    3 |        A(I) = A(I-1)+2", rows)

    def test_no_change(self) -> None:
        player = self.play(CHAIN)
        self.will_edit("nowhere", "nothing")
        player.press("e")
        player.wait("the edit changed nothing")
        self.quit(player)

    def test_editor_that_fails(self) -> None:
        player = self.play(CHAIN)
        self.will_edit("one line alone")
        player.press("e")
        player.wait("ended with status 1, so nothing was")
        self.quit(player)


class Runs(Played):
    def test_run_with_choices(self) -> None:
        player = self.play(fortran("PARALLEL DO I = 2, 4", "PRINT *, I", "END DO", "END"))
        player.press("R")
        player.wait("run with which choices?")
        player.press(ENTER)
        rows = player.wait("ended")
        self.assertEqual(rows[1:5], ["| 2", "| 3", "| 4", "ended"])
        player.press(ESCAPE, "R")
        player.wait("run with which choices?")
        player.press(*"2 1", ENTER)
        rows = player.wait("| 4")
        self.assertEqual(rows[1:5], ["| 4", "| 3", "| 2", "ended"])
        player.press(ESCAPE, "C")
        player.wait("race (OUT) at 2 and 2; two iterations of a PARALLEL DO use (OUT)")

    def test_reject_and_races(self) -> None:
        self.path("apart").write_text("3\n1\n")
        self.path("twice").write_text("7\n7\n")
        player = self.play(SCATTER)
        player.press("n", "p")
        player.wait("parallel 3: refused edge 4.2 4.2 A output 1 (<) (*) pending")
        player.press("j")
        player.wait("whose pending dependences aren't there? A")
        player.press(ENTER)
        player.wait("reject 3 A: ok; loop 3 carries nothing but what is rejected")
        player.press("p")
        player.wait("parallel 3: ok")
        player.press("R")
        player.wait("run with which choices?")
        player.press(ENTER)
        player.wait("fault 5 at 2: data are missing")
        for name, wanted in (
            ("apart", "no race; on these data; no rejected dependence occurs"), ("twice", "race A(7) at 4 and 4"),
        ):
            player.press("D")
            player.wait("data from which file?")
            player.press(*name, ENTER)
            player.wait(f"data: {name}")
            player.press("C")
            player.wait(f"races on {name}: {wanted}")


class Saving(Played):
    def test_begins_with_a_script(self) -> None:
        self.path("s").write_text("parallel 1\nundo\nparallel 3\nprivatise 3 T\nrun\nparallel 3\nundo\n")
        player = self.play(TWICE, "--script", "s")
        player.wait("s: 1 change; refused: 1 line")
        player.press("y")
        player.wait("done again: parallel 3")
        player.press("u")
        player.wait("undone: parallel 3")
        player.press("u")
        player.wait("undone: privatise 3 T")
        player.press("u")
        player.wait("there is nothing to undo")
        player.press("y")
        player.wait("done again: privatise 3 T")
        self.quit(player)

    def test_others_files(self) -> None:
        self.path("p.script").write_text("show\n")
        player = self.play(TWICE)
        player.press("p")
        player.wait("parallel 1: ok")
        player.press("w")
        player.wait("save the script as")
        player.press(ENTER)
        player.wait("p.script is there; write over it?")
        player.press("n")
        player.wait("nothing was written")
        self.assertEqual(self.path("p.script").read_text(), "show\n")
        player.press("w")
        player.wait("save the script as p.script")
        player.press(BACKSPACE, "2", ENTER)
        player.wait("p.scrip2 holds 1 change and replays")
        player.press("W")
        player.wait("write the program to p-new.f")
        player.press(ENTER)
        player.wait("p-new.f is written")
        self.assertEqual(self.path("p-new.f").read_text().splitlines(), self.lines_behind("p.scrip2"))
        player.press("w")
        player.wait("save the script as p.scrip2")
        player.press(*"/nowhere/x", ENTER)
        player.wait("cannot write /nowhere/x")
        self.quit(player)

    def test_terminal_goes_away(self) -> None:
        player = self.play(TWICE)
        player.press("p")
        player.wait("parallel 1: ok")
        player.signal(signal.SIGHUP)
        self.assertEqual(player.wait_for_end(), 128 + signal.SIGHUP)
        self.assertEqual(self.path("p.script.rescued").read_text(), "parallel 1\n")

    def test_interrupt(self) -> None:
        player = self.play(TWICE)
        player.press(INTERRUPT)
        player.wait("quit? (y, n)")
        player.press("n")
        player.wait("? keys")
        player.press("p")
        player.wait("parallel 1: ok")
        player.press(INTERRUPT)
        player.wait("the changes aren't saved")
        player.press("n")
        player.wait("? keys")
        player.press("q", "w")
        player.wait("save the script as")
        player.press(ENTER)
        self.assertEqual(player.wait_for_end(), 0)
        self.assertTrue(self.path("p.script").exists())

    @unittest.skipUnless(shutil.which("gfortran"), "gfortran is not there")
    def test_openmp(self) -> None:
        player = self.play(TWICE)
        player.press("p")
        player.wait("parallel 1: ok")
        player.press("O")
        player.wait("print the variables in SAVE at its end?")
        player.press("y")
        player.wait("write the OpenMP program to p-omp.f")
        player.press(ENTER)
        player.wait("gfortran -fopenmp -O2 -o p-omp p-omp.f: compile it?")
        player.press("y")
        player.wait("run it with four threads?")
        player.press("y")
        rows = player.wait("live B")
        self.assertEqual(rows[1].split(), ["live", "B", "2", "4", "6", "8", "10"])
        self.assertIn("C$OMP PARALLEL DO", self.path("p-omp.f").read_text())

    def test_doubtful_openmp(self) -> None:
        """What isn't sure is shown first, and nothing is written without a yes."""
        player = self.play(CHAIN.replace("      DO ", "      PARALLEL DO "))
        for answer, words in (("n", "nothing was written"), ("y", "write the OpenMP program to p-omp.f")):
            player.press("O")
            player.wait("print the variables in SAVE at its end?")
            player.press("n")
            player.wait("the iterations of this loop may race")
            player.press("x")
            player.wait("not all is sure of it: write it all the same?")
            player.press(answer)
            player.wait(words)
        self.assertFalse(self.path("p-omp.f").exists())
        player.press(ESCAPE)
        self.quit(player)


class Refused(Played):
    def test_no_terminal(self) -> None:
        done = subprocess.run(
            [sys.executable, str(TOP / "pedx"), "edit", str(EXAMPLES / "steps" / "order.f")], stdin=subprocess.DEVNULL,
            stdout=subprocess.DEVNULL, stderr=subprocess.PIPE, check=False,
        )
        self.assertEqual(done.returncode, 2)
        self.assertIn("edit wants a terminal", done.stderr.decode())

    def test_refused_program(self) -> None:
        self.path("p.f").write_text("      K = (1\n      END\n")
        player = Player(["edit", "p.f"], self.folder)
        self.players.append(player)
        player.wait("p.f:1:7: error: 7 Syntax")
        self.assertEqual(player.wait_for_end(), 5)


if __name__ == "__main__":
    unittest.main()
