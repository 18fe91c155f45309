"""Whole sessions of `pedx edit` on terminals of two sizes, with the mouse, with colours and without, by keys alone."""

import unittest
from typing import Dict, List, Optional, Set

from .screens import COLOURED, DOWN, ENTER, ESCAPE, TAB, Player, has_terminal
from .support import fortran
from .test_editor import Played

#: A free loop, one that carries T, a recurrence, one whose subscripts are elements of an array, and a nest with a sum.
LOOPS = fortran(
    "INTEGER A(50), B(50), L(50), T", "SAVE A, B",
    "DO I = 1, 50", "A(I) = I", "B(I) = 2*I", "L(I) = 51-I", "END DO",
    "DO I = 1, 50", "T = A(I)", "B(I) = B(I)+2*T", "END DO",
    "DO I = 2, 50", "A(I) = A(I-1)+1", "END DO",
    "DO I = 1, 50", "B(L(I)) = I", "END DO",
    "DO I = 1, 50", "DO J = 1, 50", "K = K+A(I)*B(J)", "END DO", "END DO", "PRINT *, K", "END",
)
CALLING = (
    fortran("INTEGER A(9), B(9)", "CALL FILL(A)", "CALL FILL(B)", "PRINT *, A(1), B(1)", "END")
    + fortran("SUBROUTINE FILL(X)", "INTEGER X(9)", "DO I = 1, 9", "X(I) = I", "END DO", "END")
)
SIZES = ((24, 80), (60, 200))
RED, GREEN, CYAN = 1, 2, 6


@unittest.skipUnless(has_terminal(COLOURED), f"the library curses knows no {COLOURED}")
class Coloured(Played):
    def on(self, height: int, width: int, source: str = LOOPS, variables: Optional[Dict[str, str]] = None) -> Player:
        """An editor on a terminal with colours and a mouse."""
        self.path("p.f").write_text(source)
        environment = {"TERM": COLOURED, "EDITOR": self._editor(), **(variables or {})}
        player = Player(["edit", "p.f"], self.folder, height, width, environment)
        self.players.append(player)
        player.wait("? keys")
        return player

    def kinds(self, player: Player) -> List[str]:
        """The kinds of the dependences that are shown, in their order."""
        rows = [row.split() for row in player.screen.rows]
        return [row[3] for row in rows if len(row) > 4 and row[3] in ("flow", "anti", "output")]

    def attributes(self, player: Player, line: str, text: str) -> Set[str]:
        """The attributes that all characters of a text have, in the row that has a line."""
        row = player.row_of(line)
        return set.intersection(*(set(pen.attributes) for pen in player.screen.pens(row, text)))


class WholeSessions(Coloured):
    def test_mouse(self) -> None:
        for place, size in enumerate(SIZES):
            with self.subTest(size=size):
                player = self.on(*size)
                self.look(player)
                self.change(player, *SIZES[1 - place])
                self.path("p.script").unlink()

    def look(self, player: Player) -> None:
        """Jumps by the list of loops, sorts, chooses a row by a click, has it explained, searches, and scrolls."""
        player.press("g")
        player.wait("The loops: * carries something")
        player.click("5 DO I = 1, 50: carries T")
        player.wait("loop 5, DO I = 1, 50: carries T")
        for order in ("source", "sink", "name", "kind"):
            player.press("S")
            player.wait(f"dependences: level=carried, by {order}")
        self.assertEqual(self.kinds(player), ["flow", "anti", "output"])
        player.click("6.2  7.")
        rows = player.wait("^   6 |        T = A(I)")
        self.assertIn("~   7 |        B(I) = B(I)+2*T", rows)
        for line, text in (("T = A(I)", "T"), ("B(I) = B(I)+2*T", "T")):
            self.assertLessEqual({"underlined", "bold"}, self.attributes(player, line, text))
        self.assertNotIn("underlined", self.attributes(player, "B(I) = B(I)+2*T", "B(I)+"))
        player.press(ENTER)
        player.wait("Why this dependence is there")
        player.wait("T is a scalar, and all iterations use the same one")
        player.click("Why this dependence is there")
        player.wait("? keys")
        player.press("K")
        player.wait("rows, level=carried kind=flow, by kind")
        player.press("/")
        player.wait("the next line that has")
        player.press(*"a(i-1)", ENTER)
        player.wait("loop 8, DO I = 2, 50: carries A")
        self.assertIn("level=carried, by kind", "\n".join(player.screen.rows))
        player.click("DO I = 2, 50")
        player.turn_wheel(down=True)
        player.wait("loop 10, DO I = 1, 50: carries B")
        player.turn_wheel(down=False)
        player.wait("loop 8, DO I = 2, 50: carries A")

    def change(self, player: Player, height: int, width: int) -> None:
        """Rejects, makes parallel, goes back and forth in the changes, privatises, saves, quits; the size changes."""
        player.press(":")
        player.wait("go to line")
        player.press(*"15", ENTER)
        player.wait("loop 10, DO I = 1, 50: carries B")
        player.press("j")
        player.wait("whose pending dependences aren't there? B")
        player.press(ENTER)
        player.wait("reject 10 B: ok; loop 10 carries nothing but what is rejected")
        player.press("p")
        player.wait("parallel 10: ok")
        player.resize(height, width)
        rows = player.wait("parallel 10: ok")
        self.assertEqual(len(rows), height)
        player.press("H")
        player.wait("2 parallel 10  <- here")
        player.click("the program as it was")
        player.wait("no change: the program is as it was")
        self.assertIn("0 changes", player.screen.rows[0])
        player.press("H")
        player.wait("2 parallel 10  (undone)")
        player.press(DOWN, DOWN, ENTER)
        player.wait("change 2 is the last one: parallel 10")
        player.press(":")
        player.wait("go to line")
        player.press(*"9", ENTER)
        player.wait("loop 5, DO I = 1, 50: carries T")
        player.press("V")
        player.wait("T  carried   v x")
        player.press("v")
        player.wait("privatise 5 T: ok; loop 5 carries nothing; p makes it parallel")
        player.press("w")
        player.wait("save the script as p.script")
        player.press(ENTER)
        player.wait("p.script holds 3 changes and replays to this program")
        self.quit(player)
        self.assertEqual(self.path("p.script").read_text(), "reject 10 B\nparallel 10\nprivatise 5 T\n")

    def test_keys_alone(self) -> None:
        """The same on a terminal that has neither colours nor a mouse."""
        for height, width in SIZES:
            with self.subTest(size=(height, width)):
                player = self.play(LOOPS, height=height, width=width)
                player.press("g")
                player.wait("2  *    5 DO I = 1, 50: carries T")
                player.press(DOWN, ENTER)
                player.wait("loop 5, DO I = 1, 50: carries T")
                player.press(TAB, DOWN)
                player.wait("~")
                row = player.row_of("T = A(I)")
                pens = player.screen.pens(row, player.screen.rows[row])
                self.assertIn("underlined", {name for pen in pens for name in pen.attributes})
                player.press("V")
                player.wait("T  carried   v x")
                player.press(ENTER)
                player.wait("dependences: name=T")
                player.press("V")
                player.wait("T  carried   v x")
                player.press("x")
                player.wait("expand 5 T: ok")
                player.press("H")
                player.wait("1 expand 5 T  <- here")
                player.press("1")
                player.wait("no change: the program is as it was")
                self.assertEqual({pen.colour for row in player.screen.all_pens() for pen in row}, {None})
                self.quit(player)


class Colours(Coloured):
    def test_verdicts_and_marks(self) -> None:
        """DOs by their verdicts, rows by their marks, over the terminal's own background."""
        player = self.on(60, 200)
        player.press("n")
        player.wait("loop 5, DO I = 1, 50: carries T")
        for text, colour in (("    1        DO I = 1, 50", GREEN), ("    8        DO I = 2, 50", RED)):
            row = player.row_of(text)
            self.assertEqual({pen.colour for pen in player.screen.pens(row, text.strip())}, {colour})
        row = player.row_of("6.2  7.")
        self.assertEqual({pen.colour for pen in player.screen.pens(row, "flow")}, {RED})
        player.press("b")
        player.wait("loop 1, DO I = 1, 50: free")
        player.press("p")
        player.wait("parallel 1: ok")
        player.press("n")
        player.wait("loop 5")
        row = player.row_of("PARALLEL DO I = 1, 50")
        self.assertEqual({pen.colour for pen in player.screen.pens(row, "PARALLEL DO")}, {CYAN})
        player.press("g")
        player.wait("The loops:")
        row = player.row_of("8 DO I = 2, 50: carries A")
        self.assertEqual({pen.colour for pen in player.screen.pens(row, "carries A")}, {RED})
        self.assertEqual({pen.behind for row in player.screen.all_pens() for pen in row}, {None})

    def test_none(self) -> None:
        player = self.on(24, 80, variables={"NO_COLOR": "1"})
        self.assertEqual({pen.colour for row in player.screen.all_pens() for pen in row}, {None})


class Mouse(Coloured):
    def test_pages(self) -> None:
        """The wheel scrolls a page; a click on its first or last row closes it, and on another one does nothing."""
        player = self.on(12, 60)
        player.press("?")
        player.wait("The keys of pedx edit")
        player.turn_wheel(down=True)
        player.wait("rows 4 to 13")
        player.click("advice: what ped accepts")
        player.wait("rows 4 to 13")
        player.click("The keys of pedx edit")
        player.wait("? keys")

    def test_calls(self) -> None:
        """A click on a CALL inlines it."""
        player = self.on(24, 80, CALLING)
        player.press("c")
        player.wait("The CALLs, and what depends on them")
        player.click("4 FILL(B)")
        player.wait("inline 4: ok")
        self.assertIn("1 change, not saved", player.screen.rows[0])


class OneScreen(Coloured):
    def test_help(self) -> None:
        """At 80 columns and 24 rows the help needs no scrolling; nor does it at 200 and 60."""
        for height, width in SIZES:
            player = self.on(height, width)
            player.press("?")
            rows = player.wait("The keys of pedx edit")
            text = "\n".join(rows)
            self.assertNotIn("rows 1 to", text)
            for words in ("interchange", "all changes, to go to one", "gives it up", "inline", "filter"):
                self.assertIn(words, text)
            player.press(ESCAPE)
            player.wait("? keys")


if __name__ == "__main__":
    unittest.main()
