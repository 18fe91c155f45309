"""CALLs: their pane, the blocks in the source, `pedx calls`, and the keys for them. What is wanted is known by hand."""

import unittest

from ..blocks import block_at, blocks_of
from ..calls import read_calls
from ..commands.calls import calls
from ..panes import NoPane, SourceRow
from .screens import DOWN, ESCAPE, TAB
from .support import example_view, examples, fortran, has_subroutines, ped, view_of
from .test_editor import Played

#: In each iteration a CALL passes on what the CALL of the iteration before has written.
TWO = fortran(
    "INTEGER A(9)", "SAVE A", "DO 10 I = 2, 9", "CALL NEXT(A,I)", "10 K = A(I)", "END",
    "SUBROUTINE NEXT(B,J)", "INTEGER B(9)", "B(J) = B(J-1)+1", "END",
)


class Panes(unittest.TestCase):
    def test_words(self) -> None:
        found = read_calls([
            "calls 2 edges 5", "2 S(A,I)", "5 T",
            "2 2 A flow 1", "2 2 A anti 1", "2 5 K flow -", "2 7 B flow 2", "5 2 K anti 1",
        ])
        nests = {2: (1,), 5: (1,), 7: (1, 6)}
        self.assertEqual(dict(found.calls), {2: "S(A,I)", 5: "T"})
        self.assertEqual(list(found.about(2, {**nests, 2: (1, 3)})), [
            "to itself, carried by loop 1: A (flow, anti)", "to 5 T, in one iteration: K (flow)",
            "to statement 7, carried by loop 3: B (flow)", "from 5 T, carried by loop 1: K (anti)",
        ])

    def test_no_pane(self) -> None:
        for rows in (["calls 1 edges 0", "S"], ["calls 0 edges 1", "1 2 A flow"], ["calls 0 edges 1", "1 2 A input 1"]):
            with self.assertRaises(NoPane):
                read_calls(rows)


class Blocks(unittest.TestCase):
    def test_blocks_of_examples(self) -> None:
        """The blocks that are found by lines are those of the pane."""
        for name in examples():
            if has_subroutines(name):
                with self.subTest(name):
                    view = example_view(name)
                    text = "".join(line + "\n" for line in view.panes.lines)
                    found = read_calls(ped().session(text, "calls\n")[0].rows)
                    self.assertEqual({block.number: block.call for block in blocks_of(view.panes.source).values()},
                                     dict(found.calls))

    def test_what_is_none(self) -> None:
        """An ELSE, another condition and a comment further on make no block; a block may stand in another one."""
        lines = [
            (1, "IF (0.EQ.0) THEN"), (0, "C$CALL ONE"), (2, "IF (0.EQ.0) THEN"), (0, "C$CALL TWO"), (3, "K = 1"),
            (0, "END IF"), (0, "END IF"), (4, "IF (0.EQ.0) THEN"), (0, "C$CALL S"), (5, "K = 1"), (0, "ELSE"),
            (6, "K = 2"), (0, "END IF"), (7, "IF (1.EQ.1) THEN"), (0, "C$CALL S"), (8, "K = 1"), (0, "END IF"),
            (9, "IF (0.EQ.0) THEN"), (10, "K = 1"), (0, "C$CALL S"), (0, "END IF"),
        ]
        source = [
            SourceRow(line, number or None, text if text.startswith("C$") else "      " + text)
            for line, (number, text) in enumerate(lines, 1)
        ]
        blocks = blocks_of(source)
        self.assertEqual([(one.number, one.call, one.first_line, one.last_line) for one in blocks.values()],
                         [(1, "ONE", 1, 7), (2, "TWO", 3, 6)])
        self.assertEqual([getattr(block_at(blocks, line), "number", None) for line in (1, 2, 3, 6, 7, 8)],
                         [1, 1, 2, 2, 1, None])


class Command(unittest.TestCase):
    def test_table(self) -> None:
        self.assertEqual(calls(view_of(TWO), ped()).splitlines(), [
            "   S  line  CALL",
            "   2     4  NEXT(A,I)",
            "              to itself, carried by loop 1: A (flow)",
            "              to statement 4, in one iteration: A (flow)",
            "              - `inline 2`: ped accepts it",
        ])

    def test_none(self) -> None:
        self.assertEqual(calls(view_of(fortran("K = 1", "END")), ped()), "no CALLs\n")


class Keys(Played):
    def test_inline(self) -> None:
        player = self.play(TWO)
        player.press("I")
        player.wait("inline wants the block of a CALL, and the line is in none; c shows them")
        player.press(DOWN, "I")
        player.wait("inline 2: ok; loop 1 carries A")
        player.press("u")
        player.wait("undone: inline 2")
        player.press("?", " ")
        player.wait("inline      the CALL at the line")
        player.press(ESCAPE)
        player.wait("? keys")
        self.quit(player)

    def test_page(self) -> None:
        player = self.play(TWO)
        player.press("c")
        player.wait("1  2 NEXT(A,I)")
        player.wait("to itself, carried by loop 1: A (flow)")
        player.press("1")
        player.wait("inline 2: ok")
        player.press("c")
        player.wait("The program has no CALL.")
        player.press(ESCAPE)
        player.wait("? keys")
        player.press("w")
        player.wait("save the script as")
        player.press("\r")
        player.wait("holds 1 change and replays")
        self.quit(player)
        self.assertEqual(self.path("p.script").read_text(), "inline 2\n")

    def test_advice(self) -> None:
        player = self.play(fortran(
            "INTEGER A(9), B(9)", "DO 10 I = 2, 9", "10 CALL S(A,B,I)", "END",
            "SUBROUTINE S(A,B,I)", "INTEGER A(9), B(9)", "A(I) = A(I-1)+1", "B(I) = 2*A(I)", "END",
        ))
        player.press("a")
        player.wait("1  try `inline 2`: ped accepts it, and the CALL is no longer one statement")
        player.press("1")
        player.wait("inline 2: ok")


class Rejection(Played):
    def test_arrays_alone(self) -> None:
        """The scalar M, which comes first, is offered no more than B, of which a row is proven."""
        player = self.play(fortran(
            "INTEGER A(9), B(9), L(9)", "DO I = 2, 9", "IF (L(I).GT.0) M = M*L(I)", "B(I) = B(I-1)+B(L(I))",
            "A(L(I)) = M", "END DO", "PRINT *, M", "END",
        ))
        player.press("j")
        player.wait("reject 1: whose pending dependences aren't there? A")
        player.press(TAB, ESCAPE)
        player.wait("nothing was done")
        self.quit(player)


if __name__ == "__main__":
    unittest.main()
