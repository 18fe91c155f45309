"""What the editor is made of, without a terminal: changes, filters, the desk, and pictures of it."""

import unittest
from typing import List

from ..editor.advice import Advice, advice_page, advised
from ..editor.changes import NoChange, edit_between
from ..editor.desk import Desk
from ..editor.filters import Filters
from ..editor.keys import help_lines
from ..editor.lists import changes_list, loops_list, scalars_of, variables_list
from ..editor.pictures import LEAST_HEIGHT, LEAST_WIDTH, Painter, first_shown, folded
from ..editor.session import Present, Session
from ..outline import outline_of
from ..output import visible
from .support import example_view, examples, fortran, ped, view_of

NEST = fortran(
    "INTEGER A(9,9)", "DO I = 2, 9", "K = I", "DO J = 2, 9", "A(I,J) = A(I-1,J)+K", "END DO", "END DO",
    "DO I = 1, 9", "A(I,1) = 0", "END DO", "END",
)


def desk_of(source: str) -> Desk:
    return Desk(Present(ped().show(source)))


class Edits(unittest.TestCase):
    def test_least_edit(self) -> None:
        old = ["A", "B", "C", "B"]
        self.assertEqual(edit_between(old, old), ())
        self.assertEqual(edit_between(old, ["A", "X", "C", "B"]), ("replace 2 2", "X", "."))
        self.assertEqual(edit_between(old, ["A", "B", "B"]), ("delete 3 3",))
        self.assertEqual(edit_between(old, ["A", "B", "C", "B", "B"]), ("insert 4", "B", "."))
        self.assertEqual(edit_between(old, ["X", *old]), ("insert 0", "X", "."))
        self.assertEqual(edit_between(old, []), ("delete 1 4",))

    def test_repeated_lines(self) -> None:
        """What both have at the front isn't taken again at the back."""
        self.assertEqual(edit_between(["B", "B"], ["B"]), ("delete 2 2",))
        self.assertEqual(edit_between(["B"], ["B", "B", "B"]), ("insert 1", "B", "B", "."))

    def test_period(self) -> None:
        with self.assertRaises(NoChange):
            edit_between(["A"], ["A", "."])


class Outlines(unittest.TestCase):
    def test_loops_of_examples(self) -> None:
        """The loops that are found by lines are those that are found by reading all statements."""
        for name in examples():
            with self.subTest(name):
                view = example_view(name)
                outline = outline_of(view.panes.source)
                self.assertEqual(
                    [(loop.number, loop.variable, loop.parallel, loop.nest, loop.last)
                     for loop in outline.loops.values()],
                    [(loop.number, loop.variable, loop.form.parallel, loop.nest, loop.last)
                     for loop in view.printed.loops.values()],
                )
                for row in view.dependences:
                    carrier = view.carrier(row)
                    self.assertEqual(outline.carrier(row), carrier.number if carrier is not None else None)


class Desks(unittest.TestCase):
    def test_loops(self) -> None:
        desk = desk_of(NEST)
        self.assertEqual(desk.line, 2)
        numbers: List[int] = []
        for _ in range(3):
            assert desk.loop is not None
            numbers.append(desk.loop.number)
            desk.go_to_loop(True)
        self.assertEqual(numbers, [1, 3, 5])
        self.assertEqual(desk.message, "there is no further loop")
        desk.go_to_loop(False)
        desk.move(1)
        desk.go_out()
        assert desk.loop is not None
        self.assertEqual(desk.loop.number, 3)
        desk.go_out()
        self.assertEqual(desk.loop.number, 1)

    def test_ends(self) -> None:
        desk = desk_of(NEST)
        desk.move(-100)
        self.assertEqual((desk.line, desk.loop), (1, None))
        desk.move(100)
        self.assertEqual(desk.line, 11)

    def test_filters(self) -> None:
        """K: flow to the inner loop and the like; A: one row from one row of the table to the next."""
        desk = desk_of(NEST)
        self.assertEqual({row.name for row in desk.rows}, {"A", "K"})
        desk.filters = Filters().with_name("a")
        self.assertEqual([row.row for row in desk.rows], ["4.3 4.1 A flow 1 (<,=) (1,0) proven"])
        desk.filters = desk.filters.with_next_mark().with_next_mark()
        self.assertEqual(desk.filters.words, "level=carried mark=pending name=A")
        self.assertEqual(desk.rows, [])

    def test_filters_end_with_the_loop(self) -> None:
        """Another loop shows what it carries; the order of the rows stays, and a step at the loop changes nothing."""
        desk = desk_of(NEST)
        desk.filters = Filters(kind="flow", order="name")
        desk.move(1)
        self.assertEqual(desk.filters.kind, "flow")
        session = Session(ped(), NEST)
        session.step("privatise 1 K")
        desk.put(session.present, 1)
        self.assertEqual(desk.filters, Filters(kind="flow", order="name"))
        desk.go_to_loop(True)
        self.assertEqual(desk.filters, Filters(order="name"))

    def test_place_in_a_changed_program(self) -> None:
        """The present line stays where the program was changed above it or below."""
        desk, session = desk_of(NEST), Session(ped(), NEST)
        session.step("privatise 1 K")
        for line in (1, 2, 9):
            desk.go(line)
            text = desk.present.lines[line - 1]
            before = desk.present
            desk.put(session.present)
            self.assertEqual(desk.present.lines[desk.line - 1], text)
            desk.put(before)
            self.assertEqual(desk.line, line)

    def test_levels(self) -> None:
        levels = []
        filters = Filters()
        for _ in range(6):
            levels.append(filters.level)
            filters = filters.with_next_level(2)
        self.assertEqual(levels, ["carried", "all", "1", "2", "-", "carried"])


    def test_orders(self) -> None:
        desk = desk_of(NEST)
        before = [row.row for row in desk.rows]
        desk.filters = Filters(order="name")
        self.assertEqual([row.name for row in desk.rows], sorted(row.name for row in desk.rows))
        self.assertEqual(desk.filters.words, "level=carried, by name")
        desk.filters = Filters(order="sink")
        self.assertEqual([row.sink for row in desk.rows], sorted(row.sink for row in desk.rows))
        self.assertEqual(sorted(row.row for row in desk.rows), sorted(before))
        self.assertEqual(Filters(order="level").with_next_order(), Filters())

    def test_search(self) -> None:
        desk = desk_of(NEST)
        for wanted in (5, 9, 5):
            desk.search("a(i,")
            self.assertEqual(desk.line, wanted)
        desk.search("nothing like it")
        self.assertEqual((desk.line, desk.message), (5, "no line has nothing like it"))

    def test_references_of_the_chosen_row(self) -> None:
        desk = desk_of(NEST)
        self.assertEqual(desk.marked(), {})
        desk.filters, desk.in_rows = Filters(name="A"), True
        self.assertTrue(desk.is_unread)
        self.assertEqual(desk.marked(), {})
        self.assertEqual(desk.present.view.program.arrays, {"A": ("9", "9")})
        (line, parts), = desk.marked().items()
        text = desk.present.lines[line - 1]
        self.assertEqual([text[first:last] for first, last in parts], ["A(I,J)", "A(I-1,J)"])
        row = next(row for row in Painter("p.f").picture(desk, "", 24, 80) if "A(I-1,J)" in row.text)
        self.assertEqual([row.text[first:last] for first, last in row.marked], ["A(I,J)", "A(I-1,J)"])


class Lists(unittest.TestCase):
    def test_loops(self) -> None:
        found = loops_list(desk_of(NEST))
        self.assertEqual(found.lines, [
            "  1  *    1 DO I = 2, 9: carries K, A", "  2  o    3   DO J = 2, 9: free", "  3  o    5 DO I = 1, 9: free",
        ])
        self.assertEqual(found.chosen, ["2", "4", "8"])
        self.assertEqual(loops_list(desk_of(fortran("END"))).lines, ["The program has no loops."])

    def test_keys(self) -> None:
        """Behind the last key loops have none, and can be chosen all the same."""
        found = loops_list(desk_of(fortran(*["DO I = 1, 9", "END DO"] * 30, "END")))
        self.assertEqual(len(found.chosen), 30)
        self.assertEqual(sum(line[2] != " " for line in found.lines), 25)

    def test_variables(self) -> None:
        """Each has its role, the keys of the steps that are meant for it, and who wants its value."""
        present = desk_of(NEST).present
        found = variables_list(present.view, present.view.program.loops[1])
        self.assertEqual(dict(zip(found.chosen, (line.split()[1:4] for line in found.lines))), {
            "K": ["carried", "v", "x"], "A": ["carried", "the", "loop"], "I": ["index", "the", "variable"],
            "J": ["index", "the", "variable"],
        })
        present = desk_of(fortran("DO I = 1, 9", "K = K+I", "L = L+K", "END DO", "PRINT *, K", "END")).present
        loop = present.view.program.loops[1]
        found = variables_list(present.view, loop)
        self.assertIn("wanted after by statement 4", found.lines[found.chosen.index("K")])
        present = desk_of(fortran("DO I = 1, 9", "K = K+I", "L = L+I", "END DO", "PRINT *, K", "END")).present
        loop = present.view.program.loops[1]
        found = variables_list(present.view, loop)
        self.assertEqual([line.split()[:3] for line in found.lines[:2]], [["K", "sum", "+"], ["L", "sum", "+"]])
        self.assertEqual(scalars_of("+", "L", present.view, loop), "K L")
        self.assertEqual(scalars_of("v", "L", present.view, loop), "L")

    def test_changes(self) -> None:
        session = Session(ped(), NEST)
        for step in ("privatise 1 K", "parallel 3", "parallel 5"):
            session.step(step)
        session.go_to(1)
        found = changes_list(session)
        self.assertEqual(found.lines, [
            "  1       the program as it was", "  2     1 privatise 1 K  <- here", "  3     2 parallel 3  (undone)",
            "  4     3 parallel 5  (undone)",
        ])
        self.assertEqual((found.chosen, found.first), (["0", "1", "2", "3"], 1))


class Help(unittest.TestCase):
    def test_one_screen(self) -> None:
        """24 rows of 80 columns show all keys, with a title and a last row; no key has two meanings."""
        lines = help_lines(80)
        self.assertLessEqual(len(lines), 22)
        self.assertLessEqual(max(map(len, lines)), 80)
        self.assertTrue(all(line[38:40].strip() == "" for line in lines))
        self.assertLessEqual(max(map(len, help_lines(60))), 40)
        told = " ".join(line[:8].strip() for line in help_lines(60) if line.startswith(" ")).split()
        single = [key for key in told if len(key) == 1]
        self.assertEqual(sorted(set(single)), sorted(single))


class Clicks(unittest.TestCase):
    def test_places(self) -> None:
        desk = desk_of(NEST)
        painter = Painter("p.f")
        rows = painter.picture(desk, "", 24, 80)
        for y, row in enumerate(rows):
            on = painter.at(desk, y)
            if on.line is not None:
                self.assertTrue(row.text.endswith(desk.present.lines[on.line - 1].rstrip()) or y == desk.line)
            if on.row is not None:
                self.assertEqual(row.text.split(), desk.rows[on.row].row.split())
        self.assertEqual([painter.at(desk, y).line for y in (0, 1, 11)], [None, 1, 11])
        self.assertEqual(sum(painter.at(desk, y).row is not None for y in range(24)), min(len(desk.rows), 7))


class Sessions(unittest.TestCase):
    def test_script(self) -> None:
        session = Session(ped(), NEST)
        self.assertTrue(session.is_saved)
        self.assertEqual((session.step("privatise 1 K"), session.step("parallel 3")), (None, None))
        self.assertEqual(session.step("parallel 1"), "edge 4.3 4.1 A flow 1 (<,=) (1,0) proven")
        self.assertIsNone(session.edit([line for line in session.present.lines if "A(I,1)" not in line]))
        self.assertEqual(session.script, "privatise 1 K\nparallel 3\ndelete 10 10\n")
        self.assertFalse(session.is_saved)
        self.assertTrue(session.replays())

    def test_undo_of_what_was_loaded(self) -> None:
        session = Session(ped(), NEST)
        self.assertEqual(session.load("privatise 1 K\nparallel 3\n"), [])
        lines = session.present.lines
        session.undo()
        self.assertIn("        DO J = 2, 9", session.present.lines)
        session.redo()
        self.assertEqual(session.present.lines, lines)
        self.assertTrue(session.is_saved)

    def test_automatic_steps(self) -> None:
        """In the place of an `auto` the script has the steps that it has taken; each is undone by itself."""
        session = Session(ped(), NEST)
        self.assertEqual(session.load("auto\n"), [])
        lines = session.present.lines
        self.assertGreater(len(session.changes), 1)
        self.assertNotIn("auto", session.script)
        self.assertTrue(session.replays())
        session.undo()
        self.assertNotEqual(session.present.lines, lines)
        session.redo()
        self.assertEqual(session.present.lines, lines)

    def test_change_drops_what_was_undone(self) -> None:
        session = Session(ped(), NEST)
        session.step("parallel 3")
        session.undo()
        session.step("privatise 1 K")
        self.assertIsNone(session.redo())


class Pictures(unittest.TestCase):
    def test_filters_are_told(self) -> None:
        """The bar tells the filters, and how many rows there are, even where the header of the loop is long."""
        desk = desk_of(NEST.replace("I = 2, 9", "I = 1+1+1+1-2, 9+9+9+9+9-36+10000-10000"))
        self.assertNotIn("level=carried", Painter("p.f").picture(desk, "", 24, 80)[13].text)
        desk.filters = Filters(kind="flow", mark="proven", name="A")
        bar = Painter("p.f").picture(desk, "", 24, 80)[13].text
        self.assertRegex(bar, r"^ loop 1, DO I = .*\.\. 1 of \d+ rows, level=carried kind=flow mark=proven name=A $")
        self.assertEqual(len(bar), 80)

    def test_sizes(self) -> None:
        """Each picture has as many rows as the terminal, and none is too wide."""
        desk = desk_of(NEST)
        desk.say("a message that is long " * 20)
        for height in range(1, 40):
            for width in (1, 20, LEAST_WIDTH, 80, 200):
                rows = Painter("p.f").picture(desk, "0 changes", height, width)
                self.assertLessEqual(max(len(row.text) for row in rows), width)
                if height >= LEAST_HEIGHT and width >= LEAST_WIDTH:
                    self.assertEqual(len(rows), height)

    def test_scrolling(self) -> None:
        self.assertEqual(first_shown(0, 5, 20, [4]), 0)
        self.assertEqual(first_shown(0, 5, 20, [5]), 1)
        self.assertEqual(first_shown(10, 5, 20, [3]), 3)
        self.assertEqual(first_shown(0, 5, 20, [8, 10]), 6)
        self.assertEqual(first_shown(0, 5, 20, [8, 19]), 8)
        self.assertEqual(first_shown(9, 5, 3, [0]), 0)

    def test_texts(self) -> None:
        self.assertEqual(folded("one two three", 7), ["one two", "three"])
        self.assertEqual(folded("abcdefghij", 4), ["abcd", "efgh", "ij"])
        self.assertEqual(visible("a\tb\x1b\x9b"), "a?b??")
        self.assertEqual(visible("é".encode().decode("latin-1")), "é")


class Pieces(unittest.TestCase):
    """Pieces of advice: what can be carried out comes first, the most wanted before the others."""

    def test_scalar(self) -> None:
        view = example_view("steps/squares")
        advice = advised(ped(), view, view.program.loops[3])
        self.assertEqual([one.steps for one in advice if one.steps], [
            ("privatise 3 T",), ("expand 3 T",), ("peel 3 first",), ("peel 3 last",),
        ])
        words = "try `privatise 3 T`: ped accepts it, and the loop then carries nothing"
        self.assertEqual(advice[0], Advice(words, ("privatise 3 T",)))

    def test_free_loop(self) -> None:
        view = example_view("steps/squares")
        self.assertEqual([one.steps for one in advised(ped(), view, view.program.loops[1]) if one.steps], [
            ("parallel 1",), ("fuse 1",), ("reverse 1",), ("peel 1 first",), ("peel 1 last",),
        ])

    def test_recurrence(self) -> None:
        """What a dependence forbids is told once for all steps that it forbids."""
        told = self.told("DO 10 I = 2, 9", "A(I) = A(I-1)", "10 B(I) = 2*A(I)")
        self.assertEqual(told, [
            "try `distribute 1`: ped accepts it, and makes 2 loops of it, of which 3 carries nothing",
            "try `peel 1 first`: ped accepts it", "try `peel 1 last`: ped accepts it",
            "`interchange 1`: refused rule 2 NotPerfect at 1: the loop's body has to be one loop and nothing else",
            "`reverse 1` and `parallel 1`: refused edge 2.2 2.1 A flow 1 (<) (1) proven: this dependence forbids them",
            "`fuse 1`: refused rule 10 NoNeighbour at 1: no loop with the same header comes directly after it",
        ])

    def test_step_that_frees(self) -> None:
        """Each row needs the one before it, and no column another one."""
        told = self.told("DO 10 I = 2, 9", "DO 10 J = 2, 9", "10 C(I,J) = C(I-1,J)", loop=2)
        self.assertEqual(told[:2], [
            "try `parallel 2`: ped accepts it", "try `interchange 1`: ped accepts it, and then `parallel 1`",
        ])

    def test_parallel_loop(self) -> None:
        told = self.told("PARALLEL DO 10 I = 2, 9", "10 A(I) = I")
        self.assertEqual(told, [
            "try `serial 1`: ped accepts it",
            "`interchange 1`: refused rule 2 NotPerfect at 1: the loop's body has to be one loop and nothing else",
            "`reverse 1`, `distribute 1`, `fuse 1`, `parallel 1`, `peel 1 first` and `peel 1 last`: refused rule 3 "
            "ParallelState at 1: the step leaves loops alone that are PARALLEL DO or are in one (`serial`: those "
            "that aren't PARALLEL DO)",
        ])

    def told(self, *lines: str, loop: int = 1) -> List[str]:
        """The advice for a loop of a program with some arrays."""
        view = view_of(fortran("INTEGER A(9), B(9), C(9,9)", *lines, "END"))
        return [one.words for one in advised(ped(), view, view.program.loops[loop])]

    def test_keys(self) -> None:
        """Each piece that can be carried out has a key of its own, and none closes the page."""
        view = example_view("steps/squares")
        pieces = [Advice(f"try `privatise 3 T{number}`: ped accepts it", ("step",)) for number in range(30)]
        listed = advice_page(view, view.program.loops[3], [*pieces, Advice("otherwise")])
        page = listed.lines
        self.assertEqual([row[:5] for row in page[2:12]], [f"  {key}  " for key in "123456789a"])
        self.assertEqual(len(set(row[:5] for row in page[2:27])), 25)
        self.assertEqual([row[:5] for row in page[27:]], ["     "] * 5 + ["  -  "])
        self.assertEqual((len(listed.chosen), listed.places), (30, list(range(2, 32))))


if __name__ == "__main__":
    unittest.main()
