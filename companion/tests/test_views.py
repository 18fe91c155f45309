"""Views: whose lines are shown, and what is taken of ped's panes."""

import tempfile
import unittest
from pathlib import Path

from ..lines import split_lines
from ..panes import Panes, read_panes
from ..statuses import CompanionError, Status
from ..views import PRINTED, Question, View, open_view, view_of_file, view_of_panes
from .support import EXAMPLES, fortran, ped

SOURCE = fortran("INTEGER A(9)", "do 10 i = 2,9", "10 a(i)=a(i-1)", "END")


def panes(source: str) -> Panes:
    return ped().show(source)


class Views(unittest.TestCase):
    def test_lines_of_the_file(self) -> None:
        view = view_of_file(panes(SOURCE), SOURCE, Question("p.f"))
        self.assertEqual((view.name, list(view.lines)), ("p.f", split_lines(SOURCE)))
        self.assertEqual(view.program.reference((2, 2)).span.start, (3, 7))
        self.assertEqual(view.printed.reference((2, 2)).span.start, (3, 9))

    def test_printed_lines(self) -> None:
        view = view_of_file(panes(SOURCE), SOURCE, Question("p.f", printed=True))
        self.assertEqual((view.name, view.lines[1]), (PRINTED, "      DO I = 2, 9"))

    def test_another_text(self) -> None:
        """A text that isn't read as what ped prints isn't shown."""
        view = view_of_file(panes(SOURCE), SOURCE.replace("a(i-1)", "b(i-1)"), Question("p.f"))
        self.assertEqual(view.name, PRINTED)

    def test_save_without_a_list(self) -> None:
        source = fortran("SAVE", "K = 1", "END")
        self.assertEqual(view_of_file(panes(source), source, Question("p.f")).program.saved, {"K"})

    def test_carried(self) -> None:
        view = view_of_file(panes(SOURCE), SOURCE, Question("p.f"))
        self.assertEqual([row.row for row in view.carried_by(view.program.loops[1])], [
            "2.2 2.1 A flow 1 (<) (1) proven"
        ])

    def test_other_numbers(self) -> None:
        """Panes whose numbers aren't those of pedx are not believed to be understood."""
        rows = [
            "source 4", "    1            INTEGER A(9)", "    2    1       DO I = 2, 9",
            "    3    2         A(I) = A(I-1)", "    4            END DO", "dependences 1", "2.2 2.1 A flow 1 (<) (1) proven",
        ]
        self.assertEqual(len(view_of_panes(read_panes(rows)).dependences), 1)
        for old, new in (("    3    2  ", "    3    3  "), ("2.2 2.1 A", "2.1 2.3 A"), ("2.2 2.1 A", "2.2 2.1 B")):
            changed = [row.replace(old, new) for row in rows]
            with self.assertRaises(CompanionError) as caught:
                view_of_panes(read_panes(changed))
            self.assertIs(caught.exception.status, Status.NOT_UNDERSTOOD)


class Sessions(unittest.TestCase):
    def view(self, script: str) -> View:
        """The view of an example behind a script."""
        with tempfile.TemporaryDirectory(prefix="pedx-test-") as folder:
            path = Path(folder, "script")
            path.write_text(script)
            return open_view(ped(), Question(str(EXAMPLES / "steps" / "squares.f"), str(path)))

    def test_last_program(self) -> None:
        view = self.view("show\nprivatise 3 T\nrun\nprint\nreplace 3 3\n      INTEGER A(5),T,B(5)\n.\nsource\n")
        self.assertEqual([name.name for name in view.program.loops[3].private], ["T"])
        self.assertEqual((view.name, view.lines[2], view.complaints), (PRINTED, "      INTEGER A(5), T, B(5)", ()))

    def test_open_edit(self) -> None:
        """The text of the last edit has no period: ped refuses the edit, and the program before it is looked at."""
        view = self.view("privatise 3 T\ninsert 0\nC COMMENT\n")
        self.assertEqual([name.name for name in view.program.loops[3].private], ["T"])
        complaint, = view.complaints
        self.assertIn("/script:2:1: error: refused BadCommand: ", complaint)

    def test_empty_script(self) -> None:
        self.assertEqual(len(self.view("").program.loops), 2)


if __name__ == "__main__":
    unittest.main()
