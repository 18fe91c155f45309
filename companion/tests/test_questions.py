"""Questions in several sessions, the progress that is shown of them, and the time that long programs take."""

import io
import time
import unittest
from typing import Dict, List, Optional
from unittest.mock import patch

from ..commands.loops import loops
from ..commands.tune import tune
from ..lines import split_lines
from ..outline import outline_of
from ..panes import Panes, read_panes
from ..ped import Ped
from ..progress import Progress
from ..questions import ask_in_turn
from ..replies import Reply, read_replies
from ..scripts import Command, read_script
from ..tuning import parts
from ..views import Question, View, view_of_file
from .support import fortran, ped


class Terminal(io.StringIO):
    """A stream that says that it is a terminal."""

    def isatty(self) -> bool:
        return True


class Shown(unittest.TestCase):
    def test_after_a_while(self) -> None:
        stream = Terminal()
        progress = Progress(stream)
        progress.show("too early")
        self.assertEqual(stream.getvalue(), "")
        with patch("companion.progress._PATIENCE", -1.0):
            progress.show("one of three")
            progress.show("two")
        progress.clear()
        self.assertEqual(stream.getvalue(), "\rone of three\rtwo         \r   \r")

    def test_no_terminal(self) -> None:
        stream = io.StringIO()
        with patch("companion.progress._PATIENCE", -1.0):
            Progress(stream).show("one")
        self.assertEqual(stream.getvalue(), "")


class Counting(Ped):
    """The program ped, and the scripts that it was given."""

    def __init__(self, program: Ped) -> None:
        super().__init__("/nowhere/ped")
        self._other = program
        self.scripts: List[str] = []

    def session(self, source: str, script: str, data: Optional[str] = None) -> List[Reply]:
        self.scripts.append(script)
        return self._other.session(source, script, data)


class Sessions(unittest.TestCase):
    SOURCE = split_lines(fortran("INTEGER A(9)", "DO I = 2, 9", "A(I) = A(I-1)", "END DO", "END"))

    def test_short(self) -> None:
        program = Counting(ped())
        answers = ask_in_turn(program, self.SOURCE, [["deps 1"], ["peel 1 first", "undo"]] * 9, Progress(), "questions")
        self.assertEqual(len(program.scripts), 1)
        self.assertEqual([len(replies) for replies in answers], [1, 2] * 9)

    def test_long(self) -> None:
        """What is asked is the same, in several sessions; each of them begins with the program as it was."""
        program = Counting(ped())
        scripts = [["peel 1 first", "undo"], ["advise 1"], ["deps 1"]] * 5
        with patch("companion.questions._SHORT", 0), patch("companion.questions._SECONDS", 0.0):
            stream = Terminal()
            with patch("companion.progress._PATIENCE", -1.0):
                answers = ask_in_turn(program, self.SOURCE, scripts, Progress(stream), "steps")
        self.assertEqual(len(program.scripts), 12)
        self.assertEqual("".join(program.scripts).splitlines(), [command for script in scripts for command in script])
        self.assertEqual([[reply.command.words[0] for reply in replies] for replies in answers],
                         [[command.split()[0] for command in script] for script in scripts])
        self.assertTrue(stream.getvalue().rstrip().endswith("steps: 15 of 15 questions are answered"))


class Parts(unittest.TestCase):
    """Loops taken apart in groups become what each becomes alone, and the source pane is shown once a group."""

    BODY = ["DO J = 2, 9", "A(J) = A(J-1)", "B(J) = A(J)", "C(J) = C(J-1)", "END DO"]
    SOURCE = fortran(
        "INTEGER A(9), B(9), C(9), L(9)", *BODY,
        "DO I = 2, 9", "L(I) = L(I-1)", *BODY, *BODY, "END DO", *BODY, "END"
    )

    def test_groups(self) -> None:
        view = view_of_file(ped().show(self.SOURCE), self.SOURCE, Question("p.f"))
        nested = list(outline_of(view.panes.source).loops.values())
        found = []
        for together, shown in ((1, 5), (2, 3), (32, 2)):
            program = Counting(ped())
            with patch("companion.tuning._TOGETHER", together):
                found.append(parts(program, view, [*nested, nested[0]], Progress()))
            self.assertEqual("".join(program.scripts).split().count("source"), shown)
        self.assertEqual(found[1:], [found[0]] * 2)
        self.assertGreater(min(len(one.numbers) for one in found[0].values()), 1)


class Answering(Ped):
    """A program that knows the panes of one program, and carries out or refuses steps by their words alone."""

    def __init__(self, view: View) -> None:
        super().__init__("/nowhere/ped")
        self._view = view
        self.seconds = 0.0
        outline = outline_of(view.panes.source)
        self._rows: Dict[int, List[str]] = {number: [] for number in outline.loops}
        for row in view.panes.dependences:
            for number in outline.nests[row.source[0]]:
                self._rows[number].append(row.row)
        self._source = [f"source {len(view.panes.source)}"] + [
            f"{row.line:5} {row.statement or '':>4} {row.text}" for row in view.panes.source
        ]

    def session(self, source: str, script: str, data: Optional[str] = None) -> List[Reply]:
        begin = time.process_time()
        commands = read_script(script)
        rows = [row for command in commands for row in self._answer(command)]
        self.seconds += time.process_time() - begin
        return read_replies(commands, rows)

    def _answer(self, command: Command) -> List[str]:
        word, line = command.word, command.line
        if word == "advise":
            steps = ("interchange", "reverse", "distribute", "fuse", "parallel", "serial", "peel first", "peel last")
            return [f"{step} refused rule 2 NotPerfect at {command.words[1]}" for step in steps]
        if word == "deps":
            rows = self._rows.get(int(command.words[1]), [])
            return [f"dependences {len(rows)}", *rows]
        if word == "source":
            return self._source
        if word == "auto":
            left = [f"left {number} rule 2 NotPerfect at {number}" for number in self._rows]
            return [f"{line}: auto 0", *left, *self._view.panes.lines]
        if word in ("undo", "peel"):
            return [f"{line}: ok"]
        return [f"{line}: refused rule 12 ExposedOrLive at {command.words[1]}"]


class Times(unittest.TestCase):
    """Of twice as long a program pedx itself takes twice the time, with as many loops and with as long ones."""

    def seconds(self, source: str) -> float:
        """The processor time of the companion for `loops` and `tune`."""
        panes: Panes = read_panes(split_lines(_shown(source)))
        begin = time.process_time()
        view = view_of_file(panes, source, Question("p.f"))
        program = Answering(view)
        middle = time.process_time()
        loops(view, program, [], tries=True)
        tune(view, program, [])
        return time.process_time() - begin - program.seconds if middle else 0.0

    def assert_grows_slowly(self, short: str, long: str) -> None:
        """What is twice as long takes less than three times the time; the square would be four times."""
        ratio = min(self.seconds(long) / self.seconds(short) for _ in range(2))
        self.assertLess(ratio, 3.0)

    def test_loops(self) -> None:
        lines = [
            "DO I = 1, 9", "K = A(I)+1", "A(I) = K", "END DO",
            "DO I = 2, 9", "M = MAX(M,A(I))", "A(I) = A(I-1)", "END DO",
        ]
        programs = [fortran("INTEGER A(9)", *lines * (count // 6), "PRINT *, M", "END") for count in (600, 1200)]
        self.assert_grows_slowly(*programs)

    def test_scalars(self) -> None:
        """A loop of many scalars, each with rows of its own."""
        programs = []
        for count in (200, 400):
            body = [f"K{number} = K{number}*A(I)" for number in range(count)]
            programs.append(fortran("INTEGER A(9)", "DO I = 1, 9", *body, "END DO", "END"))
        self.assert_grows_slowly(*programs)


def _shown(source: str) -> str:
    """What ped shows of a program."""
    panes = ped().show(source)
    rows = [f"{row.line:5} {row.statement or '':>4} {row.text}" for row in panes.source]
    dependences = [row.row for row in panes.dependences]
    return "".join(
        line + "\n" for line in (f"source {len(rows)}", *rows, f"dependences {len(dependences)}", *dependences)
    )


if __name__ == "__main__":
    unittest.main()
