"""Answers of ped that can't be read are told as that, with a status that means it."""

import io
import random
import unittest
from typing import Callable, List, Tuple
from unittest import mock

from ..command_line import main
from ..editor.session import Session
from ..ped import ENCODING, Ped, read_file
from ..statuses import CompanionError, Status
from .support import EXAMPLES, ped

SQUARES = str(EXAMPLES / "steps" / "squares.f")

#: Rows that are put in the place of one of an answer.
_OTHER_ROWS = (
    "", "garbage", "ended", "| 1", "source 3", "dependences 99", "1: ok", "1: refused x", "1: auto 3", "1: auto x",
    "left 3 x", "4.2 4.2 T output 9 (<) (*) proven", "4.2 4.2 T output 1 (?) (*) proven",
    "99.2 4.2 T output 1 (<) (*) proven", "4.2 4.2 T output 1 (<,<) (*) proven", "   99   77       END",
)
#: Characters that are put in the place of one of an answer.
_OTHER_CHARACTERS = "0123456789 .,()<=>*-xA\x1b\xb2\xe9"


def ended(*words: str) -> Tuple[int, str]:
    """The status of a call, and its messages."""
    output, messages = (io.TextIOWrapper(io.BytesIO(), encoding=ENCODING) for _ in range(2))
    with mock.patch("sys.stdout", output), mock.patch("sys.stderr", messages):
        status = main(list(words))
    messages.seek(0)
    return status, messages.read()


def answering(answer: str) -> "mock._patch[mock.Mock]":
    """Has each call of ped give one answer."""
    return mock.patch.object(Ped, "_run", return_value=(0, answer))


class Unreadable(unittest.TestCase):
    def test_answers(self) -> None:
        """An answer that is cut off, that holds something else, or that contradicts itself."""
        whole = "".join(f"{row}\n" for row in _shown())
        for answer in (
            "", "something\n", whole[:40], whole + "more\n", whole.replace("T output 1", "T output 2"),
            whole.replace("4.2 4.2 T", "9.2 4.2 T"), whole.replace("4.2 4.2 T", "4.2 4.9 T"),
            whole.replace("(<) (*)", "() (*)"), whole.replace("I = 1, 5", "I = 1, \xb2"), whole.replace("5 ", "6 "),
        ):
            with self.subTest(answer), answering(answer):
                status, messages = ended("why", SQUARES)
                self.assertEqual(status, Status.NOT_UNDERSTOOD, messages)
                self.assertTrue(messages.startswith("pedx: error: ped "), messages)

    def test_damaged_answers(self) -> None:
        """Whatever is wrong with an answer: pedx doesn't fail, and says what it is."""
        choice = random.Random(7)
        for number in range(60):
            words = choice.choice((["why"], ["loops"], ["check", "--run"], ["omp"], ["json"], ["graph"]))
            with self.subTest(number), mock.patch.object(Ped, "_run", _damaging(choice)):
                status, messages = ended(words[0], SQUARES, *words[1:])
                self.assertNotIn(status, (Status.FAILED, Status.NO_PED), messages)

    def test_editor(self) -> None:
        """What isn't understood changes nothing in the editor."""
        session = Session(ped(), read_file(SQUARES))
        present = session.present
        for answer in ("", "1: ok\n", "1: ok\nsource 0\ndependences 1\n9.1 9.2 A flow 1 (<) (*) proven\n"):
            with self.subTest(answer), answering(answer):
                with self.assertRaises(CompanionError) as caught:
                    session.step("parallel 1")
                self.assertEqual(caught.exception.status, Status.NOT_UNDERSTOOD)
                self.assertIs(session.present, present)
                self.assertTrue(session.is_saved)

    def test_error_in_pedx(self) -> None:
        """An error in pedx isn't the status of a refused line, and isn't put on ped."""
        with mock.patch("companion.command_line.view_or_none", side_effect=KeyError("\x1b[31m")):
            status, messages = ended("why", SQUARES)
        self.assertEqual(status, Status.FAILED)
        self.assertIn("this is an error in pedx itself", messages)
        with mock.patch("companion.command_line.view_or_none", side_effect=MemoryError):
            self.assertEqual(ended("why", SQUARES)[0], Status.NO_MEMORY)


def _shown() -> List[str]:
    """What ped shows of the example."""
    panes = ped().show(read_file(SQUARES))
    rows = [f"{row.line:5} {row.statement or '':>4} {row.text}" for row in panes.source]
    dependences = [row.row for row in panes.dependences]
    return [f"source {len(rows)}", *rows, f"dependences {len(dependences)}", *dependences]


def _damaging(choice: random.Random) -> Callable[[Ped, List[str], str], Tuple[int, str]]:
    """A call of ped whose answer is damaged at one place, in one of some calls."""
    run = Ped._run

    def damaged(self: Ped, words: List[str], folder: str) -> Tuple[int, str]:
        status, answer = run(self, words, folder)
        return status, answer if choice.random() < 0.3 else _damaged(choice, answer)

    return damaged


def _damaged(choice: random.Random, answer: str) -> str:
    rows = answer.split("\n")
    place = choice.randrange(len(rows))
    row = rows[place]
    column = choice.randrange(len(row) + 1)
    way = choice.randrange(5)
    if way == 0:
        return answer[:choice.randrange(len(answer) + 1)]
    if way == 1:
        del rows[place]
    elif way == 2:
        rows.insert(place, choice.choice(rows))
    elif way == 3:
        rows[place] = choice.choice(_OTHER_ROWS)
    else:
        rows[place] = row[:column] + choice.choice(_OTHER_CHARACTERS) + row[column + 1:]
    return "\n".join(rows)


if __name__ == "__main__":
    unittest.main()
