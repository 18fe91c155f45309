"""Scripts and what sessions answer to them."""

import unittest
from typing import List

from ..lines import split_lines
from ..ped import read_file
from ..replies import Advised, Fault, Left, NoReply, Race, read_replies
from ..scripts import read_script, weave
from .support import ADVICE, EXAMPLES, cases

SCRIPT = """\
show

replace 5 5
      A(I) = 1

undo
.
  undo
insert 01
run
insert 3
      K = 1
"""


class Scripts(unittest.TestCase):
    def test_commands(self) -> None:
        commands = read_script(SCRIPT)
        self.assertEqual([command.line for command in commands], [1, 3, 8, 9, 10, 11])
        self.assertEqual(commands[1].text, ("      A(I) = 1", "", "undo"))
        self.assertEqual(commands[1].last_line, 7)
        self.assertEqual([command.closed for command in commands], [True, True, True, True, True, False])
        self.assertEqual(commands[2].words, ("undo",))

    def test_weaving(self) -> None:
        woven = weave(SCRIPT, lambda command: ["source"] if command.word == "run" else [], ["show"])
        words = [command.word for command in read_script(woven.text)]
        self.assertEqual(words, ["show", "replace", "undo", "insert", "run", "source", "show", "insert"])
        self.assertEqual([origin.line if origin else 0 for origin in woven.origins], [1, 3, 8, 9, 10, 0, 0, 11])

    def test_weaving_behind_the_last(self) -> None:
        woven = weave("undo", lambda command: [], ["races", "show"])
        self.assertEqual(woven.text, "undo\nraces\nshow\n")


class Replies(unittest.TestCase):
    def test_replies(self) -> None:
        commands = read_script("print\nrun\nraces\nundo\nrun\nadvise 1\ntested\nraces\nparallel 1\n")
        rows = [
            "C 1: ok", "      END", "| 1: ok", "ended", "live A 1", "no race", "4: refused NothingToUndo",
            "fault 2 at 3", *ADVICE, "tested 4", "race A(3,2) at 4 and 5", "9: ok",
        ]
        replies = read_replies(commands, rows)
        self.assertEqual([len(reply.rows) for reply in replies], [2, 3, 1, 1, 1, 8, 1, 1, 1])
        self.assertEqual(replies[3].refusal, "NothingToUndo")
        self.assertEqual(replies[4].fault, Fault(2, 3))
        self.assertEqual(replies[7].race, Race("A(3,2)", 4, 5))
        self.assertTrue(replies[8].accepted)
        self.assertIsNone(replies[8].refusal)

    def test_advice(self) -> None:
        commands = read_script("advise 1\nadvise 12\nadvise 99\n")
        replies = read_replies(commands, [*ADVICE, *ADVICE, "3: refused NoSuchStatement"])
        self.assertEqual([len(reply.rows) for reply in replies], [8, 8, 1])
        self.assertEqual([len(reply.advised) for reply in replies], [8, 8, 0])
        self.assertEqual(replies[1].advised[:2], (
            Advised("interchange 12", None), Advised("reverse 12", "rule 8 StepShape at 1"),
        ))
        self.assertEqual(replies[1].advised[6:], (
            Advised("peel 12 first", None), Advised("peel 12 last", "rule 9 Range at 1"),
        ))
        for rows in (ADVICE[:7], [*ADVICE[1:], ADVICE[0]]):
            with self.assertRaises(NoReply, msg=str(rows)):
                read_replies(read_script("advise 1\n"), rows)

    def test_automatic_steps(self) -> None:
        commands = read_script("auto\nauto\nundo\n")
        source = ["C left 1 rule 1 NoLoop at 1", "      END"]
        steps = ["+ distribute 1", "+ reduce 3 K L"]
        left = ["left 1 edge 2.2 2.1 A flow 1 (<) (1) proven", "left 3 rule 5 IndexEscapes at 9"]
        replies = read_replies(commands, ["1: auto 2", *steps, *left, *source, "2: auto 0", *source, "3: ok"])
        self.assertEqual([len(reply.rows) for reply in replies], [7, 3, 1])
        self.assertEqual([reply.taken for reply in replies], [("distribute 1", "reduce 3 K L"), (), ()])
        self.assertEqual(replies[0].left, (
            Left(1, "edge 2.2 2.1 A flow 1 (<) (1) proven"), Left(3, "rule 5 IndexEscapes at 9"),
        ))
        self.assertEqual([reply.left for reply in replies[1:]], [(), ()])
        self.assertIsNone(replies[0].refusal)
        self.assertFalse(replies[0].accepted)
        for rows in (["1: auto 1", *source], ["1: auto 1", *steps, *source], ["2: auto 0", *source], ["1: auto 0"]):
            with self.assertRaises(NoReply, msg=str(rows)):
                read_replies(read_script("auto\n"), rows)

    def test_steps_as_a_script(self) -> None:
        """The example gives the steps of its `auto` one by one, and has the same program then."""
        path = EXAMPLES / "steps" / "relief.script"
        commands = read_script(read_file(str(path)))
        replies = read_replies(commands, split_lines(read_file(str(path.with_suffix(".out")))))
        automatic = next(reply for reply in replies if reply.taken)
        printed = next(reply for reply in replies if reply.command.word == "print")
        steps = [" ".join(command.words) for command in commands if command.line < printed.command.line]
        self.assertEqual(tuple(steps[-len(automatic.taken):]), automatic.taken)
        self.assertEqual(automatic.rows[-len(printed.rows):], printed.rows)

    def test_other_answers(self) -> None:
        answers: List[List[str]] = [[], ["2: ok"], ["1: ok", "2: ok"], ["ped: cannot read x"]]
        for rows in answers:
            with self.assertRaises(NoReply, msg=str(rows)):
                read_replies(read_script("undo\n"), rows)

    def test_examples(self) -> None:
        for path in sorted(EXAMPLES.glob("**/*.script")):
            read_replies(read_script(read_file(str(path))), split_lines(read_file(str(path.with_suffix(".out")))))

    def test_cases(self) -> None:
        """The answer of each session is taken apart to its end, and each refusal belongs to the line that it names."""
        count = 0
        for case in cases():
            rows = case.wanted.get("output", [])
            if case.script is not None and not (rows and rows[-1].startswith(("ped: ", "usage: "))):
                with self.subTest(case.name):
                    read_replies(read_script(case.script), rows)
                count += 1
        self.assertGreater(count, 1000)


if __name__ == "__main__":
    unittest.main()
