"""`pedx prove` and `pedx auto`: the evidence for a step, and what is said where there is none; worked out by hand.

The commands for evidence are those of a later ped. Where the ped of the tests lacks them, a stand-in answers for one
program.
"""

import os
import unittest
from typing import Dict, List, Optional

from ..commands.prove import appended, prove
from ..evidence.facts import Kind as FactKind
from ..evidence.facts import conditions, facts_of, is_told, unread_subscripts
from ..evidence.forbidding import STEPS, forbidding, is_doubtful
from ..evidence.limits import Purse
from ..evidence.proving import Prover, knows_evidence
from ..evidence.strategy import Strategy, replayed
from ..panes import read_panes
from ..ped import Ped, read_file
from ..questions import text_of
from ..replies import Reply, read_replies
from ..scripts import read_script
from ..statuses import CompanionError, Status
from ..views import Question, View, idle_lines, open_view
from .calling import CallingInside
from .evidence_programs import PROGRAMS
from .random_evidence import check
from .support import fortran, ped, ped_path, view_of
from .test_evidence import STRIDED, SYMBOLIC, TRIANGULAR, system_of

_SOURCE = PROGRAMS["triangular"].source

#: The other System of the triangular loop, by hand.
_BACK = TRIANGULAR.replace("3.3 3.2", "3.2 3.3").replace("13 I-K' = 0", "13 K-I' = 0")

_FORWARD_LINE = "3.2 3.3 (=,<) 10:1 11:1 13:1 /1"
_BACK_LINE = "3.3 3.2 (=,<) 5:1 11:-1 13:-1 /1"

_ANSWER = """\
loop 2 (DO I, line 4): 2 rows forbid `parallel 2`
  3.2 3.3 A anti 2 (=,<) (*,*) pending
      disproved: DO I begins at K+1; the element is the same only where K=I'; the directions say K=K'
  3.3 3.2 A flow 2 (=,<) (*,*) pending
      disproved: DO I begins at K+1; the element is the same only where I=K'; the directions say K=K'
  ped accepts `parallel 2` with this evidence:
parallel 2 by
3.2 3.3 (=,<) 10:1 11:1 13:1 /1
3.3 3.2 (=,<) 5:1 11:-1 13:-1 /1
.
"""


class StandIn(Ped):
    """A ped that answers some scripts by what is told beforehand, and others as it does."""

    def __init__(self, answers: Dict[str, List[str]]) -> None:
        super().__init__(ped_path())
        self._answers = answers

    def session(self, source: str, script: str, data: Optional[str] = None) -> List[Reply]:
        commands = read_script(script)
        if not any(command.word == "system" or command.takes_evidence for command in commands):
            return super().session(source, script, data)
        rows: List[str] = []
        for command in commands:
            told = self._answers.get("\n".join(command.written), [f"{command.line}: refused NoSuchPair"])
            rows.extend(row.replace("L:", f"{command.line}:") for row in told)
        return read_replies(commands, rows)


def _stand_in(*by: str) -> StandIn:
    """The stand-in for the triangular loop; the evidence is accepted, or answered by some rows."""
    evidence = "\n".join(["parallel 2 by", _FORWARD_LINE, _BACK_LINE, "."])
    return StandIn({
        "system 3.2 3.3 (=,<)": _BACK.split("\n"), "system 3.3 3.2 (=,<)": TRIANGULAR.split("\n"),
        evidence: list(by) or ["L: ok"], "undo": ["L: ok"],
    })


def _has_evidence() -> bool:
    return knows_evidence(ped(), view_of(_SOURCE))


class Scripts(unittest.TestCase):
    SCRIPT = (
        f"print\nparallel 2 by\n{_FORWARD_LINE}\n\nundo\n.\nundo\n interchange 10 by\n.\nreverse 1 bye\n"
        "reverse 1 by\nx\n"
    )

    def test_the_text_of_by(self) -> None:
        commands = read_script(self.SCRIPT)
        self.assertEqual([one.line for one in commands], [1, 2, 7, 8, 10, 11])
        self.assertEqual(commands[1].text, (_FORWARD_LINE, "", "undo"))
        self.assertEqual(commands[1].written, ("parallel 2 by", _FORWARD_LINE, "", "undo", "."))
        self.assertEqual([one.takes_evidence for one in commands], [False, True, False, True, False, True])
        self.assertEqual([one.closed for one in commands], [True, True, True, True, True, False])

    def test_idle_lines(self) -> None:
        commands = read_script(self.SCRIPT)[1:4]
        rows = ["2: refused edge 3.3 3.2 A flow 2 (=,<) (*,*) pending", "3: idle", "5: idle", "7: ok", "8: ok"]
        replies = read_replies(commands, rows)
        self.assertEqual([reply.idle for reply in replies], [(3, 5), (), ()])
        self.assertEqual([reply.accepted for reply in replies], [False, True, True])
        self.assertEqual(replies[0].refusal, "edge 3.3 3.2 A flow 2 (=,<) (*,*) pending")

    def test_idle_lines_are_told(self) -> None:
        origin, = read_script("parallel 2 by\nx\n3.3 3.2 (<) 1:1 /1\n.\n")
        woven = read_script("show\nshow\nparallel 2 by\nx\n3.3 3.2 (<) 1:1 /1\n.\n")
        replies = read_replies(woven[2:], ["3: ok", "4: idle", "5: idle"])
        self.assertEqual(list(idle_lines("s", [(None, replies[0]), (origin, replies[0])])), [
            f"s:{line}:1: warning: this line of evidence proves nothing" for line in (2, 3)
        ])

    def test_systems_among_replies(self) -> None:
        commands = read_script("system 3.3 3.2 (=,<)\nundo\nsystem 9.9 1.1 (*)\n")
        replies = read_replies(commands, [*TRIANGULAR.split("\n"), "2: ok", "3: refused NoSuchPair"])
        self.assertEqual(replies[0].rows, tuple(TRIANGULAR.split("\n")))
        self.assertEqual(replies[2].refusal, "NoSuchPair")


class Facts(unittest.TestCase):
    def test_each_row(self) -> None:
        words = [fact.words for fact in facts_of(view_of(_SOURCE).program, system_of(TRIANGULAR))]
        self.assertEqual(words, [
            "DO K begins at 1", "DO K ends at 8", "I is at least 2", "DO I ends at 9", "DO I begins at K+1",
            "DO K begins at 1", "DO K ends at 8", "I is at least 2", "DO I ends at 9", "DO I begins at K+1",
            "K=K'", "I<I'", "I=K'",
        ])

    def test_steps(self) -> None:
        facts = facts_of(view_of(PROGRAMS["red and black"].source).program, system_of(STRIDED))
        self.assertEqual(facts[5].words, "DO J goes from I in steps of 2")
        self.assertEqual(facts[11].words, "DO J goes from I in steps of 2")
        self.assertEqual([facts[place].words for place in (12, 13, 14)], ["I=I'", "J<J'", "J+1=J'"])

    def test_symbols(self) -> None:
        facts = facts_of(view_of(PROGRAMS["a symbol"].source).program, system_of(SYMBOLIC))
        self.assertEqual([facts[place].words for place in (1, 2, 6, 7, 8)], [
            "I is at most 2147483647", "DO I ends at N", "I<I'", "I+N=I'", "N has 32 bits",
        ])
        self.assertEqual([facts[place].kind for place in (2, 6, 7, 8)], [
            FactKind.LOOP, FactKind.DIRECTION, FactKind.POSITION, FactKind.SYMBOL,
        ])

    def test_what_a_system_does_not_look_at(self) -> None:
        program = view_of(fortran(
            "INTEGER A(99),L(9)", "SAVE A", "DO 10 I=1,9", "IF (L(I).GT.0) THEN", "DO 20 J=MAX(I,2),MIN(9,L(I))",
            "20 A(L(J)+I)=A(I+J)", "END IF", "10 CONTINUE", "END",
        )).program
        read, written = (4, 1), (4, 3)
        self.assertEqual(conditions(program, read, written), ["the IF of statement 2", "a bound of DO J"])
        self.assertEqual(conditions(program, (3, 1), (3, 1)), ["the IF of statement 2"])
        said = ["L(J)+I isn't affine, so nothing is known of it"]
        self.assertEqual(unread_subscripts(program, read, written), said)
        self.assertEqual(unread_subscripts(program, read, read), [])
        self.assertTrue(is_told(program, read, read))
        self.assertFalse(is_told(program, read, written))

    def test_another_program(self) -> None:
        # The rows aren't those that this program would have, and are told as they are.
        program = view_of(PROGRAMS["a symbol"].source).program
        facts = facts_of(program, system_of(TRIANGULAR.replace("3.3 3.2", "3.2 3.3")))
        self.assertTrue(all(fact.words for fact in facts))


class Forbidding(unittest.TestCase):
    def test_rows(self) -> None:
        view = view_of(_SOURCE)
        outer, inner = view.program.loops.values()
        self.assertEqual([one.pattern for one in forbidding(view, inner, "parallel")], [("=", "<"), ("=", "<")])
        self.assertEqual([one.pattern for one in forbidding(view, outer, "interchange")], [("<", ">"), ("<", ">")])
        self.assertEqual(len(forbidding(view, outer, "parallel")), 5)
        row = forbidding(view, outer, "parallel")[1]
        self.assertEqual(row.row.row, "3.2 3.3 A anti 1 (<,*) (*,*) pending")
        self.assertEqual((row.pattern, row.vectors), (("<", "*"), (("<", "<"), ("<", "="), ("<", ">"))))

    def test_what_evidence_may_disprove(self) -> None:
        self.assertTrue(is_doubtful(view_of(_SOURCE), view_of(_SOURCE).program.loops[2]))
        scalar = view_of(PROGRAMS["what no step reaches"].source)
        self.assertFalse(is_doubtful(scalar, scalar.program.loops[1]))
        proven = view_of(fortran("INTEGER A(9)", "SAVE A", "DO 10 I=2,9", "10 A(I)=A(I-1)", "END"))
        self.assertFalse(is_doubtful(proven, proven.program.loops[1]))
        free = view_of(fortran("INTEGER A(9)", "SAVE A", "DO 10 I=2,9", "10 A(I)=I", "END"))
        self.assertFalse(is_doubtful(free, free.program.loops[1]))


class StoodIn(unittest.TestCase):
    """The command, where ped's answers are told beforehand."""

    def test_accepted(self) -> None:
        text, steps = prove(view_of(_SOURCE), _stand_in(), [2], "parallel")
        self.assertEqual(text, _ANSWER)
        self.assertEqual(steps, [("parallel 2 by", _FORWARD_LINE, _BACK_LINE, ".")])

    def test_an_idle_line(self) -> None:
        answer = ["L: refused edge 3.3 3.2 A flow 2 (=,<) (*,*) pending", "3: idle"]
        text, steps = prove(view_of(_SOURCE), _stand_in(*answer), [2], "parallel")
        self.assertIn("not found: ped doesn't take the evidence that pedx found", text)
        self.assertIn("1 row stays, so `parallel 2` stays refused", text)
        self.assertEqual(steps, [])

    def test_a_rule(self) -> None:
        text, steps = prove(view_of(_SOURCE), _stand_in("L: refused rule 4 PrivateLive at 2"), [2], "parallel")
        self.assertIn("`parallel 2` is refused rule 4", text)
        self.assertEqual(steps, [])

    def test_scalars_and_proven_rows(self) -> None:
        text, steps = prove(view_of(PROGRAMS["what no step reaches"].source), _stand_in(), [1], "parallel")
        self.assertIn("stays: K is a scalar, and evidence speaks of elements alone", text)
        proven = view_of(fortran("INTEGER A(9)", "SAVE A", "DO 10 I=2,9", "10 A(I)=A(I-1)", "END"))
        self.assertIn("stays: it is proven, so the tests are exact", prove(proven, _stand_in(), [1], "parallel")[0])
        printed = view_of(fortran("DO 10 I=2,9", "10 PRINT *,I", "END"))
        said = prove(printed, _stand_in(), [1], "parallel")[0]
        self.assertIn("stays: lines are read and printed in their order", said)
        self.assertEqual(steps, [])

    def test_no_time(self) -> None:
        view = view_of(_SOURCE)
        proof = Prover(_stand_in(), view, Purse(seconds=0)).prove([view.program.loops[2]], "parallel")[0]
        self.assertEqual([one.text for one in proof.findings], ["not found: the time of the command is over"] * 2)

    def test_nothing_in_doubt(self) -> None:
        free = view_of(fortran("INTEGER A(9)", "SAVE A", "DO 10 I=2,9", "10 A(I)=I", "END"))
        self.assertEqual(prove(free, _stand_in(), [], "parallel"), (
            "no loop where only pending rows of elements forbid `parallel`\n", []
        ))


class Older(CallingInside):
    """A ped without the commands."""

    def test_the_strategy_is_that_of_auto(self) -> None:
        for name in ("triangular", "red and black", "halves", "what no step reaches", "a wave"):
            view = view_of(PROGRAMS[name].source)
            strategy = Strategy(ped(), view, Purse(seconds=0))
            left = [(one.loop.number, one.refusal) for one in strategy.run()]
            reply = ped().session(text_of(view.panes.lines), "auto\n")[0]
            self.assertEqual([" ".join(step) for step in strategy.steps], list(reply.taken), name)
            self.assertEqual(left, [(one.number, one.refusal) for one in reply.left], name)

    def test_it_is_told(self) -> None:
        if _has_evidence():
            self.skipTest("this ped has the commands")
        name, script = self.file("p.f", _SOURCE), os.path.join(self.folder, "script")
        for words in (["prove", name], ["prove", name, "2"], ["auto", name, "--prove"]):
            said = "pedx: error: this ped has no command `system`, so no evidence can be looked for"
            self.assertEqual(self.ends(Status.NO_PED, [*words, "--save", script], said), "")
        self.assertFalse(os.path.exists(script))


class Saving(CallingInside):
    def test_auto(self) -> None:
        name = self.file("p.f", fortran("INTEGER A(9)", "SAVE A", "DO 10 I=2,9", "10 A(I)=I", "END"))
        script = os.path.join(self.folder, "script")
        self.assertEqual(self.ends(Status.DONE, ["auto", name, "--save", script]), "auto: 1 step\nparallel 1\n")
        self.assertEqual(read_file(script), "parallel 1\n")
        said = f"{script} is there; --script {script} goes on behind it"
        self.ends(Status.BAD_WORDS, ["auto", name, "--save", script], said)
        self.assertEqual(read_file(script), "parallel 1\n")
        again = ["auto", name, "--script", script, "--save", script]
        self.assertEqual(self.ends(Status.DONE, again), "auto: 0 steps\n")

    def test_behind_a_script(self) -> None:
        name = self.file("script", "print\ninsert 3\n      K = 1\n")
        self.assertEqual(
            appended(name, name, [("parallel 2 by", "x", "."), ("serial 2",)]),
            "print\nparallel 2 by\nx\n.\nserial 2\ninsert 3\n      K = 1\n",
        )
        with self.assertRaises(CompanionError):
            appended(None, name, [("serial 2",)])
        self.assertEqual(appended(None, os.path.join(self.folder, "new"), [("serial 2",)]), "serial 2\n")


class Proved(CallingInside):
    """What a ped with the commands says."""

    def setUp(self) -> None:
        super().setUp()
        if not _has_evidence():
            self.skipTest("this ped has no commands for evidence")

    def test_programs(self) -> None:
        for name, wanted in PROGRAMS.items():
            view = view_of(wanted.source)
            loops = list(view.program.loops.values())
            for step in STEPS:
                proofs = Prover(ped(), view, Purse()).prove(loops, step)
                found = tuple(proof.loop.number for proof in proofs if proof.lines and proof.is_accepted)
                self.assertEqual(found, getattr(wanted, step), f"{name}: {step}")

    def test_random_programs(self) -> None:
        for number in range(12):
            found = check(ped(), f"gate {number}")
            self.assertEqual(found.faults, [])

    def test_the_command(self) -> None:
        name, script = self.file("p.f", _SOURCE), os.path.join(self.folder, "script")
        self.assertEqual(self.ends(Status.DONE, ["prove", name, "2", "--save", script]), _ANSWER)
        behind = open_view(ped(), Question(name, script))
        self.assertEqual(behind.complaints, ())
        self.assertTrue(behind.program.loops[2].form.parallel)

    def test_offers(self) -> None:
        name = self.file("p.f", _SOURCE)
        offered = "`pedx prove FILE 2`: with its evidence ped accepts `parallel 2`"
        self.assertIn(f"- try {offered}\n", self.ends(Status.DONE, ["loops", name, "2"]))
        self.assertIn(f"              {offered}\n", self.ends(Status.DONE, ["tune", name, "2"]))
        self.assertNotIn("pedx prove", self.ends(Status.DONE, ["loops", name, "1"]))
        self.assertIn("`pedx prove FILE 2` looks for evidence", self.ends(Status.DONE, ["why", name, "--loop", "2"]))

    def test_what_evidence_disproves_is_not_carried(self) -> None:
        name, script = self.file("p.f", _SOURCE), os.path.join(self.folder, "script")
        self.ends(Status.DONE, ["prove", name, "--save", script])
        verdict = self.ends(Status.DONE, ["loops", name, "2", "--script", script])
        self.assertIn("parallel: carries nothing but what evidence disproves of A\n", verdict)
        self.ends(Status.DONE, ["omp", name, "--script", script, "--strict"])
        printed = self.file("r.f", text_of(open_view(ped(), Question(name, script)).panes.lines))
        self.ends(Status.DONE, ["check", printed, "--strict"])
        unsure = self.file("q.f", _SOURCE.replace("DO 10 K", "PARALLEL DO 10 K"))
        self.assertIn("PARALLEL DO, but carries A\n", self.ends(Status.DONE, ["loops", unsure, "1"]))
        self.ends(Status.WARNING, ["check", unsure, "--strict"])

    def test_auto(self) -> None:
        for name, wanted in PROGRAMS.items():
            view = view_of(wanted.source)
            strategy = Strategy(ped(), view, Purse())
            strategy.run()
            self.assertEqual(replayed(ped(), view, strategy.steps), tuple(strategy.view.panes.lines), name)
            plain = ped().session(text_of(view.panes.lines), "auto\nshow\n")
            free = _parallel_loops(View(read_panes(plain[1].rows), view.printed, view.printed, [], ""))
            self.assertGreaterEqual(_parallel_loops(strategy.view), free, name)
            if wanted.parallel:
                self.assertGreater(_parallel_loops(strategy.view), free, name)


def _parallel_loops(view: View) -> int:
    return sum(line.lstrip().startswith("PARALLEL DO") for line in view.panes.lines)


if __name__ == "__main__":
    unittest.main()
