"""`pedx loops`: verdicts, and what to try."""

import re
import unittest
from typing import Dict, List, Optional

from ..automatic import marked, rests
from ..commands.loops import find_loop, loops
from ..lines import split_lines
from ..ped import Ped
from ..replies import Reply, read_replies
from ..scripts import Command, read_script
from ..statuses import CompanionError, Status
from ..views import View
from .support import ADVICE, example_view, fortran, ped, view_of

_NO_PED = Ped("/nowhere/ped")


def verdicts(view: View) -> Dict[int, str]:
    """The verdict on each loop, by its statement. Nothing is tried, so ped isn't called."""
    rows = loops(view, _NO_PED, [], tries=False).splitlines()[1:]
    return {int(row[:4]): re.split(" {2,}", row)[-1] for row in rows if row[:4].strip()}


def advice(view: View, loop: int, program: Optional[Ped] = None) -> List[str]:
    """What is to be tried at a loop; what else ped accepts, and why `auto` leaves it, only of a fake program."""
    rows = loops(view, program or ped(), [loop], tries=True).splitlines()
    told = [row.strip()[2:] for row in rows if row.strip().startswith("- ")]
    return [row for row in told if program is not None or not row.startswith(("ped accepts ", "`auto` leaves "))]


def left(view: View) -> List[str]:
    """What `auto` leaves, each row behind the number of its loop."""
    told = []
    number = 0
    for row in loops(view, ped(), [], tries=True).splitlines()[1:]:
        number = int(row[:4]) if row[:4].strip() else number
        if "`auto` leaves " in row:
            told.append(f"{number}: {row.strip()[2:]}")
    return told


def untried(view: View, loop: int) -> List[str]:
    """What is to be tried at a loop, where nothing is tried, so that ped isn't called."""
    rows = loops(view, _NO_PED, [loop], tries=False).splitlines()
    return [row.strip()[2:] for row in rows if row.strip().startswith("- ")]


class FakePed(Ped):
    """A program that gives the same advice on each loop, accepts all steps and shows no dependence."""

    def __init__(self) -> None:
        super().__init__("/nowhere/ped")
        self.scripts: List[str] = []

    def session(self, source: str, script: str, data: Optional[str] = None) -> List[Reply]:
        self.scripts.append(script)
        commands = read_script(script)
        return read_replies(commands, [row for one in commands for row in self._rows(one, split_lines(source))])

    @staticmethod
    def _rows(command: Command, lines: List[str]) -> List[str]:
        shown = [f"source {len(lines)}", *(f"{number:5}      {text}" for number, text in enumerate(lines, 1))]
        others = {
            "advise": ADVICE, "deps": ["dependences 0"], "source": shown,
            "auto": [f"{command.line}: auto 0", *lines],
        }
        return others.get(command.word, [f"{command.line}: ok"])


class Verdicts(unittest.TestCase):
    def test_words(self) -> None:
        self.assertEqual(verdicts(example_view("panes/private")), {
            1: "carries (IN)", 3: "carries ISQ", 6: "parallel: carries nothing", 10: "carries ISUM",
        })
        self.assertEqual(verdicts(example_view("panes/chains"))[11], "free: carries nothing but what is rejected of Z")
        self.assertEqual(verdicts(example_view("panes/independent")), {1: "free: carries nothing"})

    def test_racing(self) -> None:
        view = view_of(fortran("INTEGER A(9)", "PARALLEL DO 10 I = 2, 9", "10 A(I) = A(I-1)", "END"))
        self.assertEqual(verdicts(view), {1: "PARALLEL DO, but carries A"})

    def test_layout(self) -> None:
        view = view_of(fortran(
            "INTEGER A(9,9)", "DO 10 I = 2, 9", "DO 10 J = 1, 9, 2", "10 A(I,J) = A(I-1,J)", "END"
        ))
        self.assertEqual(loops(view, _NO_PED, [], tries=False).splitlines(), [
            "   S  line  loop              verdict",
            "   1     2  DO I = 2, 9       carries A",
            "              A: flow (1 row), proven",
            "   2     3    DO J = 1, 9, 2  free: carries nothing",
        ])

    def test_chosen(self) -> None:
        rows = loops(example_view("panes/private"), _NO_PED, [6], tries=False).splitlines()
        self.assertEqual(len(rows), 2)
        with self.assertRaises(CompanionError) as caught:
            find_loop(example_view("panes/private"), 2)
        self.assertIs(caught.exception.status, Status.BAD_WORDS)

    def test_asks_of_chosen_loops_alone(self) -> None:
        """`auto` would have ped look at all loops."""
        nest = ["DO I = 2, 9", "DO J = 1, 9", "A(I,J) = A(I-1,J)", "END DO", "END DO"]
        view = view_of(fortran("INTEGER A(9,9)", *nest * 3, "END"))
        fake = FakePed()
        loops(view, fake, [4], tries=True)
        self.assertEqual(fake.scripts, ["advise 4\n", "interchange 4\ndeps 4\nundo\n"])
        fake = FakePed()
        loops(view, fake, [], tries=True)
        self.assertIn("auto\nsource\n", fake.scripts)

    def test_no_loop_of_many(self) -> None:
        view = view_of(fortran(*["DO I = 2, 9", "K = I", "END DO"] * 30, "END"))
        with self.assertRaises(CompanionError) as caught:
            find_loop(view, 24)
        self.assertEqual(
            caught.exception.message, "statement 24 of p.f is no DO; it has 30 loops, the nearest at 23 and 25"
        )

    def test_no_loops(self) -> None:
        self.assertEqual(loops(view_of(fortran("K = 1", "END")), _NO_PED, [], tries=True), "no loops\n")


class Advice(unittest.TestCase):
    def test_accepted_steps(self) -> None:
        self.assertEqual(advice(example_view("steps/squares"), 3), [
            "try `privatise 3 T`: ped accepts it, and the loop then carries nothing",
            "try `expand 3 T`: ped accepts it, and the loop then carries nothing",
        ])

    def test_refused_steps(self) -> None:
        self.assertEqual(advice(example_view("steps/spread"), 4), [
            "try `expand 4 ISPR`: ped accepts it, and the loop then carries nothing",
            "`privatise 4 ISPR`: refused rule 12 ExposedOrLive at 7: statement 7 may read ISPR after the loop, and "
            "the step would lose its value",
        ])

    def test_sum(self) -> None:
        self.assertEqual(advice(example_view("panes/private"), 10), [
            "`privatise 10 ISUM` and `expand 10 ISUM`: refused rule 12 ExposedOrLive at 11: statement 11 may read ISUM "
            "before the iteration assigns it",
            "try `reduce 10 ISUM`: ped accepts it, and the iterations may then be done in any order",
        ])

    def test_product(self) -> None:
        """A product is no sum."""
        view = view_of(fortran("DO 10 I = 1, 9", "10 K = K*I", "PRINT *, K", "END"))
        self.assertEqual(advice(view, 1)[1:], [
            "K is a product: store the factors in an array, and multiply them in a loop of its own",
        ])

    def test_open_sum(self) -> None:
        """The bounds are open, so `reduce` is refused."""
        view = view_of(fortran("READ *, N", "DO 10 I = 1, N", "10 K = K-I", "PRINT *, K", "END"))
        self.assertIn(
            "`reduce 2 K`: refused rule 14 NotConstant at 2: a bound of the loop isn't constant, or the loop has no "
            "iteration", advice(view, 2),
        )

    def test_sums(self) -> None:
        """Two scalars are summed up, one of them in an IF, and one is private."""
        view = view_of(fortran(
            "DO 10 I = 1, 9", "K = I*I", "IF (K.GT.9) L = L+(K-I)", "10 M = K+M", "PRINT *, L, M", "END"
        ))
        self.assertEqual(advice(view, 1)[-1], (
            "try `privatise 1 K` and `reduce 1 L M`: ped accepts them, and the iterations may then be done in any order"
        ))

    def test_sum_and_array(self) -> None:
        """What is left besides the sum is no sum, so `reduce` isn't tried."""
        view = view_of(fortran(
            "INTEGER A(9)", "DO 10 I = 2, 9", "A(I) = A(I-1)", "10 K = K+A(I)", "PRINT *, K", "END"
        ))
        self.assertFalse([row for row in advice(view, 1) if "reduce" in row])

    def test_two_scalars(self) -> None:
        view = view_of(fortran(
            "INTEGER A(9), B(9)", "DO 10 I = 1, 9", "K = A(I)", "L = B(I)", "A(I) = L", "10 B(I) = K", "END"
        ))
        self.assertEqual(advice(view, 1), [
            "try `privatise 1 K`: ped accepts it", "try `expand 1 K`: ped accepts it",
            "try `privatise 1 L`: ped accepts it", "try `expand 1 L`: ped accepts it",
            "try `privatise 1 K` and `privatise 1 L`: ped accepts them, and the loop then carries nothing",
        ])

    def test_saved_scalar(self) -> None:
        view = view_of(fortran("SAVE", "DO 10 I = 1, 9", "10 K = I", "END"))
        self.assertIn(
            "`privatise 1 K`: refused rule 12 ExposedOrLive at 1: K is in SAVE, and the step would lose its value",
            advice(view, 1),
        )

    def test_arrays(self) -> None:
        view = view_of(fortran(
            "INTEGER A(99), B(99), C(99), L(99)", "DO 10 I = 4, 90", "A(L(I)) = I", "B(I) = B(I+1)",
            "10 C(I) = C(I-3)", "END",
        ))
        self.assertEqual(advice(view, 1), [
            "where you know that no two iterations use one element: C$PED REJECT A before the loop",
            "only old values are read: copy B into another array before the loop, and read that one",
            "iterations that are fewer than 3 apart don't depend on each other",
            "try `distribute 1`: ped accepts it, and makes 3 loops of it",
        ])

    def test_no_rejection(self) -> None:
        """Rows that bounds and IFs alone leave pending, and those beside a proven one, aren't to be rejected."""
        view = view_of(fortran(
            "INTEGER A(99), B(99), L(99)", "READ *, N", "DO 10 I = 2, N", "A(I) = A(I-1)", "10 B(2) = A(I)", "END"
        ))
        self.assertFalse([row for row in advice(view, 2) if "REJECT" in row])

    def test_maximum(self) -> None:
        view = view_of(fortran("INTEGER A(9)", "DO 10 I = 1, 9", "10 M = MAX(M,A(I))", "PRINT *, M", "END"))
        self.assertEqual(advice(view, 1)[1:], [
            "M is a maximum: store the values that are compared in an array, and take the maximum in a loop of its own",
        ])

    def test_call_in_the_way(self) -> None:
        """The CALL is one statement, so the loop isn't taken apart."""
        view = view_of(fortran(
            "INTEGER A(9), B(9)", "DO 10 I = 2, 9", "10 CALL S(A,B,I)", "END",
            "SUBROUTINE S(A,B,I)", "INTEGER A(9), B(9)", "A(I) = A(I-1)+1", "B(I) = 2*A(I)", "END",
        ))
        self.assertEqual(advice(view, 1), [
            "try `inline 2`: ped accepts it, and the CALL is no longer one statement, which `distribute` keeps whole",
        ])

    def test_lines(self) -> None:
        view = view_of(fortran("INTEGER A(9)", "DO 10 I = 1, 9", "READ *, A(I)", "10 PRINT *, A(I)", "END"))
        self.assertEqual(advice(view, 1), [
            "READ takes its lines in order: read into an array, in a loop of its own",
            "PRINT keeps its lines in order: store the values in an array, and print them in a loop of their own",
            "try `distribute 1`: ped accepts it, and makes 2 loops of it",
        ])
        self.assertEqual(advice(example_view("panes/product"), 17), [
            "`interchange 17`: refused edge 19.2 19.2 (OUT) output 1 (<,*) (*,*) pending: this dependence forbids it",
        ])

    def test_variable_behind_the_loop(self) -> None:
        read = view_of(fortran("INTEGER A(9)", "DO 10 I = 1, 9", "10 A(I) = I", "PRINT *, 2", "PRINT *, I", "END"))
        self.assertIn("statement 4 may read I, which has no value after a PARALLEL DO", untried(read, 1))
        saved = view_of(fortran(
            "INTEGER A(9,9)", "SAVE J", "DO 10 I = 1, 9", "DO 10 J = 1, 9", "10 A(I,J) = I", "END"
        ))
        self.assertIn("J is in SAVE, and has no value after a PARALLEL DO", untried(saved, 1))

    def test_asks_for_advice(self) -> None:
        """Of a loop that carries nothing `advise` tells, and nothing is tried."""
        nest = view_of(fortran("INTEGER A(9,9)", "DO 10 I = 1, 9, 2", "DO 10 J = 1, 9", "10 A(I,J) = I", "END"))
        fake = FakePed()
        self.assertEqual(advice(nest, 1, fake), [
            "try `parallel 1`: ped accepts it", "ped accepts `interchange 1` and `peel 1 first`",
        ])
        self.assertEqual(fake.scripts, ["advise 1\n"])

    def test_tries_what_may_be_better(self) -> None:
        """The rows depend on each other: whether the columns do where they come outside is tried."""
        nest = view_of(fortran("INTEGER A(9,9)", "DO 10 I = 2, 9", "DO 10 J = 1, 9", "10 A(I,J) = A(I-1,J)", "END"))
        fake = FakePed()
        self.assertEqual(advice(nest, 1, fake), [
            "try `interchange 1`: ped accepts it, and puts DO J outside, which then carries nothing",
            "ped accepts `parallel 1` and `peel 1 first`",
        ])
        self.assertEqual(fake.scripts, ["advise 1\n", "interchange 1\ndeps 1\nundo\n"])

    def test_parallel_refused(self) -> None:
        """The variable is wanted after the loop, where it would have no value."""
        wanted = view_of(fortran("INTEGER A(9)", "DO 10 I = 1, 9", "10 A(I) = I", "PRINT *, I", "END"))
        self.assertEqual(advice(wanted, 1), [
            "`parallel 1`: refused rule 5 IndexEscapes at 3: statement 3 reads the variable of a loop where the step "
            "would leave it without a value",
        ])

    def test_fuse(self) -> None:
        """B(I) wants what another iteration writes later: fused, it would be read before."""
        neighbours = ("INTEGER A(9), B(9)", "DO 10 I = 1, 9", "10 A(I) = I", "DO 20 I = 1, 9")
        self.assertIn(
            "try `fuse 1`: ped accepts it, and makes one of loops 1 and 3, which then carries nothing",
            advice(view_of(fortran(*neighbours, "20 B(I) = A(I)", "END")), 1),
        )
        carrying = view_of(fortran(*neighbours, "20 B(I) = A(I-1)", "END"))
        self.assertEqual(advice(carrying, 1), ["try `parallel 1`: ped accepts it"])
        self.assertIn("- ped accepts `reverse 1`, `fuse 1`,", loops(carrying, ped(), [1], tries=True))
        self.assertIn(
            "`fuse 1`: refused edge 4.1 2.1 A anti 1 (<) (1) proven: the one loop would carry this dependence",
            advice(view_of(fortran(*neighbours, "20 B(I) = A(I+1)", "END")), 1),
        )

    def test_distribute(self) -> None:
        view = view_of(fortran("INTEGER A(9), B(9)", "DO 10 I = 2, 9", "A(I) = A(I-1)", "10 B(I) = 2*A(I)", "END"))
        self.assertEqual(advice(view, 1), [
            "try `distribute 1`: ped accepts it, and makes 2 loops of it, of which 3 carries nothing",
        ])

    def test_interchange(self) -> None:
        """What the outer loop carries to a lower J forbids the interchange; what it carries to the same J doesn't."""
        head = ("INTEGER A(9,9)", "DO 10 I = 2, 9", "DO 10 J = 1, 8")
        self.assertEqual(advice(view_of(fortran(*head, "10 A(I,J) = A(I-1,J+1)", "END")), 1), [
            "`interchange 1`: refused edge 3.2 3.1 A flow 1 (<,>) (1,-1) proven: this dependence forbids it",
        ])
        self.assertEqual(advice(view_of(fortran(*head, "10 A(I,J) = A(I-1,J)", "END")), 1), [
            "try `interchange 1`: ped accepts it, and puts DO J outside, which then carries nothing",
        ])


class LeftLoops(unittest.TestCase):
    """What `pedx loops` says of the loops that `auto` leaves."""

    def test_recurrence(self) -> None:
        self.assertEqual(left(example_view("panes/recurrence")), [
            "1: `auto` leaves it: refused edge 2.2 2.1 A flow 1 (<) (1) proven: this dependence forbids it",
        ])

    def test_nothing_left(self) -> None:
        self.assertEqual(left(example_view("panes/independent")), [])

    def test_sums(self) -> None:
        view = view_of(fortran("DO 10 I = 1, 9", "K = K+I", "10 L = L-I", "PRINT *, K, L", "END"))
        self.assertEqual(left(view), [
            "1: `auto` leaves it after `reduce 1 K L`: refused edge 2.1 2.2 K anti 1 (<) (*) proven: this dependence "
            "forbids it",
        ])

    def test_rule(self) -> None:
        view = view_of(fortran("INTEGER A(9)", "DO 10 I = 1, 9", "10 A(I) = I", "PRINT *, I", "END"))
        self.assertEqual(left(view), [
            "1: `auto` leaves it: refused rule 5 IndexEscapes at 3: statement 3 reads the variable of a loop where the "
            "step would leave it without a value",
        ])

    def test_numbers_anew(self) -> None:
        """The first loop is taken apart, so the others have other numbers; of the second one a part is left."""
        view = view_of(fortran(
            "INTEGER A(9), B(9), C(9)", "DO 10 I = 2, 9", "A(I) = I", "10 B(I) = A(I-1)",
            "DO 20 I = 2, 9", "A(I) = A(I-1)", "20 C(I) = A(I)", "C$PED REJECT B", "DO 30 I = 2, 9", "30 B(I) = B(I-1)",
            "END",
        ).replace("      C$PED", "C$PED"))
        self.assertEqual(left(view), [
            "4: `auto` leaves loop 5 of it: refused edge 6.2 6.1 A flow 1 (<) (1) proven: this dependence forbids it",
            "7: `auto` leaves it as loop 9: refused edge 10.2 10.1 B flow 1 (<) (1) proven: this dependence forbids it",
        ])

    def test_inner_loops(self) -> None:
        """Two loops with one header stand in a loop that is taken apart, in the other order."""
        view = view_of(fortran(
            "INTEGER A(9,9), B(9,9)", "DO 10 I = 2, 9", "DO 20 J = 2, 9", "20 A(I,J) = A(I,J-1)+B(I-1,J)",
            "DO 10 J = 2, 9", "10 B(I,J) = B(I-1,J)+B(I,J-1)", "END",
        ))
        self.assertEqual([row.split(": refused")[0] for row in left(view)], [
            "1: `auto` leaves loop 1 of it", "2: `auto` leaves it as loop 5", "4: `auto` leaves it as loop 2",
        ])

    def test_marks(self) -> None:
        """The comments before the loops change nothing of what `auto` does, and all that are left are found again."""
        for name in ("panes/chains", "panes/knapsack", "panes/private", "steps/relief", "panes/seidel"):
            view = example_view(name)
            with self.subTest(name):
                texts = ["".join(line + "\n" for line in lines) for lines in (view.panes.lines, marked(view))]
                plain, other = [ped().session(text, "auto\n")[0] for text in texts]
                self.assertEqual((plain.taken, plain.left), (other.taken, other.left))
                found = [rest for of_loop in rests(ped(), view).values() for rest in of_loop]
                self.assertEqual(sorted(rest.number for rest in found), [one.number for one in plain.left])

    def test_comment_like_a_mark(self) -> None:
        text = "CLOOP0 1\n" + fortran("DO 10 I = 2, 9", "10 K = I-K", "PRINT *, K", "END")
        self.assertEqual(len(left(view_of(text))), 1)


if __name__ == "__main__":
    unittest.main()
