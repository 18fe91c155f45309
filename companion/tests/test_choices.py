"""Which loops get a directive by the counts of a run, what the header says of the others, and the clause IF."""

import os
import shutil
import subprocess
import tempfile
import unittest
from math import prod
from pathlib import Path
from typing import Dict, List, Optional, Tuple

from ..choices import ENOUGH, LEAST_WORK, choice_of
from ..counting import Counts, Tally
from ..estimates import estimate_of
from ..lines import split_lines
from ..openmp import Choice, Wishes, translate
from ..program import Loop, Program, read_program
from ..ranges import iterations_of, most_executed, most_in_iteration
from .support import fortran

#: A nest: a sequential loop 1, in it the PARALLEL DO 2, in it the PARALLEL DO 3 with the statement 4.
NEST = fortran(
    "DO K = 1, 9", "PARALLEL DO I = 1, N", "PARALLEL DO J = 1, M", "A(J,I) = A(J,I)+K", "END DO", "END DO", "END DO",
    "END",
)


PAYING = Wishes(paying=True)


def program_of(text: str) -> Program:
    """A printed program."""
    return read_program(split_lines(text))


def chosen(text: str, loops: Dict[int, Tuple[int, int, int]]) -> Choice:
    """The choice for a printed program by such entries, iterations and executed statements."""
    counts = Counts(10**9, {number: Tally(*tally) for number, tally in loops.items()})
    return choice_of(program_of(text), {}, PAYING, counts)


def nest(entries: int, outer: int, inner: int) -> Choice:
    """The choice for the nest, where loop 2 has so many entries, each of so many iterations, and so has loop 3."""
    return chosen(NEST, {
        1: (1, entries, entries*(1+outer*(1+inner))), 2: (entries, entries*outer, entries*outer*(1+inner)),
        3: (entries*outer, entries*outer*inner, entries*outer*inner),
    })


def written(choice: Choice, text: str = NEST) -> List[str]:
    """The directives of a translated program, without the words that all have."""
    rows = translate(split_lines(text), program_of(text), {}, Wishes(), {}, choice).lines
    return [row[len("C$OMP PARALLEL DO"):].strip() if row.startswith("C$OMP P") else row
            for row in rows if row.startswith("C$OMP")]


def joined(rows: List[str]) -> str:
    """A directive without its words, joined from its rows."""
    return "".join(row[len("C$OMP&"):] if row.startswith("C$OMP&") else row for row in rows).strip()


class ByCounts(unittest.TestCase):
    def test_outermost(self) -> None:
        """The outermost parallel loop that has iterations and statements enough, without a remark."""
        self.assertEqual((list(nest(9, 100, 200).loops), nest(9, 100, 200).remarks), ([2], ()))
        self.assertEqual(list(nest(9, ENOUGH, 200000).loops), [2])

    def test_few_iterations(self) -> None:
        """With too few iterations outside, the loop inside is taken; if that one does too little, the outer one is."""
        choice = nest(9, 2, 20000)
        self.assertEqual(list(choice.loops), [3])
        self.assertEqual(choice.remarks, (
            "loop 2, DO I: 2 iterations an entry are few for threads, so loop 3, DO J in it has its directive",
        ))
        self.assertEqual(list(nest(9, 2, LEAST_WORK - 1).loops), [2])
        self.assertEqual(nest(9, 2, LEAST_WORK - 1).remarks, ())
        self.assertEqual(list(nest(9, 1, LEAST_WORK).loops), [3])

    def test_little_work(self) -> None:
        """A region that is started too often for its work: with open bounds it gets a condition."""
        choice = nest(1000, 10, 9)
        self.assertEqual((list(choice.loops), choice.least), ([2], {2: 1000}))
        self.assertEqual(choice.remarks, (
            "loop 2, DO I: 1000 entries with 100 statements each don't pay for threads, so they start from 1000 "
            "iterations on",
        ))
        self.assertEqual(written(choice), ["IF(N.GE.1000) PRIVATE(J)"])

    def test_little_work_always(self) -> None:
        """With known bounds it gets no directive."""
        text = fortran(
            "DO K = 1, 9", "PARALLEL DO I = 1, 10", "A(I) = A(I)+K", "END DO", "END DO", "END"
        )
        choice = chosen(text, {1: (1, 9, 99), 2: (9, 90, 90)})
        self.assertEqual((choice.loops, choice.least), ({}, {}))
        self.assertEqual(choice.remarks, (
            "loop 2, DO I: 9 entries with 10 statements each don't pay for threads, so there is no directive",
        ))
        self.assertEqual(written(choice, text), [])
        rows = translate(split_lines(text), program_of(text), {}, Wishes(), {}, choice).lines
        self.assertEqual(rows[1:5], [
            "C     gfortran -O2 -o NAME NAME.f",
            "C     PEDX: LOOP 2, DO I: 9 ENTRIES WITH 10 STATEMENTS EACH DON'T PAY",
            "C     FOR THREADS, SO THERE IS NO DIRECTIVE.",
            "      DO K = 1, 9",
        ])

    def test_not_entered(self) -> None:
        """Of a loop that the run doesn't enter nothing is known, so it's as without counts."""
        choice = chosen(NEST, {1: (1, 0, 0), 2: (0, 0, 0), 3: (0, 0, 0)})
        self.assertEqual(list(choice.loops), [2])
        self.assertEqual(choice.remarks, ("loop 2, DO I: not entered in the counted run, so nothing is known of it",))

    def test_no_iterations(self) -> None:
        """Without iterations the statements of the body count as they are in the text."""
        self.assertEqual(chosen(NEST, {1: (1, 9, 9), 2: (9, 0, 0), 3: (0, 0, 0)}).least, {2: LEAST_WORK // 2})

    def test_every(self) -> None:
        """With --all each parallel loop gets its directive, whatever the counts are."""
        counts = Counts(1, {1: Tally(1, 1, 1), 2: Tally(1, 1, 1), 3: Tally(1, 1, 1)})
        choice = choice_of(program_of(NEST), {}, Wishes(every=True), counts)
        self.assertEqual((list(choice.loops), choice.least, choice.remarks), ([2, 3], {}, ()))

    def test_sums(self) -> None:
        """A loop with a live list is a candidate as a PARALLEL DO is."""
        text = fortran("DO I = 1, N", "K = K+I", "END DO", "END")
        few = Counts(9, {1: Tally(1, 8, 8)})
        many = Counts(9, {1: Tally(1, LEAST_WORK, LEAST_WORK)})
        self.assertEqual(choice_of(program_of(text), {1: ["K"]}, PAYING, few).least, {1: LEAST_WORK})
        choice = choice_of(program_of(text), {1: ["K"]}, PAYING, many)
        self.assertEqual((list(choice.loops), choice.least, choice.remarks), ([1], {}, ()))


class WithoutCounts(unittest.TestCase):
    def test_small_loops(self) -> None:
        """Of a loop that the text knows to do little there is no directive, but with --all, and for the editor."""
        text = fortran(
            "PARAMETER (N=10)", "PARALLEL DO I = 1, N", "DO J = 1, 20", "IF (J.EQ.I) THEN", "A(I) = J", "END IF",
            "END DO", "END DO", "PARALLEL DO I = 1, 9000", "A(I) = I", "B(I) = I", "END DO", "PARALLEL DO I = 1, 10",
            "A(I) = I", "END DO", "END",
        )
        choice = choice_of(program_of(text), {}, PAYING)
        self.assertEqual((list(choice.loops), choice.least), ([5], {}))
        # 10 iterations, in each the DO and 20 times the IF and the assignment: 10 * (1 + 20 * 2).
        self.assertEqual(choice.remarks, ("loops 1 and 8: at most 410 statements an entry, so threads don't pay",))
        for wishes in (Wishes(), Wishes(every=True)):
            self.assertEqual(list(choice_of(program_of(text), {}, wishes).loops), [1, 5, 8])

    def test_open_bounds(self) -> None:
        """Where the data decide, threads start from as many iterations on as have enough statements at most."""
        text = fortran(
            "READ *, N", "PARALLEL DO I = 1, N", "DO J = 1, 9", "A(J,I) = J", "END DO", "END DO",
            "PARALLEL DO I = 1, N", "DO J = 1, N", "A(J,I) = J", "END DO", "END DO", "END"
        )
        choice = choice_of(program_of(text), {}, PAYING)
        self.assertEqual((list(choice.loops), choice.least), ([2, 5], {2: 1000}))
        self.assertEqual(choice.remarks, (
            "loop 2, DO I: at most 10 statements an iteration, so threads start from 1000 on",
            "loop 5, DO I: threads start from some 10000 statements an entry on",
        ))
        # N times the DO and N assignments.
        wanted = ["IF(N.GE.1000) PRIVATE(J)", "IF(N.GE.2.AND.1D0*N*N+N.GE.10000) PRIVATE(J)"]
        self.assertEqual(written(choice, text), wanted)

    def test_most_executed(self) -> None:
        loops: List[Tuple[str, List[str], Optional[int], Optional[int]]] = [
            ("I = 1, 9", ["K = I"], 9, 1), ("I = 9, 1, -4", ["K = I"], 3, 1), ("I = 9, 1", ["K = I"], 0, 1),
            ("I = 1, N", ["K = I"], None, 1), ("I = 1, 9", [], 0, 0), ("I = 1, 9, N", ["K = I"], None, 1),
            # I is 1 to 9, so J = I, 3 has at most 3 iterations, J = 1, 2*I at most 18, and J = 3-I, 5 at most 12.
            ("I = 1, 9", ["DO J = I, 3", "K = 1", "END DO"], 36, 4),
            ("I = 1, 9", ["DO J = 1, 2*I", "K = 1", "END DO"], 9 * 19, 19),
            ("I = 1, 9", ["DO J = 3-I, 5", "K = 1", "END DO"], 9 * 13, 13),
            ("I = 9, 1, -1", ["DO J = MAX(I,2), MIN(I+3,8)", "K = 1", "END DO"], 9 * 8, 8),
            ("I = 1, 9", ["DO J = 9, -I, -2", "K = 1", "END DO"], 9 * 11, 11),
            ("I = 1, 9", ["DO J = 1, MOD(I,2)", "K = 1", "END DO"], None, None),
            ("I = 1, N", ["DO J = 1, I", "K = 1", "END DO"], None, None),
            ("I = 1, 9", ["IF (K.GT.I) THEN", "K = 1", "ELSE", "K = 2", "END IF"], 27, 3),
        ]
        for header, body, most, each in loops:
            with self.subTest(header, body=body):
                program = program_of(fortran(f"DO {header}", *body, "END DO", "END"))
                loop = program.loops[1]
                self.assertEqual((most_executed(program, loop), most_in_iteration(program, loop)), (most, each))

    def test_inside(self) -> None:
        """The variables of the loops round a loop have their ranges, too."""
        program = program_of(fortran("DO I = 2, 4", "DO J = I, 9", "K = 1", "END DO", "END DO", "END"))
        self.assertEqual(most_executed(program, program.loops[2]), 8)
        self.assertEqual([iterations_of(program, loop) for loop in program.loops.values()], [3, None])


#: Nests with open bounds: what comes before, the header of the parallel loop, its body, and the condition.
NESTS: List[Tuple[List[str], str, List[str], str]] = [
    # N entries of DO J with M assignments: N * (1 + M).
    ([], "I = 1, N", ["DO J = 1, M", "A(J,I) = 1", "END DO"], "N.GE.2.AND.1D0*M*N+N.GE.10000"),
    # N * (1 + M * (1 + L)). With a negative N and L the product would count, so the outer ones have their conditions.
    ([], "I = 1, N", ["DO J = 1, M", "DO K = 1, L", "A(K,J) = I", "END DO", "END DO"],
     "N.GE.2.AND.M.GE.1.AND.1D0*L*M*N+1D0*M*N+N.GE.10000"),
    # One after the other: N * (1 + M + 1 + L * 2).
    ([], "I = 1, N", ["DO J = 1, M", "A(J,I) = 1", "END DO", "DO J = 1, L", "A(J,I) = 2", "B(J,I) = 2", "END DO"],
     "N.GE.2.AND.2D0*L*N+1D0*M*N+2D0*N.GE.10000"),
    # Only inside: 100 * (1 + M) is 10000 from M = 99 on; 100 * (1 + 8 * (1 + M)) from 11.375 on.
    ([], "I = 1, 100", ["DO J = 1, M", "A(J,I) = 1", "END DO"], "M.GE.99"),
    ([], "I = 1, 100", ["DO J = 1, 8", "DO K = 1, M", "A(J,I) = 1", "END DO", "END DO"], "M.GE.12"),
    # The same from above: 100 * (1 + (9 - M + 1)) is 10000 from M = -89 down.
    ([], "I = 1, 100", ["DO J = M, 9", "A(J,I) = 1", "END DO"], "M.LE.-89"),
    # Triangles. I has the mean 0.5 * (N + 1), so DO J has 0.5 * N + 0.5 iterations: N * (1 + 0.5 * N + 0.5).
    ([], "I = 1, N", ["DO J = I, N", "A(J,I) = 1", "END DO"], "N.GE.2.AND.0.5D0*N*N+1.5D0*N.GE.10000"),
    ([], "I = 1, N", ["DO J = 1, I", "A(J,I) = 1", "END DO"], "N.GE.2.AND.0.5D0*N*N+1.5D0*N.GE.10000"),
    # I + 1 to N: one fewer. N - 1 entries, of the mean 0.5 * N: (N - 1) * (1 + 0.5 * N).
    ([], "I = 1, N-1", ["DO J = I+1, N", "A(J,I) = 1", "END DO"], "N.GE.3.AND.0.5D0*N*N+0.5D0*N-1D0.GE.10000"),
    # The variable of a loop round it has its value: (N - L) * (1 + N - L).
    (["DO L = 1, 9"], "I = L+1, N", ["DO J = L+1, N", "A(J,I) = 1", "END DO"],
     "-1D0*L+N.GE.2.AND.1D0*L*L-2D0*L*N+1D0*N*N-L+N.GE.10000"),
    # A bound that the nest assigns isn't known before it: N * (1 + 1 + 1), and N * (1 + 1 + M * (1 + 1)).
    ([], "I = 1, N", ["K = M", "DO J = 1, K", "A(J,I) = 1", "END DO"], "N.GE.3334"),
    ([], "I = 1, N", ["K = M", "DO L = 1, M", "DO J = 1, K", "A(J,I) = 1", "END DO", "END DO"],
     "N.GE.2.AND.2D0*M*N+2D0*N.GE.10000"),
    # Nor is an element, a quotient, or what has no value for certain: N * (1 + 1).
    ([], "I = 1, N", ["DO J = 1, ROW(I)", "A(J,I) = 1", "END DO"], "N.GE.5000"),
    ([], "I = 1, N", ["DO J = 1, N/M", "A(J,I) = 1", "END DO"], "N.GE.5000"),
    (["IF (N.GT.0) THEN", "K = M", "END IF"], "I = 1, N", ["DO J = 1, K", "A(J,I) = 1", "END DO"], "N.GE.5000"),
    (["K = M"], "I = 1, N", ["DO J = 1, K", "A(J,I) = 1", "END DO"], "N.GE.2.AND.1D0*K*N+N.GE.10000"),
    # Constants: MID is 50, and N * (1 + 50) is the rule for one open bound.
    ([], "I = 1, N", ["DO J = 1, MID", "A(J,I) = 1", "END DO"], "N.GE.197"),
    ([], "I = 1, N", ["DO J = MID, M", "A(J,I) = 1", "END DO"], "N.GE.2.AND.1D0*M*N-48D0*N.GE.10000"),
    # Steps: 0.5 * N + 0.5 times 1 + 0.25 * M + 0.75, and N down to M, which is N - M + 1 times 1 + M.
    ([], "I = 1, N, 2", ["DO J = 1, M, 4", "A(J,I) = 1", "END DO"],
     "N.GE.3.AND.0.125D0*M*N+0.125D0*M+0.875D0*N+0.875D0.GE.10000"),
    ([], "I = N, 1, -1", ["DO J = M, 1, -1", "A(J,I) = 1", "END DO"], "N.GE.2.AND.1D0*M*N+N.GE.10000"),
    ([], "I = N, M, -1", ["DO J = 1, M", "A(J,I) = 1", "END DO"],
     "-1D0*M+N+1D0.GE.2.AND.-1D0*M*M+1D0*M*N+N+1D0.GE.10000"),
    # A block: 64 iterations, whatever N is: (N - 1) / 64 + 1 times 1 + 64 is 10000 from N = 9783.2 on.
    ([], "I = 1, N, 64", ["DO J = I, MIN(I+63,N)", "A(J,1) = 1", "END DO"], "N.GE.9784"),
    # The own header may be anything: with one iteration of DO J it's 2 statements.
    ([], "I = ROW(1), ROW(2)", ["DO J = 1, M", "A(J,I) = 1", "END DO"], "ROW(2)-1D0*(ROW(1)).GE.4999"),
    ([], "I = 1, N, L", ["DO J = 1, M", "A(J,I) = 1", "END DO"], "(N-1D0*(1)+L)/(L).GE.5000"),
]


def executed(program: Program, loop: Loop, values: Dict[str, int]) -> int:
    """How many statements a run of a loop executes, counted one by one; the conditions of IFs hold."""
    def value(text: str) -> int:
        return int(eval(text, {}, {**values, "MIN": min}))  # pylint: disable=eval-used

    form = loop.form
    step = value(form.step.text) if form.step is not None else 1
    count = 0
    for index in range(value(form.first.text), value(form.last.text) + (1 if step > 0 else -1), step):
        values = {**values, loop.variable: index}
        for number in range(loop.number + 1, loop.last + 1):
            if program.statement(number).loops == loop.nest:
                count += 1 + (executed(program, program.loops[number], values) if number in program.loops else 0)
    return count


class Nests(unittest.TestCase):
    def text(self, before: List[str], header: str, body: List[str]) -> str:
        """A program with a nest."""
        ends = ["END DO"] * sum(line.startswith("DO ") for line in before)
        return fortran(
            "PARAMETER (MID=50)", "READ *, L, M, N", *before, f"PARALLEL DO {header}", *body, "END DO", *ends, "END"
        )

    def test_conditions(self) -> None:
        for before, header, body, wanted in NESTS:
            with self.subTest(header, body=body):
                text = self.text(before, header, body)
                rows = written(choice_of(program_of(text), {}, PAYING), text)
                self.assertEqual(joined(rows).partition(" PRIVATE")[0], f"IF({wanted})")

    def test_counted(self) -> None:
        """Where no entry is empty, and steps end at the last bound, the formula is what a run executes."""
        values = {"L": 2, "M": 9, "N": 12, "MID": 50}
        for header, body in (
            ("I = 1, N", ["DO J = 1, M", "DO K = 1, L", "A(K,J) = I", "END DO", "B(J) = I", "END DO"]),
            ("I = 1, N", ["DO J = I, N", "A(J,I) = 1", "END DO", "DO J = M, MID, 41", "A(J,I) = 1", "END DO"]),
            ("I = N-1, L+1, -2", ["DO J = 2*I, 2*L, -1", "A(J,I) = 1", "END DO"]),
            ("I = L, M", ["DO J = L*M-I, N*M", "DO K = -(L), M", "A(J,K) = I", "END DO", "END DO"]),
            ("I = 1, N", ["IF (I.GT.0) THEN", "DO J = -I, MIN(I,1000)", "A(J,I) = 1", "END DO", "END IF"]),
        ):
            with self.subTest(header, body=body):
                program = program_of(self.text([], header, body))
                loop = program.loops[2]
                entry = estimate_of(program, loop).entry
                assert entry is not None
                found = sum(factor * prod(values[name] for name in names) for names, factor in entry.terms.items())
                self.assertEqual(found, executed(program, loop, values))

    def test_values(self) -> None:
        """A bound may be read before the nest only where it has a value in any case."""
        known, unknown = "IF(N.GE.2.AND.1D0*K*N+N.GE.10000)", "IF(N.GE.5000)"
        cases: List[Tuple[List[str], List[str], str]] = [
            (["READ *, K"], [], known), (["PRINT *, K"], [], known), (["A(1,1) = K"], [], known),
            (["A(K,1) = 1"], [], known), (["DO K = 1, M"], ["END DO"], known), (["DO L = 1, K"], ["END DO"], known),
            (["DO L = 1, 3", "K = L"], ["END DO"], known), (["IF (K.GT.M) THEN"], ["END IF"], known),
            (["IF (M.GT.2) THEN", "DO L = 1, K"], ["END DO", "END IF"], known),
            ([], [], unknown), (["DO K = 1, M", "END DO"], [], unknown),
            (["DO L = 1, M", "K = L", "END DO"], [], unknown), (["IF (M.GT.2) K = 1"], [], unknown),
            (["IF (M.GT.2) THEN", "K = 1", "ELSE"], ["END IF"], unknown),
            (["IF (M.GT.2) THEN", "K = 1", "ELSE IF (M.GT.1) THEN"], ["END IF"], unknown),
            (["PARALLEL DO L = 1, 3", "PRIVATE K", "END DO"], [], unknown), ([], ["K = 1"], unknown),
        ]
        for before, after, wanted in cases:
            with self.subTest(before=before, after=after):
                text = fortran(
                    "READ *, M, N", *before, "PARALLEL DO I = 1, N", "DO J = 1, K", "A(J,I) = 1", "END DO", "END DO",
                    *after, "END",
                )
                rows = written(choice_of(program_of(text), {}, PAYING), text)
                self.assertEqual(joined(rows).partition(" PRIVATE")[0], wanted)

    def test_none(self) -> None:
        """Where nothing is known before the nest there is no directive; with many statements there is one."""
        inner = ["DO J = 1, ROW(I)", "A(J,I) = 1", "END DO"]
        for count, loops, remarks in (
            (100, [], ("loop 2, DO I: what an entry executes isn't known before it, so there is no directive without "
                       "--all",)),
            (5000, [2], ()),
        ):
            choice = choice_of(program_of(self.text([], f"I = 1, {count}", inner)), {}, PAYING)
            self.assertEqual((list(choice.loops), choice.least, choice.remarks), (loops, {}, remarks))

    def test_remarks(self) -> None:
        for header, body, wanted in (
            ("I = 1, N", ["DO J = 1, M", "A(J,I) = 1", "END DO"],
             "threads start from some 10000 statements an entry on"),
            ("I = 1, N", ["DO J = 1, ROW(I)", "A(J,I) = 1", "END DO"],
             "threads start from some 10000 statements an entry on, if loops of unknown length have one iteration"),
            ("I = ROW(1), N", ["DO J = 1, M", "A(J,I) = 1", "END DO"],
             "each loop of open length in it counts as one iteration, so threads start from 5000 on"),
        ):
            choice = choice_of(program_of(self.text([], header, body)), {}, PAYING)
            self.assertEqual(choice.remarks, (f"loop 2, DO I: {wanted}",))

    def test_small_block(self) -> None:
        """4 blocks of at most 64 iterations do little, though N is open."""
        text = self.text([], "I = 1, 256, 64", ["DO J = I, MIN(I+63,N)", "A(J,1) = 1", "END DO"])
        choice = choice_of(program_of(text), {}, PAYING)
        self.assertEqual((list(choice.loops), choice.remarks), (
            [], ("loop 2: at most 260 statements an entry, so threads don't pay",)
        ))

    def test_too_long(self) -> None:
        """A bound whose formula would be long, or too large a number, isn't used."""
        for bound in ("(L+M+N)*(L+M+N)*(L+M+N)*(L+M+N)*(L+M+N)", "*".join(["M"] * 12), "M*2**120"):
            text = self.text([], "I = 1, N", [f"DO J = 1, {bound}", "A(J,I) = 1", "END DO"])
            self.assertEqual(written(choice_of(program_of(text), {}, PAYING), text), ["IF(N.GE.5000) PRIVATE(J)"])

    def test_renamed(self) -> None:
        """The condition has the new names of clashing ones, and the outer variable of the own header."""
        text = fortran(
            "READ *, MAX", "I = 3", "PARALLEL DO I = I, MAX", "DO J = 1, MAX", "A(I) = MAX(I,2)", "END DO", "END DO",
            "END",
        )
        rows = written(choice_of(program_of(text), {}, PAYING), text)
        # MAX - I + 1 iterations, with 1 + MAX each.
        wanted = "-1D0*I+K0+1D0.GE.2.AND.-1D0*I*K0+1D0*K0*K0-I+2D0*K0+1D0.GE.10000"
        self.assertEqual(joined(rows).partition(" PRIVATE")[0], f"IF({wanted})")


#: Headers of loops with open bounds, and the clauses that want 100 iterations.
CLAUSES: List[Tuple[str, str]] = [
    ("I = 1, N", "N.GE.100"),
    ("I = 0, N+1", "N+1.GE.99"),
    ("I = L, N", "N-1D0*(L).GE.99"),
    ("I = 2, N-1, 2", "N-1.GE.200"),
    ("I = N, 1, -1", "N-1D0*(1).GE.99"),
    ("I = 100, L, -3", "L.LE.-197"),
    ("I = L, MAX(M,N)", "MAX(M,N)-1D0*(L).GE.99"),
    ("I = L, N, M", "(N-1D0*(L)+M)/(M).GE.100"),
    ("I = L+1, N, -2", "L+1-1D0*(N).GE.198"),
]


def long_text(count: int) -> str:
    """A program whose parallel loop has a long header, which goes over lines."""
    text = fortran("INTEGER A(999)", "READ *, L, N", "DO I = 1, 1", "A(I) = I", "END DO", "PRINT *, A(40)", "END")
    line = f"      PARALLEL DO I = L, {'+'.join(['N'] * count)}"
    pieces = [line[:72]] + [f"     &{line[at:at + 66]}" for at in range(72, len(line), 66)]
    return text.replace("      DO I = 1, 1", "\n".join(pieces))


class Clauses(unittest.TestCase):
    def text(self, header: str) -> str:
        """A program with a parallel loop of this header."""
        return fortran(
            "READ *, L, M, N", f"PARALLEL DO {header}", "A(I) = I", "END DO", "END"
        )

    def clause(self, header: str) -> str:
        """The clause of the loop, joined."""
        text = self.text(header)
        return joined(written(Choice(program_of(text).loops, {2: 100}), text))

    def test_conditions(self) -> None:
        for header, wanted in CLAUSES:
            with self.subTest(header):
                self.assertEqual(self.clause(header), f"IF({wanted})")

    def test_long_condition(self) -> None:
        text = long_text(60)
        choice = Choice(program_of(text).loops, {2: 9})
        made = translate(split_lines(text), program_of(text), {}, Wishes(), {}, choice)
        directive = [row for row in made.lines if row.startswith("C$OMP")]
        self.assertTrue(all(len(row) <= 72 for row in directive))
        self.assertIn(f"IF({'+'.join(['N'] * 60)}-1D0*(L).GE.8)", "".join(row[6:] for row in directive))

    def test_renamed(self) -> None:
        """The condition is outside the loop: it reads the outer variable, and the new name of a clashing one."""
        text = fortran(
            "READ *, MAX", "I = 3", "PARALLEL DO I = I, MAX", "A(I) = MAX(I,2)", "END DO", "END"
        )
        self.assertEqual(written(Choice(program_of(text).loops, {3: 9}), text), ["IF(K0-1D0*(I).GE.8)"])

    def test_meaning(self) -> None:
        """Threads start from the wanted number of iterations on, and not before."""
        for header, _ in CLAUSES:
            for values in (
                (1, 1, 99), (1, 1, 100), (1, 1, 199), (1, 1, 200), (-197, 2, 1), (-196, 3, 5), (300, -2, 3),
            ):
                with self.subTest(header, values=values):
                    self.compare(header, values)

    def compare(self, header: str, values: Tuple[int, int, int]) -> None:
        """Compares the condition with a count of the iterations."""
        parts = header[len("I = "):].split(", ")
        names = dict(zip("LMN", values), MAX=max)
        start, stop, by = (eval(one, {}, names) for one in [*parts, "1"][:3])  # pylint: disable=eval-used
        count = len(range(start, stop + (1 if by > 0 else -1), by))
        condition = self.clause(header)[len("IF("):-1]
        for operator, sign in ((".GE.", ">="), (".LE.", "<=")):
            condition = condition.replace(operator, sign)
        found = eval(condition.replace("1D0", "1.0"), {}, names)  # pylint: disable=eval-used
        if count >= 100 or by > 0 or start >= stop:
            self.assertEqual(found, count >= 100, (condition, values, count))


@unittest.skipUnless(shutil.which("gfortran"), "gfortran isn't there")
class Compiled(unittest.TestCase):
    def test_long_condition(self) -> None:
        """gfortran takes a condition that goes over lines, and the program prints the same with threads and without."""
        text = long_text(40)
        choice = Choice(program_of(text).loops, {2: 9})
        made = translate(split_lines(text), program_of(text), {}, Wishes(), {}, choice)
        with tempfile.TemporaryDirectory(prefix="pedx-test-") as folder:
            Path(folder, "p.f").write_text("".join(f"{row}\n" for row in made.lines))
            words = ["gfortran", *made.options, "-o", "p", "p.f"]
            done = subprocess.run(words, cwd=folder, stdout=subprocess.PIPE, stderr=subprocess.STDOUT, check=False)
            self.assertEqual((done.returncode, done.stdout), (0, b""))
            ran = subprocess.run(
                [os.path.join(folder, "p")], input=b"1 1\n", stdout=subprocess.PIPE, check=False,
                env={**os.environ, "OMP_NUM_THREADS": "2"},
            )
            self.assertEqual(ran.stdout.split(), [b"40"])


if __name__ == "__main__":
    unittest.main()
