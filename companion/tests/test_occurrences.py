"""Runs that list accesses, and rejected dependences that occur in them."""

import unittest
from typing import List, Set, Tuple

from ..lines import split_lines
from ..occurrences import Watch
from ..panes import Dependence, read_panes
from ..program import Program, read_program
from ..replies import Reply
from ..runs import Access, Faulted, Run, TooLong
from ..statuses import ProgramRefused
from .random_programs import sample
from .support import fortran, ped

#: How many random programs each comparison takes.
_SAMPLES = 40


def run_of(program: Program, data: str, names: Set[str]) -> Tuple[List[str], List[Access]]:
    """What a run shows, and its accesses to some names."""
    accesses: List[Access] = []
    return Run(program, split_lines(data), names, accesses.append).rows(), accesses


def rows_of(source: str, data: str = "") -> Tuple[Program, List[Dependence], Reply]:
    """The program as ped prints it, its dependences, and what ped's run shows."""
    shown, ran = ped().session(source, "show\nrun\n", data)
    panes = read_panes(shown.rows)
    return read_program(panes.lines), list(panes.dependences), ran


def occurring(rows: List[Dependence], accesses: List[Access]) -> Set[str]:
    """The rows whose dependence occurs, by looking at all pairs of accesses."""
    found = set()
    for row in rows:
        for index, sink in enumerate(accesses):
            for source in accesses[:index]:
                if (source.reference, sink.reference, source.cell) == (row.source, row.sink, sink.cell):
                    pairs = list(zip(source.iterations, sink.iterations))[:len(row.distances)]
                    level = next((place for place, (one, other) in enumerate(pairs, 1) if one != other), None)
                    if level is not None and level == row.level:
                        found.add(row.row)
    return found


class Runs(unittest.TestCase):
    def test_random_programs(self) -> None:
        """A run shows what ped's run shows, and faults where that does."""
        for seed in range(_SAMPLES):
            source, _, data = sample(f"runs {seed}")
            program, _, ran = rows_of(source, data)
            try:
                rows = run_of(program, data, set())[0]
            except Faulted:
                self.assertIsNotNone(ran.fault, source)
            else:
                self.assertEqual(rows, list(ran.rows), source)

    def test_small_programs(self) -> None:
        for data, lines in (
            (" +4, -5 ,\n\n 6 rest\n", ("READ *, I, J, K", "PRINT *, I, J, K", "END")),
            ("1,2\n", ("READ *", "END")),
            ("7\n8\n", ("SAVE K", "READ *, K", "READ *", "END")),
            ("", ("INTEGER A(0:1,-1:1)", "SAVE A, K", "A(1,0) = 7", "A(0,1) = 2**5/(-3)", "STOP", "K = 1", "END")),
            ("", ("PARALLEL DO 10 I = 1, 3", "PRIVATE K", "K = I", "DO 10 J = K, 1, -1", "10 PRINT *, I, J", "END")),
            ("", ("DO 10 I = 3, 1", "10 CONTINUE", "PRINT *, I, MOD(-7,3), MAX(1,I), ABS(-I)", "END")),
            ("", ("IF (1.GT.2 .OR. .NOT. 3.EQ.4) THEN", "ELSE IF (1.EQ.1) THEN", "PRINT *, 'IT''S'", "END IF", "END")),
            ("", ("IF (1.EQ.1) THEN", "IF (1.EQ.2) THEN", "ELSE", "END IF", "PRINT *, 3", "END IF", "END")),
        ):
            with self.subTest(lines):
                program, _, ran = rows_of(fortran(*lines), data)
                self.assertEqual(run_of(program, data, set())[0], list(ran.rows))

    def test_faults(self) -> None:
        for data, lines in (
            ("", ("K = L", "END")), ("", ("INTEGER A(3)", "A(4) = 1", "END")), ("", ("K = 1/0", "END")),
            ("", ("K = 2147483647+1", "END")), ("", ("READ *, K", "END")), ("1,,2\n", ("READ *, K, L", "END")),
            ("12x\n", ("READ *, K", "END")), (",1\n", ("READ *, K", "END")), ("2147483648\n", ("READ *, K", "END")),
            ("", ("PARALLEL DO 10 I = 1, 2", "10 CONTINUE", "PRINT *, I", "END")),
            ("", ("DO 10 I = 1, 2**63", "10 CONTINUE", "END")), ("", ("K = 0**(-1)", "END")),
        ):
            with self.subTest(lines):
                program, _, ran = rows_of(fortran(*lines), data)
                self.assertIsNotNone(ran.fault)
                with self.assertRaises(Faulted):
                    run_of(program, data, set())

    def test_long_runs(self) -> None:
        program = read_program(fortran("DO 10 I = 1, 2000000", "10 CONTINUE", "END").splitlines())
        with self.assertRaises(TooLong):
            run_of(program, "", set())


class Occurrences(unittest.TestCase):
    def test_random_programs(self) -> None:
        """Of all dependences that loops carry, as if each were rejected, those are found that occur."""
        count = 0
        for seed in range(_SAMPLES):
            source, _, data = sample(f"occurrences {seed}")
            try:
                program, dependences, _ = rows_of(source, data)
            except ProgramRefused:
                continue
            rows = [row._replace(mark="rejected") for row in dependences if row.level is not None]
            try:
                accesses = run_of(program, data, {row.name for row in rows})[1]
            except Faulted:
                continue
            # All pairs are many, so a part of a long run is looked at.
            accesses = accesses[:400]
            watch = Watch(rows)
            for access in accesses:
                watch.see(access)
            self.assertEqual({one.row.row for one in watch.found}, occurring(rows, accesses), source)
            count += len(watch.found)
        self.assertGreater(count, 50)

    def test_levels(self) -> None:
        """A dependence of the outer loop alone isn't taken for one of the inner loop."""
        for mark_first, lines in ((True, 1), (False, 2)):
            rows = ["INTEGER A(9)", "DO 20 I = 1, 2", "DO 10 J = 1, 3", "10 A(MOD(J,3)+1) = I", "20 CONTINUE", "END"]
            source = split_lines(fortran(*rows))
            source.insert(lines, "C$PED REJECT A")
            program, dependences, ran = rows_of("".join(line + "\n" for line in source))
            watch = Watch(dependences)
            self.assertEqual(watch.run(program, []), list(ran.rows))
            self.assertEqual(bool(watch.found), mark_first)

    def test_copies(self) -> None:
        """Copies of a PRIVATE scalar are cells of their own."""
        source = "C$PED REJECT K\n" + fortran(
            "DO 20 I = 1, 3", "PARALLEL DO 10 J = 1, 3", "PRIVATE K", "10 K = J", "20 CONTINUE", "END"
        )
        program, dependences, _ = rows_of(source)
        watch = Watch(dependences)
        watch.run(program, [])
        self.assertEqual([one.row.source for one in watch.found], [(2, 1)] if watch.found else [])


if __name__ == "__main__":
    unittest.main()
