"""Evidence: Systems as ped prints them, certificates, the checker, the search. What is wanted is worked out by hand."""

import unittest
from random import Random
from typing import List, Optional, Sequence, Tuple

from ..evidence.certificates import Claim, Cut, Gcd, Split, Step, is_writable, read_claim
from ..evidence.checking import cut, refutes
from ..evidence.limits import Budget, Exceeded, Purse
from ..evidence.points import point
from ..evidence.search import find
from ..evidence.systems import NoSystem, Row, System, length_of, read_system

#: A triangular loop: A(I) and A(K) for I from K+1.
TRIANGULAR = """\
system 3.3 3.2 (=,<)
unknowns K I K' I'
rows 13
1 K-1 >= 0
2 -K+8 >= 0
3 I-2 >= 0
4 -I+9 >= 0
5 -K+I-1 >= 0
6 K'-1 >= 0
7 -K'+8 >= 0
8 I'-2 >= 0
9 -I'+9 >= 0
10 -K'+I'-1 >= 0
11 -K+K' = 0
12 -I+I'-1 >= 0
13 I-K' = 0"""

#: A loop over each second element, from the outer index on.
STRIDED = """\
system 5.2 5.3 (=,<)
unknowns I J I' J' #1 #2
rows 15
1 I-1 >= 0
2 -I+2 >= 0
3 J-1 >= 0
4 -J+9 >= 0
5 -I+J >= 0
6 -I+J-2*#1 = 0
7 I'-1 >= 0
8 -I'+2 >= 0
9 J'-1 >= 0
10 -J'+9 >= 0
11 -I'+J' >= 0
12 -I'+J'-2*#2 = 0
13 -I+I' = 0
14 -J+J'-1 >= 0
15 J-J'+1 = 0"""

#: A(I) and A(I+N) for I up to N.
SYMBOLIC = """\
system 3.2 3.3 (<)
unknowns I I' N
rows 10
1 I-1 >= 0
2 -I+2147483647 >= 0
3 -I+N >= 0
4 I'-1 >= 0
5 -I'+2147483647 >= 0
6 -I'+N >= 0
7 -I+I'-1 >= 0
8 I-I'+N = 0
9 N+2147483648 >= 0
10 -N+2147483647 >= 0"""

#: A(4*I+7*J) and A(7*I-3*J+6), which fractions meet.
SPLIT = """\
system 3.1 3.2 (<,=)
unknowns I J I' J'
rows 11
1 I-1 >= 0
2 -I+4 >= 0
3 J-1 >= 0
4 -J+5 >= 0
5 I'-1 >= 0
6 -I'+4 >= 0
7 J'-1 >= 0
8 -J'+5 >= 0
9 -I+I'-1 >= 0
10 -J+J' = 0
11 7*I-3*J-4*I'-7*J'+6 = 0"""

PRINTED = (TRIANGULAR, STRIDED, SYMBOLIC, SPLIT)


def system_of(text: str) -> System:
    """The System of a text."""
    return read_system(text.split("\n"))


def rows_of(*rows: Tuple[Sequence[int], int, str]) -> List[Row]:
    """Rows by their coefficients, their constants, and `=` or `>=`."""
    return [Row(tuple(coefficients), constant, relation == "=") for coefficients, constant, relation in rows]


class Systems(unittest.TestCase):
    def test_printed_again(self) -> None:
        for text in PRINTED:
            system = system_of(text)
            wanted = [row.split(" ", 1)[1] for row in text.split("\n")[3:]]
            self.assertEqual([system.form(row) for row in system.rows], wanted)

    def test_what_is_read(self) -> None:
        system = system_of(STRIDED)
        self.assertEqual((system.source, system.sink, system.pattern), ((5, 2), (5, 3), ("=", "<")))
        self.assertEqual(system.rows[5], Row((-1, 1, 0, 0, -2, 0), 0, True))
        self.assertEqual(system.rows[13], Row((0, -1, 0, 1, 0, 0), -1, False))

    def test_a_constant_alone(self) -> None:
        rows = ["system 1.1 1.2 (<)", "unknowns I I'", "rows 2", "1 -3 >= 0", "2 0 = 0"]
        system = read_system(rows)
        self.assertEqual(system.rows, (Row((0, 0), -3), Row((0, 0), 0, True)))
        self.assertEqual([system.form(row) for row in system.rows], ["-3 >= 0", "0 = 0"])

    def test_length_among_others(self) -> None:
        rows = ["1: ok", *TRIANGULAR.split("\n"), "2: ok"]
        self.assertEqual(length_of(rows, 1), 16)
        self.assertEqual(length_of(rows, 0), 0)
        self.assertEqual(length_of(rows[:-2], 1), 0)

    def test_what_is_none(self) -> None:
        good = TRIANGULAR.split("\n")
        for place, row in (
            (0, "system 3.3 3.2 (=,!)"), (1, "unknowns"), (1, "unknowns K K K' I'"), (2, "rows 12"), (3, "2 K-1 >= 0"),
            (3, "1 K-1 > 0"), (3, "1 KI >= 0"), (3, "1 K-L >= 0"), (3, "1 2K >= 0"), (3, "1  >= 0"),
        ):
            with self.assertRaises(NoSystem, msg=row):
                read_system([*good[:place], row, *good[place + 1:]])


class Certificates(unittest.TestCase):
    def test_texts(self) -> None:
        line = "3.1 3.2 (<,=) 1?-2 3:3 7:-7 /1 6:1 %2"
        claim = read_claim(line)
        self.assertEqual(claim, Claim(
            (3, 1), (3, 2), ("<", "="), (Split(1, -2), Cut(((3, 3), (7, -7)), 1), Gcd(((6, 1),), 2))
        ))
        assert claim is not None
        self.assertEqual(claim.text, line)
        self.assertEqual(read_claim("  3.1\t3.2  (<,=) 1?-2 3:3 7:-7 /1 6:1 %2 "), claim)

    def test_what_is_no_line(self) -> None:
        for line in (
            "", "HELLO", "3.1 3.2 (<)", "3.1 3.2 (<) 5:1", "3.1 3.2 (<) /1", "3.1 3.2 (<) 5:1 /0",
            "3.1 3.2 (<) 5:1 / 1", "3.1 3.2 (<=) 5:1 /1", "3.1 3.2 () 5:1 /1", "3 3.2 (<) 5:1 /1", "3.1 3.2 (<) 5:1 1?2 /1",
            "3.1 3.2 (<) x",
            "3.1 3.2 (<) 5:1234567890 /1", "3.1 3.2 (<) 5:1 /1234567890", "3.1 3.2 (<) -5:1 /1", "03.1 3.2 (<) 5:1 /1",
        ):
            self.assertIsNone(read_claim(line), line)

    def test_limits(self) -> None:
        step = " 1:1 /1"
        self.assertIsNotNone(read_claim("1.1 1.2 (<)" + step * 500))
        self.assertIsNone(read_claim("1.1 1.2 (<)" + step * 501))
        self.assertIsNotNone(read_claim(f"1.1 1.2 (<) {'1:1 ' * 500}/1"))
        self.assertIsNone(read_claim(f"1.1 1.2 (<) {'1:1 ' * 501}/1"))
        self.assertTrue(is_writable((Cut(((1, -999_999_999),), 1),)))
        self.assertFalse(is_writable((Cut(((1, 1_000_000_000),), 1),)))
        self.assertFalse(is_writable((Split(1, -1_000_000_000),)))

    def test_what_a_line_speaks_of(self) -> None:
        claim = Claim((1, 1), (1, 2), ("=", "<", "*"), (Split(1, 0),))
        self.assertTrue(claim.fits(("=", "<", ">")))
        self.assertFalse(claim.fits(("<", "<", ">")))
        self.assertFalse(claim.fits(("=", "<")))


class Checker(unittest.TestCase):
    def refuted(self, text: str, steps: str) -> bool:
        """Whether steps refute a System."""
        claim = read_claim(f"1.1 1.1 (*) {steps}")
        assert claim is not None, steps
        return refutes(system_of(text).rows, claim.steps)

    def test_worked_rows(self) -> None:
        self.assertTrue(self.refuted(TRIANGULAR, "5:1 11:-1 13:-1 /1"))
        self.assertTrue(self.refuted(STRIDED, "6:-1 12:1 13:1 15:1 %2"))
        self.assertTrue(self.refuted(SYMBOLIC, "1:1 6:1 8:-1 /1"))
        self.assertFalse(self.refuted(TRIANGULAR, "5:1 11:-1 12:-1 /1"))
        self.assertFalse(self.refuted(TRIANGULAR, "5:1 11:-1 13:-1 /1 1:1 /1"))
        self.assertFalse(self.refuted(TRIANGULAR, "5:1 11:-1 /1"))

    def test_cases(self) -> None:
        steps = "1?2 3:3 7:7 9:4 11:1 12:3 /1 6:1 10:6 11:-2 /1 10:-3 11:1 12:1 /2 9:1 10:-3 11:1 /1"
        self.assertTrue(self.refuted(SPLIT, f"{steps} 13:1 14:2 15:1 /1"))
        self.assertFalse(self.refuted(SPLIT, steps))
        self.assertFalse(self.refuted(SPLIT, f"{steps} 13:1 14:2 15:1 /1".replace("1?2", "1?3")))
        self.assertFalse(self.refuted(SPLIT, "9?2 3:3 /1"))

    def test_a_cut_rounds_down(self) -> None:
        rows = rows_of(([2], -1, ">="), ([-2], 1, ">="))
        self.assertEqual(cut(rows, Cut(((1, 1),), 2)), Row((1,), -1))
        self.assertTrue(refutes(rows, [Cut(((1, 1),), 2), Cut(((2, 1),), 2), Cut(((3, 1), (4, 1)), 1)]))
        self.assertFalse(refutes(rows, [Cut(((1, 1), (2, 1)), 1)]))

    def test_what_is_not_allowed(self) -> None:
        rows = rows_of(([2], -1, ">="), ([2], 1, "="))
        steps: List[Step] = [
            Cut(((1, -1),), 1), Cut(((1, 1),), 3), Cut(((3, 1),), 1), Cut(((0, 1),), 1), Gcd(((1, 1),), 2),
            Gcd(((2, 1),), 1), Gcd(((2, 1),), 4), Gcd(((1, 0), (2, 1)), 2), Split(2, 0), Split(0, 0),
        ]
        for step in steps:
            self.assertFalse(refutes(rows, [step]), step)
        self.assertTrue(refutes(rows, [Gcd(((2, 1),), 2)]))
        self.assertIsNone(cut(rows_of(([1], 2**62, ">=")), Cut(((1, 2),), 1)))
        self.assertFalse(refutes(rows_of(([0], 0, ">=")), [Cut(((1, 1),), 1)]))

    def test_both_halves(self) -> None:
        rows = rows_of(([2], -1, "="))
        self.assertFalse(refutes(rows, [Split(1, 0), Cut(((1, 1), (2, 2)), 1)]))
        self.assertTrue(refutes(rows, [Split(1, 0), Cut(((1, 1), (2, 2)), 1), Cut(((1, -1), (2, 2)), 1)]))


class Search(unittest.TestCase):
    def test_worked_rows(self) -> None:
        for text in PRINTED:
            rows = system_of(text).rows
            steps = find(rows, Budget())
            assert steps is not None, text
            self.assertTrue(refutes(rows, steps))
            self.assertIsNone(point(rows, Budget()))
        self.assertEqual(find(system_of(STRIDED).rows, Budget()), (Gcd(((6, -1), (12, 1), (13, 1), (15, 1)), 2),))
        self.assertIsNone(find(system_of(SPLIT).rows, Budget(), depth=0))

    def test_values(self) -> None:
        rows = system_of(TRIANGULAR).rows
        self.assertEqual(point([*rows[:10], *rows[11:]], Budget()), (1, 2, 2, 3))
        self.assertIsNone(find([*rows[:10], *rows[11:]], Budget()))

    def test_tightening(self) -> None:
        # 2*x lies between 1 and 1.
        rows = rows_of(([2, 2], -1, ">="), ([-2, -2], 1, ">="))
        steps = find(rows, Budget(), depth=0)
        assert steps is not None
        self.assertTrue(refutes(rows, steps))

    def test_equations_alone(self) -> None:
        # 6*x+10*y = 15, 3*x+3*y = 4, and 0 = 12.
        for rows in (rows_of(([6, 10], -15, "=")), rows_of(([3, 3], -4, "=")), rows_of(([0, 0], 12, "="))):
            steps = find(rows, Budget(), depth=0)
            assert steps is not None
            self.assertTrue(refutes(rows, steps))
        self.assertIsNone(find(rows_of(([6, 10], -14, "=")), Budget()))

    def test_limits(self) -> None:
        rows = system_of(SPLIT).rows
        with self.assertRaises(Exceeded):
            find(rows, Budget(pivots=2))
        times = iter(range(1000))
        with self.assertRaises(Exceeded):
            find(rows, Budget(seconds=1, clock=lambda: next(times)))
        purse = Purse(seconds=3, clock=lambda: next(times))
        self.assertFalse(purse.is_empty)
        purse.budget()
        self.assertTrue(purse.is_empty)

    def test_long_numbers(self) -> None:
        # The factors would be longer than nine digits.
        rows = rows_of(([10**9 + 7], -10**9, ">="), ([-10**9 - 9], 1, ">="))
        with self.assertRaises(Exceeded):
            find(rows, Budget(), depth=0)


class RandomSystems(unittest.TestCase):
    """Systems with a solution, which are never refuted, and others, of which a search finds most certificates."""

    def test_with_a_solution(self) -> None:
        random = Random("solution")
        for _ in range(150):
            rows, values = _solvable(random)
            self.assertTrue(all(row.holds(values) for row in rows))
            self.assertIsNone(_found(rows))

    def test_steps_of_another(self) -> None:
        random = Random("steps")
        judged = 0
        for _ in range(400):
            rows, _ = _solvable(random)
            last = rows[-1]
            sharper = [*rows[:-1], Row(last.coefficients, last.constant - random.randint(1, 9), last.is_equation)]
            steps = _found(sharper)
            if steps is not None:
                self.assertTrue(refutes(sharper, steps))
                self.assertFalse(refutes(rows, steps))
                judged += 1
        self.assertGreater(judged, 40)

    def test_random_steps(self) -> None:
        random = Random("lot")
        for _ in range(2_000):
            rows, _ = _solvable(random)
            self.assertFalse(refutes(rows, [_step(random, len(rows), len(rows[0].coefficients)) for _ in range(3)]))

    def test_with_a_certificate(self) -> None:
        random = Random("certificate")
        for _ in range(200):
            rows = _contradictory(random)
            steps = _found(rows)
            assert steps is not None, rows
            self.assertTrue(refutes(rows, steps))


def _found(rows: Sequence[Row]) -> Optional[Tuple[Step, ...]]:
    try:
        return find(rows, Budget(), depth=1)
    except Exceeded:
        return None


def _solvable(random: Random) -> Tuple[List[Row], Tuple[int, ...]]:
    """Rows that some values meet."""
    count = random.randint(1, 4)
    values = tuple(random.randint(-6, 6) for _ in range(count))
    rows = []
    for _ in range(random.randint(2, 8)):
        coefficients = tuple(random.choice([-3, -2, -1, -1, 0, 0, 1, 1, 2, 3]) for _ in range(count))
        value = Row(coefficients, 0).value(values)
        is_equation = random.random() < 0.3
        rows.append(Row(coefficients, -value + (0 if is_equation else random.choice([0, 0, 1, 4])), is_equation))
    return rows, values


def _contradictory(random: Random) -> List[Row]:
    """Rows of which a sum with known factors can't hold, in some order."""
    count = random.randint(1, 4)
    rows, factors = [], []
    for _ in range(random.randint(1, 4)):
        rows.append(Row(tuple(random.randint(-3, 3) for _ in range(count)), random.randint(-5, 5)))
        factors.append(random.randint(1, 3))
    total = [sum(factor * row.coefficients[place] for factor, row in zip(factors, rows)) for place in range(count)]
    constant = sum(factor * row.constant for factor, row in zip(factors, rows))
    rows.append(Row(tuple(-one for one in total), -constant - random.randint(1, 4)))
    random.shuffle(rows)
    return rows


def _step(random: Random, rows: int, unknowns: int) -> Step:
    parts = tuple((random.randint(1, rows), random.randint(-2, 3)) for _ in range(random.randint(1, 3)))
    kind = random.random()
    if kind < 0.2:
        return Split(random.randint(1, unknowns), random.randint(-6, 6))
    divisor = random.choice([1, 1, 2, 3])
    return Cut(parts, divisor) if kind < 0.8 else Gcd(parts, divisor)


if __name__ == "__main__":
    unittest.main()
