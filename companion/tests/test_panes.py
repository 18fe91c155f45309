"""The panes, read row by row."""

import unittest
from typing import List

from ..panes import NoPane, calls_length, read_dependence, read_panes

PANES = """\
source 3
    1            INTEGER A(9)
    2    1       DO I = 1, 9
    3            END DO
dependences 2
3.2 3.1 A flow 1 (<,>) (1,-1) proven
4.1 4.1 (OUT) output - (=,=)(<=,*) (*,*) pending
"""


class Panes(unittest.TestCase):
    def test_source(self) -> None:
        panes = read_panes(PANES.splitlines())
        self.assertEqual([(row.line, row.statement) for row in panes.source], [(1, None), (2, 1), (3, None)])
        self.assertEqual(panes.lines, ["      INTEGER A(9)", "      DO I = 1, 9", "      END DO"])

    def test_dependences(self) -> None:
        first, second = read_panes(PANES.splitlines()).dependences
        self.assertEqual((first.source, first.sink, first.name, first.kind), ((3, 2), (3, 1), "A", "flow"))
        self.assertEqual((first.level, first.vectors, first.distances), (1, (("<", ">"),), (1, -1)))
        self.assertEqual((second.level, second.vectors), (None, (("=", "="), ("<=", "*"))))
        self.assertEqual((second.distances, second.mark), ((None, None), "pending"))

    def test_calls(self) -> None:
        rows = ["calls 1 edges 2", "2 SWEEP(A,B)", "2 2 A flow 1", "2 3 A flow -"]
        self.assertEqual(calls_length(["ended", *rows, "ended"], 1), len(rows))
        self.assertEqual(calls_length(["calls 0 edges 0", "ended"], 0), 1)
        others: List[List[str]] = [rows[:-1], ["calls 1"], []]
        for other in others:
            with self.assertRaises(NoPane):
                calls_length(other, 0)

    def test_other_rows(self) -> None:
        pane = PANES.splitlines()
        others: List[List[str]] = [[], ["source 1"], pane[:-1], pane + ["more"], ["dependences 0"]]
        for rows in others:
            with self.assertRaises(NoPane):
                read_panes(rows)
        for row in ("", "3.2 3.1 A flow 1 (<) (1)", "3 3.1 A flow 1 (<) (1) proven", "3.2 3.1 A new 1 (<) (1) proven"):
            with self.assertRaises(NoPane, msg=row):
                read_dependence(row)


if __name__ == "__main__":
    unittest.main()
