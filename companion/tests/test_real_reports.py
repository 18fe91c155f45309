"""The text and the JSON of verdicts."""

from __future__ import annotations

import json
import unittest
from typing import Any

from ..real.asking import Carried, Pair
from ..real.directives import Clauses
from ..real.document import document
from ..real.report import clauses_said, report
from ..real.units import Fault
from ..real.verdicts import CARRIED, PARALLEL, REFUSED, Verdict, Would
from ..real.writer import Origin
from .real_loops import Loops
from .test_real_verdicts import DAXPY, HEAT


def shown(loops: Loops, name: str) -> str:
    """The report about all loops of a text."""
    return report(name, loops.file, loops.verdicts())


class Texts(unittest.TestCase):
    """Reports."""

    maxDiff = None

    def test_daxpy(self) -> None:
        self.assertEqual(shown(Loops(DAXPY, "daxpy.f"), "daxpy.f"), """\
daxpy.f: 1 unit, 3 loops: 2 parallel, 1 carries, 0 refused
   line  loop              verdict
         DAXPY
     11  DO I = 1, N       carries DY, IX and IY
           DY: flow, anti, output (3 rows), pending: line 12 with line 12
           IX, IY: induction variables; with --assume A8 (INCX, INCY aren't 0) the loop is parallel
     19  DO I = 1, M       parallel
     24  DO I = MP1, N, 4  parallel
assumed: A1 no other name for what is changed; A3 32 bits; A12 no errors (docs/REAL.md)
""")

    def test_heat(self) -> None:
        self.assertEqual(shown(Loops(HEAT), "heat.f90").splitlines()[:-1], """\
heat.f90: 2 units, 4 loops: 2 parallel, 2 carry, 0 refused
   line  loop              verdict
         HEAT, JACOBI
     11  DO J = 1, M       parallel: PRIVATE(D), REDUCTION(MAX:DIFF)
     12    DO I = 1, N     parallel: PRIVATE(D), REDUCTION(MAX:DIFF)
         HEAT, SEIDEL
     23  DO J = 1, M       carries U
           U: flow, anti (2 rows), pending: line 25 with line 25
     24    DO I = 1, N     carries U
           U: flow, anti (2 rows), pending: line 25 with line 25""".splitlines())

    def test_refusals(self) -> None:
        text = """\
      SUBROUTINE WORK(N, C)
      REAL A(100), B(100), C(N)

      INTEGER N, I
      EQUIVALENCE (A(1), B(1))
      DO 10 I = 1, N
   10 A(I) = B(I)
      DO 20 I = 1, N
   20 CALL OUTSIDE(C(I))
      END
"""
        rows = shown(Loops(text, "legacy.f"), "legacy.f").splitlines()
        self.assertEqual(rows[0], "legacy.f: 1 unit, 2 loops: 0 parallel, 0 carry, 2 refused")
        self.assertEqual(rows[3], "      6  DO I = 1, N       refused: equivalence: A and B share storage (line 5)")
        self.assertTrue(rows[4].startswith("      8  DO I = 1, N       refused: call: "))
        self.assertEqual(len(rows), 5)

    def test_a_preprocessor_refuses_its_unit_alone(self) -> None:
        text = "\n".join([
            "subroutine pp(n, a)", "integer n, i", "real a(n)", "do i = 2, n", "#ifdef LEFT", "a(i) = a(i-1)", "#endif",
            "end do", "end", "subroutine pq(n, a)", "integer n, i", "real a(n)", "do i = 1, n", "a(i) = 2*a(i)",
            "end do", "end",
        ]) + "\n"
        rows = shown(Loops(text, "macros.F90"), "macros.F90").splitlines()
        self.assertIn("refused: preprocessor: #ifdef LEFT; --define and --undefine decide it (line 5)", rows[3])
        self.assertIn("parallel", rows[5])

    def test_no_loops(self) -> None:
        loops = Loops("program p\nend\n")
        self.assertEqual(shown(loops, "p.f90"), "p.f90: 1 unit, 0 loops: 0 parallel, 0 carry, 0 refused\n")

    def test_all_clauses(self) -> None:
        clauses = Clauses(
            ("D", "E"), ("T",), ("I",), ("U",), (("+", "S"), ("MAX", "W"), ("+", "V")), (("K", "2"), ("L", "-M"))
        )
        self.assertEqual(
            clauses_said(clauses),
            "PRIVATE(D,E), FIRSTPRIVATE(T), LASTPRIVATE(T,I), LASTPRIVATE(CONDITIONAL:U), REDUCTION(+:S,V), "
            "REDUCTION(MAX:W), LINEAR(K:2), LINEAR(L:-M)",
        )


class Documents(unittest.TestCase):
    """JSON."""

    def setUp(self) -> None:
        self.loops = Loops("subroutine s(a, n)\nreal a(n)\nparameter (m = 3)\ndo i = 1, n\na(i) = 0\nenddo\nend\n")

    def _document(self, verdict: Verdict, full: bool = False) -> Any:
        return json.loads(document("r.f90", self.loops.file, self.loops.scopes, [verdict], full))

    def test_a_parallel_loop(self) -> None:
        clauses = Clauses(("D",), ("T",), ("I",), (), (("+", "S"),), (("K", "2"),))
        found = self._document(Verdict(self.loops.places[0], PARALLEL, clauses, assumes=("A1", "A3")))
        self.assertEqual(
            {key: found[key] for key in ("schema", "kind", "file", "form")},
            {"schema": 1, "kind": "fortran", "file": "r.f90", "form": "free"},
        )
        self.assertEqual(found["units"], [{"name": "S", "line": 1, "refused": None}])
        self.assertEqual(found["loops"], [{
            "line": 4, "last": 6, "unit": "S", "variable": "I", "level": 1, "header": "DO I = 1, N",
            "verdict": "parallel", "private": ["D"], "lastprivate": ["T", "I"], "conditional": [],
            "reductions": [{"operator": "+", "names": ["S"]}], "inductions": [{"name": "K", "step": "2"}],
            "carries": [], "reason": None, "assumes": ["A1", "A3"], "would": [],
        }])
        self.assertEqual(list(found["assumes"]), ["A1", "A3"])

    def test_a_loop_that_carries(self) -> None:
        write = Origin("S", 5, "A(I)", "A", True)
        carried = Carried("A", (Pair(write, write, "output", "pending"), Pair(write, write, "flow", "proven")))
        verdict = Verdict(
            self.loops.places[0], CARRIED, carried=(carried,), would=(Would(("A8",), PARALLEL, Clauses()),)
        )
        found = self._document(verdict, full=True)["loops"][0]
        self.assertEqual(found["carries"], [
            {"name": "A", "kinds": ["flow", "output"], "rows": 2, "mark": "pending", "lines": [[5, 5]]},
        ])
        self.assertEqual(found["would"], [{"assume": "A8", "verdict": "parallel"}])
        self.assertEqual(found["rows"][0]["source"], {"line": 5, "text": "A(I)", "writes": True})

    def test_a_refused_loop(self) -> None:
        fault = Fault("call", 5, "it isn't there")
        found = self._document(Verdict(self.loops.places[0], REFUSED, refusal=fault))["loops"][0]
        self.assertEqual(found["reason"], {"class": "call", "line": 5, "words": "it isn't there"})

    def test_the_text_of_a_model(self) -> None:
        verdict = self.loops.verdicts()[0]
        found = self._document(verdict, full=True)["loops"][0]
        self.assertIn("DO I = 1, N", found["model"])


if __name__ == "__main__":
    unittest.main()
