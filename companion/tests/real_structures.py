"""Components of structures, structures as arguments, generic names and modules. All was reasoned by hand."""

from __future__ import annotations

import unittest
from typing import List, Union

from ..real.model import Model
from ..real.units import Fault
from ..real.verdicts import Verdict
from .real_loops import Loops

_MODULE = """MODULE MO
IMPLICIT NONE
INTEGER, PARAMETER :: MOST = 9
TYPE PT
REAL X, Y
END TYPE
TYPE, EXTENDS(PT) :: WIDE
REAL Z
END TYPE
TYPE GR
INTEGER N
REAL H(MOST), W(MOST,MOST)
TYPE(PT) Q, R(MOST)
REAL, ALLOCATABLE :: U(:)
END TYPE
TYPE LINKED
REAL X
TYPE(LINKED), POINTER :: NEXT
END TYPE
TYPE(GR) :: G0
REAL :: TOTAL, FIELD(MOST)
{}
CONTAINS
{}
END MODULE
"""
_HEAD = """SUBROUTINE S(A, IX, N, M, P, G, T)
USE MO{}
REAL A(N), T
INTEGER IX(N), N, M, I, J, K
TYPE(PT) P(N), O
TYPE(GR) G
TYPE(WIDE) V(N)
{}
"""


class Case(unittest.TestCase):
    """What is asked about one loop over I."""

    maxDiff = None
    #: What the module has before and after CONTAINS, what USE says further, and further declarations.
    before, contains, use, known = "", "", "", ""

    def loops(self, *lines: str, header: str = "DO I = 1, N") -> Loops:
        text = _MODULE.format(self.before, self.contains) + _HEAD.format(self.use, self.known)
        return Loops(text + "\n".join([header, *lines, "END DO", "END"]) + "\n")

    def model(self, *lines: str, header: str = "DO I = 1, N") -> Model:
        loops = self.loops(*lines, header=header)
        found = loops.model(len(loops.places) - 1 - sum(line.startswith("DO ") for line in lines))
        assert isinstance(found, Model), found
        return found

    def body(self, *lines: str, header: str = "DO I = 1, N") -> List[str]:
        """The model between the DO and its END, with the user's names."""
        model = self.model(*lines, header=header)
        text = [model.names.put_back(line.strip()) for line in model.text.splitlines() if not line.startswith("C")]
        return text[next(number for number, line in enumerate(text) if line.startswith("DO ")) + 1:-2]

    def refused(self, line: str, words: str, reason: str = "call") -> None:
        """The loop with a statement is refused with these words."""
        found: Union[Model, Fault] = self.loops(line).model(-1)
        assert isinstance(found, Fault), found.text
        self.assertEqual(found.reason, reason)
        self.assertIn(words, found.words)

    def verdict(self, *lines: str, header: str = "DO I = 1, N") -> Verdict:
        """The verdict about the loop."""
        return self.loops(*lines, header=header).verdicts()[-1]

    def carried(self, *lines: str, header: str = "DO I = 1, N") -> List[str]:
        """What the loop carries."""
        found = self.verdict(*lines, header=header)
        self.assertIsNone(found.refusal)
        return sorted(one.name for one in found.carried)


class Components(Case):
    """A component is a variable of its own."""

    def test_scalars_of_elements(self) -> None:
        self.assertEqual(self.body("P(I)%X = P(I-1)%Y"), ["P%X(I) = P%Y(I-1)"])
        self.assertEqual(self.carried("P(I)%X = P(I-1)%Y"), [])
        self.assertEqual(self.carried("P(I)%X = P(I-1)%X"), ["P%X"])

    def test_arrays_of_a_structure(self) -> None:
        self.assertEqual(self.body("G%H(I) = G%W(I,M) + G%Q%X"), ["G%H(I) = G%W(I,M)+G%Q%X(1)"])
        self.assertEqual(self.carried("G%H(I) = G%H(I+1)"), ["G%H"])

    def test_all_subscripts_count(self) -> None:
        self.assertEqual(self.body("G%R(I+1)%X = 1"), ["G%R%X(I+1) = 1"])
        self.known = "TYPE(GR) F(9)"
        self.assertEqual(self.body("F(M)%R(I)%X = F(I)%H(2)"), ["F%R%X(M,I) = F%H(I,2)"])
        self.assertEqual(self.carried("F(M)%H(I) = F(M+1)%H(I+1)"), [])

    def test_all_elements_of_a_part_without_subscripts(self) -> None:
        self.known = "TYPE(GR) F(9)"
        self.assertEqual(self.body("F%N = I"), ["DO K1X = 0, K2X", "F%N(1+K1X) = 1", "END DO"])
        self.assertEqual(self.carried("F(I)%H = F(I)%H + 1"), [])
        self.assertEqual(self.carried("F(2)%H = F(I)%H + 1"), ["F%H"])

    def test_allocatable_components(self) -> None:
        self.assertEqual(self.carried("G%U(I) = G%U(I) + 1"), [])

    def test_inherited_components(self) -> None:
        """`V%PT%X` and `V%X` are one."""
        self.assertEqual(self.body("V(I)%PT%X = V(I-1)%X + V(I)%Z"), ["V%X(I) = V%X(I-1)+V%Z(I)"])

    def test_pointers(self) -> None:
        self.known = "TYPE(LINKED) L(9)"
        self.assertEqual(self.body("L(I)%X = 1"), ["L%X(I) = 1"])
        self.refused("L(I)%NEXT%X = 1", "is a POINTER", "pointer")

    def test_equivalence_and_common_keep_it_whole(self) -> None:
        self.known = "TYPE SQ\nSEQUENCE\nREAL X, Y\nEND TYPE\nTYPE(SQ) L(9)\nCOMMON /B/ L"
        self.assertEqual(self.carried("L(I)%X = L(I+1)%Y"), ["L"])

    def test_bounds_are_cited_and_checked(self) -> None:
        self.assertIn("A2", self.verdict("G%H(I) = 1").assumes)
        self.assertNotIn("A2", self.verdict("P(I)%X = 1").assumes)
        found = self.loops("G%H(M) = G%H(10)").model()
        assert isinstance(found, Fault)
        self.assertIn("10 leaves dimension 1 of G%H, which is 1:9", found.words)

    def test_a_component_in_a_subscript(self) -> None:
        self.assertEqual(self.body("A(I+G%N) = A(G%N)"), ["A(I+(G%N)) = A((G%N))"])
        self.assertEqual(self.body("A(I+G%N) = 1", "G%N = 2")[0], "A(OPQ*OPQ) = G%N(1)")

    def test_a_component_as_a_bound(self) -> None:
        """It's the same each time where only other components are assigned."""
        self.assertEqual(self.body("DO J = 1, G%N", "G%W(J,I) = 1", "END DO")[0], "DO J = 1, (G%N)")
        self.assertEqual(self.body("DO J = 1, G%N", "G%N = 1", "END DO")[2], "DO J = 1, OPQ*OPQ")

    def test_no_clause_has_a_component(self) -> None:
        self.assertEqual(self.carried("O%X = A(I)", "A(I) = O%X + 1"), ["O%X"])
        self.assertEqual(self.carried("O%X = O%X + A(I)"), ["O%X"])

    def test_types_with_parameters(self) -> None:
        self.known = "TYPE KD(L)\nINTEGER, LEN :: L\nREAL X(L)\nEND TYPE\nTYPE(KD(9)) L(9)"
        found = self.loops("L(I)%X(2) = 1").model()
        self.assertIsInstance(found, Fault)


class Polymorphic(Case):
    """CLASS: the components of the declared type are those of any type that extends it."""

    def test_components(self) -> None:
        self.known = "CLASS(GR) F"
        text = _MODULE.format("", "") + _HEAD.replace("G, T)", "G, T, F)").format("", self.known)
        loops = Loops(text + "DO I = 1, F%N\nF%H(I) = F%W(I,2) + F%Q%X\nEND DO\nEND\n")
        self.assertEqual([one.word for one in loops.verdicts()], ["parallel"])

    def test_any_type(self) -> None:
        self.known = "CLASS(*) F"
        self.refused("F%X = 1", "F may have any type", "function")

    def test_whole_structures_and_arguments(self) -> None:
        self.known = "CLASS(PT), ALLOCATABLE :: F"
        self.refused("F = P(I)", "may have any type that extends its own", "function")
        self.refused("P(I) = F", "may have different types", "function")
        self.contains = "SUBROUTINE W(Q)\nTYPE(PT) Q\nQ%X = 1\nEND SUBROUTINE"
        self.refused("CALL W(F)", "which may be of another type")


class Bounds(Case):
    def test_a_first_value_that_changes(self) -> None:
        """It's no number that the DO may be counted from 0 with."""
        found = self.body("DO J = G%N, M", "G%W(J,I) = 1", "G%N = J", "END DO")
        self.assertIn("DO J = OPQ*OPQ, M", found)


class Copies(Case):
    """Assignments of structures as a whole."""

    def test_all_components_are_assigned(self) -> None:
        self.assertEqual(self.body("P(I) = P(I+1)"), [
            "IF (P%X(I+1)+P%Y(I+1).NE.0) THEN", "END IF", "P%X(I) = 1", "P%Y(I) = 1",
        ])
        self.assertEqual(self.carried("P(I) = O"), [])
        self.assertEqual(self.carried("P(M) = P(I)"), ["P%X", "P%Y"])

    def test_values(self) -> None:
        self.assertEqual(self.body("P(I) = PT(A(I), 2.0)"), [
            "IF (A(I).NE.0) THEN", "END IF", "P%X(I) = 1", "P%Y(I) = 1",
        ])
        self.contains = "FUNCTION MADE(V)\nREAL V\nTYPE(PT) MADE\nMADE%X = V\nMADE%Y = TOTAL\nEND FUNCTION"
        self.assertEqual(self.body("P(I) = MADE(A(I))"), [
            "IF (A(I)+MO:TOTAL.NE.0) THEN", "END IF", "P%X(I) = 1", "P%Y(I) = 1",
        ])

    def test_another_type(self) -> None:
        self.refused("P(I) = V(I)", "may have different types", "function")

    def test_an_assignment_of_the_users(self) -> None:
        self.before = "INTERFACE ASSIGNMENT(=)\nMODULE PROCEDURE COPY\nEND INTERFACE"
        self.contains = "SUBROUTINE COPY(L, R)\nTYPE(PT), INTENT(OUT) :: L\nTYPE(PT), INTENT(IN) :: R\nL%X = 1\n"
        self.contains += "END SUBROUTINE"
        self.refused("P(I) = O", "has an assignment of its own", "function")

    def test_final(self) -> None:
        self.before = "TYPE FT\nREAL X\nCONTAINS\nFINAL :: STOPS\nEND TYPE"
        self.contains = "SUBROUTINE STOPS(L)\nTYPE(FT) :: L\nTOTAL = 1\nEND SUBROUTINE"
        self.contains += "\nSUBROUTINE W(K)\nINTEGER K\nTYPE(FT) F\nF%X = K\nEND SUBROUTINE"
        self.known = "TYPE(FT) L(9)"
        self.refused("L(I) = L(1)", "which has FINAL", "function")
        self.refused("CALL W(I)", "which has FINAL")

    def test_pointers(self) -> None:
        self.known = "TYPE(LINKED) L(9)"
        self.refused("L(I) = L(1)", "is a POINTER", "function")

    def test_a_module_that_is_missing(self) -> None:
        self.known = "TYPE OWN\nREAL X\nEND TYPE\nTYPE(OWN) L(9)"
        self.use = "\nUSE ELSEWHERE"
        self.refused("L(I) = L(1)", "a module that isn't in the files", "function")


class Arguments(Case):
    """Structures that procedures are given."""

    def test_components_that_are_used(self) -> None:
        self.contains = "SUBROUTINE W(Q)\nTYPE(PT) Q\nQ%X = Q%Y\nEND SUBROUTINE"
        self.assertEqual(self.body("CALL W(P(I))"), [
            "IF (P%Y(I).NE.0) THEN", "END IF", "IF (OPQ.NE.0) THEN", "P%X(I) = 1", "END IF",
        ])
        self.assertEqual(self.carried("CALL W(P(I))"), [])
        self.assertEqual(self.carried("CALL W(O)"), ["O%X"])
        self.assertEqual(self.body("CALL W(G%R(I))")[0], "IF (G%R%Y(I).NE.0) THEN")

    def test_elements_of_a_component(self) -> None:
        self.contains = "SUBROUTINE W(F, K)\nTYPE(GR) F\nINTEGER K\nF%H(K) = F%W(K+1,2)\nEND SUBROUTINE"
        self.assertEqual(self.body("CALL W(G, I)"), [
            "IF (G%W(I+1,2).NE.0) THEN", "END IF", "IF (OPQ.NE.0) THEN", "G%H(I) = 1", "END IF",
        ])
        self.assertEqual(self.carried("CALL W(G, I)"), [])
        self.assertEqual(self.carried("CALL W(G, M)"), ["G%H"])

    def test_arrays_of_structures(self) -> None:
        self.contains = "SUBROUTINE W(Q, K)\nTYPE(PT) Q(:)\nINTEGER K\nQ(K)%X = 1\nEND SUBROUTINE"
        self.assertEqual(self.body("CALL W(P, I)")[1], "P%X(I) = 1")
        self.assertEqual(self.body("CALL W(G%R, I)")[1], "G%R%X(I) = 1")
        self.assertEqual(self.body("CALL W(P(2:M), I)")[1:3], ["DO K1X = 0, M-2", "P%X(2+K1X) = 1"])
        self.contains = self.contains.replace("Q(:)", "Q(*)")
        self.assertEqual(self.body("CALL W(P(I), 1)")[1], "P%X(OPQ*OPQ) = 1")

    def test_a_component_that_is_an_array(self) -> None:
        self.contains = "SUBROUTINE W(H, K)\nREAL H(:)\nINTEGER K\nH(K) = 1\nEND SUBROUTINE"
        self.assertEqual(self.body("CALL W(G%H, I)")[1], "G%H(I) = 1")
        self.assertEqual(self.body("CALL W(G%W(:,I), 2)")[2], "G%W(1+K1X,I) = 1")
        self.assertEqual(self.carried("CALL W(G%W(:,I), 2)"), [])
        self.assertEqual(self.body("CALL W(G%U, I)")[1], "G%U(OPQ*OPQ) = 1")

    def test_shared_structures(self) -> None:
        self.contains = "SUBROUTINE W(K)\nINTEGER K\nG0%H(K) = G0%N\nEND SUBROUTINE"
        self.assertEqual(self.body("CALL W(I)", "M = G0%N")[3], "G0%H(I) = 1")
        self.assertEqual(self.carried("CALL W(I)"), [])
        self.assertEqual(self.carried("CALL W(I)", "G0%N = 2"), ["G0%N"])
        self.use = ", ONLY: W, PT, GR, WIDE"
        self.assertEqual(self.carried("CALL W(I)"), [])
        self.assertEqual(self.carried("CALL W(M)"), ["MO:G0%H"])

    def test_intent_out_leaves_nothing_of_it(self) -> None:
        self.contains = "SUBROUTINE W(Q)\nTYPE(PT), INTENT(OUT) :: Q\nQ%X = 1\nEND SUBROUTINE"
        self.assertEqual(self.carried("CALL W(O)", "A(I) = O%Y"), ["O%X", "O%Y"])
        self.contains = "SUBROUTINE W(F)\nTYPE(GR), INTENT(OUT) :: F\nF%N = 1\nEND SUBROUTINE"
        self.refused("CALL W(G)", "whose components it deallocates")

    def test_by_value(self) -> None:
        self.contains = "SUBROUTINE W(Q, V)\nTYPE(PT), VALUE :: Q\nREAL V\nV = Q%X\nQ%X = 1\nEND SUBROUTINE"
        self.assertEqual(self.body("CALL W(P(I+1), A(I))")[:2], ["IF (P%X(I+1)+P%Y(I+1).NE.0) THEN", "END IF"])

    def test_two_names_for_a_component(self) -> None:
        self.contains = "SUBROUTINE W(Q, V)\nTYPE(PT) Q\nREAL V\nQ%X = V\nEND SUBROUTINE"
        self.assertEqual(self.carried("CALL W(O, O%Y)"), ["O%X"])
        self.refused("CALL W(O, O%X)", "has two names for O%X")

    def test_a_structure_and_a_part_of_it(self) -> None:
        self.contains = "SUBROUTINE W(Q, F)\nTYPE(PT) Q\nTYPE(GR) F\nQ%X = F%Q%X\nEND SUBROUTINE"
        self.refused("CALL W(G%Q, G)", "has two names for G%Q%X")

    def test_other_types(self) -> None:
        self.contains = "SUBROUTINE W(Q)\nTYPE(PT) Q\nQ%X = 1\nEND SUBROUTINE"
        self.refused("CALL W(V(I))", "which may be of another type")
        self.contains = self.contains.replace("TYPE(PT)", "CLASS(PT)")
        self.refused("CALL W(P(I))", "may have any type that extends its own")

    def test_a_circle(self) -> None:
        """Of procedures that call one another nothing is excluded."""
        self.contains = "RECURSIVE SUBROUTINE W(Q, K)\nTYPE(PT) Q\nINTEGER, INTENT(IN) :: K\nQ%X = 1\n"
        self.contains += "IF (K > 1) CALL W(Q, K-1)\nEND SUBROUTINE"
        self.assertEqual(self.carried("CALL W(O, I)"), ["O%X", "O%Y"])
        self.assertEqual(self.carried("CALL W(P(I), I)"), [])

    def test_functions(self) -> None:
        self.contains = "REAL FUNCTION W(Q)\nTYPE(PT), INTENT(IN) :: Q\nW = Q%X\nEND FUNCTION"
        self.assertEqual(self.body("P(I)%Y = W(P(I+1))"), ["P%Y(I) = P%X(I+1)"])
        self.assertEqual(self.body("P(I)%Y = W(PT(T, A(I)))"), ["P%Y(I) = T+A(I)"])


class Generic(Case):
    """Generic names."""

    before = "INTERFACE W\nMODULE PROCEDURE W1, W2, W3, W4\nEND INTERFACE"
    contains = """SUBROUTINE W1(V)
REAL V
V = 1
END SUBROUTINE
SUBROUTINE W2(V)
REAL V(:)
TOTAL = V(1)
END SUBROUTINE
SUBROUTINE W3(V)
INTEGER V
FIELD(1) = V
END SUBROUTINE
SUBROUTINE W4(V)
TYPE(PT) V
V%X = 2
END SUBROUTINE"""

    def test_one_fits(self) -> None:
        self.assertEqual(self.body("CALL W(A(I))"), ["IF (OPQ.NE.0) THEN", "A(I) = 1", "END IF"])
        self.assertEqual(self.body("CALL W(G%W(:,I))")[-2], "MO:TOTAL = 1")
        self.assertEqual(self.body("CALL W(IX(I) + 1)")[-2], "MO:FIELD(1) = 1")
        self.assertEqual(self.body("CALL W(P(I))"), ["IF (OPQ.NE.0) THEN", "P%X(I) = 1", "END IF"])

    def test_kinds_and_numbers_of_arguments(self) -> None:
        self.contains = self.contains.replace("INTEGER V", "DOUBLE PRECISION V")
        self.known = "DOUBLE PRECISION D(9)"
        self.assertEqual(self.body("CALL W(D(I))")[3:], ["MO:FIELD(1) = 1", "END IF"])
        self.contains = self.contains.replace("W1(V)", "W1(V, L)\nINTEGER L")
        self.assertEqual(self.body("CALL W(D(I))")[-2], "MO:FIELD(1) = 1")
        self.assertEqual(self.body("CALL W(A(I), 2)"), ["IF (OPQ.NE.0) THEN", "A(I) = 1", "END IF"])
        self.refused("CALL W(A(I), 2.0)", "none of its procedures fits")

    def test_several_fit(self) -> None:
        """The rank of MERGE isn't looked at, so that any of two may be meant."""
        self.contains = self.contains.replace("V = 1", "FIELD(2) = V")
        self.contains = self.contains.replace("REAL V\n", "REAL, INTENT(IN) :: V\n")
        found = self.body("CALL W(MERGE(A(I), T, M > I))")
        self.assertIn("MO:FIELD(2) = 1", found)
        self.assertIn("MO:TOTAL = 1", found)
        self.assertNotIn("MO:FIELD(1) = 1", found)

    def test_the_first_that_is_not_known(self) -> None:
        self.contains = self.contains.replace("TOTAL = V(1)", "PRINT *, V(1)")
        self.refused("CALL W(G%W(:,I))", "W may be W2: W2 does input or output")
        self.assertEqual(self.carried("CALL W(A(I))"), [])

    def test_elemental(self) -> None:
        self.contains = self.contains.replace("SUBROUTINE W3", "ELEMENTAL SUBROUTINE W3").replace(
            "FIELD(1) = V", "V = 0").replace("INTEGER V", "INTEGER, INTENT(INOUT) :: V")
        self.assertIn("IX(OPQ*OPQ) = 1", self.body("CALL W(IX)"))

    def test_further_procedures_of_the_unit(self) -> None:
        self.known = "INTERFACE W\nSUBROUTINE W5(V)\nLOGICAL V\nEND SUBROUTINE\nEND INTERFACE\nLOGICAL L(9)"
        self.refused("CALL W(L(I))", "W may be W5: W5 isn't in the files")
        self.assertEqual(self.carried("CALL W(A(I))"), [])

    def test_a_module_that_is_missing(self) -> None:
        self.use = "\nUSE ELSEWHERE"
        self.refused("CALL W(A(I))", "module ELSEWHERE isn't in the files")

    def test_a_circle(self) -> None:
        """A call by a generic name is a call of what it may mean."""
        self.contains = self.contains.replace("SUBROUTINE W1(V)\nREAL V\nV = 1", (
            "RECURSIVE SUBROUTINE W1(V)\nREAL V\nV = 1\nIF (TOTAL > 1) CALL W(V)"
        ))
        self.assertEqual(self.body("CALL W(A(I))")[:2], ["IF (A(I)+MO:TOTAL.NE.0) THEN", "END IF"])

    def test_a_constructor_of_the_users(self) -> None:
        self.before = "INTERFACE PT\nMODULE PROCEDURE F1\nEND INTERFACE"
        self.contains = "FUNCTION F1(V)\nREAL V\nTYPE(PT) F1\nF1%X = 1\nTOTAL = V\nEND FUNCTION"
        self.refused("A(I) = PT(A(I))", "PT is a derived type and a generic name", "function")

    def test_functions(self) -> None:
        self.before = "INTERFACE F\nMODULE PROCEDURE F1, F2\nEND INTERFACE"
        self.contains = "REAL FUNCTION F1(V)\nREAL V\nF1 = V\nEND FUNCTION\nREAL FUNCTION F2(V)\nREAL V(:)\n"
        self.contains += "F2 = V(2)\nEND FUNCTION"
        self.assertEqual(self.body("A(I) = F(T)"), ["A(I) = T"])
        self.assertEqual(self.body("A(I) = F(G%H)"), ["A(I) = G%H(2)"])
        self.assertEqual(self.verdict("T = T + F(A(I))").clauses.reductions, (("+", "T"),))


class Modules(Case):
    """Names of modules."""

    contains = "SUBROUTINE W(V)\nREAL V\nTOTAL = TOTAL + V\nFIELD(1) = V\nEND SUBROUTINE"

    def test_renamed_variables(self) -> None:
        self.use = ", ONLY: PT, GR, WIDE, W, SUM1 => TOTAL"
        found = self.body("CALL W(A(I))")
        self.assertIn("SUM1 = 1", found)
        self.assertTrue(any("MO:FIELD" in line for line in found))

    def test_renamed_without_only(self) -> None:
        self.use = ", SUM1 => TOTAL"
        self.assertIn("SUM1 = 1", self.body("CALL W(A(I))"))

    def test_renamed_procedures(self) -> None:
        self.use = ", ADDED => W"
        self.assertIn("MO:TOTAL = 1", self.body("CALL ADDED(A(I))"))

    def test_a_variable_of_the_module_is_never_private(self) -> None:
        self.contains = "SUBROUTINE W(V)\nREAL V\nV = TOTAL\nEND SUBROUTINE"
        self.assertEqual(self.carried("TOTAL = A(I)", "CALL W(A(I))"), ["TOTAL"])

    def test_named_constants(self) -> None:
        self.assertEqual(self.body("A(MOST*I) = A(MOST*I+1)"), ["A(9*I) = A(9*I+1)"])

    def test_a_module_in_a_module(self) -> None:
        self.before = ""
        text = _MODULE.format("", self.contains) + "MODULE OVER\nUSE MO, ONLY: GO => W\nEND MODULE\n"
        text += "SUBROUTINE S(A, N)\nUSE OVER\nREAL A(N)\nDO I = 1, N\nCALL GO(A(I))\nEND DO\nEND\n"
        verdict = Loops(text).verdicts()[0]
        self.assertEqual(sorted(one.name for one in verdict.carried), ["MO:FIELD", "MO:TOTAL"])


if __name__ == "__main__":
    unittest.main()
