"""Calls in loops: what the model has for them, and what is never said of a procedure. All was reasoned by hand."""

from __future__ import annotations

import unittest
from typing import List, Sequence, Union

from ..real.model import Model
from ..real.symbols import Scopes
from ..real.units import Fault
from ..real.verdicts import places_of
from .real_loops import Loops

_HEAD = ["SUBROUTINE S(A, B, C, IX, N, M, K, L, X, Y, Z)"]
_KNOWN = ["REAL A(N), B(N), C(N,M), X, Y, Z, T, U", "INTEGER IX(N), N, M, K, L, I, J"]


def program(lines: Sequence[str], procedures: str, known: Sequence[str] = (), before: str = "") -> Loops:
    """A subroutine with these lines, with declarations of its own, and with procedures after it."""
    return Loops("\n".join([*filter(None, [before]), *_HEAD, *_KNOWN, *known, *lines, "END", procedures]) + "\n")


def around(call: str) -> List[str]:
    """A loop with a statement."""
    return ["DO I = 1, N", call, "END DO"]


class Case(unittest.TestCase):
    """What is asked about one loop with a CALL."""

    maxDiff = None

    def body(self, call: str, procedures: str, **options: object) -> List[str]:
        """What the model has between the DO and its END."""
        return program(around(call), procedures, **options).body()[1:-1]  # type: ignore[arg-type]

    def model(self, call: str, procedures: str, **options: object) -> Model:
        """The model."""
        found = program(around(call), procedures, **options).model()  # type: ignore[arg-type]
        assert isinstance(found, Model), found
        return found

    def refused(self, call: str, procedures: str, words: str, reason: str = "call", **options: object) -> None:
        """The loop is refused with these words at the line of the statement."""
        loops = program(around(call), procedures, **options)  # type: ignore[arg-type]
        found: Union[Model, Fault] = loops.model()
        assert isinstance(found, Fault), found.text
        self.assertEqual(found.reason, reason)
        self.assertIn(words, found.words)


_WORK = "SUBROUTINE P(V, W)\nREAL V, W\n{}\nEND"


class Uses(Case):
    """Each kind of use of a scalar."""

    def test_none(self) -> None:
        self.assertEqual(self.body("CALL P(A(I), X)", _WORK.format("")), [])

    def test_read(self) -> None:
        body = self.body("CALL P(A(I), X)", _WORK.format("IF (V > W) RETURN"))
        self.assertEqual(body, ["IF (A(I)+X.NE.0) THEN", "END IF"])

    def test_must_write(self) -> None:
        body = self.body("CALL P(T, X)", _WORK.format("V = W"))
        self.assertEqual(body, ["IF (X.NE.0) THEN", "END IF", "T = 1"])
        self.assertEqual(self.model("CALL P(T, X)", _WORK.format("V = W")).candidates, ("T",))

    def test_may_write(self) -> None:
        body = self.body("CALL P(T, X)", _WORK.format("IF (W > 0) V = 1"))
        self.assertEqual(body, ["IF (X.NE.0) THEN", "END IF", "IF (OPQ.NE.0) THEN", "T = 1", "END IF"])

    def test_a_return_leaves_a_scalar_unassigned(self) -> None:
        body = self.body("CALL P(T, X)", _WORK.format("IF (W > 0) RETURN\nV = 1"))
        self.assertEqual(body[2:], ["IF (OPQ.NE.0) THEN", "T = 1", "END IF"])

    def test_both_branches_assign(self) -> None:
        body = self.body("CALL P(T, X)", _WORK.format("IF (W > 0) THEN\nV = 1\nELSE\nV = 2\nEND IF"))
        self.assertEqual(body[2:], ["T = 1"])

    def test_a_loop_may_have_no_iteration(self) -> None:
        body = self.body("CALL P(T, X)", _WORK.format("DO J = 1, INT(W)\nV = 1\nEND DO"))
        self.assertEqual(body[2:], ["IF (OPQ.NE.0) THEN", "T = 1", "END IF"])

    def test_what_is_read_after_it_is_written_comes_after(self) -> None:
        body = self.body("CALL P(T, X)", _WORK.format("V = W\nW = V"))
        self.assertEqual(body, ["IF (X.NE.0) THEN", "END IF", "T = 1", "X = 1", "IF (T.NE.0) THEN", "END IF"])

    def test_what_is_read_first_comes_first(self) -> None:
        body = self.body("CALL P(T, X)", _WORK.format("V = V + W"))
        self.assertEqual(body, ["IF (T+X.NE.0) THEN", "END IF", "T = 1"])

    def test_calls_in_calls(self) -> None:
        inner = _WORK.format("CALL Q(V, W)") + "\nSUBROUTINE Q(R, S)\nREAL R, S\nR = S\nEND"
        self.assertEqual(self.body("CALL P(T, X)", inner), ["IF (X.NE.0) THEN", "END IF", "T = 1"])

    def test_a_call_on_a_condition(self) -> None:
        body = self.body("IF (X > 0) CALL P(T, X)", _WORK.format("V = 1"))
        self.assertEqual(body, ["IF (X.NE.0) THEN", "T = 1", "END IF"])

    def test_a_conditional_call_leaves_a_value(self) -> None:
        """T is needed after the loop where the call isn't carried out."""
        lines = ["DO I = 1, N", "T = A(I)", "B(I) = T", "END DO", "IF (X > 0) CALL P(T, X)", "Y = T"]
        loops = program(lines, _WORK.format("V = 1"))
        self.assertEqual(loops.verdicts()[0].clauses.last, ("T",))

    def test_a_call_ends_what_is_needed(self) -> None:
        lines = ["DO I = 1, N", "T = A(I)", "B(I) = T", "END DO", "CALL P(T, X)", "Y = T"]
        loops = program(lines, _WORK.format("V = 1"))
        self.assertEqual(loops.verdicts()[0].clauses.private, ("T",))
        self.assertIn("A5", loops.verdicts()[0].assumes)

    def test_bounds_are_read(self) -> None:
        """The extent of a local array is read at each call."""
        procedure = "SUBROUTINE P(V, J)\nREAL V, W(J)\nINTEGER J\nV = 1\nEND"
        self.assertEqual(self.body("CALL P(A(I), K)", procedure)[:2], ["IF (K.NE.0) THEN", "END IF"])

    def test_lengths_are_read(self) -> None:
        procedure = "SUBROUTINE P(V, J)\nREAL V\nINTEGER J\nCHARACTER W*(J)\nV = 1\nEND"
        self.assertEqual(self.body("CALL P(A(I), K)", procedure)[:2], ["IF (K.NE.0) THEN", "END IF"])

    def test_an_expression_is_read(self) -> None:
        body = self.body("CALL P(A(I), X+Y)", _WORK.format("V = W"))
        self.assertEqual(body, ["IF (X+Y.NE.0) THEN", "END IF", "IF (OPQ.NE.0) THEN", "A(I) = 1", "END IF"])

    def test_by_value(self) -> None:
        module = "MODULE MO\nCONTAINS\nSUBROUTINE P(V, W)\nREAL, VALUE :: V\nREAL W\nV = W\nEND SUBROUTINE\nEND MODULE"
        head = "SUBROUTINE S(A, N)\nUSE MO\nREAL A(N)\nDO I = 1, N\nCALL P(A(I), 1.0)\nEND DO\nEND\n"
        self.assertEqual(Loops(module + "\n" + head).body(), ["DO I = 1, N", "IF (A(I).NE.0) THEN", "END IF", "END DO"])


_ARRAY = "SUBROUTINE P(V, J)\nREAL V({})\nINTEGER J\n{}\nEND"
_SQUARE = "SUBROUTINE P(V, J, LD)\nINTEGER J, LD\nREAL V({})\n{}\nEND"


class Arrays(Case):
    """Elements, whole arrays, sections."""

    def written(self, call: str, procedures: str, **options: object) -> str:
        """The target in the model of a procedure that assigns one element on no condition of its own."""
        lines = self.body(call, procedures, **options)
        return next(line for line in lines if line.endswith(" = 1")).split(" = ")[0]

    def test_an_element_of_a_whole_array(self) -> None:
        self.assertEqual(self.written("CALL P(A, I)", _ARRAY.format("*", "V(J+1) = 0")), "A(I+1)")

    def test_constants_of_the_procedure(self) -> None:
        self.assertEqual(
            self.written("CALL P(A, I)", _ARRAY.format("*", "PARAMETER (NN = 3)\nV(2*J-NN) = 0")), "A((2*I)-3)"
        )

    def test_another_lower_bound(self) -> None:
        self.assertEqual(self.written("CALL P(A, I)", _ARRAY.format("0:*", "V(J) = 0")), "A(I+1)")

    def test_an_unknown_lower_bound(self) -> None:
        written = self.written("CALL P(A, I)", _ARRAY.format("J:99", "V(J) = 0"))
        self.assertEqual(written, "A(OPQ*OPQ)")

    def test_a_dummy_that_changes(self) -> None:
        written = self.written("CALL P(A, K)", _ARRAY.format("*", "J = J + 1\nV(J) = 0"))
        self.assertNotEqual(written, "A(K)")
        body = self.body("CALL P(A, K)", _ARRAY.format("*", "J = J + 1\nV(J) = 0"))
        self.assertIn("A(OPQ*OPQ) = 1", body)

    def test_a_dummy_that_a_further_call_may_change(self) -> None:
        procedure = _ARRAY.format("*", "CALL Q(J)\nV(J) = 0") + "\nSUBROUTINE Q(JJ)\nJJ = 2\nEND"
        self.assertIn("A(OPQ*OPQ) = 1", self.body("CALL P(A, K)", procedure))

    def test_a_variable_of_the_procedure(self) -> None:
        written = self.written("CALL P(A, I)", _ARRAY.format("*", "DO JJ = 1, J\nV(JJ) = 0\nEND DO"))
        self.assertEqual(written, "A(OPQ*OPQ)")

    def test_an_element_stands_for_the_array(self) -> None:
        self.assertEqual(self.written("CALL P(A(I), 1)", _ARRAY.format("*", "V(J) = 0")), "A(OPQ*OPQ)")
        self.assertEqual(self.written("CALL P(C(1,I), 1)", _ARRAY.format("*", "V(J) = 0")), "C(OPQ*OPQ,OPQ*OPQ)")

    def test_an_element_for_a_scalar(self) -> None:
        self.assertEqual(self.written("CALL P(C(2,I), X)", _WORK.format("V = 0")), "C(2,I)")

    def test_an_array_for_a_scalar_is_any_element(self) -> None:
        self.assertEqual(self.written("CALL P(A, X)", _WORK.format("V = 0")), "A(OPQ*OPQ)")

    def test_a_section_is_all_of_it(self) -> None:
        body = self.body("CALL P(C(:,I), 1)", _ARRAY.format("*", "V(J) = 0"))
        self.assertEqual(body[1:], ["DO K1X = 0, K2X", "C(1+K1X,I) = 1", "END DO", "END IF"])

    def test_the_same_leading_extent(self) -> None:
        procedure = _SQUARE.format("LD,*", "V(J,2) = 0")
        self.assertEqual(self.written("CALL P(C, I, N)", procedure), "C(I,2)")

    def test_another_leading_extent(self) -> None:
        procedure = _SQUARE.format("LD,*", "V(J,2) = 0")
        self.assertEqual(self.written("CALL P(C, I, M)", procedure), "C(OPQ*OPQ,OPQ*OPQ)")

    def test_a_constant_leading_extent(self) -> None:
        known = ["REAL E(10,10)"]
        self.assertEqual(self.written("CALL P(E, I, N)", _SQUARE.format("10,5", "V(J,2) = 0"), known=known), "E(I,2)")
        written = self.written("CALL P(E, I, N)", _SQUARE.format("9,5", "V(J,2) = 0"), known=known)
        self.assertEqual(written, "E(OPQ*OPQ,OPQ*OPQ)")

    def test_a_constant_for_a_leading_extent(self) -> None:
        known, procedure = ["REAL E(10,10)"], _SQUARE.format("LD,*", "V(J,2) = 0")
        self.assertEqual(self.written("CALL P(E, I, 10)", procedure, known=known), "E(I,2)")
        self.assertEqual(self.written("CALL P(E, I, 9)", procedure, known=known), "E(OPQ*OPQ,OPQ*OPQ)")

    def test_another_rank(self) -> None:
        self.assertEqual(self.written("CALL P(C, I)", _ARRAY.format("*", "V(J) = 0")), "C(OPQ*OPQ,OPQ*OPQ)")

    def test_an_extent_that_has_changed(self) -> None:
        """The array has the extent that N had when the run began."""
        procedure = _SQUARE.format("LD,*", "V(J,2) = 0")
        lines = ["N = N - 1", *around("CALL P(C, I, N)")]
        self.assertIn("C(OPQ*OPQ,OPQ*OPQ) = 1", program(lines, procedure).body())

    def test_an_extent_of_the_host_with_the_same_name(self) -> None:
        """N of the contained procedure isn't the N of the declaration."""
        inner = "CONTAINS\nSUBROUTINE IN(N)\nINTEGER N, I\nDO I = 1, 9\nCALL P(C, I, N)\nEND DO\nEND SUBROUTINE\nEND"
        text = "\n".join([*_HEAD, *_KNOWN, "C(1,1) = N", inner, _SQUARE.format("LD,*", "V(J,2) = 0")])
        self.assertIn("C(OPQ*OPQ,OPQ*OPQ) = 1", Loops(text + "\n").body())

    def test_allocatable_arrays_have_unknown_bounds(self) -> None:
        known = ["REAL, ALLOCATABLE :: D(:)"]
        self.assertEqual(self.written("CALL P(D, I)", _ARRAY.format("*", "V(J) = 0"), known=known), "D(OPQ*OPQ)")

    def test_wide_indices(self) -> None:
        procedure = _ARRAY.format("*", "V(J) = 0").replace("INTEGER J", "INTEGER(8) J")
        known = ["INTEGER(8) W"]
        self.assertEqual(self.written("CALL P(A, W)", procedure, known=known), "A(OPQ*OPQ)")

    def test_many_elements_are_the_whole(self) -> None:
        lines = "\n".join(f"V(J+{number}) = 0" for number in range(9))
        self.assertEqual(self.written("CALL P(A, I)", _ARRAY.format("*", lines)), "A(OPQ*OPQ)")

    def test_intent_out_makes_all_of_an_array_undefined(self) -> None:
        procedure = _ARRAY.format("9", "INTENT(OUT) V\nV(J) = 0")
        self.assertEqual(self.written("CALL P(A, I)", procedure), "A(OPQ*OPQ)")

    def test_a_section_cites_bounds(self) -> None:
        self.assertIn("A2", self.model("CALL P(A, I)", _ARRAY.format("*", "V(J) = 0")).assumes)

    def test_where_bodies_come_from(self) -> None:
        self.assertIn("A5", self.model("CALL P(A, I)", _ARRAY.format("*", "V(J) = 0")).assumes)
        self.assertIn("A6", self.model("CALL P(A, I)", _ARRAY.format("*", "V(ABS(J)) = SQRT(V(J))")).assumes)


_SHARING = "SUBROUTINE P(V, J)\nREAL V\nINTEGER J\n{}\nEND"


class Shared(Case):
    """Common blocks, modules and hosts."""

    def accesses(self, common: str, procedures: str, call: str = "CALL P(A(I), I)") -> List[str]:
        """The body of the model where the unit has a common block."""
        return self.body(call, procedures, known=[common, "REAL G, H"] if common else [])

    def test_the_same_layout_with_other_names(self) -> None:
        body = self.accesses("COMMON /Q/ G, H(9)", _SHARING.format("COMMON /Q/ R, W(9)\nW(J) = V"))
        self.assertEqual(body[2:], ["IF (OPQ.NE.0) THEN", "H(I) = 1", "END IF"])

    def test_another_layout_overlaps_several_names(self) -> None:
        body = self.accesses("COMMON /Q/ G, H(9)", _SHARING.format("COMMON /Q/ W(10)\nW(J) = V"))
        self.assertEqual([line for line in body if " = " in line], ["G = 1", "H(OPQ*OPQ) = 1"])

    def test_a_variable_that_goes_beyond_the_units(self) -> None:
        body = self.accesses("COMMON /Q/ G, H(8)", _SHARING.format("COMMON /Q/ W(10)\nW(J) = V"))
        self.assertEqual([line for line in body if " = " in line], ["G = 1", "H(OPQ*OPQ) = 1", "K1X = 1"])

    def test_a_later_part(self) -> None:
        body = self.accesses("COMMON /Q/ G, H(9)", _SHARING.format("COMMON /Q/ R, T(3), W(6)\nW(J) = V"))
        self.assertEqual([line for line in body if " = " in line], ["H(OPQ*OPQ) = 1"])

    def test_other_lengths_count(self) -> None:
        """A DOUBLE PRECISION has the place of two REALs."""
        procedure = _SHARING.format("DOUBLE PRECISION W\nCOMMON /Q/ W, R\nR = V")
        body = self.accesses("COMMON /Q/ G, D, H(9)", procedure)
        self.assertEqual([line for line in body if " = " in line], ["H(OPQ*OPQ) = 1"])

    def test_padding_makes_places_uncertain(self) -> None:
        procedure = _SHARING.format("DOUBLE PRECISION W\nCOMMON /Q/ R, W\nW = V")
        body = self.accesses("COMMON /Q/ G, D, H(9)", procedure)
        self.assertEqual([line for line in body if " = " in line], [
            "D = 1", "G = 1", "H(OPQ*OPQ) = 1", "K1X = 1",
        ])

    def test_equivalence_makes_places_uncertain(self) -> None:
        procedure = _SHARING.format("COMMON /Q/ R\nEQUIVALENCE (R, E)\nREAL E(9)\nE(J) = V")
        body = self.accesses("COMMON /Q/ G, H(9)", procedure)
        self.assertEqual([line for line in body if " = " in line], ["G = 1", "H(OPQ*OPQ) = 1", "K1X = 1"])

    def test_a_block_that_the_unit_has_not(self) -> None:
        loops = program(around("CALL P(A(I), I)"), _SHARING.format("COMMON /Q/ G\nG = V"))
        model = loops.model()
        assert isinstance(model, Model)
        self.assertEqual(model.candidates, ())
        self.assertEqual([one.name for one in loops.verdicts()[0].carried], ["/Q/"])

    def test_parts_of_a_block_that_nothing_crosses(self) -> None:
        procedures = _SHARING.format("COMMON /Q/ G, H\nG = H")
        loops = program(around("CALL P(A(I), I)"), procedures)
        self.assertEqual([one.name for one in loops.verdicts()[0].carried], ["/Q/:G"])

    def test_blocks_that_overlap_unseen(self) -> None:
        """Neither variable has a name in the unit, and they overlap in part."""
        procedures = _SHARING.format("COMMON /Q/ G(2), H(2)\nG(2) = V") + (
            "\nSUBROUTINE R(V)\nREAL V\nCOMMON /Q/ D, E(2)\nV = E(1)\nEND")
        loops = program(["DO I = 1, N", "CALL P(A(I), I)", "CALL R(B(I))", "END DO"], procedures)
        carried = [(one.name, one.kinds) for one in loops.verdicts()[0].carried]
        self.assertEqual(carried, [("/Q/", ("flow", "anti", "output"))])

    def test_equivalence_joins_the_parts_of_a_block(self) -> None:
        """E and D have storage in common, and neither has a name in the unit."""
        procedures = _SHARING.format("COMMON /Q/ G, H\nEQUIVALENCE (G, E)\nREAL E(2)\nE(2) = V") + (
            "\nSUBROUTINE R(V)\nREAL V\nCOMMON /Q/ C, D\nV = D\nEND")
        loops = program(["DO I = 1, N", "CALL P(A(I), I)", "CALL R(B(I))", "END DO"], procedures)
        carried = [(one.name, one.kinds) for one in loops.verdicts()[0].carried]
        self.assertEqual(carried, [("/Q/", ("flow", "anti", "output"))])

    def test_a_variable_of_a_module(self) -> None:
        module = "MODULE MO\nREAL G, H(9)\nCONTAINS\n" + _SHARING.format("H(J) = V\nG = H(J)") + " SUBROUTINE\nEND MODULE"
        text = module + (
            "\nSUBROUTINE S(A, N)\nUSE MO, HH => H\nREAL A(N)\nDO I = 1, N\nCALL P(A(I), I)\nEND DO\nHH(1) = 0\nEND\n")
        loops = Loops(text)
        self.assertIn("HH(I) = 1", loops.body())
        self.assertEqual([one.name for one in loops.verdicts()[0].carried], ["MO:G"])

    def test_a_variable_of_the_host(self) -> None:
        inner = "CONTAINS\n" + _SHARING.format("T = V\nB(J) = T") + " SUBROUTINE\nEND"
        text = "\n".join([*_HEAD, *_KNOWN, *around("CALL P(A(I), I)"), "X = T", inner]) + "\n"
        loops = Loops(text)
        self.assertIn("B(I) = 1", loops.body())
        model = loops.model()
        assert isinstance(model, Model)
        self.assertEqual(model.candidates, ())
        self.assertEqual([one.name for one in loops.verdicts()[0].carried], ["T"])

    def test_it_is_never_private(self) -> None:
        """Each iteration assigns G first, and the procedure reads the one and only G."""
        lines = ["DO I = 1, N", "G = A(I)", "CALL P(B(I), I)", "END DO"]
        loops = program(lines, _SHARING.format("COMMON /Q/ G\nV = G"), known=["COMMON /Q/ G"])
        self.assertEqual([one.name for one in loops.verdicts()[0].carried], ["G"])

    def test_it_is_never_gathered(self) -> None:
        lines = ["DO I = 1, N", "G = G + A(I)", "CALL P(B(I), I)", "END DO"]
        loops = program(lines, _SHARING.format("COMMON /Q/ G\nV = G"), known=["COMMON /Q/ G"])
        self.assertEqual([one.name for one in loops.verdicts()[0].carried], ["G"])

    def test_it_is_never_gathered_by_a_function_that_reads_it(self) -> None:
        function = "REAL FUNCTION F(V)\nREAL V\nCOMMON /Q/ G\nF = V + G\nEND"
        loops = program(around("G = G + F(A(I))"), function, known=["COMMON /Q/ G"])
        self.assertEqual([one.name for one in loops.verdicts()[0].carried], ["G"])

    def test_it_never_grows(self) -> None:
        lines = ["KK = 0", "DO I = 1, N", "KK = KK + 1", "CALL P(B(I), I)", "A(KK) = 0", "END DO"]
        loops = program(lines, _SHARING.format("COMMON /Q/ KK\nV = KK"), known=["COMMON /Q/ KK"])
        self.assertIn("KK", [one.name for one in loops.verdicts()[0].carried])

    def test_it_never_counts(self) -> None:
        self.refused(
            "CALL P(A(I), K)", _SHARING.format("COMMON /Q/ II\nV = II"), "uses I itself, which counts a DO",
            known=["COMMON /Q/ I"],
        )

    def test_it_never_counts_an_inner_loop(self) -> None:
        lines = ["DO I = 1, N", "DO J = 1, M", "CALL P(A(I), K)", "END DO", "END DO"]
        found = program(lines, _SHARING.format("COMMON /Q/ JJ\nV = JJ"), known=["COMMON /Q/ J"]).model()
        assert isinstance(found, Fault)
        self.assertEqual((found.reason, found.line), ("call", 7))

    def test_a_saved_block_may_be_assigned(self) -> None:
        """A common block isn't the procedure's own, so SAVE changes nothing."""
        body = self.accesses("COMMON /Q/ G", _SHARING.format("COMMON /Q/ W\nSAVE /Q/\nW = V"))
        self.assertIn("G = 1", body)

    def test_block_data_does_nothing(self) -> None:
        procedures = _SHARING.format("COMMON /Q/ G\nV = G") + "\nBLOCK DATA\nCOMMON /Q/ G\nDATA G /1.0/\nEND"
        self.assertEqual(program(around("CALL P(A(I), I)"), procedures).verdicts()[0].word, "parallel")

    def test_a_module_that_is_missing_may_have_the_variable(self) -> None:
        module = "MODULE MO\nREAL G\nEND MODULE\n"
        procedure = "SUBROUTINE P(V)\nUSE MO\nREAL V\nG = V\nEND\n"
        text = module + procedure + (
            "SUBROUTINE S(A, N)\nUSE ELSEWHERE\nREAL A(N), W\nEXTERNAL P\nINTEGER I, N\nDO I = 1, N\nCALL P(A(I))\n"
            "END DO\nEND\n")
        found = Loops(text).model()
        assert isinstance(found, Fault)
        self.assertIn("a module that isn't in the files may have", found.words)

    def test_threads_have_copies(self) -> None:
        module = "MODULE MO\nREAL G\n!$OMP THREADPRIVATE(G)\nEND MODULE\n"
        text = module + (
            "SUBROUTINE P(V)\nUSE MO\nREAL V\nV = G\nEND\nSUBROUTINE S(A, N)\nREAL A(N)\nDO I = 1, N\nCALL P(A(I))\n"
            "END DO\nEND\n")
        found = Loops(text).model()
        assert isinstance(found, Fault)
        self.assertIn("THREADPRIVATE", found.words)


class Procedures(Case):
    """Procedures of which nothing is said, each with why."""

    def test_input_and_output(self) -> None:
        self.refused("CALL P(A(I), X)", _WORK.format("PRINT *, V"), "P does input or output: PRINT (line 10)")

    def test_stop(self) -> None:
        self.refused("CALL P(A(I), X)", _WORK.format("IF (V < 0) STOP"), "P may end the run: STOP (line 10)")

    def test_save(self) -> None:
        self.refused("CALL P(A(I), X)", _WORK.format("SAVE Q\nQ = V"), "P keeps Q from one run to the next (SAVE)")

    def test_a_value_in_data_is_saved(self) -> None:
        self.refused("CALL P(A(I), X)", _WORK.format("DATA Q /1.0/\nQ = V"), "P keeps Q")

    def test_save_by_equivalence(self) -> None:
        self.refused("CALL P(A(I), X)", _WORK.format("SAVE R\nEQUIVALENCE (R, Q)\nQ = V"), "P keeps Q")

    def test_what_is_saved_and_only_read(self) -> None:
        self.assertEqual(len(self.body("CALL P(A(I), X)", _WORK.format("DATA Q /1.0/\nV = Q"))), 3)

    def test_trouble_in_a_further_procedure(self) -> None:
        procedures = _WORK.format("CALL Q") + "\nSUBROUTINE Q\nPRINT *, 1\nEND"
        words = "P calls what isn't known: Q does input or output: PRINT (line 13)"
        self.refused("CALL P(A(I), X)", procedures, words)

    def test_it_is_not_in_the_files(self) -> None:
        self.refused("CALL P(A(I), X)", "", "SUBROUTINE P isn't in the files; --with FILE names more")

    def test_it_is_there_twice(self) -> None:
        self.refused("CALL P(A(I), X)", _WORK.format("") + "\n" + _WORK.format("V = 1"), "more than once")

    def test_an_entry(self) -> None:
        self.refused("CALL Q(A(I))", _WORK.format("ENTRY Q(V)\nV = 1"), "Q is an ENTRY")
        self.refused("CALL P(A(I), X)", _WORK.format("W = 1\nENTRY Q(V)\nV = 1"), "ENTRY Q")

    def test_alternate_returns(self) -> None:
        procedure = "SUBROUTINE P(V, *)\nREAL V\nIF (V > 0) RETURN 1\nEND"
        loops = program(["DO I = 1, N", "CALL P(A(I), *10)", "B(I) = 1", "10 CONTINUE", "END DO"], procedure)
        found = loops.model()
        assert isinstance(found, Fault)
        self.assertIn("P may return to another place", found.words)

    def test_a_dummy_procedure(self) -> None:
        text = "\n".join(["SUBROUTINE S(P, A, N)", "REAL A(N)", "EXTERNAL P", *around("CALL P(A(I), X)"), "END"])
        found = Loops(text + "\n" + _WORK.format("V = 1") + "\n").model()
        assert isinstance(found, Fault)
        self.assertIn("P is a dummy argument", found.words)

    def test_an_undeclared_dummy_procedure(self) -> None:
        text = "\n".join(["SUBROUTINE S(P, A, N)", "REAL A(N)", *around("CALL P(A(I), X)"), "END"])
        found = Loops(text + "\n" + _WORK.format("V = 1") + "\n").model()
        assert isinstance(found, Fault)
        self.assertIn("P is a dummy argument", found.words)

    def test_a_procedure_as_an_argument(self) -> None:
        procedure = "SUBROUTINE P(F, V)\nREAL V\nV = F(V)\nEND\nREAL FUNCTION G(V)\nREAL V\nG = V\nEND"
        self.refused("CALL P(G, A(I))", procedure, "P", known=["EXTERNAL G"])
        unused = "SUBROUTINE P(F, V)\nREAL F, V\nV = 1\nEND\nREAL FUNCTION G(V)\nREAL V\nG = V\nEND"
        self.refused("CALL P(G, A(I))", unused, "P is given G, which is no variable", known=["EXTERNAL G"])

    def test_a_generic_name(self) -> None:
        known = ["INTERFACE P", "SUBROUTINE P1(V)", "REAL V", "END SUBROUTINE", "END INTERFACE"]
        procedures = "SUBROUTINE P1(V)\nREAL V\nV = 1\nEND\n" + _WORK.format("")
        self.assertEqual(self.body("CALL P(A(I))", procedures, known=known), ["IF (OPQ.NE.0) THEN", "A(I) = 1", "END IF"])

    def test_an_internal_procedure_comes_before_an_external_one(self) -> None:
        inner = "CONTAINS\n" + _WORK.format("V = 1") + " SUBROUTINE\nEND\n" + _WORK.format("PRINT *, V")
        text = "\n".join([*_HEAD, *_KNOWN, *around("CALL P(A(I), X)"), inner]) + "\n"
        self.assertIn("A(I) = 1", Loops(text).body())

    def test_external_comes_before_the_hosts_procedure(self) -> None:
        inner = (
            "CONTAINS\n" + _WORK.format("V = 1") + " SUBROUTINE\nSUBROUTINE R(A)\nREAL A(9)\nEXTERNAL P\n"
            "DO I = 1, 9\nCALL P(A(I), 1.0)\nEND DO\nEND SUBROUTINE\nEND\n" + _WORK.format("PRINT *, V"))
        found = Loops("\n".join([*_HEAD, *_KNOWN, inner]) + "\n").model()
        assert isinstance(found, Fault)
        self.assertIn("P does input or output", found.words)

    def test_a_module_that_is_missing_may_have_the_procedure(self) -> None:
        text = "\n".join([_HEAD[0], "USE ELSEWHERE", *_KNOWN, *around("CALL P(A(I), X)"), "END", _WORK.format("V = 1")])
        found = Loops(text + "\n").model()
        assert isinstance(found, Fault)
        self.assertIn("module ELSEWHERE isn't in the files, and may have it", found.words)

    def test_the_name_of_an_intrinsic_subroutine(self) -> None:
        self.refused("CALL FLUSH(K)", "SUBROUTINE FLUSH(K)\nEND", "FLUSH is the name of an intrinsic procedure")
        body = self.body("CALL FLUSH(K)", "SUBROUTINE FLUSH(K)\nEND", known=["EXTERNAL FLUSH"])
        self.assertEqual(body, [])

    def test_the_name_of_an_intrinsic_function(self) -> None:
        self.refused(
            "A(I) = SECOND(X)", "REAL FUNCTION SECOND(V)\nREAL V\nSECOND = V\nEND", "an intrinsic procedure", "function"
        )

    def test_a_structure_as_an_argument(self) -> None:
        known = ["TYPE Q", "REAL R", "END TYPE", "TYPE(Q) W(9)"]
        procedure = "SUBROUTINE P(V)\nTYPE Q\nREAL R\nEND TYPE\nTYPE(Q) V\nV%R = 1\nEND"
        self.refused("CALL P(W(I))", procedure, "is given W(I), which may be of another type", known=known)

    def test_pointers_and_allocatables(self) -> None:
        for word in ("POINTER", "ALLOCATABLE", "TARGET"):
            procedure = f"SUBROUTINE P(V)\nREAL, {word} :: V(:)\nV(1) = 1\nEND"
            self.refused("CALL P(A)", procedure, f"P has a dummy argument V that is {word}")

    def test_a_directive_in_the_body(self) -> None:
        self.refused("CALL P(A(I), X)", _WORK.format("!$OMP ATOMIC\nV = V + 1"), "P has a line that may change it")
        self.refused("CALL P(A(I), X)", _WORK.format("!$ V = 1"), "P has a line that may change it")

    def test_a_conditional_line_in_the_host(self) -> None:
        module = "MODULE MO\n!$ SAVE\nCONTAINS\n" + _WORK.format("V = 1") + " SUBROUTINE\nEND MODULE\n"
        text = module + "SUBROUTINE S(A, N)\nUSE MO\nREAL A(N)\nDO I = 1, N\nCALL P(A(I), 1.0)\nEND DO\nEND\n"
        found = Loops(text).model()
        assert isinstance(found, Fault)
        self.assertIn("P is in MO, which has a line with !$", found.words)

    def test_a_macro_before_the_body(self) -> None:
        text = "\n".join([*_HEAD, *_KNOWN, *around("CALL P(A(I), X)"), "END", "#define V W", _WORK.format("V = 1")])
        found = Loops(text + "\n").model()
        assert isinstance(found, Fault)
        self.assertIn("#define V W", found.words)

    def test_an_unreadable_line(self) -> None:
        self.refused("CALL P(A(I), X)", _WORK.format("V ="), "P isn't understood")

    def test_an_open_jump(self) -> None:
        self.refused("CALL P(A(I), X)", _WORK.format("GO TO 10"), "P jumps to a place that isn't there")

    def test_other_constructs(self) -> None:
        for lines in ("ASSOCIATE (Q => V)\nQ = 1\nEND ASSOCIATE", "BLOCK\nREAL Q\nQ = V\nEND BLOCK"):
            self.refused("CALL P(A(I), X)", _WORK.format(lines), "P isn't understood: associate")

    def test_a_function_as_a_subroutine(self) -> None:
        self.refused("CALL P(A(I))", "REAL FUNCTION P(V)\nREAL V\nP = V\nEND", "isn't used as one")


class Arguments(Case):
    """Arguments that don't fit."""

    def test_another_number(self) -> None:
        self.refused("CALL P(A(I))", _WORK.format("V = 1"), "P isn't given its argument W")
        self.refused("CALL P(A(I), X, Y)", _WORK.format("V = 1"), "P takes 2 arguments, and not these")

    def test_another_type(self) -> None:
        self.refused("CALL P(IX(I), X)", _WORK.format("V = 1"), "P takes V for REAL(4), and IX(I) is INTEGER(4)")

    def test_another_kind(self) -> None:
        self.refused("CALL P(D, X)", _WORK.format("V = 1"), "D is REAL(8)", known=["DOUBLE PRECISION D"])

    def test_a_scalar_for_an_array(self) -> None:
        self.refused("CALL P(X, I)", _ARRAY.format("*", "V(J) = 0"), "P takes V for an array, and X is none")

    def test_a_constant_that_is_assigned(self) -> None:
        self.refused("CALL P(1.0, X)", _WORK.format("V = 1"), "P may assign its argument V, and 1.0 is no variable")

    def test_an_expression_that_is_assigned(self) -> None:
        self.refused("CALL P((T), X)", _WORK.format("V = 1"), "is no variable")

    def test_a_named_constant_that_is_assigned(self) -> None:
        self.refused("CALL P(Q, X)", _WORK.format("V = 1"), "Q is no variable", known=["REAL, PARAMETER :: Q = 1"])

    def test_a_do_variable_that_is_assigned(self) -> None:
        self.refused("CALL P(I)", "SUBROUTINE P(J)\nJ = 1\nEND", "I counts a DO, and is assigned in it", "index")

    def test_a_do_variable_that_may_be_assigned(self) -> None:
        """A4: where a procedure assigns it on a condition, the condition doesn't hold."""
        procedure = "SUBROUTINE P(J, V)\nREAL V\nIF (V > 9) J = 1\nV = 0\nEND"
        self.assertEqual(self.body("CALL P(I, A(I))", procedure), [
            "IF (A(I).NE.0) THEN", "END IF", "IF (OPQ.NE.0) THEN", "A(I) = 1", "END IF",
        ])
        self.assertIn("A4", self.model("CALL P(I, A(I))", procedure).assumes)

    def test_a_scalar_that_is_given_twice(self) -> None:
        self.refused("CALL P(T, T)", _WORK.format("V = W"), "P has two names for T, and assigns it")
        self.assertEqual(self.body("CALL P(X, X)", _WORK.format("IF (V > W) RETURN")), ["IF (X.NE.0) THEN", "END IF"])

    def test_a_scalar_that_the_procedure_has_already(self) -> None:
        procedure = _SHARING.format("COMMON /Q/ G\nV = G")
        self.refused("CALL P(G, K)", procedure, "P has two names for G, and assigns it", known=["COMMON /Q/ G"])

    def test_an_index_that_the_procedure_changes_by_another_name(self) -> None:
        procedure = "SUBROUTINE P(V, J)\nREAL V(*)\nCOMMON /Q/ JJ\nJJ = JJ + 1\nV(J) = 0\nEND"
        self.refused("CALL P(A, KK)", procedure, "P has two names for KK", known=["COMMON /Q/ KK"])

    def test_an_array_that_is_given_twice_cites_a_rule(self) -> None:
        model = self.model("CALL P(E(I), E(I+1))", _WORK.format("V = W"), known=["REAL E(99)"])
        self.assertIn("A1", model.assumes)

    def test_keywords(self) -> None:
        module = (
            "MODULE MO\nCONTAINS\nSUBROUTINE P(V, W)\nREAL V\nREAL, OPTIONAL :: W\nV = 1\nEND SUBROUTINE\nEND MODULE\n")
        head = "SUBROUTINE S(A, N)\nUSE MO\nREAL A(N), T\nDO I = 1, N\nCALL P({})\nEND DO\nEND\n"
        for words in ("V=A(I)", "A(I)", "W=1.0, V=A(I)"):
            self.assertIn("A(I) = 1", Loops(module + head.format(words)).body(), words)
        found = Loops(module + head.format("W=1.0")).model()
        assert isinstance(found, Fault)
        self.assertIn("P isn't given its argument V", found.words)

    def test_keywords_without_a_known_interface(self) -> None:
        self.refused("CALL P(V=A(I), W=X)", _WORK.format("V = 1"), "by keyword")

    def test_optional_and_assumed_shape_need_an_interface(self) -> None:
        procedure = "SUBROUTINE P(V)\nREAL V(:)\nV(1) = 1\nEND"
        self.refused("CALL P(A)", procedure, "that only an INTERFACE explains")
        known = ["INTERFACE", "SUBROUTINE P(V)", "REAL V(:)", "END SUBROUTINE", "END INTERFACE"]
        self.assertIn("A(1) = 1", self.body("CALL P(A)", procedure, known=known))

    def test_a_character_of_another_length(self) -> None:
        procedure = "SUBROUTINE P(V)\nCHARACTER*{} V\nV = 'A'\nEND"
        self.refused("CALL P(W)", procedure.format("5"), "another length", known=["CHARACTER*9 W"])
        self.assertEqual(self.body("CALL P(W)", procedure.format("(*)"), known=["CHARACTER*9 W"]), ["W = 1"])

    def test_a_part_of_a_character_is_not_all(self) -> None:
        """With an interface a dummy may be shorter than its argument."""
        module = "MODULE MO\nCONTAINS\nSUBROUTINE P(V)\nCHARACTER(2) V\nV = 'AB'\nEND SUBROUTINE\nEND MODULE\n"
        text = module + "SUBROUTINE S(N)\nUSE MO\nCHARACTER(9) W\nDO I = 1, N\nCALL P(W)\nEND DO\nEND\n"
        self.assertEqual(Loops(text).body()[1:-1], ["IF (OPQ.NE.0) THEN", "W = 1", "END IF"])


class Functions(Case):
    """Functions whose bodies are there."""

    _SQUARE = "REAL FUNCTION F(V)\nREAL V\nF = V*V\nEND"
    _WRITING = "REAL FUNCTION F(V)\nREAL V\nV = V + 1\nF = V\nEND"

    def test_it_reads(self) -> None:
        self.assertEqual(self.body("B(I) = F(A(I)) + X", self._SQUARE), ["B(I) = A(I)+X"])

    def test_a_sum_of_its_values(self) -> None:
        loops = program(["X = 0", *around("X = X + F(A(I))")], self._SQUARE)
        self.assertEqual(loops.verdicts()[0].clauses.reductions, (("+", "X"),))

    def test_a_sum_of_values_of_another_type(self) -> None:
        """What it gathers so far is cut off at each step."""
        loops = program(["K = 0", *around("K = K + F(A(I))")], self._SQUARE)
        self.assertEqual(loops.verdicts()[0].word, "carried")

    def test_a_sum_with_a_function_that_writes(self) -> None:
        loops = program(["X = 0", *around("X = X + F(Y)")], self._WRITING)
        self.assertEqual([one.name for one in loops.verdicts()[0].carried], ["X", "Y"])

    def test_another_type_than_the_unit_thinks(self) -> None:
        """K would be a sum if F were INTEGER here, as it is there."""
        function = "INTEGER FUNCTION F(V)\nREAL V\nF = V\nEND"
        self.refused("K = K + F(A(I))", function, "F is REAL(4) here, and INTEGER(4) itself", "function")

    def test_it_writes(self) -> None:
        body = self.body("B(I) = F(T)", self._WRITING)
        self.assertEqual(body, ["IF (T.NE.0) THEN", "END IF", "IF (OPQ.NE.0) THEN", "T = 1", "END IF", "B(I) = 1"])

    def test_it_writes_for_certain_and_may_be_left_out(self) -> None:
        """A compiler needn't evaluate a function whose value isn't needed."""
        writing = "REAL FUNCTION F(V)\nREAL V\nV = 1\nF = 2\nEND"
        self.assertIn("IF (OPQ.NE.0) THEN", self.body("B(I) = F(T)", writing))
        lines = ["DO I = 1, N", "T = A(I)", "B(I) = T", "END DO", "Y = X*F(T)", "X = T"]
        self.assertEqual(program(lines, writing).verdicts()[0].clauses.last, ("T",))

    def test_it_writes_in_a_condition(self) -> None:
        words = "a function may assign T, and isn't in an assignment"
        self.refused("IF (F(T) > 0) B(I) = 1", self._WRITING, words, "function")
        lines = ["DO I = 1, N", "IF (F(T) > 0) THEN", "B(I) = 1", "END IF", "END DO"]
        found = program(lines, self._WRITING).model()
        assert isinstance(found, Fault)
        self.assertEqual((found.reason, found.line), ("function", 5))

    def test_it_writes_in_a_header(self) -> None:
        lines = ["DO I = 1, N", "DO J = 1, INT(F(T))", "C(I,J) = 1", "END DO", "END DO"]
        found = program(lines, self._WRITING).model()
        assert isinstance(found, Fault)
        self.assertEqual((found.reason, found.line), ("function", 5))

    def test_its_value_is_no_constant_of_the_loop(self) -> None:
        function = "INTEGER FUNCTION NF(J)\nCOMMON /Q/ KK\nNF = J + KK\nEND"
        self.assertEqual(self.body("A(NF(K)) = 1", function), ["A(OPQ*OPQ) = 1"])

    def test_it_is_no_increment(self) -> None:
        function = "INTEGER FUNCTION NF(J)\nNF = J\nEND"
        loops = program(["DO I = 1, N", "K = K + NF(2)", "A(K) = 1", "END DO"], function)
        loops.granted = loops.granted | {"A8"}
        self.assertEqual([one.name for one in loops.verdicts()[0].carried], ["A", "K"])

    def test_a_statement_function_with_its_name(self) -> None:
        body = self.body("B(I) = F(A(I))", "REAL FUNCTION F(V)\nREAL V\nPRINT *, V\nF = V\nEND", known=["F(Q) = Q*X"])
        self.assertEqual(body, ["B(I) = A(I)+X"])

    def test_a_function_without_arguments(self) -> None:
        self.assertEqual(self.body("B(I) = F()", "REAL FUNCTION F()\nF = 1\nEND"), ["B(I) = 1"])

    def test_a_function_that_prints(self) -> None:
        function = "REAL FUNCTION F(V)\nREAL V\nPRINT *, V\nF = V\nEND"
        self.refused("B(I) = F(X)", function, "F does input or output", "function")

    def test_functions_in_arguments(self) -> None:
        procedures = _WORK.format("V = W") + "\n" + self._SQUARE
        self.assertEqual(self.body("CALL P(A(I), F(X))", procedures)[:2], ["IF (X.NE.0) THEN", "END IF"])


class Circles(Case):
    """Procedures that call themselves, or one another."""

    def test_a_procedure_that_calls_itself(self) -> None:
        procedure = "RECURSIVE SUBROUTINE P(V, J)\nREAL V\nINTEGER J\nJ = J - 1\nIF (J > 0) CALL P(V, J)\nEND"
        body = self.body("CALL P(A(I), K)", procedure)
        self.assertEqual([line for line in body if " = " in line], ["A(I) = 1", "K = 1"])
        self.assertIn("IF (A(I)+K.NE.0) THEN", body)

    def test_what_it_assigns_for_certain_is_not_believed(self) -> None:
        procedure = "RECURSIVE SUBROUTINE P(V, W)\nREAL V, W\nV = 1\nIF (W > 0) CALL P(V, W)\nEND"
        self.assertEqual(self.body("CALL P(T, X)", procedure)[2:5], ["IF (OPQ.NE.0) THEN", "T = 1", "END IF"])

    def test_intent_in_holds_in_a_circle(self) -> None:
        function = (
            "RECURSIVE INTEGER FUNCTION NF(J) RESULT(R)\nINTEGER, INTENT(IN) :: J\nR = J\n"
            "IF (J > 1) R = NF(J/2)\nEND")
        self.assertEqual(self.body("IX(I) = NF(I)", function, known=["INTEGER NF"]), ["IX(I) = 1"])

    def test_a_circle_of_two_with_a_common_block(self) -> None:
        procedures = (
            "SUBROUTINE P(V)\nREAL V\nIF (V > 0) CALL Q(V)\nEND\n"
            "SUBROUTINE Q(V)\nREAL V\nCOMMON /QQ/ G\nG = V\nIF (V > 1) CALL P(V)\nEND")
        loops = program(around("CALL P(A(I))"), procedures)
        self.assertEqual([one.name for one in loops.verdicts()[0].carried], ["/QQ/"])

    def test_a_circle_with_output(self) -> None:
        procedures = (
            "SUBROUTINE P(V)\nREAL V\nIF (V > 0) CALL Q(V)\nEND\n"
            "SUBROUTINE Q(V)\nREAL V\nPRINT *, V\nIF (V > 1) CALL P(V)\nEND")
        self.refused("CALL P(A(I))", procedures, "Q does input or output")


class Interfaces(Case):
    """Procedures of which only an INTERFACE is there."""

    def known(self, prefix: str, intent: str = ", INTENT(IN)") -> List[str]:
        """An INTERFACE of a subroutine and of a function."""
        return [
            "INTERFACE", f"{prefix} SUBROUTINE P(V, W)", f"REAL{intent} :: W", "REAL, INTENT(OUT) :: V",
            "END SUBROUTINE", f"{prefix} REAL FUNCTION F(V)", "REAL, INTENT(IN) :: V", "END FUNCTION", "END INTERFACE",
        ]

    def test_intent(self) -> None:
        body = self.body("CALL P(A(I), B(I))", "", known=self.known("PURE"))
        self.assertEqual(body, ["IF (A(I)+B(I).NE.0) THEN", "END IF", "IF (OPQ.NE.0) THEN", "A(I) = 1", "END IF"])
        self.assertIn("A10", self.model("CALL P(A(I), B(I))", "", known=self.known("PURE")).assumes)

    def test_a_function(self) -> None:
        self.assertEqual(self.body("B(I) = F(A(I))", "", known=self.known("ELEMENTAL")), ["B(I) = A(I)"])

    def test_without_pure_nothing_is_known(self) -> None:
        self.refused("CALL P(A(I), B(I))", "", "P isn't in the files", known=self.known(""))
        self.refused("CALL P(A(I), B(I))", "", "P isn't in the files", known=self.known("IMPURE ELEMENTAL"))

    def test_it_may_read_what_the_loop_shares(self) -> None:
        known = [*self.known("PURE"), "COMMON /Q/ G(9)"]
        self.refused("G(I) = F(A(I))", "", "may read G, which the loop assigns", known=known)

    def test_what_it_may_read_is_needed(self) -> None:
        """The procedure after the loop may read G, so G has a last value."""
        lines = ["DO I = 1, N", "G = A(I)", "B(I) = G*G", "END DO", "CALL P(X, Y)", "G = 0"]
        loops = program(lines, "", [*self.known("PURE"), "COMMON /Q/ G"])
        self.assertEqual(loops.verdicts()[0].clauses.last, ("G",))

    def test_it_may_not_be_denied(self) -> None:
        loops = program(around("CALL P(A(I), B(I))"), "", self.known("PURE"))
        loops.granted = loops.granted - {"A10"}
        self.assertEqual([one.refusal.reason for one in loops.verdicts() if one.refusal], ["assumption"])


class OtherFiles(unittest.TestCase):
    """Bodies in further files."""

    def test_a_body_elsewhere(self) -> None:
        first = program(around("CALL P(A(I), X)"), "")
        other = Loops(_WORK.format("V = W") + "\n", "other.f90")
        scopes = Scopes([*first.file.all_units(), *other.file.all_units()])
        first.places = places_of(first.file, scopes, [other.file])
        self.assertIn("A(I) = 1", first.body())

    def test_lines_elsewhere_have_the_name_of_their_file(self) -> None:
        first = program(around("CALL P(A(I), X)"), "")
        other = Loops(_WORK.format("PRINT *, V") + "\n", "other.f90")
        scopes = Scopes([*first.file.all_units(), *other.file.all_units()])
        first.places = places_of(first.file, scopes, [other.file])
        found = first.model()
        assert isinstance(found, Fault)
        self.assertEqual((found.line, found.words), (5, "P does input or output: PRINT (line 3 of other.f90)"))


if __name__ == "__main__":
    unittest.main()
